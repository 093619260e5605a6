package dadofennel_test

import (
	"bufio"
	"bytes"
	"errors"
	"fmt"
	"io"
	"os"
	"os/exec"
	"runtime"
	"strings"
	"syscall"
	"testing"
	"time"

	. "dadofennel.example/dadofennel"
)

// inStatus is how many kilobytes the process has: VmRSS in memory, VmSize of addresses.
func inStatus(t *testing.T, name string) int {
	file, err := os.Open("/proc/self/status")
	if err != nil {
		t.Skip(err)
	}
	defer file.Close()
	for lines := bufio.NewScanner(file); lines.Scan(); {
		var kb int
		if _, err := fmt.Sscanf(lines.Text(), name+": %d kB", &kb); err == nil {
			return kb
		}
	}
	t.Skip("no " + name)
	return 0
}

// What is closed, dropped, or closed while a search runs, doesn't stay in memory: forty automata of some megabytes, and what was made of
// them.
func TestMemoryIsFreed(t *testing.T) {
	var words []string
	for i := 0; i < 3000; i++ {
		words = append(words, fmt.Sprintf("%x", i*2654435761))
	}
	taken := 0
	build := func() *Automaton {
		ac := built(t, words, WithEngine(DFA))
		taken = ac.Memory()
		return ac
	}
	text := bytes.Repeat([]byte("0f1e2d"), 1<<16)
	ways := map[string]func(){
		"closed": func() {
			ac := build()
			for _, made := range pieces(ac, words) {
				made.Close()
			}
			ac.Close()
		},
		"dropped": func() {
			pieces(build(), words)
			// the finalizers run after a collection
			runtime.GC()
		},
		"closed while a search runs": func() {
			ac, begun, ended := build(), make(chan bool), make(chan bool)
			go func() {
				close(begun)
				for err := error(nil); err == nil; {
					err = last(ac.Matches(text))
				}
				close(ended)
			}()
			<-begun
			time.Sleep(time.Millisecond)
			ac.Close()
			<-ended
		},
	}
	for name, way := range ways {
		way()
		before := inStatus(t, "VmRSS")
		for i := 0; i < 40; i++ {
			way()
		}
		if more := inStatus(t, "VmRSS") - before; taken < 1<<20 || more > 10*taken>>10 {
			t.Errorf("%s: %d kB more, of forty automata of %d", name, more, taken>>10)
		}
	}
}

// pieces makes one of each for texts in pieces.
func pieces(ac *Automaton, words []string) []io.Closer {
	stream, _ := ac.Stream()
	replacer, _ := ac.NewReplacerStrings(io.Discard, words)
	masker, _ := ac.NewMasker(io.Discard, '*')
	return []io.Closer{stream, replacer, masker, ac.FindReader(strings.NewReader(""))}
}

const limited = "DADOFENNEL_TEST_LIMITED"

// Where C gets no memory, the error is ErrNoMemory, and what there was is still there. It is tried in a process of its own, which may
// take a few megabytes more than it has.
func TestNoMemory(t *testing.T) {
	if os.Getenv(limited) == "" {
		this := exec.Command(os.Args[0], "-test.run=^TestNoMemory$", "-test.v")
		this.Env = append(os.Environ(), limited+"=1")
		if said, err := this.CombinedOutput(); err != nil || !bytes.Contains(said, []byte("refused: 4")) {
			t.Errorf("%v: %s", err, said)
		}
		return
	}
	long := bytes.Repeat([]byte("a fox "), 64<<20/6)
	var words []string
	for i := 0; i < 10000; i++ {
		words = append(words, fmt.Sprintf("%x", i*2654435761))
	}
	ac := built(t, []string{"fox"})
	tries := []func() error{
		func() error { _, err := NewStrings(words, WithEngine(DFA), WithByteClasses(false)); return err },
		func() error { _, err := New([][]byte{long}); return err },
		func() error { return ac.MaskWordsInPlace(long, '*') },
		func() error { _, err := ac.NewReplacer(io.Discard, [][]byte{long}); return err },
	}
	limit := syscall.Rlimit{}
	if err := syscall.Getrlimit(syscall.RLIMIT_AS, &limit); err != nil {
		t.Skip(err)
	}
	runtime.GC()
	limit.Cur = uint64(inStatus(t, "VmSize")+4<<10) << 10
	if err := syscall.Setrlimit(syscall.RLIMIT_AS, &limit); err != nil {
		t.Skip(err)
	}
	refused := 0
	for i, try := range tries {
		if err := try(); errors.Is(err, ErrNoMemory) {
			refused++
		} else {
			t.Errorf("try %d: %v", i, err)
		}
	}
	if m, ok := ac.Find(long); !ok || m.Start != 2 {
		t.Error(m, ok)
	}
	fmt.Println("refused:", refused)
}
