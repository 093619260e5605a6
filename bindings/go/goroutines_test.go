package dadofennel_test

import (
	"encoding/binary"
	"errors"
	"runtime"
	"strings"
	"sync"
	"testing"

	. "dadofennel.example/dadofennel"
)

// Many goroutines search with one automaton, each in texts of its own.
func TestGoroutines(t *testing.T) {
	ac := built(t, []string{"fox", "ox", "brown"})
	var group sync.WaitGroup
	for i := 0; i < 16; i++ {
		group.Add(1)
		go func(i int) {
			defer group.Done()
			text := strings.Repeat("a", i) + strings.Repeat(" a brown fox", 400)
			for round := 0; round < 20; round++ {
				all, err := ac.FindAllString(text)
				if err != nil || len(all) != 800 || all[1] != (Match{0, i + 9, i + 12}) {
					t.Errorf("%d: %d matches, %v", i, len(all), err)
				}
				replaced, err := ac.ReplaceAllString(text, []string{"F", "O", "B"})
				if err != nil || replaced != strings.Repeat("a", i)+strings.Repeat(" a B F", 400) {
					t.Errorf("%d: %v", i, err)
				}
				if m, ok := ac.FindString(text); !ok || m != (Match{2, i + 3, i + 8}) {
					t.Errorf("%d: %v", i, m)
				}
			}
		}(i)
	}
	group.Wait()
}

// An automaton is closed while goroutines search: each search ends as it would, or with ErrClosed, and none after Close does anything
// else.
func TestCloseMeanwhile(t *testing.T) {
	text := strings.Repeat("a brown fox ", 2000)
	for round := 0; round < 50; round++ {
		ac := built(t, []string{"fox", "brown"})
		var group, begun sync.WaitGroup
		begun.Add(4)
		for i := 0; i < 4; i++ {
			group.Add(1)
			go func() {
				defer group.Done()
				begun.Done()
				for {
					all, err := ac.FindAllString(text)
					if errors.Is(err, ErrClosed) {
						return
					}
					if err != nil || len(all) != 4000 {
						t.Errorf("%d matches, %v", len(all), err)
						return
					}
				}
			}()
		}
		begun.Wait()
		for i := 0; i < 3; i++ {
			group.Add(1)
			go func() { ac.Close(); group.Done() }()
		}
		group.Wait()
	}
}

// An Iter ends where its automaton is closed.
func TestClosedIter(t *testing.T) {
	ac := built(t, []string{"a"})
	it := ac.MatchesString(strings.Repeat("a", 100))
	equal(t, "Next", true, it.Next())
	ac.Close()
	count := 1
	for it.Next() {
		count++
	}
	equal(t, "the first batch", 16, count)
	wantError(t, "Err", ErrClosed, it.Err())
	_, err := it.All()
	wantError(t, "All", ErrClosed, err)
}

// What lay in memory that C gives again may look like pointers of Go, to objects that are gone. The collector must not meet them.
func TestUsedMemory(t *testing.T) {
	used := make([]byte, 64<<10)
	for at := 0; at < len(used); at += 8 {
		// the heap of Go begins there, on most systems
		binary.LittleEndian.PutUint64(used[at:], 0xc000000000+uint64(at)*2)
	}
	short := make([][]byte, len(used)/20)
	for i := range short {
		short[i] = used[:1]
	}
	ac := built(t, []string{"a"})
	ended := make(chan bool)
	go func() {
		for i := 0; i < 30; i++ {
			runtime.GC()
		}
		close(ended)
	}()
	for {
		select {
		case <-ended:
			return
		default:
		}
		// refused before anything is built, so the same memory is taken again
		for _, patterns := range [][][]byte{{used}, short} {
			_, err := New(patterns, WithKind(7))
			wantError(t, "New", ErrBadKind, err)
		}
		wantError(t, "FindAll", nil, last(ac.Matches(used)))
	}
}
