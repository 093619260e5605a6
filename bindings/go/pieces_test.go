package dadofennel_test

import (
	"bytes"
	"errors"
	"io"
	"strings"
	"testing"
	"testing/iotest"

	. "dadofennel.example/dadofennel"
)

// What all calls make of a text under a kind.
type made struct {
	ac, standard               *Automaton // of the kind, and of the standard one
	kind                       Kind
	instead                    [][]byte
	matches, words             []Match
	replaced, wordwise, masked string
}

// A text in three pieces, cut at each two places, under each kind.
func TestCuts(t *testing.T) {
	patterns := []string{"app", "append", "appendage", "end", "d to"}
	text := "an append to the appendages, an app"
	known := dictionary{same: func(a, b byte) bool { return a == b }}
	var instead [][]byte
	for _, pattern := range patterns {
		known.patterns = append(known.patterns, []byte(pattern))
		instead = append(instead, []byte("<"+strings.ToUpper(pattern)+">"))
	}
	b, whole := []byte(text), Span{End: len(text)}
	for _, kind := range []Kind{Standard, LeftmostFirst, LeftmostLongest} {
		all := made{ac: built(t, patterns, WithKind(kind)), standard: built(t, patterns), kind: kind, instead: instead}
		all.matches, all.words = known.walk(b, whole, kind), known.words(b, kind)
		all.replaced = string(spliced(b, all.matches, instead))
		all.wordwise = string(spliced(b, all.words, instead))
		all.masked = string(covered(b, known.occurrences(b, whole), '*'))
		for one := 0; one <= len(text) && !t.Failed(); one++ {
			for two := one; two <= len(text); two++ {
				all.cut(t, []string{text[:one], text[one:two], text[two:]})
			}
		}
	}
}

func (m made) cut(t *testing.T, pieces []string) {
	stream, err := m.ac.Stream()
	equal(t, "Stream", nil, err)
	equal(t, "Stream", m.matches, pushed(t, stream, pieces))
	stream, err = m.standard.WordStream(m.kind)
	equal(t, "WordStream", nil, err)
	equal(t, "WordStream", m.words, pushed(t, stream, pieces))
	var out bytes.Buffer
	replacer, err := m.ac.NewReplacer(&out, m.instead)
	equal(t, "NewReplacer", nil, err)
	equal(t, "Replacer", m.replaced, wrote(t, replacer, pieces, &out))
	replacer, err = m.ac.NewReplacerFunc(&out, func(_ Match, match []byte) []byte {
		return []byte("<" + strings.ToUpper(string(match)) + ">")
	})
	equal(t, "NewReplacerFunc", nil, err)
	equal(t, "Replacer", m.replaced, wrote(t, replacer, pieces, &out))
	replacer, err = m.standard.NewWordReplacer(&out, m.kind, m.instead)
	equal(t, "NewWordReplacer", nil, err)
	equal(t, "NewWordReplacer", m.wordwise, wrote(t, replacer, pieces, &out))
	masker, err := m.standard.NewMasker(&out, '*')
	equal(t, "NewMasker", nil, err)
	equal(t, "Masker", m.masked, wrote(t, masker, pieces, &out))
}

func pushed(t *testing.T, stream *Stream, pieces []string) []Match {
	var all []Match
	for _, piece := range pieces {
		n, err := stream.WriteString(piece)
		equal(t, "WriteString", len(piece), n)
		equal(t, "WriteString", nil, err)
		for stream.Next() {
			all = append(all, stream.Match())
		}
	}
	equal(t, "Close", nil, stream.Close())
	for stream.Next() {
		all = append(all, stream.Match())
	}
	return all
}

type writer interface {
	io.WriteCloser
	io.StringWriter
}

// wrote writes the pieces, closes, and takes what came out.
func wrote(t *testing.T, to writer, pieces []string, out *bytes.Buffer) string {
	out.Reset()
	for _, piece := range pieces {
		n, err := to.WriteString(piece)
		equal(t, "WriteString", len(piece), n)
		equal(t, "WriteString", nil, err)
	}
	equal(t, "Close", nil, to.Close())
	return out.String()
}

// More text than the library holds at once, with more matches than a batch has and replacements longer than what is written at once.
func TestLongPieces(t *testing.T) {
	const count = 30000
	text := strings.Repeat("the fox. ", count)
	ac := built(t, []string{"fox", "the"})
	stream, err := ac.Stream()
	equal(t, "Stream", nil, err)
	all := pushed(t, stream, []string{text})
	equal(t, "Stream", 2*count, len(all))
	equal(t, "the last one", Match{Pattern: 0, Start: 9*count - 5, End: 9*count - 2}, all[2*count-1])
	var out bytes.Buffer
	long := strings.Repeat("vixen", 9000)
	replacer, err := ac.NewReplacerStrings(&out, []string{long, "a"})
	equal(t, "NewReplacer", nil, err)
	short := text[:9*300]
	if wrote(t, replacer, []string{short}, &out) != strings.Repeat("a "+long+". ", 300) {
		t.Error("long replacements")
	}
	replacer, err = ac.NewReplacerFunc(&out, func(m Match, match []byte) []byte { return []byte{match[0], '-'} })
	equal(t, "NewReplacerFunc", nil, err)
	if wrote(t, replacer, []string{text}, &out) != strings.Repeat("t- f-. ", count) {
		t.Error("a long text by a function")
	}
	masker, err := ac.NewMasker(&out, '*')
	equal(t, "NewMasker", nil, err)
	if wrote(t, masker, []string{text}, &out) != strings.Repeat("*** ***. ", count) {
		t.Error("a long masked text")
	}
}

// A pattern longer than the buffers.
func TestLongPattern(t *testing.T) {
	long := strings.Repeat("abcdefg", 20000)
	text := "x" + long + "y" + long + "z"
	ac := built(t, []string{long}, WithEngine(Contiguous))
	stream, err := ac.Stream()
	equal(t, "Stream", nil, err)
	n := len(long)
	wanted := []Match{{0, 1, n + 1}, {0, n + 2, 2*n + 2}}
	equal(t, "Stream", wanted, pushed(t, stream, []string{text[:99999], text[99999:]}))
	var out bytes.Buffer
	replacer, err := ac.NewReplacerStrings(&out, []string{"-"})
	equal(t, "NewReplacer", nil, err)
	equal(t, "Replacer", "x-y-z", wrote(t, replacer, []string{text[:99999], text[99999:]}, &out))
}

var errDevice = errors.New("the device")

// A failing writer takes some bytes, and then fails.
type failing struct {
	left int
	err  error
}

func (f *failing) Write(b []byte) (int, error) {
	if len(b) > f.left {
		return f.left, f.err
	}
	f.left -= len(b)
	return len(b), nil
}

func TestWriterErrors(t *testing.T) {
	ac := built(t, []string{"a"})
	for _, row := range []struct{ of, wanted error }{{errDevice, errDevice}, {nil, io.ErrShortWrite}} {
		replacer, err := ac.NewReplacerStrings(&failing{5, row.of}, []string{"b"})
		equal(t, "NewReplacer", nil, err)
		masker, err := ac.NewMasker(&failing{5, row.of}, '*')
		equal(t, "NewMasker", nil, err)
		for _, to := range []writer{replacer, masker} {
			n, err := to.WriteString("aaaaa")
			equal(t, "WriteString", 5, n)
			wantError(t, "WriteString", nil, err)
			_, err = to.WriteString("aaaaa")
			wantError(t, "WriteString", row.wanted, err)
			n, err = to.WriteString("a")
			equal(t, "WriteString", 0, n)
			wantError(t, "WriteString", row.wanted, err)
			wantError(t, "Close", row.wanted, to.Close())
			wantError(t, "Close", nil, to.Close())
		}
	}
	// the error comes at the end alone, with what was kept back
	replacer, err := built(t, []string{"ab"}).NewReplacerStrings(&failing{0, errDevice}, []string{"b"})
	equal(t, "NewReplacer", nil, err)
	_, err = replacer.WriteString("a")
	wantError(t, "WriteString", nil, err)
	wantError(t, "Close", errDevice, replacer.Close())
}

// A count is a writer's or a reader's of its own, whatever it was given.
type count int

func (n count) Write([]byte) (int, error) { return int(n), nil }
func (n count) Read([]byte) (int, error)  { return int(n), nil }

func TestBadCounts(t *testing.T) {
	ac := built(t, []string{"ab"})
	for _, n := range []count{-1, 5, 1 << 30} {
		replacer, _ := ac.NewReplacerStrings(n, []string{"b"})
		masker, _ := ac.NewMasker(n, '*')
		for _, to := range []writer{replacer, masker} {
			_, err := to.WriteString("abab")
			wantError(t, "WriteString", ErrBadCount, err)
			wantError(t, "Close", ErrBadCount, to.Close())
		}
	}
	for _, n := range []count{-1, 1 << 30} {
		scanner := ac.FindReader(n)
		equal(t, "Next", false, scanner.Next())
		wantError(t, "FindReader", ErrBadCount, scanner.Err())
	}
}

func TestFinished(t *testing.T) {
	ac := built(t, []string{"ab"})
	stream, _ := ac.Stream()
	replacer, _ := ac.NewReplacerStrings(io.Discard, []string{"b"})
	masker, _ := ac.NewMasker(io.Discard, '*')
	ac.Close()
	for _, to := range []writer{stream, replacer, masker} {
		n, err := to.WriteString("a")
		equal(t, "WriteString", 1, n)
		wantError(t, "WriteString", nil, err)
		for i := 0; i < 2; i++ {
			wantError(t, "Close", nil, to.Close())
			n, err = to.WriteString("b")
			equal(t, "WriteString", 0, n)
			wantError(t, "WriteString", ErrFinished, err)
		}
		n, err = to.Write(nil)
		equal(t, "Write", 0, n)
		wantError(t, "Write", ErrFinished, err)
	}
	equal(t, "Next", false, stream.Next())
}

// A reader's ways: one byte at once, half of what is asked for, the error with the last bytes, an error in the midst, nothing for ever.
func TestReaders(t *testing.T) {
	text := strings.Repeat("the fox ", 20000)
	ac := built(t, []string{"fox"})
	rows := []struct {
		name   string
		reader io.Reader
		count  int
		wanted error
	}{
		{"whole", strings.NewReader(text), 20000, nil},
		{"one byte", iotest.OneByteReader(strings.NewReader(text[:8000])), 1000, nil},
		{"half", iotest.HalfReader(strings.NewReader(text)), 20000, nil},
		{"the end with the bytes", iotest.DataErrReader(strings.NewReader(text)), 20000, nil},
		{"an error", io.MultiReader(strings.NewReader(text[:800]), iotest.ErrReader(errDevice)), 100, errDevice},
		{"an error with bytes", &withError{[]byte(text[:800])}, 100, errDevice},
		{"time out", iotest.TimeoutReader(iotest.OneByteReader(strings.NewReader(text))), 0, iotest.ErrTimeout},
		{"nothing", nothing{}, 0, io.ErrNoProgress},
		{"empty", strings.NewReader(""), 0, nil},
	}
	for _, row := range rows {
		scanner, count := ac.FindReader(row.reader), 0
		for scanner.Next() {
			equal(t, row.name, Match{0, 8*count + 4, 8*count + 7}, scanner.Match())
			count++
		}
		equal(t, row.name, row.count, count)
		wantError(t, row.name, row.wanted, scanner.Err())
		equal(t, row.name, false, scanner.Next())
		equal(t, row.name, nil, scanner.Close())
	}
	scanner := ac.FindReader(strings.NewReader(text))
	equal(t, "Next", true, scanner.Next())
	equal(t, "Close", nil, scanner.Close())
	equal(t, "Next", false, scanner.Next())
	equal(t, "Err", nil, scanner.Err())
}

type withError struct{ left []byte }

func (r *withError) Read(b []byte) (int, error) {
	n := copy(b, r.left)
	r.left = r.left[n:]
	return n, errDevice
}

type nothing struct{}

func (nothing) Read([]byte) (int, error) { return 0, nil }
