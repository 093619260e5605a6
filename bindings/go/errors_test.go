package dadofennel_test

import (
	"bytes"
	"errors"
	"io"
	"math"
	"runtime"
	"strings"
	"testing"

	. "dadofennel.example/dadofennel"
)

func wantError(t *testing.T, what string, wanted, got error) {
	t.Helper()
	if !errors.Is(got, wanted) {
		t.Errorf("%s: wanted the error %v, got %v", what, wanted, got)
	}
}

func TestBuildErrors(t *testing.T) {
	rows := []struct {
		options []Option
		wanted  Status
		at      byte
		text    string
	}{
		{[]Option{WithKind(3)}, ErrBadKind, 0, "no such kind"},
		{[]Option{WithStartKind(3)}, ErrBadStartKind, 0, "no such start kind"},
		{[]Option{WithEngine(4)}, ErrBadEngine, 0, "no such engine"},
		{[]Option{WithPairs([2]byte{'x', 'x'})}, ErrBadPairs, 'x', "byte 0x78"},
		{[]Option{WithPairs([2]byte{0, 1}), WithPairs([2]byte{2, 0})}, ErrBadPairs, 0, "byte 0x00"},
		{[]Option{WithPairs([2]byte{'x', 'y'}), WithFold()}, ErrBadPairs, 0, "pairs are given beside folding"},
	}
	for _, row := range rows {
		ac, err := NewStrings([]string{"a"}, row.options...)
		wantError(t, "New", row.wanted, err)
		var fault *BuildError
		if ac != nil || !errors.As(err, &fault) {
			t.Fatalf("%v: %v, %v", row.wanted, ac, err)
		}
		equal(t, "Status", row.wanted, fault.Status)
		equal(t, "Byte", row.at, fault.Byte)
		if !strings.HasPrefix(err.Error(), "dadofennel: ") || !strings.Contains(err.Error(), row.text) {
			t.Errorf("%q lacks %q", err, row.text)
		}
	}
	long := &BuildError{Status: ErrPatternTooLong, Pattern: 7, Count: 3000000000}
	if !strings.HasSuffix(long.Error(), ": pattern 7 has 3000000000 bytes") {
		t.Error(long)
	}
	equal(t, "Is", false, errors.Is(long, ErrNoMemory))
}

// Each status has a text of its own.
func TestStatusTexts(t *testing.T) {
	seen := map[string]Status{}
	for _, status := range []Status{
		ErrClosed, ErrNoMemory, ErrTooManyStates, ErrTooManyPatterns, ErrPatternTooLong, ErrBadKind, ErrBadStartKind, ErrBadEngine,
		ErrBadPairs, ErrNotAnchored, ErrNotUnanchored, ErrNotStandard, ErrBadSpan, ErrWrongCount, ErrBadPattern, ErrEmptyPattern,
		ErrFinished, ErrTooManyBytes,
	} {
		text := status.Error()
		if other, is := seen[text]; is || len(text) < 20 {
			t.Errorf("%d and %d: %q", status, other, text)
		}
		seen[text] = status
	}
}

func TestSpanErrors(t *testing.T) {
	ac := built(t, []string{"a", ""})
	text := []byte("aaa")
	for _, span := range []Span{{0, 4, false, false}, {3, 1, false, false}, {-1, 3, false, false}, {0, -1, false, false}, {-2, -1, false, false}} {
		_, ok, err := ac.FindIn(text, span)
		equal(t, "FindIn", false, ok)
		wantError(t, "FindIn", ErrBadSpan, err)
		it := ac.MatchesIn(text, span)
		equal(t, "Next", false, it.Next())
		wantError(t, "MatchesIn", ErrBadSpan, it.Err())
	}
	for _, start := range []int{2, 4} {
		_, ok, err := ac.FindIn(text, Span{Start: start, End: 3})
		equal(t, "FindIn", start == 2, ok)
		wantError(t, "FindIn", nil, err)
	}
	_, _, err := ac.FindIn(text, Span{End: 3, Anchored: true})
	wantError(t, "FindIn", ErrNotAnchored, err)
	wantError(t, "MatchesIn", ErrNotAnchored, last(ac.MatchesIn(text, Span{End: 3, Anchored: true})))
}

func last(it *Iter) error {
	for it.Next() {
	}
	return it.Err()
}

func TestPatternLen(t *testing.T) {
	ac := built(t, []string{"a", ""})
	for number, wanted := range map[int]error{-1: ErrBadPattern, 0: nil, 1: nil, 2: ErrBadPattern, math.MaxInt: ErrBadPattern} {
		_, err := ac.PatternLen(number)
		wantError(t, "PatternLen", wanted, err)
	}
}

// Every call that an automaton refuses, with its error.
func refusals(t *testing.T, ac *Automaton, wanted map[string]error) {
	t.Helper()
	text := []byte("a text")
	list := make([][]byte, ac.Len())
	results := map[string]func() error{
		"FindAll":         func() error { _, err := ac.FindAll(text); return err },
		"FindIn":          func() error { _, _, err := ac.FindIn(text, Span{End: 3}); return err },
		"Matches":         func() error { return last(ac.Matches(text)) },
		"ReplaceAll":      func() error { _, err := ac.ReplaceAll(text, list); return err },
		"Overlapping":     func() error { return last(ac.Overlapping(text)) },
		"Words":           func() error { return last(ac.Words(text, LeftmostFirst)) },
		"AllWords":        func() error { return last(ac.AllWords(text)) },
		"ReplaceWords":    func() error { _, err := ac.ReplaceWords(text, Standard, list); return err },
		"Mask":            func() error { _, err := ac.Mask(text, '*'); return err },
		"MaskInPlace":     func() error { return ac.MaskInPlace(text, '*') },
		"MaskString":      func() error { _, err := ac.MaskString("a text", '*'); return err },
		"MaskWords":       func() error { _, err := ac.MaskWords(text, '*'); return err },
		"Stream":          func() error { _, err := ac.Stream(); return err },
		"FindReader":      func() error { s := ac.FindReader(bytes.NewReader(text)); s.Next(); return s.Err() },
		"WordStream":      func() error { _, err := ac.WordStream(Standard); return err },
		"NewReplacer":     func() error { _, err := ac.NewReplacer(io.Discard, list); return err },
		"NewReplacerFunc": func() error { _, err := ac.NewReplacerFunc(io.Discard, nil); return err },
		"NewWordReplacer": func() error { _, err := ac.NewWordReplacer(io.Discard, Standard, list); return err },
		"NewMasker":       func() error { _, err := ac.NewMasker(io.Discard, '*'); return err },
	}
	for call, do := range results {
		wantError(t, call, wanted[call], do())
	}
	for call := range wanted {
		if results[call] == nil {
			t.Errorf("there is no call %s", call)
		}
	}
	equal(t, "the text", "a text", strings.ReplaceAll(string(text), "*", "a"))
}

func TestRefusals(t *testing.T) {
	all := func(status Status) map[string]error {
		wanted := map[string]error{}
		for _, call := range strings.Fields("FindAll FindIn Matches ReplaceAll Overlapping Words AllWords ReplaceWords Mask MaskInPlace " +
			"MaskString MaskWords Stream FindReader WordStream NewReplacer NewReplacerFunc NewWordReplacer NewMasker") {
			wanted[call] = status
		}
		return wanted
	}
	only := func(status Status, calls string) map[string]error {
		wanted := map[string]error{}
		for _, call := range strings.Fields(calls) {
			wanted[call] = status
		}
		return wanted
	}
	refusals(t, built(t, []string{"a"}), nil)
	refusals(t, built(t, []string{"a"}, WithStartKind(Anchored)), all(ErrNotUnanchored))
	refusals(t, built(t, []string{"a"}, WithKind(LeftmostFirst)),
		only(ErrNotStandard, "Overlapping Words AllWords ReplaceWords Mask MaskInPlace MaskString MaskWords WordStream NewWordReplacer NewMasker"))
	refusals(t, built(t, []string{"a", ""}),
		only(ErrEmptyPattern, "Words AllWords ReplaceWords Stream FindReader WordStream NewReplacer NewReplacerFunc NewWordReplacer NewMasker"))
	closed := built(t, []string{"a"})
	equal(t, "Close", nil, closed.Close())
	equal(t, "Close", nil, closed.Close())
	refusals(t, closed, all(ErrClosed))
	_, err := closed.PatternLen(0)
	wantError(t, "PatternLen", ErrClosed, err)
}

// What has no error among its results panics with it.
func TestPanics(t *testing.T) {
	closed := built(t, []string{"a"})
	closed.Close()
	rows := []struct {
		ac     *Automaton
		wanted Status
	}{{closed, ErrClosed}, {built(t, []string{"a"}, WithStartKind(Anchored)), ErrNotUnanchored}}
	for _, row := range rows {
		calls := map[string]func(){
			"Find":          func() { row.ac.Find([]byte("a")) },
			"FindString":    func() { row.ac.FindString("a") },
			"IsMatch":       func() { row.ac.IsMatch([]byte("a")) },
			"IsMatchString": func() { row.ac.IsMatchString("a") },
		}
		for call, do := range calls {
			func() {
				defer func() { equal(t, call, any(row.wanted), recover()) }()
				do()
			}()
		}
	}
}

func TestWrongCounts(t *testing.T) {
	ac := built(t, []string{"a", "b"})
	for _, count := range []int{0, 1, 3} {
		list, strings := make([][]byte, count), make([]string, count)
		_, err := ac.ReplaceAll([]byte("ab"), list)
		wantError(t, "ReplaceAll", ErrWrongCount, err)
		_, err = ac.ReplaceAllString("ab", strings)
		wantError(t, "ReplaceAllString", ErrWrongCount, err)
		_, err = ac.ReplaceWords([]byte("ab"), Standard, list)
		wantError(t, "ReplaceWords", ErrWrongCount, err)
		_, err = ac.ReplaceWordsString("ab", Standard, strings)
		wantError(t, "ReplaceWordsString", ErrWrongCount, err)
		_, err = ac.NewReplacer(io.Discard, list)
		wantError(t, "NewReplacer", ErrWrongCount, err)
		_, err = ac.NewWordReplacer(io.Discard, Standard, list)
		wantError(t, "NewWordReplacer", ErrWrongCount, err)
		_, err = ac.NewReplacerStrings(io.Discard, strings)
		wantError(t, "NewReplacerStrings", ErrWrongCount, err)
	}
}

// A copy of an automaton is the same one, and it is freed once none is left; the zero value is closed.
func TestCopies(t *testing.T) {
	ac := built(t, []string{"a"})
	other := *ac
	equal(t, "Close", nil, other.Close())
	_, err := ac.FindAllString("a")
	wantError(t, "FindAll", ErrClosed, err)
	func() {
		defer func() { equal(t, "FindString", any(ErrClosed), recover()) }()
		ac.FindString("a")
	}()
	equal(t, "Close", nil, ac.Close())

	ac = built(t, []string{"a"})
	other, ac = *ac, nil
	for i := 0; i < 5; i++ {
		runtime.GC()
	}
	m, ok := other.FindString("ba")
	equal(t, "FindString", true, ok)
	equal(t, "FindString", Match{0, 1, 2}, m)

	var zero Automaton
	_, err = zero.FindAllString("a")
	wantError(t, "FindAll", ErrClosed, err)
	_, err = zero.Stream()
	wantError(t, "Stream", ErrClosed, err)
	_, err = zero.NewReplacer(io.Discard, nil)
	wantError(t, "NewReplacer", ErrClosed, err)
	equal(t, "Close", nil, zero.Close())
}

// A copy of what takes pieces is the same one, too.
func TestCopiesOfPieces(t *testing.T) {
	ac := built(t, []string{"a"})
	stream, _ := ac.Stream()
	replacer, _ := ac.NewReplacerStrings(io.Discard, []string{"b"})
	masker, _ := ac.NewMasker(io.Discard, '*')
	otherStream, otherReplacer, otherMasker := *stream, *replacer, *masker
	for _, other := range []io.Closer{&otherStream, &otherReplacer, &otherMasker} {
		equal(t, "Close", nil, other.Close())
	}
	for _, to := range []io.WriteCloser{stream, replacer, masker} {
		n, err := to.Write([]byte("a"))
		equal(t, "Write", 0, n)
		wantError(t, "Write", ErrFinished, err)
		wantError(t, "Close", ErrFinished, to.Close())
	}
}

func TestBadKinds(t *testing.T) {
	ac := built(t, []string{"a"})
	wantError(t, "Words", ErrBadKind, last(ac.WordsString("a", 3)))
	_, err := ac.ReplaceWordsString("a", 3, []string{"b"})
	wantError(t, "ReplaceWords", ErrBadKind, err)
	_, err = ac.NewWordReplacer(io.Discard, 3, [][]byte{nil})
	wantError(t, "NewWordReplacer", ErrBadKind, err)
	_, err = ac.WordStream(3)
	wantError(t, "WordStream", ErrBadKind, err)
	scanner := ac.FindWordsReader(strings.NewReader("a"), 3)
	equal(t, "Next", false, scanner.Next())
	wantError(t, "FindWordsReader", ErrBadKind, scanner.Err())
	equal(t, "Close", nil, scanner.Close())
}
