package dadofennel_test

import (
	"fmt"
	"reflect"
	"strings"
	"testing"

	. "dadofennel.example/dadofennel"
)

func built(t testing.TB, patterns []string, options ...Option) *Automaton {
	t.Helper()
	ac, err := NewStrings(patterns, options...)
	if err != nil {
		t.Fatal(err)
	}
	return ac
}

func equal(t *testing.T, what string, wanted, got any) {
	t.Helper()
	if !reflect.DeepEqual(wanted, got) {
		t.Errorf("%s: wanted %v, got %v", what, wanted, got)
	}
}

// Rows by hand: patterns, a text, and its matches under each kind, each as number, start and end.
func TestRows(t *testing.T) {
	rows := []struct {
		patterns                 []string
		text                     string
		options                  []Option
		standard, first, longest string
	}{
		{[]string{"fox", "brown"}, "a brown fox", nil, "1 2 7, 0 8 11", "1 2 7, 0 8 11", "1 2 7, 0 8 11"},
		{[]string{"abcd", "bc", "ab"}, "abcd", nil, "2 0 2", "0 0 4", "0 0 4"},
		{[]string{"ab", "abcd"}, "abcd", nil, "0 0 2", "0 0 2", "1 0 4"},
		{[]string{"b", "abc", "abcd"}, "abce", nil, "0 1 2", "1 0 3", "1 0 3"},
		{[]string{"a", "a"}, "aa", nil, "0 0 1, 0 1 2", "0 0 1, 0 1 2", "0 0 1, 0 1 2"},
		{[]string{"", "a"}, "ba", nil, "0 0 0, 0 1 1, 0 2 2", "0 0 0, 0 1 1, 0 2 2", "0 0 0, 1 1 2"},
		{[]string{""}, "", nil, "0 0 0", "0 0 0", "0 0 0"},
		{nil, "abc", nil, "", "", ""},
		{[]string{"Fox"}, "FOX fox", []Option{WithFold()}, "0 0 3, 0 4 7", "0 0 3, 0 4 7", "0 0 3, 0 4 7"},
		{[]string{"Ä"}, "ä Ä", []Option{WithFold()}, "0 3 5", "0 3 5", "0 3 5"},
		{[]string{"a0"}, "a1 a0 b0", []Option{WithPairs([2]byte{'0', '1'})}, "0 0 2, 0 3 5", "0 0 2, 0 3 5", "0 0 2, 0 3 5"},
		{[]string{"\x00\xff"}, "\xff\x00\xff\x00", nil, "0 1 3", "0 1 3", "0 1 3"},
	}
	for _, row := range rows {
		for kind, wanted := range []string{row.standard, row.first, row.longest} {
			for _, engine := range []Engine{Auto, Noncontiguous, Contiguous, DFA} {
				options := append([]Option{WithKind(Kind(kind)), WithEngine(engine)}, row.options...)
				all, err := built(t, row.patterns, options...).FindAllString(row.text)
				if err != nil {
					t.Fatal(err)
				}
				var shown []string
				for _, m := range all {
					shown = append(shown, fmt.Sprint(m.Pattern, m.Start, m.End))
				}
				equal(t, fmt.Sprintf("%q in %q, %v %v", row.patterns, row.text, Kind(kind), engine), wanted, strings.Join(shown, ", "))
			}
		}
	}
}

// What an automaton says of itself, also after it was closed.
func TestQueries(t *testing.T) {
	ac := built(t, []string{"ab", "", "abcd"}, WithKind(LeftmostLongest), WithStartKind(Both), WithEngine(Contiguous))
	length, err := ac.PatternLen(2)
	equal(t, "PatternLen", 4, length)
	equal(t, "PatternLen", nil, err)
	for i := 0; i < 2; i++ {
		equal(t, "Len", 3, ac.Len())
		equal(t, "Longest", 4, ac.Longest())
		equal(t, "Kind", LeftmostLongest, ac.Kind())
		equal(t, "StartKind", Both, ac.StartKind())
		equal(t, "Engine", Contiguous, ac.Engine())
		if ac.Memory() < 100 || ac.Memory() > 1<<20 {
			t.Errorf("Memory: %d", ac.Memory())
		}
		ac.Close()
	}
	equal(t, "Engine", DFA, built(t, []string{"a"}).Engine())
	equal(t, "Longest", 0, built(t, nil).Longest())
	equal(t, "names", "LeftmostFirst Anchored DFA 7", fmt.Sprint(LeftmostFirst, Anchored, DFA, Engine(7)))
	if Version() == "" || CPU() == "" {
		t.Errorf("Version %q, CPU %q", Version(), CPU())
	}
}

// The settings that change no result reach the library: they change how much memory an automaton takes.
func TestSettings(t *testing.T) {
	var words []string
	for i := 0; i < 300; i++ {
		words = append(words, fmt.Sprintf("word %d", i*7919))
	}
	memory := func(options ...Option) int { return built(t, words, options...).Memory() }
	rows := []struct {
		name       string
		less, more int
	}{
		{"engine", memory(WithEngine(Contiguous), WithRowMemory(0)), memory(WithEngine(DFA))},
		{"classes", memory(WithEngine(DFA)), memory(WithEngine(DFA), WithByteClasses(false))},
		{"depth", memory(WithEngine(Noncontiguous), WithDenseDepth(0)), memory(WithEngine(Noncontiguous), WithDenseDepth(8))},
		{"depth of its own", memory(WithEngine(Noncontiguous), WithDenseDepth(0)), memory(WithEngine(Noncontiguous), WithDenseDepth(-1))},
		{"rows", memory(WithEngine(Contiguous), WithRowMemory(0)), memory(WithEngine(Contiguous), WithRowMemory(1<<20))},
		{"rows of its own", memory(WithEngine(Contiguous), WithRowMemory(0)), memory(WithEngine(Contiguous), WithRowMemory(-1))},
		{"start", memory(WithEngine(DFA)), memory(WithEngine(DFA), WithStartKind(Both))},
	}
	for _, row := range rows {
		if row.less >= row.more {
			t.Errorf("%s: %d bytes and %d", row.name, row.less, row.more)
		}
	}
}

// An Iter over more matches than a batch has, left and gone on with.
func TestBatches(t *testing.T) {
	text := strings.Repeat("ab ", 1000)
	ac := built(t, []string{"a", "b"})
	it := ac.MatchesString(text)
	for i := 0; i < 300; i++ {
		if !it.Next() {
			t.Fatalf("there are %d matches", i)
		}
		equal(t, "Match", Match{Pattern: i % 2, Start: i/2*3 + i%2, End: i/2*3 + i%2 + 1}, it.Match())
	}
	rest, err := it.All()
	equal(t, "All", nil, err)
	equal(t, "All", 1700, len(rest))
	equal(t, "All", Match{Pattern: 0, Start: 450, End: 451}, rest[0])
	equal(t, "Next", false, it.Next())
	all, err := it.All()
	equal(t, "All", 0, len(all))
	equal(t, "All", nil, err)
}

// A string in which nothing matches is returned itself; bytes are new ones.
func TestUnchanged(t *testing.T) {
	ac := built(t, []string{"x"})
	text := "no match"
	replaced, err := ac.ReplaceAllString(text, []string{"y"})
	equal(t, "ReplaceAllString", text, replaced)
	equal(t, "ReplaceAllString", nil, err)
	b := []byte(text)
	other, err := ac.ReplaceAll(b, [][]byte{[]byte("y")})
	equal(t, "ReplaceAll", nil, err)
	b[0] = 'N'
	equal(t, "ReplaceAll", text, string(other))
	equal(t, "allocations", 0.0, testing.AllocsPerRun(100, func() {
		if _, err := ac.ReplaceAllString(text, []string{"y"}); err != nil {
			t.Fatal(err)
		}
	}))
}

// Neither a search of one match nor a match of an Iter takes memory of Go.
func TestAllocations(t *testing.T) {
	ac := built(t, []string{"fox", "ox"})
	text := []byte(strings.Repeat("a fox and an ox ", 10000))
	equal(t, "Find", 0.0, testing.AllocsPerRun(100, func() {
		if m, ok := ac.Find(text); !ok || m.Start != 2 || !ac.IsMatch(text) {
			t.Fatal(m, ok)
		}
		if _, ok, err := ac.FindIn(text, Span{Start: 5, End: 50}); !ok || err != nil {
			t.Fatal(ok, err)
		}
	}))
	equal(t, "an Iter", 2.0, testing.AllocsPerRun(10, func() {
		it, count := ac.Matches(text), 0
		for it.Next() {
			count++
		}
		if count != 20000 {
			t.Fatal(count)
		}
	}))
}
