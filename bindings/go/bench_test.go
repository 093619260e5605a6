//go:build unix

package dadofennel_test

import (
	"fmt"
	"math"
	"math/rand"
	"regexp"
	"sort"
	"strings"
	"sync"
	"syscall"
	"testing"

	. "dadofennel.example/dadofennel"
)

// Texts of random words, of which a few are common, as in a language, and patterns of these words. Ours is of kind LeftmostFirst, which
// finds what the two others do. bindings/go/bench runs them, and makes the table of the page.

const (
	benchShort = 80
	benchLong  = 256 << 10

	benchLetters = "eeeeeetttttaaaaooooiiiinnnnsssshhhrrrdddllluuccmmwwffggyyppbbvkjxqz"
)

type benchData struct {
	words []string // from common to rare
	text  string   // benchLong bytes and more
}

var benchOnce sync.Once
var benchMade benchData

// bench makes the data at the first call.
func bench() *benchData {
	benchOnce.Do(benchMade.make)
	return &benchMade
}

func (data *benchData) make() {
	rng := rand.New(rand.NewSource(7))
	known := map[string]bool{}
	for len(data.words) < 20000 {
		letters := make([]byte, 4+rng.Intn(8))
		for i := range letters {
			letters[i] = benchLetters[rng.Intn(len(benchLetters))]
		}
		if w := string(letters); !known[w] {
			known[w] = true
			data.words = append(data.words, w)
		}
	}
	rank := rand.NewZipf(rng, 1.1, 3, uint64(len(data.words)-1))
	var text strings.Builder
	for text.Len() < benchLong+benchShort {
		text.WriteString(data.words[rank.Uint64()])
		text.WriteByte(' ')
	}
	data.text = text.String()
}

// The sets of patterns: of common words, of rare ones, and of both.
var benchSets = []struct {
	name        string
	from, count int
}{{"5 common", 20, 5}, {"5 rare", 15000, 5}, {"100 rare", 15000, 100}, {"100 mixed", 200, 100}, {"5000", 100, 5000}}

// slow is from how many patterns package regexp takes too long for a long text.
const slow = 1000

// each runs a benchmark for each set and length, over one text after another; with more patterns than most over short ones alone. What is
// made of the patterns searches a text. Beside the time it reports that of the processor, which other work on the machine changes less.
func each(b *testing.B, most int, made func(patterns []string) func(text string)) {
	data := bench()
	for _, set := range benchSets {
		patterns := append([]string(nil), data.words[set.from:set.from+set.count]...)
		sort.Slice(patterns, func(i, j int) bool { return len(patterns[i]) > len(patterns[j]) })
		search := made(patterns)
		for _, size := range []int{benchShort, benchLong} {
			if size == benchLong && set.count > most {
				continue
			}
			b.Run(fmt.Sprintf("%s/%d", strings.ReplaceAll(set.name, " ", "_"), size), func(b *testing.B) {
				b.SetBytes(int64(size))
				b.ReportAllocs()
				begun := processorTime()
				for i := 0; i < b.N; i++ {
					at := i * 7919 % (len(data.text) - size + 1)
					search(data.text[at : at+size])
				}
				b.ReportMetric(float64(processorTime()-begun)/float64(b.N), "cpu-ns/op")
			})
		}
	}
}

// processorTime is how many nanoseconds the process has had of processors.
func processorTime() int64 {
	var usage syscall.Rusage
	if err := syscall.Getrusage(syscall.RUSAGE_SELF, &usage); err != nil {
		panic(err)
	}
	return usage.Utime.Nano() + usage.Stime.Nano()
}

func alternation(patterns []string) *regexp.Regexp {
	quoted := make([]string, len(patterns))
	for i, pattern := range patterns {
		quoted[i] = regexp.QuoteMeta(pattern)
	}
	return regexp.MustCompile(strings.Join(quoted, "|"))
}

func starred(patterns []string) []string {
	list := make([]string, len(patterns))
	for i, pattern := range patterns {
		list[i] = strings.Repeat("*", len(pattern))
	}
	return list
}

func BenchmarkFindAll(b *testing.B) {
	each(b, math.MaxInt, func(patterns []string) func(string) {
		ac := built(b, patterns, WithKind(LeftmostFirst))
		return func(text string) { mustNot(ac.FindAllString(text)) }
	})
}

func BenchmarkFindAllByRegexp(b *testing.B) {
	each(b, slow, func(patterns []string) func(string) {
		pattern := alternation(patterns)
		return func(text string) { pattern.FindAllStringIndex(text, -1) }
	})
}

func BenchmarkIsMatch(b *testing.B) {
	each(b, math.MaxInt, func(patterns []string) func(string) {
		ac := built(b, patterns, WithKind(LeftmostFirst))
		return func(text string) { ac.IsMatchString(text) }
	})
}

func BenchmarkIsMatchByRegexp(b *testing.B) {
	each(b, slow, func(patterns []string) func(string) {
		pattern := alternation(patterns)
		return func(text string) { pattern.MatchString(text) }
	})
}

func BenchmarkReplace(b *testing.B) {
	each(b, math.MaxInt, func(patterns []string) func(string) {
		ac, list := built(b, patterns, WithKind(LeftmostFirst)), starred(patterns)
		return func(text string) { mustNot(ac.ReplaceAllString(text, list)) }
	})
}

func BenchmarkReplaceByStrings(b *testing.B) {
	each(b, math.MaxInt, func(patterns []string) func(string) {
		replacer := stringsReplacer(patterns)
		return func(text string) { replacer.Replace(text) }
	})
}

// mustNot panics where a call failed.
func mustNot[T any](_ T, err error) {
	if err != nil {
		panic(err)
	}
}

func stringsReplacer(patterns []string) *strings.Replacer {
	var pairs []string
	for i, instead := range starred(patterns) {
		pairs = append(pairs, patterns[i], instead)
	}
	return strings.NewReplacer(pairs...)
}

// BenchmarkParallel has goroutines that search short texts with one automaton.
func BenchmarkParallel(b *testing.B) {
	ac := built(b, bench().words[15000:15005])
	text := bench().text[:benchShort]
	b.SetBytes(benchShort)
	b.RunParallel(func(pb *testing.PB) {
		for pb.Next() {
			ac.FindString(text)
		}
	})
}

// What the benchmarks compare is the same.
func TestBenchmarksAgree(t *testing.T) {
	data := bench()
	for _, set := range benchSets {
		patterns := data.words[set.from : set.from+set.count]
		ac := built(t, patterns, WithKind(LeftmostFirst))
		text := data.text[:4000]
		all, err := ac.FindAllString(text)
		equal(t, set.name, nil, err)
		var places [][]int
		for _, m := range all {
			places = append(places, []int{m.Start, m.End})
		}
		if set.count < slow {
			equal(t, set.name, alternation(patterns).FindAllStringIndex(text, -1), places)
		}
		replaced, err := ac.ReplaceAllString(text, starred(patterns))
		equal(t, set.name, nil, err)
		equal(t, set.name, stringsReplacer(patterns).Replace(text), replaced)
	}
}
