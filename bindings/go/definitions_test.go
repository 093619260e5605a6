package dadofennel_test

import (
	"bytes"
	"sort"

	. "dadofennel.example/dadofennel"
)

// What the calls are compared with: the definitions, computed slowly, by every place and every pattern.

// A dictionary is patterns, and which bytes match each other.
type dictionary struct {
	patterns [][]byte
	same     func(a, b byte) bool
}

// occursAt says whether the pattern stands at the place.
func (d dictionary) occursAt(pattern, text []byte, at int) bool {
	for i, b := range pattern {
		if !d.same(b, text[at+i]) {
			return false
		}
	}
	return true
}

// occurrences has all in a span, by end, start and number.
func (d dictionary) occurrences(text []byte, span Span) []Match {
	var all []Match
	for number, pattern := range d.patterns {
		for at := span.Start; at+len(pattern) <= span.End; at++ {
			if span.Anchored && at > span.Start {
				break
			}
			if d.occursAt(pattern, text, at) {
				all = append(all, Match{Pattern: number, Start: at, End: at + len(pattern)})
			}
		}
	}
	sort.Slice(all, func(i, j int) bool { return better(all[i], all[j], Standard) })
	return all
}

// better says whether the kind takes the first before the second.
func better(one, two Match, kind Kind) bool {
	keys := func(m Match) [3]int {
		switch kind {
		case LeftmostFirst:
			return [3]int{m.Start, m.Pattern, m.End}
		case LeftmostLongest:
			return [3]int{m.Start, -m.End, m.Pattern}
		}
		return [3]int{m.End, m.Start, m.Pattern}
	}
	a, b := keys(one), keys(two)
	for i := range a {
		if a[i] != b[i] {
			return a[i] < b[i]
		}
	}
	return false
}

// best is the one that the kind takes, and whether there is any.
func best(all []Match, kind Kind) (Match, bool) {
	var taken Match
	for i, m := range all {
		if i == 0 || better(m, taken, kind) {
			taken = m
		}
	}
	return taken, len(all) > 0
}

// find is the match of a span.
func (d dictionary) find(text []byte, span Span, kind Kind) (Match, bool) {
	if span.Earliest {
		kind = Standard
	}
	return best(d.occurrences(text, span), kind)
}

// walk has the matches one after another: the match of the span, then that of what comes after it. An empty one where the last one ended
// is left out, and the search is done again from one byte further on.
func (d dictionary) walk(text []byte, span Span, kind Kind) []Match {
	var all []Match
	last := -1
	for {
		m, ok := d.find(text, span, kind)
		if ok && m.Start == m.End && m.End == last {
			span.Start++
			m, ok = d.find(text, span, kind)
		}
		if !ok {
			return all
		}
		all = append(all, m)
		span.Start, last = m.End, m.End
	}
}

func isWordByte(b byte) bool {
	return b >= '0' && b <= '9' || b >= 'A' && b <= 'Z' || b >= 'a' && b <= 'z' || b == '_' || b >= 0x80
}

// allWords has the occurrences with no word byte beside them.
func (d dictionary) allWords(text []byte) []Match {
	var all []Match
	for _, m := range d.occurrences(text, Span{End: len(text)}) {
		before := m.Start > 0 && isWordByte(text[m.Start-1])
		after := m.End < len(text) && isWordByte(text[m.End])
		if !before && !after {
			all = append(all, m)
		}
	}
	return all
}

// words has whole words one after another: the best of them, then the best of those that don't begin before its end.
func (d dictionary) words(text []byte, kind Kind) []Match {
	left := d.allWords(text)
	var taken []Match
	for {
		m, ok := best(left, kind)
		if !ok {
			return taken
		}
		taken = append(taken, m)
		var later []Match
		for _, other := range left {
			if other.Start >= m.End {
				later = append(later, other)
			}
		}
		left = later
	}
}

// spliced is the text with these matches replaced.
func spliced(text []byte, matches []Match, replacements [][]byte) []byte {
	var out []byte
	from := 0
	for _, m := range matches {
		out = append(append(out, text[from:m.Start]...), replacements[m.Pattern]...)
		from = m.End
	}
	return append(out, text[from:]...)
}

// covered is the text with each byte of these matches replaced by one byte.
func covered(text []byte, matches []Match, with byte) []byte {
	out := append([]byte(nil), text...)
	for _, m := range matches {
		copy(out[m.Start:m.End], bytes.Repeat([]byte{with}, m.End-m.Start))
	}
	return out
}
