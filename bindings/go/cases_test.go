package dadofennel_test

import (
	"bytes"
	"errors"
	"fmt"
	"io"
	"math/rand"
	"os"
	"reflect"
	"strconv"
	"testing"

	. "dadofennel.example/dadofennel"
)

// A testCase is an automaton, what it was built of, and a text.
type testCase struct {
	t     *testing.T
	rng   *rand.Rand
	ac    *Automaton
	known dictionary
	kind  Kind
	start StartKind
	text  []byte
	shown string
}

var alphabets = []string{"ab", "ab ", "aAbB", "a_é ", "\x00\xff", "abcdefgh ,", "kKsS[{"}

func word(rng *rand.Rand, alphabet string, most int) []byte {
	b := make([]byte, rng.Intn(most+1))
	for i := range b {
		b[i] = alphabet[rng.Intn(len(alphabet))]
	}
	return b
}

func lower(b byte) byte {
	if b >= 'A' && b <= 'Z' {
		return b + 'a' - 'A'
	}
	return b
}

// newCase makes a case. One of twenty has many patterns, and one of eighty has a text whose matches take several batches.
func newCase(t *testing.T, rng *rand.Rand) *testCase {
	alphabet := alphabets[rng.Intn(len(alphabets))]
	count, most := rng.Intn(7), 24
	switch many := rng.Intn(80); {
	case many < 4:
		count = 120
	case many == 4:
		most = 800
	}
	c := &testCase{t: t, rng: rng, kind: Kind(rng.Intn(3)), text: word(rng, alphabet, most)}
	least := rng.Intn(2)
	for i := 0; i < count; i++ {
		pattern := word(rng, alphabet, 5)
		if len(pattern) >= least {
			c.known.patterns = append(c.known.patterns, pattern)
		}
	}
	if rng.Intn(4) == 0 {
		c.start = StartKind(rng.Intn(3))
	}
	options := []Option{
		WithKind(c.kind), WithStartKind(c.start), WithEngine(Engine(rng.Intn(4))), WithPrefilter(rng.Intn(3) > 0),
		WithByteClasses(rng.Intn(3) > 0), WithDenseDepth(rng.Intn(5) - 1), WithRowMemory(rng.Intn(3)*1000 - 1),
	}
	c.known.same = func(a, b byte) bool { return a == b }
	folds := ""
	switch rng.Intn(4) {
	case 0:
		options, folds = append(options, WithFold()), "fold"
		c.known.same = func(a, b byte) bool { return lower(a) == lower(b) }
	case 1:
		one, two := alphabet[0], alphabet[1]
		options, folds = append(options, WithPairs([2]byte{one, two})), "pairs"
		c.known.same = func(a, b byte) bool { return a == b || a == one && b == two || a == two && b == one }
	}
	c.shown = fmt.Sprintf("%q in %.200q, %v %v %s", c.known.patterns, c.text, c.kind, c.start, folds)
	var err error
	if c.ac, err = New(c.known.patterns, options...); err != nil {
		t.Fatal(c.shown, err)
	}
	return c
}

// want compares what a call gave.
func (c *testCase) want(call string, wanted, got any) {
	c.t.Helper()
	if !reflect.DeepEqual(wanted, got) {
		c.t.Fatalf("%s: wanted %.400v, got %.400v: %s", call, wanted, got, c.shown)
	}
}

// refused compares the error of a call, and says whether there must be one.
func (c *testCase) refused(call string, wanted, got error) bool {
	c.t.Helper()
	if !errors.Is(got, wanted) {
		c.t.Fatalf("%s: wanted the error %v, got %v: %s", call, wanted, got, c.shown)
	}
	return wanted != nil
}

func (c *testCase) anyEmpty() bool {
	for _, pattern := range c.known.patterns {
		if len(pattern) == 0 {
			return true
		}
	}
	return false
}

// error is what a call returns that needs unanchored searches, and the standard kind and no empty pattern where that is said.
func (c *testCase) error(standard, noEmpty bool) error {
	switch {
	case c.start == Anchored:
		return ErrNotUnanchored
	case standard && c.kind != Standard:
		return ErrNotStandard
	case noEmpty && c.anyEmpty():
		return ErrEmptyPattern
	}
	return nil
}

func (c *testCase) whole() Span {
	return Span{End: len(c.text)}
}

// replacements has one for each pattern, some of them empty.
func (c *testCase) replacements() [][]byte {
	list := make([][]byte, len(c.known.patterns))
	for i := range list {
		if c.rng.Intn(4) > 0 {
			list[i] = []byte(fmt.Sprintf("<%d>", i))
		}
	}
	return list
}

func texts(list [][]byte) []string {
	all := make([]string, len(list))
	for i, b := range list {
		all[i] = string(b)
	}
	return all
}

// same turns an empty list into none, as the definitions have it.
func same(all []Match) []Match {
	if len(all) == 0 {
		return nil
	}
	return all
}

// asked is a number in the environment, or the usual one.
func asked(name string, usual int) int {
	if number, err := strconv.Atoi(os.Getenv(name)); err == nil {
		return number
	}
	return usual
}

// TestCases compares all calls with the definitions in random cases: as many as CASES says, of the seed that SEED says.
func TestCases(t *testing.T) {
	rng := rand.New(rand.NewSource(int64(asked("SEED", 1))))
	for i := asked("CASES", 2000); i > 0; i-- {
		c := newCase(t, rng)
		c.finds()
		c.walks()
		c.lists()
		c.words()
		c.replaces()
		c.masks()
		c.streams()
		c.writes()
		c.ac.Close()
	}
}

func (c *testCase) finds() {
	end := c.rng.Intn(len(c.text) + 1)
	start := c.rng.Intn(end + 2)
	for i := 0; i < 4; i++ {
		span := Span{Start: start, End: end, Anchored: i&1 != 0, Earliest: i&2 != 0}
		wanted, is := c.known.find(c.text, span, c.kind)
		m, ok, err := c.ac.FindIn(c.text, span)
		if c.refused("FindIn", c.spanError(span), err) {
			continue
		}
		c.want("FindIn", is, ok)
		c.want("FindIn", wanted, m)
	}
	if c.start == Anchored {
		return
	}
	wanted, is := c.known.find(c.text, c.whole(), c.kind)
	m, ok := c.ac.Find(c.text)
	c.want("Find", is, ok)
	c.want("Find", wanted, m)
	m, ok = c.ac.FindString(string(c.text))
	c.want("FindString", is, ok)
	c.want("FindString", wanted, m)
	c.want("IsMatch", is, c.ac.IsMatch(c.text))
	c.want("IsMatchString", is, c.ac.IsMatchString(string(c.text)))
}

// spanError is what a search of a span returns.
func (c *testCase) spanError(span Span) error {
	switch {
	case span.Anchored && c.start == Unanchored:
		return ErrNotAnchored
	case !span.Anchored && c.start == Anchored:
		return ErrNotUnanchored
	}
	return nil
}

func (c *testCase) walks() {
	end := c.rng.Intn(len(c.text) + 1)
	start := c.rng.Intn(end + 1)
	for i := 0; i < 4; i++ {
		span := Span{Start: start, End: end, Anchored: i&1 != 0, Earliest: i&2 != 0}
		all, err := c.ac.MatchesIn(c.text, span).All()
		if !c.refused("MatchesIn", c.spanError(span), err) {
			c.want("MatchesIn", c.known.walk(c.text, span, c.kind), same(all))
		}
	}
	all, err := c.ac.FindAll(c.text)
	if c.refused("FindAll", c.error(false, false), err) {
		return
	}
	wanted := c.known.walk(c.text, c.whole(), c.kind)
	c.want("FindAll", wanted, same(all))
	all, err = c.ac.FindAllString(string(c.text))
	c.refused("FindAllString", nil, err)
	c.want("FindAllString", wanted, same(all))
	all = nil
	it := c.ac.MatchesString(string(c.text))
	for it.Next() {
		all = append(all, it.Match())
	}
	c.refused("MatchesString", nil, it.Err())
	c.want("MatchesString", wanted, all)
}

func (c *testCase) lists() {
	all, err := c.ac.Overlapping(c.text).All()
	if c.refused("Overlapping", c.error(true, false), err) {
		return
	}
	wanted := c.known.occurrences(c.text, c.whole())
	c.want("Overlapping", wanted, same(all))
	all, err = c.ac.OverlappingString(string(c.text)).All()
	c.refused("OverlappingString", nil, err)
	c.want("OverlappingString", wanted, same(all))
}

func (c *testCase) words() {
	refusal := c.error(true, true)
	list := c.replacements()
	for _, kind := range []Kind{Standard, LeftmostFirst, LeftmostLongest} {
		all, err := c.ac.Words(c.text, kind).All()
		replaced, fault := c.ac.ReplaceWords(c.text, kind, list)
		c.refused("ReplaceWords", refusal, fault)
		if c.refused("Words", refusal, err) {
			continue
		}
		wanted := c.known.words(c.text, kind)
		c.want("Words", wanted, same(all))
		all, _ = c.ac.WordsString(string(c.text), kind).All()
		c.want("WordsString", wanted, same(all))
		text := string(spliced(c.text, wanted, list))
		c.want("ReplaceWords", text, string(replaced))
		given, err := c.ac.ReplaceWordsString(string(c.text), kind, texts(list))
		c.refused("ReplaceWordsString", nil, err)
		c.want("ReplaceWordsString", text, given)
		replaced, err = c.ac.ReplaceWordsFunc(c.text, kind, func(m Match) []byte { return list[m.Pattern] })
		c.refused("ReplaceWordsFunc", nil, err)
		c.want("ReplaceWordsFunc", text, string(replaced))
		given, err = c.ac.ReplaceWordsStringFunc(string(c.text), kind, func(m Match) string { return string(list[m.Pattern]) })
		c.refused("ReplaceWordsStringFunc", nil, err)
		c.want("ReplaceWordsStringFunc", text, given)
	}
	all, err := c.ac.AllWords(c.text).All()
	if c.refused("AllWords", refusal, err) {
		return
	}
	wanted := c.known.allWords(c.text)
	c.want("AllWords", wanted, same(all))
	all, _ = c.ac.AllWordsString(string(c.text)).All()
	c.want("AllWordsString", wanted, same(all))
}

func (c *testCase) replaces() {
	list := c.replacements()
	replaced, err := c.ac.ReplaceAll(c.text, list)
	if c.refused("ReplaceAll", c.error(false, false), err) {
		return
	}
	wanted := string(spliced(c.text, c.known.walk(c.text, c.whole(), c.kind), list))
	c.want("ReplaceAll", wanted, string(replaced))
	given, err := c.ac.ReplaceAllString(string(c.text), texts(list))
	c.refused("ReplaceAllString", nil, err)
	c.want("ReplaceAllString", wanted, given)
	replaced, err = c.ac.ReplaceAllFunc(c.text, func(m Match) []byte { return list[m.Pattern] })
	c.refused("ReplaceAllFunc", nil, err)
	c.want("ReplaceAllFunc", wanted, string(replaced))
	given, err = c.ac.ReplaceAllStringFunc(string(c.text), func(m Match) string { return string(list[m.Pattern]) })
	c.refused("ReplaceAllStringFunc", nil, err)
	c.want("ReplaceAllStringFunc", wanted, given)
}

func (c *testCase) masks() {
	with := "*a\xff"[c.rng.Intn(3)]
	refusal := c.error(true, false)
	before := string(c.text)
	whole, err := c.ac.Mask(c.text, with)
	words, fault := c.ac.MaskWords(c.text, with)
	c.want("the text", before, string(c.text))
	inPlace, wordsInPlace := []byte(before), []byte(before)
	c.refused("MaskInPlace", refusal, c.ac.MaskInPlace(inPlace, with))
	c.refused("MaskWordsInPlace", refusal, c.ac.MaskWordsInPlace(wordsInPlace, with))
	c.refused("MaskWords", refusal, fault)
	if c.refused("Mask", refusal, err) {
		c.want("MaskInPlace", before, string(inPlace))
		c.want("MaskWordsInPlace", before, string(wordsInPlace))
		return
	}
	wanted := string(covered(c.text, c.known.occurrences(c.text, c.whole()), with))
	c.want("Mask", wanted, string(whole))
	c.want("MaskInPlace", wanted, string(inPlace))
	given, _ := c.ac.MaskString(before, with)
	c.want("MaskString", wanted, given)
	wanted = string(covered(c.text, c.known.allWords(c.text), with))
	c.want("MaskWords", wanted, string(words))
	c.want("MaskWordsInPlace", wanted, string(wordsInPlace))
	given, _ = c.ac.MaskWordsString(before, with)
	c.want("MaskWordsString", wanted, given)
}

// pieces cuts the text at random places.
func (c *testCase) pieces() [][]byte {
	var all [][]byte
	for left := c.text; len(left) > 0; {
		n := 1 + c.rng.Intn(len(left))
		if c.rng.Intn(2) == 0 {
			n = 1 + c.rng.Intn(1+len(left)/20)
		}
		all, left = append(all, left[:n]), left[n:]
	}
	return all
}

// A slowReader gives one piece a read.
type slowReader struct {
	pieces [][]byte
}

func (r *slowReader) Read(into []byte) (int, error) {
	if len(r.pieces) == 0 {
		return 0, io.EOF
	}
	n := copy(into, r.pieces[0])
	if r.pieces[0] = r.pieces[0][n:]; len(r.pieces[0]) == 0 {
		r.pieces = r.pieces[1:]
	}
	return n, nil
}

func (c *testCase) streams() {
	stream, err := c.ac.Stream()
	scanner := c.ac.FindReader(&slowReader{c.pieces()})
	if refusal := c.error(false, true); c.refused("Stream", refusal, err) {
		c.want("FindReader", false, scanner.Next())
		c.refused("FindReader", refusal, scanner.Err())
	} else {
		wanted := c.known.walk(c.text, c.whole(), c.kind)
		c.streamed("Stream", stream, scanner, wanted, c.kind == Standard, 0)
	}
	for _, kind := range []Kind{Standard, LeftmostFirst, LeftmostLongest} {
		stream, err := c.ac.WordStream(kind)
		scanner := c.ac.FindWordsReader(&slowReader{c.pieces()}, kind)
		if refusal := c.error(true, true); c.refused("WordStream", refusal, err) {
			c.want("FindWordsReader", false, scanner.Next())
			c.refused("FindWordsReader", refusal, scanner.Err())
			continue
		}
		c.streamed("WordStream", stream, scanner, c.known.words(c.text, kind), kind == Standard, 1)
	}
}

// streamed pushes the text to a stream. With prompt each match is given as soon as so many bytes after it were written, and no later.
func (c *testCase) streamed(call string, stream *Stream, scanner *Scanner, wanted []Match, prompt bool, after int) {
	var all []Match
	drain := func() {
		for stream.Next() {
			all = append(all, stream.Match())
		}
	}
	written := 0
	for _, piece := range c.pieces() {
		n, err := stream.Write(piece)
		c.refused(call, nil, err)
		c.want(call, len(piece), n)
		drain()
		written += n
		count := 0
		for count < len(wanted) && wanted[count].End+after <= written {
			count++
		}
		if prompt {
			c.want(call+" so far", same(wanted[:count]), all)
		} else if len(all) > count {
			c.t.Fatalf("%s: a match before its end was written: %s", call, c.shown)
		}
	}
	c.refused(call, nil, stream.Close())
	drain()
	c.want(call, wanted, all)
	all = nil
	for scanner.Next() {
		all = append(all, scanner.Match())
	}
	c.refused("a Scanner", nil, scanner.Err())
	c.want("a Scanner", wanted, all)
}

func (c *testCase) writes() {
	list := c.replacements()
	var out bytes.Buffer
	replacer, err := c.ac.NewReplacer(&out, list)
	if !c.refused("NewReplacer", c.error(false, true), err) {
		c.written("Replacer", replacer, &out, spliced(c.text, c.known.walk(c.text, c.whole(), c.kind), list), -1)
	}
	out.Reset()
	replacer, err = c.ac.NewReplacerFunc(&out, c.by(list))
	if !c.refused("NewReplacerFunc", c.error(false, true), err) {
		c.written("Replacer", replacer, &out, spliced(c.text, c.known.walk(c.text, c.whole(), c.kind), list), -1)
	}
	for _, kind := range []Kind{Standard, LeftmostFirst, LeftmostLongest} {
		out.Reset()
		replacer, err = c.ac.NewWordReplacer(&out, kind, list)
		_, fault := c.ac.NewWordReplacerFunc(&out, kind, c.by(list))
		c.refused("NewWordReplacerFunc", c.error(true, true), fault)
		if c.refused("NewWordReplacer", c.error(true, true), err) {
			continue
		}
		wanted := spliced(c.text, c.known.words(c.text, kind), list)
		c.written("NewWordReplacer", replacer, &out, wanted, -1)
		out.Reset()
		replacer, _ = c.ac.NewWordReplacerFunc(&out, kind, c.by(list))
		c.written("NewWordReplacerFunc", replacer, &out, wanted, -1)
	}
	out.Reset()
	masker, err := c.ac.NewMasker(&out, '#')
	if !c.refused("NewMasker", c.error(true, true), err) {
		kept := c.ac.Longest() - 1
		if kept < 0 {
			kept = 0
		}
		c.written("Masker", masker, &out, covered(c.text, c.known.occurrences(c.text, c.whole()), '#'), kept)
	}
}

// by is a function that replaces as the list does, and tests what it is given.
func (c *testCase) by(list [][]byte) func(Match, []byte) []byte {
	return func(m Match, match []byte) []byte {
		c.want("the match", string(c.text[m.Start:m.End]), string(match))
		return list[m.Pattern]
	}
}

// written writes the text to a Replacer or a Masker. What came out is a beginning of the whole at any time, and lacks no more than the
// bytes that may be kept, if that is said.
func (c *testCase) written(call string, to io.WriteCloser, out *bytes.Buffer, wanted []byte, kept int) {
	written := 0
	for _, piece := range c.pieces() {
		n, err := to.Write(piece)
		c.refused(call, nil, err)
		c.want(call, len(piece), n)
		written += n
		if !bytes.HasPrefix(wanted, out.Bytes()) {
			c.t.Fatalf("%s: %q isn't the beginning of %q: %s", call, out.Bytes(), wanted, c.shown)
		}
		if kept >= 0 && out.Len() < written-kept {
			c.t.Fatalf("%s keeps %d bytes: %s", call, written-out.Len(), c.shown)
		}
	}
	c.refused(call, nil, to.Close())
	c.want(call, string(wanted), out.String())
}
