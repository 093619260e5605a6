package dadofennel

import "sync"

// An Iter goes over the matches of a text, which are found in batches:
//
//	matches := ac.Matches(text)
//	for matches.Next() {
//		use(matches.Match())
//	}
//	return matches.Err()
//
// It takes no memory for a match. It may be left at any match, and serves one goroutine at a time.
type Iter struct {
	ac      *Automaton
	text    []byte
	what    what
	kind    Kind   // of words
	walk    cursor // of matches, and words go on at its start
	listing place  // of occurrences, and of all words
	room    []match
	batch   []match
	given   int
	match   Match
	ended   bool
	err     error
}

// How many matches there is room for in a first batch, and in later ones. With fewer than 16 the library reads nothing ahead.
const (
	firstBatch = 16
	laterBatch = 256
)

// What an Iter goes over.
type what uint8

const (
	matches what = iota
	occurrences
	words
	allWords
)

// Matches goes over the matches of the text, one after another: the match of the text, then that of what comes after it, and so on, so no
// two overlap. An empty match where the last one ended is left out.
//
// Err: ErrNotUnanchored, ErrClosed.
func (ac *Automaton) Matches(text []byte) *Iter {
	return lasting(ac.walk(text))
}

// MatchesString is Matches in a string.
func (ac *Automaton) MatchesString(text string) *Iter {
	return lasting(ac.walk(bytesOf(text)))
}

// MatchesIn goes over the matches of a span of the text. With Anchored each match starts where the last one ended.
//
// Err: ErrBadSpan, ErrNotAnchored, ErrNotUnanchored, ErrClosed.
func (ac *Automaton) MatchesIn(text []byte, span Span) *Iter {
	it := Iter{ac: ac, text: text, walk: cursorOver(span)}
	if span.outside(text) {
		it.ended, it.err = true, ErrBadSpan
	}
	return lasting(it)
}

// outside says whether the span isn't one of the text.
func (s Span) outside(text []byte) bool {
	return s.Start < 0 || s.End < 0 || s.End > len(text) || s.Start > s.End+1
}

// Overlapping goes over all occurrences of all patterns in the text, overlapping ones too, in the order of end, start and number.
//
// Err: ErrNotUnanchored, ErrNotStandard, ErrClosed.
func (ac *Automaton) Overlapping(text []byte) *Iter {
	return lasting(Iter{ac: ac, text: text, what: occurrences, listing: placeOver(len(text))})
}

// OverlappingString is Overlapping in a string.
func (ac *Automaton) OverlappingString(text string) *Iter {
	return ac.Overlapping(bytesOf(text))
}

// Words goes over the whole words of the text, one after another under the kind; no two overlap. A word byte is an ASCII letter, a digit,
// '_', or a byte from 0x80 on, as those of a character beyond ASCII are. An occurrence is a whole word where neither the byte before it
// nor the byte after it is a word byte. The automaton itself must be of the kind Standard, since no other meets every occurrence.
//
// Err: ErrBadKind, ErrNotUnanchored, ErrNotStandard, ErrEmptyPattern, ErrClosed.
func (ac *Automaton) Words(text []byte, kind Kind) *Iter {
	return lasting(ac.words(text, kind))
}

// WordsString is Words in a string.
func (ac *Automaton) WordsString(text string, kind Kind) *Iter {
	return lasting(ac.words(bytesOf(text), kind))
}

// AllWords goes over all whole words of the text, overlapping ones too, in the order of end, start and number.
//
// Err: ErrNotUnanchored, ErrNotStandard, ErrEmptyPattern, ErrClosed.
func (ac *Automaton) AllWords(text []byte) *Iter {
	return lasting(Iter{ac: ac, text: text, what: allWords, listing: placeOver(len(text))})
}

// AllWordsString is AllWords in a string.
func (ac *Automaton) AllWordsString(text string) *Iter {
	return ac.AllWords(bytesOf(text))
}

func (ac *Automaton) walk(text []byte) Iter {
	return Iter{ac: ac, text: text, walk: cursorOver(Span{End: len(text)})}
}

func (ac *Automaton) words(text []byte, kind Kind) Iter {
	return Iter{ac: ac, text: text, what: words, kind: kind}
}

// lasting is an Iter with room for its first batch, in one allocation.
func lasting(it Iter) *Iter {
	memory := &struct {
		it   Iter
		room [firstBatch]match
	}{it: it}
	memory.it.room = memory.room[:]
	return &memory.it
}

// rooms are for those that end within a call: that has no allocation of its own.
var rooms = sync.Pool{New: func() any { return new([laterBatch]match) }}

// borrow gives the Iter room, until giveBack.
func (it *Iter) borrow() {
	it.room = rooms.Get().(*[laterBatch]match)[:]
}

func (it *Iter) giveBack() {
	rooms.Put((*[laterBatch]match)(it.room))
}

// Next goes on to the next match, which Match returns then. It returns false where none is left, and after an error.
func (it *Iter) Next() bool {
	if it.given == len(it.batch) && !it.fill() {
		return false
	}
	it.match = exported(it.batch[it.given])
	it.given++
	return true
}

// Match is the match that Next went on to.
func (it *Iter) Match() Match {
	return it.match
}

// Err is the error that ended the search, or nil.
func (it *Iter) Err() error {
	return it.err
}

// All returns the matches that are left, and Err.
func (it *Iter) All() ([]Match, error) {
	var all []Match
	for it.given < len(it.batch) || it.fill() {
		left := it.batch[it.given:]
		it.given = len(it.batch)
		if all == nil {
			all = make([]Match, 0, len(left))
		}
		for _, m := range left {
			all = append(all, exported(m))
		}
	}
	return all, it.err
}

// fill finds the next batch. It returns false where there is none.
func (it *Iter) fill() bool {
	if it.ended {
		return false
	}
	if len(it.room) < laterBatch && it.batch != nil {
		it.room = make([]match, laterBatch)
	}
	count, status := it.some()
	it.batch, it.given = it.room[:count], 0
	it.ended = count < len(it.room)
	if it.err = status.or(); it.err != nil {
		it.batch, it.ended = nil, true
	}
	return len(it.batch) > 0
}

// some writes the next matches to the room.
func (it *Iter) some() (int, Status) {
	switch it.what {
	case occurrences:
		return it.ac.handle.overlapping(it.text, &it.listing, it.room)
	case words:
		return it.ac.handle.words(it.kind, it.text, &it.walk.start, it.room)
	case allWords:
		return it.ac.handle.allWords(it.text, &it.listing, it.room)
	}
	return it.ac.handle.some(it.text, &it.walk, it.room)
}
