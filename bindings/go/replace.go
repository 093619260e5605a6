package dadofennel

// ReplaceAll returns a new text with each match of Matches replaced by the replacement of its pattern; replacements has one for each.
//
// Errors: ErrWrongCount, ErrNotUnanchored, ErrClosed.
func (ac *Automaton) ReplaceAll(text []byte, replacements [][]byte) ([]byte, error) {
	return fresh(replaceEach(ac.walk(text), text, replacements))
}

// ReplaceAllString is ReplaceAll of a string. Where nothing matches it is the same string, without a copy.
func (ac *Automaton) ReplaceAllString(text string, replacements []string) (string, error) {
	return shared(replaceEach(ac.walk(bytesOf(text)), text, replacements))
}

// ReplaceAllFunc returns a new text with each match of Matches replaced by what the function returns for it. The match is
// text[m.Start:m.End].
//
// Errors: ErrNotUnanchored, ErrClosed.
func (ac *Automaton) ReplaceAllFunc(text []byte, replacement func(m Match) []byte) ([]byte, error) {
	return fresh(replaceBy(ac.walk(text), text, replacement))
}

// ReplaceAllStringFunc is ReplaceAllFunc of a string. Where nothing matches it is the same string, without a copy.
func (ac *Automaton) ReplaceAllStringFunc(text string, replacement func(m Match) string) (string, error) {
	return shared(replaceBy(ac.walk(bytesOf(text)), text, replacement))
}

// ReplaceWords returns a new text with each whole word of Words replaced by the replacement of its pattern; replacements has one for each.
//
// Errors: ErrWrongCount, ErrBadKind, ErrNotUnanchored, ErrNotStandard, ErrEmptyPattern, ErrClosed.
func (ac *Automaton) ReplaceWords(text []byte, kind Kind, replacements [][]byte) ([]byte, error) {
	return fresh(replaceEach(ac.words(text, kind), text, replacements))
}

// ReplaceWordsString is ReplaceWords of a string. Where there is no word it is the same string, without a copy.
func (ac *Automaton) ReplaceWordsString(text string, kind Kind, replacements []string) (string, error) {
	return shared(replaceEach(ac.words(bytesOf(text), kind), text, replacements))
}

// ReplaceWordsFunc returns a new text with each whole word of Words replaced by what the function returns for it.
//
// Errors: ErrBadKind, ErrNotUnanchored, ErrNotStandard, ErrEmptyPattern, ErrClosed.
func (ac *Automaton) ReplaceWordsFunc(text []byte, kind Kind, replacement func(m Match) []byte) ([]byte, error) {
	return fresh(replaceBy(ac.words(text, kind), text, replacement))
}

// ReplaceWordsStringFunc is ReplaceWordsFunc of a string. Where there is no word it is the same string, without a copy.
func (ac *Automaton) ReplaceWordsStringFunc(text string, kind Kind, replacement func(m Match) string) (string, error) {
	return shared(replaceBy(ac.words(bytesOf(text), kind), text, replacement))
}

// A replaced is a text with matches replaced: the text as it was, where changed is nil, and else the bytes there.
type replaced[T text] struct {
	text    T
	changed []byte
	err     error
}

func replaceEach[T text](it Iter, text T, replacements []T) replaced[T] {
	if len(replacements) != it.ac.patterns {
		return replaced[T]{err: ErrWrongCount}
	}
	return replaceBy(it, text, func(m Match) T { return replacements[m.Pattern] })
}

func replaceBy[T text](it Iter, text T, replacement func(m Match) T) replaced[T] {
	var out []byte
	from := 0
	it.borrow()
	for it.Next() {
		if out == nil {
			out = make([]byte, 0, len(text)+len(text)/8+1)
		}
		out = append(out, text[from:it.match.Start]...)
		out = append(out, replacement(it.match)...)
		from = it.match.End
	}
	it.giveBack()
	if it.err != nil {
		return replaced[T]{err: it.err}
	}
	if out != nil {
		out = append(out, text[from:]...)
	}
	return replaced[T]{text: text, changed: out}
}

// fresh is the text in memory of its own.
func fresh(r replaced[[]byte]) ([]byte, error) {
	if r.err == nil && r.changed == nil {
		return append(make([]byte, 0, len(r.text)), r.text...), nil
	}
	return r.changed, r.err
}

// shared is the text as a string, the same one where nothing changed.
func shared(r replaced[string]) (string, error) {
	if r.changed == nil {
		return r.text, r.err
	}
	return stringOf(r.changed), nil
}
