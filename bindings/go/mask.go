package dadofennel

// Mask returns a new text, in which each byte that lies in an occurrence of some pattern is the byte `with`, and every other byte is as it
// was. All occurrences count, overlapping ones too. So where `with` is in no pattern, and paired with no byte of one, no pattern occurs in
// the new text, the empty one aside. An empty pattern masks nothing.
//
// Errors: ErrNotUnanchored, ErrNotStandard, ErrClosed.
func (ac *Automaton) Mask(text []byte, with byte) ([]byte, error) {
	return masked(append(make([]byte, 0, len(text)), text...), with, ac.handle.mask)
}

// MaskString is Mask of a string.
func (ac *Automaton) MaskString(text string, with byte) (string, error) {
	b, err := masked([]byte(text), with, ac.handle.mask)
	return stringOf(b), err
}

// MaskInPlace does what Mask does, where the text lies. The text is unchanged at an error.
func (ac *Automaton) MaskInPlace(text []byte, with byte) error {
	return ac.handle.mask(text, with).or()
}

// MaskWords returns a new text, in which each byte that lies in a whole word of AllWords is the byte `with`, and every other byte is as it
// was. Where `with` is a word byte that is in no pattern, and paired with no byte of one, no whole word is left. Else one may be left, or
// may have come about, beside a masked byte. An empty pattern masks nothing. It takes memory for a copy of the text, until it returns.
//
// Errors: ErrNotUnanchored, ErrNotStandard, ErrNoMemory, ErrClosed.
func (ac *Automaton) MaskWords(text []byte, with byte) ([]byte, error) {
	return masked(append(make([]byte, 0, len(text)), text...), with, ac.handle.maskWords)
}

// MaskWordsString is MaskWords of a string.
func (ac *Automaton) MaskWordsString(text string, with byte) (string, error) {
	b, err := masked([]byte(text), with, ac.handle.maskWords)
	return stringOf(b), err
}

// MaskWordsInPlace does what MaskWords does, where the text lies. The text is unchanged at an error.
func (ac *Automaton) MaskWordsInPlace(text []byte, with byte) error {
	return ac.handle.maskWords(text, with).or()
}

// masked masks a copy of a text.
func masked(b []byte, with byte, mask func([]byte, byte) Status) ([]byte, error) {
	if err := mask(b, with).or(); err != nil {
		return nil, err
	}
	return b, nil
}
