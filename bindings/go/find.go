package dadofennel

// A Match is the bytes of a text from Start up to and without End, in which the pattern of this number occurs.
type Match struct {
	Pattern, Start, End int
}

// A Span says where a search looks: at the bytes of the text from Start up to and without End. It may start one past its end: then
// nothing is found, not even an empty pattern.
type Span struct {
	Start, End int
	// Anchored is whether a match starts at Start, or there is none.
	Anchored bool
	// Earliest is whether the match is that of Standard, whatever the automaton's Kind, so that the search ends as soon as it knows of
	// one.
	Earliest bool
}

// Find returns the match of the text, and whether there is one. It panics with ErrClosed or ErrNotUnanchored.
func (ac *Automaton) Find(text []byte) (Match, bool) {
	return found(ac.handle.find(text))
}

// FindString is Find in a string.
func (ac *Automaton) FindString(text string) (Match, bool) {
	return found(ac.handle.find(bytesOf(text)))
}

func found(m Match, status Status) (Match, bool) {
	if err := status.or(); err != nil {
		panic(err)
	}
	return m, status == done
}

// FindIn returns the match of a span of the text, and whether there is one.
//
// Errors: ErrBadSpan, ErrNotAnchored, ErrNotUnanchored, ErrClosed.
func (ac *Automaton) FindIn(text []byte, span Span) (Match, bool, error) {
	m, status := ac.handle.findIn(text, span)
	return m, status == done, status.or()
}

// IsMatch says whether some pattern occurs in the text. Under a leftmost kind it may read less than Find does. It panics with ErrClosed or
// ErrNotUnanchored.
func (ac *Automaton) IsMatch(text []byte) bool {
	return isMatch(ac.handle.isMatch(text))
}

// IsMatchString is IsMatch in a string.
func (ac *Automaton) IsMatchString(text string) bool {
	return isMatch(ac.handle.isMatch(bytesOf(text)))
}

func isMatch(status Status) bool {
	if err := status.or(); err != nil {
		panic(err)
	}
	return status == done
}

// FindAll returns all matches of Matches.
//
// Errors: ErrNotUnanchored, ErrClosed.
func (ac *Automaton) FindAll(text []byte) ([]Match, error) {
	it := ac.walk(text)
	it.borrow()
	all, err := it.All()
	it.giveBack()
	return all, err
}

// FindAllString is FindAll in a string.
func (ac *Automaton) FindAllString(text string) ([]Match, error) {
	return ac.FindAll(bytesOf(text))
}
