package dadofennel

// An Automaton is patterns that are searched for together. It never changes, so any number of goroutines may search with it. A copy of one
// is the same automaton: what closes one of them closes all. The zero value is a closed one.
type Automaton struct {
	handle   *handle
	patterns int
	kind     Kind
	start    StartKind
	engine   Engine
	memory   int
	longest  int
	anyEmpty bool
}

// New builds an automaton of the patterns. It copies them. The same pattern may be given several times. No patterns at all make an
// automaton that finds nothing.
//
// Time and memory are in proportion to the bytes of the patterns; for a DFA times the classes of bytes, at most 256. The error is a
// *BuildError.
func New(patterns [][]byte, options ...Option) (*Automaton, error) {
	return build(patterns, asked(options))
}

// NewStrings is New with strings as patterns.
func NewStrings(patterns []string, options ...Option) (*Automaton, error) {
	return build(patterns, asked(options))
}

// Close frees the automaton: at once, or when the last call returns that searches with it now. Each later search returns ErrClosed. What
// Stream, NewReplacer and NewMasker made of it goes on. A second call does nothing. The error is nil.
func (ac *Automaton) Close() error {
	ac.handle.close()
	return nil
}

// Len is how many patterns the automaton has.
func (ac *Automaton) Len() int {
	return ac.patterns
}

// PatternLen is how many bytes the pattern of this number has.
//
// Errors: ErrBadPattern, ErrClosed.
func (ac *Automaton) PatternLen(number int) (int, error) {
	if number < 0 || number >= ac.patterns {
		return 0, ErrBadPattern
	}
	length, status := ac.handle.patternLen(uint32(number))
	return length, status.or()
}

// Longest is how many bytes the longest pattern has; 0 where there is none.
func (ac *Automaton) Longest() int {
	return ac.longest
}

// Kind is which of several overlapping occurrences is the match.
func (ac *Automaton) Kind() Kind {
	return ac.kind
}

// StartKind is which searches the automaton was built for.
func (ac *Automaton) StartKind() StartKind {
	return ac.start
}

// Engine is what searches: Noncontiguous, Contiguous or DFA.
func (ac *Automaton) Engine() Engine {
	return ac.engine
}

// Memory is about how many bytes of C the automaton takes until it is closed.
func (ac *Automaton) Memory() int {
	return ac.memory
}
