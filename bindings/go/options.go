package dadofennel

import "fmt"

// A Kind says which of several overlapping occurrences is the match.
type Kind uint32

const (
	// Standard takes the occurrence that ends first; of those the one that starts first, then the lower number.
	Standard Kind = iota
	// LeftmostFirst takes the one that starts first; of those the lower number, as an alternation of package regexp does.
	LeftmostFirst
	// LeftmostLongest takes the one that starts first; of those the longest, as POSIX has it; then the lower number.
	LeftmostLongest
)

func (k Kind) String() string {
	return nameOf(uint32(k), "Standard", "LeftmostFirst", "LeftmostLongest")
}

// A StartKind says which searches an automaton is built for.
type StartKind uint32

const (
	// Unanchored is for matches that may start anywhere.
	Unanchored StartKind = iota
	// Anchored is for matches that start where the search does.
	Anchored
	// Both is for both; a DFA takes about twice the memory.
	Both
)

func (k StartKind) String() string {
	return nameOf(uint32(k), "Unanchored", "Anchored", "Both")
}

// An Engine is what searches. It changes time and memory, and no result.
type Engine uint32

const (
	// Auto lets the library choose; Automaton.Engine is what it chose.
	Auto Engine = iota
	// Noncontiguous is an NFA that is built soonest.
	Noncontiguous
	// Contiguous is an NFA that takes the least memory. Take it for patterns of a stranger's choice.
	Contiguous
	// DFA searches fastest, and takes the most memory.
	DFA
)

func (e Engine) String() string {
	return nameOf(uint32(e), "Auto", "Noncontiguous", "Contiguous", "DFA")
}

func nameOf(number uint32, names ...string) string {
	if int(number) < len(names) {
		return names[number]
	}
	return fmt.Sprint(number)
}

// An Option is a setting of New and NewStrings.
type Option func(*settings)

// settings has what the options say; a number below 0 is left as the library has it.
type settings struct {
	kind                   Kind
	start                  StartKind
	engine                 Engine
	fold                   bool
	noPrefilter, noClasses bool
	denseDepth, rowMemory  int
	pairs                  [][2]byte
}

// WithKind sets which of several overlapping occurrences is the match: Standard, if it isn't given. Overlapping matches, whole words and
// masks need that one.
func WithKind(kind Kind) Option {
	return func(s *settings) { s.kind = kind }
}

// WithStartKind sets which searches the automaton is for: Unanchored, if it isn't given.
func WithStartKind(start StartKind) Option {
	return func(s *settings) { s.start = start }
}

// WithEngine sets what searches: Auto, if it isn't given. That takes a DFA for up to 100 patterns and one start kind, else a contiguous
// NFA, and goes on to the next where one would be too large.
func WithEngine(engine Engine) Option {
	return func(s *settings) { s.engine = engine }
}

// WithFold makes ASCII letters match in either case. It doesn't go with WithPairs.
func WithFold() Option {
	return func(s *settings) { s.fold = true }
}

// WithPairs makes the two bytes of each pair match each other. No byte may be in two pairs, or twice in one.
func WithPairs(pairs ...[2]byte) Option {
	return func(s *settings) { s.pairs = append(s.pairs, pairs...) }
}

// WithPrefilter says whether searches skip by a prefilter, where one serves: true, if it isn't given. It changes no result.
func WithPrefilter(on bool) Option {
	return func(s *settings) { s.noPrefilter = !on }
}

// WithByteClasses says whether bytes that lead alike are one class: true, if it isn't given. Without classes a state takes more memory.
// It changes no result.
func WithByteClasses(on bool) Option {
	return func(s *settings) { s.noClasses = !on }
}

// WithDenseDepth sets to which depth the states of an NFA keep a row: 3 for Noncontiguous and 2 for Contiguous, if it isn't given or is
// below 0. It changes no result.
func WithDenseDepth(depth int) Option {
	return func(s *settings) { s.denseDepth = depth }
}

// WithRowMemory sets how many bytes of memory the rows of a contiguous NFA may take: 16 MiB, if it isn't given or is below 0. 0 is for
// none. It changes no result.
func WithRowMemory(bytes int) Option {
	return func(s *settings) { s.rowMemory = bytes }
}

func asked(options []Option) *settings {
	s := &settings{denseDepth: -1, rowMemory: -1}
	for _, option := range options {
		option(s)
	}
	return s
}
