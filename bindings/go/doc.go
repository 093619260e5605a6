// Package dadofennel searches texts for many patterns at once, and replaces or masks them.
//
// The searches are those of a library for C, which is proved to find exactly what its definitions say. What this package adds is tested,
// and not proved. An Automaton is built once of patterns, and searches as often as needed, in time that depends on the bytes that it reads and
// not on how many patterns there are:
//
//	ac, err := dadofennel.NewStrings([]string{"fox", "brown", "quick"})
//	..
//	text, err := ac.ReplaceAllString("The quick brown fox.", []string{"sloth", "grey", "slow"})
//
// Patterns and texts are bytes of any value. Patterns are numbered from 0, in the order in which they are given. Places are counted in
// bytes from 0, and the end of a match is the place after its last byte. An empty pattern occurs at every place.
//
// # Errors
//
// An error is a Status, or unwraps to one, so errors.Is compares it. Most errors are wrong uses, such as a mask by an automaton of a
// leftmost kind. Find, FindString, IsMatch and IsMatchString return no error: they panic with the Status where the automaton was closed,
// or built for anchored searches alone.
//
// # Memory
//
// An Automaton, a Stream, a Scanner, a Replacer and a Masker hold memory that C allocated. Go's garbage collector doesn't count it. Close
// frees it. Where Close isn't called, a finalizer frees it at some time after the last use.
//
// # Goroutines
//
// Any number of goroutines may search with one Automaton, and one may close it meanwhile: the searches that have begun end as they
// would, and later ones return ErrClosed. Each other value of this package serves one goroutine at a time. A text must not change during
// a call that searches it, nor while an Iter over it is used.
//
// # Cost
//
// A call of C costs some tens of nanoseconds. So matches are asked for in batches, of 16 and then 256. No text is copied to be searched,
// strings included.
package dadofennel
