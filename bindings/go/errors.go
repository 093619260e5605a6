package dadofennel

import (
	"errors"
	"fmt"
)

// A Status is an error of the library. Compare one by errors.Is:
//
//	if errors.Is(err, dadofennel.ErrNotStandard) { .. }
type Status uint32

// The errors. Their numbers are those of the library for C; the ones that no call here can meet are left out.
const (
	// ErrClosed is returned by each search of an automaton that was closed.
	ErrClosed Status = 2
	// ErrNoMemory is returned where C gets no memory. Go itself ends the program where it gets none.
	ErrNoMemory Status = 4
	// ErrTooManyStates is of a build that needs more states than can be numbered.
	ErrTooManyStates Status = 5
	// ErrTooManyPatterns is of a build of more than 2147483647 patterns.
	ErrTooManyPatterns Status = 6
	// ErrPatternTooLong is of a build with a pattern of more than 2147483646 bytes.
	ErrPatternTooLong Status = 7
	// ErrBadKind is of a build, or of a search for words, by a Kind that is none of the three.
	ErrBadKind Status = 8
	// ErrBadStartKind is of a build by a StartKind that is none of the three.
	ErrBadStartKind Status = 9
	// ErrBadEngine is of a build by an Engine that is none of the four.
	ErrBadEngine Status = 10
	// ErrBadPairs is of a build where WithPairs names a byte twice, or stands beside WithFold.
	ErrBadPairs Status = 11
	// ErrNotAnchored is of an anchored search by an automaton that wasn't built for one.
	ErrNotAnchored Status = 12
	// ErrNotUnanchored is of an unanchored search by an automaton that was built for anchored ones alone.
	ErrNotUnanchored Status = 13
	// ErrNotStandard is of overlapping matches, whole words or a mask by an automaton of a leftmost kind.
	ErrNotStandard Status = 14
	// ErrBadSpan is of a span that ends after the text, or starts more than one past its end, or has a negative place.
	ErrBadSpan Status = 15
	// ErrWrongCount is returned where there are not as many replacements as patterns.
	ErrWrongCount Status = 17
	// ErrBadPattern is returned where the automaton has no pattern of a number.
	ErrBadPattern Status = 19
	// ErrEmptyPattern is of whole words, or of a text in pieces, by an automaton that has an empty pattern.
	ErrEmptyPattern Status = 20
	// ErrFinished is of a write to a Stream, a Replacer or a Masker that was finished or closed.
	ErrFinished Status = 22
	// ErrTooManyBytes is returned where more bytes were written than there are places.
	ErrTooManyBytes Status = 23
)

// Statuses that are no errors.
const (
	done Status = 0
	none Status = 1
)

// ErrBadCount is of a writer, or a reader, which says that it took, or gave, more bytes than there were, or fewer than none.
var ErrBadCount = errors.New("dadofennel: a reader or a writer counted bytes that there were not")

// Error is the library's text of the status.
func (s Status) Error() string {
	if s == ErrClosed {
		return "dadofennel: the automaton was closed"
	}
	return "dadofennel: " + statusText(s)
}

// or is nil where the status is no error.
func (s Status) or() error {
	if s == done || s == none {
		return nil
	}
	return s
}

// A BuildError is an automaton that can't be built. It unwraps to its Status.
type BuildError struct {
	// Status is one of ErrNoMemory up to ErrBadPairs.
	Status Status
	// Pattern is the number of the pattern at ErrPatternTooLong, and 0 elsewhere.
	Pattern int
	// Byte is the byte that was named twice at ErrBadPairs, and 0 elsewhere, also where pairs stand beside WithFold.
	Byte byte
	// Count is how many bytes the pattern has at ErrPatternTooLong. At ErrTooManyStates and ErrTooManyPatterns it is a number past the
	// greatest one that would be needed. It is 0 elsewhere.
	Count uint64

	beside bool // pairs stand beside WithFold
}

func (e *BuildError) Error() string {
	switch {
	case e.Status == ErrPatternTooLong:
		return fmt.Sprintf("%v: pattern %d has %d bytes", e.Status, e.Pattern, e.Count)
	case e.Status == ErrBadPairs && !e.beside:
		return fmt.Sprintf("%v: byte %#02x", e.Status, e.Byte)
	}
	return e.Status.Error()
}

// Unwrap returns the Status.
func (e *BuildError) Unwrap() error {
	return e.Status
}

// buildError is the error of a build; place and count are what the library says of it.
func buildError(status Status, asked *settings, place uint32, count uint64) *BuildError {
	err := &BuildError{Status: status, Count: count}
	switch status {
	case ErrPatternTooLong:
		err.Pattern = int(place)
	case ErrBadPairs:
		err.Byte, err.beside = byte(place), asked.fold
	}
	return err
}
