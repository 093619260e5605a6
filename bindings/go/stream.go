package dadofennel

import "io"

// A Stream searches a text that is written to it piece by piece, under any Kind. A match may begin in one piece and end in another; its
// places count from the first byte that was written. After each Write the matches that nothing which follows can change are taken by
// Next and Match:
//
//	for _, piece := range pieces {
//		stream.Write(piece)
//		for stream.Next() {
//			use(stream.Match())
//		}
//	}
//	stream.Close()
//	for stream.Next() {
//		use(stream.Match())
//	}
//
// Matches that aren't taken wait, and take memory. A Stream serves one goroutine at a time. It keeps what it needs of the Automaton,
// which may be closed before it.
type Stream struct {
	made   *streamHandle
	room   []match
	found  []Match
	taken  int
	match  Match
	closed bool
	err    error
}

// Stream begins a text that comes in pieces, whose matches are those of Matches. It takes 64 KiB of memory, or 8 times as much as the
// longest pattern has, until it is closed.
//
// Errors: ErrNotUnanchored, ErrEmptyPattern, ErrNoMemory, ErrClosed.
func (ac *Automaton) Stream() (*Stream, error) {
	return newStream(ac.handle.stream())
}

// WordStream begins a text that comes in pieces, whose whole words under the kind are given: those of Words. A word is decided once the
// byte after it was written, or the stream was closed; under a leftmost kind, once no byte that may follow can change it either.
//
// Errors: ErrBadKind, ErrNotUnanchored, ErrNotStandard, ErrEmptyPattern, ErrNoMemory, ErrClosed.
func (ac *Automaton) WordStream(kind Kind) (*Stream, error) {
	return newStream(ac.handle.wordStream(kind))
}

func newStream(made *streamHandle, status Status) (*Stream, error) {
	if status != done {
		return nil, status
	}
	return &Stream{made: made, room: make([]match, laterBatch)}, nil
}

// Write searches a piece, which isn't needed after the call. It takes all of it, or returns an error: ErrFinished after Close, and
// ErrTooManyBytes where all pieces together have more bytes than there are places.
func (s *Stream) Write(piece []byte) (int, error) {
	n := 0
	for n < len(piece) && s.err == nil {
		n += s.step(push, piece[n:])
	}
	return n, s.err
}

// WriteString is Write of a string, without a copy.
func (s *Stream) WriteString(piece string) (int, error) {
	return s.Write(bytesOf(piece))
}

// Close ends the text, so that all matches that are left are decided, and frees the memory of the stream. Next gives these matches. A
// second call does nothing. It returns the error that ended a Write before.
func (s *Stream) Close() error {
	if s.closed {
		return nil
	}
	s.closed = true
	if s.err == nil {
		s.step(finish, nil)
	}
	s.made.free()
	err := s.err
	if err == nil {
		s.err = ErrFinished
	}
	return err
}

// Next goes on to the next match that is decided, which Match returns then. It returns false where there is none for now.
func (s *Stream) Next() bool {
	if s.taken == len(s.found) {
		s.found, s.taken = s.found[:0], 0
		return false
	}
	s.match = s.found[s.taken]
	s.taken++
	return true
}

// Match is the match that Next went on to.
func (s *Stream) Match() Match {
	return s.match
}

// step does the act with the piece, and appends all matches that are decided to those found. It returns how many bytes of the piece were taken.
func (s *Stream) step(first act, piece []byte) int {
	taken, written, status := s.made.step(first, piece, s.room)
	s.gather(written, status)
	for s.err == nil && written == len(s.room) {
		_, written, status = s.made.step(ask, nil, s.room)
		s.gather(written, status)
	}
	return taken
}

func (s *Stream) gather(written int, status Status) {
	for _, m := range s.room[:written] {
		s.found = append(s.found, exported(m))
	}
	s.err = status.or()
}

// How many bytes are read at once: as many as a stream mostly takes at once.
const readAtOnce = 56 << 10

// How many reads in a row may give nothing.
const emptyReads = 100

// A Scanner gives the matches of what a reader has, each as soon as it is decided:
//
//	scanner := ac.FindReader(file)
//	defer scanner.Close()
//	for scanner.Next() {
//		use(scanner.Match())
//	}
//	return scanner.Err()
//
// Places count from the first byte that was read. A Scanner serves one goroutine at a time.
type Scanner struct {
	reader io.Reader
	stream *Stream
	buffer []byte
	err    error
}

// FindReader searches what the reader has. It reads 56 KiB at once, as Next needs more. Where it can't be searched, Next returns false,
// and Err has what Stream returns.
func (ac *Automaton) FindReader(reader io.Reader) *Scanner {
	return newScanner(reader)(ac.Stream())
}

// FindWordsReader gives the whole words under the kind of what the reader has: those of WordStream, as FindReader does it.
func (ac *Automaton) FindWordsReader(reader io.Reader, kind Kind) *Scanner {
	return newScanner(reader)(ac.WordStream(kind))
}

func newScanner(reader io.Reader) func(*Stream, error) *Scanner {
	return func(stream *Stream, err error) *Scanner {
		if err != nil {
			return &Scanner{err: err}
		}
		return &Scanner{reader: reader, stream: stream, buffer: make([]byte, readAtOnce)}
	}
}

// Next goes on to the next match, which Match returns then. It reads as long as it knows of none. It returns false at the end of the
// text, and after an error.
func (s *Scanner) Next() bool {
	if s.stream == nil {
		return false
	}
	for !s.stream.Next() {
		if s.stream.closed {
			return false
		}
		s.read()
	}
	return true
}

// Match is the match that Next went on to.
func (s *Scanner) Match() Match {
	if s.stream == nil {
		return Match{}
	}
	return s.stream.Match()
}

// Err is the error that ended the search, or nil where it met the end of the text. io.EOF is no error.
func (s *Scanner) Err() error {
	return s.err
}

// Close frees the memory of the search, which Next does, too, at the end of the text. After it Next returns false. The reader isn't
// closed.
func (s *Scanner) Close() error {
	if s.stream != nil {
		s.stream.Close()
		s.stream.found = nil
		s.stream.taken = 0
	}
	return nil
}

// read reads once, and searches that. At the end of the text, and after an error, the stream is closed. What was read before an error is
// searched, but the text goes on after it, so only what was decided is given.
func (s *Scanner) read() {
	var n int
	var err error
	for i := 0; n == 0 && err == nil; i++ {
		if i == emptyReads {
			err = io.ErrNoProgress
			break
		}
		if n, err = s.reader.Read(s.buffer); n < 0 || n > len(s.buffer) {
			n, err = 0, ErrBadCount
		}
	}
	if _, fault := s.stream.Write(s.buffer[:n]); fault != nil {
		err = fault
	}
	if err == nil {
		return
	}
	if err != io.EOF {
		s.err, s.stream.err = err, err
	}
	s.stream.Close()
}
