package dadofennel

import "io"

// How much room there is for a text that the library rewrites: so many bytes are written at once, at most.
const writeAtOnce = 32 << 10

// A Replacer writes what is written to it to another writer, with each match replaced: what ReplaceAll makes of the whole text, wherever
// one piece ends and the next begins. What is kept back between two writes is what a match may still need: at most as many bytes as the
// longest pattern has, or one. So it must be closed.
//
// A Replacer serves one goroutine at a time. It keeps what it needs of the Automaton, which may be closed before it.
type Replacer struct {
	pipe pipe
}

// NewReplacer makes a Replacer that writes to out; replacements has one for each pattern. It copies them. It takes 64 KiB of memory, or
// 8 times as much as the longest pattern has, and 32 KiB for what is written, until it is closed. Any Kind will do.
//
// Errors: ErrWrongCount, ErrNotUnanchored, ErrEmptyPattern, ErrNoMemory, ErrClosed.
func (ac *Automaton) NewReplacer(out io.Writer, replacements [][]byte) (*Replacer, error) {
	return newReplacer(ac, out, replacements)
}

// NewReplacerStrings is NewReplacer with strings as replacements.
func (ac *Automaton) NewReplacerStrings(out io.Writer, replacements []string) (*Replacer, error) {
	return newReplacer(ac, out, replacements)
}

func newReplacer[T text](ac *Automaton, out io.Writer, replacements []T) (*Replacer, error) {
	if len(replacements) != ac.patterns {
		return nil, ErrWrongCount
	}
	made, status := replacer(ac.handle, replacements)
	if status != done {
		return nil, status
	}
	return &Replacer{pipe{out: out, made: made}}, nil
}

// NewReplacerFunc makes a Replacer that replaces each match by what the function returns. The function is given the match, with places
// counted from the first byte that was written, and its bytes, which it must not keep. It must not write to the Replacer.
//
// Errors: ErrNotUnanchored, ErrEmptyPattern, ErrNoMemory, ErrClosed.
func (ac *Automaton) NewReplacerFunc(out io.Writer, replacement func(m Match, match []byte) []byte) (*Replacer, error) {
	made, status := ac.handle.stream()
	return spliced(out, made, status, replacement)
}

// NewWordReplacer makes a Replacer of the whole words under the kind, as ReplaceWords does it; replacements has one for each pattern. A
// word is replaced once the byte after it was written.
//
// Errors: ErrWrongCount, ErrBadKind, ErrNotUnanchored, ErrNotStandard, ErrEmptyPattern, ErrNoMemory, ErrClosed.
func (ac *Automaton) NewWordReplacer(out io.Writer, kind Kind, replacements [][]byte) (*Replacer, error) {
	if len(replacements) != ac.patterns {
		return nil, ErrWrongCount
	}
	replacements = append([][]byte(nil), replacements...)
	return ac.NewWordReplacerFunc(out, kind, func(m Match, _ []byte) []byte { return replacements[m.Pattern] })
}

// NewWordReplacerFunc makes a Replacer of the whole words under the kind, as NewReplacerFunc does it with matches.
//
// Errors: ErrBadKind, ErrNotUnanchored, ErrNotStandard, ErrEmptyPattern, ErrNoMemory, ErrClosed.
func (ac *Automaton) NewWordReplacerFunc(out io.Writer, kind Kind, replacement func(m Match, match []byte) []byte) (*Replacer, error) {
	made, status := ac.handle.wordStream(kind)
	return spliced(out, made, status, replacement)
}

func spliced(out io.Writer, made *streamHandle, status Status, replacement func(m Match, match []byte) []byte) (*Replacer, error) {
	if status != done {
		return nil, status
	}
	return &Replacer{pipe{out: out, made: &splicer{stream: made, replacement: replacement, room: make([]match, laterBatch)}}}, nil
}

// Write takes a piece of the text, and writes all that is decided. It takes all of it, or returns an error: that of the writer, which
// ends the text, io.ErrShortWrite where that wrote less without one, ErrBadCount where it says that it wrote more, ErrFinished after Close,
// or ErrTooManyBytes where all pieces have more bytes than there are places.
func (r *Replacer) Write(piece []byte) (int, error) {
	return r.pipe.write(piece)
}

// WriteString is Write of a string, without a copy.
func (r *Replacer) WriteString(piece string) (int, error) {
	return r.pipe.write(bytesOf(piece))
}

// Close ends the text: it writes what was kept back, and frees the memory. It doesn't close the other writer. A second call does
// nothing. It returns the error that ended the text, if one did.
func (r *Replacer) Close() error {
	return r.pipe.close()
}

// A Masker writes what is written to it to another writer, with each byte that lies in an occurrence of some pattern replaced by one
// byte: what Mask makes of the whole text, wherever one piece ends and the next begins. What is kept back between two writes is fewer
// bytes than the longest pattern has. So it must be closed.
//
// A Masker serves one goroutine at a time. It keeps what it needs of the Automaton, which may be closed before it.
type Masker struct {
	pipe pipe
}

// NewMasker makes a Masker that writes to out. It takes 64 KiB of memory, or 8 times as much as the longest pattern has, and 32 KiB for
// what is written, until it is closed.
//
// Errors: ErrNotUnanchored, ErrNotStandard, ErrEmptyPattern, ErrNoMemory, ErrClosed.
func (ac *Automaton) NewMasker(out io.Writer, with byte) (*Masker, error) {
	made, status := ac.handle.masker(with)
	if status != done {
		return nil, status
	}
	return &Masker{pipe{out: out, made: made}}, nil
}

// Write takes a piece of the text, and writes all that no later byte changes. Its errors are those of Replacer.Write.
func (m *Masker) Write(piece []byte) (int, error) {
	return m.pipe.write(piece)
}

// WriteString is Write of a string, without a copy.
func (m *Masker) WriteString(piece string) (int, error) {
	return m.pipe.write(bytesOf(piece))
}

// Close ends the text: it writes what was kept back, and frees the memory. It doesn't close the other writer. A second call does
// nothing. It returns the error that ended the text, if one did.
func (m *Masker) Close() error {
	return m.pipe.close()
}

// A rewriter makes another text of one that comes in pieces. It is used by one goroutine at a time.
type rewriter interface {
	// step does the act with the piece. It returns how many bytes of it were taken, the next text that is decided, which lies there until
	// the next step, and whether there may be more, which is asked for before the next push.
	step(first act, piece []byte) (taken int, text []byte, more bool, status Status)
	free()
}

// pipe writes what a rewriter makes of the pieces that are written to it.
type pipe struct {
	out    io.Writer
	made   rewriter
	closed bool
	err    error
}

func (p *pipe) write(piece []byte) (int, error) {
	n := 0
	for n < len(piece) && p.err == nil {
		n += p.step(push, piece[n:])
	}
	return n, p.err
}

func (p *pipe) close() error {
	if p.closed {
		return nil
	}
	p.closed = true
	if p.err == nil {
		p.step(finish, nil)
	}
	p.made.free()
	err := p.err
	if err == nil {
		p.err = ErrFinished
	}
	return err
}

// step does the act with the piece, and writes all that is decided. It returns how many bytes of the piece were taken.
func (p *pipe) step(first act, piece []byte) int {
	taken, text, more, status := p.made.step(first, piece)
	p.put(text, status)
	for p.err == nil && more {
		_, text, more, status = p.made.step(ask, nil)
		p.put(text, status)
	}
	return taken
}

func (p *pipe) put(text []byte, status Status) {
	if p.err = status.or(); p.err != nil || len(text) == 0 {
		return
	}
	n, err := p.out.Write(text)
	switch {
	case n < 0 || n > len(text):
		err = ErrBadCount
	case err == nil && n < len(text):
		err = io.ErrShortWrite
	}
	p.err = err
}

// A splicer replaces the matches of a stream by what a function returns.
type splicer struct {
	stream      *streamHandle
	replacement func(m Match, match []byte) []byte
	room        []match
	finished    bool
	given       int    // up to which place the text was given
	match       []byte // the bytes of a match
	text        []byte // what is given by a step
}

func (s *splicer) free() {
	s.stream.free()
}

func (s *splicer) step(first act, piece []byte) (int, []byte, bool, Status) {
	s.text = s.text[:0]
	s.finished = s.finished || first == finish
	taken, count, status := s.stream.step(first, piece, s.room)
	if status != done {
		return taken, nil, false, status
	}
	held := s.stream.view()
	for _, m := range s.room[:count] {
		s.replace(exported(m), held)
	}
	more := count == len(s.room)
	switch {
	case more:
	case s.finished:
		s.copyTo(held.from+len(held.bytes), held)
	default:
		s.copyTo(held.cut, held)
	}
	return taken, s.text, more, done
}

func (s *splicer) replace(m Match, held held) {
	s.copyTo(m.Start, held)
	s.match = append(s.match[:0], held.bytes[m.Start-held.from:m.End-held.from]...)
	s.text = append(s.text, s.replacement(m, s.match)...)
	s.given = m.End
}

// copyTo gives the text up to a place as it is.
func (s *splicer) copyTo(end int, held held) {
	if s.given < end {
		s.text = append(s.text, held.bytes[s.given-held.from:end-held.from]...)
		s.given = end
	}
}
