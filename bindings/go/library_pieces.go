package dadofennel

// #include "calls.h"
import "C"

import (
	"runtime"
	"unsafe"
)

// This file calls the library for texts that come in pieces, as library.go does for whole ones.

// An act is what a step does before it asks for what is decided.
type act = C.int

const (
	ask    act = C.DADOGO_ASK
	push   act = C.DADOGO_PUSH
	finish act = C.DADOGO_FINISH
)

// streamHandle is a stream of the library. It is used by one goroutine at a time.
type streamHandle struct {
	stream C.dadogo_at
}

func (h *handle) stream() (*streamHandle, Status) {
	if !h.enter() {
		return nil, ErrClosed
	}
	made := C.dadogo_stream_new(h.ac)
	h.leave()
	return ownedStream(made)
}

func (h *handle) wordStream(kind Kind) (*streamHandle, Status) {
	if !h.enter() {
		return nil, ErrClosed
	}
	made := C.dadogo_word_stream_new(h.ac, C.uint32_t(kind))
	h.leave()
	return ownedStream(made)
}

func ownedStream(made C.struct_dadogo_made) (*streamHandle, Status) {
	if made.status != C.DADO_OK {
		return nil, Status(made.status)
	}
	s := &streamHandle{made.at}
	runtime.SetFinalizer(s, (*streamHandle).free)
	return s, done
}

func (s *streamHandle) free() {
	C.dadogo_stream_free(s.stream)
	s.stream = 0
}

// step does the act with the piece, and writes matches that are decided to the room. Where they fill it there may be more.
func (s *streamHandle) step(first act, piece []byte, room []match) (taken, written int, status Status) {
	if s.stream == 0 {
		return 0, 0, ErrFinished // a copy of what has it was closed
	}
	step := C.dadogo_stream_step(s.stream, first, at(piece), sizeOf(piece), &room[0], C.size_t(len(room)))
	runtime.KeepAlive(s)
	return int(step.taken), int(step.written), Status(step.status)
}

// held is what a stream holds of the text: the first byte has the place from, and before the place cut all is decided.
type held struct {
	bytes     []byte
	from, cut int
}

// view lends the bytes until the next push.
func (s *streamHandle) view() held {
	view := C.dadogo_stream_view(s.stream)
	runtime.KeepAlive(s)
	return held{unsafe.Slice((*byte)(view.at), int(view.len)), int(view.from), int(view.cut)}
}

// replacerHandle is a replacer of the library, with the replacements.
type replacerHandle struct {
	replacer C.dadogo_at
	with     lent
	rest     C.struct_dadogo_slice
	room     []byte
}

func replacer[T text](h *handle, replacements []T) (*replacerHandle, Status) {
	with, ok := lend(replacements)
	if !ok {
		return nil, ErrNoMemory
	}
	if !h.enter() {
		with.free()
		return nil, ErrClosed
	}
	made := C.dadogo_replacer_new(h.ac)
	h.leave()
	if made.status != C.DADO_OK {
		with.free()
		return nil, Status(made.status)
	}
	r := &replacerHandle{replacer: made.at, with: with, room: make([]byte, writeAtOnce)}
	runtime.SetFinalizer(r, (*replacerHandle).free)
	return r, done
}

func (r *replacerHandle) free() {
	C.dadogo_replacer_free(r.replacer)
	r.replacer = 0
	r.rest = C.struct_dadogo_slice{}
	r.with.free()
}

func (r *replacerHandle) step(first act, piece []byte) (int, []byte, bool, Status) {
	if r.replacer == 0 {
		return 0, nil, false, ErrFinished
	}
	step := C.dadogo_replacer_step(r.replacer, first, at(piece), sizeOf(piece), r.with.list, r.with.count, r.rest, at(r.room), sizeOf(r.room))
	r.rest = step.rest
	runtime.KeepAlive(r)
	return int(step.taken), r.room[:step.written], int(step.written) == len(r.room), Status(step.status)
}

// maskerHandle is a masker of the library.
type maskerHandle struct {
	masker C.dadogo_at
	rest   C.struct_dadogo_slice
	room   []byte
}

func (h *handle) masker(with byte) (*maskerHandle, Status) {
	if !h.enter() {
		return nil, ErrClosed
	}
	made := C.dadogo_masker_new(h.ac, C.uint8_t(with))
	h.leave()
	if made.status != C.DADO_OK {
		return nil, Status(made.status)
	}
	m := &maskerHandle{masker: made.at, room: make([]byte, writeAtOnce)}
	runtime.SetFinalizer(m, (*maskerHandle).free)
	return m, done
}

func (m *maskerHandle) free() {
	C.dadogo_masker_free(m.masker)
	m.masker = 0
	m.rest = C.struct_dadogo_slice{}
}

func (m *maskerHandle) step(first act, piece []byte) (int, []byte, bool, Status) {
	if m.masker == 0 {
		return 0, nil, false, ErrFinished
	}
	step := C.dadogo_masker_step(m.masker, first, at(piece), sizeOf(piece), m.rest, at(m.room), sizeOf(m.room))
	m.rest = step.rest
	runtime.KeepAlive(m)
	return int(step.taken), m.room[:step.written], int(step.written) == len(m.room), Status(step.status)
}
