package dadofennel

// #include "calls.h"
import "C"

import (
	"reflect"
	"runtime"
	"sync/atomic"
	"unsafe"
)

// This file alone calls the library, and alone has unsafe. What the header asks of a caller holds by what is here: a handle is freed
// once, and not while a call uses it; texts and rooms are slices; no memory of Go that is passed has pointers in it.

// What the library writes and a caller keeps: a match, and where a walk or a listing stands. They have no pointers.
type (
	match  = C.dado_match
	cursor = C.dado_cursor
	place  = C.dado_place
)

// A text is bytes, in a form that can be written or in one that can't.
type text interface{ []byte | string }

// bytesOf is the string's bytes where they lie. They are never written.
func bytesOf(s string) []byte {
	if s == "" {
		return nil
	}
	header := (*reflect.StringHeader)(unsafe.Pointer(&s))
	return unsafe.Slice((*byte)(unsafe.Pointer(header.Data)), len(s))
}

// stringOf is a string of the bytes where they lie. They are never written again.
func stringOf(b []byte) string {
	return *(*string)(unsafe.Pointer(&b))
}

// at is where the text begins, and NULL for an empty one.
func at(b []byte) *C.uint8_t {
	if len(b) == 0 {
		return nil
	}
	return (*C.uint8_t)(&b[0])
}

func sizeOf(b []byte) C.size_t {
	return C.size_t(len(b))
}

func exported(m match) Match {
	return Match{Pattern: int(m.pattern), Start: int(m.start), End: int(m.end)}
}

func statusText(s Status) string {
	return C.GoString(C.dado_error_text(C.dado_status(s)))
}

// Version is the version of the library that runs, such as "1.1.0".
func Version() string {
	return C.GoString(C.dado_version())
}

// CPU says for which processors the code is compiled that serves: "x86-64-v2", or "x86-64-v3" with vectors of 32 bytes; "generic" where
// the library has one code for all of its machine.
func CPU() string {
	return C.GoString(C.dado_cpu())
}

// lent is a list of texts in memory that C allocated, since C may not be passed a pointer of Go to pointers of Go.
type lent struct {
	list  C.dadogo_at
	count C.size_t
}

// lend copies the texts. It returns false where memory ran out. What it writes to memory of C has no pointers: the runtime would take what
// lay there before for one.
func lend[T text](texts []T) (lent, bool) {
	const each = int(unsafe.Sizeof(C.struct_dadogo_slice{}))
	size := each * len(texts)
	for _, t := range texts {
		if size += len(t); size < 0 {
			return lent{}, false
		}
	}
	if size == 0 {
		return lent{}, true
	}
	memory := C.dadogo_take(C.size_t(size))
	if memory == nil {
		return lent{}, false
	}
	first := C.dadogo_at(uintptr(memory))
	list := unsafe.Slice((*C.struct_dadogo_slice)(memory), len(texts))
	bytes := unsafe.Slice((*byte)(memory), size)
	from := each * len(texts)
	for i, t := range texts {
		list[i] = C.struct_dadogo_slice{first + C.dadogo_at(from), C.size_t(len(t))}
		from += copy(bytes[from:], t)
	}
	return lent{first, C.size_t(len(texts))}, true
}

func (l *lent) free() {
	C.dadogo_give(l.list)
	l.list, l.count = 0, 0
}

// handle is an automaton of the library. It is never copied: all that use the automaton point to it, and it is freed once none does.
type handle struct {
	ac C.dadogo_at
	// use is twice the number of calls that use the automaton now, and one more once it was closed. The last one frees it.
	use   atomic.Int64
	freed atomic.Bool
}

const closedBit = 1

// enter says that a call begins to use the automaton. It returns false where that was closed, or never built. Else leave must be called.
func (h *handle) enter() bool {
	if h == nil {
		return false
	}
	if h.use.Add(2)&closedBit == 0 {
		return true
	}
	h.leave()
	return false
}

func (h *handle) leave() {
	if h.use.Add(-2) == closedBit {
		h.free()
	}
}

// close lets no further call use the automaton, and frees it once no call does. A second one does nothing.
func (h *handle) close() {
	for h != nil {
		use := h.use.Load()
		if use&closedBit != 0 {
			return
		}
		if h.use.CompareAndSwap(use, use|closedBit) {
			if use == 0 {
				h.free()
			}
			return
		}
	}
}

// free frees the automaton once: a call that came too late also finds that none uses it.
func (h *handle) free() {
	if h.freed.CompareAndSwap(false, true) {
		C.dadogo_free(h.ac)
	}
}

// build builds an automaton of the patterns.
func build[T text](patterns []T, asked *settings) (*Automaton, error) {
	given, ok := lend(patterns)
	if !ok {
		return nil, &BuildError{Status: ErrNoMemory}
	}
	defer given.free()
	built := C.dadogo_build(given.list, given.count, asked.given(), pairsAt(asked.pairs), C.size_t(len(asked.pairs)))
	if built.status != C.DADO_OK {
		return nil, buildError(Status(built.status), asked, uint32(built.fault.pattern), uint64(built.fault.count))
	}
	h := &handle{ac: built.automaton}
	runtime.SetFinalizer(h, (*handle).close)
	return &Automaton{
		handle:   h,
		patterns: len(patterns),
		kind:     asked.kind,
		start:    asked.start,
		engine:   Engine(built.engine),
		memory:   int(built.memory),
		longest:  int(built.longest),
		anyEmpty: built.shortest == 0,
	}, nil
}

// given is the settings as the library takes them, without the pairs.
func (s *settings) given() C.dado_settings {
	given := C.dado_settings_default()
	given.kind, given.start_kind, given.engine = C.uint32_t(s.kind), C.uint32_t(s.start), C.uint32_t(s.engine)
	given.fold, given.prefilter, given.byte_classes = flag(s.fold), flag(!s.noPrefilter), flag(!s.noClasses)
	if s.denseDepth >= 0 {
		given.dense_depth = C.size_t(s.denseDepth)
	}
	if s.rowMemory >= 0 {
		given.row_memory = C.size_t(s.rowMemory)
	}
	return given
}

func flag(on bool) C.uint32_t {
	if on {
		return 1
	}
	return 0
}

func pairsAt(pairs [][2]byte) *C.dado_pair {
	if len(pairs) == 0 {
		return nil
	}
	return (*C.dado_pair)(unsafe.Pointer(&pairs[0]))
}

func (h *handle) patternLen(number uint32) (int, Status) {
	if !h.enter() {
		return 0, ErrClosed
	}
	length := C.dadogo_pattern_len(h.ac, C.uint32_t(number))
	h.leave()
	return int(length.len), Status(length.status)
}

func (h *handle) find(b []byte) (Match, Status) {
	if !h.enter() {
		return Match{}, ErrClosed
	}
	found := C.dadogo_find(h.ac, at(b), sizeOf(b))
	h.leave()
	return exported(found.match), Status(found.status)
}

func (h *handle) findIn(b []byte, span Span) (Match, Status) {
	if !h.enter() {
		return Match{}, ErrClosed
	}
	where := C.dado_span{C.size_t(span.Start), C.size_t(span.End), flag(span.Anchored), flag(span.Earliest)}
	found := C.dadogo_find_in(h.ac, at(b), sizeOf(b), where)
	h.leave()
	return exported(found.match), Status(found.status)
}

func (h *handle) isMatch(b []byte) Status {
	if !h.enter() {
		return ErrClosed
	}
	status := C.dadogo_is_match(h.ac, at(b), sizeOf(b))
	h.leave()
	return Status(status)
}

func cursorOver(span Span) cursor {
	return cursor{C.size_t(span.Start), C.size_t(span.End), ^C.size_t(0), flag(span.Anchored), flag(span.Earliest)}
}

func placeOver(len int) place {
	return place{end: C.size_t(len)}
}

// some writes the next matches of a walk to the room, and moves the cursor after them.
func (h *handle) some(b []byte, walk *cursor, room []match) (int, Status) {
	if !h.enter() {
		return 0, ErrClosed
	}
	some := C.dadogo_some(h.ac, at(b), sizeOf(b), *walk, &room[0], C.size_t(len(room)))
	h.leave()
	*walk = some.cursor
	return int(some.count), Status(some.status)
}

// overlapping writes the next occurrences of a listing to the room, and moves the place after them.
func (h *handle) overlapping(b []byte, listing *place, room []match) (int, Status) {
	if !h.enter() {
		return 0, ErrClosed
	}
	listed := C.dadogo_overlapping(h.ac, at(b), sizeOf(b), *listing, &room[0], C.size_t(len(room)))
	h.leave()
	*listing = listed.place
	return int(listed.count), Status(listed.status)
}

// allWords writes the next whole words of a listing to the room, and moves the place after them.
func (h *handle) allWords(b []byte, listing *place, room []match) (int, Status) {
	if !h.enter() {
		return 0, ErrClosed
	}
	listed := C.dadogo_all_words(h.ac, at(b), sizeOf(b), *listing, &room[0], C.size_t(len(room)))
	h.leave()
	*listing = listed.place
	return int(listed.count), Status(listed.status)
}

// words writes the next whole words of a walk under the kind to the room. The walk goes on at from.
func (h *handle) words(kind Kind, b []byte, from *C.size_t, room []match) (int, Status) {
	if !h.enter() {
		return 0, ErrClosed
	}
	words := C.dadogo_words(h.ac, C.uint32_t(kind), at(b), sizeOf(b), *from, &room[0], C.size_t(len(room)))
	h.leave()
	*from = words.from
	return int(words.count), Status(words.status)
}

func (h *handle) mask(b []byte, with byte) Status {
	if !h.enter() {
		return ErrClosed
	}
	status := C.dadogo_mask(h.ac, at(b), sizeOf(b), C.uint8_t(with))
	h.leave()
	return Status(status)
}

func (h *handle) maskWords(b []byte, with byte) Status {
	if !h.enter() {
		return ErrClosed
	}
	status := C.dadogo_mask_words(h.ac, at(b), sizeOf(b), C.uint8_t(with))
	h.leave()
	return Status(status)
}
