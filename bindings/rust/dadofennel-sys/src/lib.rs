//! The declarations of `dadofennel.h`, which says what each function does, takes and returns.
//!
//! The crate `dadofennel` is the safe way to call them. Whoever calls them here keeps what the header asks: a handle is null, or an
//! automaton that is not freed; a length is that of the memory at its pointer; what is written doesn't overlap what is read.

#![allow(non_camel_case_types)]

use std::marker::{PhantomData, PhantomPinned};
use std::os::raw::{c_char, c_void};

/// What a call returns: one of the constants below.
pub type dado_status = u32;

pub const DADO_OK: dado_status = 0;
pub const DADO_NONE: dado_status = 1;
pub const DADO_NO_AUTOMATON: dado_status = 2;
pub const DADO_BAD_ARGUMENT: dado_status = 3;
pub const DADO_NO_MEMORY: dado_status = 4;
pub const DADO_TOO_MANY_STATES: dado_status = 5;
pub const DADO_TOO_MANY_PATTERNS: dado_status = 6;
pub const DADO_PATTERN_TOO_LONG: dado_status = 7;
pub const DADO_BAD_KIND: dado_status = 8;
pub const DADO_BAD_START_KIND: dado_status = 9;
pub const DADO_BAD_ENGINE: dado_status = 10;
pub const DADO_BAD_PAIRS: dado_status = 11;
pub const DADO_NOT_ANCHORED: dado_status = 12;
pub const DADO_NOT_UNANCHORED: dado_status = 13;
pub const DADO_NOT_STANDARD: dado_status = 14;
pub const DADO_BAD_SPAN: dado_status = 15;
pub const DADO_BAD_CURSOR: dado_status = 16;
pub const DADO_WRONG_COUNT: dado_status = 17;
pub const DADO_TOO_SHORT: dado_status = 18;
pub const DADO_BAD_PATTERN: dado_status = 19;
pub const DADO_EMPTY_PATTERN: dado_status = 20;
pub const DADO_NO_STREAM: dado_status = 21;
pub const DADO_FINISHED: dado_status = 22;
pub const DADO_TOO_MANY_BYTES: dado_status = 23;
pub const DADO_NO_REPLACER: dado_status = 24;
pub const DADO_NO_MASKER: dado_status = 25;

pub const DADO_STANDARD: u32 = 0;
pub const DADO_LEFTMOST_FIRST: u32 = 1;
pub const DADO_LEFTMOST_LONGEST: u32 = 2;

pub const DADO_UNANCHORED: u32 = 0;
pub const DADO_ANCHORED: u32 = 1;
pub const DADO_BOTH: u32 = 2;

pub const DADO_AUTO: u32 = 0;
pub const DADO_NONCONTIGUOUS: u32 = 1;
pub const DADO_CONTIGUOUS: u32 = 2;
pub const DADO_DFA: u32 = 3;

/// An automaton, which is only pointed to.
#[repr(C)]
pub struct dado_automaton {
    _bytes: [u8; 0],
    _lent: PhantomData<(*mut u8, PhantomPinned)>,
}

/// A number of bytes at a place.
#[repr(C)]
#[derive(Clone, Copy, Debug)]
pub struct dado_bytes {
    pub at: *const u8,
    pub len: usize,
}

/// Two bytes that match each other.
#[repr(C)]
#[derive(Clone, Copy, Debug, PartialEq, Eq)]
pub struct dado_pair {
    pub a: u8,
    pub b: u8,
}

/// A match.
#[repr(C)]
#[derive(Clone, Copy, Debug, Default, PartialEq, Eq)]
pub struct dado_match {
    pub start: usize,
    pub end: usize,
    pub pattern: u32,
}

/// How an automaton is built.
#[repr(C)]
#[derive(Clone, Copy, Debug)]
pub struct dado_settings {
    pub kind: u32,
    pub start_kind: u32,
    pub engine: u32,
    pub fold: u32,
    pub prefilter: u32,
    pub byte_classes: u32,
    pub dense_depth: usize,
    pub row_memory: usize,
    pub pairs: *const dado_pair,
    pub pair_count: usize,
}

/// More about a failed build.
#[repr(C)]
#[derive(Clone, Copy, Debug, Default)]
pub struct dado_fault {
    pub count: u64,
    pub pattern: u32,
}

/// Where a search looks.
#[repr(C)]
#[derive(Clone, Copy, Debug)]
pub struct dado_span {
    pub start: usize,
    pub end: usize,
    pub anchored: u32,
    pub earliest: u32,
}

/// Where a walk stands.
#[repr(C)]
#[derive(Clone, Copy, Debug)]
pub struct dado_cursor {
    pub start: usize,
    pub end: usize,
    pub last: usize,
    pub anchored: u32,
    pub earliest: u32,
}

/// Where a listing stands.
#[repr(C)]
#[derive(Clone, Copy, Debug)]
pub struct dado_place {
    pub start: usize,
    pub end: usize,
    pub last: dado_match,
    pub begun: u32,
}

/// A text that the library has allocated.
#[repr(C)]
#[derive(Debug)]
pub struct dado_text {
    pub owner: *mut c_void,
    pub at: *const u8,
    pub len: usize,
}

/// A search of a text that comes in pieces, which is only pointed to.
#[repr(C)]
pub struct dado_stream {
    _bytes: [u8; 0],
    _lent: PhantomData<(*mut u8, PhantomPinned)>,
}

/// What a stream holds of the bytes that were pushed.
#[repr(C)]
#[derive(Clone, Copy, Debug)]
pub struct dado_held {
    pub at: *const u8,
    pub len: usize,
    pub from: usize,
    pub cut: usize,
}

/// A replacement of a text that comes in pieces, which is only pointed to.
#[repr(C)]
pub struct dado_replacer {
    _bytes: [u8; 0],
    _lent: PhantomData<(*mut u8, PhantomPinned)>,
}

/// A masking of a text that comes in pieces, which is only pointed to.
#[repr(C)]
pub struct dado_masker {
    _bytes: [u8; 0],
    _lent: PhantomData<(*mut u8, PhantomPinned)>,
}

extern "C" {
    pub fn dado_settings_default() -> dado_settings;
    pub fn dado_build(
        patterns: *const dado_bytes,
        count: usize,
        settings: *const dado_settings,
        handle: *mut *mut dado_automaton,
        fault: *mut dado_fault,
    ) -> dado_status;
    pub fn dado_settings_fill(settings: *mut dado_settings, size: usize) -> dado_status;
    pub fn dado_build_sized(
        patterns: *const dado_bytes,
        count: usize,
        settings: *const dado_settings,
        size: usize,
        handle: *mut *mut dado_automaton,
        fault: *mut dado_fault,
    ) -> dado_status;
    pub fn dado_share(ac: *const dado_automaton, other: *mut *mut dado_automaton) -> dado_status;
    pub fn dado_free(handle: *mut *mut dado_automaton);
    pub fn dado_find_in(
        ac: *const dado_automaton,
        haystack: *const u8,
        len: usize,
        span: dado_span,
        found: *mut dado_match,
    ) -> dado_status;
    pub fn dado_find(ac: *const dado_automaton, haystack: *const u8, len: usize, found: *mut dado_match) -> dado_status;
    pub fn dado_is_match(ac: *const dado_automaton, haystack: *const u8, len: usize) -> dado_status;
    pub fn dado_cursor_over(start: usize, end: usize) -> dado_cursor;
    pub fn dado_next(
        ac: *const dado_automaton,
        haystack: *const u8,
        len: usize,
        cursor: *mut dado_cursor,
        found: *mut dado_match,
    ) -> dado_status;
    pub fn dado_some(
        ac: *const dado_automaton,
        haystack: *const u8,
        len: usize,
        cursor: *mut dado_cursor,
        out: *mut dado_match,
        room: usize,
        count: *mut usize,
    ) -> dado_status;
    pub fn dado_place_over(start: usize, end: usize) -> dado_place;
    pub fn dado_overlapping_some(
        ac: *const dado_automaton,
        haystack: *const u8,
        len: usize,
        place: *mut dado_place,
        out: *mut dado_match,
        room: usize,
        count: *mut usize,
    ) -> dado_status;
    pub fn dado_words_some(
        ac: *const dado_automaton,
        kind: u32,
        haystack: *const u8,
        len: usize,
        from: *mut usize,
        out: *mut dado_match,
        room: usize,
        count: *mut usize,
    ) -> dado_status;
    pub fn dado_overlapping_words_some(
        ac: *const dado_automaton,
        haystack: *const u8,
        len: usize,
        place: *mut dado_place,
        out: *mut dado_match,
        room: usize,
        count: *mut usize,
    ) -> dado_status;
    pub fn dado_replace_into(
        ac: *const dado_automaton,
        haystack: *const u8,
        len: usize,
        replacements: *const dado_bytes,
        count: usize,
        out: *mut u8,
        room: usize,
        needed: *mut usize,
    ) -> dado_status;
    pub fn dado_text_free(text: *mut dado_text);
    pub fn dado_replace(
        ac: *const dado_automaton,
        haystack: *const u8,
        len: usize,
        replacements: *const dado_bytes,
        count: usize,
        text: *mut dado_text,
    ) -> dado_status;
    pub fn dado_stream_new(ac: *const dado_automaton, stream: *mut *mut dado_stream) -> dado_status;
    pub fn dado_word_stream_new(ac: *const dado_automaton, kind: u32, stream: *mut *mut dado_stream) -> dado_status;
    pub fn dado_all_words_stream_new(ac: *const dado_automaton, stream: *mut *mut dado_stream) -> dado_status;
    pub fn dado_stream_push(stream: *mut *mut dado_stream, piece: *const u8, len: usize, taken: *mut usize) -> dado_status;
    pub fn dado_stream_some(stream: *mut *mut dado_stream, out: *mut dado_match, room: usize, count: *mut usize) -> dado_status;
    pub fn dado_stream_view(stream: *mut *mut dado_stream, held: *mut dado_held) -> dado_status;
    pub fn dado_stream_finish(stream: *mut *mut dado_stream) -> dado_status;
    pub fn dado_stream_free(stream: *mut *mut dado_stream);
    pub fn dado_replacer_new(ac: *const dado_automaton, replacer: *mut *mut dado_replacer) -> dado_status;
    pub fn dado_replacer_push(replacer: *mut *mut dado_replacer, piece: *const u8, len: usize, taken: *mut usize) -> dado_status;
    pub fn dado_replacer_next(
        replacer: *mut *mut dado_replacer,
        replacements: *const dado_bytes,
        count: usize,
        slice: *mut dado_bytes,
    ) -> dado_status;
    pub fn dado_replacer_finish(replacer: *mut *mut dado_replacer) -> dado_status;
    pub fn dado_replacer_free(replacer: *mut *mut dado_replacer);
    pub fn dado_mask(ac: *const dado_automaton, text: *mut u8, len: usize, byte: u8) -> dado_status;
    pub fn dado_mask_words(ac: *const dado_automaton, text: *mut u8, len: usize, byte: u8) -> dado_status;
    pub fn dado_masker_new(ac: *const dado_automaton, byte: u8, masker: *mut *mut dado_masker) -> dado_status;
    pub fn dado_word_masker_new(ac: *const dado_automaton, byte: u8, masker: *mut *mut dado_masker) -> dado_status;
    pub fn dado_masker_push(masker: *mut *mut dado_masker, piece: *const u8, len: usize, taken: *mut usize) -> dado_status;
    pub fn dado_masker_ready(masker: *mut *mut dado_masker, slice: *mut dado_bytes) -> dado_status;
    pub fn dado_masker_finish(masker: *mut *mut dado_masker) -> dado_status;
    pub fn dado_masker_free(masker: *mut *mut dado_masker);
    pub fn dado_pattern_len(ac: *const dado_automaton, pattern: u32, len: *mut usize) -> dado_status;
    pub fn dado_pattern_count(ac: *const dado_automaton) -> usize;
    pub fn dado_shortest(ac: *const dado_automaton) -> usize;
    pub fn dado_longest(ac: *const dado_automaton) -> usize;
    pub fn dado_kind(ac: *const dado_automaton) -> u32;
    pub fn dado_start_kind(ac: *const dado_automaton) -> u32;
    pub fn dado_engine(ac: *const dado_automaton) -> u32;
    pub fn dado_memory(ac: *const dado_automaton) -> usize;
    pub fn dado_error_text(status: dado_status) -> *const c_char;
    pub fn dado_version() -> *const c_char;
    pub fn dado_cpu() -> *const c_char;
}
