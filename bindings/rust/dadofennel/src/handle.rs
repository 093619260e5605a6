//! A handle of the library: an automaton that is built once, searched by any number of threads, and freed once. And a stream, which
//! one thread at a time pushes to.
//!
//! What the header asks of a caller holds by the types here. A handle is never null and is freed when its last owner goes, and no
//! search outlives the borrow that it is made by. A haystack and the room for matches are slices, of which one is written and the
//! other isn't. The bytes that a stream holds are borrowed until the next call.

#![allow(unsafe_code)]

use std::ffi::CStr;
use std::ptr::{self, NonNull};
use std::slice;

use dadofennel_sys as sys;

/// An automaton of the library.
#[derive(Debug)]
pub(crate) struct Handle(NonNull<sys::dado_automaton>);

// SAFETY: the library has no state but the automaton, and an automaton may be freed by any thread.
unsafe impl Send for Handle {}
// SAFETY: a search reads the automaton and writes nothing of it, so any number of threads may search with one.
unsafe impl Sync for Handle {}

impl Drop for Handle {
    fn drop(&mut self) {
        let mut handle = self.0.as_ptr();
        // SAFETY: the automaton was built by `dado_build`, and nothing else frees it.
        unsafe { sys::dado_free(&mut handle) }
    }
}

/// How an automaton is built; what is `None` is left as the library has it.
#[derive(Clone, Debug)]
pub(crate) struct Settings {
    pub(crate) kind: u32,
    pub(crate) start_kind: u32,
    pub(crate) engine: u32,
    pub(crate) fold: bool,
    pub(crate) prefilter: bool,
    pub(crate) byte_classes: bool,
    pub(crate) dense_depth: Option<usize>,
    pub(crate) row_memory: Option<usize>,
    pub(crate) pairs: Vec<sys::dado_pair>,
}

impl Settings {
    /// The settings as the library takes them. They point to the pairs.
    fn given(&self) -> sys::dado_settings {
        // SAFETY: it takes nothing.
        let first = unsafe { sys::dado_settings_default() };
        sys::dado_settings {
            kind: self.kind,
            start_kind: self.start_kind,
            engine: self.engine,
            fold: u32::from(self.fold),
            prefilter: u32::from(self.prefilter),
            byte_classes: u32::from(self.byte_classes),
            dense_depth: self.dense_depth.unwrap_or(first.dense_depth),
            row_memory: self.row_memory.unwrap_or(first.row_memory),
            pairs: self.pairs.as_ptr(),
            pair_count: self.pairs.len(),
        }
    }
}

impl Handle {
    pub(crate) fn build<P: AsRef<[u8]>>(
        patterns: &[P],
        settings: &Settings,
    ) -> Result<Handle, (sys::dado_status, sys::dado_fault)> {
        let lent: Vec<sys::dado_bytes> = patterns.iter().map(|it| lent(it.as_ref())).collect();
        let settings = settings.given();
        let mut handle = ptr::null_mut();
        let mut fault = sys::dado_fault::default();
        // SAFETY: the patterns, the settings and the pairs are lent until it returns; the handle is null.
        let status = unsafe { sys::dado_build(lent.as_ptr(), lent.len(), &settings, &mut handle, &mut fault) };
        match NonNull::new(handle) {
            Some(handle) if status == sys::DADO_OK => Ok(Handle(handle)),
            _ => Err((status, fault)),
        }
    }

    #[inline]
    pub(crate) fn find(&self, haystack: &[u8], span: sys::dado_span) -> Result<Option<sys::dado_match>, sys::dado_status> {
        let mut found = sys::dado_match::default();
        // SAFETY: the automaton is lent, and so is the haystack.
        let status = unsafe { sys::dado_find_in(self.0.as_ptr(), haystack.as_ptr(), haystack.len(), span, &mut found) };
        one(status, found)
    }

    /// The next match of a walk, if there is one.
    #[inline]
    pub(crate) fn next(&self, haystack: &[u8], cursor: &mut sys::dado_cursor) -> Result<Option<sys::dado_match>, sys::dado_status> {
        let mut found = sys::dado_match::default();
        // SAFETY: the automaton, the haystack and the cursor are lent.
        let status = unsafe { sys::dado_next(self.0.as_ptr(), haystack.as_ptr(), haystack.len(), cursor, &mut found) };
        one(status, found)
    }

    /// The next matches of a walk, as many as there is room for; how many there are.
    pub(crate) fn some(
        &self,
        haystack: &[u8],
        cursor: &mut sys::dado_cursor,
        out: &mut [sys::dado_match],
    ) -> Result<usize, sys::dado_status> {
        let mut count = 0;
        // SAFETY: the automaton, the haystack and the room are lent.
        let status = unsafe {
            sys::dado_some(self.0.as_ptr(), haystack.as_ptr(), haystack.len(), cursor, out.as_mut_ptr(), out.len(), &mut count)
        };
        counted(status, count)
    }

    /// The next occurrences of a listing, as many as there is room for; how many there are.
    pub(crate) fn overlapping_some(
        &self,
        haystack: &[u8],
        place: &mut sys::dado_place,
        out: &mut [sys::dado_match],
    ) -> Result<usize, sys::dado_status> {
        let mut count = 0;
        // SAFETY: the automaton, the haystack and the room are lent.
        let status = unsafe {
            sys::dado_overlapping_some(
                self.0.as_ptr(),
                haystack.as_ptr(),
                haystack.len(),
                place,
                out.as_mut_ptr(),
                out.len(),
                &mut count,
            )
        };
        counted(status, count)
    }

    /// The next whole words from a place on, as many as there is room for; how many there are. The place is moved after them.
    pub(crate) fn words_some(
        &self,
        kind: u32,
        haystack: &[u8],
        from: &mut usize,
        out: &mut [sys::dado_match],
    ) -> Result<usize, sys::dado_status> {
        let mut count = 0;
        // SAFETY: the automaton, the haystack and the room are lent.
        let status = unsafe {
            sys::dado_words_some(
                self.0.as_ptr(),
                kind,
                haystack.as_ptr(),
                haystack.len(),
                from,
                out.as_mut_ptr(),
                out.len(),
                &mut count,
            )
        };
        counted(status, count)
    }

    /// The next whole words of a listing, as many as there is room for; how many there are.
    pub(crate) fn overlapping_words_some(
        &self,
        haystack: &[u8],
        place: &mut sys::dado_place,
        out: &mut [sys::dado_match],
    ) -> Result<usize, sys::dado_status> {
        let mut count = 0;
        // SAFETY: the automaton, the haystack and the room are lent.
        let status = unsafe {
            sys::dado_overlapping_words_some(
                self.0.as_ptr(),
                haystack.as_ptr(),
                haystack.len(),
                place,
                out.as_mut_ptr(),
                out.len(),
                &mut count,
            )
        };
        counted(status, count)
    }

    /// A stream, which owns the automaton too.
    pub(crate) fn stream(&self) -> Result<Pieces, sys::dado_status> {
        let mut stream = Pieces(ptr::null_mut());
        // SAFETY: the automaton is lent; the stream is null.
        match unsafe { sys::dado_stream_new(self.0.as_ptr(), &mut stream.0) } {
            sys::DADO_OK => Ok(stream),
            other => Err(other),
        }
    }

    /// A stream of whole words under a kind, which owns the automaton too.
    pub(crate) fn word_stream(&self, kind: u32) -> Result<Pieces, sys::dado_status> {
        let mut stream = Pieces(ptr::null_mut());
        // SAFETY: the automaton is lent; the stream is null.
        match unsafe { sys::dado_word_stream_new(self.0.as_ptr(), kind, &mut stream.0) } {
            sys::DADO_OK => Ok(stream),
            other => Err(other),
        }
    }

    /// A stream of all whole words, which owns the automaton too.
    pub(crate) fn all_words_stream(&self) -> Result<Pieces, sys::dado_status> {
        let mut stream = Pieces(ptr::null_mut());
        // SAFETY: the automaton is lent; the stream is null.
        match unsafe { sys::dado_all_words_stream_new(self.0.as_ptr(), &mut stream.0) } {
            sys::DADO_OK => Ok(stream),
            other => Err(other),
        }
    }

    /// Masks bytes where they lie.
    pub(crate) fn mask(&self, bytes: &mut [u8], mask: u8) -> Result<(), sys::dado_status> {
        // SAFETY: the automaton and the bytes are lent.
        match unsafe { sys::dado_mask(self.0.as_ptr(), bytes.as_mut_ptr(), bytes.len(), mask) } {
            sys::DADO_OK => Ok(()),
            other => Err(other),
        }
    }

    /// Masks the whole words of bytes where they lie.
    pub(crate) fn mask_words(&self, bytes: &mut [u8], mask: u8) -> Result<(), sys::dado_status> {
        // SAFETY: the automaton and the bytes are lent.
        match unsafe { sys::dado_mask_words(self.0.as_ptr(), bytes.as_mut_ptr(), bytes.len(), mask) } {
            sys::DADO_OK => Ok(()),
            other => Err(other),
        }
    }

    /// A masking of a text that comes in pieces, which owns the automaton too.
    pub(crate) fn masker(&self, mask: u8) -> Result<Masker, sys::dado_status> {
        let mut masker = Masker(ptr::null_mut());
        // SAFETY: the automaton is lent; the masker is null.
        match unsafe { sys::dado_masker_new(self.0.as_ptr(), mask, &mut masker.0) } {
            sys::DADO_OK => Ok(masker),
            other => Err(other),
        }
    }

    /// The same of its whole words.
    pub(crate) fn word_masker(&self, mask: u8) -> Result<Masker, sys::dado_status> {
        let mut masker = Masker(ptr::null_mut());
        // SAFETY: the automaton is lent; the masker is null.
        match unsafe { sys::dado_word_masker_new(self.0.as_ptr(), mask, &mut masker.0) } {
            sys::DADO_OK => Ok(masker),
            other => Err(other),
        }
    }

    pub(crate) fn engine(&self) -> u32 {
        // SAFETY: the automaton is lent.
        unsafe { sys::dado_engine(self.0.as_ptr()) }
    }

    pub(crate) fn memory(&self) -> usize {
        // SAFETY: the automaton is lent.
        unsafe { sys::dado_memory(self.0.as_ptr()) }
    }

    pub(crate) fn pattern_count(&self) -> usize {
        // SAFETY: the automaton is lent.
        unsafe { sys::dado_pattern_count(self.0.as_ptr()) }
    }

    /// The length of a pattern; `None` where there is none of that number.
    pub(crate) fn pattern_len(&self, pattern: u32) -> Option<usize> {
        let mut len = 0;
        // SAFETY: the automaton is lent.
        let status = unsafe { sys::dado_pattern_len(self.0.as_ptr(), pattern, &mut len) };
        Some(len).filter(|_| status == sys::DADO_OK)
    }

    /// The length of the shortest pattern; `usize::MAX` where there is none.
    pub(crate) fn shortest(&self) -> usize {
        // SAFETY: the automaton is lent.
        unsafe { sys::dado_shortest(self.0.as_ptr()) }
    }

    /// The length of the longest pattern; 0 where there is none.
    pub(crate) fn longest(&self) -> usize {
        // SAFETY: the automaton is lent.
        unsafe { sys::dado_longest(self.0.as_ptr()) }
    }
}

/// A stream of the library: a search of a text that comes in pieces. It is not null, once it was made.
#[derive(Debug)]
pub(crate) struct Pieces(*mut sys::dado_stream);

// SAFETY: a stream has all its state to itself but the automaton, which threads may share; any thread may go on with it or free it.
unsafe impl Send for Pieces {}
// SAFETY: each call takes it mutably.
unsafe impl Sync for Pieces {}

impl Drop for Pieces {
    fn drop(&mut self) {
        // SAFETY: it is null or was made by one of the three calls that make a stream, and nothing else frees it.
        unsafe { sys::dado_stream_free(&mut self.0) }
    }
}

/// The bytes that a stream holds, the place of the first one, and the place up to which everything is decided.
pub(crate) struct Held<'a> {
    pub(crate) bytes: &'a [u8],
    pub(crate) from: usize,
    pub(crate) cut: usize,
}

impl Pieces {
    /// Takes the first bytes of a piece; how many these are.
    pub(crate) fn push(&mut self, piece: &[u8]) -> Result<usize, sys::dado_status> {
        let mut taken = 0;
        // SAFETY: the stream and the piece are lent.
        let status = unsafe { sys::dado_stream_push(&mut self.0, piece.as_ptr(), piece.len(), &mut taken) };
        counted(status, taken)
    }

    /// The next matches that are decided, as many as there is room for; how many there are.
    pub(crate) fn some(&mut self, out: &mut [sys::dado_match]) -> Result<usize, sys::dado_status> {
        let mut count = 0;
        // SAFETY: the stream and the room are lent.
        let status = unsafe { sys::dado_stream_some(&mut self.0, out.as_mut_ptr(), out.len(), &mut count) };
        counted(status, count)
    }

    /// What it holds.
    pub(crate) fn held(&mut self) -> Held<'_> {
        let mut held = sys::dado_held { at: ptr::null(), len: 0, from: 0, cut: 0 };
        // SAFETY: the stream is lent.
        unsafe { sys::dado_stream_view(&mut self.0, &mut held) };
        // SAFETY: so many bytes lie there until the next push, which needs the stream mutably.
        let bytes = if held.len == 0 { &[] } else { unsafe { slice::from_raw_parts(held.at, held.len) } };
        Held { bytes, from: held.from, cut: held.cut }
    }

    /// Nothing more comes.
    pub(crate) fn finish(&mut self) {
        // SAFETY: the stream is lent.
        unsafe { sys::dado_stream_finish(&mut self.0) };
    }
}

/// A masking of the library, of a text that comes in pieces. It is not null, once it was made.
#[derive(Debug)]
pub(crate) struct Masker(*mut sys::dado_masker);

// SAFETY: a masker has all its state to itself but the automaton, which threads may share; any thread may go on with it or free it.
unsafe impl Send for Masker {}
// SAFETY: each call takes it mutably.
unsafe impl Sync for Masker {}

impl Drop for Masker {
    fn drop(&mut self) {
        // SAFETY: it is null or was made by `dado_masker_new` or `dado_word_masker_new`, and nothing else frees it.
        unsafe { sys::dado_masker_free(&mut self.0) }
    }
}

impl Masker {
    /// Takes the first bytes of a piece; how many these are.
    pub(crate) fn push(&mut self, piece: &[u8]) -> Result<usize, sys::dado_status> {
        let mut taken = 0;
        // SAFETY: the masker and the piece are lent.
        let status = unsafe { sys::dado_masker_push(&mut self.0, piece.as_ptr(), piece.len(), &mut taken) };
        counted(status, taken)
    }

    /// The masked bytes that are ready.
    pub(crate) fn ready(&mut self) -> &[u8] {
        let mut ready = lent(&[]);
        // SAFETY: the masker is lent.
        unsafe { sys::dado_masker_ready(&mut self.0, &mut ready) };
        // SAFETY: so many bytes lie there until the next push, which needs the masker mutably.
        unsafe { slice::from_raw_parts(ready.at, ready.len) }
    }

    /// Nothing more comes.
    pub(crate) fn finish(&mut self) {
        // SAFETY: the masker is lent.
        unsafe { sys::dado_masker_finish(&mut self.0) };
    }
}

/// The bytes where the library reads them.
fn lent(bytes: &[u8]) -> sys::dado_bytes {
    sys::dado_bytes { at: bytes.as_ptr(), len: bytes.len() }
}

fn one(status: sys::dado_status, found: sys::dado_match) -> Result<Option<sys::dado_match>, sys::dado_status> {
    match status {
        sys::DADO_OK => Ok(Some(found)),
        sys::DADO_NONE => Ok(None),
        other => Err(other),
    }
}

fn counted(status: sys::dado_status, count: usize) -> Result<usize, sys::dado_status> {
    match status {
        sys::DADO_OK | sys::DADO_NONE => Ok(count),
        other => Err(other),
    }
}

/// The text of a status.
pub(crate) fn status_text(status: sys::dado_status) -> &'static str {
    // SAFETY: it is a text that is never freed and ends in a zero byte.
    let text = unsafe { CStr::from_ptr(sys::dado_error_text(status)) };
    text.to_str().unwrap_or("a status without a text")
}

/// The version of the library that runs.
pub(crate) fn version() -> &'static str {
    // SAFETY: it is a text that is never freed and ends in a zero byte.
    let text = unsafe { CStr::from_ptr(sys::dado_version()) };
    text.to_str().unwrap_or("")
}
