//! Matches and occurrences one after another.

use std::iter::FusedIterator;

use dadofennel_sys as sys;

use crate::ahocorasick::unfailing;
use crate::handle::Handle;
use crate::{AhoCorasick, Input, Match, PatternID};

/// How many matches the library is asked for at once, at most.
const MOST_AT_ONCE: usize = 256;

/// A walk with fewer bytes before it asks for one match at a time, and takes no memory.
const FEW: usize = 512;

/// Matches that were found and not yet given.
#[derive(Debug, Default)]
pub(crate) struct Batch {
    room: Vec<sys::dado_match>,
    count: usize,
    given: usize,
    ended: bool,
}

impl Batch {
    /// The next match. Where none is left, further ones are found: one at first, and then four times as many as before.
    #[inline]
    pub(crate) fn next(&mut self, some: impl FnOnce(&mut [sys::dado_match]) -> usize) -> Option<sys::dado_match> {
        if self.is_given() {
            if self.ended {
                return None;
            }
            self.fill(some);
        }
        let next = self.room.get(..self.count)?.get(self.given).copied();
        self.given += usize::from(next.is_some());
        next
    }

    fn fill(&mut self, some: impl FnOnce(&mut [sys::dado_match]) -> usize) {
        let size = (self.room.len() * 4).clamp(1, MOST_AT_ONCE);
        self.room.resize(size, sys::dado_match::default());
        self.count = some(&mut self.room);
        self.given = 0;
        self.ended = self.count < self.room.len();
    }

    /// Whether all that was found was given.
    #[inline]
    fn is_given(&self) -> bool {
        self.given == self.count
    }

    /// Nothing was found that wasn't given, and a walk over more may find something.
    pub(crate) fn go_on(&mut self) {
        self.ended = false;
    }
}

/// The match that the library has found.
#[inline]
pub(crate) fn found(it: sys::dado_match) -> Match {
    Match::new(PatternID::from_u32_unchecked(it.pattern), it.start..it.end)
}

/// A walk over an input, at its beginning.
pub(crate) fn cursor_of(input: &Input<'_>) -> sys::dado_cursor {
    sys::dado_cursor {
        start: input.start(),
        end: input.end(),
        last: usize::MAX,
        anchored: u32::from(input.get_anchored().is_anchored()),
        earliest: u32::from(input.get_earliest()),
    }
}

/// A listing of a span, after this occurrence.
pub(crate) fn place_of(start: usize, end: usize, last: Option<Match>) -> sys::dado_place {
    let given = last.map(|it| sys::dado_match { start: it.start(), end: it.end(), pattern: it.pattern().as_u32() });
    sys::dado_place { start, end, last: given.unwrap_or_default(), begun: u32::from(given.is_some()) }
}

/// The matches of an input one after another. See `AhoCorasick::find_iter`.
#[derive(Debug)]
pub struct FindIter<'a, 'h> {
    handle: &'a Handle,
    haystack: &'h [u8],
    cursor: sys::dado_cursor,
    batch: Batch,
}

impl<'a, 'h> FindIter<'a, 'h> {
    #[inline]
    pub(crate) fn new(ac: &'a AhoCorasick, input: &Input<'h>) -> FindIter<'a, 'h> {
        FindIter { handle: ac.handle(), haystack: input.bytes(), cursor: cursor_of(input), batch: Batch::default() }
    }
}

impl Iterator for FindIter<'_, '_> {
    type Item = Match;

    #[inline]
    fn next(&mut self) -> Option<Match> {
        let FindIter { handle, haystack, cursor, batch } = self;
        if batch.is_given() && cursor.end.saturating_sub(cursor.start) < FEW {
            return unfailing(handle.next(haystack, cursor)).map(found);
        }
        batch.next(|out| unfailing(handle.some(haystack, cursor, out))).map(found)
    }
}

impl FusedIterator for FindIter<'_, '_> {}

/// All occurrences in an input. See `AhoCorasick::find_overlapping_iter`.
#[derive(Debug)]
pub struct FindOverlappingIter<'a, 'h> {
    handle: &'a Handle,
    haystack: &'h [u8],
    place: sys::dado_place,
    batch: Batch,
}

impl<'a, 'h> FindOverlappingIter<'a, 'h> {
    pub(crate) fn new(ac: &'a AhoCorasick, input: &Input<'h>) -> FindOverlappingIter<'a, 'h> {
        let place = place_of(input.start(), input.end(), None);
        FindOverlappingIter { handle: ac.handle(), haystack: input.bytes(), place, batch: Batch::default() }
    }
}

impl Iterator for FindOverlappingIter<'_, '_> {
    type Item = Match;

    #[inline]
    fn next(&mut self) -> Option<Match> {
        let FindOverlappingIter { handle, haystack, place, batch } = self;
        batch.next(|out| unfailing(handle.overlapping_some(haystack, place, out))).map(found)
    }
}

impl FusedIterator for FindOverlappingIter<'_, '_> {}
