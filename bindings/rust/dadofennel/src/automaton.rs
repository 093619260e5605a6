//! The state of a listing of all occurrences.

use dadofennel_sys as sys;

use crate::ahocorasick::unfailing;
use crate::iter::{found, place_of};
use crate::{AhoCorasick, Input, Match};

/// Where a listing of all occurrences stands, from one call of `AhoCorasick::find_overlapping` to the next.
#[derive(Clone, Debug, Default)]
pub struct OverlappingState {
    last: Option<Match>,
    ended: bool,
}

/// How many occurrences an anchored listing looks at in one call of the library.
const AT_ONCE: usize = 16;

impl OverlappingState {
    /// A listing at its beginning.
    pub fn start() -> OverlappingState {
        OverlappingState::default()
    }

    /// The occurrence that the last call found. There is none before the first call, and none at the end.
    pub fn get_match(&self) -> Option<Match> {
        self.last.filter(|_| !self.ended)
    }

    /// Goes on to the next occurrence of this input, of those that start where it does if it is anchored.
    pub(crate) fn advance(&mut self, ac: &AhoCorasick, input: &Input<'_>) {
        let next = if self.ended || input.is_done() {
            None
        } else if input.get_anchored().is_anchored() {
            self.next_anchored(ac, input)
        } else {
            self.next(ac, input, input.end())
        };
        self.ended = next.is_none();
        self.last = next.or(self.last);
    }

    fn next(&self, ac: &AhoCorasick, input: &Input<'_>, end: usize) -> Option<Match> {
        let mut place = place_of(input.start(), end, self.last);
        let mut out = [sys::dado_match::default()];
        let count = unfailing(ac.handle().overlapping_some(input.haystack(), &mut place, &mut out));
        out.get(..count)?.first().map(|&it| found(it))
    }

    /// No occurrence at the start ends further on than the longest pattern has bytes.
    fn next_anchored(&self, ac: &AhoCorasick, input: &Input<'_>) -> Option<Match> {
        let end = input.end().min(input.start().saturating_add(ac.max_pattern_len()));
        let mut place = place_of(input.start(), end, self.last);
        let mut out = [sys::dado_match::default(); AT_ONCE];
        loop {
            let count = unfailing(ac.handle().overlapping_some(input.haystack(), &mut place, &mut out));
            if let Some(&first) = out[..count].iter().find(|it| it.start == input.start()) {
                return Some(found(first));
            }
            if count < AT_ONCE {
                return None;
            }
        }
    }
}
