//! The automaton, and its searches.

use std::fmt;
use std::sync::Arc;

use dadofennel_sys as sys;

use crate::automaton::OverlappingState;
use crate::handle::{self, Handle};
use crate::iter::{found, FindIter, FindOverlappingIter};
use crate::{AhoCorasickBuilder, Anchored, BuildError, Input, Match, MatchError, MatchKind, PatternID, StartKind};

/// An automaton that searches for many patterns at once.
///
/// It is built once and searched as often as needed, by any number of threads. A clone shares it and takes no memory to speak of.
///
/// A search may be one that the automaton wasn't built for: an anchored one (`StartKind`), or one that needs the standard kind.
/// The calls named `try_` then return a `MatchError`, and the others panic. It never depends on what is searched.
///
/// ```
/// use dadofennel::AhoCorasick;
///
/// let ac = AhoCorasick::new(["fox", "brown", "quick"])?;
/// assert_eq!("The slow grey sloth.", ac.replace_all("The quick brown fox.", &["sloth", "grey", "slow"]));
/// # Ok::<(), Box<dyn std::error::Error>>(())
/// ```
#[derive(Clone)]
pub struct AhoCorasick {
    handle: Arc<Handle>,
    match_kind: MatchKind,
    start_kind: StartKind,
}

/// What searches.
#[non_exhaustive]
#[derive(Clone, Copy, Debug, Eq, PartialEq)]
pub enum AhoCorasickKind {
    /// A noncontiguous NFA, which is built soonest.
    NoncontiguousNFA,
    /// A contiguous NFA, which takes the least memory.
    ContiguousNFA,
    /// A DFA, which searches fastest and takes the most memory.
    DFA,
}

impl AhoCorasick {
    /// An automaton of these patterns, with the settings at first: standard matches, unanchored searches.
    ///
    /// Time and memory are in proportion to the bytes of the patterns; for a DFA, times the classes of bytes, at most 256.
    pub fn new<I, P>(patterns: I) -> Result<AhoCorasick, BuildError>
    where
        I: IntoIterator<Item = P>,
        P: AsRef<[u8]>,
    {
        AhoCorasickBuilder::new().build(patterns)
    }

    /// A builder, with the settings at first.
    pub fn builder() -> AhoCorasickBuilder {
        AhoCorasickBuilder::new()
    }

    pub(crate) fn of(handle: Handle, match_kind: MatchKind, start_kind: StartKind) -> AhoCorasick {
        AhoCorasick { handle: Arc::new(handle), match_kind, start_kind }
    }

    pub(crate) fn handle(&self) -> &Handle {
        &self.handle
    }
}

/// Queries.
impl AhoCorasick {
    /// What searches.
    pub fn kind(&self) -> AhoCorasickKind {
        match self.handle.engine() {
            sys::DADO_NONCONTIGUOUS => AhoCorasickKind::NoncontiguousNFA,
            sys::DADO_CONTIGUOUS => AhoCorasickKind::ContiguousNFA,
            _ => AhoCorasickKind::DFA,
        }
    }

    /// Which searches it was built for.
    pub fn start_kind(&self) -> StartKind {
        self.start_kind
    }

    /// Which of several overlapping occurrences is the match.
    pub fn match_kind(&self) -> MatchKind {
        self.match_kind
    }

    /// How many bytes the shortest pattern has; `usize::MAX` where there is none.
    pub fn min_pattern_len(&self) -> usize {
        self.handle.shortest()
    }

    /// How many bytes the longest pattern has; 0 where there is none.
    pub fn max_pattern_len(&self) -> usize {
        self.handle.longest()
    }

    /// How many patterns it was built of.
    pub fn patterns_len(&self) -> usize {
        self.handle.pattern_count()
    }

    /// How many bytes this pattern has.
    ///
    /// # Panics
    ///
    /// Where no pattern has that number.
    pub fn pattern_len(&self, pattern: PatternID) -> usize {
        match self.handle.pattern_len(pattern.as_u32()) {
            Some(len) => len,
            None => panic!("there is no pattern {} of {}", pattern.as_usize(), self.patterns_len()),
        }
    }

    /// About how many bytes of memory it takes.
    pub fn memory_usage(&self) -> usize {
        self.handle.memory()
    }
}

/// Searches. Those without `try_` panic where the automaton wasn't built for them.
impl AhoCorasick {
    /// Whether some pattern occurs. It reads no further than the end of the occurrence that ends first.
    pub fn is_match<'h, I: Into<Input<'h>>>(&self, input: I) -> bool {
        self.find(input.into().earliest(true)).is_some()
    }

    /// The match, if there is one: the best of the automaton's kind.
    pub fn find<'h, I: Into<Input<'h>>>(&self, input: I) -> Option<Match> {
        supported(self.try_find(input))
    }

    /// The match, if there is one: the best of the automaton's kind.
    ///
    /// It looks at no more than two states for each byte of the span, or at one with a DFA.
    pub fn try_find<'h, I: Into<Input<'h>>>(&self, input: I) -> Result<Option<Match>, MatchError> {
        let input = input.into();
        self.serves(input.get_anchored())?;
        if input.is_done() {
            return Ok(None);
        }
        let span = sys::dado_span {
            start: input.start(),
            end: input.end(),
            anchored: u32::from(input.get_anchored().is_anchored()),
            earliest: u32::from(input.get_earliest()),
        };
        Ok(unfailing(self.handle.find(input.haystack(), span)).map(found))
    }

    /// The matches one after another; no two of them overlap.
    ///
    /// The first is found without reading on; further ones are found some at a time. Over fewer than 512 bytes each is found alone, and
    /// the iterator takes no memory.
    pub fn find_iter<'a, 'h, I: Into<Input<'h>>>(&'a self, input: I) -> FindIter<'a, 'h> {
        supported(self.try_find_iter(input))
    }

    /// The matches one after another; no two of them overlap.
    pub fn try_find_iter<'a, 'h, I: Into<Input<'h>>>(&'a self, input: I) -> Result<FindIter<'a, 'h>, MatchError> {
        let input = input.into();
        self.serves(input.get_anchored())?;
        Ok(FindIter::new(self, &input))
    }

    /// All occurrences, overlapping ones too, in the order of end, start and number.
    pub fn find_overlapping_iter<'a, 'h, I: Into<Input<'h>>>(&'a self, input: I) -> FindOverlappingIter<'a, 'h> {
        supported(self.try_find_overlapping_iter(input))
    }

    /// All occurrences, overlapping ones too, in the order of end, start and number. It needs the standard kind, and an input
    /// that isn't anchored.
    pub fn try_find_overlapping_iter<'a, 'h, I: Into<Input<'h>>>(
        &'a self,
        input: I,
    ) -> Result<FindOverlappingIter<'a, 'h>, MatchError> {
        let input = input.into();
        self.lists(input.get_anchored())?;
        if input.get_anchored().is_anchored() {
            return Err(MatchError::invalid_input_anchored());
        }
        Ok(FindOverlappingIter::new(self, &input))
    }

    /// The next occurrence of a listing, into the state. See `try_find_overlapping`.
    pub fn find_overlapping<'h, I: Into<Input<'h>>>(&self, input: I, state: &mut OverlappingState) {
        supported(self.try_find_overlapping(input, state))
    }

    /// The next occurrence of a listing, into the state, which has it as `get_match`, or nothing where none is left.
    ///
    /// A state begins as `OverlappingState::start()`, and then belongs to this automaton and this input. A call reads again at
    /// most as many bytes before the last occurrence's end as the longest pattern has, so `find_overlapping_iter` is faster. It
    /// needs the standard kind. Of an anchored input it lists the occurrences that start where the input does.
    pub fn try_find_overlapping<'h, I: Into<Input<'h>>>(&self, input: I, state: &mut OverlappingState) -> Result<(), MatchError> {
        let input = input.into();
        self.lists(input.get_anchored())?;
        state.advance(self, &input);
        Ok(())
    }

    /// An error where the automaton wasn't built for searches that are anchored so.
    pub(crate) fn serves(&self, anchored: Anchored) -> Result<(), MatchError> {
        match (self.start_kind, anchored) {
            (StartKind::Unanchored, Anchored::Yes) => Err(MatchError::invalid_input_anchored()),
            (StartKind::Anchored, Anchored::No) => Err(MatchError::invalid_input_unanchored()),
            _ => Ok(()),
        }
    }

    /// An error where the automaton can't list occurrences by searches that are anchored so.
    pub(crate) fn lists(&self, anchored: Anchored) -> Result<(), MatchError> {
        self.serves(anchored)?;
        match self.match_kind {
            MatchKind::Standard => Ok(()),
            got => Err(MatchError::unsupported_overlapping(got)),
        }
    }
}

/// What a call gives that the automaton was built for.
pub(crate) fn supported<T>(result: Result<T, MatchError>) -> T {
    result.unwrap_or_else(|error| panic!("{error}"))
}

/// What a call of the library gives whose configuration and arguments were tested before.
pub(crate) fn unfailing<T>(result: Result<T, sys::dado_status>) -> T {
    result.unwrap_or_else(|status| unreachable!("a search: {}", handle::status_text(status)))
}

impl fmt::Debug for AhoCorasick {
    fn fmt(&self, f: &mut fmt::Formatter<'_>) -> fmt::Result {
        f.debug_struct("AhoCorasick")
            .field("kind", &self.kind())
            .field("match_kind", &self.match_kind)
            .field("start_kind", &self.start_kind)
            .field("patterns_len", &self.patterns_len())
            .finish()
    }
}
