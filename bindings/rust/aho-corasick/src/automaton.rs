//! What the automata share: the trait `Automaton`, and its iterators.
//!
//! The searches are those of `AhoCorasick`, of an automaton that is named by its type. The public crate also lets its user walk the
//! states one byte at a time (`start_state`, `next_state`, `is_match` and so on, with `StateID` and `Prefilter`). The library shows
//! no states, so these aren't here, and a program that calls them doesn't compile.

use std::fmt;
use std::io::{self, Read, Write};
use std::iter::FusedIterator;
use std::marker::PhantomData;

pub use dadofennel::automaton::OverlappingState;

use crate::{AhoCorasick, Input, Match, MatchError, MatchKind, PatternID};

pub(crate) mod private {
    /// Only the automata of this crate are automata.
    pub trait Sealed {
        /// What searches.
        #[doc(hidden)]
        fn searcher(&self) -> &dadofennel::AhoCorasick;
    }

    impl<S: Sealed + ?Sized> Sealed for &S {
        fn searcher(&self) -> &dadofennel::AhoCorasick {
            (**self).searcher()
        }
    }
}

/// An automaton, and its searches: one of `dfa::DFA`, `nfa::contiguous::NFA` and `nfa::noncontiguous::NFA`.
///
/// A call returns a `MatchError` for a search that the automaton wasn't built for, whatever is searched. Its time and memory are those
/// of the call of `AhoCorasick` that has its name.
///
/// ```
/// use aho_corasick::automaton::Automaton;
/// use aho_corasick::{dfa::DFA, nfa::contiguous::NFA, Input};
///
/// fn first_end<A: Automaton>(automaton: A, text: &str) -> Option<usize> {
///     automaton.try_find(&Input::new(text)).unwrap().map(|found| found.end())
/// }
///
/// assert_eq!(Some(6), first_end(DFA::new(["elm", "oak"])?, "an elm"));
/// assert_eq!(Some(6), first_end(NFA::new(["elm", "oak"])?, "an elm"));
/// # Ok::<(), Box<dyn std::error::Error>>(())
/// ```
pub trait Automaton: private::Sealed {
    /// Which of several overlapping occurrences is the match.
    fn match_kind(&self) -> MatchKind {
        self.searcher().match_kind()
    }

    /// How many patterns it was built of.
    fn patterns_len(&self) -> usize {
        self.searcher().patterns_len()
    }

    /// How many bytes this pattern has. It panics where no pattern has that number.
    fn pattern_len(&self, pid: PatternID) -> usize {
        self.searcher().pattern_len(pid)
    }

    /// How many bytes the shortest pattern has; `usize::MAX` where there is none.
    fn min_pattern_len(&self) -> usize {
        self.searcher().min_pattern_len()
    }

    /// How many bytes the longest pattern has; 0 where there is none.
    fn max_pattern_len(&self) -> usize {
        self.searcher().max_pattern_len()
    }

    /// About how many bytes of memory it takes.
    fn memory_usage(&self) -> usize {
        self.searcher().memory_usage()
    }

    /// The match, if there is one: the best of the automaton's kind.
    fn try_find(&self, input: &Input<'_>) -> Result<Option<Match>, MatchError> {
        self.searcher().try_find(input.clone())
    }

    /// The next occurrence of a listing, into the state. See `AhoCorasick::try_find_overlapping`.
    fn try_find_overlapping(&self, input: &Input<'_>, state: &mut OverlappingState) -> Result<(), MatchError> {
        self.searcher().try_find_overlapping(input.clone(), state)
    }

    /// The matches one after another; no two of them overlap.
    fn try_find_iter<'a, 'h>(&'a self, input: Input<'h>) -> Result<FindIter<'a, 'h, Self>, MatchError>
    where
        Self: Sized,
    {
        Ok(FindIter { found: self.searcher().try_find_iter(input)?, automaton: PhantomData })
    }

    /// All occurrences, overlapping ones too, in the order of end, start and number. It needs the standard kind, and an input that
    /// isn't anchored.
    fn try_find_overlapping_iter<'a, 'h>(&'a self, input: Input<'h>) -> Result<FindOverlappingIter<'a, 'h, Self>, MatchError>
    where
        Self: Sized,
    {
        Ok(FindOverlappingIter { found: self.searcher().try_find_overlapping_iter(input)?, automaton: PhantomData })
    }

    /// The text with each match replaced by the replacement of its pattern. It panics where there are not as many as patterns.
    fn try_replace_all<B: AsRef<str>>(&self, haystack: &str, replace_with: &[B]) -> Result<String, MatchError>
    where
        Self: Sized,
    {
        self.searcher().try_replace_all(haystack, replace_with)
    }

    /// The bytes with each match replaced by the replacement of its pattern. It panics where there are not as many as patterns.
    fn try_replace_all_bytes<B: AsRef<[u8]>>(&self, haystack: &[u8], replace_with: &[B]) -> Result<Vec<u8>, MatchError>
    where
        Self: Sized,
    {
        self.searcher().try_replace_all_bytes(haystack, replace_with)
    }

    /// The text with each match replaced by what the closure puts there. See `AhoCorasick::replace_all_with`.
    fn try_replace_all_with<F>(&self, haystack: &str, dst: &mut String, replace_with: F) -> Result<(), MatchError>
    where
        Self: Sized,
        F: FnMut(&Match, &str, &mut String) -> bool,
    {
        self.searcher().try_replace_all_with(haystack, dst, replace_with)
    }

    /// The bytes with each match replaced by what the closure puts there. See `AhoCorasick::replace_all_with_bytes`.
    fn try_replace_all_with_bytes<F>(&self, haystack: &[u8], dst: &mut Vec<u8>, replace_with: F) -> Result<(), MatchError>
    where
        Self: Sized,
        F: FnMut(&Match, &[u8], &mut Vec<u8>) -> bool,
    {
        self.searcher().try_replace_all_with_bytes(haystack, dst, replace_with)
    }

    /// The matches of what a reader has. See `AhoCorasick::stream_find_iter`.
    fn try_stream_find_iter<R: Read>(&self, rdr: R) -> Result<StreamFindIter<'_, Self, R>, MatchError>
    where
        Self: Sized,
    {
        Ok(StreamFindIter { found: self.searcher().try_stream_find_iter(rdr)?, automaton: PhantomData })
    }

    /// Writes what a reader has, with each match replaced by the replacement of its pattern. A `MatchError` is an error of the kind
    /// `Other`. It panics where there are not as many replacements as patterns.
    fn try_stream_replace_all<R, W, B>(&self, rdr: R, wtr: W, replace_with: &[B]) -> io::Result<()>
    where
        Self: Sized,
        R: Read,
        W: Write,
        B: AsRef<[u8]>,
    {
        self.searcher().try_stream_replace_all(rdr, wtr, replace_with)
    }

    /// Writes what a reader has, with each match replaced by what the closure writes. A `MatchError` is an error of the kind `Other`.
    fn try_stream_replace_all_with<R, W, F>(&self, rdr: R, wtr: W, replace_with: F) -> io::Result<()>
    where
        Self: Sized,
        R: Read,
        W: Write,
        F: FnMut(&Match, &[u8], &mut W) -> io::Result<()>,
    {
        self.searcher().try_stream_replace_all_with(rdr, wtr, replace_with)
    }
}

impl<A: Automaton + ?Sized> Automaton for &A {
    fn memory_usage(&self) -> usize {
        (**self).memory_usage()
    }
}

/// The matches of an input one after another. See `Automaton::try_find_iter`.
#[derive(Debug)]
pub struct FindIter<'a, 'h, A> {
    found: crate::FindIter<'a, 'h>,
    automaton: PhantomData<&'a A>,
}

impl<A: Automaton> Iterator for FindIter<'_, '_, A> {
    type Item = Match;

    #[inline]
    fn next(&mut self) -> Option<Match> {
        self.found.next()
    }
}

impl<A: Automaton> FusedIterator for FindIter<'_, '_, A> {}

/// All occurrences in an input. See `Automaton::try_find_overlapping_iter`.
#[derive(Debug)]
pub struct FindOverlappingIter<'a, 'h, A> {
    found: crate::FindOverlappingIter<'a, 'h>,
    automaton: PhantomData<&'a A>,
}

impl<A: Automaton> Iterator for FindOverlappingIter<'_, '_, A> {
    type Item = Match;

    #[inline]
    fn next(&mut self) -> Option<Match> {
        self.found.next()
    }
}

impl<A: Automaton> FusedIterator for FindOverlappingIter<'_, '_, A> {}

/// The matches of what a reader has. See `Automaton::try_stream_find_iter`.
#[derive(Debug)]
pub struct StreamFindIter<'a, A, R> {
    found: crate::StreamFindIter<'a, R>,
    automaton: PhantomData<&'a A>,
}

impl<A: Automaton, R: Read> Iterator for StreamFindIter<'_, A, R> {
    type Item = io::Result<Match>;

    fn next(&mut self) -> Option<io::Result<Match>> {
        self.found.next()
    }
}

/// What `Debug` shows of an automaton.
pub(crate) fn shown(name: &str, searcher: &AhoCorasick, f: &mut fmt::Formatter<'_>) -> fmt::Result {
    f.debug_struct(name)
        .field("match_kind", &searcher.match_kind())
        .field("start_kind", &searcher.start_kind())
        .field("patterns_len", &searcher.patterns_len())
        .finish()
}
