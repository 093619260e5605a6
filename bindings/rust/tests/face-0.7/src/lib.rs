//! What `regex` 1.7, `ripgrep` 13, `globset` 0.4.9 and `ignore` 0.4.18 call of `aho-corasick` 0.7, by the names of then, over
//! `dadofennel`. It is for tests and measurements with what Debian has, and not the whole of 0.7: a call that isn't here doesn't
//! compile.

#![deny(missing_docs)]
#![forbid(unsafe_code)]

use std::fmt;
use std::marker::PhantomData;

use dadofennel::{AhoCorasickKind, BuildError, Input};

pub mod packed;

/// The type of a state's number, which 0.7 lets its user choose. It changes nothing here.
pub trait StateID: Clone + fmt::Debug {}

impl StateID for u8 {}
impl StateID for u16 {}
impl StateID for u32 {}
impl StateID for u64 {}
impl StateID for usize {}

/// Which of several overlapping occurrences is the match.
#[derive(Clone, Copy, Debug, Default, Eq, PartialEq)]
pub enum MatchKind {
    /// The one that ends first.
    #[default]
    Standard,
    /// The one that starts first; of those the lower number.
    LeftmostFirst,
    /// The one that starts first; of those the longest.
    LeftmostLongest,
}

impl MatchKind {
    fn ours(self) -> dadofennel::MatchKind {
        match self {
            MatchKind::Standard => dadofennel::MatchKind::Standard,
            MatchKind::LeftmostFirst => dadofennel::MatchKind::LeftmostFirst,
            MatchKind::LeftmostLongest => dadofennel::MatchKind::LeftmostLongest,
        }
    }
}

/// A match: the number of its pattern, and where it is.
#[derive(Clone, Copy, Debug, Eq, Hash, PartialEq)]
pub struct Match(dadofennel::Match);

impl Match {
    /// The number of the pattern.
    #[inline]
    pub fn pattern(&self) -> usize {
        self.0.pattern().as_usize()
    }

    /// Where it starts.
    #[inline]
    pub fn start(&self) -> usize {
        self.0.start()
    }

    /// The place after its last byte.
    #[inline]
    pub fn end(&self) -> usize {
        self.0.end()
    }

    /// Whether it has no byte.
    #[inline]
    pub fn is_empty(&self) -> bool {
        self.0.is_empty()
    }
}

/// Why an automaton was not built.
#[derive(Clone, Debug)]
pub struct Error(BuildError);

impl std::error::Error for Error {}

impl fmt::Display for Error {
    fn fmt(&self, f: &mut fmt::Formatter<'_>) -> fmt::Result {
        self.0.fmt(f)
    }
}

/// The settings that an automaton is built with.
#[derive(Clone, Debug, Default)]
pub struct AhoCorasickBuilder {
    kind: MatchKind,
    dfa: bool,
    fold: bool,
}

impl AhoCorasickBuilder {
    /// The settings at first.
    pub fn new() -> AhoCorasickBuilder {
        AhoCorasickBuilder::default()
    }

    /// Which of several overlapping occurrences is the match.
    pub fn match_kind(&mut self, kind: MatchKind) -> &mut AhoCorasickBuilder {
        self.kind = kind;
        self
    }

    /// Whether ASCII letters match in either case.
    pub fn ascii_case_insensitive(&mut self, yes: bool) -> &mut AhoCorasickBuilder {
        self.fold = yes;
        self
    }

    /// Whether it is a DFA; otherwise the library chooses.
    pub fn dfa(&mut self, yes: bool) -> &mut AhoCorasickBuilder {
        self.dfa = yes;
        self
    }

    /// Lets the library choose, as it does at first.
    pub fn auto_configure<B: AsRef<[u8]>>(&mut self, _patterns: &[B]) -> &mut AhoCorasickBuilder {
        self.dfa = false;
        self
    }

    /// An automaton. It panics where it can't be built.
    pub fn build<I, P>(&self, patterns: I) -> AhoCorasick
    where
        I: IntoIterator<Item = P>,
        P: AsRef<[u8]>,
    {
        self.build_with_size(patterns).expect("an automaton")
    }

    /// An automaton.
    pub fn build_with_size<S, I, P>(&self, patterns: I) -> Result<AhoCorasick<S>, Error>
    where
        S: StateID,
        I: IntoIterator<Item = P>,
        P: AsRef<[u8]>,
    {
        let mut builder = dadofennel::AhoCorasick::builder();
        builder.match_kind(self.kind.ours()).ascii_case_insensitive(self.fold);
        builder.kind(if self.dfa { Some(AhoCorasickKind::DFA) } else { None });
        Ok(AhoCorasick { searcher: builder.build(patterns).map_err(Error)?, size: PhantomData })
    }
}

/// An automaton that searches for many patterns at once.
#[derive(Clone, Debug)]
pub struct AhoCorasick<S: StateID = usize> {
    searcher: dadofennel::AhoCorasick,
    size: PhantomData<S>,
}

impl AhoCorasick {
    /// An automaton of the standard kind. It panics where it can't be built.
    pub fn new<I, P>(patterns: I) -> AhoCorasick
    where
        I: IntoIterator<Item = P>,
        P: AsRef<[u8]>,
    {
        AhoCorasickBuilder::new().build(patterns)
    }

    /// An automaton of the standard kind. It panics where it can't be built.
    pub fn new_auto_configured<B: AsRef<[u8]>>(patterns: &[B]) -> AhoCorasick {
        AhoCorasick::new(patterns)
    }
}

impl<S: StateID> AhoCorasick<S> {
    /// Whether some pattern occurs.
    #[inline]
    pub fn is_match<B: AsRef<[u8]>>(&self, haystack: B) -> bool {
        self.searcher.is_match(haystack.as_ref())
    }

    /// The match, if there is one.
    #[inline]
    pub fn find<B: AsRef<[u8]>>(&self, haystack: B) -> Option<Match> {
        self.searcher.find(haystack.as_ref()).map(Match)
    }

    /// The match of the standard kind, if there is one.
    #[inline]
    pub fn earliest_find<B: AsRef<[u8]>>(&self, haystack: B) -> Option<Match> {
        self.searcher.find(Input::new(haystack.as_ref()).earliest(true)).map(Match)
    }

    /// The matches one after another.
    pub fn find_iter<'a, 'b, B: ?Sized + AsRef<[u8]>>(&'a self, haystack: &'b B) -> FindIter<'a, 'b> {
        FindIter(self.searcher.find_iter(haystack))
    }

    /// All occurrences.
    pub fn find_overlapping_iter<'a, 'b, B: ?Sized + AsRef<[u8]>>(&'a self, haystack: &'b B) -> FindOverlappingIter<'a, 'b> {
        FindOverlappingIter(self.searcher.find_overlapping_iter(haystack))
    }

    /// How many patterns it was built of.
    pub fn pattern_count(&self) -> usize {
        self.searcher.patterns_len()
    }

    /// About how many bytes of memory it takes.
    pub fn heap_bytes(&self) -> usize {
        self.searcher.memory_usage()
    }
}

/// The matches one after another.
#[derive(Debug)]
pub struct FindIter<'a, 'b>(dadofennel::FindIter<'a, 'b>);

impl Iterator for FindIter<'_, '_> {
    type Item = Match;

    #[inline]
    fn next(&mut self) -> Option<Match> {
        self.0.next().map(Match)
    }
}

/// All occurrences.
#[derive(Debug)]
pub struct FindOverlappingIter<'a, 'b>(dadofennel::FindOverlappingIter<'a, 'b>);

impl Iterator for FindOverlappingIter<'_, '_> {
    type Item = Match;

    #[inline]
    fn next(&mut self) -> Option<Match> {
        self.0.next().map(Match)
    }
}
