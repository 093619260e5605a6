//! A search for few patterns, of one byte or more each, under a leftmost kind.
//!
//! The public crate compares many bytes of the text with all patterns at once here, where the processor has instructions for it,
//! and serves no more patterns than these allow. The library has one way to search, by an automaton with a prefilter, so a
//! searcher here is an automaton too: 1 to 128 patterns are served, on every processor, and the settings that choose an algorithm
//! change nothing.
//!
//! ```
//! use aho_corasick::packed::{MatchKind, Searcher};
//!
//! let searcher = Searcher::config().match_kind(MatchKind::LeftmostLongest).builder().extend(["app", "append"]).build().unwrap();
//! let found: Vec<_> = searcher.find_iter("appended, an app").map(|found| found.range()).collect();
//! assert_eq!(vec![0..6, 13..16], found);
//! ```

use std::iter::FusedIterator;

use crate::{AhoCorasick, Input, Match, Span};

/// How many patterns are served at most.
const PATTERN_LIMIT: usize = 128;

/// Which of several overlapping occurrences is the match.
#[non_exhaustive]
#[derive(Clone, Copy, Debug, Default, Eq, PartialEq)]
pub enum MatchKind {
    /// The one that starts first; of those the one whose pattern was added first.
    #[default]
    LeftmostFirst,
    /// The one that starts first; of those the longest, then the one whose pattern was added first.
    LeftmostLongest,
}

/// The settings of a searcher.
#[derive(Clone, Debug, Default)]
pub struct Config {
    kind: MatchKind,
}

impl Config {
    /// The settings at first.
    pub fn new() -> Config {
        Config::default()
    }

    /// A builder with these settings, without patterns.
    pub fn builder(&self) -> Builder {
        Builder { config: self.clone(), ..Builder::default() }
    }

    /// Which of several overlapping occurrences is the match: the leftmost, first one, at first.
    pub fn match_kind(&mut self, kind: MatchKind) -> &mut Config {
        self.kind = kind;
        self
    }

    /// There it asks for vectors, or nothing. It changes nothing here.
    #[doc(hidden)]
    pub fn only_teddy(&mut self, _yes: bool) -> &mut Config {
        self
    }

    /// There it chooses among vectors. It changes nothing here.
    #[doc(hidden)]
    pub fn only_teddy_fat(&mut self, _yes: Option<bool>) -> &mut Config {
        self
    }

    /// There it chooses among vectors. It changes nothing here.
    #[doc(hidden)]
    pub fn only_teddy_256bit(&mut self, _yes: Option<bool>) -> &mut Config {
        self
    }

    /// There it asks for a rolling hash. It changes nothing here.
    #[doc(hidden)]
    pub fn only_rabin_karp(&mut self, _yes: bool) -> &mut Config {
        self
    }

    /// There it lets vectors refuse patterns that they would serve slowly. It changes nothing here.
    pub fn heuristic_pattern_limits(&mut self, _yes: bool) -> &mut Config {
        self
    }
}

/// A builder of a searcher, with the patterns that were added so far.
#[derive(Clone, Debug, Default)]
pub struct Builder {
    config: Config,
    patterns: Vec<Vec<u8>>,
    refused: bool,
}

impl Builder {
    /// A builder with the settings at first, without patterns.
    pub fn new() -> Builder {
        Builder::default()
    }

    /// A searcher for the patterns. There is none without a pattern, with an empty one, with more than 128, or where it can't be
    /// built since memory ran out.
    pub fn build(&self) -> Option<Searcher> {
        if self.patterns.is_empty() {
            return None;
        }
        let kind = match self.config.kind {
            MatchKind::LeftmostFirst => crate::MatchKind::LeftmostFirst,
            MatchKind::LeftmostLongest => crate::MatchKind::LeftmostLongest,
        };
        let searcher = AhoCorasick::builder().match_kind(kind).build(&self.patterns).ok()?;
        Some(Searcher { searcher, kind: self.config.kind })
    }

    /// Adds a pattern, with the next number. An empty one, or one too many, removes all patterns, and none is added from then on.
    pub fn add<P: AsRef<[u8]>>(&mut self, pattern: P) -> &mut Builder {
        let pattern = pattern.as_ref();
        if self.refused || pattern.is_empty() || self.patterns.len() == PATTERN_LIMIT {
            self.refused = true;
            self.patterns.clear();
        } else {
            self.patterns.push(pattern.to_vec());
        }
        self
    }

    /// Adds these patterns in their order.
    pub fn extend<I, P>(&mut self, patterns: I) -> &mut Builder
    where
        I: IntoIterator<Item = P>,
        P: AsRef<[u8]>,
    {
        for pattern in patterns {
            self.add(pattern);
        }
        self
    }

    /// How many patterns were added.
    pub fn len(&self) -> usize {
        self.patterns.len()
    }

    /// Whether there is no pattern.
    pub fn is_empty(&self) -> bool {
        self.patterns.is_empty()
    }

    /// How many bytes the shortest pattern has; `usize::MAX` where there is none.
    pub fn minimum_len(&self) -> usize {
        self.patterns.iter().map(Vec::len).min().unwrap_or(usize::MAX)
    }
}

/// A search for few patterns. A clone shares it.
#[derive(Clone, Debug)]
pub struct Searcher {
    searcher: AhoCorasick,
    kind: MatchKind,
}

impl Searcher {
    /// A searcher for these patterns, by the leftmost first kind. There is none where `Builder::build` has none.
    pub fn new<I, P>(patterns: I) -> Option<Searcher>
    where
        I: IntoIterator<Item = P>,
        P: AsRef<[u8]>,
    {
        Builder::new().extend(patterns).build()
    }

    /// The settings at first.
    pub fn config() -> Config {
        Config::new()
    }

    /// A builder with the settings at first.
    pub fn builder() -> Builder {
        Builder::new()
    }

    /// The match, if there is one.
    #[inline]
    pub fn find<B: AsRef<[u8]>>(&self, haystack: B) -> Option<Match> {
        self.searcher.find(haystack.as_ref())
    }

    /// The match within a span, if there is one.
    ///
    /// # Panics
    ///
    /// Where the span ends past the haystack, or starts more than one past its end.
    #[inline]
    pub fn find_in<B: AsRef<[u8]>>(&self, haystack: B, span: Span) -> Option<Match> {
        self.searcher.find(Input::new(haystack.as_ref()).span(span))
    }

    /// The matches one after another; no two of them overlap.
    pub fn find_iter<'a, 'b, B: ?Sized + AsRef<[u8]>>(&'a self, haystack: &'b B) -> FindIter<'a, 'b> {
        FindIter(self.searcher.find_iter(haystack))
    }

    /// Which of several overlapping occurrences is the match.
    pub fn match_kind(&self) -> &MatchKind {
        &self.kind
    }

    /// How many bytes a haystack must have to be searched fast: 0, since each is searched in the same way.
    pub fn minimum_len(&self) -> usize {
        0
    }

    /// About how many bytes of memory it takes.
    pub fn memory_usage(&self) -> usize {
        self.searcher.memory_usage()
    }
}

/// The matches of a haystack one after another. See `Searcher::find_iter`.
#[derive(Debug)]
pub struct FindIter<'s, 'h>(crate::FindIter<'s, 'h>);

impl Iterator for FindIter<'_, '_> {
    type Item = Match;

    #[inline]
    fn next(&mut self) -> Option<Match> {
        self.0.next()
    }
}

impl FusedIterator for FindIter<'_, '_> {}
