//! A search for 1 to 128 patterns, none of them empty, under a leftmost kind.

use crate::Match;

/// How many patterns are served at most.
const PATTERN_LIMIT: usize = 128;

/// Which of several overlapping occurrences is the match.
#[derive(Clone, Copy, Debug, Default, Eq, PartialEq)]
pub enum MatchKind {
    /// The one that starts first; of those the lower number.
    #[default]
    LeftmostFirst,
    /// The one that starts first; of those the longest.
    LeftmostLongest,
}

/// The settings of a searcher.
#[derive(Clone, Debug, Default)]
pub struct Config {
    kind: MatchKind,
}

impl Config {
    /// The settings at first.
    pub fn new() -> Config {
        Config::default()
    }

    /// Which of several overlapping occurrences is the match.
    pub fn match_kind(&mut self, kind: MatchKind) -> &mut Config {
        self.kind = kind;
        self
    }

    /// A builder with these settings.
    pub fn builder(&self) -> Builder {
        Builder { kind: self.kind, patterns: vec![] }
    }
}

/// A builder, with the patterns that were added so far.
#[derive(Clone, Debug, Default)]
pub struct Builder {
    kind: MatchKind,
    patterns: Vec<Vec<u8>>,
}

impl Builder {
    /// Adds these patterns in their order.
    pub fn extend<I, P>(&mut self, patterns: I) -> &mut Builder
    where
        I: IntoIterator<Item = P>,
        P: AsRef<[u8]>,
    {
        self.patterns.extend(patterns.into_iter().map(|it| it.as_ref().to_vec()));
        self
    }

    /// A searcher, if it serves these patterns.
    pub fn build(&self) -> Option<Searcher> {
        let served = (1..=PATTERN_LIMIT).contains(&self.patterns.len()) && self.patterns.iter().all(|it| !it.is_empty());
        let kind = match self.kind {
            MatchKind::LeftmostFirst => dadofennel::MatchKind::LeftmostFirst,
            MatchKind::LeftmostLongest => dadofennel::MatchKind::LeftmostLongest,
        };
        let mut builder = dadofennel::AhoCorasick::builder();
        builder.match_kind(kind);
        Some(Searcher(builder.build(&self.patterns).ok().filter(|_| served)?))
    }
}

/// A search for few patterns.
#[derive(Clone, Debug)]
pub struct Searcher(dadofennel::AhoCorasick);

impl Searcher {
    /// The match, if there is one.
    #[inline]
    pub fn find<B: AsRef<[u8]>>(&self, haystack: B) -> Option<Match> {
        self.0.find(haystack.as_ref()).map(Match)
    }

    /// About how many bytes of memory it takes.
    pub fn heap_bytes(&self) -> usize {
        self.0.memory_usage()
    }
}
