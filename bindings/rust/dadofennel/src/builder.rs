//! How an automaton is built.

use dadofennel_sys as sys;

use crate::handle::{Handle, Settings};
use crate::{AhoCorasick, AhoCorasickKind, BuildError, MatchKind, StartKind};

/// For how many patterns and one kind of start the library chooses a DFA.
const MOST_FOR_A_DFA: usize = 100;

/// The settings that an automaton is built with.
///
/// ```
/// use dadofennel::{AhoCorasick, MatchKind};
///
/// let ac = AhoCorasick::builder().match_kind(MatchKind::LeftmostFirst).ascii_case_insensitive(true).build(["seaweed", "sea"])?;
/// assert_eq!(Some(0..7), ac.find("Seaweed").map(|found| found.range()));
/// # Ok::<(), Box<dyn std::error::Error>>(())
/// ```
#[derive(Clone, Debug)]
pub struct AhoCorasickBuilder {
    settings: Settings,
    match_kind: MatchKind,
    start_kind: StartKind,
}

impl Default for AhoCorasickBuilder {
    fn default() -> AhoCorasickBuilder {
        AhoCorasickBuilder::new()
    }
}

impl AhoCorasickBuilder {
    /// The settings at first.
    pub fn new() -> AhoCorasickBuilder {
        let settings = Settings {
            kind: sys::DADO_STANDARD,
            start_kind: sys::DADO_UNANCHORED,
            engine: sys::DADO_AUTO,
            fold: false,
            prefilter: true,
            byte_classes: true,
            dense_depth: None,
            row_memory: None,
            pairs: vec![],
        };
        AhoCorasickBuilder { settings, match_kind: MatchKind::Standard, start_kind: StartKind::Unanchored }
    }

    /// An automaton of these patterns. An empty one occurs at every place, and the same one may be given several times.
    ///
    /// An error says which limit the patterns pass, or that there was not enough memory.
    pub fn build<I, P>(&self, patterns: I) -> Result<AhoCorasick, BuildError>
    where
        I: IntoIterator<Item = P>,
        P: AsRef<[u8]>,
    {
        let patterns: Vec<P> = patterns.into_iter().collect();
        let handle = self.handle(&patterns).map_err(|(status, fault)| BuildError::of(status, fault))?;
        Ok(AhoCorasick::of(handle, self.match_kind, self.start_kind))
    }

    /// The automaton of the library.
    ///
    /// For anchored searches alone, of the standard kind, it is built for both starts there, since the library lists no occurrences
    /// without the other one. Searches that aren't anchored are refused by `AhoCorasick`.
    fn handle<P: AsRef<[u8]>>(&self, patterns: &[P]) -> Result<Handle, (sys::dado_status, sys::dado_fault)> {
        if self.start_kind != StartKind::Anchored || self.match_kind != MatchKind::Standard {
            return Handle::build(patterns, &self.settings);
        }
        let mut settings = Settings { start_kind: sys::DADO_BOTH, ..self.settings.clone() };
        if settings.engine == sys::DADO_AUTO && patterns.len() <= MOST_FOR_A_DFA {
            settings.engine = sys::DADO_DFA;
            match Handle::build(patterns, &settings) {
                Err((sys::DADO_TOO_MANY_STATES, _)) => settings.engine = sys::DADO_AUTO,
                built => return built,
            }
        }
        Handle::build(patterns, &settings)
    }

    /// Which of several overlapping occurrences is the match: the standard kind at first.
    pub fn match_kind(&mut self, kind: MatchKind) -> &mut AhoCorasickBuilder {
        self.match_kind = kind;
        self.settings.kind = kind.number();
        self
    }

    /// Which searches it is for: those that aren't anchored, at first.
    pub fn start_kind(&mut self, kind: StartKind) -> &mut AhoCorasickBuilder {
        self.start_kind = kind;
        self.settings.start_kind = match kind {
            StartKind::Both => sys::DADO_BOTH,
            StartKind::Unanchored => sys::DADO_UNANCHORED,
            StartKind::Anchored => sys::DADO_ANCHORED,
        };
        self
    }

    /// Whether ASCII letters match in either case: no, at first.
    pub fn ascii_case_insensitive(&mut self, yes: bool) -> &mut AhoCorasickBuilder {
        self.settings.fold = yes;
        self
    }

    /// The pairs of bytes that match each other: none at first. No byte may stand in two of them, and they don't go with the
    /// folding of case.
    pub fn pairs(&mut self, pairs: &[(u8, u8)]) -> &mut AhoCorasickBuilder {
        self.settings.pairs = pairs.iter().map(|&(a, b)| sys::dado_pair { a, b }).collect();
        self
    }

    /// What searches: chosen by the library, at first. That takes a DFA for up to 100 patterns and one start kind, else a
    /// contiguous NFA, and goes on to the next where one would be too large. One that is named serves, or the build is refused.
    pub fn kind(&mut self, kind: Option<AhoCorasickKind>) -> &mut AhoCorasickBuilder {
        self.settings.engine = match kind {
            None => sys::DADO_AUTO,
            Some(AhoCorasickKind::NoncontiguousNFA) => sys::DADO_NONCONTIGUOUS,
            Some(AhoCorasickKind::ContiguousNFA) => sys::DADO_CONTIGUOUS,
            Some(AhoCorasickKind::DFA) => sys::DADO_DFA,
        };
        self
    }

    /// Whether searches skip by a prefilter, where one serves: yes, at first. It changes no result.
    pub fn prefilter(&mut self, yes: bool) -> &mut AhoCorasickBuilder {
        self.settings.prefilter = yes;
        self
    }

    /// To which depth the states of an NFA keep a row. It changes no result.
    pub fn dense_depth(&mut self, depth: usize) -> &mut AhoCorasickBuilder {
        // the greatest number stands for the depth of each automaton; no pattern is as long as the one before it
        self.settings.dense_depth = Some(depth.min(usize::MAX - 1));
        self
    }

    /// Whether bytes that lead alike are one class: yes, at first. Without classes a state takes more memory. It changes no result.
    pub fn byte_classes(&mut self, yes: bool) -> &mut AhoCorasickBuilder {
        self.settings.byte_classes = yes;
        self
    }

    /// How many bytes of memory the rows of a contiguous NFA may take: 16 MiB at first. It changes no result.
    pub fn row_memory(&mut self, bytes: usize) -> &mut AhoCorasickBuilder {
        self.settings.row_memory = Some(bytes);
        self
    }
}
