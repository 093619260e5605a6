//! The DFA: one look-up for each byte, and the most memory.

use std::fmt;

use crate::automaton::{private, shown, Automaton};
use crate::nfa::noncontiguous;
use crate::rules::{setters, Rules};
use crate::{AhoCorasick, AhoCorasickKind, BuildError, MatchKind, StartKind};

/// A DFA. Its searches are those of the trait `Automaton`. A clone shares it.
///
/// ```
/// use aho_corasick::automaton::Automaton;
/// use aho_corasick::{dfa::DFA, Anchored, Input, StartKind};
///
/// let dfa = DFA::builder().start_kind(StartKind::Anchored).build(["elm", "oak"])?;
/// let found = dfa.try_find(&Input::new("oaks").anchored(Anchored::Yes))?;
/// assert_eq!(Some(0..3), found.map(|found| found.range()));
/// # Ok::<(), Box<dyn std::error::Error>>(())
/// ```
#[derive(Clone)]
pub struct DFA(AhoCorasick);

impl DFA {
    /// A DFA of these patterns, with the settings at first.
    pub fn new<I, P>(patterns: I) -> Result<DFA, BuildError>
    where
        I: IntoIterator<Item = P>,
        P: AsRef<[u8]>,
    {
        Builder::new().build(patterns)
    }

    /// A builder, with the settings at first.
    pub fn builder() -> Builder {
        Builder::new()
    }
}

impl private::Sealed for DFA {
    fn searcher(&self) -> &AhoCorasick {
        &self.0
    }
}

impl Automaton for DFA {}

impl fmt::Debug for DFA {
    fn fmt(&self, f: &mut fmt::Formatter<'_>) -> fmt::Result {
        shown("dfa::DFA", &self.0, f)
    }
}

/// The settings that a DFA is built with.
#[derive(Clone, Debug)]
pub struct Builder {
    rules: Rules,
    start_kind: StartKind,
    byte_classes: bool,
}

impl Default for Builder {
    fn default() -> Builder {
        Builder::new()
    }
}

impl Builder {
    /// The settings at first.
    pub fn new() -> Builder {
        Builder { rules: Rules::default(), start_kind: StartKind::Unanchored, byte_classes: true }
    }

    /// A DFA of these patterns. An error says which limit they pass, or that there was not enough memory.
    pub fn build<I, P>(&self, patterns: I) -> Result<DFA, BuildError>
    where
        I: IntoIterator<Item = P>,
        P: AsRef<[u8]>,
    {
        self.build_by(self.rules, patterns)
    }

    /// A DFA of the patterns of an NFA, with its kind, case rule and prefilter. It takes the time of `build`.
    pub fn build_from_noncontiguous(&self, nnfa: &noncontiguous::NFA) -> Result<DFA, BuildError> {
        self.build_by(nnfa.rules(), nnfa.patterns())
    }

    fn build_by<I, P>(&self, rules: Rules, patterns: I) -> Result<DFA, BuildError>
    where
        I: IntoIterator<Item = P>,
        P: AsRef<[u8]>,
    {
        rules.builder(AhoCorasickKind::DFA, self.start_kind).byte_classes(self.byte_classes).build(patterns).map(DFA)
    }

    setters!();

    /// Which searches it is for: those that aren't anchored, at first. With both it takes about twice the memory.
    pub fn start_kind(&mut self, kind: StartKind) -> &mut Builder {
        self.start_kind = kind;
        self
    }

    /// Whether bytes that lead alike are one class: yes, at first. Without classes it takes more memory. It changes no result.
    pub fn byte_classes(&mut self, yes: bool) -> &mut Builder {
        self.byte_classes = yes;
        self
    }
}
