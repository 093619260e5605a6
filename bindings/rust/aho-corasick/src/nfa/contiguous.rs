//! The contiguous NFA, whose states stand in one array: the least memory.

use std::fmt;

use crate::automaton::{private, shown, Automaton};
use crate::nfa::noncontiguous;
use crate::rules::{setters, Rules};
use crate::{AhoCorasick, AhoCorasickBuilder, AhoCorasickKind, BuildError, MatchKind, StartKind};

/// A contiguous NFA. Its searches are those of the trait `Automaton`, anchored or not. A clone shares it.
#[derive(Clone)]
pub struct NFA(AhoCorasick);

impl NFA {
    /// An NFA of these patterns, with the settings at first.
    pub fn new<I, P>(patterns: I) -> Result<NFA, BuildError>
    where
        I: IntoIterator<Item = P>,
        P: AsRef<[u8]>,
    {
        Builder::new().build(patterns)
    }

    /// A builder, with the settings at first.
    pub fn builder() -> Builder {
        Builder::new()
    }
}

impl private::Sealed for NFA {
    fn searcher(&self) -> &AhoCorasick {
        &self.0
    }
}

impl Automaton for NFA {}

impl fmt::Debug for NFA {
    fn fmt(&self, f: &mut fmt::Formatter<'_>) -> fmt::Result {
        shown("contiguous::NFA", &self.0, f)
    }
}

/// The settings that a contiguous NFA is built with.
#[derive(Clone, Debug)]
pub struct Builder {
    rules: Rules,
    dense_depth: Option<usize>,
    byte_classes: bool,
}

impl Default for Builder {
    fn default() -> Builder {
        Builder::new()
    }
}

impl Builder {
    /// The settings at first.
    pub fn new() -> Builder {
        Builder { rules: Rules::default(), dense_depth: None, byte_classes: true }
    }

    /// An NFA of these patterns. An error says which limit they pass, or that there was not enough memory.
    pub fn build<I, P>(&self, patterns: I) -> Result<NFA, BuildError>
    where
        I: IntoIterator<Item = P>,
        P: AsRef<[u8]>,
    {
        self.builder(self.rules).build(patterns).map(NFA)
    }

    /// An NFA of the patterns of another one, with its kind, case rule and prefilter. It takes the time of `build`.
    pub fn build_from_noncontiguous(&self, nnfa: &noncontiguous::NFA) -> Result<NFA, BuildError> {
        self.builder(nnfa.rules()).build(nnfa.patterns()).map(NFA)
    }

    fn builder(&self, rules: Rules) -> AhoCorasickBuilder {
        let mut builder = rules.builder(AhoCorasickKind::ContiguousNFA, StartKind::Both);
        builder.byte_classes(self.byte_classes);
        if let Some(depth) = self.dense_depth {
            builder.dense_depth(depth);
        }
        builder
    }

    setters!();

    /// To which depth the states keep a row: 2, at first. It changes no result.
    pub fn dense_depth(&mut self, depth: usize) -> &mut Builder {
        self.dense_depth = Some(depth);
        self
    }

    /// Whether bytes that lead alike are one class: yes, at first. Without classes it takes more memory. It changes no result.
    pub fn byte_classes(&mut self, yes: bool) -> &mut Builder {
        self.byte_classes = yes;
        self
    }
}
