//! The noncontiguous NFA, which is built soonest, and of which the other automata may be built.

use std::fmt;
use std::sync::Arc;

use crate::automaton::{private, shown, Automaton};
use crate::rules::{setters, Rules};
use crate::{AhoCorasick, AhoCorasickKind, BuildError, MatchKind, StartKind};

/// A noncontiguous NFA. Its searches are those of the trait `Automaton`, anchored or not. A clone shares it.
///
/// It keeps the patterns, of which the other automata are built.
///
/// ```
/// use aho_corasick::automaton::Automaton;
/// use aho_corasick::{dfa, nfa::noncontiguous::NFA, Input, MatchKind};
///
/// let nfa = NFA::builder().match_kind(MatchKind::LeftmostLongest).build(["app", "append"])?;
/// let dfa = dfa::Builder::new().build_from_noncontiguous(&nfa)?;
/// let input = Input::new("appended");
/// assert_eq!(Some(0..6), dfa.try_find(&input)?.map(|found| found.range()));
/// assert_eq!(nfa.try_find(&input)?, dfa.try_find(&input)?);
/// # Ok::<(), Box<dyn std::error::Error>>(())
/// ```
#[derive(Clone)]
pub struct NFA {
    searcher: AhoCorasick,
    rules: Rules,
    patterns: Arc<[Box<[u8]>]>,
}

impl NFA {
    /// An NFA of these patterns, with the settings at first.
    pub fn new<I, P>(patterns: I) -> Result<NFA, BuildError>
    where
        I: IntoIterator<Item = P>,
        P: AsRef<[u8]>,
    {
        Builder::new().build(patterns)
    }

    /// A builder, with the settings at first.
    pub fn builder() -> Builder {
        Builder::new()
    }

    pub(crate) fn rules(&self) -> Rules {
        self.rules
    }

    pub(crate) fn patterns(&self) -> &[Box<[u8]>] {
        &self.patterns
    }
}

impl private::Sealed for NFA {
    fn searcher(&self) -> &AhoCorasick {
        &self.searcher
    }
}

impl Automaton for NFA {
    fn memory_usage(&self) -> usize {
        let bytes: usize = self.patterns.iter().map(|it| it.len()).sum();
        self.searcher.memory_usage() + bytes + std::mem::size_of_val(&*self.patterns)
    }
}

impl fmt::Debug for NFA {
    fn fmt(&self, f: &mut fmt::Formatter<'_>) -> fmt::Result {
        shown("noncontiguous::NFA", &self.searcher, f)
    }
}

/// The settings that a noncontiguous NFA is built with.
#[derive(Clone, Debug, Default)]
pub struct Builder {
    rules: Rules,
    dense_depth: Option<usize>,
}

impl Builder {
    /// The settings at first.
    pub fn new() -> Builder {
        Builder::default()
    }

    /// An NFA of these patterns. An error says which limit they pass, or that there was not enough memory.
    pub fn build<I, P>(&self, patterns: I) -> Result<NFA, BuildError>
    where
        I: IntoIterator<Item = P>,
        P: AsRef<[u8]>,
    {
        let patterns: Arc<[Box<[u8]>]> = patterns.into_iter().map(|it| Box::from(it.as_ref())).collect();
        let mut builder = self.rules.builder(AhoCorasickKind::NoncontiguousNFA, StartKind::Both);
        if let Some(depth) = self.dense_depth {
            builder.dense_depth(depth);
        }
        Ok(NFA { searcher: builder.build(patterns.iter())?, rules: self.rules, patterns })
    }

    setters!();

    /// To which depth the states keep a row: 3, at first. It changes no result.
    pub fn dense_depth(&mut self, depth: usize) -> &mut Builder {
        self.dense_depth = Some(depth);
        self
    }
}
