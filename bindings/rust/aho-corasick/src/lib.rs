//! Stands for the public crate `aho-corasick` 1.1.5: the same names, over the library `dadofennel`, which is proved to find exactly
//! what its definitions say.
//!
//! A project whose dependencies need `aho-corasick` puts this one in its place, by a table `[patch.crates-io]`. The page
//! `README.md` has the lines, and what differs.
//!
//! ```
//! use aho_corasick::{AhoCorasick, PatternID};
//!
//! let ac = AhoCorasick::new(["oak", "elm"])?;
//! let found = ac.find("an elm").unwrap();
//! assert_eq!((PatternID::must(1), 3..6), (found.pattern(), found.range()));
//! # Ok::<(), Box<dyn std::error::Error>>(())
//! ```
//!
//! The root has the types of `dadofennel` themselves. The modules have what is only here: the automata by their names, each a
//! searcher of the library that was built with that engine, the trait `Automaton` that they share, and `packed`.
//!
//! The features `std`, `perf-literal` and `logging` change nothing: what the first two add is always there, and nothing is logged.

#![deny(missing_docs)]
#![forbid(unsafe_code)]

pub mod automaton;
pub mod dfa;
pub mod nfa;
pub mod packed;
mod rules;

pub use dadofennel::{
    AhoCorasick, AhoCorasickBuilder, AhoCorasickKind, Anchored, BuildError, FindIter, FindOverlappingIter, Input, Match,
    MatchError, MatchErrorKind, MatchKind, PatternID, PatternIDError, Span, StartKind, StreamFindIter,
};

/// The page of the crate, whose examples are tests.
#[cfg(doctest)]
#[doc = include_str!("../README.md")]
mod page {}
