//! Search for many patterns at once, by a library that is proved to find exactly what its definitions say.
//!
//! The names are those of the crate `aho-corasick` 1.1, so a program changes `aho_corasick` into `dadofennel`. What differs is on
//! the page `README.md`.
//!
//! ```
//! use dadofennel::AhoCorasick;
//!
//! let words = ["oak", "elm", "birch"];
//! let ac = AhoCorasick::builder().ascii_case_insensitive(true).build(words)?;
//! let found: Vec<_> = ac.find_iter("Elm, ash and birch").map(|found| (words[found.pattern().as_usize()], found.range())).collect();
//! assert_eq!(vec![("elm", 0..3), ("birch", 13..18)], found);
//! # Ok::<(), Box<dyn std::error::Error>>(())
//! ```
//!
//! Under the standard kind a match is reported as soon as one ends; a leftmost kind takes the one that starts first:
//!
//! ```
//! use dadofennel::{AhoCorasick, MatchKind};
//!
//! let words = ["seaweed", "sea"];
//! let ac = AhoCorasick::new(words)?;
//! assert_eq!(Some(0..3), ac.find("seaweed").map(|found| found.range()));
//!
//! let ac = AhoCorasick::builder().match_kind(MatchKind::LeftmostFirst).build(words)?;
//! assert_eq!(Some(0..7), ac.find("seaweed").map(|found| found.range()));
//! # Ok::<(), Box<dyn std::error::Error>>(())
//! ```
//!
//! Only the module that holds a handle of the library has `unsafe`.

#![deny(missing_docs, unsafe_code)]

mod ahocorasick;
pub mod automaton;
mod builder;
mod error;
mod handle;
mod id;
mod iter;
mod mask;
mod replace;
mod search;
mod stream;
mod words;

pub use crate::ahocorasick::{AhoCorasick, AhoCorasickKind};
pub use crate::builder::AhoCorasickBuilder;
pub use crate::error::{BuildError, BuildErrorKind, MatchError, MatchErrorKind};
pub use crate::id::{PatternID, PatternIDError};
pub use crate::iter::{FindIter, FindOverlappingIter};
pub use crate::search::{Anchored, Input, Match, MatchKind, Span, StartKind};
pub use crate::stream::{StreamFindIter, StreamFindOverlappingWordIter, StreamFindWordIter};
pub use crate::words::{FindOverlappingWordIter, FindWordIter};

/// The version of the library that searches, such as `1.1.0`.
pub fn version() -> &'static str {
    handle::version()
}

/// The page of the crate, whose examples are tests.
#[cfg(doctest)]
#[doc = include_str!("../README.md")]
mod page {}
