//! What can't be built, and what an automaton wasn't built for.

use std::error::Error;
use std::fmt;

use dadofennel_sys as sys;

use crate::{handle, MatchKind, PatternID};

/// Why an automaton was not built.
#[derive(Clone, Debug, Eq, PartialEq)]
pub struct BuildError {
    kind: BuildErrorKind,
}

/// The cause of a `BuildError`.
#[non_exhaustive]
#[derive(Clone, Debug, Eq, PartialEq)]
pub enum BuildErrorKind {
    /// There would be more states than can be numbered.
    StateIDOverflow {
        /// A number past the greatest that would be needed.
        requested_max: u64,
    },
    /// There are more patterns than can be numbered.
    PatternIDOverflow {
        /// A number past the greatest that would be needed.
        requested_max: u64,
    },
    /// A pattern is too long.
    PatternTooLong {
        /// The pattern's number.
        pattern: PatternID,
        /// How many bytes it has.
        len: usize,
    },
    /// A byte stands in two pairs, or twice in one, or there are pairs beside the folding of case.
    BadPairs {
        /// The byte.
        byte: u8,
    },
    /// There was not enough memory.
    Memory,
}

impl BuildError {
    /// The cause.
    pub fn kind(&self) -> &BuildErrorKind {
        &self.kind
    }

    pub(crate) fn of(status: sys::dado_status, fault: sys::dado_fault) -> BuildError {
        let kind = match status {
            sys::DADO_TOO_MANY_STATES => BuildErrorKind::StateIDOverflow { requested_max: fault.count },
            sys::DADO_TOO_MANY_PATTERNS => BuildErrorKind::PatternIDOverflow { requested_max: fault.count },
            sys::DADO_PATTERN_TOO_LONG => {
                BuildErrorKind::PatternTooLong { pattern: PatternID::must(fault.pattern as usize), len: fault.count as usize }
            }
            sys::DADO_BAD_PAIRS => BuildErrorKind::BadPairs { byte: fault.pattern as u8 },
            sys::DADO_NO_MEMORY => BuildErrorKind::Memory,
            other => unreachable!("a build: {}", handle::status_text(other)),
        };
        BuildError { kind }
    }
}

impl Error for BuildError {}

impl fmt::Display for BuildError {
    fn fmt(&self, f: &mut fmt::Formatter<'_>) -> fmt::Result {
        let max = PatternID::MAX.as_u32();
        match self.kind {
            BuildErrorKind::StateIDOverflow { requested_max } => write!(f, "state {requested_max} is past {max}"),
            BuildErrorKind::PatternIDOverflow { requested_max } => write!(f, "pattern {requested_max} is past {max}"),
            BuildErrorKind::PatternTooLong { pattern, len } => {
                write!(f, "pattern {} has {len} bytes, more than {max}", pattern.as_usize())
            }
            BuildErrorKind::BadPairs { byte } => write!(f, "{}: {byte}", handle::status_text(sys::DADO_BAD_PAIRS)),
            BuildErrorKind::Memory => f.write_str(handle::status_text(sys::DADO_NO_MEMORY)),
        }
    }
}

/// A search that an automaton wasn't built for. It depends on the settings alone, never on what is searched.
#[derive(Clone, Debug, Eq, Hash, PartialEq)]
pub struct MatchError(Box<MatchErrorKind>);

impl MatchError {
    /// An error of this kind.
    pub fn new(kind: MatchErrorKind) -> MatchError {
        MatchError(Box::new(kind))
    }

    /// The kind.
    pub fn kind(&self) -> &MatchErrorKind {
        &self.0
    }

    /// An anchored search, by an automaton or a call that has none.
    pub fn invalid_input_anchored() -> MatchError {
        MatchError::new(MatchErrorKind::InvalidInputAnchored)
    }

    /// An unanchored search, by an automaton that has none.
    pub fn invalid_input_unanchored() -> MatchError {
        MatchError::new(MatchErrorKind::InvalidInputUnanchored)
    }

    /// A search of a stream by an automaton of this kind.
    pub fn unsupported_stream(got: MatchKind) -> MatchError {
        MatchError::new(MatchErrorKind::UnsupportedStream { got })
    }

    /// An overlapping search by an automaton of this kind.
    pub fn unsupported_overlapping(got: MatchKind) -> MatchError {
        MatchError::new(MatchErrorKind::UnsupportedOverlapping { got })
    }

    /// A search of a stream, or for whole words, with an empty pattern.
    pub fn unsupported_empty() -> MatchError {
        MatchError::new(MatchErrorKind::UnsupportedEmpty)
    }
}

/// The kind of a `MatchError`.
#[non_exhaustive]
#[derive(Clone, Debug, Eq, Hash, PartialEq)]
pub enum MatchErrorKind {
    /// An anchored search, by an automaton or a call that has none.
    InvalidInputAnchored,
    /// An unanchored search, by an automaton that has none.
    InvalidInputUnanchored,
    /// A search of a stream, by an automaton of a leftmost kind.
    UnsupportedStream {
        /// The automaton's kind.
        got: MatchKind,
    },
    /// An overlapping search, by an automaton of a leftmost kind.
    UnsupportedOverlapping {
        /// The automaton's kind.
        got: MatchKind,
    },
    /// A search of a stream, or for whole words, with an empty pattern.
    UnsupportedEmpty,
}

impl Error for MatchError {}

impl fmt::Display for MatchError {
    fn fmt(&self, f: &mut fmt::Formatter<'_>) -> fmt::Result {
        match *self.kind() {
            MatchErrorKind::InvalidInputAnchored => f.write_str(handle::status_text(sys::DADO_NOT_ANCHORED)),
            MatchErrorKind::InvalidInputUnanchored => f.write_str(handle::status_text(sys::DADO_NOT_UNANCHORED)),
            MatchErrorKind::UnsupportedStream { got } => write!(f, "a stream can't be searched by the kind {got:?}"),
            MatchErrorKind::UnsupportedOverlapping { got } => {
                write!(f, "{}, and this is {got:?}", handle::status_text(sys::DADO_NOT_STANDARD))
            }
            MatchErrorKind::UnsupportedEmpty => f.write_str(handle::status_text(sys::DADO_EMPTY_PATTERN)),
        }
    }
}
