//! The number of a pattern.

use std::error::Error;
use std::fmt;
use std::ops::{Index, IndexMut};

/// The number of a pattern: its place in the order in which the patterns were given, from 0.
#[derive(Clone, Copy, Default, Eq, Hash, PartialEq, PartialOrd, Ord)]
#[repr(transparent)]
pub struct PatternID(u32);

impl PatternID {
    /// The greatest number.
    pub const MAX: PatternID = PatternID(i32::MAX as u32 - 1);
    /// How many numbers there are.
    pub const LIMIT: usize = PatternID::MAX.as_usize() + 1;
    /// The number of the first pattern.
    pub const ZERO: PatternID = PatternID(0);
    /// How many bytes a number takes.
    pub const SIZE: usize = std::mem::size_of::<PatternID>();

    /// This number, or an error if it is past the greatest.
    #[inline]
    pub fn new(value: usize) -> Result<PatternID, PatternIDError> {
        PatternID::try_from(value)
    }

    /// This number.
    ///
    /// # Panics
    ///
    /// Where it is past the greatest.
    #[inline]
    pub fn must(value: usize) -> PatternID {
        PatternID::new(value).expect("the number of a pattern")
    }

    /// This number, unchecked: one past the greatest becomes another one, and no memory is read by it.
    #[inline]
    pub const fn new_unchecked(value: usize) -> PatternID {
        PatternID(value as u32)
    }

    /// This number, unchecked.
    #[inline]
    pub const fn from_u32_unchecked(index: u32) -> PatternID {
        PatternID(index)
    }

    /// The number.
    #[inline]
    pub const fn as_usize(&self) -> usize {
        self.0 as usize
    }

    /// The number.
    #[inline]
    pub const fn as_u64(&self) -> u64 {
        self.0 as u64
    }

    /// The number.
    #[inline]
    pub const fn as_u32(&self) -> u32 {
        self.0
    }

    /// The number, which always fits.
    #[inline]
    pub const fn as_i32(&self) -> i32 {
        self.0 as i32
    }

    /// The number after this one, which may be past the greatest.
    #[inline]
    pub fn one_more(&self) -> usize {
        self.as_usize() + 1
    }

    /// The number of these bytes in the machine's order, or an error if it is past the greatest.
    #[inline]
    pub fn from_ne_bytes(bytes: [u8; 4]) -> Result<PatternID, PatternIDError> {
        PatternID::try_from(u32::from_ne_bytes(bytes))
    }

    /// The number of these bytes in the machine's order, unchecked: one past the greatest is kept, and no memory is read by it.
    #[inline]
    pub fn from_ne_bytes_unchecked(bytes: [u8; 4]) -> PatternID {
        PatternID(u32::from_ne_bytes(bytes))
    }

    /// The number's bytes in the machine's order.
    #[inline]
    pub fn to_ne_bytes(&self) -> [u8; 4] {
        self.0.to_ne_bytes()
    }
}

impl fmt::Debug for PatternID {
    fn fmt(&self, f: &mut fmt::Formatter<'_>) -> fmt::Result {
        f.debug_tuple("PatternID").field(&self.0).finish()
    }
}

impl From<u8> for PatternID {
    fn from(value: u8) -> PatternID {
        PatternID(u32::from(value))
    }
}

macro_rules! try_from {
    ($($number:ty),*) => {$(
        impl TryFrom<$number> for PatternID {
            type Error = PatternIDError;

            fn try_from(value: $number) -> Result<PatternID, PatternIDError> {
                match u32::try_from(value) {
                    Ok(number) if number <= PatternID::MAX.0 => Ok(PatternID(number)),
                    _ => Err(PatternIDError { attempted: value as u64 }),
                }
            }
        }
    )*};
}

try_from!(u16, u32, u64, usize);

/// A number was past the greatest of a pattern.
#[derive(Clone, Debug, Eq, PartialEq)]
pub struct PatternIDError {
    attempted: u64,
}

impl PatternIDError {
    /// The number that was refused.
    pub fn attempted(&self) -> u64 {
        self.attempted
    }
}

impl Error for PatternIDError {}

impl fmt::Display for PatternIDError {
    fn fmt(&self, f: &mut fmt::Formatter<'_>) -> fmt::Result {
        write!(f, "number {} is past {}", self.attempted, PatternID::MAX.as_u32())
    }
}

impl<T> Index<PatternID> for [T] {
    type Output = T;

    #[inline]
    fn index(&self, id: PatternID) -> &T {
        &self[id.as_usize()]
    }
}

impl<T> IndexMut<PatternID> for [T] {
    #[inline]
    fn index_mut(&mut self, id: PatternID) -> &mut T {
        &mut self[id.as_usize()]
    }
}

impl<T> Index<PatternID> for Vec<T> {
    type Output = T;

    #[inline]
    fn index(&self, id: PatternID) -> &T {
        &self[id.as_usize()]
    }
}

impl<T> IndexMut<PatternID> for Vec<T> {
    #[inline]
    fn index_mut(&mut self, id: PatternID) -> &mut T {
        &mut self[id.as_usize()]
    }
}
