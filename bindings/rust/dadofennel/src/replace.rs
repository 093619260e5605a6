//! Replacement in memory.

use crate::ahocorasick::supported;
use crate::{AhoCorasick, Anchored, Match, MatchError};

/// Replacement. The matches are those of `find_iter`. Calls without `try_` panic where the automaton was built for anchored
/// searches alone.
impl AhoCorasick {
    /// The text with each match replaced by the replacement of its pattern.
    ///
    /// A match that lies within a character, as one of an empty pattern may, is left as it is.
    ///
    /// # Panics
    ///
    /// Where there are not as many replacements as patterns.
    pub fn replace_all<B: AsRef<str>>(&self, haystack: &str, replace_with: &[B]) -> String {
        supported(self.try_replace_all(haystack, replace_with))
    }

    /// The bytes with each match replaced by the replacement of its pattern.
    ///
    /// # Panics
    ///
    /// Where there are not as many replacements as patterns.
    pub fn replace_all_bytes<B: AsRef<[u8]>>(&self, haystack: &[u8], replace_with: &[B]) -> Vec<u8> {
        supported(self.try_replace_all_bytes(haystack, replace_with))
    }

    /// The text with each match replaced by what the closure puts after `dst`. It is given the match and its text, and returns
    /// whether to go on; what follows the last match is then left as it is.
    ///
    /// A match that lies within a character is left as it is.
    pub fn replace_all_with<F>(&self, haystack: &str, dst: &mut String, replace_with: F)
    where
        F: FnMut(&Match, &str, &mut String) -> bool,
    {
        supported(self.try_replace_all_with(haystack, dst, replace_with))
    }

    /// The bytes with each match replaced by what the closure puts after `dst`. It is given the match and its bytes, and returns
    /// whether to go on; what follows the last match is then left as it is.
    pub fn replace_all_with_bytes<F>(&self, haystack: &[u8], dst: &mut Vec<u8>, replace_with: F)
    where
        F: FnMut(&Match, &[u8], &mut Vec<u8>) -> bool,
    {
        supported(self.try_replace_all_with_bytes(haystack, dst, replace_with))
    }

    /// The text with each match replaced by the replacement of its pattern. See `replace_all`.
    pub fn try_replace_all<B: AsRef<str>>(&self, haystack: &str, replace_with: &[B]) -> Result<String, MatchError> {
        self.assert_one_each(replace_with.len());
        let mut dst = String::with_capacity(haystack.len());
        self.try_replace_all_with(haystack, &mut dst, |found, _, dst| {
            dst.push_str(replace_with[found.pattern()].as_ref());
            true
        })?;
        Ok(dst)
    }

    /// The bytes with each match replaced by the replacement of its pattern. See `replace_all_bytes`.
    pub fn try_replace_all_bytes<B: AsRef<[u8]>>(&self, haystack: &[u8], replace_with: &[B]) -> Result<Vec<u8>, MatchError> {
        self.assert_one_each(replace_with.len());
        let mut dst = Vec::with_capacity(haystack.len());
        self.try_replace_all_with_bytes(haystack, &mut dst, |found, _, dst| {
            dst.extend_from_slice(replace_with[found.pattern()].as_ref());
            true
        })?;
        Ok(dst)
    }

    /// The text with each match replaced by what the closure puts there. See `replace_all_with`.
    pub fn try_replace_all_with<F>(&self, haystack: &str, dst: &mut String, mut replace_with: F) -> Result<(), MatchError>
    where
        F: FnMut(&Match, &str, &mut String) -> bool,
    {
        let mut at = 0;
        for found in self.try_find_iter(haystack)? {
            let text = match haystack.get(found.range()) {
                Some(text) => text,
                None => continue,
            };
            dst.push_str(&haystack[at..found.start()]);
            at = found.end();
            if !replace_with(&found, text, dst) {
                break;
            }
        }
        dst.push_str(&haystack[at..]);
        Ok(())
    }

    /// The bytes with each match replaced by what the closure puts there. See `replace_all_with_bytes`.
    pub fn try_replace_all_with_bytes<F>(&self, haystack: &[u8], dst: &mut Vec<u8>, mut replace_with: F) -> Result<(), MatchError>
    where
        F: FnMut(&Match, &[u8], &mut Vec<u8>) -> bool,
    {
        let mut at = 0;
        for found in self.try_find_iter(haystack)? {
            dst.extend_from_slice(&haystack[at..found.start()]);
            at = found.end();
            if !replace_with(&found, &haystack[found.range()], dst) {
                break;
            }
        }
        dst.extend_from_slice(&haystack[at..]);
        Ok(())
    }

    pub(crate) fn assert_one_each(&self, replacements: usize) {
        assert_eq!(replacements, self.patterns_len(), "a replacement for each pattern is needed");
    }

    /// An error where the automaton was built for anchored searches alone.
    pub(crate) fn replaces(&self) -> Result<(), MatchError> {
        self.serves(Anchored::No)
    }
}
