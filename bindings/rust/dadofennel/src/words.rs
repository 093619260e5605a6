//! Whole words, one after another, and the text with each of them replaced.

use std::iter::FusedIterator;

use dadofennel_sys as sys;

use crate::ahocorasick::{supported, unfailing};
use crate::handle::Handle;
use crate::iter::{found, place_of, Batch};
use crate::{AhoCorasick, Anchored, Match, MatchError, MatchKind};

/// Whole words: the occurrences with no word byte beside them. A word byte is an ASCII letter, a digit, `_`, or a byte from 0x80 on, as
/// those of a character beyond ASCII are. The crate `aho-corasick` has no such calls.
///
/// They need the standard kind, whatever kind the words are found by, patterns that are not empty, and an automaton that wasn't built for
/// anchored searches alone. The call without `try_` panics otherwise.
impl AhoCorasick {
    /// The whole words under a kind one after another; no two of them overlap.
    ///
    /// ```
    /// use dadofennel::{AhoCorasick, MatchKind};
    ///
    /// let ac = AhoCorasick::new(["new", "new york"])?;
    /// let words: Vec<_> = ac.find_word_iter(MatchKind::LeftmostLongest, "new yorker, new york").map(|word| word.range()).collect();
    /// assert_eq!(vec![0..3, 12..20], words);
    /// # Ok::<(), Box<dyn std::error::Error>>(())
    /// ```
    pub fn find_word_iter<'a, 'h, B: AsRef<[u8]> + ?Sized>(&'a self, kind: MatchKind, haystack: &'h B) -> FindWordIter<'a, 'h> {
        supported(self.try_find_word_iter(kind, haystack))
    }

    /// The whole words under a kind one after another; no two of them overlap.
    pub fn try_find_word_iter<'a, 'h, B: AsRef<[u8]> + ?Sized>(
        &'a self,
        kind: MatchKind,
        haystack: &'h B,
    ) -> Result<FindWordIter<'a, 'h>, MatchError> {
        self.words()?;
        Ok(FindWordIter {
            handle: self.handle(),
            kind: kind.number(),
            haystack: haystack.as_ref(),
            from: 0,
            batch: Batch::default(),
        })
    }

    /// All whole words, overlapping ones too, in the order of end, start and number.
    ///
    /// ```
    /// use dadofennel::AhoCorasick;
    ///
    /// let ac = AhoCorasick::new(["new", "new york"])?;
    /// let words: Vec<_> = ac.find_overlapping_word_iter("new yorker, new york").map(|word| word.range()).collect();
    /// assert_eq!(vec![0..3, 12..15, 12..20], words);
    /// # Ok::<(), Box<dyn std::error::Error>>(())
    /// ```
    pub fn find_overlapping_word_iter<'a, 'h, B: AsRef<[u8]> + ?Sized>(
        &'a self,
        haystack: &'h B,
    ) -> FindOverlappingWordIter<'a, 'h> {
        supported(self.try_find_overlapping_word_iter(haystack))
    }

    /// All whole words, overlapping ones too, in the order of end, start and number.
    pub fn try_find_overlapping_word_iter<'a, 'h, B: AsRef<[u8]> + ?Sized>(
        &'a self,
        haystack: &'h B,
    ) -> Result<FindOverlappingWordIter<'a, 'h>, MatchError> {
        self.words()?;
        let haystack = haystack.as_ref();
        Ok(FindOverlappingWordIter {
            handle: self.handle(),
            haystack,
            place: place_of(0, haystack.len(), None),
            batch: Batch::default(),
        })
    }

    /// The text with each whole word under a kind replaced by the replacement of its pattern.
    ///
    /// ```
    /// use dadofennel::{AhoCorasick, MatchKind};
    ///
    /// let ac = AhoCorasick::new(["new", "new york"])?;
    /// assert_eq!("old yorker, york", ac.replace_words(MatchKind::LeftmostLongest, "new yorker, new york", &["old", "york"]));
    /// # Ok::<(), Box<dyn std::error::Error>>(())
    /// ```
    ///
    /// # Panics
    ///
    /// Where there are not as many replacements as patterns.
    pub fn replace_words<B: AsRef<str>>(&self, kind: MatchKind, haystack: &str, replace_with: &[B]) -> String {
        supported(self.try_replace_words(kind, haystack, replace_with))
    }

    /// The text with each whole word under a kind replaced by the replacement of its pattern. See `replace_words`.
    pub fn try_replace_words<B: AsRef<str>>(
        &self,
        kind: MatchKind,
        haystack: &str,
        replace_with: &[B],
    ) -> Result<String, MatchError> {
        self.assert_one_each(replace_with.len());
        let mut dst = String::with_capacity(haystack.len());
        let mut at = 0;
        for word in self.try_find_word_iter(kind, haystack)? {
            dst.push_str(&haystack[at..word.start()]);
            dst.push_str(replace_with[word.pattern()].as_ref());
            at = word.end();
        }
        dst.push_str(&haystack[at..]);
        Ok(dst)
    }

    /// The bytes with each whole word under a kind replaced by the replacement of its pattern. See `replace_words`.
    pub fn try_replace_words_bytes<B: AsRef<[u8]>>(
        &self,
        kind: MatchKind,
        haystack: &[u8],
        replace_with: &[B],
    ) -> Result<Vec<u8>, MatchError> {
        self.assert_one_each(replace_with.len());
        let mut dst = Vec::with_capacity(haystack.len());
        let mut at = 0;
        for word in self.try_find_word_iter(kind, haystack)? {
            dst.extend_from_slice(&haystack[at..word.start()]);
            dst.extend_from_slice(replace_with[word.pattern()].as_ref());
            at = word.end();
        }
        dst.extend_from_slice(&haystack[at..]);
        Ok(dst)
    }

    /// An error where the automaton can't search for words.
    pub(crate) fn words(&self) -> Result<(), MatchError> {
        self.lists(Anchored::No)?;
        if self.min_pattern_len() == 0 {
            return Err(MatchError::unsupported_empty());
        }
        Ok(())
    }
}

/// The whole words of a text one after another. See `AhoCorasick::find_word_iter`.
#[derive(Debug)]
pub struct FindWordIter<'a, 'h> {
    handle: &'a Handle,
    kind: u32,
    haystack: &'h [u8],
    from: usize,
    batch: Batch,
}

impl Iterator for FindWordIter<'_, '_> {
    type Item = Match;

    #[inline]
    fn next(&mut self) -> Option<Match> {
        let FindWordIter { handle, kind, haystack, from, batch } = self;
        batch.next(|out| unfailing(handle.words_some(*kind, haystack, from, out))).map(found)
    }
}

impl FusedIterator for FindWordIter<'_, '_> {}

/// All whole words of a text. See `AhoCorasick::find_overlapping_word_iter`.
#[derive(Debug)]
pub struct FindOverlappingWordIter<'a, 'h> {
    handle: &'a Handle,
    haystack: &'h [u8],
    place: sys::dado_place,
    batch: Batch,
}

impl Iterator for FindOverlappingWordIter<'_, '_> {
    type Item = Match;

    #[inline]
    fn next(&mut self) -> Option<Match> {
        let FindOverlappingWordIter { handle, haystack, place, batch } = self;
        batch.next(|out| unfailing(handle.overlapping_words_some(haystack, place, out))).map(found)
    }
}

impl FusedIterator for FindOverlappingWordIter<'_, '_> {}
