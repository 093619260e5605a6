//! What is searched, how, and what is found.

use std::fmt;
use std::ops::{Bound, Index, IndexMut, Range, RangeBounds};

use dadofennel_sys as sys;

use crate::PatternID;

/// What is searched: a haystack, the span of it that is looked at, and how.
///
/// Whatever lends its bytes becomes an input, so a search takes a `&str` or a `&[u8]` as well.
///
/// ```
/// use dadofennel::{AhoCorasick, Input};
///
/// let ac = AhoCorasick::new(["b"])?;
/// let input = Input::new("abab").range(2..);
/// assert_eq!(Some(3..4), ac.find(input).map(|found| found.range()));
/// # Ok::<(), Box<dyn std::error::Error>>(())
/// ```
#[derive(Clone)]
pub struct Input<'h> {
    haystack: &'h [u8],
    span: Span,
    anchored: Anchored,
    earliest: bool,
}

impl<'h> Input<'h> {
    /// The whole haystack, by a search that isn't anchored and not earliest.
    #[inline]
    pub fn new<H: ?Sized + AsRef<[u8]>>(haystack: &'h H) -> Input<'h> {
        let haystack = haystack.as_ref();
        Input { haystack, span: Span { start: 0, end: haystack.len() }, anchored: Anchored::No, earliest: false }
    }

    /// Sets the span.
    ///
    /// # Panics
    ///
    /// Where it ends past the haystack, or starts more than one past its end.
    #[inline]
    pub fn span<S: Into<Span>>(mut self, span: S) -> Input<'h> {
        self.set_span(span);
        self
    }

    /// Sets the span, by a range of any form.
    ///
    /// # Panics
    ///
    /// As `span`.
    #[inline]
    pub fn range<R: RangeBounds<usize>>(mut self, range: R) -> Input<'h> {
        self.set_range(range);
        self
    }

    /// Sets whether a match must start where the span does.
    #[inline]
    pub fn anchored(mut self, mode: Anchored) -> Input<'h> {
        self.set_anchored(mode);
        self
    }

    /// Sets whether the match is that of the standard kind, whatever the automaton's.
    #[inline]
    pub fn earliest(mut self, yes: bool) -> Input<'h> {
        self.set_earliest(yes);
        self
    }

    /// Sets the span.
    ///
    /// # Panics
    ///
    /// Where it ends past the haystack, or starts more than one past its end.
    #[inline]
    pub fn set_span<S: Into<Span>>(&mut self, span: S) {
        let span = span.into();
        let fits = span.end <= self.haystack.len() && span.start <= span.end.wrapping_add(1);
        assert!(fits, "the span {:?} is not one of {} bytes", span, self.haystack.len());
        self.span = span;
    }

    /// Sets the span, by a range of any form.
    ///
    /// # Panics
    ///
    /// As `set_span`.
    #[inline]
    pub fn set_range<R: RangeBounds<usize>>(&mut self, range: R) {
        let start = match range.start_bound() {
            Bound::Included(&at) => at,
            Bound::Excluded(&at) => at.checked_add(1).expect("the range starts past the greatest place"),
            Bound::Unbounded => 0,
        };
        let end = match range.end_bound() {
            Bound::Included(&at) => at.checked_add(1).expect("the range ends past the greatest place"),
            Bound::Excluded(&at) => at,
            Bound::Unbounded => self.haystack.len(),
        };
        self.set_span(Span { start, end });
    }

    /// Sets where the span starts.
    ///
    /// # Panics
    ///
    /// As `set_span`.
    #[inline]
    pub fn set_start(&mut self, start: usize) {
        self.set_span(Span { start, ..self.span });
    }

    /// Sets where the span ends.
    ///
    /// # Panics
    ///
    /// As `set_span`.
    #[inline]
    pub fn set_end(&mut self, end: usize) {
        self.set_span(Span { end, ..self.span });
    }

    /// Sets whether a match must start where the span does.
    #[inline]
    pub fn set_anchored(&mut self, mode: Anchored) {
        self.anchored = mode;
    }

    /// Sets whether the match is that of the standard kind, whatever the automaton's.
    #[inline]
    pub fn set_earliest(&mut self, yes: bool) {
        self.earliest = yes;
    }

    /// The haystack, all of it.
    #[inline]
    pub fn haystack(&self) -> &[u8] {
        self.haystack
    }

    /// The haystack, for as long as it was lent.
    #[inline]
    pub(crate) fn bytes(&self) -> &'h [u8] {
        self.haystack
    }

    /// Where the span starts.
    #[inline]
    pub fn start(&self) -> usize {
        self.span.start
    }

    /// Where the span ends.
    #[inline]
    pub fn end(&self) -> usize {
        self.span.end
    }

    /// The span.
    #[inline]
    pub fn get_span(&self) -> Span {
        self.span
    }

    /// The span as a range.
    #[inline]
    pub fn get_range(&self) -> Range<usize> {
        self.span.range()
    }

    /// Whether a match must start where the span does.
    #[inline]
    pub fn get_anchored(&self) -> Anchored {
        self.anchored
    }

    /// Whether the match is that of the standard kind, whatever the automaton's.
    #[inline]
    pub fn get_earliest(&self) -> bool {
        self.earliest
    }

    /// Whether the span starts past its end, so that nothing is found.
    #[inline]
    pub fn is_done(&self) -> bool {
        self.span.start > self.span.end
    }
}

impl fmt::Debug for Input<'_> {
    fn fmt(&self, f: &mut fmt::Formatter<'_>) -> fmt::Result {
        let mut shown = f.debug_struct("Input");
        match std::str::from_utf8(self.haystack) {
            Ok(text) => shown.field("haystack", &text),
            Err(_) => shown.field("haystack", &self.haystack),
        };
        shown.field("span", &self.span).field("anchored", &self.anchored).field("earliest", &self.earliest).finish()
    }
}

impl<'h, H: ?Sized + AsRef<[u8]>> From<&'h H> for Input<'h> {
    #[inline]
    fn from(haystack: &'h H) -> Input<'h> {
        Input::new(haystack)
    }
}

/// The places from `start` up to and without `end`.
#[derive(Clone, Copy, Eq, Hash, PartialEq)]
pub struct Span {
    /// The first place.
    pub start: usize,
    /// The place after the last.
    pub end: usize,
}

impl Span {
    /// The span as a range.
    #[inline]
    pub fn range(&self) -> Range<usize> {
        Range::from(*self)
    }

    /// Whether it has no place.
    #[inline]
    pub fn is_empty(&self) -> bool {
        self.start >= self.end
    }

    /// How many places it has.
    #[inline]
    pub fn len(&self) -> usize {
        self.end.saturating_sub(self.start)
    }

    /// Whether this place is one of it.
    #[inline]
    pub fn contains(&self, offset: usize) -> bool {
        self.start <= offset && offset < self.end
    }

    /// The span so much further on.
    #[inline]
    pub fn offset(&self, offset: usize) -> Span {
        Span { start: self.start + offset, end: self.end + offset }
    }
}

impl fmt::Debug for Span {
    fn fmt(&self, f: &mut fmt::Formatter<'_>) -> fmt::Result {
        write!(f, "{}..{}", self.start, self.end)
    }
}

impl Index<Span> for [u8] {
    type Output = [u8];

    #[inline]
    fn index(&self, span: Span) -> &[u8] {
        &self[span.range()]
    }
}

impl IndexMut<Span> for [u8] {
    #[inline]
    fn index_mut(&mut self, span: Span) -> &mut [u8] {
        &mut self[span.range()]
    }
}

impl Index<Span> for str {
    type Output = str;

    #[inline]
    fn index(&self, span: Span) -> &str {
        &self[span.range()]
    }
}

impl From<Range<usize>> for Span {
    #[inline]
    fn from(range: Range<usize>) -> Span {
        Span { start: range.start, end: range.end }
    }
}

impl From<Span> for Range<usize> {
    #[inline]
    fn from(span: Span) -> Range<usize> {
        Range { start: span.start, end: span.end }
    }
}

impl PartialEq<Range<usize>> for Span {
    #[inline]
    fn eq(&self, range: &Range<usize>) -> bool {
        self.start == range.start && self.end == range.end
    }
}

impl PartialEq<Span> for Range<usize> {
    #[inline]
    fn eq(&self, span: &Span) -> bool {
        self.start == span.start && self.end == span.end
    }
}

/// A match: the number of its pattern, and where it is.
#[derive(Clone, Copy, Debug, Eq, Hash, PartialEq)]
pub struct Match {
    pattern: PatternID,
    span: Span,
}

impl Match {
    /// A match of this pattern at this span.
    ///
    /// # Panics
    ///
    /// Where the span ends before it starts.
    #[inline]
    pub fn new<S: Into<Span>>(pattern: PatternID, span: S) -> Match {
        let span = span.into();
        assert!(span.start <= span.end, "a match ends before it starts");
        Match { pattern, span }
    }

    /// A match of the pattern of this number at this span.
    ///
    /// # Panics
    ///
    /// Where the span ends before it starts, or the number is past the greatest.
    #[inline]
    pub fn must<S: Into<Span>>(pattern: usize, span: S) -> Match {
        Match::new(PatternID::must(pattern), span)
    }

    /// The number of the pattern.
    #[inline]
    pub fn pattern(&self) -> PatternID {
        self.pattern
    }

    /// Where it starts.
    #[inline]
    pub fn start(&self) -> usize {
        self.span.start
    }

    /// The place after its last byte.
    #[inline]
    pub fn end(&self) -> usize {
        self.span.end
    }

    /// Where it is, as a range.
    #[inline]
    pub fn range(&self) -> Range<usize> {
        self.span.range()
    }

    /// Where it is.
    #[inline]
    pub fn span(&self) -> Span {
        self.span
    }

    /// Whether it has no byte, as the match of an empty pattern.
    #[inline]
    pub fn is_empty(&self) -> bool {
        self.span.is_empty()
    }

    /// How many bytes it has.
    #[inline]
    pub fn len(&self) -> usize {
        self.span.len()
    }

    /// The match so much further on.
    #[inline]
    pub fn offset(&self, offset: usize) -> Match {
        Match { pattern: self.pattern, span: self.span.offset(offset) }
    }
}

/// Which of several overlapping occurrences is the match.
#[non_exhaustive]
#[derive(Clone, Copy, Debug, Default, Eq, Hash, PartialEq)]
pub enum MatchKind {
    /// The one that ends first; of those the one that starts first, then the lower number.
    #[default]
    Standard,
    /// The one that starts first; of those the lower number, as in a regular expression.
    LeftmostFirst,
    /// The one that starts first; of those the longest, as in a POSIX one; then the lower number.
    LeftmostLongest,
}

impl MatchKind {
    /// The number that the library has for it.
    pub(crate) fn number(self) -> u32 {
        match self {
            MatchKind::Standard => sys::DADO_STANDARD,
            MatchKind::LeftmostFirst => sys::DADO_LEFTMOST_FIRST,
            MatchKind::LeftmostLongest => sys::DADO_LEFTMOST_LONGEST,
        }
    }
}

/// Whether a match must start where the search does.
#[derive(Clone, Copy, Debug, Eq, Hash, PartialEq)]
pub enum Anchored {
    /// It may start anywhere.
    No,
    /// It starts where the search does, or there is none.
    Yes,
}

impl Anchored {
    /// Whether a match must start where the search does.
    #[inline]
    pub fn is_anchored(&self) -> bool {
        matches!(*self, Anchored::Yes)
    }
}

/// Which searches an automaton is built for.
#[derive(Clone, Copy, Debug, Default, Eq, Hash, PartialEq)]
pub enum StartKind {
    /// Both. A DFA takes about twice the memory then.
    Both,
    /// Searches that aren't anchored.
    #[default]
    Unanchored,
    /// Anchored searches. Under the standard kind it takes the memory of `Both`.
    Anchored,
}
