//! Searches of what a reader has, and replacement from a reader to a writer.
//!
//! What is read is pushed to a stream of the library, which searches it at once and holds what is undecided. Under the standard kind
//! a match is decided when its last byte was read. What no match has covered by then may begin one that ends in the next read, if it
//! is shorter than the longest pattern; so much is kept.

use std::io::{self, Read, Write};
use std::marker::PhantomData;
use std::ops::Range;

use dadofennel_sys::dado_status;

use crate::ahocorasick::{supported, unfailing};
use crate::handle::{status_text, Pieces};
use crate::iter::{found, Batch};
use crate::{AhoCorasick, Match, MatchError, MatchKind};

/// How many bytes are read at once: as many as a stream mostly takes at once.
pub(crate) const READ_AT_ONCE: usize = 56 * 1024;

/// Streams. They need the standard kind, patterns that are not empty, and an automaton that wasn't built for anchored searches
/// alone. Calls without `try_` panic otherwise, and all of them where memory runs out.
impl AhoCorasick {
    /// The matches of what a reader has, with places counted from its first byte.
    ///
    /// It takes 64 KiB of memory, or 8 times the longest pattern, and 56 KiB for what the reader gives. An item is an error where the
    /// reader returns one.
    pub fn stream_find_iter<R: Read>(&self, rdr: R) -> StreamFindIter<'_, R> {
        supported(self.try_stream_find_iter(rdr))
    }

    /// Writes what a reader has, with each match replaced by the replacement of its pattern. The writer isn't flushed.
    ///
    /// # Panics
    ///
    /// Where there are not as many replacements as patterns.
    pub fn stream_replace_all<R, W, B>(&self, rdr: R, wtr: W, replace_with: &[B]) -> io::Result<()>
    where
        R: Read,
        W: Write,
        B: AsRef<[u8]>,
    {
        supported(self.streams());
        self.try_stream_replace_all(rdr, wtr, replace_with)
    }

    /// Writes what a reader has, with each match replaced by what the closure writes. It is given the match and its bytes, and
    /// its error ends the call. The writer isn't flushed.
    pub fn stream_replace_all_with<R, W, F>(&self, rdr: R, wtr: W, replace_with: F) -> io::Result<()>
    where
        R: Read,
        W: Write,
        F: FnMut(&Match, &[u8], &mut W) -> io::Result<()>,
    {
        supported(self.streams());
        self.try_stream_replace_all_with(rdr, wtr, replace_with)
    }

    /// The matches of what a reader has. See `stream_find_iter`.
    pub fn try_stream_find_iter<R: Read>(&self, rdr: R) -> Result<StreamFindIter<'_, R>, MatchError> {
        self.streams()?;
        Ok(StreamFindIter(Stream::new(self.handle().stream(), rdr)))
    }

    /// The whole words under a kind of what a reader has, with places counted from its first byte: those of `find_word_iter` in all that it
    /// has. A word is found once the byte after it was read; under a leftmost kind, once no byte that may follow can change it either.
    ///
    /// It takes the memory that `stream_find_iter` takes. An item is an error where the reader returns one.
    ///
    /// ```
    /// use dadofennel::{AhoCorasick, MatchKind};
    ///
    /// let ac = AhoCorasick::new(["new", "new york"])?;
    /// let text = "new yorker, new york".as_bytes();
    /// let words: Result<Vec<_>, _> = ac.stream_find_word_iter(MatchKind::LeftmostLongest, text).collect();
    /// assert_eq!(vec![0..3, 12..20], words?.iter().map(|word| word.range()).collect::<Vec<_>>());
    /// # Ok::<(), Box<dyn std::error::Error>>(())
    /// ```
    pub fn stream_find_word_iter<R: Read>(&self, kind: MatchKind, rdr: R) -> StreamFindWordIter<'_, R> {
        supported(self.try_stream_find_word_iter(kind, rdr))
    }

    /// The whole words under a kind of what a reader has. See `stream_find_word_iter`.
    pub fn try_stream_find_word_iter<R: Read>(&self, kind: MatchKind, rdr: R) -> Result<StreamFindWordIter<'_, R>, MatchError> {
        self.words()?;
        Ok(StreamFindIter(Stream::new(self.handle().word_stream(kind.number()), rdr)))
    }

    /// All whole words of what a reader has, overlapping ones too, with places counted from its first byte: those of
    /// `find_overlapping_word_iter` in all that it has, in the order of end, start and number. A word is found once the byte after it was
    /// read.
    ///
    /// It takes the memory that `stream_find_iter` takes. An item is an error where the reader returns one.
    ///
    /// ```
    /// use dadofennel::AhoCorasick;
    ///
    /// let ac = AhoCorasick::new(["new", "new york"])?;
    /// let text = "new yorker, new york".as_bytes();
    /// let words: Result<Vec<_>, _> = ac.stream_find_overlapping_word_iter(text).collect();
    /// assert_eq!(vec![0..3, 12..15, 12..20], words?.iter().map(|word| word.range()).collect::<Vec<_>>());
    /// # Ok::<(), Box<dyn std::error::Error>>(())
    /// ```
    pub fn stream_find_overlapping_word_iter<R: Read>(&self, rdr: R) -> StreamFindOverlappingWordIter<'_, R> {
        supported(self.try_stream_find_overlapping_word_iter(rdr))
    }

    /// All whole words of what a reader has. See `stream_find_overlapping_word_iter`.
    pub fn try_stream_find_overlapping_word_iter<R: Read>(
        &self,
        rdr: R,
    ) -> Result<StreamFindOverlappingWordIter<'_, R>, MatchError> {
        self.words()?;
        Ok(StreamFindIter(Stream::new(self.handle().all_words_stream(), rdr)))
    }

    /// Writes what a reader has, with each match replaced. See `stream_replace_all`. A `MatchError` is an error of the kind
    /// `Other`.
    pub fn try_stream_replace_all<R, W, B>(&self, rdr: R, wtr: W, replace_with: &[B]) -> io::Result<()>
    where
        R: Read,
        W: Write,
        B: AsRef<[u8]>,
    {
        self.assert_one_each(replace_with.len());
        self.try_stream_replace_all_with(rdr, wtr, |found, _, wtr| wtr.write_all(replace_with[found.pattern()].as_ref()))
    }

    /// Writes what a reader has, with each match replaced by what the closure writes. See `stream_replace_all_with`. A
    /// `MatchError` is an error of the kind `Other`.
    pub fn try_stream_replace_all_with<R, W, F>(&self, rdr: R, mut wtr: W, mut replace_with: F) -> io::Result<()>
    where
        R: Read,
        W: Write,
        F: FnMut(&Match, &[u8], &mut W) -> io::Result<()>,
    {
        self.streams().map_err(|error| io::Error::new(io::ErrorKind::Other, error))?;
        let mut stream = Stream::new(self.handle().stream(), rdr);
        while let Some(piece) = stream.next()? {
            match piece {
                Piece::Text(range) => wtr.write_all(stream.bytes(range))?,
                Piece::Match(found) => replace_with(&found, stream.bytes(found.range()), &mut wtr)?,
            }
        }
        Ok(())
    }

    /// An error where the automaton can't search a stream.
    fn streams(&self) -> Result<(), MatchError> {
        self.replaces()?;
        match self.match_kind() {
            MatchKind::Standard if self.min_pattern_len() > 0 => Ok(()),
            MatchKind::Standard => Err(MatchError::unsupported_empty()),
            got => Err(MatchError::unsupported_stream(got)),
        }
    }
}

/// The matches of what a reader has. See `AhoCorasick::stream_find_iter`.
#[derive(Debug)]
pub struct StreamFindIter<'a, R>(Stream<'a, R>);

/// The whole words of what a reader has. See `AhoCorasick::stream_find_word_iter`.
pub type StreamFindWordIter<'a, R> = StreamFindIter<'a, R>;

/// All whole words of what a reader has. See `AhoCorasick::stream_find_overlapping_word_iter`.
pub type StreamFindOverlappingWordIter<'a, R> = StreamFindIter<'a, R>;

impl<R: Read> Iterator for StreamFindIter<'_, R> {
    type Item = io::Result<Match>;

    fn next(&mut self) -> Option<io::Result<Match>> {
        loop {
            match self.0.next() {
                Ok(Some(Piece::Text(_))) => {}
                Ok(Some(Piece::Match(found))) => return Some(Ok(found)),
                Ok(None) => return None,
                Err(error) => return Some(Err(error)),
            }
        }
    }
}

/// A decided part of a stream, with its places.
enum Piece {
    /// Bytes that no match covers.
    Text(Range<usize>),
    /// A match.
    Match(Match),
}

/// A search of a stream.
#[derive(Debug)]
struct Stream<'a, R> {
    ac: PhantomData<&'a AhoCorasick>,
    reader: R,
    pieces: Pieces,
    /// What was read: the bytes up to `len`, of which those up to `pushed` were pushed.
    buffer: Vec<u8>,
    len: usize,
    pushed: usize,
    /// Up to which place the stream was given.
    given: usize,
    batch: Batch,
    /// A match that was found, and whose text before it was given.
    found: Option<Match>,
    ended: bool,
}

impl<'a, R: Read> Stream<'a, R> {
    fn new(pieces: Result<Pieces, dado_status>, reader: R) -> Stream<'a, R> {
        let pieces = pieces.unwrap_or_else(|status| panic!("a stream: {}", status_text(status)));
        let (buffer, batch, found) = (vec![0; READ_AT_ONCE], Batch::default(), None);
        Stream { ac: PhantomData, reader, pieces, buffer, len: 0, pushed: 0, given: 0, batch, found, ended: false }
    }

    /// The next part, or nothing at the stream's end. Where words overlap, one may begin before what was given.
    fn next(&mut self) -> io::Result<Option<Piece>> {
        loop {
            if let Some(found) = self.found.take().or_else(|| self.next_match()) {
                if self.given < found.start() {
                    self.found = Some(found);
                    return Ok(self.text_to(found.start()));
                }
                self.given = found.end();
                return Ok(Some(Piece::Match(found)));
            }
            let held = self.pieces.held();
            let decided = if self.ended { held.from + held.bytes.len() } else { held.cut };
            if self.given < decided {
                return Ok(self.text_to(decided));
            }
            if self.ended {
                return Ok(None);
            }
            self.push()?;
        }
    }

    fn next_match(&mut self) -> Option<Match> {
        let Stream { pieces, batch, .. } = self;
        batch.next(|out| unfailing(pieces.some(out))).map(found)
    }

    fn text_to(&mut self, end: usize) -> Option<Piece> {
        let start = self.given;
        self.given = end;
        Some(Piece::Text(start..end))
    }

    /// The bytes of a part that was given since the last push.
    fn bytes(&mut self, range: Range<usize>) -> &[u8] {
        let held = self.pieces.held();
        &held.bytes[range.start - held.from..range.end - held.from]
    }

    /// Pushes what was read and not yet taken. Where nothing is left of it, reads once before.
    fn push(&mut self) -> io::Result<()> {
        if self.pushed == self.len {
            (self.len, self.pushed) = (self.reader.read(&mut self.buffer)?, 0);
            self.ended = self.len == 0;
        }
        if self.ended {
            self.pieces.finish();
        } else {
            self.pushed += unfailing(self.pieces.push(&self.buffer[self.pushed..self.len]));
        }
        self.batch.go_on();
        Ok(())
    }
}
