//! Masking, in memory and from a reader to a writer.

use std::io::{self, Read, Write};

use dadofennel_sys as sys;

use crate::ahocorasick::{supported, unfailing};
use crate::handle::{status_text, Masker};
use crate::stream::READ_AT_ONCE;
use crate::{AhoCorasick, Anchored, MatchError};

/// Masking. Each byte that lies in an occurrence of some pattern becomes one byte, the mask. All occurrences count, overlapping ones
/// too. So if no pattern has the mask, no pattern occurs in what comes out, the empty one aside. A replacement promises no such thing.
/// The crate `aho-corasick` has no such calls.
///
/// It needs the standard kind, and an automaton that wasn't built for anchored searches alone. Calls without `try_` panic otherwise.
impl AhoCorasick {
    /// Masks bytes where they lie. It takes no memory.
    ///
    /// ```
    /// use dadofennel::AhoCorasick;
    ///
    /// let ac = AhoCorasick::new(["abc", "cde"])?;
    /// let mut bytes = *b"xabcdex";
    /// ac.mask(&mut bytes, b'*');
    /// assert_eq!(b"x*****x", &bytes);
    /// # Ok::<(), Box<dyn std::error::Error>>(())
    /// ```
    pub fn mask(&self, bytes: &mut [u8], mask: u8) {
        supported(self.try_mask(bytes, mask));
    }

    /// Masks bytes where they lie. They are unchanged at an error.
    pub fn try_mask(&self, bytes: &mut [u8], mask: u8) -> Result<(), MatchError> {
        self.lists(Anchored::No)?;
        unfailing(self.handle().mask(bytes, mask));
        Ok(())
    }

    /// Masks the whole words of bytes where they lie: the occurrences with no word byte beside them, those that overlap included. What a
    /// word byte is stands at `find_word_iter`; those of the text as it was count. A mask that is no word byte may leave a word beside it,
    /// or bring one about.
    ///
    /// It takes a copy of the bytes while it runs.
    ///
    /// ```
    /// use dadofennel::AhoCorasick;
    ///
    /// let ac = AhoCorasick::new(["cat", "big cat"])?;
    /// let mut bytes = *b"a big cat, concatenated";
    /// ac.mask_words(&mut bytes, b'*');
    /// assert_eq!(b"a *******, concatenated", &bytes);
    /// # Ok::<(), Box<dyn std::error::Error>>(())
    /// ```
    ///
    /// # Panics
    ///
    /// Where memory runs out.
    pub fn mask_words(&self, bytes: &mut [u8], mask: u8) {
        supported(self.try_mask_words(bytes, mask));
    }

    /// Masks the whole words of bytes where they lie. See `mask_words`. The bytes are unchanged at an error.
    pub fn try_mask_words(&self, bytes: &mut [u8], mask: u8) -> Result<(), MatchError> {
        self.lists(Anchored::No)?;
        self.handle().mask_words(bytes, mask).unwrap_or_else(|status| panic!("a mask: {}", status_text(status)));
        Ok(())
    }

    /// Writes what a reader has, masked. The writer isn't flushed.
    ///
    /// What was read is masked at once, and all that no later byte changes is written before the next read: what waits is fewer bytes
    /// than the longest pattern has. It takes 64 KiB of memory, or 8 times the longest pattern, and 56 KiB for what the reader gives.
    /// It needs patterns that are not empty.
    ///
    /// # Panics
    ///
    /// Where memory runs out.
    pub fn stream_mask<R: Read, W: Write>(&self, rdr: R, wtr: W, mask: u8) -> io::Result<()> {
        supported(self.masks_streams());
        self.try_stream_mask(rdr, wtr, mask)
    }

    /// Writes what a reader has, masked. See `stream_mask`. A `MatchError` is an error of the kind `Other`.
    pub fn try_stream_mask<R: Read, W: Write>(&self, rdr: R, wtr: W, mask: u8) -> io::Result<()> {
        self.masks_streams().map_err(|error| io::Error::new(io::ErrorKind::Other, error))?;
        write_masked(made(self.handle().masker(mask)), rdr, wtr)
    }

    /// Writes what a reader has, with its whole words masked, as `mask_words` masks bytes. The writer isn't flushed.
    ///
    /// What was read is masked at once, and all that no later byte changes is written before the next read: what waits is at most as
    /// many bytes as the longest pattern has. It takes twice 64 KiB of memory, or twice 8 times a byte more than the longest pattern has,
    /// and 56 KiB for what the reader gives. It needs patterns that are not empty.
    ///
    /// ```
    /// use dadofennel::AhoCorasick;
    ///
    /// let ac = AhoCorasick::new(["cat", "big cat"])?;
    /// let mut masked = vec![];
    /// ac.stream_mask_words(&b"a big cat, concatenated"[..], &mut masked, b'*')?;
    /// assert_eq!(b"a *******, concatenated", &masked[..]);
    /// # Ok::<(), Box<dyn std::error::Error>>(())
    /// ```
    ///
    /// # Panics
    ///
    /// Where memory runs out.
    pub fn stream_mask_words<R: Read, W: Write>(&self, rdr: R, wtr: W, mask: u8) -> io::Result<()> {
        supported(self.masks_streams());
        self.try_stream_mask_words(rdr, wtr, mask)
    }

    /// Writes what a reader has, with its whole words masked. See `stream_mask_words`. A `MatchError` is an error of the kind `Other`.
    pub fn try_stream_mask_words<R: Read, W: Write>(&self, rdr: R, wtr: W, mask: u8) -> io::Result<()> {
        self.masks_streams().map_err(|error| io::Error::new(io::ErrorKind::Other, error))?;
        write_masked(made(self.handle().word_masker(mask)), rdr, wtr)
    }

    /// An error where the automaton can't mask a stream.
    fn masks_streams(&self) -> Result<(), MatchError> {
        self.lists(Anchored::No)?;
        if self.min_pattern_len() == 0 {
            return Err(MatchError::unsupported_empty());
        }
        Ok(())
    }
}

/// What the library made, where memory doesn't run out.
fn made(masker: Result<Masker, sys::dado_status>) -> Masker {
    masker.unwrap_or_else(|status| panic!("a mask: {}", status_text(status)))
}

/// Writes what a reader has, as a masker hands it out.
fn write_masked<R: Read, W: Write>(mut masker: Masker, mut rdr: R, mut wtr: W) -> io::Result<()> {
    let mut buffer = vec![0; READ_AT_ONCE];
    loop {
        let len = rdr.read(&mut buffer)?;
        if len == 0 {
            break;
        }
        let mut rest = &buffer[..len];
        while !rest.is_empty() {
            rest = &rest[unfailing(masker.push(rest))..];
            wtr.write_all(masker.ready())?;
        }
    }
    masker.finish();
    wtr.write_all(masker.ready())
}
