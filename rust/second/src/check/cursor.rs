//! Document 01, "Refusal numbers", rows 3, 4 and 11: items, counts and regions.
//!
//! "Each byte is an item of its own, but a length field and a literal are one item each." Every
//! reading function below tests its item against the end of the region it stands in, and answers
//! 3 at the place where the item stands or would stand.

use crate::answer::{Fault, Verdict};
use crate::layout::START;

/// A place in an image and the end of the region around it.
pub(super) struct Cursor<'i> {
    image: &'i [u8],
    at: usize,
    end: usize,
}

impl<'i> Cursor<'i> {
    /// The cursor after version and length field; the region is the image.
    pub(super) fn new(image: &'i [u8]) -> Self {
        Self { image, at: START, end: image.len() }
    }

    /// The whole image, whatever the region.
    pub(super) fn image(&self) -> &'i [u8] {
        self.image
    }

    /// Where the next item stands or would stand.
    pub(super) fn at(&self) -> usize {
        self.at
    }

    /// Reads a byte.
    pub(super) fn byte(&mut self) -> Result<u8, Verdict> {
        let at = self.item(1)?;
        Ok(self.image[at])
    }

    /// Reads a count byte and tests it against its limits.
    pub(super) fn count(&mut self, least: usize, most: usize) -> Result<usize, Verdict> {
        let at = self.at;
        let count = usize::from(self.byte()?);
        if count < least || count > most {
            return Err(Fault::Count.at(at));
        }
        Ok(count)
    }

    /// Reads a byte that must name one of `known` things: signatures, symbols, labels, positions.
    pub(super) fn name(&mut self, known: usize) -> Result<usize, Verdict> {
        let at = self.at;
        let name = usize::from(self.byte()?);
        if name >= known {
            return Err(Fault::Unbound.at(at));
        }
        Ok(name)
    }

    /// Passes over the eight bytes of a literal; any eight bytes are lawful.
    pub(super) fn literal(&mut self) -> Result<(), Verdict> {
        self.item(8).map(|_| ())
    }

    /// Reads a length field and enters its region; gives the end of the region around it, which
    /// [`Cursor::leave`] takes back.
    pub(super) fn enter(&mut self) -> Result<usize, Verdict> {
        let field = self.item(2)?;
        let length = u16::from_be_bytes([self.image[field], self.image[field + 1]]);
        let end = self.at + usize::from(length);
        if end > self.end {
            return Err(Fault::PassesEnd.at(field));
        }
        Ok(std::mem::replace(&mut self.end, end))
    }

    /// Leaves a region that must be filled, for the region around it.
    pub(super) fn leave(&mut self, around: usize) -> Result<(), Verdict> {
        self.nothing_left()?;
        self.end = around;
        Ok(())
    }

    /// Tests that the region has been read to its end.
    pub(super) fn nothing_left(&self) -> Result<(), Verdict> {
        if self.at < self.end {
            return Err(Fault::BytesLeft.at(self.at));
        }
        Ok(())
    }

    /// Passes over an item of `bytes` bytes and gives its first byte's offset.
    fn item(&mut self, bytes: usize) -> Result<usize, Verdict> {
        if self.end - self.at < bytes {
            return Err(Fault::PassesEnd.at(self.at));
        }
        let at = self.at;
        self.at += bytes;
        Ok(at)
    }
}
