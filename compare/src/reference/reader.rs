//! Pieces of a file, taken one after the other. All integers are big-endian.

use super::refusal::{require, Refusal};

pub struct Reader<'a> {
    bytes: &'a [u8],
    at: usize,
    /// The number under which an incomplete piece is turned back.
    incomplete: u64,
}

/// A count or an entry, with the offset where it begins.
pub struct Piece<'a> {
    bytes: &'a [u8],
    pub place: u64,
}

impl<'a> Reader<'a> {
    pub fn new(bytes: &'a [u8], incomplete: u64) -> Reader<'a> {
        Reader { bytes, at: 0, incomplete }
    }

    /// The next piece, which must be complete.
    pub fn piece(&mut self, size: usize) -> Result<Piece<'a>, Refusal> {
        let place = self.at as u64;
        require(self.bytes.len() - self.at >= size, self.incomplete, place)?;
        self.at += size;
        Ok(Piece { bytes: &self.bytes[self.at - size..self.at], place })
    }

    /// A section's count, which must lie in a range.
    pub fn count(&mut self, least: u64, most: u64, number: u64) -> Result<u64, Refusal> {
        let piece = self.piece(2)?;
        let count = piece.integer(0, 2);
        require((least..=most).contains(&count), number, piece.place)?;
        Ok(count)
    }

    /// The end of the file: nothing may remain.
    pub fn end(&self, number: u64) -> Result<(), Refusal> {
        require(self.at == self.bytes.len(), number, self.at as u64)
    }
}

impl Piece<'_> {
    pub fn integer(&self, from: usize, size: usize) -> u64 {
        self.bytes[from..from + size].iter().fold(0, |value, byte| value << 8 | u64::from(*byte))
    }
}
