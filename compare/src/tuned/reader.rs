//! The pieces of a file, one after the other.

/// A number of the scope document's table, and the place it is given at.
pub struct Fault {
    pub number: u64,
    pub place: usize,
}

pub struct Reader<'a> {
    bytes: &'a [u8],
    /// Where the next piece begins.
    pub at: usize,
    /// The number of an incomplete piece.
    incomplete: u64,
}

impl<'a> Reader<'a> {
    pub fn new(bytes: &'a [u8], incomplete: u64) -> Self {
        Reader { bytes, at: 0, incomplete }
    }

    #[inline]
    pub fn piece<const N: usize>(&mut self) -> Result<&'a [u8; N], Fault> {
        let place = self.at;
        let piece = self.bytes[place..].first_chunk().ok_or(Fault { number: self.incomplete, place })?;
        self.at += N;
        Ok(piece)
    }

    pub fn count(&mut self, least: u16, most: u16, number: u64) -> Result<u16, Fault> {
        let place = self.at;
        let count = u16::from_be_bytes(*self.piece()?);
        if (least..=most).contains(&count) {
            Ok(count)
        } else {
            Err(Fault { number, place })
        }
    }

    pub fn end(&self, number: u64) -> Result<(), Fault> {
        if self.at == self.bytes.len() {
            Ok(())
        } else {
            Err(Fault { number, place: self.at })
        }
    }
}
