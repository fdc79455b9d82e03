//! Sets of small numbers as bits.

/// The places of the bits that are set, rising.
pub struct Bits(pub u64);

impl Iterator for Bits {
    type Item = usize;

    #[inline]
    fn next(&mut self) -> Option<usize> {
        if self.0 == 0 {
            return None;
        }
        let place = self.0.trailing_zeros() as usize;
        self.0 &= self.0 - 1;
        Some(place)
    }
}

#[inline]
pub fn has(set: u64, place: usize) -> bool {
    set >> place & 1 == 1
}
