//! Lists of limited length, in place.

use super::bits::has;
use std::mem::MaybeUninit;
use std::ops::{Deref, DerefMut};

/// At most N values. Places past the length are not set, so that making a list costs nothing.
pub struct Fixed<T, const N: usize> {
    length: usize,
    places: [MaybeUninit<T>; N],
}

impl<T: Copy, const N: usize> Fixed<T, N> {
    #[inline]
    pub fn new() -> Self {
        Fixed { length: 0, places: [const { MaybeUninit::uninit() }; N] }
    }

    #[inline]
    pub fn is_full(&self) -> bool {
        self.length == N
    }

    #[inline]
    pub fn push(&mut self, value: T) {
        self.places[self.length].write(value);
        self.length += 1;
    }

    #[inline]
    pub fn clear(&mut self) {
        self.length = 0;
    }

    /// Leaves out the places whose bit is set. The others close up in order.
    pub fn remove(&mut self, removed: u64) {
        if removed == 0 {
            return;
        }
        let first = removed.trailing_zeros() as usize;
        let mut kept = first;
        for i in first..self.length {
            if !has(removed, i) {
                self.places[kept] = self.places[i];
                kept += 1;
            }
        }
        self.length = kept;
    }
}

impl<T, const N: usize> Deref for Fixed<T, N> {
    type Target = [T];

    #[inline]
    fn deref(&self) -> &[T] {
        // Sound: the length grows in `push` alone, by a place just written, so all places below it are set.
        unsafe { std::slice::from_raw_parts(self.places.as_ptr().cast(), self.length) }
    }
}

impl<T, const N: usize> DerefMut for Fixed<T, N> {
    #[inline]
    fn deref_mut(&mut self) -> &mut [T] {
        // Sound for the same reason.
        unsafe { std::slice::from_raw_parts_mut(self.places.as_mut_ptr().cast(), self.length) }
    }
}
