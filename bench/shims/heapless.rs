//! A stand-in for the crate `heapless` that keeps its elements in place, as the real one does, and not on the heap:
//! room for N elements and a count; a clone copies the elements that are there, one by one.

use std::mem::MaybeUninit;

pub struct Vec<T: Copy, const N: usize> {
    len: usize,
    room: [MaybeUninit<T>; N],
}

impl<T: Copy, const N: usize> Vec<T, N> {
    #[inline]
    pub fn new() -> Self {
        Vec {
            len: 0,
            room: [const { MaybeUninit::uninit() }; N],
        }
    }

    #[inline]
    pub fn push(&mut self, item: T) -> Result<(), T> {
        if self.len == N {
            return Err(item);
        }
        self.room[self.len] = MaybeUninit::new(item);
        self.len += 1;
        Ok(())
    }
}

impl<T: Copy, const N: usize> Clone for Vec<T, N> {
    #[inline]
    fn clone(&self) -> Self {
        let mut new = Self::new();
        for (place, &item) in new.room.iter_mut().zip(self) {
            place.write(item);
        }
        new.len = self.len;
        new
    }
}

impl<T: Copy, const N: usize> Default for Vec<T, N> {
    fn default() -> Self {
        Self::new()
    }
}

impl<T: Copy + std::fmt::Debug, const N: usize> std::fmt::Debug for Vec<T, N> {
    fn fmt(&self, f: &mut std::fmt::Formatter<'_>) -> std::fmt::Result {
        (**self).fmt(f)
    }
}

impl<T: Copy, const N: usize> std::ops::Deref for Vec<T, N> {
    type Target = [T];
    #[inline]
    fn deref(&self) -> &[T] {
        // SAFETY: the first `len` places were written, and `len` is at most N.
        unsafe { std::slice::from_raw_parts(self.room.as_ptr().cast(), self.len) }
    }
}

impl<T: Copy, const N: usize> std::ops::DerefMut for Vec<T, N> {
    #[inline]
    fn deref_mut(&mut self) -> &mut [T] {
        // SAFETY: as in `deref`.
        unsafe { std::slice::from_raw_parts_mut(self.room.as_mut_ptr().cast(), self.len) }
    }
}

impl<'a, T: Copy, const N: usize> IntoIterator for &'a Vec<T, N> {
    type Item = &'a T;
    type IntoIter = std::slice::Iter<'a, T>;
    #[inline]
    fn into_iter(self) -> Self::IntoIter {
        self.iter()
    }
}
