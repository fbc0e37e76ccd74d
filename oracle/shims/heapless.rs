//! A stand-in for the crate `heapless`: a vector that holds at most N elements and hands back the one
//! that finds no room.

#[derive(Clone, Debug, PartialEq, Eq)]
pub struct Vec<T, const N: usize>(std::vec::Vec<T>);

impl<T, const N: usize> Vec<T, N> {
    pub fn new() -> Self {
        Vec(std::vec::Vec::new())
    }

    pub fn push(&mut self, item: T) -> Result<(), T> {
        if self.0.len() == N {
            return Err(item);
        }
        self.0.push(item);
        Ok(())
    }
}

impl<T, const N: usize> Default for Vec<T, N> {
    fn default() -> Self {
        Self::new()
    }
}

impl<T, const N: usize> std::ops::Deref for Vec<T, N> {
    type Target = [T];
    fn deref(&self) -> &[T] {
        &self.0
    }
}

impl<T, const N: usize> std::ops::DerefMut for Vec<T, N> {
    fn deref_mut(&mut self) -> &mut [T] {
        &mut self.0
    }
}

impl<'a, T, const N: usize> IntoIterator for &'a Vec<T, N> {
    type Item = &'a T;
    type IntoIter = std::slice::Iter<'a, T>;
    fn into_iter(self) -> Self::IntoIter {
        self.0.iter()
    }
}
