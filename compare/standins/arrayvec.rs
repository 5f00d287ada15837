//! Stands in for arrayvec: a vector of at most N plain items, on the stack. One item too many panics, as there.
use std::ops::{Deref, DerefMut};

#[derive(Clone, Copy, Debug)]
pub struct ArrayVec<T, const N: usize> {
    items: [T; N],
    length: usize,
}

impl<T: Copy + Default, const N: usize> ArrayVec<T, N> {
    pub fn new() -> Self {
        Self { items: [T::default(); N], length: 0 }
    }

    pub fn push(&mut self, item: T) {
        self.items[self.length] = item;
        self.length += 1;
    }

    pub fn into_inner(self) -> Result<[T; N], Self> {
        if self.length == N {
            Ok(self.items)
        } else {
            Err(self)
        }
    }
}

impl<T: Copy + Default, const N: usize> Default for ArrayVec<T, N> {
    fn default() -> Self {
        Self::new()
    }
}

impl<T, const N: usize> Deref for ArrayVec<T, N> {
    type Target = [T];
    fn deref(&self) -> &[T] {
        &self.items[..self.length]
    }
}

impl<T, const N: usize> DerefMut for ArrayVec<T, N> {
    fn deref_mut(&mut self) -> &mut [T] {
        &mut self.items[..self.length]
    }
}

impl<T: Copy + Default, const N: usize> std::iter::FromIterator<T> for ArrayVec<T, N> {
    fn from_iter<I: IntoIterator<Item = T>>(source: I) -> Self {
        let mut made = Self::new();
        for item in source {
            made.push(item);
        }
        made
    }
}

impl<T, const N: usize> IntoIterator for ArrayVec<T, N> {
    type Item = T;
    type IntoIter = std::iter::Take<std::array::IntoIter<T, N>>;
    fn into_iter(self) -> Self::IntoIter {
        IntoIterator::into_iter(self.items).take(self.length)
    }
}

impl<'a, T, const N: usize> IntoIterator for &'a ArrayVec<T, N> {
    type Item = &'a T;
    type IntoIter = std::slice::Iter<'a, T>;
    fn into_iter(self) -> Self::IntoIter {
        self.iter()
    }
}
