//! A vector whose growth may fail.

use super::alloc::{AllocError, AllocFailed, Global};
use std::io;
use std::ops::{Deref, DerefMut};

/// `std`'s vector; calls that allocate return an error if there is no memory.
#[derive(Clone, Debug, PartialEq, Eq)]
pub struct Vec<T>(std::vec::Vec<T>);

impl<T> Vec<T> {
    pub const fn new(_: Global) -> Vec<T> {
        Vec(std::vec::Vec::new())
    }

    pub fn with_capacity(alloc: Global, count: usize) -> Result<Vec<T>, AllocError> {
        let mut made = Vec::new(alloc);
        made.0.try_reserve_exact(count).map_err(|_| AllocError)?;
        Ok(made)
    }

    pub fn from_array<const N: usize>(alloc: Global, entries: [T; N]) -> Result<Vec<T>, AllocError> {
        let mut made = Vec::with_capacity(alloc, N)?;
        made.0.extend(entries);
        Ok(made)
    }

    pub fn push(&mut self, entry: T) -> Result<(), AllocFailed<T>> {
        if self.0.try_reserve(1).is_err() {
            return Err(AllocFailed { value: entry });
        }
        self.0.push(entry);
        Ok(())
    }

    pub fn insert(&mut self, index: usize, entry: T) -> Result<(), AllocFailed<T>> {
        if self.0.try_reserve(1).is_err() {
            return Err(AllocFailed { value: entry });
        }
        self.0.insert(index, entry);
        Ok(())
    }

    pub fn reserve(&mut self, count: usize) -> Result<(), AllocError> {
        self.0.try_reserve(count).map_err(|_| AllocError)
    }

    pub fn append(&mut self, other: &mut Vec<T>) -> Result<(), AllocError> {
        self.reserve(other.len())?;
        self.0.append(&mut other.0);
        Ok(())
    }

    pub fn pop(&mut self) -> Option<T> {
        self.0.pop()
    }

    pub fn truncate(&mut self, count: usize) {
        self.0.truncate(count);
    }

    pub fn clear(&mut self) {
        self.0.clear();
    }

    pub fn as_slice(&self) -> &[T] {
        &self.0
    }

    pub fn as_mut_slice(&mut self) -> &mut [T] {
        &mut self.0
    }
}

impl<T: Clone> Vec<T> {
    pub fn from_elem(alloc: Global, entry: T, count: usize) -> Result<Vec<T>, AllocError> {
        let mut made = Vec::with_capacity(alloc, count)?;
        made.0.resize(count, entry);
        Ok(made)
    }

    pub fn from_slice(alloc: Global, entries: &[T]) -> Result<Vec<T>, AllocError> {
        let mut made = Vec::with_capacity(alloc, entries.len())?;
        made.0.extend_from_slice(entries);
        Ok(made)
    }

    pub fn extend_from_slice(&mut self, entries: &[T]) -> Result<(), AllocError> {
        self.reserve(entries.len())?;
        self.0.extend_from_slice(entries);
        Ok(())
    }

    pub fn resize(&mut self, count: usize, entry: T) -> Result<(), AllocError> {
        self.reserve(count.saturating_sub(self.0.len()))?;
        self.0.resize(count, entry);
        Ok(())
    }
}

impl<T> From<std::vec::Vec<T>> for Vec<T> {
    fn from(entries: std::vec::Vec<T>) -> Vec<T> {
        Vec(entries)
    }
}

impl<T> From<Vec<T>> for std::vec::Vec<T> {
    fn from(entries: Vec<T>) -> std::vec::Vec<T> {
        entries.0
    }
}

impl<T> Deref for Vec<T> {
    type Target = [T];

    fn deref(&self) -> &[T] {
        &self.0
    }
}

impl<T> DerefMut for Vec<T> {
    fn deref_mut(&mut self) -> &mut [T] {
        &mut self.0
    }
}

impl<T> IntoIterator for Vec<T> {
    type Item = T;
    type IntoIter = std::vec::IntoIter<T>;

    fn into_iter(self) -> Self::IntoIter {
        self.0.into_iter()
    }
}

impl<'a, T> IntoIterator for &'a Vec<T> {
    type Item = &'a T;
    type IntoIter = std::slice::Iter<'a, T>;

    fn into_iter(self) -> Self::IntoIter {
        self.0.iter()
    }
}

impl<'a, T> IntoIterator for &'a mut Vec<T> {
    type Item = &'a mut T;
    type IntoIter = std::slice::IterMut<'a, T>;

    fn into_iter(self) -> Self::IntoIter {
        self.0.iter_mut()
    }
}

impl io::Write for Vec<u8> {
    fn write(&mut self, bytes: &[u8]) -> io::Result<usize> {
        self.extend_from_slice(bytes)?;
        Ok(bytes.len())
    }

    fn flush(&mut self) -> io::Result<()> {
        Ok(())
    }
}

/// `collect` with an allocator.
pub trait TryCollect<T> {
    fn try_collect_in(self, alloc: Global) -> Result<Vec<T>, AllocError>;
}

impl<I: Iterator> TryCollect<I::Item> for I {
    fn try_collect_in(self, alloc: Global) -> Result<Vec<I::Item>, AllocError> {
        let (least, most) = self.size_hint();
        let mut made = Vec::with_capacity(alloc, least)?;
        if most == Some(least) {
            made.0.extend(self);
        } else {
            for entry in self {
                made.push(entry)?;
            }
        }
        Ok(made)
    }
}

/// `to_vec` with an allocator.
pub trait TryToVec<T> {
    fn try_to_vec(&self, alloc: Global) -> Result<Vec<T>, AllocError>;
}

impl<T: Clone> TryToVec<T> for [T] {
    fn try_to_vec(&self, alloc: Global) -> Result<Vec<T>, AllocError> {
        Vec::from_slice(alloc, self)
    }
}

/// A stable sort. It may allocate, and ends the process if there is no memory.
pub trait TrySortByKey<T> {
    fn try_sort_by_key<K: Ord>(&mut self, alloc: Global, key: impl FnMut(&T) -> K) -> Result<(), AllocError>;
}

impl<T> TrySortByKey<T> for [T] {
    fn try_sort_by_key<K: Ord>(&mut self, _: Global, key: impl FnMut(&T) -> K) -> Result<(), AllocError> {
        self.sort_by_key(key);
        Ok(())
    }
}
