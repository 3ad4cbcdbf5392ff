use crate::plain_std::alloc::{has_memory, AllocError, AllocFailed, Global};
use core::ops::{Deref, DerefMut};

/// A list whose growth can fail.
#[derive(Clone, Debug, PartialEq, Eq, PartialOrd, Ord, Hash)]
pub struct Vec<T>(rust_alloc::vec::Vec<T>);

impl<T> Vec<T> {
    pub const fn new(_: Global) -> Self {
        Vec(rust_alloc::vec::Vec::new())
    }

    pub fn with_capacity(_: Global, count: usize) -> Result<Self, AllocError> {
        let mut items = rust_alloc::vec::Vec::new();
        items.try_reserve_exact(count)?;
        Ok(Vec(items))
    }

    #[inline]
    pub fn push(&mut self, item: T) -> Result<(), AllocFailed<T>> {
        if self.0.len() == self.0.capacity() && self.0.try_reserve(1).is_err() {
            return Err(AllocFailed { value: item });
        }
        self.0.push(item);
        Ok(())
    }

    pub fn from_array<const N: usize>(alloc: Global, items: [T; N]) -> Result<Self, AllocError> {
        let mut made = Vec::with_capacity(alloc, N)?;
        made.0.extend(items);
        Ok(made)
    }

    pub fn from_slice(alloc: Global, items: &[T]) -> Result<Self, AllocError>
    where
        T: Copy,
    {
        let mut made = Vec::with_capacity(alloc, items.len())?;
        made.0.extend_from_slice(items);
        Ok(made)
    }

    pub fn repeated(alloc: Global, item: T, count: usize) -> Result<Self, AllocError>
    where
        T: Copy,
    {
        let mut made = Vec::with_capacity(alloc, count)?;
        made.0.resize(count, item);
        Ok(made)
    }

    pub fn extend_from_slice(&mut self, items: &[T]) -> Result<(), AllocError>
    where
        T: Copy,
    {
        self.0.try_reserve(items.len())?;
        self.0.extend_from_slice(items);
        Ok(())
    }

    pub fn append(&mut self, other: &mut Vec<T>) -> Result<(), AllocError> {
        self.0.try_reserve(other.0.len())?;
        self.0.append(&mut other.0);
        Ok(())
    }

    pub fn resize(&mut self, count: usize, item: T) -> Result<(), AllocError>
    where
        T: Copy,
    {
        self.0.try_reserve(count.saturating_sub(self.0.len()))?;
        self.0.resize(count, item);
        Ok(())
    }

    #[inline]
    pub fn pop(&mut self) -> Option<T> {
        self.0.pop()
    }

    pub fn clear(&mut self) {
        self.0.clear();
    }

    /// Sorts the list. Rust's own sort has no way to tell that there is no memory: it is asked for before, and given back.
    pub fn sort(&mut self) -> Result<(), AllocError>
    where
        T: Ord,
    {
        if !has_memory::<T>(self.0.len()) {
            return Err(AllocError);
        }
        self.0.sort();
        Ok(())
    }

    pub fn dedup(&mut self)
    where
        T: PartialEq,
    {
        self.0.dedup();
    }

    pub fn truncate(&mut self, count: usize) {
        self.0.truncate(count);
    }

    pub fn shrink_to_fit(&mut self) {
        self.0.shrink_to_fit();
    }

    pub fn as_slice(&self) -> &[T] {
        &self.0
    }

    pub fn as_mut_slice(&mut self) -> &mut [T] {
        &mut self.0
    }

    pub fn capacity(&self) -> usize {
        self.0.capacity()
    }

    pub fn allocator(&self) -> &Global {
        &Global
    }

    pub fn remove(&mut self, at: usize) -> T {
        self.0.remove(at)
    }

    pub fn swap_remove(&mut self, at: usize) -> T {
        self.0.swap_remove(at)
    }

    pub fn reserve(&mut self, count: usize) -> Result<(), AllocError> {
        Ok(self.0.try_reserve(count)?)
    }
}

impl<T> From<rust_alloc::vec::Vec<T>> for Vec<T> {
    fn from(items: rust_alloc::vec::Vec<T>) -> Self {
        Vec(items)
    }
}

impl<T> From<Vec<T>> for rust_alloc::vec::Vec<T> {
    fn from(items: Vec<T>) -> Self {
        items.0
    }
}

impl<T> Deref for Vec<T> {
    type Target = [T];

    #[inline]
    fn deref(&self) -> &[T] {
        &self.0
    }
}

impl<T> DerefMut for Vec<T> {
    #[inline]
    fn deref_mut(&mut self) -> &mut [T] {
        &mut self.0
    }
}

impl<T> IntoIterator for Vec<T> {
    type Item = T;
    type IntoIter = rust_alloc::vec::IntoIter<T>;

    fn into_iter(self) -> Self::IntoIter {
        self.0.into_iter()
    }
}

impl<'a, T> IntoIterator for &'a Vec<T> {
    type Item = &'a T;
    type IntoIter = ::core::slice::Iter<'a, T>;

    fn into_iter(self) -> Self::IntoIter {
        self.0.iter()
    }
}

impl<'a, T> IntoIterator for &'a mut Vec<T> {
    type Item = &'a mut T;
    type IntoIter = ::core::slice::IterMut<'a, T>;

    fn into_iter(self) -> Self::IntoIter {
        self.0.iter_mut()
    }
}

/// `to_vec`, `repeat` and `concat`, with an allocator.
pub trait ToVec<T> {
    fn kit_to_vec(&self, alloc: Global) -> Result<Vec<T>, AllocError>;
    fn kit_repeat(&self, alloc: Global, count: usize) -> Result<Vec<T>, AllocError>;
}

impl<T: Copy> ToVec<T> for [T] {
    fn kit_to_vec(&self, alloc: Global) -> Result<Vec<T>, AllocError> {
        Vec::from_slice(alloc, self)
    }

    fn kit_repeat(&self, alloc: Global, count: usize) -> Result<Vec<T>, AllocError> {
        let mut all = Vec::new(alloc);
        for _ in 0..count {
            all.extend_from_slice(self)?;
        }
        Ok(all)
    }
}

pub trait Concat<T> {
    fn kit_concat(&self, alloc: Global) -> Result<Vec<T>, AllocError>;
}

impl<T: Copy, P: AsRef<[T]>> Concat<T> for [P] {
    fn kit_concat(&self, alloc: Global) -> Result<Vec<T>, AllocError> {
        let mut all = Vec::new(alloc);
        for part in self {
            all.extend_from_slice(part.as_ref())?;
        }
        Ok(all)
    }
}

impl<T> AsRef<[T]> for Vec<T> {
    fn as_ref(&self) -> &[T] {
        &self.0
    }
}

impl<T> ::core::borrow::Borrow<[T]> for Vec<T> {
    fn borrow(&self) -> &[T] {
        &self.0
    }
}

#[cfg(feature = "std")]
impl ::std::io::Write for Vec<u8> {
    fn write(&mut self, bytes: &[u8]) -> ::std::io::Result<usize> {
        self.extend_from_slice(bytes)?;
        Ok(bytes.len())
    }

    fn flush(&mut self) -> ::std::io::Result<()> {
        Ok(())
    }
}
