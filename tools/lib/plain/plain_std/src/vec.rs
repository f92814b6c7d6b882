//! `Vec` of the toolchain: what allocates is passed an allocator and gives a result.
use crate::alloc::{AllocError, Global};
use std::ops::{Deref, DerefMut};

#[derive(Debug, PartialEq, Eq)]
pub struct Vec<T>(pub std::vec::Vec<T>);

type Done = Result<(), AllocError>;

impl<T> Vec<T> {
    pub fn new(_: Global) -> Self {
        Vec(std::vec::Vec::new())
    }
    pub fn with_capacity(_: Global, room: usize) -> Result<Self, AllocError> {
        Ok(Vec(std::vec::Vec::with_capacity(room)))
    }
    pub fn of_array<const N: usize>(items: [T; N]) -> Result<Self, AllocError> {
        Ok(Vec(std::vec::Vec::from(items)))
    }
    pub fn allocator(&self) -> &Global {
        &Global
    }
    #[inline(always)]
    pub fn push(&mut self, item: T) -> Done {
        self.0.push(item);
        Ok(())
    }
    #[inline(always)]
    pub fn push_reserved(&mut self, item: T) {
        self.0.push(item);
    }
    pub fn reserve(&mut self, more: usize) -> Done {
        self.0.reserve(more);
        Ok(())
    }
    pub fn append(&mut self, other: &mut Self) -> Done {
        self.0.append(&mut other.0);
        Ok(())
    }
    pub fn sort(&mut self) -> Done
    where
        T: Ord,
    {
        self.0.sort();
        Ok(())
    }
}

impl<T: Clone> Vec<T> {
    pub fn filled(value: T, count: usize) -> Result<Self, AllocError> {
        Ok(Vec(vec![value; count]))
    }
    pub fn from_slice(_: Global, items: &[T]) -> Result<Self, AllocError> {
        Ok(Vec(items.to_vec()))
    }
    pub fn extend_from_slice(&mut self, items: &[T]) -> Done {
        self.0.extend_from_slice(items);
        Ok(())
    }
    pub fn resize(&mut self, count: usize, value: T) -> Done {
        self.0.resize(count, value);
        Ok(())
    }
}

impl<T: crate::prelude::Clone> crate::prelude::Clone for Vec<T> {
    fn clone(&self) -> Result<Self, AllocError> {
        Ok(Vec(self
            .0
            .iter()
            .map(|item| item.clone())
            .collect::<Result<_, _>>()?))
    }
}

impl<T> Deref for Vec<T> {
    type Target = std::vec::Vec<T>;
    #[inline(always)]
    fn deref(&self) -> &Self::Target {
        &self.0
    }
}

impl<T> DerefMut for Vec<T> {
    #[inline(always)]
    fn deref_mut(&mut self) -> &mut Self::Target {
        &mut self.0
    }
}

impl<T> IntoIterator for Vec<T> {
    type Item = T;
    type IntoIter = std::vec::IntoIter<T>;
    fn into_iter(self) -> Self::IntoIter {
        self.0.into_iter()
    }
}

impl<'a, T> IntoIterator for &'a Vec<T> {
    type Item = &'a T;
    type IntoIter = std::slice::Iter<'a, T>;
    fn into_iter(self) -> Self::IntoIter {
        self.0.iter()
    }
}

impl<'a, T> IntoIterator for &'a mut Vec<T> {
    type Item = &'a mut T;
    type IntoIter = std::slice::IterMut<'a, T>;
    fn into_iter(self) -> Self::IntoIter {
        self.0.iter_mut()
    }
}
