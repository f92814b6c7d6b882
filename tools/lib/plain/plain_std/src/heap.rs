//! `BinaryHeap` of the toolchain.
use crate::alloc::{AllocError, Global};

pub struct BinaryHeap<T>(std::collections::BinaryHeap<T>);

impl<T: Ord> BinaryHeap<T> {
    pub fn new(_: Global) -> Self {
        BinaryHeap(std::collections::BinaryHeap::new())
    }
    pub fn with_capacity(_: Global, room: usize) -> Result<Self, AllocError> {
        Ok(BinaryHeap(std::collections::BinaryHeap::with_capacity(
            room,
        )))
    }
    pub fn push(&mut self, item: T) -> Result<(), AllocError> {
        self.0.push(item);
        Ok(())
    }
    pub fn pop(&mut self) -> Option<T> {
        self.0.pop()
    }
    pub fn len(&self) -> usize {
        self.0.len()
    }
}
