//! The calls of a heap that the workloads make, for the crate's heap and for std's.

use dary_heap::DaryHeap;
use std::collections::BinaryHeap;

/// A heap whose greatest item comes out first.
pub trait Queue<T>: Clone + From<Vec<T>> + Extend<T> {
    /// The heap of items that are heap ordered at its arity, as they are if it has such a call.
    fn of_ordered(items: Vec<T>) -> Self;
    fn empty() -> Self;
    fn push(&mut self, item: T);
    fn pop(&mut self) -> Option<T>;
    fn retain(&mut self, keep: impl FnMut(&T) -> bool);
    fn as_slice(&self) -> &[T];
}

/// The calls that a heap has under the same names.
macro_rules! its_own {
    ($heap:ident) => {
        fn empty() -> Self {
            $heap::new()
        }

        fn push(&mut self, item: T) {
            $heap::push(self, item);
        }

        fn pop(&mut self) -> Option<T> {
            $heap::pop(self)
        }

        fn retain(&mut self, keep: impl FnMut(&T) -> bool) {
            $heap::retain(self, keep);
        }

        fn as_slice(&self) -> &[T] {
            $heap::as_slice(self)
        }
    };
}

impl<T: Ord + Clone, const D: usize> Queue<T> for DaryHeap<T, D> {
    its_own!(DaryHeap);

    fn of_ordered(items: Vec<T>) -> Self {
        // SAFETY: the caller gives items that are heap ordered at this arity.
        unsafe { DaryHeap::from_raw_vec(items) }
    }
}

/// std's heap takes no vector as it is, so it builds.
impl<T: Ord + Clone> Queue<T> for BinaryHeap<T> {
    its_own!(BinaryHeap);

    fn of_ordered(items: Vec<T>) -> Self {
        BinaryHeap::from(items)
    }
}
