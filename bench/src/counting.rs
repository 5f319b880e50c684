//! The comparisons that the heaps in Rust make.

use crate::items::{ordered, Item};
use crate::random::Random;
use std::cell::Cell;

thread_local! {
    static COMPARISONS: Cell<u64> = const { Cell::new(0) };
}

/// Starts the count anew. A workload calls it when its set-up is done.
pub fn begin() {
    COMPARISONS.set(0);
}

/// How many comparisons were counted since the beginning.
pub fn made() -> u64 {
    COMPARISONS.get()
}

/// A number that counts its comparisons.
#[derive(Clone, Copy)]
pub struct Counted(pub i64);

ordered!(Counted, |one: &Counted, other: &Counted| {
    COMPARISONS.set(COMPARISONS.get() + 1);
    one.0.cmp(&other.0)
});

impl Item for Counted {
    type Mark = i64;

    fn draw(random: &mut Random) -> Counted {
        Counted(i64::draw(random))
    }

    fn mark(&self) -> i64 {
        self.0
    }

    fn is_kept(&self) -> bool {
        self.0.is_kept()
    }

    fn lowered(&self, by: &Counted) -> Counted {
        Counted(self.0.lowered(&by.0))
    }
}
