//! Those that are timed: this heap, boost's, a `BTreeSet`, and a `DaryHeap` in which stale entries stay. Of names: the
//! `NamedHeap`, one by hand, and boost's with a map.

use crate::pairs;
use crate::workload::{Call, Change, Task};
use std::time::{Duration, Instant};

pub const ARITIES: [usize; 3] = [2, 4, 8];

#[derive(Clone, Copy, PartialEq)]
pub enum Heap {
    Here,
    Boost,
    Set,
    Stale,
    Named,
    ByHand,
    BoostNamed,
}

/// A heap, and its arity. That of a set is any.
pub type Rival = (Heap, usize);

/// Functions of the library and of C++. Each does a workload at an arity, on items, changes or edges, so many for each
/// node. It returns `u64::MAX` if it has no such workload or arity, or if memory allocation fails.
macro_rules! linked {
    ($($name:ident)*) => {$(
        fn $name(call: Call, arity: usize, task: &Task, out: &mut [u64]) -> u64 {
            extern "C" {
                fn $name(
                    call: Call,
                    arity: usize,
                    items: *const u64,
                    items_len: usize,
                    changes: *const Change,
                    changes_len: usize,
                    degree: usize,
                    out: *mut u64,
                    out_len: usize,
                ) -> u64;
            }
            let (items, changes, degree) = (&task.items, &task.changes, task.degree);
            let (items, items_len) = (items.as_ptr(), items.len());
            let (changes, changes_len) = (changes.as_ptr(), changes.len());
            let (out, out_len) = (out.as_mut_ptr(), out.len());
            // SAFETY: the function reads the items and changes and writes below the length of `out`, and keeps none of
            // them. That of C++ writes as many as the task has room for.
            unsafe { $name(call, arity, items, items_len, changes, changes_len, degree, out, out_len) }
        }
    )*};
}

linked!(bench_indexed bench_stale bench_search bench_named bench_by_hand);
#[cfg(has_cpp)]
linked!(keyed_boost named_boost);

impl Heap {
    /// The arities at which it does a workload: `shortest_path`, the search with stale entries, has one of its own.
    fn arities(self, call: Call) -> &'static [usize] {
        match (self, call) {
            (Heap::Set, _) => &[0],
            (Heap::Stale, Call::Search) => &[3],
            (Heap::Named | Heap::ByHand | Heap::BoostNamed, _) => &[4],
            _ => &ARITIES,
        }
    }

    /// Whether it is there, as boost's may not be.
    pub fn is_there(self) -> bool {
        run(
            (self, self.arities(Call::Pop)[0]),
            Call::Pop,
            &Task::default(),
            &mut [],
        )
        .is_some()
    }
}

/// All that do a workload, by keys or by names.
pub fn rivals(call: Call, by_name: bool) -> Vec<Rival> {
    let heaps: &[Heap] = if by_name {
        &[Heap::Named, Heap::ByHand, Heap::BoostNamed]
    } else {
        &[Heap::Here, Heap::Boost, Heap::Stale, Heap::Set]
    };
    let at_arities = |heap: Heap| heap.arities(call).iter().map(move |arity| (heap, *arity));
    heaps.iter().copied().flat_map(at_arities).collect()
}

/// Does a workload, and returns its time. None if it is refused.
pub fn run((heap, arity): Rival, call: Call, task: &Task, out: &mut [u64]) -> Option<Duration> {
    let begun = Instant::now();
    let answer = match (heap, call) {
        #[cfg(has_cpp)]
        (Heap::Boost, _) => keyed_boost(call, arity, task, out),
        #[cfg(has_cpp)]
        (Heap::BoostNamed, _) => named_boost(call, arity, task, out),
        #[cfg(not(has_cpp))]
        (Heap::Boost | Heap::BoostNamed, _) => u64::MAX,
        (Heap::Set, _) => pairs::work(call, task, out),
        (Heap::Named, _) => bench_named(call, arity, task, out),
        (Heap::ByHand, _) => bench_by_hand(call, arity, task, out),
        (_, Call::Search | Call::Count) => bench_search(call, arity, task, out),
        (Heap::Here, _) => bench_indexed(call, arity, task, out),
        (Heap::Stale, _) => bench_stale(call, arity, task, out),
    };
    let elapsed = begun.elapsed();
    (answer != u64::MAX).then_some(elapsed)
}
