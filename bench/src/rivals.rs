//! Those that are timed: the heap of this repository, the crate's, std's of Rattle and of Rust, and those of C++.

use crate::counting::{self, Counted};
use crate::foreign::{self, function, in_cpp, run, Foreign, Function};
use crate::items::Item;
use crate::workload::{of_crate, work, Call, Task, Work};
use std::collections::BinaryHeap;

pub const HERE: &str = "here";
pub const CRATE: &str = "crate";
pub const RATTLE_STD: &str = "rattle_std";
pub const STD: &str = "std";
pub const CPP: &str = "cpp";
pub const BOOST: &str = "boost";

/// One that makes runs on tasks of items `T`, and writes `M`s.
pub struct Rival<T, M> {
    pub name: &'static str,
    pub run: Run<T, M>,
    /// None if its comparisons aren't counted.
    pub count: Option<Run<T, M>>,
    /// Whether it writes what the crate's heap does, and not only the same items: the slice is another if the
    /// heap has another arity.
    pub is_equal: bool,
    /// Whether it lends its greatest items, and copies nothing.
    pub lends: bool,
}

/// Returns how much it wrote, or where that is counted how many comparisons it made; none if memory allocation
/// fails.
type Run<T, M> = Box<dyn Fn(&Task<T>, &mut [M]) -> Option<u64>>;

/// Those that make a call at an arity.
pub type Rivals<T> = fn(Call, usize) -> Vec<Rival<T, <T as Item>::Mark>>;

/// Those that make a call on numbers, with the comparisons of some.
pub fn of_numbers(call: Call, arity: usize) -> Vec<Rival<i64, i64>> {
    let mut rivals = of_items(call, arity);
    // Who lends the greatest compares as no other does.
    if call == Call::Greatest {
        return rivals;
    }
    for rival in &mut rivals {
        rival.count = match rival.name {
            HERE => Some(linked(function!(bench_counted(i64) -> i64), call, arity)),
            CRATE => Some(counted(call, of_crate(arity))),
            STD => Some(counted(call, work::<_, BinaryHeap<_>>)),
            _ => None,
        };
    }
    rivals
}

/// Those that make a call.
pub fn of_items<T: Foreign>(call: Call, arity: usize) -> Vec<Rival<T, T::Mark>> {
    let mut runs = vec![
        (HERE, linked(T::LIBRARY, call, arity)),
        (CRATE, in_rust(of_crate(arity), call)),
        (RATTLE_STD, linked(T::LIBRARY, call, foreign::STD)),
        (STD, in_rust(work::<T, BinaryHeap<T>>, call)),
    ];
    for (name, heap) in [(CPP, foreign::STD), (BOOST, arity)] {
        if let Some(function) = in_cpp::<T>(call, heap) {
            runs.push((name, linked(function, call, heap)));
        }
    }
    let rivals = runs.into_iter().map(|(name, run)| Rival {
        name,
        run,
        count: None,
        is_equal: [HERE, CRATE].contains(&name) || !writes_slice(call),
        lends: [HERE, BOOST].contains(&name),
    });
    rivals.collect()
}

/// Whether the call writes the heap's slice.
fn writes_slice(call: Call) -> bool {
    use Call::{Churn, Copy, Greatest, Pop, Turns};
    !matches!(call, Copy | Pop | Churn | Turns | Greatest)
}

fn linked<T: Foreign>(function: Function<T, T::Mark>, call: Call, heap: usize) -> Run<T, T::Mark> {
    Box::new(move |task, out| run(function, call, heap, task, out))
}

fn in_rust<T: 'static, M: 'static>(work: Work<T, M>, call: Call) -> Run<T, M> {
    Box::new(move |task, out| Some(work(call, task, out) as u64))
}

/// The comparisons of a call on numbers that count them.
fn counted(call: Call, work: Work<Counted, i64>) -> Run<i64, i64> {
    let counting = |items: &[i64]| items.iter().copied().map(Counted).collect();
    Box::new(move |task, out| {
        let counting = Task::new(counting(&task.items), counting(&task.more), task.piece);
        work(call, &counting, out);
        Some(counting::made())
    })
}
