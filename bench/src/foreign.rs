//! The heaps that aren't in Rust: the heap of this repository and Rattle's own, as the functions of the static
//! library `heap_bench`, and those of C++, as the functions of `rivals.cpp`, if there is a C++ compiler.

use crate::items::{Item, Record};
use crate::workload::{Call, Task};

/// What stands for a std heap in place of an arity. Any other is that of this heap, or of boost's.
pub const STD: usize = 0;

/// Makes a call on a heap, given the items, what a churn pushes, the length of a piece and where marks are
/// written to. It returns how many marks it wrote, and `u64::MAX` if it has no such call or heap, or if memory
/// allocation fails.
pub type Function<T, M> = unsafe extern "C" fn(
    call: Call,
    heap: usize,
    items: *const T,
    items_len: usize,
    more: *const T,
    more_len: usize,
    piece: usize,
    out: *mut M,
    out_len: usize,
) -> u64;

/// Items on which the library has workloads.
pub trait Foreign: Item + 'static {
    const LIBRARY: Function<Self, Self::Mark>;
    /// None without a C++ compiler.
    const CPP: Option<Function<Self, Self::Mark>>;
}

/// The function of this name and type.
macro_rules! function {
    ($name:ident($item:ty) -> $mark:ty) => {{
        extern "C" {
            fn $name(
                call: $crate::workload::Call,
                heap: usize,
                items: *const $item,
                items_len: usize,
                more: *const $item,
                more_len: usize,
                piece: usize,
                out: *mut $mark,
                out_len: usize,
            ) -> u64;
        }
        $name
    }};
}

pub(crate) use function;

macro_rules! foreign {
    ($($item:ty => $mark:ty: $here:ident, $cpp:ident;)*) => {
        $(impl Foreign for $item {
            const LIBRARY: Function<$item, $mark> = function!($here($item) -> $mark);
            #[cfg(has_cpp)]
            const CPP: Option<Function<$item, $mark>> = Some(function!($cpp($item) -> $mark));
            #[cfg(not(has_cpp))]
            const CPP: Option<Function<$item, $mark>> = None;
        })*
    };
}

foreign! {
    i64 => i64: bench_numbers, rivals_of_numbers;
    Record => [u64; 8]: bench_records, rivals_of_records;
}

/// Makes the call on a task, and returns how many marks it wrote. None if it is refused.
pub fn run<T, M>(
    function: Function<T, M>,
    call: Call,
    heap: usize,
    task: &Task<T>,
    out: &mut [M],
) -> Option<u64> {
    // SAFETY: the function reads the items and writes below the length of `out`, and keeps neither. Those of
    // C++ write as many as there are, or as many as `more` has for a churn, and there is room for either.
    // The items are heap ordered at the arity if the workload says so.
    let answer = unsafe {
        function(
            call,
            heap,
            task.items.as_ptr(),
            task.items.len(),
            task.more.as_ptr(),
            task.more.len(),
            task.piece,
            out.as_mut_ptr(),
            out.len(),
        )
    };
    (answer != u64::MAX).then_some(answer)
}

/// The function of C++, if the heap makes the call: one that doesn't refuses it without items too.
pub fn in_cpp<T: Foreign>(call: Call, heap: usize) -> Option<Function<T, T::Mark>> {
    let nothing = Task::new(Vec::new(), Vec::new(), 1);
    T::CPP.filter(|function| run(*function, call, heap, &nothing, &mut []).is_some())
}

/// What is left out, and why. None if each heap is there.
pub fn left_out() -> Option<&'static str> {
    if !cfg!(has_cpp) {
        return Some("std::priority_queue and boost's d_ary_heap, for want of a C++ compiler");
    }
    let is_missing = in_cpp::<i64>(Call::Push, 2).is_none();
    is_missing.then_some("boost's d_ary_heap, for want of boost/heap/d_ary_heap.hpp")
}
