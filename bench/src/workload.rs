//! What is timed: the calls, and the workloads that make them on given items.

use crate::counting;
use crate::items::Item;
use crate::queue::Queue;

/// What is done with a heap. Each call takes the items and writes the marks of items of the heap. The library
/// and `rivals.cpp` know them by their numbers.
#[derive(Clone, Copy, PartialEq, PartialOrd)]
#[repr(usize)]
pub enum Call {
    /// No heap is made: the items are copied and written.
    Copy,
    Build,
    Push,
    Extend,
    /// This and those that follow take the items as they are, which are heap ordered.
    Hold,
    Retain,
    Pop,
    Churn,
    /// A pop and a push by turns: what came out goes in again a little less.
    Turns,
    /// The greatest items, as many as a piece has, in descending order. The heap keeps them.
    Greatest,
}

/// What the items are.
#[derive(Clone, Copy, PartialEq)]
pub enum Kind {
    Numbers,
    Records,
}

#[derive(Clone, Copy)]
pub struct Workload {
    pub name: &'static str,
    pub kind: Kind,
    pub call: Call,
    /// Whether the items are given in ascending order.
    pub ascends: bool,
    /// How many of so many items an extend takes at once, or are asked for as the greatest.
    pub piece: fn(usize) -> usize,
    /// The sizes, if none are asked for.
    pub sizes: &'static [usize],
}

/// A workload, at an arity, on so many items.
pub type Line = (Workload, usize, usize);

const SOME: &[usize] = &[1_000, 100_000, 1_000_000];
/// Sizes to beyond the caches.
const MORE: &[usize] = &[1_000, 10_000, 100_000, 1_000_000, 10_000_000];
const ONE: &[usize] = &[100_000];

impl Workload {
    const fn by(self, piece: fn(usize) -> usize) -> Workload {
        Workload { piece, ..self }
    }

    const fn at(self, sizes: &'static [usize]) -> Workload {
        Workload { sizes, ..self }
    }

    /// What is taken off, on the same items. Records are dear to copy, so a copy is taken off as well.
    pub fn set_up(&self) -> Option<Workload> {
        let call = match self.kind {
            _ if self.call > Call::Hold => Call::Hold,
            Kind::Numbers => return None,
            Kind::Records => Call::Copy,
        };
        Some(Workload { call, ..*self })
    }
}

const fn on(kind: Kind, name: &'static str, call: Call) -> Workload {
    Workload {
        name,
        kind,
        call,
        ascends: false,
        piece: |_| 1,
        sizes: SOME,
    }
}

fn eighth(items: usize) -> usize {
    (items / 8).max(1)
}

/// How many items are asked for in all, at least, if a heap is asked for its greatest ones. One that lends them is
/// asked for as many as it has, if that is more.
pub const GIVEN: usize = 10_000;

/// How often a heap is asked for a piece, so that it gives so many items.
pub fn asks(given: usize, piece: usize) -> usize {
    (given / piece).max(1)
}

pub const WORKLOADS: [Workload; 14] = [
    on(Kind::Numbers, "build", Call::Build),
    on(Kind::Numbers, "push_random", Call::Push),
    Workload {
        ascends: true,
        ..on(Kind::Numbers, "push_ascending", Call::Push)
    },
    on(Kind::Numbers, "pop", Call::Pop).at(MORE),
    on(Kind::Numbers, "churn", Call::Churn),
    on(Kind::Numbers, "turns", Call::Turns),
    on(Kind::Numbers, "extend_eighth", Call::Extend).by(eighth),
    on(Kind::Numbers, "retain", Call::Retain),
    on(Kind::Numbers, "iter_sorted_ten", Call::Greatest)
        .by(|_| 10)
        .at(ONE),
    on(Kind::Numbers, "iter_sorted_all", Call::Greatest)
        .by(|items| items)
        .at(ONE),
    on(Kind::Records, "build_records", Call::Build),
    on(Kind::Records, "push_records", Call::Push),
    on(Kind::Records, "pop_records", Call::Pop),
    on(Kind::Records, "churn_records", Call::Churn),
];

/// The items of one run.
pub struct Task<T> {
    pub items: Vec<T>,
    /// What a churn pushes, and by what the items become less that come out at each turn.
    pub more: Vec<T>,
    pub piece: usize,
    /// How many items a run goes over.
    pub count: usize,
    /// The same, if the heap lends its greatest ones.
    pub lent: usize,
}

impl<T> Task<T> {
    pub fn new(items: Vec<T>, more: Vec<T>, piece: usize) -> Task<T> {
        Task {
            count: items.len(),
            lent: items.len(),
            items,
            more,
            piece,
        }
    }
}

/// A function over the crate's heap of an arity from 1 to 8.
macro_rules! at_arity {
    ($arity:expr, $function:ident::<$item:ident>) => {
        match $arity {
            1 => $function::<$item, dary_heap::DaryHeap<$item, 1>>,
            2 => $function::<$item, dary_heap::DaryHeap<$item, 2>>,
            3 => $function::<$item, dary_heap::DaryHeap<$item, 3>>,
            4 => $function::<$item, dary_heap::DaryHeap<$item, 4>>,
            5 => $function::<$item, dary_heap::DaryHeap<$item, 5>>,
            6 => $function::<$item, dary_heap::DaryHeap<$item, 6>>,
            7 => $function::<$item, dary_heap::DaryHeap<$item, 7>>,
            _ => $function::<$item, dary_heap::DaryHeap<$item, 8>>,
        }
    };
}

pub(crate) use at_arity;

/// Makes a call on the items of a task. It returns how many marks it wrote.
pub type Work<T, M> = fn(Call, &Task<T>, &mut [M]) -> usize;

/// The work over the crate's heap of this arity, from 1 to 8.
pub fn of_crate<T: Item>(arity: usize) -> Work<T, T::Mark> {
    at_arity!(arity, work::<T>)
}

/// Makes a call over a heap. What follows the set-up is counted.
pub fn work<T: Item, Q: Queue<T>>(call: Call, task: &Task<T>, out: &mut [T::Mark]) -> usize {
    counting::begin();
    let heap: Q = match call {
        Call::Copy => return written(&task.items.clone(), out),
        Call::Build => Q::from(task.items.clone()),
        Call::Push => pushed(task),
        Call::Extend => extended(task),
        Call::Hold => held(task),
        Call::Retain => retained(held(task)),
        Call::Pop => return pop::<T, Q>(held(task), out),
        Call::Churn => return churn::<T, Q>(held(task), &task.more, out),
        Call::Turns => return turns::<T, Q>(held(task), &task.more, out),
        Call::Greatest => return greatest::<T, Q>(held(task), task.piece, out),
    };
    written(heap.as_slice(), out)
}

/// The heap of the items, which are heap ordered. What follows is counted.
fn held<T: Item, Q: Queue<T>>(task: &Task<T>) -> Q {
    let heap = Q::of_ordered(task.items.clone());
    counting::begin();
    heap
}

/// Writes the marks of the items.
fn written<T: Item>(items: &[T], out: &mut [T::Mark]) -> usize {
    for (item, place) in items.iter().zip(out) {
        *place = item.mark();
    }
    items.len()
}

#[inline(never)]
fn pushed<T: Item, Q: Queue<T>>(task: &Task<T>) -> Q {
    let mut heap = Q::empty();
    for item in &task.items {
        heap.push(*item);
    }
    heap
}

#[inline(never)]
fn extended<T: Item, Q: Queue<T>>(task: &Task<T>) -> Q {
    let mut heap = Q::empty();
    for piece in task.items.chunks(task.piece) {
        heap.extend(piece.iter().copied());
    }
    heap
}

#[inline(never)]
fn retained<T: Item, Q: Queue<T>>(mut heap: Q) -> Q {
    heap.retain(T::is_kept);
    heap
}

#[inline(never)]
fn pop<T: Item, Q: Queue<T>>(mut heap: Q, out: &mut [T::Mark]) -> usize {
    let mut count = 0;
    while let Some(item) = heap.pop() {
        out[count] = item.mark();
        count += 1;
    }
    count
}

#[inline(never)]
fn churn<T: Item, Q: Queue<T>>(mut heap: Q, more: &[T], out: &mut [T::Mark]) -> usize {
    let mut count = 0;
    for item in more {
        heap.push(*item);
        if let Some(greatest) = heap.pop() {
            out[count] = greatest.mark();
            count += 1;
        }
    }
    count
}

#[inline(never)]
fn turns<T: Item, Q: Queue<T>>(mut heap: Q, more: &[T], out: &mut [T::Mark]) -> usize {
    let mut count = 0;
    for less in more {
        if let Some(greatest) = heap.pop() {
            out[count] = greatest.mark();
            count += 1;
            heap.push(greatest.lowered(less));
        }
    }
    count
}

/// It pops from a copy.
#[inline(never)]
fn greatest<T: Item, Q: Queue<T>>(heap: Q, most: usize, out: &mut [T::Mark]) -> usize {
    for _ in 0..asks(GIVEN, most) {
        let mut copy = heap.clone();
        for place in &mut out[..most] {
            if let Some(item) = copy.pop() {
                *place = item.mark();
            }
        }
    }
    most
}
