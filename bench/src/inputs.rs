//! The inputs of a line. They depend on the line alone, so each run of the program has the same.

use crate::items::Item;
use crate::queue::Queue;
use crate::random::Random;
use crate::workload::{asks, at_arity, Call, Line, Task, Workload, GIVEN};

/// The tasks that a line goes through by turns: several if they are small, so that none is met again at once.
pub fn tasks<T: Item>((workload, arity, items): Line) -> Vec<Task<T>> {
    let inputs = (64_000 / items).clamp(1, 64) as u64;
    let drawn = |seed| task(&workload, arity, items, &mut Random::new(seed));
    (0..inputs).map(drawn).collect()
}

fn task<T: Item>(workload: &Workload, arity: usize, items: usize, random: &mut Random) -> Task<T> {
    let mut drawn = || (0..items).map(|_| T::draw(random)).collect();
    let first = placed(workload, arity, drawn());
    let mut task = Task::new(first, drawn(), (workload.piece)(items));
    if workload.call == Call::Greatest {
        let given = |least| asks(least, task.piece) * task.piece;
        (task.count, task.lent) = (given(GIVEN), given(GIVEN.max(items)));
    }
    task
}

/// The items as the workload wants them to lie. Where it takes them as they are, they lie as in the slice of the
/// crate's heap of them.
fn placed<T: Item>(workload: &Workload, arity: usize, mut items: Vec<T>) -> Vec<T> {
    if workload.call >= Call::Hold {
        return at_arity!(arity, slice_of::<T>)(items);
    }
    if workload.ascends {
        items.sort_unstable();
    }
    items
}

fn slice_of<T: Item, Q: Queue<T>>(items: Vec<T>) -> Vec<T> {
    Q::from(items).as_slice().to_vec()
}
