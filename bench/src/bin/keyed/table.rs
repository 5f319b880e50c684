//! The table: its rows are printed as they come.

use crate::pairs;
use crate::peak;
use crate::rivals::{rivals, run, Heap, Rival, ARITIES};
use crate::workload::{Call, Task};

/// The nanoseconds of each rival.
pub type Times = Vec<(Rival, f64)>;

/// Those by whose times this heap's are divided.
const DIVISORS: [(Heap, &str); 3] = [
    (Heap::Boost, "boost"),
    (Heap::Set, "`BTreeSet`"),
    (Heap::Stale, "`DaryHeap`"),
];

/// The same among heaps by name.
const NAME_DIVISORS: [(Heap, &str); 2] = [(Heap::ByHand, "by hand"), (Heap::BoostNamed, "boost")];

pub fn header(by_name: bool) -> String {
    if by_name {
        let [(_, first), (_, second)] = NAME_DIVISORS;
        return format!("||names|ns|{first}|{second}|\n|---|--:|--:|--:|--:|");
    }
    let heads = ["ns", DIVISORS[0].1, DIVISORS[1].1, DIVISORS[2].1];
    let [first, others @ ..] = ARITIES.map(|arity| format!("{arity}|"));
    let heads = heads.map(|head| format!("{head}: {first}{}", others.concat()));
    let lines = "--:|".repeat(1 + heads.len() * ARITIES.len());
    format!("||keys|{}\n|---|{lines}", heads.concat())
}

/// The nanoseconds of this heap at each arity, and its time over that of each other. By name there is one arity.
pub fn row(name: &str, keys: usize, times: &Times, by_name: bool) -> String {
    if by_name {
        let here = nanoseconds(times, Heap::Named, 4).map(|time| format!("{time:.0}"));
        let over = NAME_DIVISORS.map(|(heap, _)| over(times, Heap::Named, heap, 4));
        return format!("|{name}|{keys}|{}{}", cell(here), over.concat());
    }
    let time = |arity| nanoseconds(times, Heap::Here, arity).map(|time| format!("{time:.0}"));
    let here = ARITIES.map(|arity| cell(time(arity)));
    let over = DIVISORS.map(|(heap, _)| {
        let at_arities = ARITIES.map(|arity| over(times, Heap::Here, heap, arity));
        at_arities.concat()
    });
    format!("|{name}|{keys}|{}{}", here.concat(), over.concat())
}

fn nanoseconds(times: &Times, heap: Heap, arity: usize) -> Option<f64> {
    // One that has an arity of its own, or none, stands beside each.
    let is_it =
        |rival: &Rival| rival.0 == heap && (rival.1 == arity || !ARITIES.contains(&rival.1));
    let found = times.iter().find(|(rival, _)| is_it(rival));
    found.map(|(_, time)| *time)
}

/// The cell of a heap's time over that of another, which is empty if that isn't there.
fn over(times: &Times, here: Heap, other: Heap, arity: usize) -> String {
    let both = nanoseconds(times, here, arity).zip(nanoseconds(times, other, arity));
    cell(both.map(|(here, other)| format!("{:.2}", here / other)))
}

/// One of each heap. The last doesn't count.
const EACH: [Rival; 4] = [
    (Heap::Here, 4),
    (Heap::Boost, 4),
    (Heap::Stale, 3),
    (Heap::Set, 0),
];

/// The head of the counts.
pub const COUNTS_HEADER: &str = "\
||nodes|this heap: 2|4|8|boost: 2|4|8|`DaryHeap`: 3|most here|boost|`DaryHeap`|MB here|boost|`DaryHeap`|`BTreeSet`|
|---|--:|--:|--:|--:|--:|--:|--:|--:|--:|--:|--:|--:|--:|--:|--:|";

/// Of a search the comparisons of an edge, how many entries there were at most, and the memory.
pub fn counts_row(name: &str, keys: usize, task: &Task) -> String {
    let count = |rival, which: usize| {
        let mut out = [0; 2];
        run(rival, Call::Count, task, &mut out).map(|_| out[which])
    };
    // The libraries here count comparisons alone. A heap of the same entries has as many at a time.
    let most = |rival: Rival| match rival.0 {
        Heap::Boost => count(rival, 1),
        heap => Some(most(task, heap == Heap::Stale)),
    };
    let comparisons = |made| format!("{:.2}", made as f64 / task.count as f64);
    let megabytes = |bytes| format!("{:.2}", bytes as f64 / 1e6);
    let counting = rivals(Call::Search, false)
        .into_iter()
        .filter(|(heap, _)| *heap != Heap::Set);
    let made: String = counting
        .map(|rival| cell(count(rival, 0).map(comparisons)))
        .collect();
    let most = EACH.map(|rival| most(rival).map(|most| most.to_string()));
    let taken = EACH.map(|rival| cell(taken(rival, task).map(megabytes)));
    let most: String = most.into_iter().take(3).map(cell).collect();
    format!("|{name}|{keys}|{made}{most}{}", taken.concat())
}

/// How many entries a search has at most: one of a node, or with stale ones one of each cost that was found for it.
fn most(task: &Task, keeps_stale: bool) -> u64 {
    let goal = task.items.first().map_or(usize::MAX, |goal| *goal as usize);
    pairs::costs(&task.graph(), goal, keeps_stale).1 as u64
}

/// A cell, which is empty if there is no text.
fn cell(text: Option<String>) -> String {
    text.unwrap_or_default() + "|"
}

/// The bytes that a search takes at most, beside its graph. That is all that is taken without a goal.
fn taken(rival: Rival, task: &Task) -> Option<isize> {
    let peak = |task: &Task| {
        let mut done = None;
        let most = peak::of(|| done = run(rival, Call::Search, task, &mut [0]));
        most.filter(|_| done.is_some())
    };
    Some(peak(task)? - peak(&task.without_goal())?)
}

/// What a fault calls a rival.
pub fn name((heap, arity): Rival) -> String {
    match heap {
        Heap::Here => format!("this heap of arity {arity}"),
        Heap::Boost => format!("boost's of arity {arity}"),
        Heap::Set => "the set".into(),
        Heap::Stale => format!("the heap with stale entries of arity {arity}"),
        Heap::Named => "the heap by name".into(),
        Heap::ByHand => "the one by hand".into(),
        Heap::BoostNamed => "boost's with a map".into(),
    }
}
