//! The workloads over a `BTreeSet` of items with their keys, and a vector that has the item of each key.

use crate::workload::{Call, Change, Task, CHANGES};
use std::cmp::Reverse;
use std::collections::BTreeSet;
use std::mem;

struct Pairs {
    set: BTreeSet<(u64, usize)>,
    /// 0 for a key that has none.
    items: Vec<u64>,
}

impl Pairs {
    fn with_room(keys: usize) -> Pairs {
        Pairs {
            set: BTreeSet::new(),
            items: vec![0; keys],
        }
    }

    fn pushed(items: &[u64]) -> Pairs {
        let mut pairs = Pairs::with_room(items.len());
        for (key, item) in items.iter().enumerate() {
            pairs.set(key, *item);
        }
        pairs
    }

    fn set(&mut self, key: usize, item: u64) {
        let old = mem::replace(&mut self.items[key], item);
        if old != 0 {
            self.set.remove(&(old, key));
        }
        self.set.insert((item, key));
    }

    fn cancel(&mut self, key: usize) {
        let old = mem::take(&mut self.items[key]);
        if old != 0 {
            self.set.remove(&(old, key));
        }
    }

    fn pop(&mut self) -> Option<(usize, u64)> {
        let (item, key) = self.set.pop_last()?;
        self.items[key] = 0;
        Some((key, item))
    }
}

/// Does a workload. Returns `u64::MAX` if it should count.
pub fn work(call: Call, task: &Task, out: &mut [u64]) -> u64 {
    match call {
        Call::Push => pop(Pairs::pushed(&task.items), &mut out[..1]),
        Call::Pop => pop(Pairs::pushed(&task.items), out),
        Call::Cancel => cancel(task, out),
        Call::Reprioritise => reprioritise(task, out),
        Call::Search => search(task, out),
        Call::Count => return u64::MAX,
    }
    0
}

fn pop(mut pairs: Pairs, out: &mut [u64]) {
    for place in out.iter_mut() {
        let Some((key, _)) = pairs.pop() else {
            break;
        };
        *place = key as u64;
    }
}

fn cancel(task: &Task, out: &mut [u64]) {
    let mut timers = Pairs::with_room(task.items.len());
    for (key, delay) in task.items.iter().enumerate() {
        timers.set(key, u64::MAX - delay);
    }
    for (place, change) in out.iter_mut().zip(&task.changes) {
        timers.cancel(change.key);
        if let Some((due, now)) = timers.pop() {
            *place = due as u64;
            timers.set(due, now.wrapping_sub(change.item / 2));
            timers.set(change.key, now.wrapping_sub(change.item));
        }
    }
}

fn reprioritise(task: &Task, out: &mut [u64]) {
    let mut pairs = Pairs::pushed(&task.items);
    for (place, changes) in out.iter_mut().zip(task.changes.chunks(CHANGES)) {
        let mut last = 0;
        for change in changes {
            pairs.set(change.key, change.item);
            last = change.item;
        }
        if let Some((key, _)) = pairs.pop() {
            *place = key as u64;
            pairs.set(key, last / 2);
        }
    }
}

fn search(task: &Task, out: &mut [u64]) {
    let graph = task.graph();
    for (place, goal) in out.iter_mut().zip(&task.items) {
        let goal = *goal as usize;
        *place = costs(&graph, goal, false).0[goal];
    }
}

/// The least costs of walks from node 0 to the nodes that come out up to the goal, which tell what a node has in the set,
/// and how many entries there were at most. With `keeps_stale` an entry stays when its node gets a lower cost.
pub fn costs(graph: &[Vec<Change>], goal: usize, keeps_stale: bool) -> (Vec<u64>, usize) {
    let mut costs = vec![u64::MAX; graph.len()];
    let mut nodes = BTreeSet::from([(0, Reverse(0))]);
    costs[0] = 0;
    let mut most = 1;
    while let Some((cost, Reverse(node))) = nodes.pop_first() {
        if node == goal {
            break;
        }
        if cost > costs[node] {
            continue;
        }
        for edge in &graph[node] {
            let (known, cost) = (&mut costs[edge.key], cost + edge.item);
            if cost < *known {
                if *known != u64::MAX && !keeps_stale {
                    nodes.remove(&(*known, Reverse(edge.key)));
                }
                nodes.insert((cost, Reverse(edge.key)));
                *known = cost;
            }
        }
        most = most.max(nodes.len());
    }
    (costs, most)
}

#[cfg(test)]
mod tests {
    use super::{costs, Change};

    /// Node 0 leads to the nodes 1, 2 and 3 at these costs, each of them to itself, and node 2 to node 1 at 2.
    fn most_to(goal: usize, from_start: [u64; 3], keeps_stale: bool) -> usize {
        let edge = |key, item| Change { key, item };
        let first = (1..).zip(from_start).map(|(key, item)| edge(key, item));
        let graph = [
            first.collect(),
            vec![edge(1, 1)],
            vec![edge(1, 2)],
            vec![edge(3, 1)],
        ];
        costs(&graph, goal, keeps_stale).1
    }

    #[test]
    fn entries_are_counted() {
        for keeps_stale in [false, true] {
            assert_eq!(most_to(1, [3, 2, 1], keeps_stale), 3);
        }
        assert_eq!(most_to(3, [9, 1, 20], false), 3);
        assert_eq!(most_to(3, [9, 1, 20], true), 3);
    }
}
