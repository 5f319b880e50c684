//! What is timed, and the inputs. These depend on the workload and the size alone, so each run of the program has the
//! same.

use crate::pairs;
use crate::random::Random;
use std::iter::repeat_with;

/// What is done with a heap. The library and `rivals.cpp` know the calls by their numbers.
#[derive(Clone, Copy, PartialEq)]
#[repr(usize)]
pub enum Call {
    /// Items are pushed, and one comes out.
    Push,
    /// Items are pushed, and all come out.
    Pop,
    /// Timers are set, cancelled, and taken when they are due.
    Cancel,
    /// Items change, and after `CHANGES` of them one comes out and goes in again with another item.
    Reprioritise,
    /// A search for the cheapest walk from node 0 to another.
    Search,
    /// The same over a heap that counts: the comparisons, and in C++ how many entries there were at most too.
    Count,
}

/// A key and the item that it gets. Or an edge: the node that it leads to, and what it costs.
#[repr(C)]
#[derive(Clone, Copy)]
pub struct Change {
    pub key: usize,
    pub item: u64,
}

/// The inputs of one run.
#[derive(Clone, Default)]
pub struct Task {
    /// Or the node to which a walk is sought.
    pub items: Vec<u64>,
    /// Or the edges of a graph, so many for each node.
    pub changes: Vec<Change>,
    pub degree: usize,
    /// How many numbers are written at most.
    pub room: usize,
    /// By how many the time is divided.
    pub count: usize,
}

impl Task {
    /// The same graph, in which nothing is sought.
    pub fn without_goal(&self) -> Task {
        Task {
            items: Vec::new(),
            ..self.clone()
        }
    }

    /// For each node the list of its edges.
    pub fn graph(&self) -> Vec<Vec<Change>> {
        self.changes
            .chunks(self.degree)
            .map(<[_]>::to_vec)
            .collect()
    }
}

#[derive(Clone, Copy)]
pub struct Workload {
    pub name: &'static str,
    pub call: Call,
    pub task: fn(&mut Random, usize) -> Task,
    pub sizes: &'static [usize],
}

const ALL: &[usize] = &[1_000, 10_000, 100_000, 1_000_000];

/// How many items change before one comes out.
pub const CHANGES: usize = 4;

/// What an edge costs at most.
const COST: usize = 1000;

pub const WORKLOADS: [Workload; 7] = [
    on("push", Call::Push, plain),
    on("pop", Call::Pop, plain),
    on("cancel", Call::Cancel, timers),
    on("reprioritise", Call::Reprioritise, priorities),
    on("grid", Call::Search, grid),
    on("random_5", Call::Search, |random, nodes| {
        graph(random, nodes, 5)
    }),
    Workload {
        sizes: &[1_000, 10_000, 100_000],
        ..on("random_30", Call::Search, |random, nodes| {
            graph(random, nodes, 30)
        })
    },
];

const fn on(name: &'static str, call: Call, task: fn(&mut Random, usize) -> Task) -> Workload {
    Workload {
        name,
        call,
        task,
        sizes: ALL,
    }
}

impl Workload {
    /// The inputs of a size: several if they are small, so that none is met again at once.
    pub fn tasks(&self, keys: usize) -> Vec<Task> {
        let inputs = (64_000 / keys).clamp(1, 64) as u64;
        let tasks = (0..inputs).map(|seed| (self.task)(&mut Random::new(seed), keys));
        tasks.collect()
    }
}

/// A number from 1 on, far below the greatest. Two of them are never equal in practice.
fn number(random: &mut Random) -> u64 {
    (random.number() >> 4) | 1
}

/// A number below `end`, which is far below the greatest number.
fn below(random: &mut Random, end: usize) -> usize {
    (random.number() % end as u64) as usize
}

fn numbers(random: &mut Random, count: usize) -> Vec<u64> {
    repeat_with(|| number(random)).take(count).collect()
}

/// So many keys below `keys`, with numbers.
fn changes(random: &mut Random, keys: usize, count: usize) -> Vec<Change> {
    let mut draw = || {
        let (key, item) = (below(random, keys), number(random));
        Change { key, item }
    };
    (0..count).map(|_| draw()).collect()
}

fn plain(random: &mut Random, keys: usize) -> Task {
    Task {
        items: numbers(random, keys),
        room: keys,
        count: keys,
        ..Task::default()
    }
}

/// The items are delays.
fn timers(random: &mut Random, keys: usize) -> Task {
    Task {
        changes: changes(random, keys, keys),
        ..plain(random, keys)
    }
}

fn priorities(random: &mut Random, keys: usize) -> Task {
    Task {
        changes: changes(random, keys, 2 * CHANGES * (keys / CHANGES)),
        count: 2 * keys,
        ..plain(random, keys)
    }
}

/// The graph of these edges. The goal is one of the nodes that are farthest, so a search goes over all that it can reach.
fn of_edges(edges: Vec<Change>, degree: usize) -> Task {
    let mut task = Task {
        degree,
        room: 2,
        count: edges.len(),
        changes: edges,
        ..Task::default()
    };
    let (costs, _) = pairs::costs(&task.graph(), usize::MAX, false);
    let reached = (0..costs.len()).filter(|node| costs[*node] < u64::MAX);
    let farthest = reached.max_by_key(|node| costs[*node]);
    task.items.extend(farthest.map(|node| node as u64));
    task
}

fn edge(random: &mut Random, key: usize) -> Change {
    let item = below(random, COST) as u64 + 1;
    Change { key, item }
}

/// So many edges leave each node, to random ones.
fn graph(random: &mut Random, nodes: usize, degree: usize) -> Task {
    let mut draw = || {
        let node = below(random, nodes);
        edge(random, node)
    };
    of_edges((0..nodes * degree).map(|_| draw()).collect(), degree)
}

/// A square of about so many nodes, each with an edge to each of its neighbours. An edge out of the square leads back.
fn grid(random: &mut Random, nodes: usize) -> Task {
    let side = (nodes as f64).sqrt() as usize;
    let mut edges = Vec::new();
    for node in 0..side * side {
        let (row, column) = (node / side, node % side);
        let neighbours = [
            (row > 0).then(|| node - side),
            (column > 0).then(|| node - 1),
            (column + 1 < side).then(|| node + 1),
            (row + 1 < side).then(|| node + side),
        ];
        edges.extend(neighbours.map(|neighbour| edge(random, neighbour.unwrap_or(node))));
    }
    of_edges(edges, 4)
}
