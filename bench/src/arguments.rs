//! What the user asks for.

use crate::workload::{Line, Workload, WORKLOADS};

pub const USAGE: &str =
    "usage: dary_heap_bench [--arities 2,3,4,8] [--sizes N,..] [--rounds 5] [WORKLOAD..]
An arity is 1 to 8, and a size 1 to 100000000.";

pub struct Wanted {
    arities: Vec<usize>,
    /// None if each workload has its own.
    sizes: Option<Vec<usize>>,
    pub rounds: usize,
    workloads: Vec<&'static Workload>,
}

impl Wanted {
    /// The lines of each workload, at each arity and size.
    pub fn lines(&self) -> impl Iterator<Item = Line> + '_ {
        self.workloads.iter().flat_map(|workload| {
            let sizes = self.sizes.as_deref().unwrap_or(workload.sizes);
            let arities = self.arities.iter();
            arities.flat_map(move |arity| sizes.iter().map(|items| (**workload, *arity, *items)))
        })
    }
}

/// Reads the arguments. None if they are not as the usage says.
pub fn read(mut words: impl Iterator<Item = String>) -> Option<Wanted> {
    let mut wanted = Wanted {
        arities: vec![2, 3, 4, 8],
        sizes: None,
        rounds: 5,
        workloads: Vec::new(),
    };
    let mut names = Vec::new();
    while let Some(word) = words.next() {
        match word.as_str() {
            "--arities" => wanted.arities = numbers(&words.next()?, 8)?,
            "--sizes" => wanted.sizes = Some(numbers(&words.next()?, 100_000_000)?),
            "--rounds" => wanted.rounds = number(&words.next()?, 1_000_000)?,
            name => names.push(WORKLOADS.iter().find(|known| known.name == name)?.name),
        }
    }
    let is_wanted = |known: &&Workload| names.is_empty() || names.contains(&known.name);
    wanted.workloads = WORKLOADS.iter().filter(is_wanted).collect();
    Some(wanted)
}

fn numbers(words: &str, most: usize) -> Option<Vec<usize>> {
    words.split(',').map(|word| number(word, most)).collect()
}

/// A number from 1 on.
fn number(word: &str, most: usize) -> Option<usize> {
    word.parse().ok().filter(|found| (1..=most).contains(found))
}
