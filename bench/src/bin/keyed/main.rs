//! Times heaps whose items have keys side by side: the `IndexedHeap` of this repository, boost's, a `BTreeSet`, and a
//! `DaryHeap` with stale entries. And those whose items have names: the `NamedHeap`, and two with a map. README.md of the
//! bench says how.

#[path = "../../memory.rs"]
mod memory;
mod pairs;
#[cfg(all(target_os = "linux", target_env = "gnu"))]
mod peak;
#[cfg(not(all(target_os = "linux", target_env = "gnu")))]
mod peak {
    /// Memory is measured over glibc alone.
    pub fn of(_run: impl FnOnce()) -> Option<isize> {
        None
    }
}
#[path = "../../random.rs"]
mod random;
mod rivals;
mod table;
mod workload;

use rivals::{rivals, run, Heap, Rival};
use std::env;
use std::process::ExitCode;
use std::time::{Duration, Instant};
use table::Times;
use workload::{Call, Task, Workload, WORKLOADS};

const USAGE: &str = "usage: keyed [SIZE..] [WORKLOAD..] [counts|names]
With counts it counts in searches in place of timing. With names it times heaps whose items have names.";

/// For how long a row is measured at least, if its runs are short.
const AT_LEAST: Duration = Duration::from_millis(300);
/// After how long a row has no further round, if it has had `FEWEST`.
const ENOUGH: Duration = Duration::from_secs(3);
const FEWEST: usize = 2;
const MOST: usize = 9;

/// What the user asks for: the numbers of keys, the workloads, and whether to count, or to time heaps by name.
#[derive(Default)]
struct Wanted {
    sizes: Vec<usize>,
    names: Vec<&'static str>,
    counts: bool,
    by_name: bool,
}

impl Wanted {
    /// Reads the arguments. None if there is a word that says nothing.
    fn read(words: impl Iterator<Item = String>) -> Option<Wanted> {
        let mut wanted = Wanted::default();
        for word in words {
            let named = WORKLOADS.iter().find(|known| known.name == word);
            match word.parse() {
                Ok(size) if size > 0 => wanted.sizes.push(size),
                _ if word == "counts" => wanted.counts = true,
                _ if word == "names" => wanted.by_name = true,
                _ => wanted.names.push(named?.name),
            }
        }
        Some(wanted)
    }

    fn has(&self, workload: &Workload) -> bool {
        let is_named = self.names.is_empty() || self.names.contains(&workload.name);
        let is_search = workload.call == Call::Search;
        is_named && (is_search || !self.counts) && !(is_search && self.by_name)
    }

    /// The workloads with their numbers of keys.
    fn rows(&self) -> impl Iterator<Item = (Workload, usize)> + '_ {
        let workloads = WORKLOADS.into_iter().filter(|known| self.has(known));
        workloads.flat_map(|workload| {
            let asked = Some(&self.sizes[..]).filter(|sizes| !sizes.is_empty());
            let sizes = asked.unwrap_or(workload.sizes);
            sizes.iter().map(move |keys| (workload, *keys))
        })
    }
}

fn main() -> ExitCode {
    let Some(wanted) = Wanted::read(env::args().skip(1)) else {
        eprintln!("{USAGE}");
        return ExitCode::from(2);
    };
    memory::keep_freed();
    if !Heap::Boost.is_there() {
        println!("left out: boost's heap\n");
    }
    if wanted.counts {
        println!("{}", table::COUNTS_HEADER);
        for (workload, keys) in wanted.rows() {
            let task = (workload.task)(&mut random::Random::new(0), keys);
            println!("{}", table::counts_row(workload.name, keys, &task));
        }
        return ExitCode::SUCCESS;
    }
    println!("{}", table::header(wanted.by_name));
    let mut status = ExitCode::SUCCESS;
    for (workload, keys) in wanted.rows() {
        match measured(&workload, keys, wanted.by_name) {
            Ok(times) => {
                let row = table::row(workload.name, keys, &times, wanted.by_name);
                println!("{row}");
            }
            Err(fault) => {
                println!("FAULT {} {keys}: {fault}", workload.name);
                status = ExitCode::FAILURE;
            }
        }
    }
    status
}

/// The nanoseconds of each rival. From pops the time of the pushes is taken off, from searches that of the graph.
fn measured(workload: &Workload, keys: usize, by_name: bool) -> Result<Times, String> {
    let tasks = workload.tasks(keys);
    let mut times = times(workload.call, &tasks, by_name)?;
    let set_up = match workload.call {
        Call::Pop => Some((Call::Push, tasks.clone())),
        Call::Search => Some((Call::Search, tasks.iter().map(Task::without_goal).collect())),
        _ => None,
    };
    if let Some((call, tasks)) = set_up {
        let pairs = times.into_iter().zip(self::times(call, &tasks, by_name)?);
        let rests = pairs.map(|((rival, time), (_, less))| (rival, rest(time, less)));
        times = rests
            .filter_map(|(rival, time)| Some((rival, time?)))
            .collect();
    }
    let count: usize = tasks.iter().map(|task| task.count).sum();
    let each = |(rival, time): (Rival, Duration)| (rival, time.as_nanos() as f64 / count as f64);
    Ok(times.into_iter().map(each).collect())
}

/// What is left of a time, if it is enough to be told from what is taken off.
fn rest(time: Duration, less: Duration) -> Option<Duration> {
    let rest = time.checked_sub(less)?;
    (rest > less / 20).then_some(rest)
}

/// The least time of each rival over all inputs. In a round each makes one run, and each round begins with another of
/// them.
fn times(call: Call, tasks: &[Task], by_name: bool) -> Result<Vec<(Rival, Duration)>, String> {
    let wanted: Vec<_> = tasks.iter().map(|task| wanted(call, task)).collect();
    let rivals = rivals(call, by_name).into_iter();
    let there = rivals.filter(|(heap, _)| heap.is_there());
    let mut times: Vec<_> = there.map(|rival| (rival, Duration::MAX)).collect();
    let begun = Instant::now();
    let mut round = 0;
    while is_due(round, begun.elapsed()) {
        times.rotate_left(1);
        for (rival, least) in &mut times {
            *least = time(*rival, call, tasks, &wanted)?.min(*least);
        }
        round += 1;
    }
    let left = round % times.len();
    times.rotate_right(left);
    Ok(times)
}

/// Whether another round is made after so many.
fn is_due(made: usize, elapsed: Duration) -> bool {
    made < FEWEST || elapsed < AT_LEAST || (made < MOST && elapsed < ENOUGH)
}

/// What the set, which refuses nothing, writes.
fn wanted(call: Call, task: &Task) -> Vec<u64> {
    let mut out = vec![0; task.room];
    pairs::work(call, task, &mut out);
    out
}

/// The time of one run through all inputs.
fn time(rival: Rival, call: Call, tasks: &[Task], wanted: &[Vec<u64>]) -> Result<Duration, String> {
    let mut time = Duration::ZERO;
    let mut out = vec![0; tasks[0].room];
    for (task, wanted) in tasks.iter().zip(wanted) {
        out.fill(0);
        let name = || table::name(rival);
        time += run(rival, call, task, &mut out).ok_or_else(|| format!("{} refused", name()))?;
        if out != *wanted {
            return Err(format!("{} has another output than the set", name()));
        }
    }
    Ok(time)
}
