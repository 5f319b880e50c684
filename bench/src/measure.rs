//! Times the rivals by turns, and compares what they wrote.

use crate::rivals::{Rival, BOOST, CPP, CRATE, HERE, RATTLE_STD, STD};
use crate::workload::Task;
use std::time::{Duration, Instant};

/// For how long a line is measured at least, if its runs are short.
const AT_LEAST: Duration = Duration::from_millis(300);
/// After how long a line has no further round, if it has had `FEWEST`.
const ENOUGH: Duration = Duration::from_secs(6);
const FEWEST: usize = 2;

/// Less than this part of the time of a set-up can't be told from it.
const TOLD: u32 = 20;

/// The least time of a rival and its comparisons, over all inputs of a line.
struct Figure {
    name: &'static str,
    /// How many items it went over.
    items: usize,
    /// None if too little is left of it when the set-up is taken off.
    time: Option<Duration>,
    comparisons: Option<u64>,
}

/// The figures of the rivals of a line.
pub struct Figures {
    of: Vec<Figure>,
}

/// Those whose times this heap's is divided by, those whose times are printed, and those whose
/// comparisons are.
const DIVISORS: [&str; 5] = [CRATE, RATTLE_STD, STD, CPP, BOOST];
const TIMED: [&str; 6] = [HERE, CRATE, RATTLE_STD, STD, CPP, BOOST];
const COUNTED: [&str; 3] = [HERE, CRATE, STD];

/// The columns of a line, each cell made of the name of a rival.
fn columns(
    over: impl Fn(&str) -> String,
    time: impl Fn(&str) -> String,
    comparisons: impl Fn(&str) -> String,
) -> String {
    let over = DIVISORS.map(|name| format!("{:>15}", over(name)));
    let times = TIMED.map(|name| format!("{:>13}", time(name)));
    let comparisons = COUNTED.map(|name| format!("{:>17}", comparisons(name)));
    [over.join(" "), times.join(" "), comparisons.join(" ")].join("  ")
}

/// The heads of the columns of `Figures`.
pub fn header() -> String {
    columns(
        |name| format!("over_{name}"),
        |name| format!("{name}_ns"),
        |name| format!("{name}_comparisons"),
    )
}

/// A number, or a dash if it isn't there.
fn cell(digits: usize, number: Option<f64>) -> String {
    number.map_or("-".into(), |number| format!("{number:.digits$}"))
}

impl Figures {
    /// Ratios of times, nanoseconds an item, and comparisons an item.
    pub fn cells(&self) -> String {
        columns(
            |name| cell(3, self.over(name)),
            |name| cell(2, self.nanoseconds(name)),
            |name| cell(3, self.comparisons(name)),
        )
    }

    fn figure(&self, name: &str) -> Option<&Figure> {
        self.of.iter().find(|figure| figure.name == name)
    }

    fn nanoseconds(&self, name: &str) -> Option<f64> {
        let figure = self.figure(name)?;
        Some(figure.time?.as_nanos() as f64 / figure.items as f64)
    }

    /// The time of this heap over that of another.
    fn over(&self, name: &str) -> Option<f64> {
        Some(self.nanoseconds(HERE)? / self.nanoseconds(name)?)
    }

    fn comparisons(&self, name: &str) -> Option<f64> {
        let figure = self.figure(name)?;
        Some(figure.comparisons? as f64 / figure.items as f64)
    }

    /// Takes the time of a set-up off.
    pub fn take_off(&mut self, set_up: &Figures) {
        for figure in &mut self.of {
            let less = set_up.figure(figure.name).and_then(|set_up| set_up.time);
            figure.time = figure.time.and_then(|time| rest(time, less?));
        }
    }

    /// Says it if the comparisons aren't those of the crate.
    pub fn fault(&self) -> Option<String> {
        let here = self.figure(HERE)?.comparisons?;
        let of_crate = self.figure(CRATE)?.comparisons?;
        (here != of_crate).then(|| format!("here {here} comparisons, the crate {of_crate}"))
    }
}

/// What is left of a time, if it is enough to be told.
fn rest(time: Duration, less: Duration) -> Option<Duration> {
    let rest = time.checked_sub(less)?;
    (rest > less / TOLD).then_some(rest)
}

/// Measures in so many rounds, in each of which each rival makes one run; in more if they are short, and
/// in fewer if they are long. A fault says what was refused or is another output.
pub fn measure<T, M: Copy + Default + Ord>(
    rivals: &[Rival<T, M>],
    tasks: &[Task<T>],
    rounds: usize,
) -> Result<Figures, String> {
    let figures = rivals.iter().map(|rival| counted(rival, tasks));
    let mut of = figures.collect::<Result<Vec<_>, _>>()?;
    let wanted = wanted(rivals, tasks);
    let begun = Instant::now();
    let mut round = 0;
    while is_due(round, rounds, begun.elapsed()) {
        // Another one begins in the next round.
        for turn in 0..rivals.len() {
            let who = (round + turn) % rivals.len();
            let time = run(&rivals[who], tasks, &wanted)?;
            of[who].time = Some(of[who].time.map_or(time, |least| least.min(time)));
        }
        round += 1;
    }
    Ok(Figures { of })
}

/// Whether another round is made after so many.
fn is_due(made: usize, rounds: usize, elapsed: Duration) -> bool {
    made < rounds.min(FEWEST) || elapsed < AT_LEAST || (made < rounds && elapsed < ENOUGH)
}

/// What the crate's heap, which refuses nothing, writes of each input.
fn wanted<T, M: Copy + Default>(rivals: &[Rival<T, M>], tasks: &[Task<T>]) -> Vec<Vec<M>> {
    let of_the_crate = rivals.iter().find(|rival| rival.name == CRATE);
    let run = |task: &Task<T>| {
        let mut out = vec![M::default(); task.items.len()];
        let written = of_the_crate.and_then(|rival| (rival.run)(task, &mut out));
        out.truncate(written.unwrap_or(0) as usize);
        out
    };
    tasks.iter().map(run).collect()
}

/// The figure of a rival with its comparisons, before any run.
fn counted<T, M: Copy + Default>(rival: &Rival<T, M>, tasks: &[Task<T>]) -> Result<Figure, String> {
    let name = rival.name;
    let of = |task: &Task<T>| if rival.lends { task.lent } else { task.count };
    let items = tasks.iter().map(of).sum();
    let mut comparisons = None;
    if let Some(count) = &rival.count {
        let made = |task: &Task<T>| count(task, &mut vec![M::default(); task.items.len()]);
        let sum: Option<u64> = tasks.iter().map(made).sum();
        comparisons = Some(sum.ok_or_else(|| format!("{name} refused to count"))?);
    }
    Ok(Figure {
        name,
        items,
        time: None,
        comparisons,
    })
}

/// The time of one run through all inputs.
fn run<T, M: Copy + Default + Ord>(
    rival: &Rival<T, M>,
    tasks: &[Task<T>],
    wanted: &[Vec<M>],
) -> Result<Duration, String> {
    let longest = tasks.iter().map(|task| task.items.len()).max();
    let mut room = vec![M::default(); longest.unwrap_or(0)];
    let mut time = Duration::ZERO;
    for (task, wanted) in tasks.iter().zip(wanted) {
        let out = &mut room[..task.items.len()];
        out.fill(M::default());
        let begun = Instant::now();
        let written = (rival.run)(task, out);
        time += begun.elapsed();
        let written = written.ok_or_else(|| format!("{} refused", rival.name))?;
        let written = &out[..out.len().min(written as usize)];
        if written != wanted && (rival.is_equal || sorted(written) != sorted(wanted)) {
            return Err(format!("{} has another output than the crate", rival.name));
        }
    }
    Ok(time)
}

fn sorted<T: Copy + Ord>(items: &[T]) -> Vec<T> {
    let mut items = items.to_vec();
    items.sort_unstable();
    items
}
