//! Times the heap of this repository, the Rust crate `dary_heap`, std's heap, and heaps of C++ side by
//! side. README.md says how.

mod arguments;
mod counting;
mod foreign;
mod inputs;
mod items;
mod measure;
mod memory;
mod queue;
mod random;
mod rivals;
mod workload;

use items::{Item, Record};
use measure::{header, measure, Figures};
use rivals::Rivals;
use std::env;
use std::process::ExitCode;
use workload::{Kind, Line, Workload};

// Stands before the code of all heaps and moves it: README.md says why.
#[cfg(is_shifted)]
std::arch::global_asm!(
    ".section .text.shift, \"axR\", @progbits",
    ".balign 16",
    ".skip 16",
    ".text"
);

fn main() -> ExitCode {
    let Some(wanted) = arguments::read(env::args().skip(1)) else {
        eprintln!("{}", arguments::USAGE);
        return ExitCode::from(2);
    };
    memory::keep_freed();
    if let Some(heaps) = foreign::left_out() {
        println!("# left out: {heaps}");
    }
    println!("{:16} arity {:>8}  {}", "workload", "items", header());
    let mut status = ExitCode::SUCCESS;
    for line in wanted.lines() {
        if let Err(fault) = print(line, wanted.rounds) {
            let (Workload { name, .. }, arity, items) = line;
            println!("FAULT {name} arity {arity} items {items}: {fault}");
            status = ExitCode::FAILURE;
        }
    }
    status
}

/// Prints a line. Fails if its runs do, or if the comparisons of this heap aren't the crate's.
fn print(line: Line, rounds: usize) -> Result<(), String> {
    let mut figures = measured(line, rounds)?;
    let (workload, arity, items) = line;
    // The time of the set-up, measured beside it, is taken off.
    if let Some(set_up) = workload.set_up() {
        figures.take_off(&measured((set_up, arity, items), rounds)?);
    }
    let (name, cells) = (workload.name, figures.cells());
    println!("{name:16} {arity:>5} {items:>8}  {cells}");
    figures.fault().map_or(Ok(()), Err)
}

fn measured(line: Line, rounds: usize) -> Result<Figures, String> {
    let (Workload { kind, .. }, ..) = line;
    match kind {
        Kind::Numbers => of_items(rivals::of_numbers, line, rounds),
        Kind::Records => of_items(rivals::of_items::<Record>, line, rounds),
    }
}

fn of_items<T: Item>(rivals: Rivals<T>, line: Line, rounds: usize) -> Result<Figures, String> {
    let (Workload { call, .. }, arity, _) = line;
    measure(&rivals(call, arity), &inputs::tasks(line), rounds)
}
