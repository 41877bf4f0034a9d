//! Compares every call of the library with the reference on random cases for a
//! bounded time: `differential [--seconds N] [--seed S]`. The cases follow from
//! the seed, which is printed first. A table of APA1 or RELLEB that is accepted
//! strictly is written again, which must give the same bytes. At its end it prints
//! how many of each call, byte order and setting ended in each number, how many had
//! a damaged table of the library's writers, how many tables were written again that
//! were made at random and how many that the writers had made, and how many cases
//! there were.

use differential::damage::DAMAGES;
use differential::generate::{self, Made};
use differential::{Run, by_library, by_reference};
use reference::corpus::again::{AGAIN, again, kind};
use reference::corpus::calls::{CALLS, NUMBERS};
use reference::corpus::case::Case;
use reference::corpus::rng::Rng;
use reference::corpus::twin::ending;
use std::process::ExitCode;
use std::time::{Duration, Instant, SystemTime, UNIX_EPOCH};

fn main() -> ExitCode {
    let Some((seconds, seed)) = arguments() else {
        eprintln!("usage: differential [--seconds N] [--seed S]");
        return ExitCode::from(2);
    };
    println!("seed {seed}");
    let end = Instant::now() + Duration::from_secs(seconds);
    let mut rng = Rng::new(seed);
    let mut seen = vec![[[0u64; NUMBERS]; 2]; CALLS.len()];
    let mut damaged = [0u64; DAMAGES.len()];
    let mut rewritten = [[0u64; 2]; AGAIN.len()];
    let mut cases = 0u64;
    while Instant::now() < end {
        let Made { case, written, damage } = generate::case(&mut rng);
        let Some(run) = compared(&case) else {
            println!("in case {cases}");
            return ExitCode::FAILURE;
        };
        let number = run.result.err().map_or(0, |refusal| refusal.number);
        seen[case.call as usize][case.is_twin() as usize][number as usize] += 1;
        if let Some(damage) = damage {
            damaged[damage as usize] += 1;
        }
        if let (Some(kind), Some(write)) = (kind(&case), again(&case)) {
            if compared(&write).is_none_or(|run| run.after.bytes != case.input) {
                println!("another table than in case {cases}: {case:02x?}");
                return ExitCode::FAILURE;
            }
            rewritten[kind][written as usize] += 1;
        }
        cases += 1;
    }
    print_seen(&seen);
    let damaged = DAMAGES.iter().zip(damaged).map(|((_, name), count)| format!("{name} {count}"));
    println!("writers' tables damaged: {}", damaged.collect::<Vec<_>>().join(", "));
    let rewritten = AGAIN.iter().zip(rewritten).map(|((_, _, name), [made, written])| {
        format!("{name} {made} made at random, {written} of the writers'")
    });
    println!("strict tables written again: {}", rewritten.collect::<Vec<_>>().join("; "));
    println!("{cases} cases, no difference");
    ExitCode::SUCCESS
}

/// What both do with a case. Where they differ it is printed, and nothing is given.
fn compared(case: &Case) -> Option<Run> {
    let (want, got) = (by_reference(case), by_library(case));
    if want == got {
        return Some(got);
    }
    println!("difference, {}: {case:02x?}", case.call().name);
    for (name, run) in [("reference", want), ("library", got)] {
        println!("{name}: {:?}, kept inside the buffers: {}", run.result, run.inside);
        println!("{name} leaves {:02x?}", run.after);
    }
    None
}

/// How many cases of each call ended in each number, and of its twins.
fn print_seen(seen: &[[[u64; NUMBERS]; 2]]) {
    for (call, [firsts, twins]) in CALLS.iter().zip(seen) {
        print_row(call.name, firsts);
        if let Some(ending) = ending(call) {
            print_row(&format!("{}{ending}", call.name), twins);
        }
    }
}

fn print_row(name: &str, row: &[u64; NUMBERS]) {
    print!("{name}:");
    for (number, count) in row.iter().enumerate().filter(|(_, count)| **count > 0) {
        print!(" {number}x{count}");
    }
    println!();
}

/// Seconds and seed: 20 and the time, where not given.
fn arguments() -> Option<(u64, u64)> {
    let now = SystemTime::now().duration_since(UNIX_EPOCH).ok()?;
    let (mut seconds, mut seed) = (20, now.as_nanos() as u64);
    let mut arguments = std::env::args().skip(1);
    while let Some(name) = arguments.next() {
        let value = arguments.next()?.parse().ok()?;
        match name.as_str() {
            "--seconds" => seconds = value,
            "--seed" => seed = value,
            _ => return None,
        }
    }
    Some((seconds, seed))
}
