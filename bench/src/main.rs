//! Measures every row and prints the figures as Markdown.

use bench::limits;
use bench::measure::{Figures, measured};
use bench::programs::WAYS;
use bench::rows::{self, SIZES};
use bench::setting::Setting;

/// The size of the first table; a row of one size has that.
const FIRST: usize = 1_000_000;

/// A row's name, and what was measured at each of its sizes.
type Result = (String, Vec<Figures>);

/// Measures the rows whose names contain the argument, or all.
fn main() {
    let part = std::env::args().nth(1).unwrap_or_default();
    let mut results = Vec::new();
    for row in rows::all().into_iter().filter(|row| row.name.contains(&part)) {
        eprintln!("{}", row.name);
        let sizes = row.sizes.iter().map(|records| measured(&row, *records)).collect();
        results.push((row.name, sizes));
    }
    print_ratios(&results);
    println!();
    print_growth(&results);
    println!();
    print_limits(&part);
    for setting in Setting::ALL {
        println!();
        print_settings(&results, setting);
    }
}

/// What was measured at a size, if the row has it.
fn at(sizes: &[Figures], records: usize) -> Option<&Figures> {
    sizes.iter().find(|figures| figures.records == records)
}

/// The first table: the library's time and its ratios to the other programs.
fn print_ratios(results: &[Result]) {
    println!("{FIRST} records, but for ten offsets:");
    println!("the library's best time, and its time over the others'.\n");
    println!("| row | ns per record | over Rust, best | median | over C, best | median |");
    println!("|---|--:|--:|--:|--:|--:|");
    for (name, sizes) in results {
        let times = &at(sizes, FIRST).unwrap_or(&sizes[0]).programs;
        for (way, others) in WAYS.iter().zip(times[1..].chunks(2)) {
            let ours = &times[0];
            let way = if times.len() > 3 { format!(", {way}") } else { String::new() };
            print!("| {name}{way} | {:.2} |", ours.best);
            for other in others {
                print!(" {:.2} | {:.2} |", ours.best / other.best, ours.median / other.median);
            }
            println!("{}", if others.len() < 2 { " | |" } else { "" });
        }
    }
}

/// The second table: the library's time per record at each size that a row has.
fn print_growth(results: &[Result]) {
    println!("The library's best time in ns per record, by the number of records.\n");
    println!("| row | {} | last over first |", SIZES.map(|size| size.to_string()).join(" | "));
    println!("|---|{}", "--:|".repeat(SIZES.len() + 1));
    for (name, sizes) in results.iter().filter(|(_, sizes)| sizes.len() > 1) {
        let best = |figures: &Figures| figures.programs[0].best;
        let cell = |figures| format!("{:.2}", best(figures));
        let cells = SIZES.map(|records| at(sizes, records).map(cell).unwrap_or_default());
        let growth = best(&sizes[sizes.len() - 1]) / best(&sizes[0]);
        println!("| {name} | {} | {growth:.2} |", cells.join(" | "));
    }
}

/// The third table: the library's time at a quarter of each call's limit and at the limit, and by
/// how much it grows, as the Rust program's does.
fn print_limits(part: &str) {
    println!("The library's best time in seconds at a quarter of the limit and at the limit, and");
    println!("how often the one is in the other, for the library and for Rust.\n");
    println!("| call | a quarter | the limit | times | Rust, times |");
    println!("|---|--:|--:|--:|--:|");
    for row in limits::rows().into_iter().filter(|row| row.name.contains(part)) {
        eprintln!("{}, at the limit", row.name);
        let [ours, rust] = limits::seconds(&row, row.sizes[0]);
        let [at_limit, rust_at_limit] = limits::seconds(&row, row.sizes[1]);
        print!("| {} | {ours:.4} | {at_limit:.4} ", row.name);
        println!("| {:.2} | {:.2} |", at_limit / ours, rust_at_limit / rust);
    }
}

/// A table for each setting: the library's time with it on over its time with it off.
fn print_settings(results: &[Result], setting: Setting) {
    let [off, on] = setting.names();
    println!("The library's best time in ns per record, {off} and {on} by turns on the same");
    println!("buffers, and the second over the first.\n");
    println!("| row | records | {off} | {on} | ratio, best | median |");
    println!("|---|--:|--:|--:|--:|--:|");
    for (name, sizes) in results {
        for figures in sizes {
            let times = figures.settings.filter(|(which, _)| *which == setting);
            let Some((_, [off, on])) = times else { continue };
            print!("| {name} | {} | {:.2} | {:.2} ", figures.records, off.best, on.best);
            println!("| {:.2} | {:.2} |", on.best / off.best, on.median / off.median);
        }
    }
}
