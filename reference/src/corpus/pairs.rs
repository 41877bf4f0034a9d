//! The Markdown table of calls and refusal numbers.

use super::calls::{CALLS, Call, NUMBERS};
use super::twin::ending;
use super::{Named, all, hand, long};

/// How many cases of each call end in each number: lax ones, then strict ones.
pub type Counts = [[usize; NUMBERS]; 2];

/// The counts of each call.
pub fn counts(cases: impl IntoIterator<Item = Named>) -> Vec<Counts> {
    let mut counts = vec![[[0; NUMBERS]; 2]; CALLS.len()];
    for Named { case, .. } in cases {
        let (answer, _) = case.run();
        counts[case.call as usize][case.strict as usize][answer.number as usize] += 1;
    }
    counts
}

/// The tables of all cases, of the hand-made and of the long ones, each under
/// its heading.
pub fn markdown() -> String {
    let mut text = String::from("# The corpus\n\nCases per call and number of the answer. ");
    text += "A dot stands where documents 01 and 02 allow the call no such refusal. Each RELR ";
    text += "case stands in both byte orders, and each read of LEB128 numbers in both settings, ";
    text += "lax and strict. The reference prints this page; `reference/FORMAT.md` tells the ";
    text += "files.\n";
    for (heading, counts) in [
        ("Hand-made, swept and generated cases", counts(all())),
        ("Of these hand-made, each with its answer worked out", counts(hand::cases())),
        ("Long cases: at a limit of length, and one over it", counts(long::cases())),
    ] {
        text += &format!("\n## {heading}\n\n{}", table(CALLS, &counts));
    }
    text
}

/// One row per call, and one for its strict cases if it takes that setting; one
/// column per number up to the highest that any call is allowed.
pub fn table(calls: &[Call], counts: &[Counts]) -> String {
    let columns = 1 + calls.iter().flat_map(|call| call.refusals).max().map_or(0, |n| *n as usize);
    let mut text = String::from("| call |");
    for number in 0..columns {
        text += &format!(" {number} |");
    }
    text += " all |\n|---|";
    text += &"---:|".repeat(columns + 1);
    text += "\n";
    for (call, counts) in calls.iter().zip(counts) {
        for &strict in call.strictness() {
            text += &row(call, strict, columns, &counts[strict as usize]);
        }
    }
    text
}

/// The counts of a call that is told so.
fn row(call: &Call, strict: bool, columns: usize, counts: &[usize; NUMBERS]) -> String {
    let ending = ending(call).filter(|_| strict).unwrap_or_default();
    let mut text = format!("| {}{ending} |", call.name);
    for (number, count) in counts[..columns].iter().enumerate() {
        text += &format!(" {} |", cell(call, strict, number as u32, *count));
    }
    text + &format!(" {} |\n", counts.iter().sum::<usize>())
}

fn cell(call: &Call, strict: bool, number: u32, count: usize) -> String {
    if count == 0 && number != 0 && !call.allows(strict, number) {
        return String::from("·");
    }
    count.to_string()
}
