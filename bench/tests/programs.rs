//! The Rust program on the reference's corpus, and every program on the rows.

use bench::bits::{BestSteps, BitByBit, TrailingZeros};
use bench::measure::checked;
use bench::programs::{Program, reference, rust};
use bench::{limits, rows};
use reference::corpus::calls::{APA1_READ, APR1_READ, RELLEB_READ};
use reference::corpus::{all, long};
use std::collections::BTreeSet;

/// The Rust program, in all its ways through bitmaps, answers and leaves every case as the
/// reference does. The corpus has each case of RELR in both byte orders, and strict cases of each
/// LEB128 reader that are refused for it.
#[test]
fn rust_on_the_corpus() {
    let mut refused = BTreeSet::new();
    for named in all().into_iter().chain(long::cases()) {
        let mut want = named.case.clone();
        let answer = reference(&mut want);
        refused.extend(answer.err().map(|refusal| (named.case.call, refusal.number)));
        for program in [rust::<BitByBit>, rust::<TrailingZeros>, rust::<BestSteps>] as [Program; 3]
        {
            let mut got = named.case.clone();
            assert_eq!(program(&mut got), answer, "{}", named.name);
            assert!(got == want, "{}: buffers differ", named.name);
        }
    }
    for strict in [(APR1_READ, 18), (APA1_READ, 18), (RELLEB_READ, 18), (RELLEB_READ, 19)] {
        assert!(refused.contains(&strict), "no case of {strict:?}");
    }
}

/// All programs do as the reference does, in both settings, also on the shortest lists.
#[test]
fn all_on_the_rows() {
    for row in rows::all() {
        for records in [1, 2, 1_000] {
            checked(&row, records);
        }
    }
}

/// And on tables and lists such as are measured at the limits.
#[test]
fn all_below_the_limits() {
    for row in limits::rows() {
        for size in [64, 1_000] {
            checked(&row, size);
        }
    }
}
