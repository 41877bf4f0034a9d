//! The reference's corpus, and whether the random cases meet every refusal and
//! edge.

use differential::generate::{self, Made};
use differential::{by_library, by_reference};
use reference::corpus::again::{AGAIN, again, kind};
use reference::corpus::calls::{
    APA1_READ, APR1_READ, CALLS, Call, RELLEB_READ, RELR_APPLY, RELR_READ, Setting,
};
use reference::corpus::case::Case;
use reference::corpus::rng::Rng;
use reference::corpus::tables::relr_bytes;
use reference::corpus::twin::{ending, twin};
use reference::corpus::{all, long};
use reloc::{Kind, Refusal};
use std::collections::HashSet;

#[test]
fn corpus() {
    for named in all().into_iter().chain(long::cases()) {
        assert!(by_library(&named.case) == by_reference(&named.case), "{}", named.name);
    }
}

#[test]
fn every_refusal_has_a_name() {
    for number in CALLS.iter().flat_map(|call| call.refusals) {
        let refusal = Refusal { number: *number, place: 0, need: 0 };
        assert!(refusal.kind() != Kind::Unknown, "{number} has no name in the wrapper");
    }
}

/// All but 2, which needs the lengths of the long cases; of the twins too where a
/// call has them, in the other byte order or strict.
#[test]
fn every_refusal_is_met() {
    let mut rng = Rng::new(1);
    let mut seen = HashSet::new();
    for _ in 0..20_000 {
        let case = generate::case(&mut rng).case;
        seen.insert((case.call().name, case.is_twin(), case.run().0.number));
    }
    for call in CALLS {
        for twin in [false, ending(call).is_some()] {
            let strict = twin && call.takes(Setting::Strict);
            for number in call.refusals.iter().filter(|n| **n != 2 && call.allows(strict, **n)) {
                let met = seen.contains(&(call.name, twin, *number));
                assert!(met, "{} never met {number}, twin {twin}", call.name);
            }
        }
    }
}

/// 18, and 19 of RELLEB, come where lax reading accepts, and before each refusal
/// that it has further on.
#[test]
fn every_answer_gives_way() {
    let mut rng = Rng::new(1);
    let mut seen = HashSet::new();
    for _ in 0..20_000 {
        let case = generate::case(&mut rng).case;
        if case.strict {
            let lax = Case { strict: false, ..case.clone() };
            seen.insert((case.call, case.run().0.number, lax.run().0.number));
        }
    }
    let given: [(u8, u32, &[u32]); 4] = [
        (APR1_READ, 18, &[0, 4, 5, 7, 8, 9]),
        (APA1_READ, 18, &[0, 4, 5, 8, 9]),
        (RELLEB_READ, 18, &[0, 4, 5, 8, 9]),
        (RELLEB_READ, 19, &[0, 4, 5, 8, 9]),
    ];
    for (call, number, ways) in given {
        for lax in ways {
            let met = seen.contains(&(call, number, *lax));
            assert!(met, "{} never {number} for {lax}", Call::of(call).name);
        }
    }
}

/// Tables that are accepted strictly are made at random, not only by the writers: of
/// each kind that has one table for a list, and with several records.
#[test]
fn strict_tables_are_made() {
    let mut rng = Rng::new(1);
    let mut made = [0; AGAIN.len()];
    for _ in 0..20_000 {
        let Made { case, written, .. } = generate::case(&mut rng);
        if let (Some(kind), Some(write)) = (kind(&case), again(&case))
            && !written
            && write.offsets.len() > 2
        {
            made[kind] += 1;
        }
    }
    assert!(made.iter().all(|count| *count > 20), "{made:?}");
}

/// The kinds that have several tables for a list: a run of APR1 can be split, and an
/// empty bitmap added to RELR.
#[test]
fn two_tables_of_one_list() {
    let runs = [&b"APR1\x01\0\x02\x04"[..], b"APR1\x02\0\x01\x04\x01\x04"];
    let apr1 = runs.map(|table| Case { strict: true, ..Case::read_into(APR1_READ, 0, table, 3) });
    let mut pairs = vec![apr1];
    for class in [4, 8] {
        let words = [&[0x1000][..], &[0x1000, 1]].map(|words| relr_bytes(class, words));
        let little = words.map(|table| Case::read_into(RELR_READ, class, &table, 1));
        let big = little.clone().map(|case| twin(&case).expect("a big-endian twin"));
        pairs.extend([little, big]);
    }
    for pair in pairs {
        assert!(pair[0].input != pair[1].input);
        let [first, second] = pair.map(|case| {
            let run = by_library(&case);
            assert!(run == by_reference(&case) && run.result.is_ok(), "{case:02x?}");
            run
        });
        assert_eq!(first.result, second.result);
        assert_eq!(first.after.offsets, second.after.offsets);
    }
}

/// Fourteen edges: ten of RELR, in both byte orders; one of APR1, in both settings;
/// three of strictness.
#[test]
fn every_edge_is_met() {
    let mut rng = Rng::new(1);
    let mut met = HashSet::new();
    for _ in 0..100_000 {
        let case = generate::case(&mut rng).case;
        let edges = [edge(&case), edge_of_a_start(&case), edge_of_strictness(&case)];
        met.extend(edges.into_iter().flatten().map(|edge| (edge, case.is_twin())));
    }
    assert_eq!(met.len(), 25, "{met:?}");
}

/// The edge of a strict case, if any.
fn edge_of_strictness(case: &Case) -> Option<&'static str> {
    let lax = Case { strict: false, ..case.clone() }.run().0;
    let strict = case.run().0;
    match (case.call, strict.number) {
        _ if !case.strict => None,
        (APR1_READ, 18) if lax.number == 7 && strict.place > lax.place => Some("D before 7 of C"),
        (APA1_READ, 5) if strict.place == 4 && case.input[4] >= 0x80 => Some("negative count"),
        (RELLEB_READ, 19) if strict.place > 20 => Some("zero difference later"),
        _ => None,
    }
}

/// The edge that the start of a case's image meets, if any.
fn edge_of_a_start(case: &Case) -> Option<&'static str> {
    let answer = case.run().0;
    let from = |start| Case { start, ..case.clone() }.run().0.number;
    let end = case.start as u128 + case.bytes.len() as u128;
    match (case.start, answer.number) {
        _ if case.call != RELR_APPLY => None,
        (_, 0) if end > 1 << 64 && answer.count > 0 => Some("image past 2^64"),
        (0x8000_0000_0000_0000.., 0) if answer.count == 0 => Some("high start, no offset"),
        (u64::MAX, _) => None,
        (1.., 0) if from(case.start + 1) == 12 => Some("highest start"),
        (1.., 12) if answer.place > 0 && from(case.start - 1) == 0 => Some("start one too high"),
        (1.., 12) if answer.place == 0 && from(case.start - 1) == 0 => Some("first one below"),
        _ => None,
    }
}

/// The edge that a case meets, if any.
fn edge(case: &Case) -> Option<&'static str> {
    let (answer, after) = case.run();
    let has = |offset| after.offsets.contains(&offset);
    let image = |length| Case { bytes: vec![0; length], ..case.clone() }.run().0.number;
    let length = case.bytes.len();
    match (case.call, case.class, answer.number) {
        (RELR_READ, 17.., 1) => Some("any class"),
        (RELR_READ, 4, 0) if has(0xFFFF_FFFC) => Some("largest offset, RELR class 4"),
        (RELR_READ, 8, 0) if has(0xFFFF_FFFF_FFFF_FFF8) => Some("largest offset, RELR class 8"),
        (APR1_READ, _, 0) if has(0xFFFF_FFFC) => Some("largest offset, APR1"),
        (RELR_APPLY, _, 0) if length > 0 && image(length - 1) == 12 => Some("exact image"),
        (RELR_APPLY, _, 12) if image(length + 1) == 0 => Some("image a byte short"),
        _ => None,
    }
}
