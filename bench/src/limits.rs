//! Each call on tables and lists up to its limit. The numbers of a table that is read are padded, so
//! it is read lax.

use crate::bits::BitByBit;
use crate::programs::{Program, library, rust};
use crate::rows::{Row, START};
use reference::corpus::calls::{
    APA1_READ, APA1_WRITE, APR1_READ, APR1_WRITE, RELLEB_READ, RELLEB_WRITE, RELR_READ, RELR_WRITE,
};
use reference::corpus::case::{Case, FILL};
use reference::corpus::tables::{number, padded, relr_bytes};
use reference::corpus::widest;
use reference::leb::Kind::{self, Signed, Unsigned};
use reloc::{INPUT_LIMIT, LIST_LIMIT};
use std::hint::black_box;
use std::time::Instant;

/// How often a call is made; the best time counts.
const ROUNDS: usize = 5;

/// A row for each call; its sizes are bytes of a table, or records of a list.
pub fn rows() -> Vec<Row> {
    let mut rows = Vec::new();
    for class in [4, 8] {
        rows.push(table("RELR read", class, move |bytes| relr_read(class, bytes)));
        rows.push(table("RELR apply", class, move |bytes| relr_apply(class, bytes)));
        rows.push(list("RELR write", class, move |records| relr_write(class, records)));
    }
    rows.push(table("APR1 read", 0, apr1_read));
    rows.push(list("APR1 write", 0, apr1_write));
    rows.push(table("APA1 read", 0, apa1_read));
    rows.push(list("APA1 write", 0, |records| with_room(widest::list(APA1_WRITE, 0, records))));
    for class in [4, 8] {
        rows.push(table("RELLEB read", class, move |bytes| relleb_read(class, bytes)));
        let widest = move |records| with_room(widest::list(RELLEB_WRITE, class, records));
        rows.push(list("RELLEB write", class, widest));
    }
    rows
}

/// The best times in seconds, of the library and of the Rust program.
pub fn seconds(row: &Row, size: usize) -> [f64; 2] {
    let mut case = (row.case)(size);
    [library, rust::<BitByBit>].map(|program: Program| {
        let times = (0..ROUNDS).map(|_| {
            let begin = Instant::now();
            let answer = black_box(program)(black_box(&mut case));
            let time = begin.elapsed();
            assert!(answer.is_ok(), "{}: {answer:?}", row.name);
            time
        });
        times.min().unwrap().as_secs_f64()
    })
}

fn table(call: &str, class: u32, case: impl Fn(usize) -> Case + 'static) -> Row {
    Row::new(named(call, class), &[INPUT_LIMIT / 4, INPUT_LIMIT], case)
}

fn list(call: &str, class: u32, case: impl Fn(usize) -> Case + 'static) -> Row {
    Row::new(named(call, class), &[LIST_LIMIT / 4, LIST_LIMIT], case)
}

fn named(call: &str, class: u32) -> String {
    if class == 0 { call.into() } else { format!("{call}, class {class}") }
}

/// Addresses of an image of 64 words, again and again.
fn addresses(class: u32, start: u64, bytes: usize) -> Vec<u8> {
    let words = (0..bytes as u64 / class as u64).map(|index| start + index % 64 * class as u64);
    relr_bytes(class, &words.collect::<Vec<_>>())
}

fn relr_read(class: u32, bytes: usize) -> Case {
    Case::read_into(RELR_READ, class, &addresses(class, 0, bytes), bytes / class as usize)
}

fn relr_apply(class: u32, bytes: usize) -> Case {
    let image = vec![FILL; 64 * class as usize];
    Case::apply(class, &addresses(class, START, bytes), 1, START, &image)
}

/// Offsets that fall on no bitmap: a word for each.
fn relr_write(class: u32, records: usize) -> Case {
    let gap = class as u64 + 2;
    let offsets: Vec<u64> = (0..records as u64).map(|index| index * gap).collect();
    with_room(Case::write(RELR_WRITE, class, &offsets, 0))
}

/// Pairs of one offset and 10 bytes.
fn apr1_read(bytes: usize) -> Case {
    let pair = [padded(Unsigned(32), 1, 4), padded(Unsigned(32), 4, 4)].concat();
    let (table, pairs) = repeated(b"APR1", Unsigned(32), &[0], &pair, bytes);
    Case::read_into(APR1_READ, 0, &table, 1 + pairs)
}

/// Gaps 128 and 256 by turns: a pair of three bytes for each.
fn apr1_write(records: usize) -> Case {
    let offset = |index: u64| index * 192 + index % 2 * 64;
    let offsets: Vec<u64> = (0..records as u64).map(offset).collect();
    with_room(Case::write(APR1_WRITE, 0, &offsets, 0))
}

fn apa1_read(bytes: usize) -> Case {
    let record = [padded(Signed(64), 8, 9), padded(Signed(64), -3, 9)].concat();
    let (table, records) = repeated(b"APA1", Signed(64), &[], &record, bytes);
    Case::read_into(APA1_READ, 0, &table, records)
}

fn relleb_read(class: u32, bytes: usize) -> Case {
    let bits = 8 * class;
    let (offset, kind) = (padded(Unsigned(bits), 16, 9), padded(Signed(32), -1, 9));
    let (symbol, addend) = (padded(Signed(33), -4, 9), padded(Signed(bits), -4, 9));
    let record = [offset, kind, symbol, addend].concat();
    let (table, records) = repeated(&[], Unsigned(64), &[], &record, bytes);
    Case::read_into(RELLEB_READ, class, &table, records)
}

/// A table of at most so many bytes, and the records it has: `head`, their count, `first`, and
/// `record` as often as it fits.
fn repeated(
    head: &[u8],
    count: Kind,
    first: &[u8],
    record: &[u8],
    bytes: usize,
) -> (Vec<u8>, usize) {
    let records = (bytes - head.len() - count.most_bytes() - first.len()) / record.len();
    let count = number(count, records as i128);
    ([head, &count, first, &record.repeat(records)].concat(), records)
}

/// The write of a list into exactly the bytes that it needs.
fn with_room(list: Case) -> Case {
    let need = reloc::need(library(&mut list.clone())).expect("a legal list");
    Case { bytes: vec![FILL; need as usize], ..list }
}
