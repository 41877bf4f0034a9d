//! Tables and lists at their limits and one over, against the reference.
//! limits.sh runs them one at a time, in 8 GiB of memory.

use differential::{Run, by_library, by_reference};
use reference::corpus::again::{AGAIN, again};
use reference::corpus::calls::{
    APA1_READ, APA1_WRITE, APR1_READ, APR1_WRITE, RELLEB_READ, RELLEB_WRITE, RELR_READ, RELR_WRITE,
    Setting,
};
use reference::corpus::case::{Case, FILL};
use reference::corpus::tables::{number, padded, relr_bytes, turned};
use reference::corpus::twin::table_twin;
use reference::corpus::widest;
use reference::leb::Kind::{self, Signed, Unsigned};
use reloc::{INPUT_LIMIT, LIST_LIMIT, Refusal};

const LIMIT: Result<usize, Refusal> = Err(Refusal { number: 2, place: 0, need: 0 });

fn refused(number: u32, place: usize) -> Result<usize, Refusal> {
    Err(Refusal { number, place: place as u64, need: 0 })
}

fn needs(need: usize) -> Result<usize, Refusal> {
    Err(Refusal { number: 9, place: 0, need: need as u64 })
}

/// What a message tells of a case.
fn name(case: &Case) -> String {
    let Case { class, big, strict, .. } = case;
    format!("{} class {class} big-endian {big} strict {strict}", case.call().name)
}

/// The library answers so, and does as the reference does; also with the case's
/// big-endian twin. An image here has equal bytes, the same in both orders.
fn check(case: &Case, answer: Result<usize, Refusal>) {
    check_one(case, answer);
    if case.call().takes(Setting::Order) {
        check_twin(case, answer);
    }
}

/// The case's twin alone, big-endian or strict, if it has one.
fn check_twin(case: &Case, answer: Result<usize, Refusal>) {
    if let Some(twin) = table_twin(case) {
        check_one(&twin, answer);
    }
}

fn check_one(case: &Case, answer: Result<usize, Refusal>) {
    let (want, got) = (by_reference(case), by_library(case));
    assert_eq!(got.result, answer, "{}", name(case));
    assert_eq!(want.result, answer, "{}, reference", name(case));
    assert!(got == want, "{}: buffers differ", name(case));
}

/// A table of the longest length is read, with one byte more it is refused.
fn longest(call: u8, class: u32, mut table: Vec<u8>, records: usize) {
    assert_eq!(table.len(), INPUT_LIMIT);
    check(&Case::read_into(call, class, &table, records), Ok(records));
    table.push(0);
    check(&Case::read_into(call, class, &table, 4), LIMIT);
}

/// A table of the longest length: `head`, a count, `first`, then that many
/// times `record`. The count is padded so that the lengths come out even.
fn filled(head: &[u8], count: Kind, first: &[u8], record: &[u8]) -> (Vec<u8>, usize) {
    let left = INPUT_LIMIT - head.len() - first.len();
    for length in (1..=count.most_bytes()).rev() {
        let records = (left - length) / record.len();
        let shortest = number(count, records as i128).len();
        if (left - length).is_multiple_of(record.len()) && shortest <= length {
            let count = padded(count, records as i128, length - shortest);
            return ([head, &count, first, &record.repeat(records)].concat(), records);
        }
    }
    panic!("no even length");
}

#[test]
fn relr_tables() {
    for class in [4, 8] {
        // Seven addresses and a bitmap of one offset, again and again.
        let words = INPUT_LIMIT / class as usize;
        let table = relr_bytes(class, &[2, 2, 2, 2, 2, 2, 2, 3]).repeat(words / 8);
        check(&Case::read_into(RELR_READ, class, &table[1..], 0), refused(4, INPUT_LIMIT - 1));
        longest(RELR_READ, class, table, words);
    }
}

#[test]
fn relr_applied() {
    for class in [4, 8] {
        // The offset 1 << 5, again and again.
        let mut table = relr_bytes(class, &[1 << 5]).repeat(INPUT_LIMIT / class as usize);
        let additions = INPUT_LIMIT / class as usize;
        check(&Case::apply(class, &table, 0xFEDC_BA98, 0, &[0x77; 41]), Ok(additions));
        table.push(0);
        check(&Case::apply(class, &table, 0xFEDC_BA98, 0, &[0x77; 41]), LIMIT);
    }
}

/// The same table on an image of one word, which starts at the offset; then the
/// last offset is below the start.
#[test]
fn relr_applied_from_a_start() {
    for class in [4, 8] {
        let (word, additions) = (class as usize, INPUT_LIMIT / class as usize);
        let mut table = relr_bytes(class, &[1 << 5]).repeat(additions);
        let from = |table: &[u8], start, length| {
            Case::apply(class, table, 0xFEDC_BA98, start, &vec![0x77; length])
        };
        check(&from(&table, 1 << 5, word), Ok(additions));
        check(&from(&table, 1 << 5, word - 1), refused(12, 0));
        check(&from(&table, (1 << 5) + 1, 41), refused(12, 0));
        table[INPUT_LIMIT - word] = 30;
        check(&from(&table, 1 << 5, word), refused(12, additions - 1));
        check(&from(&table, 30, word + 2), Ok(additions));
    }
}

#[test]
fn apr1_tables() {
    let record = [padded(Unsigned(32), 1, 2), padded(Unsigned(32), 150, 1)].concat();
    let (table, pairs) = filled(b"APR1", Unsigned(32), &padded(Unsigned(32), 64, 4), &record);
    longest(APR1_READ, 0, table, pairs + 1);
}

#[test]
fn apa1_tables() {
    let record = [padded(Signed(64), -8, 9), padded(Signed(64), 3, 9)].concat();
    let (table, records) = filled(b"APA1", Signed(64), &[], &record);
    longest(APA1_READ, 0, table, records);
}

#[test]
fn relleb_tables() {
    for class in [4, 8] {
        // As long as a record can be.
        let bits = class * 8;
        let record = [
            padded(Unsigned(bits), 16, 9),
            padded(Signed(32), -1, 9),
            padded(Signed(33), -4, 9),
            padded(Signed(bits), -4, 9),
        ]
        .concat();
        let (table, records) = filled(&[], Unsigned(64), &[], &record);
        longest(RELLEB_READ, class, table, records);
    }
}

/// A RELR table of the longest length: an address, then one bitmap again and
/// again.
fn bitmaps(class: u32, address: u64, bitmap: u64) -> Vec<u8> {
    let more = INPUT_LIMIT / class as usize - 1;
    [relr_bytes(class, &[address]), relr_bytes(class, &[bitmap]).repeat(more)].concat()
}

/// Empty bitmaps behind the largest offset take *where* far past the end of the
/// space, and it does not wrap.
#[test]
fn relr_where() {
    for (class, largest) in [(4, u32::MAX as u64 - 3), (8, u64::MAX - 7)] {
        let mut table = bitmaps(class, largest, 1);
        check(&Case::read_into(RELR_READ, class, &table, 2), Ok(1));
        check(&Case::apply(class, &table, 1, 0, &[0; 8]), refused(12, 0));
        check(&Case::apply(class, &table, 1, largest, &[0; 8]), Ok(1));
        let last = INPUT_LIMIT - class as usize;
        table[last] = 3;
        check(&Case::read_into(RELR_READ, class, &table, 2), refused(7, last));
        check(&Case::apply(class, &table, 1, 0, &[0; 8]), refused(7, last));
        check(&Case::apply(class, &table, 1, largest, &[0; 8]), refused(7, last));
    }
}

/// The library alone answers so, and leaves this.
fn check_library(case: &Case, result: Result<usize, Refusal>, after: Case) {
    let got = by_library(case);
    assert_eq!(got.result, result, "{}", name(case));
    assert!(got == Run { result, after, inside: true }, "{}", name(case));
}

/// Both classes in both byte orders: whether words are big-endian.
const FORMS: [(u32, bool); 4] = [(4, false), (4, true), (8, false), (8, true)];

/// Little-endian words in a byte order.
fn ordered(class: u32, big: bool, words: Vec<u8>) -> Vec<u8> {
    if big { turned(class, &words) } else { words }
}

/// The most offsets of a RELR table, all inside the space: in class 4 they take
/// 31 parts of it in 32. The reference is not asked, since its list alone would
/// take 8 GiB.
#[test]
fn relr_most_offsets() {
    for (class, big) in FORMS {
        let (words, window) = (INPUT_LIMIT / class as usize, 8 * class as usize - 1);
        let table = ordered(class, big, bitmaps(class, 0, u64::MAX));
        let case = Case { big, ..Case::read_into(RELR_READ, class, &table, 4) };
        check_library(&case, needs(1 + window * (words - 1)), case.clone());
    }
}

/// As many additions, but for a few; the reference is not asked for the same
/// reason.
#[test]
fn relr_most_additions() {
    const BITMAPS: usize = 1_023;
    for (class, big) in FORMS {
        let (word, base) = (class as usize, 0xFEDC_BA98u64);
        // From address 0 over the whole image, again and again.
        let round = relr_bytes(class, &[vec![0], vec![u64::MAX; BITMAPS]].concat());
        let rounds = INPUT_LIMIT / round.len();
        let table = ordered(class, big, round.repeat(rounds));
        let places = 1 + BITMAPS * (8 * word - 1);
        let case = Case { big, ..Case::apply(class, &table, base, 0, &vec![0; places * word]) };
        assert_eq!(case.input.len(), INPUT_LIMIT);
        let sum = ordered(class, big, relr_bytes(class, &[base * rounds as u64]));
        let after = Case { bytes: sum.repeat(places), ..case.clone() };
        check_library(&case, Ok(rounds * places), after);
    }
}

/// The most offsets of an APR1 table: the count takes 57 bits.
#[test]
fn apr1_most_offsets() {
    let times = u32::MAX as usize;
    let record = [number(Unsigned(32), times as i128), number(Unsigned(32), 0)].concat();
    let (table, pairs) = filled(b"APR1", Unsigned(32), &padded(Unsigned(32), 64, 4), &record);
    let need = 1 + pairs * times;
    assert_eq!(need.ilog2(), 56);
    check(&Case::read_into(APR1_READ, 0, &table, 4), needs(need));
}

/// Tables of the shortest records: each difference is one byte.
#[test]
fn shortest_records() {
    let (table, records) = filled(b"APA1", Signed(64), &[], &[0; 2]);
    check(&Case::read_into(APA1_READ, 0, &table, 4), needs(records));
    let (table, records) = filled(&[], Unsigned(64), &[], &[0; 3]);
    for class in [4, 8] {
        check(&Case::read_into(RELLEB_READ, class, &table, 4), needs(records));
    }
}

/// Tables that end long before the longest length.
#[test]
fn trailing_bytes() {
    let tables = [
        (APR1_READ, 0, &b"APR1\0\0"[..]),
        (APA1_READ, 0, b"APA1\0"),
        (RELLEB_READ, 4, b"\0"),
        (RELLEB_READ, 8, b"\0"),
    ];
    for (call, class, start) in tables {
        let mut table = start.to_vec();
        table.resize(INPUT_LIMIT, 0);
        let case = Case::read_into(call, class, &table, 1);
        check_one(&case, refused(8, start.len()));
        check_twin(&case, refused(8, start.len()));
    }
}

/// A list is written into exactly the bytes it needs and read back, strictly too; the
/// list with a record more is refused.
fn written(mut list: Case, read: u8, longer: Case, need: usize) {
    check(&longer, LIMIT);
    list.bytes = vec![FILL; need - 1];
    check(&list, needs(need));
    list.bytes.push(FILL);
    check(&list, Ok(need));
    let (_, after) = list.run();
    let read = Case::read_into(read, list.class, &after.bytes, LIST_LIMIT);
    check_one(&read, Ok(LIST_LIMIT));
    check_twin(&read, Ok(LIST_LIMIT));
}

/// Offsets at equal gaps, as many as the limit and one more.
fn offsets(gap: u64) -> Vec<u64> {
    (0..=LIST_LIMIT as u64).map(|k| k * gap).collect()
}

#[test]
fn relr_lists() {
    for class in [4, 8] {
        let word = class as usize;
        // A word for each offset, and bitmaps full but for the last.
        let windows = (LIST_LIMIT - 1).div_ceil(8 * word - 1);
        for (gap, words) in [(word + 2, LIST_LIMIT), (word, 1 + windows)] {
            let all = offsets(gap as u64);
            let list = Case::write(RELR_WRITE, class, &all[1..], 0);
            let longer = Case::write(RELR_WRITE, class, &all, 4);
            written(list, RELR_READ, longer, words * word);
        }
    }
}

#[test]
fn apr1_lists() {
    // Gaps 128, 256, 128, 256: a pair of three bytes for each.
    let all: Vec<u64> = offsets(192).iter().map(|k| k + k / 192 % 2 * 64).collect();
    let list = Case::write(APR1_WRITE, 0, &all[..LIST_LIMIT], 0);
    let longer = Case::write(APR1_WRITE, 0, &all, 4);
    written(list, APR1_READ, longer, 4 + 4 + 1 + 3 * (LIST_LIMIT - 1));
}

#[test]
fn apa1_lists() {
    let list = |records| widest::list(APA1_WRITE, 0, records);
    written(list(LIST_LIMIT), APA1_READ, list(LIST_LIMIT + 1), 4 + 4 + 20 * LIST_LIMIT);
}

#[test]
fn relleb_lists() {
    for (class, record) in [(4, 20), (8, 30)] {
        let list = |records| widest::list(RELLEB_WRITE, class, records);
        written(list(LIST_LIMIT), RELLEB_READ, list(LIST_LIMIT + 1), 4 + record * LIST_LIMIT);
    }
}

/// A strict table of as many records as a list may have is written again to the byte;
/// one of a record more is read, and its list is refused.
#[test]
fn strict_tables() {
    for (call, class, name) in AGAIN {
        let (head, count, record): (&[u8], _, &[u8]) = match call {
            APA1_READ => (b"APA1", Signed(64), &[0x08, 0x7F]),
            _ => (b"", Unsigned(64), &[0x04, 0x7F, 0x7C, 0x01]),
        };
        let read = |records: usize| {
            let table = [head, &number(count, records as i128), &record.repeat(records)].concat();
            Case { strict: true, ..Case::read_into(call, class, &table, records) }
        };
        let (within, beyond) = (read(LIST_LIMIT), read(LIST_LIMIT + 1));
        check_one(&within, Ok(LIST_LIMIT));
        let write = again(&within).expect("a list to write");
        check_one(&write, Ok(within.input.len()));
        assert!(write.run().1.bytes == within.input, "{name}");
        check_one(&beyond, Ok(LIST_LIMIT + 1));
        check_one(&again(&beyond).expect("a list to write"), LIMIT);
    }
}
