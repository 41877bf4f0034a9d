//! Hand-made cases of RELLEB.

use super::calls::{RELLEB_READ, RELLEB_WRITE};
use super::case::Case;
use super::hand::{Hand, hand, rooms};
use super::tables::{join, number};
use crate::leb::Kind::{Signed, Unsigned};

const P: [u8; 9] = [0x02, 0x10, 0x81, 0x02, 0x7C, 0x7C, 0x08, 0x00, 0x03];

/// A ten-byte form outside width 64 whichever the sign, and such five-byte
/// forms for widths 32 and 33.
const LONG10: [u8; 10] = [0x80; 10];
const LONG5: [u8; 5] = [0x80; 5];

fn read(class: u32, pieces: &[&[u8]], room: usize) -> Case {
    Case::read_into(RELLEB_READ, class, &join(pieces), room)
}

/// A read into columns of different lengths.
fn uneven(class: u32, table: &[u8], rooms: [usize; 4]) -> Case {
    Case::read(RELLEB_READ, class, table, rooms)
}

/// A list to write.
#[derive(Clone, Copy)]
struct List<'a> {
    offsets: &'a [u64],
    types: &'a [u32],
    symbols: &'a [u32],
    addends: &'a [i64],
}

fn write(class: u32, list: List, room: usize) -> Case {
    Case::write(RELLEB_WRITE, class, list.offsets, room)
        .with_types(list.types)
        .with_symbols(list.symbols)
        .with_addends(list.addends)
}

/// A list of these offsets and addends, with types and symbols 1.
fn write_plain(class: u32, offsets: &[u64], addends: &[i64], room: usize) -> Case {
    let ones = vec![1; offsets.len()];
    let list = List { offsets, types: &ones, symbols: &ones, addends };
    write(class, list, room)
}

/// Five-byte forms with this fifth byte.
fn low5(last: u8) -> [u8; 5] {
    [0x80, 0x80, 0x80, 0x80, last]
}

fn high5(last: u8) -> [u8; 5] {
    [0xFF, 0xFF, 0xFF, 0xFF, last]
}

/// Ten-byte forms with this tenth byte.
fn low10(last: u8) -> [u8; 10] {
    let mut bytes = [0x80; 10];
    bytes[9] = last;
    bytes
}

fn high10(last: u8) -> [u8; 10] {
    let mut bytes = [0xFF; 10];
    bytes[9] = last;
    bytes
}

pub fn all() -> Vec<Hand> {
    let mut hands = Vec::new();
    for class in [4, 8] {
        let name = format!("relleb_read P class {class}");
        hands.extend(rooms(&name, 2, |room| read(class, &[&P], room)));
        hands.extend(read_accepted(class));
        hands.extend(read_cut(class));
        hands.extend(read_counts(class));
        hands.extend(read_numbers(class));
        hands.extend(read_columns(class));
        hands.extend(read_order(class));
        hands.extend(read_padded(class));
        hands.extend(read_zeros(class));
        hands.extend(read_shortest(class));
        hands.extend(write_accepted(class));
        hands.extend(write_columns(class));
    }
    hands.extend(classes());
    hands.extend(read_widths());
    hands.extend(write_widest());
    hands.extend(write_refused());
    hands.extend(write_order());
    hands
}

fn classes() -> Vec<Hand> {
    let mut hands = Vec::new();
    for class in [0, 1, 2, 3, 5, 7, 9, 12, 32, 64, 0xFFFF_FFFF] {
        let reading = format!("relleb_read class {class}");
        let writing = format!("relleb_write class {class}");
        hands.push(hand(&reading, read(class, &[&P], 2), (1, 0, 0)));
        let case = write_plain(class, &[1], &[1], 99);
        hands.push(hand(&writing, case, (1, 0, 0)));
    }
    hands.extend([
        hand("relleb_read 1 before 11", uneven(5, &P, [2, 2, 2, 3]), (1, 0, 0)),
        hand("relleb_read 1 before 4", read(5, &[], 2), (1, 0, 0)),
        hand("relleb_read 1 before 5", read(5, &[&LONG10], 2), (1, 0, 0)),
        hand("relleb_read 1 before 8", read(5, &[&P, &P], 2), (1, 0, 0)),
        hand("relleb_read 1 before 9", read(5, &[&P], 0), (1, 0, 0)),
        hand("relleb_read 1 before 18", read(5, &[&[0x80, 0]], 0), (1, 0, 0)),
        hand("relleb_read 1 before 19", read(5, &[&[1, 0, 0, 0x7F, 0]], 1), (1, 0, 0)),
    ]);
    hands
}

fn read_accepted(class: u32) -> Vec<Hand> {
    let read = |pieces: &[&[u8]], room| read(class, pieces, room);
    let cases = [
        hand("empty, no room", read(&[&[0]], 0), (0, 0, 0)),
        hand("empty, room", read(&[&[0]], 2), (0, 0, 0)),
        hand("padded count", read(&[&low10(0)], 0), (0, 0, 0)).strictly((18, 0, 0)),
        hand("zeros", read(&[&[1, 0, 0, 0]], 1), (0, 0, 1)),
        hand("symbol 0 with addend", read(&[&[1, 0, 0, 0x7F, 5]], 1), (0, 0, 1)),
        hand("zero difference", read(&[&[1, 0, 0, 0x7F, 0]], 1), (0, 0, 1)).strictly((19, 4, 0)),
        hand("zero difference later", read(&[&[2, 0, 0, 0x7E, 5, 0, 0, 0x7D, 0]], 2), (0, 0, 2))
            .strictly((19, 8, 0)),
        hand("addend stays", read(&[&[2, 1, 1, 0x7E, 0x7B, 1, 1, 7]], 2), (0, 0, 2)),
        hand("type down", read(&[&[2, 0, 5, 0, 0, 0x7B, 0]], 2), (0, 0, 2)),
        hand("type wraps", read(&[&[2, 0, 0x7F, 0, 0, 1, 0]], 2), (0, 0, 2)),
        hand("type least", read(&[&[1, 0], &low5(0x78), &[0]], 1), (0, 0, 1)),
        hand("type largest", read(&[&[1, 0], &high5(0x07), &[0]], 1), (0, 0, 1)),
        hand("symbol largest", read(&[&[1, 0, 0], &high5(0x0F)], 1), (0, 0, 1)),
        hand("symbol largest, addend", read(&[&[1, 0, 0], &low5(0x70), &[1]], 1), (0, 0, 1)),
        hand("symbol 2^31", read(&[&[1, 0, 0], &low5(0x08)], 1), (0, 0, 1)),
        hand("padded all", read(&[&[1], &low5(0), &low5(0), &high5(0x7F), &low5(0)], 1), (0, 0, 1))
            .strictly((18, 1, 0)),
    ];
    named("relleb_read", class, cases)
}

/// P, cut everywhere.
fn read_cut(class: u32) -> Vec<Hand> {
    let mut hands = Vec::new();
    for length in 0..P.len() {
        let name = format!("relleb_read class {class} P cut to {length}");
        let case = read(class, &[&P[..length]], 2);
        hands.push(hand(&name, case, (4, length as u64, 0)));
    }
    hands
}

fn read_counts(class: u32) -> Vec<Hand> {
    let read = |pieces: &[&[u8]], room| read(class, pieces, room);
    let cases = [
        hand("count 2^64-1, none", read(&[&high10(1)], 2), (4, 10, 0)),
        hand("count 2^64-1, one", read(&[&high10(1), &[0, 0, 0]], 2), (4, 13, 0)),
        hand("count 2^63, none", read(&[&low10(1)], 2), (4, 10, 0)),
        hand("count 2^64", read(&[&low10(2)], 2), (5, 9, 0)),
        hand("count long", read(&[&LONG10], 2), (5, 9, 0)),
        hand("count -1", read(&[&high10(0x7F)], 2), (5, 9, 0)),
        hand("count cut", read(&[&LONG10[..9]], 2), (4, 9, 0)),
        hand("count 127, none", read(&[&[0x7F]], 2), (4, 1, 0)),
        hand("count 64, none", read(&[&[0x40]], 2), (4, 1, 0)),
    ];
    named("relleb_read", class, cases)
}

/// From the first byte of a number of width W to its last allowed byte.
fn to_last(class: u32) -> u64 {
    if class == 4 { 4 } else { 9 }
}

/// Numbers outside widths 32 (type) and 33 (symbol), and any longer than
/// their width allows.
fn read_numbers(class: u32) -> Vec<Hand> {
    let to_last = to_last(class);
    let read = |pieces: &[&[u8]], room| read(class, pieces, room);
    let cases = [
        hand("offset long", read(&[&[1], &LONG10, &[0, 0]], 2), (5, 1 + to_last, 0)),
        hand("type long", read(&[&[1, 0], &LONG5, &[0]], 2), (5, 6, 0)),
        hand("type 2^31", read(&[&[1, 0], &low5(0x08), &[0]], 2), (5, 6, 0)),
        hand("type -2^31-1", read(&[&[1, 0], &high5(0x77), &[0]], 2), (5, 6, 0)),
        hand("symbol long", read(&[&[1, 0, 0], &LONG5], 2), (5, 7, 0)),
        hand("symbol 2^32", read(&[&[1, 0, 0], &low5(0x10)], 2), (5, 7, 0)),
        hand("symbol -2^32-1", read(&[&[1, 0, 0], &high5(0x6F), &[0]], 2), (5, 7, 0)),
        hand("addend long", read(&[&[1, 0, 0, 0x7F], &LONG10], 2), (5, 4 + to_last, 0)),
        hand("addend missing", read(&[&[1, 0, 0, 0x7F]], 2), (4, 4, 0)),
        hand("second type", read(&[&[2, 0, 0, 0, 9], &LONG5, &[0]], 2), (5, 9, 0)),
        hand("second addend", read(&[&[2, 0, 0, 0, 9, 0, 0x40], &LONG10], 2), (5, 7 + to_last, 0)),
    ];
    named("relleb_read", class, cases)
}

/// Offset and addend differences of width W.
fn read_widths() -> Vec<Hand> {
    let offset = |class, number: &[u8]| read(class, &[&[1], number, &[0, 0]], 1);
    let addend = |class, number: &[u8]| read(class, &[&[1, 0, 0, 0x7F], number], 1);
    let wraps5 = join(&[&[2], &high5(0x0F), &[0, 0, 2, 0, 0]]);
    let wraps10 = join(&[&[2], &high10(1), &[0, 0, 2, 0, 0]]);
    let up5 = join(&[&[2, 0, 0, 0x7F], &high5(7), &[0, 0, 0x7F, 1]]);
    let up10 = join(&[&[2, 0, 0, 0x7F], &high10(0), &[0, 0, 0x7F, 1]]);
    vec![
        hand("relleb_read offset 2^32-1, 4", offset(4, &high5(0x0F)), (0, 0, 1)),
        hand("relleb_read offset 2^32, 4", offset(4, &low5(0x10)), (5, 5, 0)),
        hand("relleb_read offset 2^32, 8", offset(8, &low5(0x10)), (0, 0, 1)),
        hand("relleb_read offset 2^64-1, 8", offset(8, &high10(1)), (0, 0, 1)),
        hand("relleb_read offset 2^64, 8", offset(8, &low10(2)), (5, 10, 0)),
        hand(
            "relleb_read offset six bytes, 4",
            offset(4, &[0x80, 0x80, 0x80, 0x80, 0x80, 0]),
            (5, 5, 0),
        ),
        hand(
            "relleb_read offset six bytes, 8",
            offset(8, &[0x80, 0x80, 0x80, 0x80, 0x80, 0]),
            (0, 0, 1),
        )
        .strictly((18, 1, 0)),
        hand("relleb_read addend largest, 4", addend(4, &high5(7)), (0, 0, 1)),
        hand("relleb_read addend least, 4", addend(4, &low5(0x78)), (0, 0, 1)),
        hand("relleb_read addend 2^31, 4", addend(4, &low5(8)), (5, 8, 0)),
        hand("relleb_read addend -2^31-1, 4", addend(4, &high5(0x77)), (5, 8, 0)),
        hand("relleb_read addend 2^31, 8", addend(8, &low5(8)), (0, 0, 1)),
        hand("relleb_read addend largest, 8", addend(8, &high10(0)), (0, 0, 1)),
        hand("relleb_read addend least, 8", addend(8, &low10(0x7F)), (0, 0, 1)),
        hand("relleb_read addend 2^63, 8", addend(8, &low10(1)), (5, 13, 0)),
        hand("relleb_read addend -2^63-1, 8", addend(8, &high10(0x7E)), (5, 13, 0)),
        hand("relleb_read offset wraps 4", read(4, &[&wraps5], 2), (0, 0, 2)),
        hand("relleb_read offset passes 2^32, 8", read(8, &[&wraps5], 2), (0, 0, 2)),
        hand("relleb_read offset wraps 8", read(8, &[&wraps10], 2), (0, 0, 2)),
        hand("relleb_read addend wraps 4", read(4, &[&up5], 2), (0, 0, 2)),
        hand("relleb_read addend passes 2^31, 8", read(8, &[&up5], 2), (0, 0, 2)),
        hand("relleb_read addend wraps 8", read(8, &[&up10], 2), (0, 0, 2)),
    ]
}

fn read_columns(class: u32) -> Vec<Hand> {
    let good = |rooms| uneven(class, &P, rooms);
    let bad = |table: &[u8]| uneven(class, table, [2, 2, 1, 2]);
    let cases = [
        hand("offsets longer", good([3, 2, 2, 2]), (11, 0, 0)),
        hand("types longer", good([2, 3, 2, 2]), (11, 0, 0)),
        hand("symbols longer", good([2, 2, 3, 2]), (11, 0, 0)),
        hand("addends longer", good([2, 2, 2, 3]), (11, 0, 0)),
        hand("offsets shorter", good([1, 2, 2, 2]), (11, 0, 0)),
        hand("no types", good([2, 0, 2, 2]), (11, 0, 0)),
        hand("no symbols", good([2, 2, 0, 2]), (11, 0, 0)),
        hand("no addends", good([2, 2, 2, 0]), (11, 0, 0)),
        hand("two and two", good([2, 2, 3, 3]), (11, 0, 0)),
        hand("all different", good([1, 2, 3, 4]), (11, 0, 0)),
        hand("11 before 4", bad(&[]), (11, 0, 0)),
        hand("11 before 5", bad(&LONG10), (11, 0, 0)),
        hand("11 before 8", bad(&[0, 0]), (11, 0, 0)),
        hand("11 before 9", good([0, 0, 0, 1]), (11, 0, 0)),
        hand("11, empty list", uneven(class, &[0], [0, 1, 0, 0]), (11, 0, 0)),
    ];
    named("relleb_read", class, cases)
}

fn read_order(class: u32) -> Vec<Hand> {
    let to_last = to_last(class);
    let read = |pieces: &[&[u8]], room| read(class, pieces, room);
    let cases = [
        hand("8", read(&[&P, &[0]], 2), (8, 9, 0)),
        hand("8 of an empty list", read(&[&[0, 0x80]], 2), (8, 1, 0)),
        hand("8 behind padded count", read(&[&[0x80, 0, 5]], 2), (8, 2, 0)).strictly((18, 0, 0)),
        hand("8 before 9", read(&[&P, &[0]], 0), (8, 9, 0)),
        hand("8 before 9, one short", read(&[&P, &[0, 0]], 1), (8, 9, 0)),
        hand("4 before 9", read(&[&P[..8]], 0), (4, 8, 0)),
        hand("5 before 9", read(&[&[1, 0], &LONG5, &[0]], 0), (5, 6, 0)),
        hand("5 before 4", read(&[&[9, 0], &LONG5], 2), (5, 6, 0)),
        hand("5 type before 5 symbol", read(&[&[1, 0], &LONG5, &LONG5], 2), (5, 6, 0)),
        hand("5 offset before 5 type", read(&[&[1], &LONG10, &LONG5], 2), (5, 1 + to_last, 0)),
        hand("5 before 8", read(&[&[1, 0, 0], &LONG5, &[0, 0, 0]], 2), (5, 7, 0)),
    ];
    named("relleb_read", class, cases)
}

/// A padded number among faults, before and behind it.
fn read_padded(class: u32) -> Vec<Hand> {
    let bad = uneven(class, &[0x80, 0], [2, 2, 1, 2]);
    let to_last = to_last(class);
    let read = |pieces: &[&[u8]], room| read(class, pieces, room);
    let two = [1, 0, 0x81, 0, 0x82, 0];
    let cases = [
        hand("11 before 18", bad, (11, 0, 0)),
        hand("count 18 before 4", read(&[&[0x81, 0]], 2), (4, 2, 0)).strictly((18, 0, 0)),
        hand("offset 18 before 4", read(&[&[1, 0x80, 0]], 2), (4, 3, 0)).strictly((18, 1, 0)),
        hand("type 18 before 4", read(&[&[1, 0, 0x80, 0]], 2), (4, 4, 0)).strictly((18, 2, 0)),
        hand("symbol 18 before 4", read(&[&[2, 0, 0, 0x80, 0]], 2), (4, 5, 0)).strictly((18, 3, 0)),
        hand("symbol -1 18 before 4", read(&[&[1, 0, 0, 0xFF, 0x7F]], 2), (4, 5, 0))
            .strictly((18, 3, 0)),
        hand("addend 18 before 4", read(&[&[2, 0, 0, 0x7F, 0x85, 0]], 2), (4, 6, 0))
            .strictly((18, 4, 0)),
        hand("type padded and cut", read(&[&[1, 0, 0x80, 0x80]], 2), (4, 4, 0)),
        hand("addend padded and cut", read(&[&[1, 0, 0, 0x7F, 0x80]], 2), (4, 5, 0)),
        hand("offset 18 before type 5", read(&[&[1, 0x80, 0], &LONG5], 2), (5, 7, 0))
            .strictly((18, 1, 0)),
        hand(
            "symbol 18 before addend 5",
            read(&[&[1, 0, 0, 0xFF, 0x7F], &LONG10], 2),
            (5, 5 + to_last, 0),
        )
        .strictly((18, 3, 0)),
        hand("type 5 before symbol 18", read(&[&[1, 0], &LONG5, &[0x80, 0]], 2), (5, 6, 0)),
        hand("18 before 8", read(&[&[1, 0, 0, 0x83, 0, 9]], 2), (8, 5, 0)).strictly((18, 3, 0)),
        hand("8 of a padded number", read(&[&[0, 0x80, 0]], 2), (8, 1, 0)),
        hand("18 before 9", read(&[&[1, 0x80, 0, 0, 0]], 0), (9, 0, 1)).strictly((18, 1, 0)),
        hand("18 of the last", read(&[&[2, 0, 0, 0, 0, 0, 0x83, 0]], 2), (0, 0, 2))
            .strictly((18, 6, 0)),
        hand("18 of two", read(&[&two], 1), (0, 0, 1)).strictly((18, 2, 0)),
    ];
    named("relleb_read", class, cases)
}

/// Addend differences of zero, and addends that come back by others.
fn read_zeros(class: u32) -> Vec<Hand> {
    let zero = [1, 0, 0, 0x7F, 0];
    let bad = uneven(class, &zero, [2, 2, 1, 2]);
    let to_last = to_last(class);
    let read = |pieces: &[&[u8]], room| read(class, pieces, room);
    // The least difference, twice: the second sum wraps to 0.
    let least = if class == 4 { low5(0x78).to_vec() } else { low10(0x7F).to_vec() };
    let wraps = [&[2, 0, 0, 0x7F], &least[..], &[0, 0, 0x7F], &least];
    let later = [2, 0, 0, 0x7E, 5, 0, 0, 0x7D];
    let cases = [
        hand("11 before 19", bad, (11, 0, 0)),
        hand("19 before 4", read(&[&[2, 0, 0, 0x7F, 0]], 2), (4, 5, 0)).strictly((19, 4, 0)),
        hand("19 before 5", read(&[&[2, 0, 0, 0x7F, 0], &LONG10], 2), (5, 5 + to_last, 0))
            .strictly((19, 4, 0)),
        hand("19 before 8", read(&[&zero, &[9]], 2), (8, 5, 0)).strictly((19, 4, 0)),
        hand("19 before 9", read(&[&zero], 0), (9, 0, 1)).strictly((19, 4, 0)),
        hand("19 before 18", read(&[&[2, 0, 0, 0x7F, 0, 0x80, 0, 0, 0]], 2), (0, 0, 2))
            .strictly((19, 4, 0)),
        hand("18 before 19", read(&[&[1, 0, 0, 0xFF, 0x7F, 0]], 1), (0, 0, 1)).strictly((18, 3, 0)),
        hand("18 of a zero difference", read(&[&zero[..4], &[0x80, 0]], 1), (0, 0, 1))
            .strictly((18, 4, 0)),
        hand("18 of a zero difference later", read(&[&later, &[0x80, 0]], 2), (0, 0, 2))
            .strictly((18, 8, 0)),
        hand("19 of two", read(&[&[2, 0, 0, 0x7F, 0, 0, 0, 0x7F, 0]], 2), (0, 0, 2))
            .strictly((19, 4, 0)),
        hand("19 behind a same addend", read(&[&[2, 0, 0, 0, 0, 0, 0x7F, 0]], 2), (0, 0, 2))
            .strictly((19, 7, 0)),
        hand("19, largest symbol", read(&[&[1, 0, 0], &low5(0x70), &[0]], 1), (0, 0, 1))
            .strictly((19, 8, 0)),
        hand("addend back to 0", read(&[&[2, 0, 0, 0x7F, 5, 0, 0, 0x7F, 0x7B]], 2), (0, 0, 2)),
        hand("addend wraps to 0", read(&wraps, 2), (0, 0, 2)),
        hand("zeros but the addends", read(&[&[2, 0, 0, 0x7F, 1, 0, 0, 0x7F, 1]], 2), (0, 0, 2)),
    ];
    named("relleb_read", class, cases)
}

/// Numbers at the ends of their lengths, each in its shortest form: accepted in
/// both settings.
fn read_shortest(class: u32) -> Vec<Hand> {
    let (bits, power) = (8 * class, |exponent: u32| 1i128 << exponent);
    let largest = power(bits) - 1;
    let offsets = [127, 128, 16_383, 16_384, power(28) - 1, power(28), largest / 2, largest, 0, 1];
    let types = [63, 64, -64, -65, 8191, 8192, -8192, -8193, power(31) - 1, -power(31)];
    let least = -power(bits - 1);
    let addends = [63, 64, -64, -65, 8191, 8192, -8192, -8193, -1 - least, least];
    let fields = [-1, -64, -65, -8192, -8193, -power(27), -power(27) - 1, -power(32), -2, -3];
    let fields = [&fields[..], &[0, 63, 64, 8191, 8192, power(32) - 1]].concat();
    let mut records = Vec::new();
    for (index, field) in fields.into_iter().enumerate() {
        records.extend(number(Unsigned(bits), offsets[index % 10]));
        records.extend(number(Signed(32), types[index % 10]));
        records.extend(number(Signed(33), field));
        if field < 0 {
            records.extend(number(Signed(bits), addends[index]));
        }
    }
    let read = |pieces: &[&[u8]], room| read(class, pieces, room);
    let cases = [
        hand("shortest forms", read(&[&[16], &records], 16), (0, 0, 16)),
        hand("127 records", read(&[&[0x7F], &[0; 381]], 127), (0, 0, 127)),
        hand("128 records", read(&[&[0x80, 1], &[0; 384]], 128), (0, 0, 128)),
    ];
    named("relleb_read", class, cases)
}

fn write_accepted(class: u32) -> Vec<Hand> {
    let (max, least, most) = (u32::MAX, i32::MIN as i64, i32::MAX as i64);
    type Row<'a> = (&'a str, [&'a [u32]; 2], &'a [u64], &'a [i64], usize);
    let cases: [Row; 9] = [
        ("P", [&[257, 257], &[3, 3]], &[16, 24], &[-4, -4], 9),
        ("empty", [&[], &[]], &[], &[], 1),
        ("zeros", [&[0, 0], &[0, 0]], &[0, 0], &[0, 0], 7),
        ("symbol 0, addend", [&[0], &[0]], &[0], &[1], 5),
        ("addend back to 0", [&[0; 3], &[0; 3]], &[0; 3], &[1, 0, 0], 12),
        ("symbol 63 and 64", [&[0; 2], &[63, 64]], &[0; 2], &[0; 2], 8),
        ("largest symbols", [&[0; 2], &[max; 2]], &[0; 2], &[0, 1], 16),
        ("type ends", [&[max, 0, 1 << 31], &[0; 3]], &[0; 3], &[0; 3], 14),
        ("addend ends", [&[0; 2], &[0; 2]], &[1, 2], &[least, most], 0),
    ];
    let mut hands = Vec::new();
    for (name, [types, symbols], offsets, addends, need) in cases {
        // −2^31 takes five bytes. 2^31−1 lies 2^32−1 above it: −1 at class 4,
        // one byte; at class 8 five bytes.
        let need = match (need, class) {
            (0, 4) => 1 + 8 + 4,
            (0, _) => 1 + 8 + 8,
            _ => need,
        };
        let name = format!("relleb_write class {class} {name}");
        let list = List { offsets, types, symbols, addends };
        hands.extend(rooms(&name, need, |room| write(class, list, room)));
    }
    hands
}

/// The longest records, and offsets that go back.
fn write_widest() -> Vec<Hand> {
    let types = [1 << 31];
    let symbols = [u32::MAX];
    let make = |class, offset: &[u64], addend: &[i64], room| {
        let list = List { offsets: offset, types: &types, symbols: &symbols, addends: addend };
        write(class, list, room)
    };
    let mut hands = Vec::new();
    hands.extend(rooms("relleb_write longest 4", 21, |room| {
        make(4, &[0xFFFF_FFFF], &[i32::MIN as i64], room)
    }));
    hands.extend(rooms("relleb_write longest 8", 31, |room| {
        make(8, &[u64::MAX], &[i64::MIN], room)
    }));
    hands.extend(rooms("relleb_write back 4", 11, |room| write_plain(4, &[1, 0], &[0, 0], room)));
    hands.extend(rooms("relleb_write back 8", 16, |room| write_plain(8, &[1, 0], &[0, 0], room)));
    hands.extend(rooms("relleb_write addend wraps 8", 18, |room| {
        write_plain(8, &[0, 0], &[i64::MIN, i64::MAX], room)
    }));
    hands
}

fn write_columns(class: u32) -> Vec<Hand> {
    let make = |lengths: [usize; 4], offset: u64, addend: i64, room| {
        let list = List {
            offsets: &vec![offset; lengths[0]],
            types: &vec![1; lengths[1]],
            symbols: &vec![1; lengths[2]],
            addends: &vec![addend; lengths[3]],
        };
        write(class, list, room)
    };
    let cases = [
        hand("offsets longer", make([3, 2, 2, 2], 1, 1, 99), (11, 0, 0)),
        hand("types longer", make([2, 3, 2, 2], 1, 1, 99), (11, 0, 0)),
        hand("symbols longer", make([2, 2, 3, 2], 1, 1, 99), (11, 0, 0)),
        hand("addends longer", make([2, 2, 2, 3], 1, 1, 99), (11, 0, 0)),
        hand("no types", make([2, 0, 2, 2], 1, 1, 99), (11, 0, 0)),
        hand("no symbols", make([2, 2, 0, 2], 1, 1, 99), (11, 0, 0)),
        hand("no addends", make([2, 2, 2, 0], 1, 1, 99), (11, 0, 0)),
        hand("no offsets", make([0, 2, 2, 2], 1, 1, 99), (11, 0, 0)),
        hand("two and two", make([1, 1, 2, 2], 1, 1, 99), (11, 0, 0)),
        hand("11 before 7", make([2, 2, 2, 1], 1 << 32, 1, 99), (11, 0, 0)),
        hand("11 before 14", make([2, 2, 1, 2], 1, 1 << 40, 99), (11, 0, 0)),
        hand("11 before 9", make([2, 1, 2, 2], 1, 1, 0), (11, 0, 0)),
    ];
    named("relleb_write", class, cases)
}

fn write_refused() -> Vec<Hand> {
    let wide = 1 << 32;
    let (over, under) = (1 << 31, -(1 << 31) - 1);
    let ok = 0xFFFF_FFFF;
    let w = write_plain;
    vec![
        hand("relleb_write 4 offset 2^32", w(4, &[wide], &[0], 99), (7, 0, 0)),
        hand("relleb_write 4 offset max", w(4, &[u64::MAX], &[0], 99), (7, 0, 0)),
        hand("relleb_write 4 second offset", w(4, &[0, wide], &[0, 0], 99), (7, 1, 0)),
        hand("relleb_write 4 offset 2^32-1", w(4, &[ok], &[0], 99), (0, 0, 8)),
        hand("relleb_write 8 offset 2^32", w(8, &[wide], &[0], 99), (0, 0, 8)),
        hand("relleb_write 4 addend 2^31", w(4, &[0], &[over], 99), (14, 0, 0)),
        hand("relleb_write 4 addend -2^31-1", w(4, &[0], &[under], 99), (14, 0, 0)),
        hand("relleb_write 4 addend max", w(4, &[0], &[i64::MAX], 99), (14, 0, 0)),
        hand("relleb_write 4 addend min", w(4, &[0], &[i64::MIN], 99), (14, 0, 0)),
        hand("relleb_write 4 third addend", w(4, &[0; 3], &[0, 0, over], 99), (14, 2, 0)),
        hand("relleb_write 4 addend 2^31-1", w(4, &[0], &[over - 1], 99), (0, 0, 9)),
        hand("relleb_write 4 addend -2^31", w(4, &[0], &[under + 1], 99), (0, 0, 9)),
        hand("relleb_write 8 addend 2^31", w(8, &[0], &[over], 99), (0, 0, 9)),
    ]
}

fn write_order() -> Vec<Hand> {
    let wide = 1 << 32;
    let over = 1 << 31;
    let w = write_plain;
    let uneven = |class| {
        let list = List { offsets: &[wide], types: &[], symbols: &[1], addends: &[over] };
        write(class, list, 0)
    };
    vec![
        hand("relleb_write 1 before 11", uneven(6), (1, 0, 0)),
        hand("relleb_write 1 before 7", w(6, &[wide], &[0], 99), (1, 0, 0)),
        hand("relleb_write 1 before 14", w(6, &[0], &[over], 99), (1, 0, 0)),
        hand("relleb_write 1 before 9", w(6, &[0], &[0], 0), (1, 0, 0)),
        hand("relleb_write 11 before 7, 14, 9", uneven(4), (11, 0, 0)),
        hand("relleb_write 7 before 14", w(4, &[wide], &[over], 99), (7, 0, 0)),
        hand("relleb_write 7 before 14, later", w(4, &[0, wide], &[0, over], 99), (7, 1, 0)),
        hand("relleb_write 14 then 7", w(4, &[0, wide], &[over, 0], 99), (14, 0, 0)),
        hand("relleb_write 7 then 14", w(4, &[wide, 0], &[0, over], 99), (7, 0, 0)),
        hand("relleb_write 7 before 9", w(4, &[0, wide], &[0, 0], 0), (7, 1, 0)),
        hand("relleb_write 14 before 9", w(4, &[0, 0], &[0, over], 0), (14, 1, 0)),
        hand("relleb_write 14 before 9, one short", w(4, &[0, 0], &[0, over], 6), (14, 1, 0)),
    ]
}

/// The cases with the call and the class in front of their names.
fn named<const N: usize>(call: &str, class: u32, mut cases: [Hand; N]) -> Vec<Hand> {
    for case in &mut cases {
        case.name = format!("{call} class {class} {}", case.name);
    }
    cases.into()
}
