//! Hand-made cases of APA1.

use super::calls::{APA1_READ, APA1_WRITE};
use super::case::Case;
use super::hand::{Hand, hand, rooms};
use super::tables::{join, number};
use crate::leb::Kind::Signed;

/// Ten-byte forms of the least and the largest signed number of width 64.
const LEAST: [u8; 10] = [0x80, 0x80, 0x80, 0x80, 0x80, 0x80, 0x80, 0x80, 0x80, 0x7F];
const LARGEST: [u8; 10] = [0xFF, 0xFF, 0xFF, 0xFF, 0xFF, 0xFF, 0xFF, 0xFF, 0xFF, 0x00];

/// Zero and minus one, padded to all ten bytes.
const ZERO: [u8; 10] = [0x80, 0x80, 0x80, 0x80, 0x80, 0x80, 0x80, 0x80, 0x80, 0x00];
const MINUS: [u8; 10] = [0xFF, 0xFF, 0xFF, 0xFF, 0xFF, 0xFF, 0xFF, 0xFF, 0xFF, 0x7F];

/// Outside width 64: 2^63, −2^63−1, and a tenth byte with its top bit set.
const OVER: [u8; 10] = [0x80, 0x80, 0x80, 0x80, 0x80, 0x80, 0x80, 0x80, 0x80, 0x01];
const UNDER: [u8; 10] = [0xFF, 0xFF, 0xFF, 0xFF, 0xFF, 0xFF, 0xFF, 0xFF, 0xFF, 0x7E];
const LONG: [u8; 10] = [0x80; 10];

const I: [u8; 6] = [0x02, 0x80, 0x20, 0x10, 0x08, 0x08];

/// A table: the identifier and these pieces.
fn table(pieces: &[&[u8]]) -> Vec<u8> {
    join(&[b"APA1", &join(pieces)])
}

fn read(pieces: &[&[u8]], room: usize) -> Case {
    Case::read_into(APA1_READ, 0, &table(pieces), room)
}

fn read_raw(table: &[u8], room: usize) -> Case {
    Case::read_into(APA1_READ, 0, table, room)
}

/// A read into columns of different lengths.
fn uneven(table: &[u8], offsets: usize, addends: usize) -> Case {
    Case::read(APA1_READ, 0, table, [offsets, 0, 0, addends])
}

fn write(offsets: &[u64], addends: &[i64], room: usize) -> Case {
    Case::write(APA1_WRITE, 0, offsets, room).with_addends(addends)
}

pub fn all() -> Vec<Hand> {
    let mut hands = Vec::new();
    hands.extend(rooms("apa1_read I", 2, |room| read(&[&I], room)));
    hands.extend(read_accepted());
    hands.extend(read_identifier());
    hands.extend(read_counts());
    hands.extend(read_numbers());
    hands.extend(read_columns());
    hands.extend(read_order());
    hands.extend(read_padded());
    hands.extend(read_shortest());
    hands.extend(write_accepted());
    hands.extend(write_refused());
    hands
}

fn read_accepted() -> Vec<Hand> {
    let sixty_four = [0u8; 128];
    let ends = [&[2u8][..], &LEAST, &LARGEST, &LARGEST, &LEAST];
    vec![
        hand("apa1_read empty, no room", read(&[&[0]], 0), (0, 0, 0)),
        hand("apa1_read empty, room", read(&[&[0]], 3), (0, 0, 0)),
        hand("apa1_read padded 0", read(&[&ZERO], 0), (0, 0, 0)).strictly((18, 4, 0)),
        hand("apa1_read L 64", read(&[&[0xC0, 0x00], &sixty_four], 64), (0, 0, 64)),
        hand("apa1_read L 64 short", read(&[&[0xC0, 0x00], &sixty_four], 63), (9, 0, 64)),
        hand("apa1_read L 63", read(&[&[0x3F], &sixty_four[..126]], 64), (0, 0, 63)),
        hand("apa1_read down", read(&[&[2, 0x7F, 0x7F, 0x7F, 0x7F]], 2), (0, 0, 2)),
        hand("apa1_read wrap up", read(&[&[2, 0x7F, 0x7F, 2, 2]], 2), (0, 0, 2)),
        hand("apa1_read ends", read(&ends, 2), (0, 0, 2)),
        hand("apa1_read wrap addend", read(&[&[2, 0], &LARGEST, &[0, 1]], 2), (0, 0, 2)),
        hand("apa1_read wrap offset", read(&[&[2], &LEAST, &[0], &LEAST, &[0]], 2), (0, 0, 2)),
        hand("apa1_read padded", read(&[&[1], &MINUS, &ZERO], 1), (0, 0, 1)).strictly((18, 5, 0)),
        hand("apa1_read repeats", read(&[&[3, 4, 4, 0, 0, 0, 0]], 4), (0, 0, 3)),
    ]
}

fn read_identifier() -> Vec<Hand> {
    let tables: [&[u8]; 7] = [b"", b"A", b"APA", b"APA2\0", b"apa1\0", b"APR1\0\0", b"\0APA1\0"];
    let mut hands = Vec::new();
    for (index, table) in tables.iter().enumerate() {
        let name = format!("apa1_read identifier {index}");
        hands.push(hand(&name, read_raw(table, 4), (3, 0, 0)));
    }
    hands
}

fn read_counts() -> Vec<Hand> {
    vec![
        hand("apa1_read L", read(&[&[0x40]], 4), (5, 4, 0)),
        hand("apa1_read count -1", read(&[&[0x7F]], 4), (5, 4, 0)),
        hand("apa1_read count -1 padded", read(&[&MINUS], 4), (5, 4, 0)),
        hand("apa1_read count least", read(&[&LEAST], 4), (5, 4, 0)),
        hand("apa1_read count over", read(&[&OVER], 4), (5, 13, 0)),
        hand("apa1_read count under", read(&[&UNDER], 4), (5, 13, 0)),
        hand("apa1_read count long", read(&[&LONG], 4), (5, 13, 0)),
        hand("apa1_read count missing", read(&[], 4), (4, 4, 0)),
        hand("apa1_read count cut", read(&[&[0xC0]], 4), (4, 5, 0)),
        hand("apa1_read count cut at nine", read(&[&LONG[..9]], 4), (4, 13, 0)),
        hand("apa1_read count 64, none", read(&[&[0xC0, 0x00]], 4), (4, 6, 0)),
        hand("apa1_read count largest, none", read(&[&LARGEST], 4), (4, 14, 0)),
        hand("apa1_read count largest, one", read(&[&LARGEST, &[1, 1]], 4), (4, 16, 0)),
    ]
}

fn read_numbers() -> Vec<Hand> {
    let mut hands = vec![
        hand("apa1_read offset missing", read(&[&[1]], 4), (4, 5, 0)),
        hand("apa1_read offset cut", read(&[&[1, 0x80]], 4), (4, 6, 0)),
        hand("apa1_read addend missing", read(&[&[1, 0]], 4), (4, 6, 0)),
        hand("apa1_read addend cut", read(&[&[1, 0], &LONG[..9]], 4), (4, 15, 0)),
        hand("apa1_read second missing", read(&[&[2, 0, 0]], 4), (4, 7, 0)),
        hand("apa1_read second addend missing", read(&[&[2, 0, 0, 9]], 4), (4, 8, 0)),
    ];
    for (name, bad) in [("over", OVER), ("under", UNDER), ("long", LONG)] {
        let named = |field: &str| format!("apa1_read {field} {name}");
        hands.extend([
            hand(&named("offset"), read(&[&[1], &bad, &[0]], 4), (5, 14, 0)),
            hand(&named("addend"), read(&[&[1, 0], &bad], 4), (5, 15, 0)),
            hand(&named("second offset"), read(&[&[2, 0, 0], &bad], 4), (5, 16, 0)),
            hand(&named("second addend"), read(&[&[2, 0, 0, 0], &bad], 4), (5, 17, 0)),
            hand(&named("addend behind padding"), read(&[&[1], &ZERO, &bad], 4), (5, 24, 0))
                .strictly((18, 5, 0)),
        ]);
    }
    hands
}

/// 11 comes before everything that the table could give.
fn read_columns() -> Vec<Hand> {
    let good = table(&[&I]);
    let cut = table(&[&I[..5]]);
    let more = table(&[&I, &[0]]);
    let minus = table(&[&[0x40]]);
    vec![
        hand("apa1_read offsets longer", uneven(&good, 3, 2), (11, 0, 0)),
        hand("apa1_read addends longer", uneven(&good, 2, 3), (11, 0, 0)),
        hand("apa1_read no addends", uneven(&good, 2, 0), (11, 0, 0)),
        hand("apa1_read no offsets", uneven(&good, 0, 2), (11, 0, 0)),
        hand("apa1_read 11, empty list", uneven(&table(&[&[0]]), 0, 1), (11, 0, 0)),
        hand("apa1_read 11 before 3", uneven(b"APX1", 1, 2), (11, 0, 0)),
        hand("apa1_read 11 before 3, empty", uneven(b"", 1, 2), (11, 0, 0)),
        hand("apa1_read 11 before 4", uneven(&cut, 1, 2), (11, 0, 0)),
        hand("apa1_read 11 before 5", uneven(&minus, 1, 2), (11, 0, 0)),
        hand("apa1_read 11 before 8", uneven(&more, 3, 2), (11, 0, 0)),
        hand("apa1_read 11 before 9", uneven(&good, 1, 0), (11, 0, 0)),
    ]
}

fn read_order() -> Vec<Hand> {
    vec![
        hand("apa1_read 3 before 4", read_raw(b"APA", 4), (3, 0, 0)),
        hand("apa1_read 3 before 5", read_raw(b"APX1\x40", 4), (3, 0, 0)),
        hand("apa1_read 3 before 8", read_raw(b"APX1\0\0", 4), (3, 0, 0)),
        hand("apa1_read 3 before 9", read_raw(b"APX1\x01\0\0", 0), (3, 0, 0)),
        hand("apa1_read 5 count before 8", read(&[&[0x40, 0, 0]], 4), (5, 4, 0)),
        hand("apa1_read 5 count before 5", read(&[&[0x7F], &LONG], 4), (5, 4, 0)),
        hand("apa1_read 5 before 4", read(&[&[2], &LONG], 4), (5, 14, 0)),
        hand("apa1_read 5 before 9", read(&[&[1], &LONG, &[0]], 0), (5, 14, 0)),
        hand("apa1_read 4 before 9", read(&[&[2, 0, 0]], 0), (4, 7, 0)),
        hand("apa1_read 8", read(&[&I, &[0]], 2), (8, 10, 0)),
        hand("apa1_read 8 of an empty list", read(&[&[0, 0]], 2), (8, 5, 0)),
        hand("apa1_read 8 of several", read(&[&[0], &[0x80; 5]], 2), (8, 5, 0)),
        hand("apa1_read 8 before 9", read(&[&I, &[0]], 0), (8, 10, 0)),
        hand("apa1_read 8 before 9, one short", read(&[&I, &LONG], 1), (8, 10, 0)),
    ]
}

/// A padded number among faults, before and behind it.
fn read_padded() -> Vec<Hand> {
    let padded = table(&[&[0x80, 0]]);
    vec![
        hand("apa1_read 11 before 18", uneven(&padded, 1, 2), (11, 0, 0)),
        hand("apa1_read 3 before 18", read_raw(b"APX1\x80\0", 4), (3, 0, 0)),
        hand("apa1_read count 18 before 4", read(&[&[0x81, 0]], 4), (4, 6, 0)).strictly((18, 4, 0)),
        hand("apa1_read offset 18 before 4", read(&[&[1, 0x80, 0]], 4), (4, 7, 0))
            .strictly((18, 5, 0)),
        hand("apa1_read addend 18 before 4", read(&[&[2, 0, 0x80, 0]], 4), (4, 8, 0))
            .strictly((18, 6, 0)),
        hand("apa1_read offset padded and cut", read(&[&[1, 0xFF, 0xFF]], 4), (4, 7, 0)),
        hand("apa1_read count -64 padded", read(&[&[0xC0, 0x7F]], 4), (5, 4, 0)),
        hand("apa1_read count -65", read(&[&[0xBF, 0x7F]], 4), (5, 4, 0)),
        hand("apa1_read offset 18 before 5", read(&[&[1, 0x80, 0], &OVER], 4), (5, 16, 0))
            .strictly((18, 5, 0)),
        hand("apa1_read offset 5 before 18", read(&[&[1], &OVER, &[0x80, 0]], 4), (5, 14, 0)),
        hand("apa1_read 18 before 8", read(&[&[0x80, 0, 9]], 4), (8, 6, 0)).strictly((18, 4, 0)),
        hand("apa1_read 8 of a padded number", read(&[&[0, 0x80, 0]], 4), (8, 5, 0)),
        hand("apa1_read 18 before 9", read(&[&[1, 0, 0x80, 0]], 0), (9, 0, 1)).strictly((18, 6, 0)),
        hand("apa1_read 18 of the last", read(&[&[2, 4, 4, 4, 0x84, 0]], 2), (0, 0, 2))
            .strictly((18, 8, 0)),
        hand("apa1_read 18 of two", read(&[&[1, 0x84, 0, 0x84, 0]], 1), (0, 0, 1))
            .strictly((18, 5, 0)),
    ]
}

/// Numbers at the ends of their lengths, each in its shortest form: accepted in
/// both settings, differences of zero too.
fn read_shortest() -> Vec<Hand> {
    let values = [
        [63, 64],
        [-64, -65],
        [127, 128],
        [-128, -129],
        [8191, 8192],
        [-8192, -8193],
        [(1 << 62) - 1, 1 << 62],
        [-1 << 62, (-1 << 62) - 1],
        [i64::MAX as i128, i64::MIN as i128],
        [0, 0],
        [0, -1],
        [1, 0],
    ];
    let values = values.concat().into_iter().flat_map(|value| number(Signed(64), value));
    let values: Vec<u8> = values.collect();
    vec![
        hand("apa1_read shortest forms", read(&[&[12], &values], 12), (0, 0, 12)),
        hand("apa1_read differences of zero", read(&[&[3, 0, 0, 7, 0, 0, 0]], 3), (0, 0, 3)),
    ]
}

fn write_accepted() -> Vec<Hand> {
    let cases: [(&str, &[u64], &[i64], usize); 9] = [
        ("I", &[0x1000, 0x1008], &[16, 24], 10),
        ("empty", &[], &[], 5),
        ("zeros", &[0, 0], &[0, 0], 9),
        ("one-byte ends", &[63], &[-64], 7),
        ("two-byte ends", &[64], &[-65], 9),
        ("offset wraps", &[u64::MAX, 0], &[0, 0], 9),
        ("addend wraps", &[0, 1], &[i64::MIN, i64::MAX], 18),
        ("least differences", &[1 << 63, 0], &[i64::MIN, 0], 45),
        ("down", &[0x1000, 0], &[100, -100], 13),
    ];
    let mut hands = Vec::new();
    for (name, offsets, addends, need) in cases {
        let name = format!("apa1_write {name}");
        hands.extend(rooms(&name, need, |room| write(offsets, addends, room)));
    }
    let offsets = vec![8; 64];
    let addends = vec![8; 64];
    hands.extend(rooms("apa1_write L 64", 134, |room| write(&offsets, &addends, room)));
    hands
}

fn write_refused() -> Vec<Hand> {
    vec![
        hand("apa1_write offsets longer", write(&[1, 2], &[1], 99), (11, 0, 0)),
        hand("apa1_write addends longer", write(&[1], &[1, 2], 99), (11, 0, 0)),
        hand("apa1_write no addends", write(&[1], &[], 99), (11, 0, 0)),
        hand("apa1_write no offsets", write(&[], &[1], 99), (11, 0, 0)),
        hand("apa1_write 11 before 9", write(&[1, 2], &[1], 0), (11, 0, 0)),
        hand("apa1_write 11 before 9, other", write(&[], &[1], 4), (11, 0, 0)),
    ]
}
