//! Hand-made cases of APR1.

use super::calls::{APR1_READ, APR1_WRITE};
use super::case::Case;
use super::hand::{Hand, hand, rooms};
use super::tables::{join, number};
use crate::leb::Kind::Unsigned;

const LARGEST: u64 = 0xFFFF_FFFC;

/// Five-byte forms: 2^32−8, 2^32−4, 2^32−3 and 2^32−1.
const MINUS8: [u8; 5] = [0xF8, 0xFF, 0xFF, 0xFF, 0x0F];
const MINUS4: [u8; 5] = [0xFC, 0xFF, 0xFF, 0xFF, 0x0F];
const MINUS3: [u8; 5] = [0xFD, 0xFF, 0xFF, 0xFF, 0x0F];
const MINUS1: [u8; 5] = [0xFF, 0xFF, 0xFF, 0xFF, 0x0F];

/// Outside width 32: too large, and a fifth byte with its top bit set.
const WIDE: [u8; 5] = [0x80, 0x80, 0x80, 0x80, 0x10];
const LONG: [u8; 5] = [0x80, 0x80, 0x80, 0x80, 0x80];

/// Zero, padded to all five bytes.
const PADDED: [u8; 5] = [0x80, 0x80, 0x80, 0x80, 0x00];

const H: [u8; 7] = [0x02, 0x80, 0x20, 0x02, 0x04, 0x01, 0x08];

/// A table: the identifier and these pieces.
fn read(pieces: &[&[u8]], room: usize) -> Case {
    let table = join(&[b"APR1", &join(pieces)]);
    Case::read_into(APR1_READ, 0, &table, room)
}

fn read_raw(table: &[u8], room: usize) -> Case {
    Case::read_into(APR1_READ, 0, table, room)
}

fn write(offsets: &[u64], room: usize) -> Case {
    Case::write(APR1_WRITE, 0, offsets, room)
}

pub fn all() -> Vec<Hand> {
    let mut hands = Vec::new();
    hands.extend(rooms("apr1_read H", 4, |room| read(&[&H], room)));
    hands.extend(rooms("apr1_read first alone", 1, |room| read(&[&[0, 0]], room)));
    hands.extend(read_accepted());
    hands.extend(read_identifier());
    hands.extend(read_numbers());
    hands.extend(read_outside());
    hands.extend(read_counts());
    hands.extend(read_order());
    hands.extend(read_padded());
    hands.extend(read_shortest());
    hands.extend(write_accepted());
    hands.extend(write_refused());
    hands
}

fn read_accepted() -> Vec<Hand> {
    vec![
        hand("apr1_read largest A", read(&[&[0], &MINUS4], 1), (0, 0, 1)),
        hand("apr1_read all padded", read(&[&PADDED, &PADDED], 1), (0, 0, 1)).strictly((18, 4, 0)),
        hand("apr1_read padded N", read(&[&[0x81, 0x80, 0], &[8, 2, 4]], 3), (0, 0, 3))
            .strictly((18, 4, 0)),
        hand("apr1_read padded pair", read(&[&[1, 8], &[0x82, 0], &[0x84, 0x80, 0]], 3), (0, 0, 3))
            .strictly((18, 6, 0)),
        hand("apr1_read C 0", read(&[&[1, 8, 0, 4]], 1), (0, 0, 1)),
        hand("apr1_read D 0", read(&[&[1, 8, 3, 0]], 4), (0, 0, 4)),
        hand("apr1_read C 0, D largest", read(&[&[1, 8, 0], &MINUS1], 1), (0, 0, 1)),
        hand("apr1_read C 0 at the end", read(&[&[1], &MINUS4, &[0], &MINUS1], 1), (0, 0, 1)),
        hand("apr1_read C 0 between", read(&[&[3, 8, 1, 4, 0], &MINUS1, &[1, 4]], 3), (0, 0, 3)),
        hand("apr1_read D 0 at the end", read(&[&[1], &MINUS4, &[2, 0]], 3), (0, 0, 3)),
        hand("apr1_read to the end", read(&[&[1], &MINUS8, &[1, 4]], 2), (0, 0, 2)),
        hand("apr1_read to the end by 2", read(&[&[1], &MINUS8, &[2, 2]], 3), (0, 0, 3)),
        hand("apr1_read one step of all", read(&[&[1, 0, 1], &MINUS4], 2), (0, 0, 2)),
        hand("apr1_read equal pairs", read(&[&[2, 8, 1, 4, 1, 4]], 3), (0, 0, 3)),
        hand("apr1_read odd offsets", read(&[&[1, 1, 3, 1]], 4), (0, 0, 4)),
    ]
}

fn read_identifier() -> Vec<Hand> {
    let tables: [&[u8]; 9] = [
        b"",
        b"A",
        b"APR",
        b"APR2\0\0",
        b"apr1\0\0",
        b"APA1\0",
        b"\0APR1\0\0",
        b"APR11",
        b"1RPA\0\0",
    ];
    let mut hands = Vec::new();
    for (index, table) in tables.iter().enumerate() {
        // b"APR11" is the identifier with N behind it and no A.
        let want = if index == 7 { (4, 5, 0) } else { (3, 0, 0) };
        let name = format!("apr1_read identifier {index}");
        hands.push(hand(&name, read_raw(table, 4), want));
    }
    hands
}

fn read_numbers() -> Vec<Hand> {
    let mut hands = vec![
        hand("apr1_read N missing", read(&[], 4), (4, 4, 0)),
        hand("apr1_read N cut", read(&[&[0x80]], 4), (4, 5, 0)),
        hand("apr1_read N cut before its last", read(&[&[0x80; 4]], 4), (4, 8, 0)),
        hand("apr1_read A missing", read(&[&[0]], 4), (4, 5, 0)),
        hand("apr1_read A cut", read(&[&[0, 0x80, 0x80]], 4), (4, 7, 0)),
        hand("apr1_read C missing", read(&[&[1, 0]], 4), (4, 6, 0)),
        hand("apr1_read C cut", read(&[&[1, 0, 0x80]], 4), (4, 7, 0)),
        hand("apr1_read D missing", read(&[&[1, 0, 1]], 4), (4, 7, 0)),
        hand("apr1_read D cut", read(&[&[1, 0, 1, 0x81]], 4), (4, 8, 0)),
        hand("apr1_read second C missing", read(&[&[2, 0, 1, 4]], 4), (4, 8, 0)),
        hand("apr1_read N largest, no pairs", read(&[&MINUS1, &[0]], 4), (4, 10, 0)),
        hand("apr1_read N largest, one pair", read(&[&MINUS1, &[0, 1, 4]], 4), (4, 12, 0)),
    ];
    for (name, bad) in [("wide", WIDE), ("long", LONG)] {
        let named = |field: &str| format!("apr1_read {field} {name}");
        let pair = [1, 0, 1, 4];
        hands.extend([
            hand(&named("N"), read(&[&bad, &[0]], 4), (5, 8, 0)),
            hand(&named("A"), read(&[&[0], &bad], 4), (5, 9, 0)),
            hand(&named("A behind padding"), read(&[&PADDED, &bad], 4), (5, 13, 0))
                .strictly((18, 4, 0)),
            hand(&named("C"), read(&[&[1, 0], &bad, &[4]], 4), (5, 10, 0)),
            hand(&named("D"), read(&[&[1, 0, 1], &bad], 4), (5, 11, 0)),
            hand(&named("D of C 0"), read(&[&[1, 0, 0], &bad], 4), (5, 11, 0)),
            hand(&named("second C"), read(&[&[2], &pair[1..], &bad], 4), (5, 12, 0)),
        ]);
    }
    hands
}

fn read_outside() -> Vec<Hand> {
    vec![
        hand("apr1_read A 2^32-3", read(&[&[0], &MINUS3], 4), (7, 5, 0)),
        hand("apr1_read A 2^32-1", read(&[&[0], &MINUS1], 4), (7, 5, 0)),
        hand("apr1_read A behind padded N", read(&[&[0x80, 0], &MINUS3], 4), (7, 6, 0))
            .strictly((18, 4, 0)),
        hand("apr1_read pair by 1", read(&[&[1], &MINUS8, &[1, 5]], 4), (7, 10, 0)),
        hand("apr1_read pair on its last", read(&[&[1], &MINUS8, &[2, 4]], 4), (7, 10, 0)),
        hand("apr1_read pair by 2s", read(&[&[1], &MINUS8, &[3, 2]], 9), (7, 10, 0)),
        hand("apr1_read one step too far", read(&[&[1, 0, 1], &MINUS3], 4), (7, 6, 0)),
        hand("apr1_read second pair", read(&[&[2, 0, 1, 4, 1], &MINUS1], 4), (7, 8, 0)),
        hand("apr1_read padded C", read(&[&[1, 0, 0x81, 0], &MINUS1], 4), (7, 6, 0))
            .strictly((18, 6, 0)),
        hand("apr1_read largest pair", read(&[&[1, 0], &MINUS1, &MINUS1], 4), (7, 6, 0)),
        hand("apr1_read largest C by 1", read(&[&[1, 0], &MINUS1, &[1]], 4), (7, 6, 0)),
    ]
}

/// The count under 9, however large.
fn read_counts() -> Vec<Hand> {
    let max = u32::MAX as u64;
    let two = [&[2u8, 0][..], &MINUS1, &[0], &MINUS1, &[0]];
    vec![
        hand("apr1_read 2^32 records", read(&[&[1, 0], &MINUS1, &[0]], 4), (9, 0, 1 + max)),
        hand("apr1_read 2^33-1 records", read(&two, 4), (9, 0, 1 + 2 * max)),
        hand("apr1_read every offset", read(&[&[1, 0], &MINUS4, &[1]], 4), (9, 0, 1 + LARGEST)),
        hand("apr1_read many, no room", read(&[&[1, 0], &MINUS1, &[0]], 0), (9, 0, 1 + max)),
    ]
}

fn read_order() -> Vec<Hand> {
    vec![
        hand("apr1_read 3 before 8 and 9", read_raw(b"APX1\0\0\0", 0), (3, 0, 0)),
        hand("apr1_read 3 before 4", read_raw(b"APR", 0), (3, 0, 0)),
        hand("apr1_read 3 before 5", read_raw(&join(&[b"APX1", &LONG]), 4), (3, 0, 0)),
        hand("apr1_read 3 before 7", read_raw(&join(&[b"APX1\0", &MINUS1]), 4), (3, 0, 0)),
        hand("apr1_read N 5 before A 7", read(&[&WIDE, &MINUS1], 4), (5, 8, 0)),
        hand("apr1_read A 7 before 4", read(&[&[1], &MINUS3], 4), (7, 5, 0)),
        hand("apr1_read A 7 before 5", read(&[&[1], &MINUS3, &LONG], 4), (7, 5, 0)),
        hand("apr1_read A 7 before 8", read(&[&[0], &MINUS3, &[9]], 4), (7, 5, 0)),
        hand("apr1_read A 7 before 9", read(&[&[0], &MINUS3], 0), (7, 5, 0)),
        hand("apr1_read 4 before pair's 7", read(&[&[1], &MINUS4, &[1]], 4), (4, 11, 0)),
        hand("apr1_read 4 in D before 7", read(&[&[1], &MINUS4, &[1, 0x81]], 4), (4, 12, 0)),
        hand("apr1_read 5 in D before 7", read(&[&[1], &MINUS4, &[1], &LONG], 4), (5, 15, 0)),
        hand("apr1_read 5 in C before 4", read(&[&[1, 0], &WIDE], 4), (5, 10, 0)),
        hand("apr1_read pair's 7 before 4", read(&[&[2], &MINUS4, &[1, 1]], 4), (7, 10, 0)),
        hand("apr1_read pair's 7 before 5", read(&[&[2], &MINUS4, &[1, 1], &LONG], 4), (7, 10, 0)),
        hand("apr1_read pair's 7 before 8", read(&[&[1], &MINUS4, &[1, 1, 9]], 4), (7, 10, 0)),
        hand("apr1_read pair's 7 before 9", read(&[&[1], &MINUS4, &[1, 1]], 0), (7, 10, 0)),
        hand("apr1_read 4 before 9", read(&[&[2, 0, 1, 4]], 0), (4, 8, 0)),
        hand("apr1_read 5 before 9", read(&[&[1, 0, 1], &LONG], 0), (5, 11, 0)),
        hand("apr1_read 8", read(&[&H, &[0]], 4), (8, 11, 0)),
        hand("apr1_read 8 behind A", read(&[&[0, 0, 0, 0]], 4), (8, 6, 0)),
        hand("apr1_read 8 before 9", read(&[&H, &[0x80]], 0), (8, 11, 0)),
        hand("apr1_read 8 before large 9", read(&[&[1, 0], &MINUS1, &[0, 0]], 4), (8, 12, 0)),
    ]
}

/// A padded number among faults, before and behind it. An A outside the space takes
/// all the bytes that it may have, so that it is never padded.
fn read_padded() -> Vec<Hand> {
    let late = [3, 0, 1, 4, 1, 8, 1, 0x84, 0];
    let two = [1, 0x88, 0, 2, 0x84, 0];
    vec![
        hand("apr1_read 3 before 18", read_raw(b"APX1\x80\0\0", 4), (3, 0, 0)),
        hand("apr1_read N 18 before 4", read(&[&[0x80, 0]], 4), (4, 6, 0)).strictly((18, 4, 0)),
        hand("apr1_read A 18 before 4", read(&[&[1, 0x88, 0]], 4), (4, 7, 0)).strictly((18, 5, 0)),
        hand("apr1_read C 18 before 4", read(&[&[1, 0, 0x81, 0]], 4), (4, 8, 0))
            .strictly((18, 6, 0)),
        hand("apr1_read D 18 before 4", read(&[&[2, 0, 1, 0x84, 0]], 4), (4, 9, 0))
            .strictly((18, 7, 0)),
        hand("apr1_read A padded and cut", read(&[&[0, 0x88, 0x80]], 4), (4, 7, 0)),
        hand("apr1_read D padded and cut", read(&[&[1, 0, 1, 0x84, 0x80]], 4), (4, 9, 0)),
        hand("apr1_read A 18 before 5", read(&[&[1, 0x88, 0], &LONG], 4), (5, 11, 0))
            .strictly((18, 5, 0)),
        hand("apr1_read C 18 before D 5", read(&[&[1, 0, 0x81, 0], &WIDE], 4), (5, 12, 0))
            .strictly((18, 6, 0)),
        hand("apr1_read N 5 before A 18", read(&[&WIDE, &[0x80, 0]], 4), (5, 8, 0)),
        hand("apr1_read C 5 before D 18", read(&[&[1, 0], &LONG, &[0x84, 0]], 4), (5, 10, 0)),
        hand("apr1_read A 7 before C 18", read(&[&[1], &MINUS3, &[0x81, 0, 4]], 4), (7, 5, 0)),
        hand(
            "apr1_read D 18 before pair's 7",
            read(&[&[1], &MINUS4, &[1, 0x84, 0]], 4),
            (7, 10, 0),
        )
        .strictly((18, 11, 0)),
        hand(
            "apr1_read C 18 before pair's 7",
            read(&[&[1], &MINUS4, &[0x81, 0, 4]], 4),
            (7, 10, 0),
        )
        .strictly((18, 10, 0)),
        hand(
            "apr1_read pair's 7 before 18",
            read(&[&[2], &MINUS4, &[1, 4, 0x81, 0]], 4),
            (7, 10, 0),
        ),
        hand("apr1_read 18 before 8", read(&[&[0x80, 0, 8, 9]], 4), (8, 7, 0)).strictly((18, 4, 0)),
        hand("apr1_read 8 of a padded number", read(&[&[0, 8, 0x80, 0]], 4), (8, 6, 0)),
        hand("apr1_read 18 before 9", read(&[&[1, 8, 2, 0x84, 0]], 2), (9, 0, 3))
            .strictly((18, 7, 0)),
        hand("apr1_read 18 of C 0", read(&[&[1, 8, 0x80, 0, 4]], 1), (0, 0, 1))
            .strictly((18, 6, 0)),
        hand("apr1_read 18 of D at C 0", read(&[&[1, 8, 0, 0x84, 0]], 1), (0, 0, 1))
            .strictly((18, 7, 0)),
        hand("apr1_read 18 of D 0", read(&[&[1, 8, 3, 0x80, 0]], 4), (0, 0, 4))
            .strictly((18, 7, 0)),
        hand("apr1_read 18 of the last D", read(&[&late], 4), (0, 0, 4)).strictly((18, 11, 0)),
        hand("apr1_read 18 of two", read(&[&two], 3), (0, 0, 3)).strictly((18, 5, 0)),
    ]
}

/// Numbers at the ends of their lengths, each in its shortest form, and a run that
/// is split: accepted in both settings.
fn read_shortest() -> Vec<Hand> {
    let pairs = [
        [0, 0x7F],
        [0, 0x80],
        [0, 0x3FFF],
        [0, 0x4000],
        [0, 0x1F_FFFF],
        [0, 0x20_0000],
        [0, 0xFFF_FFFF],
        [0, 0x1000_0000],
        [0, 0xFFFF_FFFF],
        [0x7F, 0],
        [0x80, 0],
    ];
    let pairs = pairs.concat().into_iter().flat_map(|value| number(Unsigned(32), value));
    let pairs: Vec<u8> = pairs.collect();
    let split = [4, 8, 1, 4, 0, 4, 1, 4, 1, 0];
    vec![
        hand("apr1_read shortest forms", read(&[&[11], &MINUS4, &pairs], 256), (0, 0, 256)),
        hand("apr1_read 127 pairs", read(&[&[0x7F, 0], &[0; 254]], 1), (0, 0, 1)),
        hand("apr1_read 128 pairs", read(&[&[0x80, 1, 0], &[0; 256]], 1), (0, 0, 1)),
        hand("apr1_read split run, C 0, D 0", read(&[&split], 4), (0, 0, 4)),
    ]
}

fn write_accepted() -> Vec<Hand> {
    let cases: [(&str, &[u64], usize); 10] = [
        ("H", &[0x1000, 0x1004, 0x1008, 0x1010], 11),
        ("zero", &[0], 6),
        ("one-byte A", &[127], 6),
        ("two-byte A", &[128], 7),
        ("largest", &[LARGEST], 10),
        ("both ends", &[0, LARGEST], 12),
        ("odd", &[1, 2, 3], 8),
        ("three runs", &[0, 4, 8, 16, 24, 28], 12),
        ("no two gaps equal", &[0, 1, 3, 6, 10], 14),
        ("gap of two bytes", &[5, 133, 260], 11),
    ];
    let mut hands = Vec::new();
    for (name, list, need) in cases {
        let name = format!("apr1_write {name}");
        hands.extend(rooms(&name, need, |room| write(list, room)));
    }
    let long: Vec<u64> = (0..129).map(|k| 4 * k).collect();
    hands.extend(rooms("apr1_write run of 128", 9, |room| write(&long, room)));
    hands
}

fn write_refused() -> Vec<Hand> {
    vec![
        hand("apr1_write empty", write(&[], 99), (13, 0, 0)),
        hand("apr1_write 13 before 9", write(&[], 0), (13, 0, 0)),
        hand("apr1_write 2^32-3", write(&[LARGEST + 1], 99), (7, 0, 0)),
        hand("apr1_write 2^32", write(&[0, 1 << 32], 99), (7, 1, 0)),
        hand("apr1_write u64 max", write(&[0, 4, u64::MAX], 99), (7, 2, 0)),
        hand("apr1_write one above", write(&[LARGEST, LARGEST + 1], 99), (7, 1, 0)),
        hand("apr1_write equal", write(&[4, 4], 99), (6, 1, 0)),
        hand("apr1_write below", write(&[4, 3], 99), (6, 1, 0)),
        hand("apr1_write third below", write(&[4, 8, 0], 99), (6, 2, 0)),
        hand("apr1_write 6 then 7", write(&[4, 4, 1 << 40], 99), (6, 1, 0)),
        hand("apr1_write 7 then 6", write(&[4, 1 << 40, 4], 99), (7, 1, 0)),
        hand("apr1_write 7 first then 6", write(&[1 << 40, 4], 99), (7, 0, 0)),
        hand("apr1_write 6 before 9", write(&[4, 4], 0), (6, 1, 0)),
        hand("apr1_write 7 before 9", write(&[LARGEST + 1], 0), (7, 0, 0)),
        hand("apr1_write last 7 before 9", write(&[0, 4, 1 << 32], 3), (7, 2, 0)),
    ]
}
