//! Hand-made cases of RELR tables in the other byte order than the call is told.
//! The tables here are big-endian and taken as little-endian; their twins are
//! little-endian and taken as big-endian. Both see the same words.

use super::calls::RELR_READ;
use super::case::Case;
use super::hand::{Hand, hand, rooms};
use super::hand_relr::{TOP4, TOP8};
use super::tables::{relr_bytes, turned};

/// One word, and where it is seen, in class 8.
const LINKED: u64 = 0x1000;
const SEEN: u64 = 0x0010_0000_0000_0000;

/// Bitmaps that are the same in both orders, of three locations each.
const SAME4: u64 = 0x8100_0081;
const SAME8: u64 = 0x8100_0000_0000_0081;

fn table(class: u32, words: &[u64]) -> Vec<u8> {
    turned(class, &relr_bytes(class, words))
}

fn read(class: u32, words: &[u64], room: usize) -> Case {
    Case::read_into(RELR_READ, class, &table(class, words), room)
}

fn apply(class: u32, words: &[u64], start: u64, image: &[u8]) -> Case {
    Case::apply(class, &table(class, words), 0xFEDC_BA98, start, image)
}

pub fn all() -> Vec<Hand> {
    let mut hands = Vec::new();
    hands.extend(read_rooms());
    hands.extend(read_words());
    hands.extend(apply_words());
    for hand in &mut hands {
        hand.name = format!("{} other order, {}", hand.case.call().name, hand.name);
    }
    hands
}

/// Cases C to G: no word is odd once its bytes are turned, so each is an offset.
fn read_rooms() -> Vec<Hand> {
    let cases: [(&str, u32, &[u64]); 5] = [
        ("C", 8, &[0x2000, 0xF]),
        ("D", 8, &[0x2000, 1 << 63 | 1]),
        ("E between", 8, &[0x2000, 1 << 63 | 1, 3]),
        ("F", 4, &[0x100, 0x8000_0001]),
        ("G", 8, &[0x10, 0x14, 0x18, 3]),
    ];
    let tried = |(name, class, words): (&str, u32, &[u64])| {
        rooms(name, words.len(), |room| read(class, words, room))
    };
    cases.into_iter().flat_map(tried).collect()
}

/// Addresses seen as bitmaps and bitmaps seen as addresses.
fn read_words() -> Vec<Hand> {
    // Seen as the bitmap of the first location.
    let (one4, one8) = (0x0300_0000, 0x0300_0000_0000_0000);
    vec![
        hand("M", read(8, &[1], 1), (0, 0, 1)),
        hand("M class 4", read(4, &[1], 1), (0, 0, 1)),
        hand("K", read(8, &[TOP8], 1), (6, 0, 0)),
        hand("K class 4", read(4, &[TOP4], 1), (6, 0, 0)),
        hand("bitmap first", read(4, &[0x0100_0000, 0x100], 2), (6, 0, 0)),
        hand("empty bitmap", read(4, &[0x100, 0x0100_0000], 1), (0, 0, 1)),
        hand("bitmap", read(8, &[0x10, one8], 2), (0, 0, 2)),
        hand("bitmap, class 4", read(4, &[0x10, one4], 2), (0, 0, 2)),
        hand("address outside", read(8, &[0x10, 0xFAFF_FFFF_FFFF_FFFF], 9), (7, 8, 0)),
        hand("address outside, class 4", read(4, &[0x10, 0xFEFF_FFFF], 9), (7, 4, 0)),
        hand("bitmap outside", read(8, &[0xF8FF_FFFF_FFFF_FFFF, one8], 9), (7, 8, 0)),
        hand("bitmap outside, class 4", read(4, &[0xFCFF_FFFF, one4], 9), (7, 4, 0)),
        hand("same words", read(8, &[0, SAME8], 4), (0, 0, 4)),
        hand("same words, class 4", read(4, &[0, SAME4], 4), (0, 0, 4)),
    ]
}

fn apply_words() -> Vec<Hand> {
    let image = [0x22; 128];
    let based = Case::apply(4, &table(4, &[0x0100_0000]), 1 << 32, 0, &image);
    vec![
        hand("J", Case::apply(8, &table(8, &[0]), 1, 0, &[0xFF; 8]), (0, 0, 1)),
        hand("carry", Case::apply(4, &table(4, &[0]), 1, 0, &[0, 0, 0, 0xFF]), (0, 0, 1)),
        hand("offset 8", apply(8, &[0, 8], 0, &image), (12, 1, 0)),
        hand("offset 4, class 4", apply(4, &[4], 0, &image), (12, 0, 0)),
        hand("bitmap", apply(8, &[0, 0x0700_0000_0000_0000], 0, &image[..24]), (0, 0, 3)),
        hand("bitmap, class 4", apply(4, &[0, 0x0700_0000], 0, &image[..12]), (0, 0, 3)),
        hand("start", apply(8, &[LINKED], LINKED, &image), (12, 0, 0)),
        hand("start as seen", apply(8, &[LINKED], SEEN, &image[..8]), (0, 0, 1)),
        hand("start as seen, class 4", apply(4, &[LINKED, 3], 0x0010_0000, &image), (12, 1, 0)),
        hand("same words, class 4", apply(4, &[0, SAME4], 0, &image), (0, 0, 4)),
        hand("same words, short", apply(4, &[0, SAME4], 0, &image[..127]), (12, 3, 0)),
        hand("bitmap first", apply(4, &[0x0100_0000, 0], 0, &image), (6, 0, 0)),
        hand("address outside", apply(4, &[0, 0xFEFF_FFFF], 0, &image), (7, 4, 0)),
        hand("15 before 6", based, (15, 0, 0)),
    ]
}
