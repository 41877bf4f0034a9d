//! Hand-made cases of RELR.

use super::calls::{RELR_READ, RELR_WRITE};
use super::case::Case;
use super::hand::{Hand, hand, rooms};
use super::tables::relr_bytes;

/// The end of each class's address space, less one word, and outside it.
pub const TOP4: u64 = 0xFFFF_FFFC;
pub const OUT4: u64 = 0xFFFF_FFFE;
pub const TOP8: u64 = 0xFFFF_FFFF_FFFF_FFF8;
pub const OUT8: u64 = 0xFFFF_FFFF_FFFF_FFFA;

/// Where an image starts whose first segment is linked there.
const LINKED: u64 = 0x1000;

const BAD_CLASSES: [u32; 12] = [0, 1, 2, 3, 5, 6, 7, 9, 32, 64, 0x0100_0004, 0xFFFF_FFFF];

fn read(class: u32, words: &[u64], room: usize) -> Case {
    Case::read_into(RELR_READ, class, &relr_bytes(class, words), room)
}

/// A table with `more` bytes behind its words.
fn read_more(class: u32, words: &[u64], more: usize, room: usize) -> Case {
    let mut table = relr_bytes(class, words);
    table.resize(table.len() + more, 0);
    Case::read_into(RELR_READ, class, &table, room)
}

fn write(class: u32, offsets: &[u64], room: usize) -> Case {
    Case::write(RELR_WRITE, class, offsets, room)
}

/// An image that starts at 0.
fn apply(class: u32, words: &[u64], base: u64, image: &[u8]) -> Case {
    Case::apply(class, &relr_bytes(class, words), base, 0, image)
}

/// An image that starts at an address.
fn apply_at(class: u32, words: &[u64], start: u64, image: &[u8]) -> Case {
    Case::apply(class, &relr_bytes(class, words), 0xFEDC_BA98, start, image)
}

/// An image of 64 bytes, no two of them equal.
fn bytes64() -> Vec<u8> {
    (0..64).map(|k| (k * 37 + 200) as u8).collect()
}

/// `count` offsets from `first` on, `gap` apart.
fn row(first: u64, gap: u64, count: u64) -> Vec<u64> {
    (0..count).map(|k| first + gap * k).collect()
}

pub fn all() -> Vec<Hand> {
    let mut hands = Vec::new();
    hands.extend(worked());
    hands.extend(read_accepted());
    hands.extend(read_refused());
    hands.extend(read_outside());
    hands.extend(read_order());
    hands.extend(write_accepted());
    hands.extend(write_windows());
    hands.extend(write_refused());
    hands.extend(write_order());
    hands.extend(apply_accepted());
    hands.extend(apply_refused());
    hands.extend(apply_order());
    hands.extend([4, 8].into_iter().flat_map(apply_start));
    hands
}

/// Cases C to G, each read and written in every room.
fn worked() -> Vec<Hand> {
    let cases: [(&str, u32, &[u64], &[u64]); 6] = [
        ("C", 8, &[0x2000, 0x2008, 0x2010, 0x2018], &[0x2000, 0xF]),
        ("D", 8, &[0x2000, 0x21F8], &[0x2000, 1 << 63 | 1]),
        ("E", 8, &[0x2000, 0x2200], &[0x2000, 0x2200]),
        ("E between", 8, &[0x2000, 0x21F8, 0x2200], &[0x2000, 1 << 63 | 1, 3]),
        ("F", 4, &[0x100, 0x17C], &[0x100, 0x8000_0001]),
        ("G", 8, &[0x10, 0x14, 0x18, 0x20], &[0x10, 0x14, 0x18, 3]),
    ];
    let mut hands = Vec::new();
    for (name, class, list, words) in cases {
        let need = words.len() * class as usize;
        let reading = format!("relr_read {name}");
        let writing = format!("relr_write {name}");
        hands.extend(rooms(&reading, list.len(), |room| read(class, words, room)));
        hands.extend(rooms(&writing, need, |room| write(class, list, room)));
    }
    hands
}

fn read_accepted() -> Vec<Hand> {
    let full4 = 0xFFFF_FFFF;
    let full8 = u64::MAX;
    let mut hands = vec![
        hand("relr_read class 4 empty, no room", read(4, &[], 0), (0, 0, 0)),
        hand("relr_read class 8 empty, no room", read(8, &[], 0), (0, 0, 0)),
        hand("relr_read class 8 empty, room", read(8, &[], 3), (0, 0, 0)),
        hand("relr_read E other least", read(8, &[0x2000, 0x21F8, 3], 3), (0, 0, 3)),
        hand("relr_read K", read(8, &[TOP8], 1), (0, 0, 1)),
        hand("relr_read K class 4", read(4, &[TOP4], 1), (0, 0, 1)),
        hand("relr_read offset 0", read(8, &[0], 1), (0, 0, 1)),
        hand("relr_read empty bitmap moves", read(8, &[0x2000, 1, 3], 2), (0, 0, 2)),
        hand("relr_read 4 empty bitmap moves", read(4, &[0x2000, 1, 3], 2), (0, 0, 2)),
        hand("relr_read empty bitmap last", read(8, &[0x2000, 1], 1), (0, 0, 1)),
        hand("relr_read two empty last", read(4, &[0x2000, 1, 1], 1), (0, 0, 1)),
        hand("relr_read repeats", read(8, &[0x100, 0x100, 0x100], 3), (0, 0, 3)),
        hand("relr_read goes back", read(4, &[0x100, 3, 0x80, 0x104], 4), (0, 0, 4)),
        hand("relr_read bitmap after back", read(8, &[0x100, 0x80, 0xB], 4), (0, 0, 4)),
        hand("relr_read one word is two", read(4, &[0x10, 0x20], 2), (0, 0, 2)),
        hand("relr_read full to the top 4", read(4, &[0xFFFF_FF80, full4], 32), (0, 0, 32)),
        hand("relr_read empty over the top 4", read(4, &[TOP4, 1, 1, 1], 1), (0, 0, 1)),
        hand("relr_read full to the top 8", read(8, &[u64::MAX - 511, full8], 64), (0, 0, 64)),
        hand("relr_read empty over the top 8", read(8, &[TOP8, 1, 1, 1], 1), (0, 0, 1)),
        hand("relr_read odd multiple of 2", read(4, &[0xFFFF_FFF6, 3], 2), (0, 0, 2)),
        hand("relr_read odd multiple of 2, 8", read(8, &[u64::MAX - 17, 3], 2), (0, 0, 2)),
    ];
    let chain = [0x40, full8, full8, 1, full8];
    hands.extend(rooms("relr_read chain 8", 190, |room| read(8, &chain, room)));
    let chain = [0x40, full4, full4, 1, full4];
    hands.extend(rooms("relr_read chain 4", 94, |room| read(4, &chain, room)));
    hands
}

fn read_refused() -> Vec<Hand> {
    let mut hands = Vec::new();
    for class in BAD_CLASSES {
        let name = format!("relr_read class {class}");
        hands.push(hand(&name, read(class, &[0x10], 4), (1, 0, 0)));
    }
    for length in [1, 2, 3, 5, 6, 7, 9] {
        let name = format!("relr_read class 4 length {length}");
        let case = read_more(4, &[], length, 9);
        hands.push(hand(&name, case, (4, length as u64, 0)));
    }
    for length in [1, 4, 7, 9, 12, 15, 20] {
        let name = format!("relr_read class 8 length {length}");
        let case = read_more(8, &[], length, 9);
        hands.push(hand(&name, case, (4, length as u64, 0)));
    }
    hands.extend([
        hand("relr_read M", read(8, &[1], 1), (6, 0, 0)),
        hand("relr_read M class 4", read(4, &[1], 1), (6, 0, 0)),
        hand("relr_read bitmap first", read(8, &[0xF, 0x2000], 9), (6, 0, 0)),
        hand("relr_read bitmap first 4", read(4, &[u32::MAX as u64], 99), (6, 0, 0)),
    ]);
    hands
}

fn read_outside() -> Vec<Hand> {
    let full4 = 0xFFFF_FFFF;
    vec![
        hand("relr_read K outside", read(8, &[OUT8], 1), (7, 0, 0)),
        hand("relr_read K outside 4", read(4, &[OUT4], 1), (7, 0, 0)),
        hand("relr_read largest even", read(8, &[u64::MAX - 1], 1), (7, 0, 0)),
        hand("relr_read outside second", read(8, &[0x10, OUT8], 9), (7, 8, 0)),
        hand("relr_read outside second 4", read(4, &[0x10, OUT4], 9), (7, 4, 0)),
        hand("relr_read first of two outside", read(4, &[0x10, OUT4, OUT4], 9), (7, 4, 0)),
        hand("relr_read bitmap outside", read(8, &[TOP8, 3], 9), (7, 8, 0)),
        hand("relr_read bitmap outside 4", read(4, &[TOP4, 3], 9), (7, 4, 0)),
        hand("relr_read where does not wrap 4", read(4, &[TOP4, 1, 1 << 31 | 1], 9), (7, 8, 0)),
        hand("relr_read where does not wrap 8", read(8, &[TOP8, 1, 1 << 63 | 1], 9), (7, 16, 0)),
        hand("relr_read bitmap top bit outside", read(8, &[TOP8 - 8, 1 << 63 | 3], 9), (7, 8, 0)),
        hand("relr_read outside then back", read(4, &[TOP4, 3, 0x10], 9), (7, 4, 0)),
        hand("relr_read full then outside 4", read(4, &[0xFFFF_FF80, full4, 3], 99), (7, 8, 0)),
        hand("relr_read full by one word 4", read(4, &[0xFFFF_FF84, full4], 99), (7, 4, 0)),
        hand("relr_read full by one word 8", read(8, &[u64::MAX - 503, u64::MAX], 99), (7, 8, 0)),
        hand("relr_read half a word out 4", read(4, &[0xFFFF_FFF6, 5], 9), (7, 4, 0)),
        hand("relr_read half a word out 8", read(8, &[u64::MAX - 17, 5], 9), (7, 8, 0)),
    ]
}

fn read_order() -> Vec<Hand> {
    vec![
        hand("relr_read 1 before 4", read_more(5, &[0x10], 3, 9), (1, 0, 0)),
        hand("relr_read 1 before 6", read(5, &[1], 9), (1, 0, 0)),
        hand("relr_read 1 before 7", read(5, &[OUT8], 9), (1, 0, 0)),
        hand("relr_read 1 before 9", read(5, &[0x10], 0), (1, 0, 0)),
        hand("relr_read 4 before 6", read_more(8, &[1], 1, 9), (4, 9, 0)),
        hand("relr_read 4 before 7", read_more(8, &[0x10, OUT8], 4, 9), (4, 20, 0)),
        hand("relr_read 4 before 7, class 4", read_more(4, &[OUT4], 2, 9), (4, 6, 0)),
        hand("relr_read 4 before 9", read_more(4, &[0x10], 1, 0), (4, 5, 0)),
        hand("relr_read 6 before 7", read(8, &[3, OUT8], 9), (6, 0, 0)),
        hand("relr_read 6 before 9", read(8, &[3, 0x10], 0), (6, 0, 0)),
        hand("relr_read 7 before 9", read(8, &[0x10, 0x20, OUT8], 0), (7, 16, 0)),
        hand("relr_read 7 before 9, bitmap", read(4, &[TOP4, 3], 0), (7, 4, 0)),
        hand("relr_read 7 before 9, one short", read(4, &[0, 4, OUT4], 1), (7, 8, 0)),
    ]
}

fn write_accepted() -> Vec<Hand> {
    let g4 = [0x10, 0x12, 0x14, 0x18];
    vec![
        hand("relr_write class 4 empty, no room", write(4, &[], 0), (0, 0, 0)),
        hand("relr_write class 8 empty, no room", write(8, &[], 0), (0, 0, 0)),
        hand("relr_write class 8 empty, room", write(8, &[], 9), (0, 0, 0)),
        hand("relr_write offset 0", write(8, &[0], 8), (0, 0, 8)),
        hand("relr_write K", write(8, &[TOP8], 8), (0, 0, 8)),
        hand("relr_write K class 4", write(4, &[TOP4], 4), (0, 0, 4)),
        hand("relr_write G class 4", write(4, &g4, 16), (0, 0, 16)),
        hand("relr_write two apart 4", write(4, &row(0, 2, 8), 32), (0, 0, 32)),
        hand("relr_write four apart 8", write(8, &row(2, 4, 8), 64), (0, 0, 64)),
        hand("relr_write to the top 4", write(4, &row(0xFFFF_FF80, 4, 32), 8), (0, 0, 8)),
        hand("relr_write to the top 8", write(8, &row(u64::MAX - 511, 8, 64), 16), (0, 0, 16)),
        hand("relr_write top, other residue", write(4, &[0xFFFF_FFF6, 0xFFFF_FFFA], 8), (0, 0, 8)),
        hand("relr_write both ends 4", write(4, &[0, TOP4], 8), (0, 0, 8)),
        hand("relr_write both ends 8", write(8, &[0, TOP8], 16), (0, 0, 16)),
        hand("relr_write hole in a bitmap", write(8, &[0, 8, 24, 26, 40, 48], 40), (0, 0, 40)),
    ]
}

/// The ends of the windows of 31 and 63, and one more.
fn write_windows() -> Vec<Hand> {
    let cases: [(u32, Vec<u64>, usize); 16] = [
        (4, row(0x100, 4, 32), 8),
        (4, row(0x100, 4, 33), 12),
        (4, row(0x100, 4, 63), 12),
        (4, row(0x100, 4, 64), 16),
        (8, row(0x100, 8, 64), 16),
        (8, row(0x100, 8, 65), 24),
        (8, row(0x100, 8, 127), 24),
        (8, row(0x100, 8, 128), 32),
        (4, vec![0, 4 * 31], 8),
        (4, vec![0, 4 * 32], 8),
        (4, vec![0, 4 * 31, 4 * 32, 4 * 62, 4 * 63], 16),
        (4, vec![0, 4 * 31, 4 * 63, 4 * 64], 16),
        (8, vec![0, 8 * 63], 16),
        (8, vec![0, 8 * 64], 16),
        (8, vec![0, 8 * 63, 8 * 64, 8 * 126, 8 * 127], 32),
        (8, vec![0, 8 * 63, 8 * 127, 8 * 128], 32),
    ];
    let mut hands = Vec::new();
    for (class, list, need) in cases {
        let name = format!("relr_write window class {class} of {}", list.len());
        hands.extend(rooms(&name, need, |room| write(class, &list, room)));
    }
    hands
}

fn write_refused() -> Vec<Hand> {
    let mut hands = Vec::new();
    for class in BAD_CLASSES {
        let name = format!("relr_write class {class}");
        hands.push(hand(&name, write(class, &[0x10], 16), (1, 0, 0)));
    }
    hands.extend([
        hand("relr_write odd first", write(8, &[1], 99), (10, 0, 0)),
        hand("relr_write odd second 4", write(4, &[0x10, 0x15], 99), (10, 1, 0)),
        hand("relr_write odd third", write(8, &[0x10, 0x18, 0x21], 99), (10, 2, 0)),
        hand("relr_write K outside", write(8, &[OUT8], 99), (7, 0, 0)),
        hand("relr_write K outside 4", write(4, &[OUT4], 99), (7, 0, 0)),
        hand("relr_write class 4 wide", write(4, &[0x1_0000_0000], 99), (7, 0, 0)),
        hand("relr_write class 4 wide second", write(4, &[0, u64::MAX - 1], 99), (7, 1, 0)),
        hand("relr_write outside second", write(8, &[TOP8, OUT8], 99), (7, 1, 0)),
        hand("relr_write equal", write(8, &[0x10, 0x10], 99), (6, 1, 0)),
        hand("relr_write equal 4", write(4, &[0, 0], 99), (6, 1, 0)),
        hand("relr_write below", write(8, &[0x10, 0x8], 99), (6, 1, 0)),
        hand("relr_write below third 4", write(4, &[0x10, 0x14, 0x12], 99), (6, 2, 0)),
        hand("relr_write equal third", write(8, &[0x10, 0x18, 0x18], 99), (6, 2, 0)),
    ]);
    hands
}

fn write_order() -> Vec<Hand> {
    vec![
        hand("relr_write 1 before 10", write(6, &[1], 99), (1, 0, 0)),
        hand("relr_write 1 before 7", write(6, &[OUT8], 99), (1, 0, 0)),
        hand("relr_write 1 before 6", write(6, &[8, 8], 99), (1, 0, 0)),
        hand("relr_write 1 before 9", write(6, &[8], 0), (1, 0, 0)),
        hand("relr_write 1, empty", write(6, &[], 0), (1, 0, 0)),
        hand("relr_write 10 before 7", write(8, &[u64::MAX], 99), (10, 0, 0)),
        hand("relr_write 10 before 7, 4", write(4, &[0, 0x1_0000_0001], 99), (10, 1, 0)),
        hand("relr_write 10 before 6", write(8, &[0x10, 0x9], 99), (10, 1, 0)),
        hand("relr_write 10 before 6, 4", write(4, &[0x10, 0x14, 0x11], 99), (10, 2, 0)),
        hand("relr_write 6 then 10", write(8, &[8, 8, 9], 99), (6, 1, 0)),
        hand("relr_write 10 then 6", write(8, &[8, 9, 9], 99), (10, 1, 0)),
        hand("relr_write 7 then 10", write(8, &[8, OUT8, 9], 99), (7, 1, 0)),
        hand("relr_write 10 then 7", write(8, &[9, OUT8], 99), (10, 0, 0)),
        hand("relr_write 7 then 6", write(4, &[8, OUT4, 8], 99), (7, 1, 0)),
        hand("relr_write 6 then 7", write(4, &[8, 4, OUT4], 99), (6, 1, 0)),
        hand("relr_write 10 before 9", write(8, &[8, 9], 0), (10, 1, 0)),
        hand("relr_write 7 before 9", write(4, &[8, OUT4], 0), (7, 1, 0)),
        hand("relr_write 6 before 9", write(8, &[8, 8], 0), (6, 1, 0)),
        hand("relr_write 6 before 9, one short", write(8, &[8, 32, 32], 15), (6, 2, 0)),
    ]
}

fn apply_accepted() -> Vec<Hand> {
    let ff = [0xFF; 24];
    let image = bytes64();
    let all8 = u64::MAX;
    vec![
        hand("relr_apply J", apply(8, &[0], 1, &ff[..8]), (0, 0, 1)),
        hand("relr_apply J class 4", apply(4, &[0], 1, &ff[..4]), (0, 0, 1)),
        hand("relr_apply empty", apply(8, &[], 1, &[]), (0, 0, 0)),
        hand("relr_apply empty, image", apply(4, &[], 1, &ff), (0, 0, 0)),
        hand("relr_apply N", apply(8, &[0], 5, &image[..8]), (0, 0, 1)),
        hand("relr_apply to the end 4", apply(4, &[60], 5, &image), (0, 0, 1)),
        hand("relr_apply to the end 8", apply(8, &[0, 56], 5, &image), (0, 0, 2)),
        hand("relr_apply bitmap", apply(8, &[0, 0xFF], 0x0102_0304_0506, &image), (0, 0, 8)),
        hand("relr_apply bitmap 4", apply(4, &[0, 0x5555], 0xFFFF_FFFF, &image), (0, 0, 8)),
        hand("relr_apply largest base 8", apply(8, &[8], all8, &ff), (0, 0, 1)),
        hand("relr_apply largest base 4", apply(4, &[8], 0xFFFF_FFFF, &ff), (0, 0, 1)),
        hand("relr_apply base 0", apply(8, &[8], 0, &image), (0, 0, 1)),
        hand("relr_apply twice", apply(8, &[8, 8], 0xFEDC_BA98, &image), (0, 0, 2)),
        hand("relr_apply overlap up", apply(4, &[0, 2], 0x1_FFFF, &[0; 6]), (0, 0, 2)),
        hand("relr_apply overlap down", apply(4, &[2, 0], 0x1_FFFF, &[0; 6]), (0, 0, 2)),
        hand("relr_apply overlap 8", apply(8, &[0, 6, 2, 4], all8 / 3, &image), (0, 0, 4)),
        hand("relr_apply no carry out 4", apply(4, &[4], 1, &ff), (0, 0, 1)),
        hand("relr_apply empty bitmap past", apply(8, &[0, 1, 1], 9, &image[..8]), (0, 0, 1)),
        hand("relr_apply goes back", apply(4, &[40, 3, 0, 3], 77, &image), (0, 0, 4)),
    ]
}

fn apply_refused() -> Vec<Hand> {
    let image = [0x11; 64];
    let mut hands = Vec::new();
    for class in BAD_CLASSES {
        let name = format!("relr_apply class {class}");
        hands.push(hand(&name, apply(class, &[0], 1, &image), (1, 0, 0)));
    }
    let odd4 = Case::apply(4, &[0; 7], 1, 0, &image);
    let odd8 = Case::apply(8, &[0; 12], 1, 0, &image);
    hands.extend([
        hand("relr_apply length 4", odd4, (4, 7, 0)),
        hand("relr_apply length 8", odd8, (4, 12, 0)),
        hand("relr_apply bitmap first", apply(8, &[3], 1, &image), (6, 0, 0)),
        hand("relr_apply bitmap first 4", apply(4, &[1], 1, &image), (6, 0, 0)),
        hand("relr_apply outside", apply(8, &[OUT8], 1, &image), (7, 0, 0)),
        hand("relr_apply outside 4", apply(4, &[0, OUT4], 1, &image), (7, 4, 0)),
        hand("relr_apply bitmap outside", apply(8, &[TOP8, 3], 1, &image), (7, 8, 0)),
        hand("relr_apply N outside", apply(8, &[2], 1, &image[..8]), (12, 0, 0)),
        hand("relr_apply no image", apply(4, &[0], 1, &[]), (12, 0, 0)),
        hand("relr_apply short image", apply(4, &[0], 1, &image[..3]), (12, 0, 0)),
        hand("relr_apply short image 8", apply(8, &[0], 1, &image[..7]), (12, 0, 0)),
        hand("relr_apply second outside", apply(4, &[0, 62], 1, &image), (12, 1, 0)),
        hand("relr_apply in bitmap", apply(8, &[32, 0x1F], 1, &image), (12, 4, 0)),
        hand("relr_apply in second bitmap", apply(4, &[0, 7, 3], 1, &image), (12, 3, 0)),
        hand("relr_apply outside, then inside", apply(8, &[0, 64, 8], 1, &image), (12, 1, 0)),
        hand("relr_apply first of two", apply(8, &[0, 8, 58, 64], 1, &image), (12, 2, 0)),
        hand("relr_apply top of class 4", apply(4, &[TOP4], 1, &image), (12, 0, 0)),
        hand("relr_apply top of class 8", apply(8, &[8, TOP8], 1, &image), (12, 1, 0)),
        hand("relr_apply base 2^32", apply(4, &[0], 1 << 32, &image), (15, 0, 0)),
        hand("relr_apply largest base", apply(4, &[0], u64::MAX, &image), (15, 0, 0)),
        hand("relr_apply base, empty table", apply(4, &[], 1 << 32, &[]), (15, 0, 0)),
    ]);
    hands
}

fn apply_order() -> Vec<Hand> {
    let image = [0x22; 16];
    let big = 1 << 32;
    let more = |class, word| {
        let mut table = relr_bytes(class, &[word]);
        table.push(0);
        Case::apply(class, &table, 1, 0, &image)
    };
    let odd = |class, base| Case::apply(class, &[1, 0, 0, 0, 0, 0, 0, 0, 0xFE], base, 0, &[]);
    vec![
        hand("relr_apply 1 before 15", apply(5, &[0], big, &image), (1, 0, 0)),
        hand("relr_apply 1 before 4", odd(5, 1), (1, 0, 0)),
        hand("relr_apply 1 before 6", apply(5, &[1], 1, &image), (1, 0, 0)),
        hand("relr_apply 1 before 7", apply(5, &[OUT8], 1, &image), (1, 0, 0)),
        hand("relr_apply 1 before 12", apply(5, &[98], 1, &image), (1, 0, 0)),
        hand("relr_apply 15 before 4", odd(4, big), (15, 0, 0)),
        hand("relr_apply 15 before 6", apply(4, &[1], big, &image), (15, 0, 0)),
        hand("relr_apply 15 before 7", apply(4, &[OUT4], big, &image), (15, 0, 0)),
        hand("relr_apply 15 before 12", apply(4, &[99 * 2], big, &image), (15, 0, 0)),
        hand("relr_apply 4 before 6", odd(4, 1), (4, 9, 0)),
        hand("relr_apply 4 before 6, class 8", odd(8, 1), (4, 9, 0)),
        hand("relr_apply 4 before 7", more(8, OUT8), (4, 9, 0)),
        hand("relr_apply 4 before 7, class 4", more(4, OUT4), (4, 5, 0)),
        hand("relr_apply 4 before 12", Case::apply(4, &[0; 5], 1, 0, &[]), (4, 5, 0)),
        hand("relr_apply 6 before 7", apply(8, &[1, OUT8], 1, &image), (6, 0, 0)),
        hand("relr_apply 6 before 12", apply(8, &[3, 64], 1, &image), (6, 0, 0)),
        hand("relr_apply 7 before 12", apply(8, &[64, OUT8], 1, &image), (7, 8, 0)),
        hand("relr_apply 7 before 12, same", apply(4, &[OUT4], 1, &image), (7, 0, 0)),
        hand("relr_apply 7 before 12, bitmap", apply(4, &[TOP4, 3], 1, &image), (7, 4, 0)),
    ]
}

/// A class's cases of images that start elsewhere than at 0.
fn apply_start(class: u32) -> Vec<Hand> {
    let mut hands = Vec::new();
    hands.extend(start_inside(class));
    hands.extend(start_below(class));
    hands.extend(start_beyond(class));
    hands.extend(start_past(class));
    hands.extend(start_top(class));
    hands.extend(start_order(class));
    for hand in &mut hands {
        hand.name = format!("relr_apply start, class {class}: {}", hand.name);
    }
    hands
}

/// Words inside the image: at its first byte, at its last, and between.
fn start_inside(class: u32) -> Vec<Hand> {
    let (image, size, word) = (bytes64(), class as usize, class as u64);
    let at = |words: &[u64], start, image: &[u8]| apply_at(class, words, start, image);
    let last = LINKED + 64 - word;
    let over = [LINKED + 2, LINKED, LINKED + 2];
    vec![
        hand("the first word", at(&[LINKED], LINKED, &image[..size]), (0, 0, 1)),
        hand("the last word", at(&[last], LINKED, &image), (0, 0, 1)),
        hand("address and bitmap", at(&[LINKED, 7], LINKED, &image[..3 * size]), (0, 0, 3)),
        hand("goes back", at(&[last, LINKED, 3], LINKED, &image), (0, 0, 3)),
        hand("words overlap", at(&over, LINKED, &image[..size + 2]), (0, 0, 3)),
        hand("empty bitmaps past", at(&[LINKED, 1, 1], LINKED, &image[..size]), (0, 0, 1)),
        hand("odd start", at(&[0x1002], 0x1001, &image[..size + 1]), (0, 0, 1)),
        hand("half a word up", at(&[LINKED], LINKED - 2, &image[..size + 2]), (0, 0, 1)),
        hand("start 1", at(&[2, 3], 1, &image[..2 * size + 1]), (0, 0, 2)),
        hand("empty list", at(&[], LINKED, &image), (0, 0, 0)),
        hand("empty list, no image", at(&[], LINKED, &[]), (0, 0, 0)),
    ]
}

/// Offsets below the start.
fn start_below(class: u32) -> Vec<Hand> {
    let (image, word) = (bytes64(), class as u64);
    let at = |words: &[u64], start| apply_at(class, words, start, &image);
    let later = [LINKED + 2, LINKED + 2 + word, LINKED];
    vec![
        hand("two below", at(&[LINKED], LINKED + 2), (12, 0, 0)),
        hand("one below", at(&[LINKED], LINKED + 1), (12, 0, 0)),
        hand("one below, odd start", at(&[0x1002], 0x1003), (12, 0, 0)),
        hand("a word below", at(&[LINKED - word], LINKED), (12, 0, 0)),
        hand("two below, later", at(&later, LINKED + 2), (12, 2, 0)),
        hand("below, then inside", at(&[LINKED, 7], LINKED + word), (12, 0, 0)),
        hand("below behind a bitmap", at(&[LINKED, 7, LINKED - 2], LINKED), (12, 3, 0)),
        hand("below behind empty bitmaps", at(&[LINKED, 1, 1, 0], LINKED), (12, 1, 0)),
        hand("an index is no offset", at(&[0x10], LINKED), (12, 0, 0)),
        hand("start above all", at(&[LINKED, 0x1F, 0x1800], 2 * LINKED), (12, 0, 0)),
        hand("start above the last", at(&[LINKED, 3], LINKED + word + 1), (12, 0, 0)),
        hand("below, then beyond", at(&[LINKED, LINKED - 2, LINKED + 64], LINKED), (12, 1, 0)),
        hand("beyond, then below", at(&[LINKED, LINKED + 64, LINKED - 2], LINKED), (12, 1, 0)),
    ]
}

/// Words that end beyond the image.
fn start_beyond(class: u32) -> Vec<Hand> {
    let (image, size, word) = (bytes64(), class as usize, class as u64);
    let at = |words: &[u64], image: &[u8]| apply_at(class, words, LINKED, image);
    let odd = apply_at(class, &[0x1002], 0x1001, &image[..size]);
    let last = LINKED + 64 - word;
    vec![
        hand("the last word, one byte short", at(&[last], &image[..63]), (12, 0, 0)),
        hand("two beyond", at(&[last + 2], &image), (12, 0, 0)),
        hand("one beyond, odd start", odd, (12, 0, 0)),
        hand("at the end", at(&[LINKED, LINKED + 64], &image), (12, 1, 0)),
        hand("the only word, one byte short", at(&[LINKED], &image[..size - 1]), (12, 0, 0)),
        hand("no image", at(&[LINKED], &[]), (12, 0, 0)),
        hand("bitmap over the end", at(&[LINKED, 0x1F], &image[..3 * size]), (12, 3, 0)),
        hand("bitmap over the end, holes", at(&[LINKED, 0x95], &image[..5 * size]), (12, 3, 0)),
        hand("bitmap one byte short", at(&[LINKED, 3], &image[..2 * size - 1]), (12, 1, 0)),
        hand("beyond, then inside", at(&[LINKED, 0x2000, LINKED], &image), (12, 1, 0)),
    ]
}

/// Starts past the class's space, and about the end of all numbers: no
/// difference wraps.
fn start_past(class: u32) -> Vec<Hand> {
    let image = bytes64();
    let top = if class == 4 { TOP4 } else { TOP8 };
    let mut hands = Vec::new();
    for start in [1 << 32, u64::MAX - 7, u64::MAX] {
        let at = |words: &[u64], image: &[u8]| apply_at(class, words, start, image);
        let name = |what| format!("{start:#x}, {what}");
        hands.extend([
            hand(&name("empty list"), at(&[], &image), (0, 0, 0)),
            hand(&name("empty list, no image"), at(&[], &[]), (0, 0, 0)),
            hand(&name("offset 0"), at(&[0, top], &image), (12, 0, 0)),
        ]);
    }
    let at = |words: &[u64], start| apply_at(class, words, start, &image);
    hands.push(hand("2^32 above the offset", at(&[8], 1 << 32 | 8), (12, 0, 0)));
    hands.push(hand("the largest start", at(&[top], u64::MAX), (12, 0, 0)));
    hands
}

/// Images at the top of the class's space; one of 64 bytes goes on past it.
fn start_top(class: u32) -> Vec<Hand> {
    let (image, size, word) = (bytes64(), class as usize, class as u64);
    let at = |words: &[u64], start, image: &[u8]| apply_at(class, words, start, image);
    let top = if class == 4 { TOP4 } else { TOP8 };
    let low = top - word;
    vec![
        hand("top", at(&[top], top, &image[..size]), (0, 0, 1)),
        hand("top, one byte short", at(&[top], top, &image[..size - 1]), (12, 0, 0)),
        hand("top, start two above", at(&[top], top + 2, &image), (12, 0, 0)),
        hand("over the top", at(&[low, 3], low, &image), (0, 0, 2)),
        hand("over the top, at the start", at(&[top, low], low, &image), (0, 0, 2)),
        hand("over the top, below", at(&[top, low - 2], low, &image), (12, 1, 0)),
        hand("over the top, offset 0", at(&[low, 0], low, &image), (12, 1, 0)),
        hand("over the top, short", at(&[low, 3], low, &image[..2 * size - 1]), (12, 1, 0)),
    ]
}

/// An offset below the start is refused after all else.
fn start_order(class: u32) -> Vec<Hand> {
    let (image, word) = (bytes64(), class as u64);
    let high = 2 * LINKED;
    let at = |words: &[u64]| apply_at(class, words, high, &image);
    let (top, out) = if class == 4 { (TOP4, OUT4) } else { (TOP8, OUT8) };
    let mut uneven = relr_bytes(class, &[LINKED]);
    uneven.push(0);
    let uneven = Case::apply(class, &uneven, 1, high, &image);
    let mut hands = vec![
        hand("4 before 12", uneven, (4, word + 1, 0)),
        hand("6 before 12", at(&[1, LINKED]), (6, 0, 0)),
        hand("7 before 12", at(&[LINKED, out]), (7, word, 0)),
        hand("7 before 12, bitmap", at(&[LINKED, top, 3]), (7, 2 * word, 0)),
    ];
    if class == 4 {
        let based =
            |words: &[u64]| Case::apply(class, &relr_bytes(class, words), 1 << 32, high, &image);
        hands.push(hand("15 before 12", based(&[LINKED]), (15, 0, 0)));
        hands.push(hand("15, empty list", based(&[]), (15, 0, 0)));
    }
    let bad = apply_at(5 + class, &[LINKED], high, &image);
    hands.push(hand("1 before 12", bad, (1, 0, 0)));
    hands
}
