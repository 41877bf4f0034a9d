//! The tables worked by hand, A to P, and what the calls leave in the lent
//! buffers.

use reference::ByteOrder::{self, Big, Little};
use reference::leb::{self, Kind::Signed, Kind::Unsigned};
use reference::{
    Answer, LAX, STRICT, apa1_read, apa1_write, apr1_read, apr1_write, relleb_read, relleb_write,
    relr_apply, relr_read, relr_write,
};

fn done(count: u64) -> Answer {
    Answer { number: 0, place: 0, count }
}

fn refused(number: u32, place: u64) -> Answer {
    Answer { number, place, count: 0 }
}

const ORDERS: [ByteOrder; 2] = [Little, Big];

const SETTINGS: [bool; 2] = [LAX, STRICT];

fn bytes(class: u32, order: ByteOrder, words: &[u64]) -> Vec<u8> {
    let size = class as usize;
    let word = |word: &u64| match order {
        Little => word.to_le_bytes()[..size].to_vec(),
        Big => word.to_be_bytes()[8 - size..].to_vec(),
    };
    words.iter().flat_map(word).collect()
}

/// The list of a RELR table that must be accepted, the same in both orders.
fn offsets(class: u32, words: &[u64]) -> Vec<u64> {
    let [little, big] = ORDERS.map(|order| {
        let mut list = vec![0; 999];
        let answer = relr_read(class, order, &bytes(class, order, words), &mut list);
        assert_eq!((answer.number, answer.place), (0, 0));
        list.truncate(answer.count as usize);
        list
    });
    assert_eq!(little, big);
    little
}

/// List and words belong together, both ways and in both orders.
fn both_ways(class: u32, list: &[u64], words: &[u64]) {
    assert_eq!(offsets(class, words), list);
    for order in ORDERS {
        let mut table = vec![0; words.len() * class as usize];
        assert_eq!(relr_write(class, order, list, &mut table), done(table.len() as u64));
        assert_eq!(table, bytes(class, order, words));
    }
}

#[test]
fn a_and_b_numbers() {
    assert_eq!(leb::read(&[0xE5, 0x8E, 0x26], 0, Unsigned(32)), Ok((624485, 3)));
    assert_eq!(leb::read(&[0xC0, 0xBB, 0x78], 0, Signed(64)), Ok((-123456, 3)));
    let (mut a, mut b) = (Vec::new(), Vec::new());
    leb::write_unsigned(624485, &mut a);
    leb::write_signed(-123456, &mut b);
    assert_eq!((a, b), (vec![0xE5, 0x8E, 0x26], vec![0xC0, 0xBB, 0x78]));
}

#[test]
fn c_to_g_relr() {
    both_ways(8, &[0x2000, 0x2008, 0x2010, 0x2018], &[0x2000, 0xF]);
    both_ways(8, &[0x2000, 0x21F8], &[0x2000, 0x8000_0000_0000_0001]);
    both_ways(8, &[0x2000, 0x2200], &[0x2000, 0x2200]);
    both_ways(8, &[0x2000, 0x21F8, 0x2200], &[0x2000, 0x8000_0000_0000_0001, 3]);
    assert_eq!(offsets(8, &[0x2000, 0x21F8, 3]), [0x2000, 0x21F8, 0x2200]);
    both_ways(4, &[0x100, 0x17C], &[0x100, 0x8000_0001]);
    both_ways(8, &[0x10, 0x14, 0x18, 0x20], &[0x10, 0x14, 0x18, 3]);
}

#[test]
fn h_apr1() {
    let list = [0x1000, 0x1004, 0x1008, 0x1010];
    let table = [0x41, 0x50, 0x52, 0x31, 0x02, 0x80, 0x20, 0x02, 0x04, 0x01, 0x08];
    for strict in SETTINGS {
        let mut got = [0; 4];
        assert_eq!(apr1_read(strict, &table, &mut got), done(4));
        assert_eq!(got, list);
    }
    let mut made = [0; 11];
    assert_eq!(apr1_write(&list, &mut made), done(11));
    assert_eq!(made, table);
}

#[test]
fn i_apa1() {
    let table = [0x41, 0x50, 0x41, 0x31, 0x02, 0x80, 0x20, 0x10, 0x08, 0x08];
    let (mut o, mut a) = ([0; 2], [0; 2]);
    for strict in SETTINGS {
        (o, a) = ([0; 2], [0; 2]);
        assert_eq!(apa1_read(strict, &table, &mut o, &mut a), done(2));
        assert_eq!((o, a), ([0x1000, 0x1008], [16, 24]));
    }
    let mut made = [0; 10];
    assert_eq!(apa1_write(&o, &a, &mut made), done(10));
    assert_eq!(made, table);
}

#[test]
fn p_relleb() {
    let table = [0x02, 0x10, 0x81, 0x02, 0x7C, 0x7C, 0x08, 0x00, 0x03];
    let (mut o, mut t, mut s, mut a) = ([0; 2], [0; 2], [0; 2], [0; 2]);
    for strict in SETTINGS {
        (o, t, s, a) = ([0; 2], [0; 2], [0; 2], [0; 2]);
        let answer = relleb_read(8, strict, &table, &mut o, &mut t, &mut s, &mut a);
        assert_eq!(answer, done(2));
        assert_eq!((o, t, s, a), ([16, 24], [257, 257], [3, 3], [-4, -4]));
    }
    let mut made = [0; 9];
    assert_eq!(relleb_write(8, &o, &t, &s, &a, &mut made), done(9));
    assert_eq!(made, table);
}

#[test]
fn j_apply() {
    for order in ORDERS {
        let mut image = [0xFF; 8];
        assert_eq!(relr_apply(8, order, &[0; 8], 1, 0, &mut image), done(1));
        assert_eq!(image, [0; 8]);
    }
}

#[test]
fn k_top_of_the_space() {
    let top = u64::MAX - 7;
    for order in ORDERS {
        let (mut list, mut table) = ([0; 1], [0; 8]);
        let mut read = |word| relr_read(8, order, &bytes(8, order, &[word]), &mut list);
        assert_eq!((read(top), read(top + 2)), (done(1), refused(7, 0)));
        assert_eq!(list, [top]);
        assert_eq!(relr_write(8, order, &[top], &mut table), done(8));
        assert_eq!(relr_write(8, order, &[top + 2], &mut table), refused(7, 0));
        assert_eq!(table[..], bytes(8, order, &[top]));
    }
}

#[test]
fn l_apa1_count() {
    let (mut o, mut a) = ([0; 64], [0; 64]);
    let table = [&b"APA1\xC0\x00"[..], &[1; 128]].concat();
    for strict in SETTINGS {
        assert_eq!(apa1_read(strict, b"APA1\x40", &mut o, &mut a), refused(5, 4));
        assert_eq!(apa1_read(strict, &table, &mut o, &mut a), done(64));
    }
    let mut made = [0; 134];
    assert_eq!(apa1_write(&o, &a, &mut made), done(134));
    assert_eq!(made[..], table);
}

#[test]
fn m_bitmap_alone() {
    for (class, order) in [(8, Little), (8, Big), (4, Little), (4, Big)] {
        let table = bytes(class, order, &[1]);
        assert_eq!(relr_read(class, order, &table, &mut [0; 9]), refused(6, 0));
    }
}

#[test]
fn n_word_inside_the_image() {
    for (order, one) in [(Little, [1, 0, 0, 0, 0, 0, 0, 0]), (Big, [0, 0, 0, 0, 0, 0, 0, 1])] {
        let mut image = [0; 8];
        let mut apply = |word| relr_apply(8, order, &bytes(8, order, &[word]), 1, 0, &mut image);
        assert_eq!((apply(0), apply(2)), (done(1), refused(12, 0)));
        assert_eq!(image, one);
    }
}

/// Applies words to eight bytes FF, the same in both orders; the answer, and what
/// is left of them.
fn applied(class: u32, words: &[u64], start: u64) -> (Answer, [u8; 8]) {
    let [little, big] = ORDERS.map(|order| {
        let mut image = [0xFF; 8];
        let answer = relr_apply(class, order, &bytes(class, order, words), 1, start, &mut image);
        (answer, image)
    });
    assert_eq!(little, big);
    little
}

/// "high byte first": the carry of an addition goes to the byte before, and the
/// last one is lost.
#[test]
fn carries() {
    let cases: [(u32, ByteOrder, &[u8], &[u8]); 6] = [
        (4, Big, &[0, 0, 0, 0xFF], &[0, 0, 1, 0]),
        (4, Little, &[0, 0, 0, 0xFF], &[1, 0, 0, 0xFF]),
        (4, Big, &[0xFF, 0xFF, 0xFF, 0xFF, 7], &[0, 0, 0, 0, 7]),
        (8, Big, &[0, 0, 0, 0, 0, 0xFF, 0xFF, 0xFF], &[0, 0, 0, 0, 1, 0, 0, 0]),
        (8, Little, &[0xFF, 0xFF, 0xFF, 0, 0, 0, 0, 0], &[0, 0, 0, 1, 0, 0, 0, 0]),
        (8, Little, &[0, 0, 0, 0, 0, 0xFF, 0xFF, 0xFF], &[1, 0, 0, 0, 0, 0xFF, 0xFF, 0xFF]),
    ];
    for (class, order, before, after) in cases {
        let mut image = before.to_vec();
        assert_eq!(relr_apply(class, order, &bytes(class, order, &[0]), 1, 0, &mut image), done(1));
        assert_eq!(image, after, "class {class} {order:?} {before:02x?}");
    }
}

/// §14: zeros after one base, after another on top of it, and after their sum at once.
fn moved(
    class: u32,
    order: ByteOrder,
    words: &[u64],
    bases: [u64; 2],
    length: usize,
) -> [Vec<u8>; 3] {
    let table = bytes(class, order, words);
    let apply = |base, image: &[u8]| {
        let mut image = image.to_vec();
        assert_eq!(relr_apply(class, order, &table, base, 0, &mut image).number, 0);
        image
    };
    let old = vec![0; length];
    let [a, b] = bases;
    let sum = a.wrapping_add(b) & (u64::MAX >> (64 - 8 * class));
    let first = apply(a, &old);
    let second = apply(b, &first);
    [first, second, apply(sum, &old)]
}

/// "Give the overlap case where it fails": entries less than a word apart, and entries that repeat an
/// offset, where it holds.
#[test]
fn moving_words_that_overlap() {
    let four = moved(4, Little, &[0, 2], [0xFFFF_FFFF, 2], 6);
    let want = [[0xFF, 0xFF, 0xFE, 0xFF, 0, 0], [1, 0, 1, 0, 1, 0], [1, 0, 1, 0, 0, 0]];
    assert_eq!(four, want);
    let eight = moved(8, Big, &[0, 2], [u64::MAX, (1 << 63) + 1], 10);
    let want = [
        [0xFF, 0xFF, 0xFF, 0xFF, 0xFF, 0xFF, 0xFF, 0xFE, 0xFF, 0xFF],
        [0x7F, 0xFF, 0x80, 0, 0, 0, 0, 0, 0, 0],
        [0x80, 0, 0x80, 0, 0, 0, 0, 0, 0, 0],
    ];
    assert_eq!(eight, want);
    let repeated = moved(4, Little, &[0, 0], [(1 << 31) + 1, (1 << 31) + 2], 4);
    assert_eq!(repeated, [[2, 0, 0, 0], [6, 0, 0, 0], [6, 0, 0, 0]]);
}

/// One table told to be in one order and in the other.
#[test]
fn the_other_order() {
    let table = [0, 0, 1, 0, 0x80, 0, 0, 1];
    let read = |class, order| {
        let mut list = [9; 3];
        (relr_read(class, order, &table, &mut list), list)
    };
    assert_eq!(read(4, Big), (done(2), [0x100, 0x17C, 9]));
    assert_eq!(read(4, Little), (done(2), [0x1_0000, 0x0100_0080, 9]));
    assert_eq!(read(8, Big), (refused(6, 0), [9; 3]));
    assert_eq!(read(8, Little), (done(1), [0x0100_0080_0001_0000, 9, 9]));
    let top = bytes(4, Little, &[0xFFFF_FFFC]);
    assert_eq!(relr_read(4, Big, &top, &mut [0; 9]), refused(6, 0));
    assert_eq!(relr_read(4, Big, &bytes(4, Little, &[0xFEFF_FFFF]), &mut []), refused(7, 0));
    let four = bytes(4, Big, &[4]);
    let mut image = [0; 8];
    assert_eq!(relr_apply(4, Little, &four, 1, 0, &mut image), refused(12, 0));
    assert_eq!(relr_apply(4, Little, &four, 1, 0x0400_0000, &mut image), done(1));
    assert_eq!(image, [1, 0, 0, 0, 0, 0, 0, 0]);
    assert_eq!(relr_apply(4, Big, &four, 1, 0, &mut image), done(1));
    assert_eq!(image, [1, 0, 0, 0, 0, 0, 0, 1]);
}

/// "Offset minus start is the index; an offset below the start, or with its word
/// ending beyond the image, is 12."
#[test]
fn image_with_a_start() {
    let untouched = |number, place| (refused(number, place), [0xFF; 8]);
    let last = [0xFF, 0xFF, 0xFF, 0xFF, 0, 0, 0, 0];
    assert_eq!(applied(8, &[0x1000], 0x1000), (done(1), [0; 8]));
    assert_eq!(applied(4, &[0x1000, 3], 0x1000), (done(2), [0; 8]));
    assert_eq!(applied(4, &[0x1004], 0x1000), (done(1), last));
    assert_eq!(applied(8, &[0xFFE], 0x1000), untouched(12, 0));
    assert_eq!(applied(4, &[0x1000, 0xFFE], 0x1000), untouched(12, 1));
    assert_eq!(applied(8, &[0x1002], 0x1000), untouched(12, 0));
    assert_eq!(applied(4, &[0x1006], 0x1000), untouched(12, 0));
    assert_eq!(applied(4, &[0x1000, 0x1008], 0x1000), untouched(12, 1));
    assert_eq!(applied(8, &[0], 0x1000), untouched(12, 0));
}

/// The first of the list that is outside gives the place, however it is outside.
#[test]
fn first_outside_either_end() {
    let place = |words: &[u64]| applied(4, words, 0x1000).0;
    assert_eq!(place(&[0x1000, 0x1008, 0xFFE]), refused(12, 1));
    assert_eq!(place(&[0x1000, 0xFFE, 0x1008]), refused(12, 1));
    assert_eq!(place(&[0x1000, 7, 0xFFE]), refused(12, 2));
    assert_eq!(place(&[0x1000, 3, 0xFFE, 0x1008]), refused(12, 2));
}

/// The start is any number, and no sum wraps.
#[test]
fn starts_at_the_top() {
    let top = u64::MAX - 7;
    assert_eq!(applied(8, &[top], top), (done(1), [0; 8]));
    assert_eq!(applied(8, &[top], top + 1), (refused(12, 0), [0xFF; 8]));
    assert_eq!(applied(8, &[top], top - 1), (refused(12, 0), [0xFF; 8]));
    for (order, low) in [(Little, 8), (Big, 15)] {
        let mut image = [0; 64];
        let table = bytes(8, order, &[top]);
        assert_eq!(relr_apply(8, order, &table, 5, top - 8, &mut image), done(1));
        assert_eq!((image[low], image.iter().filter(|byte| **byte != 0).count()), (5, 1));
        assert_eq!(relr_apply(8, order, &[0; 8], 5, top - 8, &mut image), refused(12, 0));
    }
    for start in [1 << 32, u64::MAX] {
        assert_eq!(applied(4, &[0], start), (refused(12, 0), [0xFF; 8]));
        assert_eq!(applied(4, &[], start), (done(0), [0xFF; 8]));
        assert_eq!(applied(8, &[], start), (done(0), [0xFF; 8]));
    }
}

#[test]
fn relr_where_grows_by_the_window() {
    assert_eq!(offsets(8, &[0x2000, 1, 3]), [0x2000, 0x2200]);
    assert_eq!(offsets(4, &[0x2000, 1, 3]), [0x2000, 0x2080]);
    assert_eq!(offsets(8, &[0x2000, 5, 3, 1, 9]), [0x2000, 0x2010, 0x2200, 0x2600]);
    assert_eq!(offsets(8, &[0x100, 0x100, 0x80, 0xB]), [0x100, 0x100, 0x80, 0x88, 0x98]);
    assert_eq!(offsets(4, &[0x100, 3, 0x80, 0x104]), [0x100, 0x104, 0x80, 0x104]);
}

#[test]
fn apply_order_counts() {
    let apply = |order, words: &[u64], base, before: &[u8]| {
        let mut image = before.to_vec();
        let table = bytes(4, order, words);
        assert_eq!(relr_apply(4, order, &table, base, 0, &mut image), done(words.len() as u64));
        image
    };
    assert_eq!(apply(Little, &[0, 2], 0x1_FFFF, &[0; 6]), [0xFF, 0xFF, 0, 0, 2, 0]);
    assert_eq!(apply(Little, &[2, 0], 0x1_FFFF, &[0; 6]), [0xFF, 0xFF, 0, 0, 1, 0]);
    assert_eq!(apply(Big, &[0, 2], 0x1_FFFF, &[0; 6]), [0, 1, 0, 0, 0xFF, 0xFF]);
    assert_eq!(apply(Big, &[2, 0], 0x1_FFFF, &[0; 6]), [0, 2, 0, 0, 0xFF, 0xFF]);
    for order in ORDERS {
        let twice = [7, 0xFF, 0xFF, 0xFF, 0xFF, 9];
        assert_eq!(apply(order, &[0, 0], 0x8000_0000, &twice), twice);
        let inside = [0xFF, 0xFF, 0xFF, 0xFF, 0, 0, 0, 0, 0xFF, 0xFF, 0xFF, 0xFF];
        assert_eq!(apply(order, &[4], 1, &[0xFF; 12]), inside);
    }
}

#[test]
fn apr1_empty_and_still_pairs() {
    let table = b"APR1\x04\x08\x00\x7F\x02\x00\x00\x01\x03\x05";
    for strict in SETTINGS {
        let mut list = [9; 8];
        assert_eq!(apr1_read(strict, table, &mut list), done(6));
        assert_eq!(list, [8, 8, 8, 13, 18, 23, 9, 9]);
    }
}

#[test]
fn apa1_sums_wrap() {
    let largest = [0xFF, 0xFF, 0xFF, 0xFF, 0xFF, 0xFF, 0xFF, 0xFF, 0xFF, 0x00];
    let table = [&b"APA1\x03\x7F"[..], &largest, &[2, 1, 0, 0]].concat();
    for strict in SETTINGS {
        let (mut o, mut a) = ([0; 3], [0; 3]);
        assert_eq!(apa1_read(strict, &table, &mut o, &mut a), done(3));
        assert_eq!((o, a), ([u64::MAX, 1, 1], [i64::MAX, i64::MIN, i64::MIN]));
    }
}

#[test]
fn relleb_sums_wrap_at_the_class() {
    let table = [
        &[3][..],
        &[0xFF, 0xFF, 0xFF, 0xFF, 0x0F, 0x7F, 0x7E],
        &[0xFF, 0xFF, 0xFF, 0xFF, 0x07],
        &[2, 2, 0x7F, 1],
        &[0, 0x7F, 0xFF, 0xFF, 0xFF, 0xFF, 0x0F],
    ]
    .concat();
    let read = |class, strict| {
        let (mut o, mut t, mut s, mut a) = ([0; 3], [0; 3], [0; 3], [0; 3]);
        assert_eq!(relleb_read(class, strict, &table, &mut o, &mut t, &mut s, &mut a), done(3));
        assert_eq!((t, s), ([u32::MAX, 1, 0], [1, 0, u32::MAX]));
        (o, a)
    };
    let (over, least) = (0x1_0000_0001, -0x8000_0000);
    for strict in SETTINGS {
        assert_eq!(read(4, strict), ([0xFFFF_FFFF, 1, 1], [0x7FFF_FFFF, least, least]));
        assert_eq!(read(8, strict), ([0xFFFF_FFFF, over, over], [0x7FFF_FFFF, -least, -least]));
    }
}

/// "New number 18: a number longer than its shortest form, at its first byte; 4 and 5
/// come before it for the same number."
#[test]
fn padded_numbers() {
    let apr1 = |strict, table: &[u8]| apr1_read(strict, &[b"APR1", table].concat(), &mut [0; 9]);
    let apa1 = |strict, table: &[u8]| {
        apa1_read(strict, &[b"APA1", table].concat(), &mut [0; 9], &mut [0; 9])
    };
    // D padded, A padded; a padded pair that ends outside the space
    assert_eq!(apr1(LAX, &[1, 8, 2, 0x84, 0]), done(3));
    assert_eq!(apr1(STRICT, &[1, 8, 2, 0x84, 0]), refused(18, 7));
    assert_eq!(apr1(STRICT, &[1, 0x88, 0x80, 0, 2, 0x84, 0]), refused(18, 5));
    let outside = [1, 0xFC, 0xFF, 0xFF, 0xFF, 0x0F, 1, 0x84, 0];
    assert_eq!(apr1(LAX, &outside), refused(7, 10));
    assert_eq!(apr1(STRICT, &outside), refused(18, 11));
    // cut, and with a bad last allowed byte
    assert_eq!(apr1(STRICT, &[0x80, 0x80]), refused(4, 6));
    assert_eq!(apr1(STRICT, &[0x80, 0x80, 0x80, 0x80, 0x80]), refused(5, 8));
    // 64 takes two bytes, 63 one; a negative count is 5
    assert_eq!(apa1(STRICT, &[1, 0xC0, 0, 0xBF, 0x7F]), done(1));
    assert_eq!(apa1(STRICT, &[1, 0xBF, 0, 0]), refused(18, 5));
    assert_eq!(apa1(LAX, &[1, 0xBF, 0, 0]), done(1));
    assert_eq!(apa1(STRICT, &[0xC0, 0x7F]), refused(5, 4));
    assert_eq!(apa1(LAX, &[0xC0, 0x7F]), refused(5, 4));
}

/// "New number 19: a RELLEB addend difference of zero, at its first byte, after 18."
#[test]
fn addend_differences_of_zero() {
    let read = |class, strict, table: &[u8]| {
        let (mut o, mut t, mut s, mut a) = ([0; 2], [0; 2], [0; 2], [0; 2]);
        relleb_read(class, strict, table, &mut o, &mut t, &mut s, &mut a)
    };
    let (zero, padded) = ([1, 0, 0, 0x7F, 0], [1, 0, 0, 0x7F, 0x80, 0]);
    let later = [2, 0, 0, 0x7F, 5, 0, 0, 0x7F, 0];
    let back = [2, 0, 0, 0x7F, 5, 0, 0, 0x7F, 0x7B];
    for class in [4, 8] {
        assert_eq!((read(class, LAX, &zero), read(class, LAX, &padded)), (done(1), done(1)));
        assert_eq!(read(class, STRICT, &zero), refused(19, 4));
        assert_eq!(read(class, STRICT, &padded), refused(18, 4));
        assert_eq!(read(class, LAX, &later), done(2));
        assert_eq!(read(class, STRICT, &later), refused(19, 8));
        assert_eq!(read(class, STRICT, &back), done(2));
    }
}
