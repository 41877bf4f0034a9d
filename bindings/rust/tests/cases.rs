//! Tables worked by hand, run through the library.

use reloc::ByteOrder::{self, Big, Little};
use reloc::{
    Kind, Refusal, apa1_read, apa1_write, apr1_read, apr1_write, relleb_read, relleb_write,
    relr_apply, relr_read, relr_write,
};

fn refused(number: u32, place: u64) -> Result<usize, Refusal> {
    Err(Refusal { number, place, need: 0 })
}

fn needs(need: u64) -> Result<usize, Refusal> {
    Err(Refusal { number: 9, place: 0, need })
}

/// What the settings answer: lax, then strict.
type Answers = [Result<usize, Refusal>; 2];

const ORDERS: [ByteOrder; 2] = [Little, Big];

/// Lax and strict.
const SETTINGS: [bool; 2] = [false, true];

fn bytes(class: u32, order: ByteOrder, words: &[u64]) -> Vec<u8> {
    let size = class as usize;
    let word = |word: &u64| match order {
        Little => word.to_le_bytes()[..size].to_vec(),
        Big => word.to_be_bytes()[8 - size..].to_vec(),
    };
    words.iter().flat_map(word).collect()
}

/// Words read as the list, in both orders.
fn relr_reads(class: u32, words: &[u64], list: &[u64]) {
    for order in ORDERS {
        let table = bytes(class, order, words);
        let mut got = vec![0; list.len()];
        assert_eq!(relr_read(class, order, &table, &mut got), Ok(list.len()));
        assert_eq!(got, list);
        assert_eq!(relr_read(class, order, &table, &mut got[1..]), needs(list.len() as u64));
    }
}

/// Words read as the list, and the list written as the words, in both orders.
fn relr_both_ways(class: u32, list: &[u64], words: &[u64]) {
    relr_reads(class, words, list);
    for order in ORDERS {
        let table = bytes(class, order, words);
        let mut made = vec![0; table.len()];
        assert_eq!(relr_write(class, order, list, &mut made[1..]), needs(table.len() as u64));
        assert_eq!(relr_write(class, order, list, &mut made), Ok(table.len()));
        assert_eq!(made, table);
    }
}

/// Numbers in a table: A as APR1's first offset, B as an APA1 addend.
#[test]
fn a_and_b() {
    for strict in SETTINGS {
        let (mut o, mut a) = ([0], [0]);
        assert_eq!(apr1_read(strict, b"APR1\x00\xE5\x8E\x26", &mut o), Ok(1));
        assert_eq!(o, [624485]);
        assert_eq!(apa1_read(strict, b"APA1\x01\x00\xC0\xBB\x78", &mut o, &mut a), Ok(1));
        assert_eq!((o, a), ([0], [-123456]));
    }
}

#[test]
fn c_to_g() {
    relr_both_ways(8, &[0x2000, 0x2008, 0x2010, 0x2018], &[0x2000, 0xF]);
    relr_both_ways(8, &[0x2000, 0x21F8], &[0x2000, 0x8000_0000_0000_0001]);
    relr_both_ways(8, &[0x2000, 0x2200], &[0x2000, 0x2200]);
    relr_both_ways(8, &[0x2000, 0x21F8, 0x2200], &[0x2000, 0x8000_0000_0000_0001, 0x3]);
    relr_reads(8, &[0x2000, 0x21F8, 0x3], &[0x2000, 0x21F8, 0x2200]);
    relr_both_ways(4, &[0x100, 0x17C], &[0x100, 0x8000_0001]);
    relr_both_ways(8, &[0x10, 0x14, 0x18, 0x20], &[0x10, 0x14, 0x18, 0x3]);
}

#[test]
fn h() {
    let list = [0x1000, 0x1004, 0x1008, 0x1010];
    let table = b"APR1\x02\x80\x20\x02\x04\x01\x08";
    for strict in SETTINGS {
        let mut got = [0; 4];
        assert_eq!(apr1_read(strict, table, &mut got), Ok(4));
        assert_eq!(got, list);
    }
    let mut made = [0; 11];
    assert_eq!(apr1_write(&list, &mut made), Ok(11));
    assert_eq!(made, *table);
    assert_eq!(apr1_write(&[], &mut made), refused(13, 0));
}

#[test]
fn i() {
    let table = b"APA1\x02\x80\x20\x10\x08\x08";
    let (offsets, addends) = ([0x1000, 0x1008], [16, 24]);
    for strict in SETTINGS {
        let (mut o, mut a) = ([0; 2], [0; 2]);
        assert_eq!(apa1_read(strict, table, &mut o, &mut a), Ok(2));
        assert_eq!((o, a), (offsets, addends));
    }
    let mut made = [0; 10];
    assert_eq!(apa1_write(&offsets, &addends, &mut made), Ok(10));
    assert_eq!(made, *table);
    assert_eq!(apa1_write(&offsets, &addends[1..], &mut made), refused(11, 0));
}

#[test]
fn p() {
    let table = [0x02, 0x10, 0x81, 0x02, 0x7C, 0x7C, 0x08, 0x00, 0x03];
    let (o, t, s, a) = ([16, 24], [257, 257], [3, 3], [-4, -4]);
    for strict in SETTINGS {
        assert_eq!(relleb(8, strict, &table), (Ok(2), o, t, s, a));
    }
    let mut made = [0; 9];
    assert_eq!(relleb_write(8, &o, &t, &s, &a, &mut made), Ok(9));
    assert_eq!(made, table);
    assert_eq!(relleb_write(4, &o, &t, &s, &[0, 1 << 31], &mut made), refused(14, 1));
}

type Records = (Result<usize, Refusal>, [u64; 2], [u32; 2], [u32; 2], [i64; 2]);

/// Reads a RELLEB table into columns of two zeros; the answer, and the columns.
fn relleb(class: u32, strict: bool, table: &[u8]) -> Records {
    let (mut o, mut t, mut s, mut a) = ([0; 2], [0; 2], [0; 2], [0; 2]);
    let answer = relleb_read(class, strict, table, &mut o, &mut t, &mut s, &mut a);
    (answer, o, t, s, a)
}

#[test]
fn j() {
    for order in ORDERS {
        let mut image = [0xFF; 8];
        assert_eq!(relr_apply(8, order, &[0; 8], 1, 0, &mut image), Ok(1));
        assert_eq!(image, [0; 8]);
        assert_eq!(relr_apply(4, order, &[0; 4], 1 << 32, 0, &mut image), refused(15, 0));
    }
}

/// The answer of reading one word of class 8, and its offset or 0.
fn relr_word(order: ByteOrder, word: u64) -> (Result<usize, Refusal>, [u64; 1]) {
    let mut list = [0];
    (relr_read(8, order, &bytes(8, order, &[word]), &mut list), list)
}

#[test]
fn k() {
    for order in ORDERS {
        assert_eq!(relr_word(order, u64::MAX - 7), (Ok(1), [u64::MAX - 7]));
        assert_eq!(relr_word(order, u64::MAX - 5), (refused(7, 0), [0]));
    }
}

#[test]
fn l() {
    for strict in SETTINGS {
        let (mut o, mut a) = ([0; 64], [0; 64]);
        assert_eq!(apa1_read(strict, b"APA1\x40", &mut o, &mut a), refused(5, 4));
        let table = [&b"APA1\xC0\x00"[..], &[1; 128]].concat();
        assert_eq!(apa1_read(strict, &table, &mut o, &mut a), Ok(64));
        assert_eq!((o[63], a[63]), (64, 64));
    }
}

#[test]
fn m() {
    for order in ORDERS {
        assert_eq!(relr_word(order, 1), (refused(6, 0), [0]));
    }
}

#[test]
fn n() {
    for (order, one) in [(Little, [1, 0, 0, 0, 0, 0, 0, 0]), (Big, [0, 0, 0, 0, 0, 0, 0, 1])] {
        let mut image = [0; 8];
        let mut apply = |word| relr_apply(8, order, &bytes(8, order, &[word]), 1, 0, &mut image);
        assert_eq!((apply(0), apply(2)), (Ok(1), refused(12, 0)));
        assert_eq!(image, one);
    }
}

/// One table and one image told to be in one order and in the other.
#[test]
fn the_other_order() {
    let table = [0, 0, 1, 0, 0x80, 0, 0, 1];
    for (order, list) in [(Big, [0x100, 0x17C]), (Little, [0x1_0000, 0x0100_0080])] {
        let mut got = [0; 2];
        assert_eq!(relr_read(4, order, &table, &mut got), Ok(2));
        assert_eq!(got, list);
    }
    for (order, carried) in [(Big, [0, 0, 1, 0]), (Little, [1, 0, 0, 0xFF])] {
        let mut image = [0, 0, 0, 0xFF];
        assert_eq!(relr_apply(4, order, &[0; 4], 1, 0, &mut image), Ok(1));
        assert_eq!(image, carried);
    }
}

/// Applies words to eight bytes FF, the same in both orders; the answer, and what
/// is left of them.
fn applied(class: u32, words: &[u64], start: u64) -> (Result<usize, Refusal>, [u8; 8]) {
    let [little, big] = ORDERS.map(|order| {
        let mut image = [0xFF; 8];
        (relr_apply(class, order, &bytes(class, order, words), 1, start, &mut image), image)
    });
    assert_eq!(little, big);
    little
}

/// An offset minus the start is the index into the image.
#[test]
fn the_start_of_an_image() {
    assert_eq!(applied(8, &[0x1000], 0x1000), (Ok(1), [0; 8]));
    assert_eq!(applied(4, &[0x1000, 3], 0x1000), (Ok(2), [0; 8]));
    assert_eq!(applied(4, &[0x1004], 0x1000), (Ok(1), [0xFF, 0xFF, 0xFF, 0xFF, 0, 0, 0, 0]));
    assert_eq!(applied(4, &[2], 1), (Ok(1), [0xFF, 0, 0, 0, 0, 0xFF, 0xFF, 0xFF]));
    let top = u64::MAX - 7;
    assert_eq!(applied(8, &[top], top), (Ok(1), [0; 8]));
    for start in [0x1000, 1 << 32, u64::MAX] {
        assert_eq!(applied(4, &[], start), (Ok(0), [0xFF; 8]));
    }
}

/// Below the start or beyond the image: the first such offset is the place.
#[test]
fn outside_an_image_with_a_start() {
    let cases: [(u32, &[u64], u64, u64); 10] = [
        (8, &[0xFFE], 0x1000, 0),
        (8, &[0x1002], 0x1000, 0),
        (4, &[0x1006], 0x1000, 0),
        (4, &[0], 0x1000, 0),
        (4, &[0x1000, 0xFFE, 0x1008], 0x1000, 1),
        (4, &[0x1000, 0x1008, 0xFFE], 0x1000, 1),
        (4, &[0x1000, 0xF], 0x1000, 2),
        (4, &[0], 1 << 32, 0),
        (4, &[0], u64::MAX, 0),
        (8, &[u64::MAX - 7, 0], u64::MAX - 7, 1),
    ];
    for (class, words, start, place) in cases {
        let want = (refused(12, place), [0xFF; 8]);
        assert_eq!(applied(class, words, start), want, "class {class} {words:x?} {start:#x}");
    }
}

/// The place of a 5 is the byte that makes the number leave its width.
#[test]
fn the_guilty_byte() {
    let table = b"APR1\x80\x80\x80\x80\x10\x00";
    for strict in SETTINGS {
        let refusal = apr1_read(strict, table, &mut [0; 4]).unwrap_err();
        assert_eq!(refusal.kind(), Kind::Width);
        assert_eq!(table[refusal.place as usize], 0x10);
    }
}

/// APR1 tables: what a lax read answers, and what a strict one.
#[test]
fn padded_in_apr1() {
    let answers: [(&[u8], Answers); 9] = [
        // 624485 in five bytes; in three, its shortest form.
        (b"APR1\x00\xE5\x8E\xA6\x80\x00", [Ok(1), refused(18, 5)]),
        (b"APR1\x00\xE5\x8E\x26", [Ok(1); 2]),
        // Zero in two bytes: as N, A, C and D.
        (b"APR1\x80\x00\x00", [Ok(1), refused(18, 4)]),
        (b"APR1\x00\x80\x00", [Ok(1), refused(18, 5)]),
        (b"APR1\x01\x00\x80\x00\x00", [Ok(1), refused(18, 6)]),
        (b"APR1\x01\x00\x02\x80\x00", [Ok(3), refused(18, 7)]),
        // A split run, and a pair of no offsets.
        (b"APR1\x03\x00\x01\x04\x01\x04\x00\x00", [Ok(3); 2]),
        // D is padded in a pair that leaves the space.
        (b"APR1\x01\xFC\xFF\xFF\xFF\x0F\x01\x84\x00", [refused(7, 10), refused(18, 11)]),
        // The end comes before the padding.
        (b"APR1\x00\x80", [refused(4, 6); 2]),
    ];
    for (table, want) in answers {
        let read = |strict| apr1_read(strict, table, &mut [0; 4]);
        assert_eq!(SETTINGS.map(read), want, "{table:x?}");
    }
}

/// The same of APA1 tables.
#[test]
fn padded_in_apa1() {
    let answers: [(&[u8], Answers); 8] = [
        // -1 and 64 in two bytes: the second is in its shortest form.
        (b"APA1\x01\xFF\x7F\x00", [Ok(1), refused(18, 5)]),
        (b"APA1\x01\xC0\x00\x00", [Ok(1); 2]),
        // -128 and 63 in two bytes.
        (b"APA1\x01\x00\x80\x7F", [Ok(1); 2]),
        (b"APA1\x01\x00\xBF\x00", [Ok(1), refused(18, 6)]),
        // The count: 1 in two bytes, and -64, whose sign comes first.
        (b"APA1\x81\x00\x00\x00", [Ok(1), refused(18, 4)]),
        (b"APA1\xC0\x7F", [refused(5, 4); 2]),
        // Zero in ten bytes, and one that leaves the width.
        (b"APA1\x01\x80\x80\x80\x80\x80\x80\x80\x80\x80\x00\x00", [Ok(1), refused(18, 5)]),
        (b"APA1\x01\x80\x80\x80\x80\x80\x80\x80\x80\x80\x01\x00", [refused(5, 14); 2]),
    ];
    for (table, want) in answers {
        let read = |strict| apa1_read(strict, table, &mut [0; 4], &mut [0; 4]);
        assert_eq!(SETTINGS.map(read), want, "{table:x?}");
    }
}

/// The same of RELLEB tables, in both classes.
#[test]
fn padded_in_relleb() {
    let answers: [(&[u8], Answers); 8] = [
        // The count, and each field of a record.
        (&[0x80, 0], [Ok(0), refused(18, 0)]),
        (&[1, 0x90, 0, 0, 3], [Ok(1), refused(18, 1)]),
        (&[1, 16, 0x81, 0, 3], [Ok(1), refused(18, 2)]),
        (&[1, 16, 0, 0xFC, 0x7F, 4], [Ok(1), refused(18, 3)]),
        (&[1, 16, 0, 0x7C, 0xFC, 0x7F], [Ok(1), refused(18, 4)]),
        // An addend difference of zero, padded and not; and that of the second
        // record, before the third that is missing.
        (&[1, 16, 0, 0x7C, 0x80, 0], [Ok(1), refused(18, 4)]),
        (&[1, 16, 0, 0x7C, 0], [Ok(1), refused(19, 4)]),
        (&[3, 16, 0, 0x7C, 4, 0, 0, 0x7F, 0], [refused(4, 9), refused(19, 8)]),
    ];
    for (table, want) in answers {
        for class in [4, 8] {
            let read = |strict| relleb(class, strict, table).0;
            assert_eq!(SETTINGS.map(read), want, "class {class} {table:x?}");
        }
    }
}

/// A strict refusal changes nothing; lax, a zero difference gives the addend before.
#[test]
fn refused_strictly_unchanged() {
    let table = [2, 16, 0, 0x7C, 9, 8, 0, 0x7C, 0];
    let list = ([16, 24], [0; 2], [3; 2], [9; 2]);
    assert_eq!(relleb(8, false, &table), (Ok(2), list.0, list.1, list.2, list.3));
    assert_eq!(relleb(8, true, &table), (refused(19, 8), [0; 2], [0; 2], [0; 2], [0; 2]));
    let mut offsets = [7; 4];
    assert_eq!(apr1_read(true, b"APR1\x01\x00\x02\x84\x00", &mut offsets), refused(18, 7));
    assert_eq!(offsets, [7; 4]);
}

#[test]
fn a_refusal_tells_its_kind() {
    let refusal = relr_write(8, Little, &[4, 5], &mut []).unwrap_err();
    assert_eq!(refusal.kind(), Kind::Odd);
    assert_eq!(refusal.to_string(), "refused 10 at 1: odd offset");
    let refusal = relr_write(8, Big, &[4], &mut []).unwrap_err();
    assert_eq!(refusal.to_string(), "refused 9 at 0: too little room, 8 needed");
    let refusal = relr_apply(8, Little, &[0; 8], 0, 1, &mut [0; 16]).unwrap_err();
    assert_eq!(refusal.to_string(), "refused 12 at 0: word not inside the image");
    let refusal = apr1_read(true, b"APR1\x80\x00\x00", &mut []).unwrap_err();
    assert_eq!(refusal.to_string(), "refused 18 at 4: number longer than its shortest form");
}
