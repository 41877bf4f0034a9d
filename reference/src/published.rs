//! What crate `cases` must print: the published LEB128 examples, each edge of
//! document 01's table of last bytes, its cases J to N, images with a start, bad
//! input, and big-endian words. Every answer is that of the calls here.

use crate::ByteOrder::{self, Big, Little};
use crate::corpus::hand_relr::{OUT4, OUT8, TOP4, TOP8};
use crate::corpus::tables::{join, number, relr_bytes, turned};
use crate::leb::{self, Kind, Kind::Signed, Kind::Unsigned};
use crate::{Answer, LAX, apa1_read, relr_apply, relr_read, relr_write};

const U64: Kind = Unsigned(64);
const I64: Kind = Signed(64);

/// The examples that the DWARF standard prints, and A and B of document 01.
pub const EXAMPLES: [(Kind, i128, &[u8]); 16] = [
    (U64, 2, &[0x02]),
    (U64, 127, &[0x7F]),
    (U64, 128, &[0x80, 0x01]),
    (U64, 129, &[0x81, 0x01]),
    (U64, 130, &[0x82, 0x01]),
    (U64, 12857, &[0xB9, 0x64]),
    (U64, 624485, &[0xE5, 0x8E, 0x26]),
    (I64, 2, &[0x02]),
    (I64, -2, &[0x7E]),
    (I64, 127, &[0xFF, 0x00]),
    (I64, -127, &[0x81, 0x7F]),
    (I64, 128, &[0x80, 0x01]),
    (I64, -128, &[0x80, 0x7F]),
    (I64, 129, &[0x81, 0x01]),
    (I64, -129, &[0xFF, 0x7E]),
    (I64, -123456, &[0xC0, 0xBB, 0x78]),
];

/// The ends of a form of one byte, and of the columns' types.
const ENDS: [(Kind, i128); 11] = [
    (U64, 0),
    (U64, u32::MAX as i128),
    (U64, u64::MAX as i128),
    (I64, 0),
    (I64, -1),
    (I64, 63),
    (I64, 64),
    (I64, -64),
    (I64, -65),
    (I64, i64::MAX as i128),
    (I64, i64::MIN as i128),
];

/// Both sides of each edge in the table of last bytes, and of the two high
/// bits.
const LAST_BYTES: [u8; 17] =
    [0, 1, 2, 7, 8, 15, 16, 63, 64, 111, 112, 119, 120, 126, 127, 128, 255];

/// Bytes, a place and a width: reading at or past the end, a missing byte, an
/// end outside the width behind another number, padding.
const BAD: [(&[u8], usize, u32); 10] = [
    (&[], 0, 32),
    (&[], 1, 64),
    (&[], usize::MAX, 33),
    (&[5], 1, 32),
    (&[5], 2, 64),
    (&[5], usize::MAX, 64),
    (&[0x80], 0, 32),
    (&[0x80; 4], 1, 32),
    (&[1, 0xFF, 0xFF, 0xFF, 0xFF, 0xFF, 0], 1, 32),
    (&[0x80, 0x80, 0, 7], 0, 32),
];

/// The whole text.
pub fn text() -> String {
    [numbers(), reads(), applies(), writes(), counts(), big_endian()].concat()
}

fn numbers() -> String {
    let mut text = String::new();
    for (kind, value, bytes) in EXAMPLES {
        assert_eq!(number(kind, value), bytes, "{value} as it is published");
        assert_eq!(leb::read(bytes, 0, kind), Ok((value, bytes.len())));
        text += &shortest(kind, value);
    }
    for (kind, value) in ENDS {
        text += &shortest(kind, value);
    }
    for width in [32, 33, 64] {
        for digit in [0x80, 0xFF] {
            for last in LAST_BYTES {
                let mut bytes = vec![digit; Unsigned(width).most_bytes()];
                *bytes.last_mut().unwrap() = last;
                text += &both(&bytes, 0, width);
            }
        }
    }
    for (bytes, at, width) in BAD {
        text += &both(bytes, at, width);
    }
    text + &pair(624485, -123456)
}

/// A number in its shortest form, and what that reads as.
fn shortest(kind: Kind, value: i128) -> String {
    let name = if kind.signed() { "signed" } else { "unsigned" };
    let bytes = number(kind, value);
    format!("{name} {value}{}{}\n", hex(&bytes), told(leb::read(&bytes, 0, kind)))
}

/// What the bytes from a place on read as at a width, unsigned and signed.
fn both(bytes: &[u8], at: usize, width: u32) -> String {
    let [unsigned, signed] =
        [Unsigned(width), Signed(width)].map(|kind| told(leb::read(bytes, at, kind)));
    format!("width {width} from {at}:{}\n  unsigned{unsigned}\n  signed{signed}\n", hex(bytes))
}

/// An unsigned number and a signed one behind a byte 7, read at widths 32 and
/// 33.
fn pair(first: i128, second: i128) -> String {
    let bytes = join(&[&[7], &number(U64, first), &number(I64, second)]);
    let (value, next) = leb::read(&bytes, 1, Unsigned(32)).expect("a number of width 32");
    let rest = told(leb::read(&bytes, next, Signed(33)));
    format!("pair{} = {value} and{rest}\n", hex(&bytes))
}

fn told(number: Result<(i128, usize), Answer>) -> String {
    match number {
        Ok((value, next)) => format!(" = {value} next {next}"),
        Err(refusal) => format!(" refused {} at {}", refusal.number, refusal.place),
    }
}

/// Cases K and M, the edge of a window, and bad input.
fn reads() -> String {
    [
        read(8, &[TOP8]),
        read(8, &[OUT8]),
        read(4, &[TOP4]),
        read(4, &[OUT4]),
        read(8, &[1]),
        read(8, &[TOP8, 1]),
        read(8, &[TOP8, 3]),
        read(4, &[0x100, 0x8000_0001]),
        read(4, &[0x100, 1, 3]),
        read(4, &[0x100, 0xF]),
        read(4, &[]),
        read_into(4, Little, &[0, 1, 0], &mut [7; 2]),
        read(5, &[]),
    ]
    .concat()
}

/// A table read into a column of two sevens.
fn read(class: u32, words: &[u64]) -> String {
    read_into(class, Little, &relr_bytes(class, words), &mut [7; 2])
}

/// A table read into a column.
fn read_into(class: u32, order: ByteOrder, table: &[u8], offsets: &mut [u64]) -> String {
    let answer = full(relr_read(class, order, table, offsets));
    let (order, table, offsets) = (named(order), hex(table), items(offsets));
    format!("relr read class {class}{order}:{table}{answer}{offsets}\n")
}

/// Cases J and N, words that overlap, and bad input; then images that start
/// elsewhere than at 0.
fn applies() -> String {
    [
        apply(8, &[0], 1, 0),
        apply(8, &[2], 1, 0),
        apply(4, &[0, 3], 2, 0),
        apply(4, &[0, 2], 1, 0),
        apply(4, &[0], 1 << 32, 0),
        apply(4, &[6, OUT4], 1, 0),
        apply(8, &[], u64::MAX, 0),
        apply(0, &[], 0, 0),
        apply(8, &[0x1000], 1, 0x1000),
        apply(4, &[0x1000, 3], 2, 0x1000),
        apply(8, &[0xFFE], 1, 0x1000),
        apply(4, &[0x1004], 1, 0x1000),
        apply(4, &[0x1006], 1, 0x1000),
        apply(8, &[TOP8], 1, TOP8),
        apply(4, &[0], 1, u64::MAX),
        apply(8, &[], 1, u64::MAX),
    ]
    .concat()
}

/// A table applied to eight bytes FF.
fn apply(class: u32, words: &[u64], base: u64, start: u64) -> String {
    let table = relr_bytes(class, words);
    apply_to(class, Little, &table, base, start, &mut [0xFF; 8])
}

/// A table applied to an image.
fn apply_to(
    class: u32,
    order: ByteOrder,
    table: &[u8],
    base: u64,
    start: u64,
    image: &mut [u8],
) -> String {
    let answer = full(relr_apply(class, order, table, base, start, image));
    let (order, table, image) = (named(order), hex(table), hex(image));
    let given = format!("class {class}{order} base {base} start {start}");
    format!("relr apply {given}:{table}{answer} image{image}\n")
}

/// Room and none, the top of the space, and bad input.
fn writes() -> String {
    [
        write(4, [0x100, 0x104]),
        write(8, [0x2000, 0x2200]),
        write(4, [TOP4 - 4, TOP4]),
        write(4, [TOP4, OUT4]),
        write(4, [0x100, 0x100]),
        write(4, [0x100, 0x101]),
        write(9, [0, 8]),
    ]
    .concat()
}

/// Two offsets written into ten bytes 7.
fn write(class: u32, offsets: [u64; 2]) -> String {
    write_into(class, Little, &offsets, &mut [7; 10])
}

/// Offsets written into a table.
fn write_into(class: u32, order: ByteOrder, offsets: &[u64], table: &mut [u8]) -> String {
    let answer = full(relr_write(class, order, offsets, table));
    let (order, offsets, table) = (named(order), items(offsets), hex(table));
    format!("relr write class {class}{order}:{offsets}{answer} table{table}\n")
}

fn full(answer: Answer) -> String {
    let Answer { number, place, count } = answer;
    format!(" number {number} place {place} count {count}")
}

/// Case L, a count without its records, and case I.
fn counts() -> String {
    let counts: [&[u8]; 3] = [&[0x40], &[0xC0, 0x00], &[0x02, 0x80, 0x20, 0x10, 0x08, 0x08]];
    counts.map(|rest| count(&join(&[b"APA1", rest]))).concat()
}

/// The answer of reading an APA1 table into columns of 64.
fn count(table: &[u8]) -> String {
    let Answer { number, place, count } = apa1_read(LAX, table, &mut [0; 64], &mut [0; 64]);
    format!("apa1{} answers {number} at {place} count {count}\n", hex(table))
}

/// Cases C and F written and read with big-endian words, case J, and an addition
/// that carries.
fn big_endian() -> String {
    [
        written_and_read(8, &[0x2000, 0x2008, 0x2010, 0x2018], &[0x2000, 0xF]),
        written_and_read(4, &[0x100, 0x17C], &[0x100, 0x8000_0001]),
        apply_to(8, Big, &[0; 8], 1, 0, &mut [0xFF; 8]),
        apply_to(4, Big, &[0; 4], 1, 0, &mut [0, 0, 0, 0xFF]),
    ]
    .concat()
}

/// A list written into sixteen bytes 7, and its words read into a column of four
/// sevens.
fn written_and_read(class: u32, list: &[u64], words: &[u64]) -> String {
    let table = turned(class, &relr_bytes(class, words));
    let write = write_into(class, Big, list, &mut [7; 16]);
    write + &read_into(class, Big, &table, &mut [7; 4])
}

/// The byte order behind a class, where it is big-endian.
fn named(order: ByteOrder) -> &'static str {
    match order {
        Little => "",
        Big => " big-endian",
    }
}

/// Numbers, each behind a space.
fn items(numbers: &[u64]) -> String {
    numbers.iter().map(|number| format!(" {number}")).collect()
}

/// Bytes in hexadecimal, each behind a space.
fn hex(bytes: &[u8]) -> String {
    bytes.iter().map(|byte| format!(" {byte:02x}")).collect()
}
