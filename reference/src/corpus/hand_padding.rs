//! Hand-made cases of each number of each table that is read, in every length that
//! its width allows, and of numbers at the ends of those lengths. A padded number is
//! accepted lax; strictly it is 18 at its first byte.

use super::calls::{APA1_READ, APR1_READ, Call, RELLEB_READ};
use super::case::Case;
use super::hand::{Hand, Want, hand};
use super::tables::{join, padded};
use crate::leb::Kind::{self, Signed, Unsigned};

/// A number of a table, and the bytes before it and behind it.
#[derive(Clone, Copy)]
struct Place {
    call: u8,
    class: u32,
    name: &'static str,
    kind: Kind,
    before: &'static [u8],
    behind: &'static [u8],
}

impl Place {
    /// The read of the table with this number, its lax answer, and whether the
    /// strict one is 18.
    fn hand(&self, told: &str, number: &[u8], lax: Want, padding: bool) -> Hand {
        let table = join(&[self.before, number, self.behind]);
        let class = if self.class == 0 { "" } else { &format!(" class {}", self.class) };
        let name = format!("{}{class} {} {told}", Call::of(self.call).name, self.name);
        let made = hand(&name, Case::read_into(self.call, self.class, &table, 2), lax);
        if padding { made.strictly((18, self.before.len() as u64, 0)) } else { made }
    }
}

/// One record.
const ONE: Want = (0, 0, 1);

pub fn all() -> Vec<Hand> {
    let mut hands = Vec::new();
    hands.extend(numbers().into_iter().flat_map(lengths));
    hands.extend(kinds().into_iter().flat_map(ends));
    hands
}

/// The numbers of the tables, each with a value whose shortest form is one byte,
/// where it is signed a negative one too, and the lax answer.
fn numbers() -> Vec<(Place, i128, Want)> {
    let mut numbers = Vec::new();
    numbers.extend(apr1());
    numbers.extend(apa1());
    for class in [4, 8] {
        numbers.extend(relleb(class));
    }
    numbers
}

fn apr1() -> [(Place, i128, Want); 4] {
    let row = |name, before: &'static [u8], behind: &'static [u8], records| {
        let (call, class, kind) = (APR1_READ, 0, Unsigned(32));
        (Place { call, class, name, kind, before, behind }, 1, (0, 0, records))
    };
    [
        row("N", b"APR1", &[0, 1, 4], 2),
        row("A", b"APR1\x00", &[], 1),
        row("C", b"APR1\x01\x00", &[4], 2),
        row("D", b"APR1\x01\x00\x01", &[], 2),
    ]
}

fn apa1() -> [(Place, i128, Want); 6] {
    let row = |name, before: &'static [u8], value, behind: &'static [u8], want| {
        let (call, class, kind) = (APA1_READ, 0, Signed(64));
        (Place { call, class, name, kind, before, behind }, value, want)
    };
    [
        row("count", b"APA1", 1, &[0, 0], ONE),
        // 5 comes before 18
        row("count", b"APA1", -1, &[0, 0], (5, 4, 0)),
        row("offset", b"APA1\x01", 1, &[0], ONE),
        row("offset", b"APA1\x01", -1, &[0], ONE),
        row("addend", b"APA1\x01\x00", 1, &[], ONE),
        row("addend", b"APA1\x01\x00", -1, &[], ONE),
    ]
}

fn relleb(class: u32) -> [(Place, i128, Want); 8] {
    let row = |name, kind, before: &'static [u8], value, behind: &'static [u8]| {
        (Place { call: RELLEB_READ, class, name, kind, before, behind }, value, ONE)
    };
    let word = 8 * class;
    [
        row("count", Unsigned(64), &[], 1, &[0, 0, 0]),
        row("offset", Unsigned(word), &[1], 1, &[0, 0]),
        row("type", Signed(32), &[1, 0], 1, &[0]),
        row("type", Signed(32), &[1, 0], -1, &[0]),
        row("symbol", Signed(33), &[1, 0, 0], 1, &[]),
        row("symbol", Signed(33), &[1, 0, 0], -1, &[5]),
        row("addend", Signed(word), &[1, 0, 0, 0x7F], 1, &[]),
        row("addend", Signed(word), &[1, 0, 0, 0x7F], -1, &[]),
    ]
}

/// A number in every length.
fn lengths((place, value, lax): (Place, i128, Want)) -> Vec<Hand> {
    let length = |more| {
        let number = padded(place.kind, value, more);
        let told = format!("{value}, length {}", number.len());
        place.hand(&told, &number, lax, more > 0 && lax.0 == 0)
    };
    (0..place.kind.most_bytes()).map(length).collect()
}

/// Forms at an end of the numbers of some length: the bytes that all but the last are,
/// and the last with what may stand behind it. The first form is the end itself, the
/// second the same number with a byte of padding, the third the number beyond it.
type Forms = [(&'static str, u8, &'static [u8]); 3];

const UNSIGNED: Forms = [
    ("largest of", 0xFF, &[0x7F]),
    ("padded, largest of", 0xFF, &[0xFF, 0x00]),
    ("one above", 0x80, &[0x80, 0x01]),
];

const LARGEST: Forms = [
    ("largest of", 0xFF, &[0x3F]),
    ("padded, largest of", 0xFF, &[0xBF, 0x00]),
    ("one above", 0x80, &[0xC0, 0x00]),
];

const LEAST: Forms = [
    ("least of", 0x80, &[0x40]),
    ("padded, least of", 0x80, &[0xC0, 0x7F]),
    ("one below", 0xFF, &[0xBF, 0x7F]),
];

/// A number of each kind, in a table of one record. Behind a negative symbol field
/// stands an addend difference.
fn kinds() -> [(Place, Forms); 8] {
    let row = |call, class, name, kind, before: &'static [u8], behind: &'static [u8], forms| {
        (Place { call, class, name, kind, before, behind }, forms)
    };
    [
        row(APR1_READ, 0, "D", Unsigned(32), b"APR1\x01\x00\x00", &[], UNSIGNED),
        row(APA1_READ, 0, "addend", Signed(64), b"APA1\x01\x00", &[], LARGEST),
        row(APA1_READ, 0, "addend", Signed(64), b"APA1\x01\x00", &[], LEAST),
        row(RELLEB_READ, 4, "type", Signed(32), &[1, 0], &[0], LARGEST),
        row(RELLEB_READ, 4, "type", Signed(32), &[1, 0], &[0], LEAST),
        row(RELLEB_READ, 8, "offset", Unsigned(64), &[1], &[0, 0], UNSIGNED),
        row(RELLEB_READ, 8, "symbol", Signed(33), &[1, 0, 0], &[], LARGEST),
        row(RELLEB_READ, 8, "symbol", Signed(33), &[1, 0, 0], &[5], LEAST),
    ]
}

/// The forms at the ends of every length but the longest.
fn ends((place, forms): (Place, Forms)) -> Vec<Hand> {
    let mut hands = Vec::new();
    for length in 1..place.kind.most_bytes() {
        for (index, (told, digit, last)) in forms.into_iter().enumerate() {
            let number = join(&[&vec![digit; length - 1], last]);
            let told = format!("{told} length {length}");
            hands.push(place.hand(&told, &number, ONE, index == 1));
        }
    }
    hands
}
