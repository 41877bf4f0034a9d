//! What is measured: a row is a call on tables or lists of one shape, of any number of records.

use crate::setting::Setting;
use reference::corpus::calls::{
    APA1_READ, APA1_WRITE, APR1_READ, APR1_WRITE, RELLEB_READ, RELLEB_WRITE, RELR_READ, RELR_WRITE,
};
use reference::corpus::case::{Case, FILL};
use reference::corpus::rng::Rng;
use reference::corpus::tables::relr_bytes;
use std::rc::Rc;

/// The seed of every list.
const SEED: u64 = 1;

/// What is added when a table is applied.
const BASE: u64 = 0x1234_5678;

/// The start of the image that a table is applied to.
pub const START: u64 = 0x1000;

/// The sizes of a row, if nothing else is said.
pub const SIZES: [usize; 4] = [10_000, 100_000, 1_000_000, 4_000_000];

/// The sizes of a row with a setting on, if the one without has more than one.
const SET_SIZES: [usize; 2] = [10_000, 1_000_000];

/// A row: its name, the numbers of records that it is measured with, the setting that is on, and its
/// case of so many.
pub struct Row {
    pub name: String,
    pub sizes: &'static [usize],
    pub setting: Option<Setting>,
    pub case: Rc<dyn Fn(usize) -> Case>,
}

impl Row {
    /// A row with no setting on.
    pub fn new(
        name: String,
        sizes: &'static [usize],
        case: impl Fn(usize) -> Case + 'static,
    ) -> Row {
        Row { name, sizes, setting: None, case: Rc::new(case) }
    }

    /// The row with the setting on that its call takes.
    fn set(&self) -> Option<Row> {
        let setting = Setting::of((self.case)(1).call())?;
        let name = format!("{}, {}", self.name, setting.names()[1]);
        let sizes = if self.sizes.len() > 1 { &SET_SIZES } else { self.sizes };
        let unset = self.case.clone();
        let case = move |records| {
            let mut case = unset(records);
            setting.turn(&mut case);
            case
        };
        Some(Row { setting: Some(setting), ..Row::new(name, sizes, case) })
    }
}

/// What a RELR table is made of.
#[derive(Clone, Copy)]
enum Shape {
    /// Full bitmaps.
    Dense,
    /// Bitmaps with half their bits, as chance has it.
    Half,
    /// Bitmaps with one bit each.
    Sparse,
    /// Runs of 20 to 60 words, and gaps of 1 to 512 words, short ones more often.
    Linked,
    /// No bitmaps.
    Addresses,
    /// Runs of five words, of four and of one, by turns; after each a gap of 200.
    Ten,
}

/// The shapes by name, and their sizes.
const SHAPES: [(&str, Shape, &[usize]); 6] = [
    ("dense bitmaps", Shape::Dense, &SIZES),
    ("half-full bitmaps", Shape::Half, &SIZES),
    ("sparse bitmaps", Shape::Sparse, &SIZES),
    ("like a linker's", Shape::Linked, &SIZES),
    ("addresses only", Shape::Addresses, &SIZES),
    ("ten offsets", Shape::Ten, &[10]),
];

/// The longest run of an APR1 list, by name.
const RUNS: [(&str, u64); 2] = [("short runs", 4), ("long runs", 2_000)];

/// All rows; behind each whose call takes a setting the one with it on.
pub fn all() -> Vec<Row> {
    let and_set = |row: Row| {
        let set = row.set();
        [row].into_iter().chain(set)
    };
    unset().into_iter().flat_map(and_set).collect()
}

/// The rows with no setting on.
fn unset() -> Vec<Row> {
    let mut rows = relr();
    for (name, longest) in RUNS {
        rows.extend(both("APR1", name, APR1_READ, move |records| apr1_list(longest, records)));
    }
    rows.extend(both("APA1", "records", APA1_READ, |records| record_list(APA1_WRITE, 0, records)));
    rows.push(far_read("APA1", "long numbers", APA1_READ, APA1_WRITE, 0));
    for class in [4, 8] {
        let name = format!("records, class {class}");
        let list = move |records| record_list(RELLEB_WRITE, class, records);
        rows.extend(both("RELLEB", &name, RELLEB_READ, list));
    }
    rows.push(far_read("RELLEB", "long numbers, class 8", RELLEB_READ, RELLEB_WRITE, 8));
    rows
}

/// The rows of RELR.
fn relr() -> Vec<Row> {
    let shapes = SHAPES.iter().flat_map(|shape| [(shape, 4), (shape, 8)]);
    let mut rows = Vec::new();
    for (&(name, shape, sizes), class) in shapes.clone() {
        let name = format!("RELR apply, {name}, class {class}");
        rows.push(Row::new(name, sizes, move |records| applied(shape, class, records)));
    }
    for (&(name, shape, sizes), class) in shapes {
        let name = format!("{name}, class {class}");
        let list = move |records| relr_list(shape, class, records);
        rows.extend(both("RELR", &name, RELR_READ, list).map(|row| Row { sizes, ..row }));
    }
    rows
}

/// The rows of writing a list and of reading the table written.
fn both(
    kind: &str,
    name: &str,
    read: u8,
    list: impl Fn(usize) -> Case + Copy + 'static,
) -> [Row; 2] {
    let reading = move |records| {
        let list = list(records);
        Case::read_into(read, list.class, &written(&list), records)
    };
    let writing = move |records| {
        let list = list(records);
        Case { bytes: vec![FILL; written(&list).len()], ..list }
    };
    [
        Row::new(format!("{kind} read, {name}"), &SIZES, reading),
        Row::new(format!("{kind} write, {name}"), &SIZES, writing),
    ]
}

/// The row of reading a table of long numbers.
fn far_read(kind: &str, name: &str, read: u8, write: u8, class: u32) -> Row {
    let [reading, _] = both(kind, name, read, move |records| far_list(write, class, records));
    reading
}

/// The reference's table for a list.
fn written(list: &Case) -> Vec<u8> {
    let need = list.run().0.count as usize;
    Case { bytes: vec![FILL; need], ..list.clone() }.run().1.bytes
}

/// The applying of a table to an image that ends with its last word. Sparse bitmaps and addresses
/// have an image of as many words as offsets.
fn applied(shape: Shape, class: u32, records: usize) -> Case {
    let dense = matches!(shape, Shape::Sparse | Shape::Addresses);
    let mut list = relr_list(if dense { Shape::Dense } else { shape }, class, records);
    list.offsets.iter_mut().for_each(|offset| *offset += START);
    let table = match shape {
        Shape::Sparse => sparse_turns(class, records),
        Shape::Addresses => relr_bytes(class, &list.offsets),
        _ => written(&list),
    };
    let length = list.offsets[records - 1] + class as u64 - START;
    Case::apply(class, &table, BASE, START, &vec![FILL; length as usize])
}

/// A sparse table of one offset a word, which goes back to the start when a bitmap would pass the
/// image's end.
fn sparse_turns(class: u32, records: usize) -> Vec<u8> {
    let mut rng = Rng::new(SEED);
    let turn = 1 + (records - 1) / window(class) as usize;
    let mut bitmap = || 1 | 2 << rng.below(window(class));
    let words = (0..records).map(|index| if index % turn == 0 { START } else { bitmap() });
    relr_bytes(class, &words.collect::<Vec<_>>())
}

/// The locations of a bitmap.
fn window(class: u32) -> u64 {
    8 * class as u64 - 1
}

/// A RELR list of a shape.
fn relr_list(shape: Shape, class: u32, records: usize) -> Case {
    let mut rng = Rng::new(SEED);
    let (mut last, mut run) = (0, 20);
    let word = |index: u64| {
        last = match shape {
            Shape::Dense => index,
            Shape::Addresses => index * (window(class) + 1),
            Shape::Ten => index + 200 * (index / 10 * 3 + index % 10 / 5 + index % 10 / 9),
            // The first is an address.
            _ if index == 0 => 0,
            // One location of each bitmap.
            Shape::Sparse => 1 + (index - 1) * window(class) + rng.below(window(class)),
            // Each word after the last is the next with one chance in two.
            Shape::Half => last + 1 + rng.draw().trailing_zeros() as u64,
            Shape::Linked if run == 0 => {
                run = 19 + rng.below(41);
                let longest = if rng.once_in(32) { 512 } else { 7 };
                last + 2 + rng.below(longest)
            }
            Shape::Linked => {
                run -= 1;
                last + 1
            }
        };
        last
    };
    let offsets: Vec<u64> = (0..records as u64).map(word).map(|word| word * class as u64).collect();
    Case::write(RELR_WRITE, class, &offsets, 0)
}

/// An APR1 list with runs up to the longest, of gaps up to 128.
fn apr1_list(longest: u64, records: usize) -> Case {
    let mut rng = Rng::new(SEED);
    let (mut offset, mut gap, mut times) = (0x1000, 4, 0);
    let mut offsets = vec![offset];
    while offsets.len() < records {
        if times == 0 {
            // Another gap than that of the run before.
            gap = (gap + 4 * rng.below(31)) % 128 + 4;
            times = 1 + rng.below(longest);
        }
        offset += gap;
        times -= 1;
        offsets.push(offset);
    }
    Case::write(APR1_WRITE, 0, &offsets, 0)
}

/// A list of records for APA1 or RELLEB: most offsets a word apart, few types, one addend in two
/// another than before.
fn record_list(call: u8, class: u32, records: usize) -> Case {
    let mut rng = Rng::new(SEED);
    let mut case = Case::write(call, class, &[], 0);
    let (mut offset, mut kind, mut addend) = (0x1000, 1, 0);
    for _ in 0..records {
        offset += if rng.once_in(4) { 8 * (1 + rng.below(32)) } else { 8 };
        if rng.once_in(2) {
            let bits = rng.below(22);
            addend = rng.below(1 << bits) as i64 - 4;
        }
        case.offsets.push(offset);
        case.addends.push(addend);
        if call == RELLEB_WRITE {
            if rng.once_in(4) {
                kind = rng.pick(&[1, 2, 4, 6, 7, 8, 257]);
            }
            case.types.push(kind);
            case.symbols.push(rng.below(5_000) as u32);
        }
    }
    case
}

/// A list of records for APA1 or RELLEB's class 8 that are far apart: the differences of offsets and
/// of addends are numbers of 5 to 10 bytes, those of types and the symbol fields most often of 5.
fn far_list(call: u8, class: u32, records: usize) -> Case {
    let mut rng = Rng::new(SEED);
    let mut case = Case::write(call, class, &[], 0);
    let (mut offset, mut addend) = (0u64, 0i64);
    for _ in 0..records {
        offset = offset.wrapping_add(long_number(&mut rng));
        let change = long_number(&mut rng) as i64;
        addend = addend.wrapping_add(if rng.once_in(2) { change } else { !change });
        case.offsets.push(offset);
        case.addends.push(addend);
        if call == RELLEB_WRITE {
            case.types.push(rng.draw() as u32);
            case.symbols.push(rng.draw() as u32);
        }
    }
    case
}

/// A number of 29 to 64 bits: 5 to 10 bytes, also as a signed number.
fn long_number(rng: &mut Rng) -> u64 {
    let top = 1 << (28 + rng.below(36));
    top | rng.below(top)
}
