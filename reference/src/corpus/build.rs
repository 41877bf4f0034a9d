//! Cases, tables and lists from random numbers, for the corpus and for the
//! random comparison.

use super::calls::{APA1_READ, APR1_READ, Call, RELLEB_READ, RELR_READ, Setting, Shape};
use super::case::{Case, FILL};
use super::rng::Rng;
use crate::leb::Kind::{self, Signed, Unsigned};

/// Records or bytes beyond which only little room is lent.
const MOST_ROOM: u64 = 20_000;

pub struct Build<'a> {
    pub rng: &'a mut Rng,
    /// Whether there are edges too. The corpus's rounds draw none, nor any number
    /// for them, so that they stay as they are.
    pub edges: bool,
    /// One number of a table in so many is padded; none where it is 0.
    pub padding: u64,
}

impl Build<'_> {
    /// One of `arms`, or of the `edges` that follow them.
    pub(super) fn arm(&mut self, arms: u64, edges: u64) -> u64 {
        self.rng.below(if self.edges { arms + edges } else { arms })
    }

    /// True for an edge once in `times`.
    pub(super) fn edge(&mut self, times: u64) -> bool {
        self.edges && self.rng.once_in(times)
    }

    /// A case of a call; `size` is at least 1.
    pub fn case(&mut self, call: u8, class: u32, size: usize) -> Case {
        let row = Call::of(call);
        let class = if row.takes(Setting::Class) { class } else { 0 };
        match row.shape {
            Shape::Read => self.read(call, class, size),
            Shape::Write => self.write(call, class, size),
            Shape::Apply => self.apply(class, size),
        }
    }

    fn read(&mut self, call: u8, class: u32, size: usize) -> Case {
        let table = self.table(call, class, size);
        let mut case = self.lend(Case::read_into(call, class, &table, 0));
        let [.., symbols, addends] = case.call().columns;
        if self.rng.once_in(40) && case.call().takes(Setting::Class) {
            case.class = self.rng.below(12) as u32;
        }
        if self.rng.once_in(20) && addends {
            case.addends.push(i64::from_le_bytes([FILL; 8]));
        }
        if self.rng.once_in(40) && symbols {
            case.symbols.pop();
        }
        case
    }

    fn write(&mut self, call: u8, class: u32, size: usize) -> Case {
        let mut case = self.list(call, class, size);
        if case.call().takes(Setting::Class) && self.rng.once_in(40) {
            case.class = self.rng.below(12) as u32;
        }
        self.lend(case)
    }

    fn apply(&mut self, class: u32, size: usize) -> Case {
        let kind = self.rng.below(3);
        let mut table = match kind {
            0 => self.table(RELR_READ, class, size),
            _ => self.low_table(class, size.min(30)),
        };
        if self.edge(2) {
            self.raise(class, &mut table);
        }
        if self.edge(12) {
            table.clear();
        }
        if kind == 2 {
            self.damage(RELR_READ, class, &mut table);
        }
        let mut case = self.applied(class, &table);
        if self.rng.once_in(40) {
            case.class = self.rng.below(12) as u32;
        }
        case
    }

    /// The applying of a table to some image with some base. Among the edges the
    /// image has some start, otherwise it starts at 0.
    pub fn applied(&mut self, class: u32, table: &[u8]) -> Case {
        if self.edges {
            return self.applied_anywhere(class, table);
        }
        // Eight bytes for the last word, whatever the class.
        let image = self.image(self.reach(&list_of(class, table), 0, 8));
        self.based(class, table, 0, &image)
    }

    /// The applying of a table that lies anywhere to a small image.
    pub fn apply_anywhere(&mut self, class: u32, size: usize) -> Case {
        let mut table = self.low_table(class, size);
        self.raise(class, &mut table);
        self.applied_anywhere(class, &table)
    }

    /// The applying of a table to some image with some base and some start.
    fn applied_anywhere(&mut self, class: u32, table: &[u8]) -> Case {
        let list = list_of(class, table);
        let start = self.start(class, &list);
        let image = self.image(self.reach(&list, start, class as u64));
        self.based(class, table, start, &image)
    }

    /// A start of an image for a list: 0, small, at the lowest offset or about it,
    /// about any offset, about 2^32 or about the largest number.
    fn start(&mut self, class: u32, list: &[u64]) -> u64 {
        let least = list.iter().copied().min().unwrap_or(0);
        let some = if list.is_empty() { 0 } else { self.rng.pick(list) };
        match self.rng.below(16) {
            0 | 1 => 0,
            2..=6 => least,
            7..=9 => least.saturating_sub(1 + self.rng.below(16)),
            10 => least.saturating_add(1),
            11 => least.saturating_add(1 + self.rng.below(class as u64)),
            12 => some.saturating_add(self.rng.below(3)),
            13 => self.rng.below(16),
            14 => (1 << 32) - 8 + self.rng.below(16),
            _ => u64::MAX - self.rng.below(24),
        }
    }

    /// The applying of a table with some base.
    fn based(&mut self, class: u32, table: &[u8], start: u64, image: &[u8]) -> Case {
        let base = match self.arm(8, 3) {
            0 => self.rng.draw(),
            1 => u64::MAX,
            2 => u32::MAX as u64,
            8 => u32::MAX as u64 + self.rng.below(2),
            9 | 10 => self.about(32),
            _ => self.rng.any_size() & u32::MAX as u64,
        };
        Case::apply(class, table, base, start, image)
    }

    /// The bytes of an image from its start to the end of the list's highest word,
    /// or a few where they would be many.
    fn reach(&self, list: &[u64], start: u64, word: u64) -> usize {
        let most = if self.edges { 10_000 } else { 2_000 };
        let end = list.iter().max().map_or(0, |top| *top as u128 + word as u128);
        let reach = end.saturating_sub(start as u128);
        if reach > most { 64 } else { reach as usize }
    }

    /// An image for words that end so many bytes behind its start: mostly it holds
    /// them all, sometimes exactly, sometimes not quite.
    fn image(&mut self, end: usize) -> Vec<u8> {
        let length = match self.arm(6, 4) {
            0 => end.saturating_sub(1 + self.rng.index(12)),
            1 => self.rng.index(end + 1),
            2 => end + self.rng.index(20),
            6 => end.saturating_sub(1),
            7.. => end + self.rng.index(2_000),
            _ => end,
        };
        (0..length).map(|_| if self.edge(2) { 0xFF } else { self.rng.draw() as u8 }).collect()
    }

    /// Lends a read its columns, or a write its table: mostly enough room,
    /// sometimes exactly enough, one short, or none.
    pub fn lend(&mut self, case: Case) -> Case {
        let need = need(&case);
        let room = match self.rng.below(10) {
            0 => 0,
            1 => need.saturating_sub(1),
            2 => self.rng.index(need + 1),
            3..=5 => need,
            _ => need + self.rng.index(4),
        };
        if case.is_write() {
            return Case { bytes: vec![FILL; room], ..case };
        }
        let Case { offsets, types, symbols, addends, .. } =
            Case::read_into(case.call, case.class, &[], room);
        Case { offsets, types, symbols, addends, ..case }
    }

    /// A table for a reading call, well-formed or damaged.
    fn table(&mut self, call: u8, class: u32, size: usize) -> Vec<u8> {
        let mut table = match call {
            RELR_READ => self.relr_table(class, size),
            APR1_READ => self.apr1_table(size),
            APA1_READ => self.apa1_table(size),
            RELLEB_READ => self.relleb_table(class, size),
            _ => panic!("no table for {}", Call::of(call).name),
        };
        let mut damaged = !self.edges || self.rng.once_in(2);
        while damaged {
            self.damage(call, class, &mut table);
            damaged = self.edge(4);
        }
        table
    }

    fn damage(&mut self, call: u8, class: u32, table: &mut Vec<u8>) {
        let (length, word) = (table.len(), class as usize);
        match self.arm(12, 4) {
            3 | 4 => table.truncate(self.rng.index(length + 1)),
            5 => (0..1 + self.rng.below(5)).for_each(|_| table.push(self.byte())),
            12 | 13 => table.insert(self.rng.index(length + 1), self.byte()),
            _ if length == 0 => {}
            0 | 1 => {
                let at = self.rng.index(length);
                table[at] ^= 1 << self.rng.below(8);
            }
            2 => {
                for _ in 0..1 + self.rng.below(4) {
                    let at = self.rng.index(length);
                    table[at] = self.byte();
                }
            }
            6 if call == RELR_READ && length >= word => {
                table[self.rng.index(length / word) * word] ^= 1;
            }
            14 | 15 => drop(table.remove(self.rng.index(length))),
            _ => {}
        }
    }

    /// Any byte; among the edges those at an end.
    fn byte(&mut self) -> u8 {
        if self.edge(2) {
            return self.rng.pick(&[0x00, 0x01, 0x40, 0x7F, 0x80, 0xFF]);
        }
        self.rng.draw() as u8
    }

    /// A number of a kind: small, of any size, or at an end.
    pub(super) fn value(&mut self, kind: Kind) -> i128 {
        match kind {
            Unsigned(width) => self.unsigned(width) as i128,
            Signed(width) => self.signed(width) as i128,
        }
    }

    pub(super) fn unsigned(&mut self, width: u32) -> u64 {
        let largest = u64::MAX >> (64 - width);
        match self.arm(8, 4) {
            0 => largest,
            1 | 2 => self.rng.any_size() & largest,
            8.. => self.about(width),
            _ => self.rng.below(200),
        }
    }

    pub(super) fn signed(&mut self, width: u32) -> i64 {
        let largest = i64::MAX >> (64 - width);
        match self.arm(10, 4) {
            0 => largest,
            1 => -1 - largest,
            2 => self.rng.any_size() as i64 & largest,
            3 => -(self.rng.any_size() as i64 & largest),
            4 => self.rng.below(300) as i64 - 150,
            10 | 11 => self.about(width - 1) as i64,
            12.. => -1 - self.about(width - 1) as i64,
            _ => self.rng.below(130) as i64 - 65,
        }
    }

    /// A number of so many bits about a power of two, or about its end.
    pub(super) fn about(&mut self, bits: u32) -> u64 {
        let power = 1u128 << self.rng.below(bits as u64 + 1);
        let number = power.wrapping_add(self.rng.below(4) as u128).wrapping_sub(2);
        number as u64 & (u64::MAX >> (64 - bits))
    }
}

/// The list of a RELR table; none where it is refused or has many offsets.
fn list_of(class: u32, table: &[u8]) -> Vec<u64> {
    let read = |room| Case::read_into(RELR_READ, class, table, room);
    let (answer, after) = read(need(&read(0))).run();
    if answer.number == 0 { after.offsets } else { Vec::new() }
}

/// What a call that is lent no room needs. A list over the most room is lent
/// little.
pub fn need(case: &Case) -> usize {
    let (answer, _) = case.run();
    if answer.count > MOST_ROOM { 20 } else { answer.count as usize }
}
