//! Random tables of each kind.

use super::build::Build;
use super::tables::{padded, relr_bytes};
use crate::leb::Kind::{self, Signed, Unsigned};

/// The largest APR1 offset.
const APR1_TOP: u64 = 0xFFFF_FFFC;

impl Build<'_> {
    pub(super) fn relr_table(&mut self, class: u32, size: usize) -> Vec<u8> {
        let mut words: Vec<u64> = Vec::new();
        for index in 0..size {
            let shape = if index > 0 || self.edge(10) { self.rng.below(10) } else { 9 };
            words.push(match shape {
                0..=6 => self.bitmap(class, shape),
                7 => words.last().map_or(0, |word| word & !1),
                _ => self.address(class),
            });
        }
        relr_bytes(class, &words)
    }

    /// A bitmap of one of seven shapes; among the edges also with few bits clear.
    fn bitmap(&mut self, class: u32, shape: u64) -> u64 {
        if self.edge(4) {
            return self.rng.draw() | self.rng.draw() | 1;
        }
        let bits = match shape {
            0 => 0,
            1 => self.rng.draw() & self.rng.draw() & self.rng.draw(),
            2 | 3 => self.rng.draw() & self.rng.draw(),
            4 => 1 << self.rng.below(class as u64 * 8),
            5 => u64::MAX,
            _ => self.rng.any_size(),
        };
        bits | 1
    }

    /// An even word: mostly low, seldom near or over the end of the space.
    pub(super) fn address(&mut self, class: u32) -> u64 {
        let end = u64::MAX >> (64 - 8 * class);
        let word = match self.arm(24, 4) {
            0 => end - self.rng.below(600),
            1 => self.rng.any_size() & (end / 2),
            2..=7 => self.rng.below(0x400) * 2,
            24 | 25 => end - self.rng.below(16),
            26 | 27 => self.about(8 * class),
            _ => self.rng.below(0x400) * class as u64,
        };
        word & !1
    }

    /// A table whose offsets lie in a small image.
    pub(super) fn low_table(&mut self, class: u32, size: usize) -> Vec<u8> {
        let mut words = Vec::new();
        for _ in 0..1 + size / 2 {
            words.push(self.rng.below(100) * 2);
            if self.rng.once_in(2) {
                words.push(self.rng.below(256) * 2 + 1);
            }
            if self.rng.once_in(4) {
                words.push(self.rng.below(16) * 2 + 1);
            }
            while self.edge(2) {
                let shape = self.rng.below(7);
                words.push(self.bitmap(class, shape));
            }
        }
        relr_bytes(class, &words)
    }

    /// Moves the addresses of a RELR table up: a little, to anywhere, or to the top
    /// of the space, where some go on at its bottom.
    pub(super) fn raise(&mut self, class: u32, table: &mut [u8]) {
        let end = u64::MAX >> (64 - 8 * class);
        let by = match self.rng.below(4) {
            0 => 0x1000,
            1 => self.rng.below(0x1000),
            2 => self.rng.any_size(),
            _ => end - self.rng.below(0x600),
        };
        for bytes in table.chunks_exact_mut(class as usize) {
            let mut word = [0; 8];
            word[..bytes.len()].copy_from_slice(bytes);
            let word = u64::from_le_bytes(word);
            if word % 2 == 0 {
                let raised = word.wrapping_add(by & !1);
                bytes.copy_from_slice(&raised.to_le_bytes()[..bytes.len()]);
            }
        }
    }

    /// A number of a table: sometimes padded; among the edges with any last
    /// byte.
    pub fn number(&mut self, kind: Kind, value: i128) -> Vec<u8> {
        let padding = self.padding > 0 && self.rng.once_in(self.padding);
        let more = if padding { self.rng.index(10) } else { 0 };
        let mut bytes = padded(kind, value, more);
        if self.edge(60) {
            bytes = padded(kind, value, 10);
            *bytes.last_mut().unwrap() = self.rng.draw() as u8;
        }
        bytes
    }

    /// The count of a table; among the edges a wrong one.
    fn count(&mut self, kind: Kind, records: usize) -> Vec<u8> {
        let count = if self.edge(20) { self.value(kind) } else { records as i128 };
        self.number(kind, count)
    }

    pub(super) fn apr1_table(&mut self, size: usize) -> Vec<u8> {
        let (kind, pairs) = (Unsigned(32), size - 1);
        let mut table = b"APR1".to_vec();
        table.extend(self.count(kind, pairs));
        let mut offset = if self.rng.once_in(12) {
            u32::MAX as u64 - self.rng.below(16)
        } else {
            self.rng.any_size() >> 33
        };
        table.extend(self.number(kind, offset as i128));
        for _ in 0..pairs {
            let (times, gap) = self.pair(APR1_TOP.saturating_sub(offset));
            offset = offset.saturating_add(times.saturating_mul(gap));
            table.extend(self.number(kind, times as i128));
            table.extend(self.number(kind, gap as i128));
        }
        table
    }

    /// A pair of APR1; among the edges such as end `left` further on, or past
    /// it.
    fn pair(&mut self, left: u64) -> (u64, u64) {
        match self.arm(16, 5) {
            0 => (0, self.rng.draw() >> 32),
            1 => (self.rng.below(4), 0),
            2 => (self.rng.any_size() >> 32, self.rng.below(3)),
            3 => (self.rng.below(3), self.rng.any_size() >> 32),
            16 => (1, left + self.rng.below(2)),
            17 => (left + self.rng.below(2), 1),
            18 => (left / 4 + self.rng.below(2), 4),
            19 => (self.about(32), 0),
            20 => (self.about(32), self.about(32)),
            _ => (self.rng.below(9), self.rng.below(300)),
        }
    }

    pub(super) fn apa1_table(&mut self, size: usize) -> Vec<u8> {
        let (kind, records) = (Signed(64), size - 1);
        let mut table = b"APA1".to_vec();
        table.extend(self.count(kind, records));
        for _ in 0..2 * records {
            let value = self.value(kind);
            table.extend(self.number(kind, value));
        }
        table
    }

    pub(super) fn relleb_table(&mut self, class: u32, size: usize) -> Vec<u8> {
        let (bits, records) = (class * 8, size - 1);
        let mut table = self.count(Unsigned(64), records);
        for _ in 0..records {
            let kinds = [Unsigned(bits), Signed(32), Signed(33)];
            let values = kinds.map(|kind| self.value(kind));
            for (kind, value) in kinds.into_iter().zip(values) {
                table.extend(self.number(kind, value));
            }
            if values[2] < 0 {
                let addend = if self.edge(12) { 0 } else { self.value(Signed(bits)) };
                table.extend(self.number(Signed(bits), addend));
            }
        }
        table
    }
}
