//! Random lists for each writer.

use super::build::Build;
use super::calls::{APA1_WRITE, APR1_WRITE, Call, RELLEB_WRITE, RELR_WRITE};
use super::case::Case;

impl Build<'_> {
    /// A list for a writing call, which is lent no table yet.
    pub fn list(&mut self, call: u8, class: u32, size: usize) -> Case {
        match call {
            RELR_WRITE => Case::write(call, class, &self.relr_list(class, size), 0),
            APR1_WRITE => Case::write(call, 0, &self.apr1_list(size), 0),
            APA1_WRITE => self.apa1_list(size),
            RELLEB_WRITE => self.relleb_list(class, size),
            _ => panic!("no list for {}", Call::of(call).name),
        }
    }

    fn relr_list(&mut self, class: u32, size: usize) -> Vec<u64> {
        let wide = class as u64;
        let window = wide * 8 - 1;
        let mut offset = self.address(class);
        let mut list = Vec::new();
        for _ in 0..self.rng.index(6 * size) {
            list.push(offset);
            let gap = match self.arm(16, 2) {
                0 => 2,
                1 => 2 + 2 * self.rng.below(40),
                2 => wide * window,
                3 => wide * (window + 1),
                4 => wide * (1 + self.rng.below(2 * window)),
                5 => wide * 3,
                16 => wide * (window - 1),
                17 => 2 + 2 * (self.rng.any_size() >> 33),
                _ => wide,
            };
            offset = offset.saturating_add(gap);
        }
        if self.edges && !self.rng.once_in(4) {
            // Nothing past the end of the space.
            list.retain(|offset| *offset as u128 + wide as u128 <= 1 << (8 * class));
        }
        self.spoil(&mut list);
        list
    }

    fn apr1_list(&mut self, size: usize) -> Vec<u64> {
        let mut offset = if self.rng.once_in(12) {
            u32::MAX as u64 - self.rng.below(200)
        } else {
            self.rng.any_size() >> 34
        };
        let mut gap = 4;
        let mut list = Vec::new();
        for _ in 0..self.rng.index(5 * size) {
            list.push(offset);
            if self.rng.once_in(3) {
                gap = self.rng.pick(&[1, 4, 4, 8, 127, 128, 300, 20_000]);
            }
            if self.edge(8) {
                gap = 1 + self.about(20);
            }
            offset += gap;
        }
        self.spoil(&mut list);
        list
    }

    /// Makes one list in four illegal, or harmlessly different.
    fn spoil(&mut self, list: &mut [u64]) {
        if list.is_empty() || !self.rng.once_in(4) {
            return;
        }
        let at = self.rng.index(list.len());
        list[at] = match self.rng.below(5) {
            0 => list[at].saturating_add(1),
            1 => list[at.saturating_sub(1)],
            2 => list[at].saturating_sub(self.rng.below(64)),
            3 => u64::MAX - self.rng.below(9),
            _ => (1 << 32) - self.rng.below(9),
        };
    }

    fn apa1_list(&mut self, size: usize) -> Case {
        let count = self.rng.index(size + 1);
        let offsets = self.offsets(64, count);
        let longer = self.rng.once_in(20) as usize;
        let addends = self.addends(64, count + longer);
        Case::write(APA1_WRITE, 0, &offsets, 0).with_addends(&addends)
    }

    fn relleb_list(&mut self, class: u32, size: usize) -> Case {
        let count = self.rng.index(size + 1);
        // One list in ten of class 4 is made as for class 8.
        let width = if self.rng.once_in(10) { 64 } else { class * 8 };
        let offsets = self.offsets(width, count);
        let addends = self.addends(width, count);
        let types: Vec<u32> = (0..count).map(|_| self.unsigned(32) as u32).collect();
        let mut symbols: Vec<u32> = (0..count).map(|_| self.unsigned(32) as u32).collect();
        if self.rng.once_in(20) {
            symbols.push(7);
        }
        let case = Case::write(RELLEB_WRITE, class, &offsets, 0).with_types(&types);
        case.with_symbols(&symbols).with_addends(&addends)
    }

    fn offsets(&mut self, width: u32, count: usize) -> Vec<u64> {
        let mut offset = 0u64;
        let mut next = || {
            offset = match self.arm(5, 3) {
                0 | 5.. => self.unsigned(width),
                _ => offset.wrapping_add(self.rng.below(40)),
            };
            offset
        };
        (0..count).map(|_| next()).collect()
    }

    fn addends(&mut self, width: u32, count: usize) -> Vec<i64> {
        let mut addend = 0i64;
        let mut next = || {
            addend = match self.arm(6, 2) {
                0 | 6.. => self.signed(width),
                1 => addend.wrapping_add(8),
                2 => -4,
                _ => addend,
            };
            addend
        };
        (0..count).map(|_| next()).collect()
    }
}
