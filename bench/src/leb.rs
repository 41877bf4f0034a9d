//! LEB128 numbers: read from a table, counted, and written in the shortest form.

use crate::refusal::{IDENTIFIER, MISSING, PADDED, TRAILING, WIDTH, refuse};
use reloc::Refusal;

/// A table and the place of its next byte; if strict, each number is in its shortest form.
pub struct Reader<'a, const STRICT: bool> {
    table: &'a [u8],
    pub at: usize,
}

impl<'a, const STRICT: bool> Reader<'a, STRICT> {
    /// The table from its first byte on.
    pub fn new(table: &'a [u8]) -> Self {
        Reader { table, at: 0 }
    }

    /// The table from the byte after its identifier on.
    pub fn after(table: &'a [u8], identifier: &[u8]) -> Result<Self, Refusal> {
        if !table.starts_with(identifier) {
            return refuse(IDENTIFIER, 0);
        }
        Ok(Reader { table, at: identifier.len() })
    }

    /// Nothing follows.
    pub fn end(&self) -> Result<(), Refusal> {
        if self.at < self.table.len() { refuse(TRAILING, self.at) } else { Ok(()) }
    }

    /// An unsigned number of so many bits.
    #[inline]
    pub fn unsigned(&mut self, bits: u32) -> Result<u64, Refusal> {
        let first = self.at;
        let (value, used) = self.digits(bits, |byte, room| byte >> room == 0)?;
        // The last byte is 0, and not the only one.
        if STRICT && used > 7 && value >> (used - 7) == 0 {
            return refuse(PADDED, first);
        }
        Ok(value)
    }

    /// A signed number of so many bits.
    #[inline]
    pub fn signed(&mut self, bits: u32) -> Result<i64, Refusal> {
        let fits = |byte: u8, room: u32| {
            let digit = (byte << 1) as i8 >> 1;
            byte < 0x80 && matches!(digit >> (room - 1), 0 | -1)
        };
        let first = self.at;
        let (value, used) = self.digits(bits, fits)?;
        let spare = u64::BITS.saturating_sub(used);
        let value = (value << spare) as i64 >> spare;
        // The bits of the last byte, which is not the only one, and the bit before are all the sign.
        if STRICT && used > 7 && matches!(value >> (used - 8), 0 | -1) {
            return refuse(PADDED, first);
        }
        Ok(value)
    }

    /// The digits of a number and how many bits they have; `fits` is asked of the last allowed
    /// byte and the bits left for it.
    #[inline]
    fn digits(&mut self, bits: u32, fits: impl Fn(u8, u32) -> bool) -> Result<(u64, u32), Refusal> {
        let (mut value, mut used) = (0, 0);
        loop {
            let Some(&byte) = self.table.get(self.at) else {
                return refuse(MISSING, self.table.len());
            };
            self.at += 1;
            value |= u64::from(byte & 0x7F) << used;
            let room = bits - used;
            used += 7;
            if room <= 7 {
                let last = self.at - 1;
                return if fits(byte, room) { Ok((value, used)) } else { refuse(WIDTH, last) };
            }
            if byte < 0x80 {
                return Ok((value, used));
            }
        }
    }
}

/// What takes the bytes of a table one after another.
pub trait Sink {
    /// Takes bytes as they are.
    fn bytes(&mut self, bytes: &[u8]);
    /// Takes an unsigned number.
    fn unsigned(&mut self, value: u64);
    /// Takes a signed number.
    fn signed(&mut self, value: i64);
}

/// How many bytes were taken.
#[derive(Default)]
pub struct Length(pub usize);

impl Sink for Length {
    fn bytes(&mut self, bytes: &[u8]) {
        self.0 += bytes.len();
    }

    fn unsigned(&mut self, value: u64) {
        self.0 += (value | 1).ilog2() as usize / 7 + 1;
    }

    fn signed(&mut self, value: i64) {
        self.unsigned((value ^ (value >> 63)) as u64 * 2);
    }
}

/// A table being written, and the place of its next byte.
pub struct Writer<'a> {
    table: &'a mut [u8],
    at: usize,
}

impl<'a> Writer<'a> {
    /// The table from its first byte on.
    pub fn new(table: &'a mut [u8]) -> Self {
        Writer { table, at: 0 }
    }

    /// Puts the next byte.
    fn byte(&mut self, byte: u8) {
        self.table[self.at] = byte;
        self.at += 1;
    }
}

impl Sink for Writer<'_> {
    fn bytes(&mut self, bytes: &[u8]) {
        bytes.iter().for_each(|byte| self.byte(*byte));
    }

    fn unsigned(&mut self, mut value: u64) {
        while value >= 0x80 {
            self.byte(value as u8 | 0x80);
            value >>= 7;
        }
        self.byte(value as u8);
    }

    fn signed(&mut self, mut value: i64) {
        while !(-0x40..0x40).contains(&value) {
            self.byte(value as u8 | 0x80);
            value >>= 7;
        }
        self.byte(value as u8 & 0x7F);
    }
}
