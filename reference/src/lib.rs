//! A plain second implementation of the relocation table calls of
//! document 01. It aims at being easy to compare with that document: growing
//! vectors, wide integers, one rule per line. It is a yardstick for testing,
//! not a product.

pub mod apa1;
pub mod apr1;
pub mod corpus;
pub mod leb;
pub mod listing;
pub mod published;
pub mod relleb;
pub mod relr;

pub use apa1::{apa1_read, apa1_write};
pub use apr1::{apr1_read, apr1_write};
pub use listing::list;
pub use relleb::{relleb_read, relleb_write};
pub use relr::{relr_apply, relr_read, relr_write};

/// "Raise packed input to 134,217,728 bytes", by document 02.
pub const MOST_INPUT: usize = 134_217_728;

/// "and lists to 4,194,304 records", by document 02.
pub const MOST_LIST: usize = 4_194_304;

/// The strict setting, on: "Refuse padded numbers." "Each LEB128 reader gains a
/// strict setting", by document 02.
pub const STRICT: bool = true;

/// The strict setting, off: "Lax reading answers as before."
pub const LAX: bool = false;

/// "Each call returns number, place and count."
#[derive(Clone, Copy, PartialEq, Eq, Debug)]
pub struct Answer {
    pub number: u32,
    pub place: u64,
    pub count: u64,
}

impl Answer {
    /// "On success the number and place are 0, and the count is records read,
    /// bytes written or additions made."
    pub fn done(count: usize) -> Answer {
        Answer { number: 0, place: 0, count: count as u64 }
    }

    /// "A refusal changes nothing lent, and its count is 0"
    pub fn refused(number: u32, place: usize) -> Answer {
        Answer { number, place: place as u64, count: 0 }
    }

    /// "except that 9 returns the records or bytes needed"; 9 has place 0.
    pub fn needs(count: u64) -> Answer {
        Answer { number: 9, place: 0, count }
    }
}

/// Low byte first, or "high byte first", by document 02.
#[derive(Clone, Copy, PartialEq, Eq, Debug)]
pub enum ByteOrder {
    Little,
    Big,
}

/// "Each class carries its own word size, bit width and window: 31 locations
/// for class 4, 63 for class 8." "What describes a class [...] also holds the
/// byte order, one of two values", by document 02.
pub struct Class {
    pub bytes: usize,
    pub bits: u32,
    pub window: u32,
    pub order: ByteOrder,
}

impl Class {
    /// Refusal 1, "class not 4 or 8", place 0. "Words are little-endian."
    pub fn of(number: u32) -> Result<Class, Answer> {
        let order = ByteOrder::Little;
        match number {
            4 => Ok(Class { bytes: 4, bits: 32, window: 31, order }),
            8 => Ok(Class { bytes: 8, bits: 64, window: 63, order }),
            _ => Err(Answer::refused(1, 0)),
        }
    }

    /// The class with words of a byte order.
    pub fn ordered(number: u32, order: ByteOrder) -> Result<Class, Answer> {
        Ok(Class { order, ..Class::of(number)? })
    }

    /// The power of 256 that byte `k` of a word stands for.
    pub fn power(&self, k: usize) -> usize {
        match self.order {
            ByteOrder::Little => k,
            ByteOrder::Big => self.bytes - 1 - k,
        }
    }

    /// "Each offset needs offset + class ≤ 2^W"
    pub fn holds(&self, offset: u128) -> bool {
        offset + self.bytes as u128 <= 1 << self.bits
    }

    /// What is left of a sum that wraps at W bits.
    pub fn wrap(&self, sum: i128) -> u64 {
        sum.rem_euclid(1 << self.bits) as u64
    }

    /// A W-bit word read as a signed number.
    pub fn signed(&self, word: u64) -> i64 {
        let half = 1i128 << (self.bits - 1);
        let value = word as i128;
        let signed = if value < half { value } else { value - 2 * half };
        signed as i64
    }
}

/// Refusal 2, "input or list over its length", place 0.
pub(crate) fn within(length: usize, most: usize) -> Result<(), Answer> {
    if length > most {
        return Err(Answer::refused(2, 0));
    }
    Ok(())
}

/// Refusal 3, "first four bytes aren't the identifier, or are missing",
/// place 0.
pub(crate) fn identified(table: &[u8], identifier: &[u8; 4]) -> Result<(), Answer> {
    if !table.starts_with(identifier) {
        return Err(Answer::refused(3, 0));
    }
    Ok(())
}

/// Refusal 8, "bytes after the last record (not RELR)", at the "first such
/// byte".
pub(crate) fn ended(table: &[u8], next: usize) -> Result<(), Answer> {
    if next < table.len() {
        return Err(Answer::refused(8, next));
    }
    Ok(())
}

/// The end of every write: refusal 9 or the table's bytes put in front.
/// "Entries or table bytes beyond the count stay."
pub(crate) fn put(made: Result<Vec<u8>, Answer>, table: &mut [u8]) -> Answer {
    match made {
        Err(refusal) => refusal,
        Ok(bytes) if bytes.len() > table.len() => Answer::needs(bytes.len() as u64),
        Ok(bytes) => {
            table[..bytes.len()].copy_from_slice(&bytes);
            Answer::done(bytes.len())
        }
    }
}
