//! The refusals by number, and the checks that several calls share.

use reloc::{INPUT_LIMIT, LIST_LIMIT, Refusal};

/// The class is not 4 or 8.
pub const CLASS: u32 = 1;
/// A table or list is over its limit.
pub const LIMIT: u32 = 2;
/// A table does not start with its identifier.
pub const IDENTIFIER: u32 = 3;
/// A table ends early, or is not whole words.
pub const MISSING: u32 = 4;
/// A number is outside its width, or a count is negative.
pub const WIDTH: u32 = 5;
/// A bitmap stands before any address, or an offset is not above the one before.
pub const ORDER: u32 = 6;
/// An offset is outside the space.
pub const SPACE: u32 = 7;
/// Bytes follow the last record.
pub const TRAILING: u32 = 8;
/// The room is too small.
pub const ROOM: u32 = 9;
/// An offset is odd.
pub const ODD: u32 = 10;
/// Columns differ in length.
pub const COLUMNS: u32 = 11;
/// A word is not inside the image.
pub const OUTSIDE: u32 = 12;
/// A list is empty.
pub const EMPTY: u32 = 13;
/// An addend is outside its width.
pub const ADDEND: u32 = 14;
/// A base is outside its width.
pub const BASE: u32 = 15;
/// A number is longer than its shortest form.
pub const PADDED: u32 = 18;
/// An addend difference is zero.
pub const ZERO: u32 = 19;

/// The answer of a call: records read, bytes written or additions made, or the refusal.
pub type Answer = Result<usize, Refusal>;

/// A refusal at a place.
#[cold]
pub fn refuse<T>(number: u32, place: usize) -> Result<T, Refusal> {
    Err(Refusal { number, place: place as u64, need: 0 })
}

/// A table is within its limit.
pub fn readable(table: &[u8]) -> Result<(), Refusal> {
    if table.len() > INPUT_LIMIT { refuse(LIMIT, 0) } else { Ok(()) }
}

/// A list of so many records is within its limit.
pub fn writable(records: usize) -> Result<(), Refusal> {
    if records > LIST_LIMIT { refuse(LIMIT, 0) } else { Ok(()) }
}

/// Columns have one length.
pub fn same_length(lengths: &[usize]) -> Result<(), Refusal> {
    if lengths.iter().any(|length| *length != lengths[0]) { refuse(COLUMNS, 0) } else { Ok(()) }
}

/// The room holds what is needed.
pub fn enough(room: usize, need: u64) -> Result<(), Refusal> {
    if need > room as u64 { Err(Refusal { number: ROOM, place: 0, need }) } else { Ok(()) }
}

/// Offsets increase strictly, and `fault` finds none in any; the largest number must have one.
pub fn increasing(offsets: &[u64], fault: impl Fn(u64) -> Option<u32>) -> Result<(), Refusal> {
    let mut least = 0;
    for (index, &offset) in offsets.iter().enumerate() {
        if let Some(number) = fault(offset) {
            return refuse(number, index);
        }
        if offset < least {
            return refuse(ORDER, index);
        }
        least = offset + 1;
    }
    Ok(())
}
