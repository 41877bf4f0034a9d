//! "Unsigned and signed LEB128, low seven bits first."

use crate::Answer;

/// Signedness and width of a number.
#[derive(Clone, Copy, PartialEq, Eq, Debug)]
pub enum Kind {
    Unsigned(u32),
    Signed(u32),
}

use Kind::{Signed, Unsigned};

impl Kind {
    pub fn width(self) -> u32 {
        match self {
            Unsigned(width) | Signed(width) => width,
        }
    }

    pub fn signed(self) -> bool {
        matches!(self, Signed(_))
    }

    /// "A number of width B has at most B/7 bytes, rounded up"
    pub fn most_bytes(self) -> usize {
        self.width().div_ceil(7) as usize
    }
}

/// "The last allowed byte must have its top bit clear and leave the value
/// within the width", by the table that follows that sentence.
pub fn last_byte_allowed(kind: Kind, byte: u8) -> bool {
    match kind {
        Unsigned(32) => byte <= 15,
        Signed(32) => byte <= 7 || (120..=127).contains(&byte),
        // no table uses this one; the sentence before the table gives it
        Unsigned(33) => byte <= 31,
        Signed(33) => byte <= 15 || (112..=127).contains(&byte),
        Unsigned(64) => byte <= 1,
        Signed(64) => byte == 0 || byte == 127,
        _ => panic!("width not used"),
    }
}

/// "The number reader answers either a value with the next place or a
/// refusal." This is lax reading: "Padding inside that length is accepted."
pub fn read(table: &[u8], start: usize, kind: Kind) -> Result<(i128, usize), Answer> {
    let mut value: i128 = 0;
    for k in 0..kind.most_bytes() {
        // "A missing byte is refusal 4, also when reading starts at or past
        // the end"; the place of 4 is the input length.
        let Some(&byte) = table.get(start + k) else {
            return Err(Answer::refused(4, table.len()));
        };
        // "a bad last allowed byte is 5", and, by document 02, "Refusal 5 now
        // places a number outside its width at its last allowed byte".
        if k + 1 == kind.most_bytes() && !last_byte_allowed(kind, byte) {
            return Err(Answer::refused(5, start + k));
        }
        // "low seven bits first"
        value += ((byte & 0x7F) as i128) << (7 * k);
        if byte & 0x80 == 0 {
            // The second highest bit of a signed number's end is its sign.
            if kind.signed() && byte & 0x40 != 0 {
                value -= 1 << (7 * (k + 1));
            }
            return Ok((value, start + k + 1));
        }
    }
    unreachable!("the last allowed byte has its top bit clear")
}

/// A number by the strict setting, on or off.
pub fn read_by(
    strict: bool,
    table: &[u8],
    start: usize,
    kind: Kind,
) -> Result<(i128, usize), Answer> {
    // "4 and 5 come before it for the same number"
    let (value, next) = read(table, start, kind)?;
    unpadded(strict, start, next, kind, value)?;
    Ok((value, next))
}

/// Refusal 18, "a number longer than its shortest form, at its first byte", by
/// document 02, of a number that was read from `start` to `next`. "Lax reading
/// answers as before."
pub fn unpadded(
    strict: bool,
    start: usize,
    next: usize,
    kind: Kind,
    value: i128,
) -> Result<(), Answer> {
    if strict && next - start > shortest(kind, value).len() {
        return Err(Answer::refused(18, start));
    }
    Ok(())
}

/// The shortest form of a number.
pub fn shortest(kind: Kind, value: i128) -> Vec<u8> {
    let mut bytes = Vec::new();
    if kind.signed() {
        write_signed(value as i64, &mut bytes);
    } else {
        write_unsigned(value as u64, &mut bytes);
    }
    bytes
}

/// "Writers write the shortest form."
pub fn write_unsigned(value: u64, out: &mut Vec<u8>) {
    let mut rest = value;
    while rest >= 0x80 {
        out.push((rest % 0x80) as u8 | 0x80);
        rest /= 0x80;
    }
    out.push(rest as u8);
}

/// "Writers write the shortest form."
pub fn write_signed(value: i64, out: &mut Vec<u8>) {
    let mut rest = value;
    while !(-0x40..0x40).contains(&rest) {
        out.push(rest.rem_euclid(0x80) as u8 | 0x80);
        rest = rest.div_euclid(0x80);
    }
    out.push(rest.rem_euclid(0x80) as u8);
}
