use core::fmt;

/// Why a call refused, and where. A refused call has changed nothing.
#[derive(Clone, Copy, PartialEq, Eq, Debug)]
pub struct Refusal {
    /// The refusal's number; [`Refusal::kind`] names it.
    pub number: u32,
    /// A byte of the table for a read or an apply, an index in the list for a
    /// write or for [`Kind::Outside`]; 0 where [`Kind`] names no place.
    pub place: u64,
    /// The records or bytes needed for [`Kind::Room`], otherwise 0.
    pub need: u64,
}

/// The refusals by name.
#[derive(Clone, Copy, PartialEq, Eq, Debug)]
#[non_exhaustive]
pub enum Kind {
    /// 1: the class is not 4 or 8.
    Class,
    /// 2: table or list over its limit.
    Limit,
    /// 3: the table does not start with its identifier.
    Identifier,
    /// 4: the table ends early, or a RELR table is not whole words. Place: the
    /// table's length.
    Missing,
    /// 5: a number outside its width (place: its last allowed byte, the first byte
    /// plus 4 at the widths 32 and 33, plus 9 at 64), or a negative count (place:
    /// its first byte).
    Width,
    /// 6: a RELR bitmap before any address (place: its first byte), or in a RELR
    /// or APR1 write an offset equal to or below the one before (place: its index).
    Order,
    /// 7: an offset outside the address space. Place: the first byte of the RELR
    /// word, of APR1's A or of the pair's C; in a write the index.
    Space,
    /// 8: bytes after the last record. Place: the first such byte.
    Trailing,
    /// 9: too little room; [`Refusal::need`] says how much is needed.
    Room,
    /// 10: RELR write: an odd offset. Place: its index.
    Odd,
    /// 11: columns of different lengths.
    Columns,
    /// 12: apply: a word does not lie inside the image: its offset is below the
    /// start, or it ends beyond the image. Place: the index in the list that the
    /// table decodes to.
    Outside,
    /// 13: APR1 write: an empty list.
    Empty,
    /// 14: RELLEB class 4 write: an addend outside signed 32 bits. Place: its index.
    Addend,
    /// 15: apply, class 4: a base above 2^32 − 1.
    Base,
    /// 18: strict read: a number longer than its shortest form. Place: its first
    /// byte.
    Padded,
    /// 19: strict RELLEB read: an addend difference of zero. Place: its first byte.
    Zero,
    /// A number without a name here.
    Unknown,
}

impl Refusal {
    /// The refusal by name.
    pub fn kind(&self) -> Kind {
        match self.number {
            1 => Kind::Class,
            2 => Kind::Limit,
            3 => Kind::Identifier,
            4 => Kind::Missing,
            5 => Kind::Width,
            6 => Kind::Order,
            7 => Kind::Space,
            8 => Kind::Trailing,
            9 => Kind::Room,
            10 => Kind::Odd,
            11 => Kind::Columns,
            12 => Kind::Outside,
            13 => Kind::Empty,
            14 => Kind::Addend,
            15 => Kind::Base,
            18 => Kind::Padded,
            19 => Kind::Zero,
            _ => Kind::Unknown,
        }
    }
}

impl fmt::Display for Kind {
    fn fmt(&self, f: &mut fmt::Formatter) -> fmt::Result {
        f.write_str(match self {
            Kind::Class => "class not 4 or 8",
            Kind::Limit => "table or list over its limit",
            Kind::Identifier => "identifier wrong or missing",
            Kind::Missing => "table ends early",
            Kind::Width => "number outside its width",
            Kind::Order => "bitmap before any address, or offsets not increasing",
            Kind::Space => "offset outside the address space",
            Kind::Trailing => "bytes after the last record",
            Kind::Room => "too little room",
            Kind::Odd => "odd offset",
            Kind::Columns => "columns of different lengths",
            Kind::Outside => "word not inside the image",
            Kind::Empty => "empty list",
            Kind::Addend => "addend outside signed 32 bits",
            Kind::Base => "base above 2^32 - 1",
            Kind::Padded => "number longer than its shortest form",
            Kind::Zero => "addend difference of zero",
            Kind::Unknown => "unknown refusal",
        })
    }
}

impl fmt::Display for Refusal {
    fn fmt(&self, f: &mut fmt::Formatter) -> fmt::Result {
        write!(f, "refused {} at {}: {}", self.number, self.place, self.kind())?;
        if self.need != 0 {
            write!(f, ", {} needed", self.need)?;
        }
        Ok(())
    }
}

impl core::error::Error for Refusal {}
