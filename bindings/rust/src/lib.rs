//! Packed relocation tables (RELR, APR1, APA1, RELLEB), read, written and
//! applied by the C library `libreloc.a`.
//!
//! The class is the size of a word in bytes, 4 or 8; W, the word's width, is 32
//! or 64 bits. RELR's words have a [`ByteOrder`], in the table and in the image
//! alike; the other kinds hold LEB128 numbers and take none. The entries of a
//! record stand at one index of each column; columns of one call have one length.
//!
//! On success a call gives the records read, the bytes written or the additions
//! made; a read changes that many entries at the front of each column, a write
//! that many bytes at the front of the table. A refused call changes nothing.
//!
//! A call that is lent no room tells what it needs, which [`need`] takes from its
//! answer, for the empty list too:
//!
//! ```
//! use reloc::{ByteOrder::Little, need, relr_read, relr_write};
//!
//! let offsets = [0x2000, 0x2008, 0x2010, 0x2018];
//! let room = need(relr_write(8, Little, &offsets, &mut []))?;
//! let mut table = vec![0; room as usize];
//! assert_eq!(relr_write(8, Little, &offsets, &mut table), Ok(16));
//!
//! let room = need(relr_read(8, Little, &table, &mut []))?;
//! let mut again = vec![0; room as usize];
//! assert_eq!(relr_read(8, Little, &table, &mut again), Ok(4));
//! assert_eq!(again, offsets);
//! # Ok::<(), reloc::Refusal>(())
//! ```
//!
//! The readers of LEB128 numbers take a setting, `strict`: false is lax, where a
//! number may be padded; true is strict, where a number longer than its shortest
//! form is refused ([`Kind::Padded`]), and a RELLEB addend difference of zero too
//! ([`Kind::Zero`]). A table that is accepted strictly is read as the same list lax;
//! every table of these kinds that the library writes is accepted strictly. A table of
//! APA1, or of RELLEB in a class, that is accepted strictly and has at most
//! [`LIST_LIMIT`] records is the one that the library writes of its list: two such
//! tables of equal lists have equal bytes. Not so of APR1, where a run can be split,
//! nor of RELR, to which an empty bitmap can be added.
//!
//! ```
//! use reloc::{Kind, apr1_read};
//!
//! // 624485 in three bytes, its shortest form, and in five.
//! let short = b"APR1\x00\xE5\x8E\x26";
//! let padded = b"APR1\x00\xE5\x8E\xA6\x80\x00";
//! let mut offsets = [0];
//! for (strict, table) in [(false, &short[..]), (true, &short[..]), (false, &padded[..])] {
//!     assert_eq!(apr1_read(strict, table, &mut offsets), Ok(1));
//!     assert_eq!(offsets, [624485]);
//! }
//! let refusal = apr1_read(true, padded, &mut offsets).unwrap_err();
//! assert_eq!((refusal.kind(), refusal.place), (Kind::Padded, 5));
//! ```
//!
//! The crate needs neither `std` nor a heap. [`VERSION`] is that of `reloc.h`;
//! [`version`] asks the library that was linked.

#![no_std]
#![warn(missing_docs)]

mod ffi;
mod refusal;

pub use refusal::{Kind, Refusal};

/// The byte order of RELR's words: of the table's and of the image's.
#[derive(Clone, Copy, PartialEq, Eq, Debug)]
pub enum ByteOrder {
    /// Low byte first.
    Little,
    /// High byte first.
    Big,
}

impl ByteOrder {
    /// The argument `big` of the C calls.
    fn is_big(self) -> bool {
        self == ByteOrder::Big
    }
}

/// The version of this wrapper: major × 1,000,000 + minor × 1,000 + patch.
pub const VERSION: u32 = 7_001;

/// The longest table that is read or applied, in bytes.
pub const INPUT_LIMIT: usize = 134_217_728;

/// The longest list that is written, in records.
pub const LIST_LIMIT: usize = 4_194_304;

/// The version of the library, as [`VERSION`].
pub fn version() -> u32 {
    // SAFETY: it takes nothing.
    unsafe { ffi::reloc_version() }
}

/// The records or bytes that a call needs, by its answer when it was lent no
/// room: it succeeds where it needs none, and is refused with [`Kind::Room`]
/// where it needs some. Every other refusal is handed on.
///
/// The need of [`apr1_read`] may be far above any memory, and a column for
/// [`relr_read`] 63 times as long as the table.
pub fn need(answer: Result<usize, Refusal>) -> Result<u64, Refusal> {
    match answer {
        Ok(count) => Ok(count as u64),
        Err(refusal) if refusal.kind() == Kind::Room => Ok(refusal.need),
        Err(refusal) => Err(refusal),
    }
}

// SAFETY, for every call below: pointer and length come from one slice, so the
// pointer is aligned and valid for the length; `&mut` keeps what is written
// apart from the other slices and from other threads, and `&` keeps the rest
// from being written.

/// Reads a RELR table with words in `order`. Offsets may repeat or go back.
///
/// Refuses [`Kind::Class`], [`Kind::Limit`], [`Kind::Missing`], then the first
/// of [`Kind::Order`] and [`Kind::Space`] along the table, then [`Kind::Room`].
pub fn relr_read(
    class: u32,
    order: ByteOrder,
    table: &[u8],
    offsets: &mut [u64],
) -> Result<usize, Refusal> {
    unsafe {
        ffi::reloc_relr_read(
            class,
            order.is_big(),
            table.as_ptr(),
            table.len(),
            offsets.as_mut_ptr(),
            offsets.len(),
        )
    }
    .result()
}

/// Writes a strictly increasing list of even offsets as a RELR table with words
/// in `order`, the shortest that reads as this list.
///
/// Refuses [`Kind::Class`], [`Kind::Limit`], then the first of [`Kind::Odd`],
/// [`Kind::Space`] and [`Kind::Order`] along the list, then [`Kind::Room`].
pub fn relr_write(
    class: u32,
    order: ByteOrder,
    offsets: &[u64],
    table: &mut [u8],
) -> Result<usize, Refusal> {
    unsafe {
        ffi::reloc_relr_write(
            class,
            order.is_big(),
            offsets.as_ptr(),
            offsets.len(),
            table.as_mut_ptr(),
            table.len(),
        )
    }
    .result()
}

/// Adds `base` to the image's word at each offset of a RELR table, in order,
/// wrapping at W bits. `order` is that of the table's words and of the image's.
///
/// `start` is the address of the image's first byte, such as the one that a
/// module's first segment is linked at: an offset minus `start` is an index into
/// the image. A word lies inside the image exactly when `start <= offset` and
/// `offset - start + class <= image.len()`, as whole numbers: `start` is any
/// number, and nothing wraps.
///
/// Refuses [`Kind::Class`], [`Kind::Base`], [`Kind::Limit`], [`Kind::Missing`],
/// then the first of [`Kind::Order`] and [`Kind::Space`] along the table, then
/// [`Kind::Outside`].
///
/// ```
/// use reloc::{ByteOrder, relr_apply};
///
/// // The addresses 0x1000 and 0x1008, of a module that is linked at 0x1000.
/// let table = [0x1000u64.to_le_bytes(), 0x1008u64.to_le_bytes()].concat();
/// let mut image = [0; 16];
/// assert_eq!(relr_apply(8, ByteOrder::Little, &table, 5, 0x1000, &mut image), Ok(2));
/// assert_eq!((image[0], image[8]), (5, 5));
///
/// // The same module for a controller that stores words high byte first.
/// let table = [0x1000u64.to_be_bytes(), 0x1008u64.to_be_bytes()].concat();
/// let mut image = [0; 16];
/// assert_eq!(relr_apply(8, ByteOrder::Big, &table, 5, 0x1000, &mut image), Ok(2));
/// assert_eq!((image[7], image[15]), (5, 5));
/// ```
///
/// A module that moves: where no two words of the table overlap in part, to apply
/// one base and then another leaves what their sum modulo 2^W leaves at once. So an
/// image that was applied at `a` is applied at `b` by the base
/// `b.wrapping_sub(a)`, in class 4 reduced to 32 bits.
///
/// ```
/// use reloc::{ByteOrder, relr_apply};
///
/// let table = [0u64.to_le_bytes(), 8u64.to_le_bytes()].concat();
/// let (mut moved, mut there) = ([7; 16], [7; 16]);
/// let (a, b) = (0x10000, 0x4000u64);
/// for (base, image) in [(a, &mut moved), (b, &mut there)] {
///     assert_eq!(relr_apply(8, ByteOrder::Little, &table, base, 0, image), Ok(2));
/// }
/// let base = b.wrapping_sub(a);
/// assert_eq!(relr_apply(8, ByteOrder::Little, &table, base, 0, &mut moved), Ok(2));
/// assert_eq!(moved, there);
/// ```
pub fn relr_apply(
    class: u32,
    order: ByteOrder,
    table: &[u8],
    base: u64,
    start: u64,
    image: &mut [u8],
) -> Result<usize, Refusal> {
    unsafe {
        ffi::reloc_relr_apply(
            class,
            order.is_big(),
            table.as_ptr(),
            table.len(),
            base,
            start,
            image.as_mut_ptr(),
            image.len(),
        )
    }
    .result()
}

/// Reads an APR1 table, lax or `strict`. Strict reading is about each number's own
/// bytes: two tables that it accepts can still give one list, since a run of equal
/// gaps may be split in two pairs, and a pair of no offsets added.
///
/// Refuses [`Kind::Limit`], [`Kind::Identifier`], then the first of
/// [`Kind::Missing`], [`Kind::Width`], [`Kind::Padded`] (strict) and
/// [`Kind::Space`] along the table, then [`Kind::Trailing`], [`Kind::Room`].
pub fn apr1_read(strict: bool, table: &[u8], offsets: &mut [u64]) -> Result<usize, Refusal> {
    unsafe {
        ffi::reloc_apr1_read(
            strict,
            table.as_ptr(),
            table.len(),
            offsets.as_mut_ptr(),
            offsets.len(),
        )
    }
    .result()
}

/// Writes a strictly increasing list of at least one offset, none above
/// 2^32 − 4, as an APR1 table.
///
/// Refuses [`Kind::Limit`], [`Kind::Empty`], then the first of [`Kind::Space`]
/// and [`Kind::Order`] along the list, then [`Kind::Room`].
pub fn apr1_write(offsets: &[u64], table: &mut [u8]) -> Result<usize, Refusal> {
    unsafe {
        ffi::reloc_apr1_write(offsets.as_ptr(), offsets.len(), table.as_mut_ptr(), table.len())
    }
    .result()
}

/// Reads an APA1 table, lax or `strict`.
///
/// Refuses [`Kind::Columns`], [`Kind::Limit`], [`Kind::Identifier`], then the
/// first of [`Kind::Missing`], [`Kind::Width`] and [`Kind::Padded`] (strict) along
/// the table, then [`Kind::Trailing`], [`Kind::Room`]. A negative count is
/// [`Kind::Width`], padded or not.
pub fn apa1_read(
    strict: bool,
    table: &[u8],
    offsets: &mut [u64],
    addends: &mut [i64],
) -> Result<usize, Refusal> {
    unsafe {
        ffi::reloc_apa1_read(
            strict,
            table.as_ptr(),
            table.len(),
            offsets.as_mut_ptr(),
            offsets.len(),
            addends.as_mut_ptr(),
            addends.len(),
        )
    }
    .result()
}

/// Writes offsets with addends, in any order, as an APA1 table.
///
/// Refuses [`Kind::Columns`], [`Kind::Limit`], [`Kind::Room`].
pub fn apa1_write(offsets: &[u64], addends: &[i64], table: &mut [u8]) -> Result<usize, Refusal> {
    unsafe {
        ffi::reloc_apa1_write(
            offsets.as_ptr(),
            offsets.len(),
            addends.as_ptr(),
            addends.len(),
            table.as_mut_ptr(),
            table.len(),
        )
    }
    .result()
}

/// Reads a RELLEB table, lax or `strict`.
///
/// Refuses [`Kind::Class`], [`Kind::Columns`], [`Kind::Limit`], then the first
/// of [`Kind::Missing`], [`Kind::Width`], [`Kind::Padded`] and [`Kind::Zero`]
/// (these two strict) along the table, then [`Kind::Trailing`], [`Kind::Room`]. An
/// addend difference of zero that is padded is [`Kind::Padded`].
pub fn relleb_read(
    class: u32,
    strict: bool,
    table: &[u8],
    offsets: &mut [u64],
    types: &mut [u32],
    symbols: &mut [u32],
    addends: &mut [i64],
) -> Result<usize, Refusal> {
    unsafe {
        ffi::reloc_relleb_read(
            class,
            strict,
            table.as_ptr(),
            table.len(),
            offsets.as_mut_ptr(),
            offsets.len(),
            types.as_mut_ptr(),
            types.len(),
            symbols.as_mut_ptr(),
            symbols.len(),
            addends.as_mut_ptr(),
            addends.len(),
        )
    }
    .result()
}

/// Writes records, in any order, as a RELLEB table.
///
/// Refuses [`Kind::Class`], [`Kind::Columns`], [`Kind::Limit`], in class 4 the
/// first of [`Kind::Space`] and [`Kind::Addend`] along the list, then
/// [`Kind::Room`].
pub fn relleb_write(
    class: u32,
    offsets: &[u64],
    types: &[u32],
    symbols: &[u32],
    addends: &[i64],
    table: &mut [u8],
) -> Result<usize, Refusal> {
    unsafe {
        ffi::reloc_relleb_write(
            class,
            offsets.as_ptr(),
            offsets.len(),
            types.as_ptr(),
            types.len(),
            symbols.as_ptr(),
            symbols.len(),
            addends.as_ptr(),
            addends.len(),
            table.as_mut_ptr(),
            table.len(),
        )
    }
    .result()
}
