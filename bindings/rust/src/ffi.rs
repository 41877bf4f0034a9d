//! The C calls of `include/reloc.h`.

use crate::Refusal;

/// `struct reloc_answer`.
#[repr(C)]
pub struct Answer {
    number: u32,
    place: u64,
    count: u64,
}

impl Answer {
    /// A success has number and place 0; every other answer is an `Err`, so no
    /// part of an answer is lost.
    pub fn result(self) -> Result<usize, Refusal> {
        match self {
            // Records, bytes and additions of a success fit a usize.
            Answer { number: 0, place: 0, count } => Ok(count as usize),
            Answer { number, place, count } => Err(Refusal { number, place, need: count }),
        }
    }
}

// Each call wants what a slice has: a pointer that is aligned and valid for the
// count, for writing too and without overlap or other users where it is `*mut`.
// The pointer of an empty slice is not dereferenced.
unsafe extern "C" {
    pub fn reloc_version() -> u32;

    pub fn reloc_relr_read(
        class: u32,
        big: bool,
        table: *const u8,
        table_len: usize,
        offsets: *mut u64,
        offsets_len: usize,
    ) -> Answer;

    pub fn reloc_relr_write(
        class: u32,
        big: bool,
        offsets: *const u64,
        offsets_len: usize,
        table: *mut u8,
        table_len: usize,
    ) -> Answer;

    pub fn reloc_relr_apply(
        class: u32,
        big: bool,
        table: *const u8,
        table_len: usize,
        base: u64,
        start: u64,
        image: *mut u8,
        image_len: usize,
    ) -> Answer;

    pub fn reloc_apr1_read(
        strict: bool,
        table: *const u8,
        table_len: usize,
        offsets: *mut u64,
        offsets_len: usize,
    ) -> Answer;

    pub fn reloc_apr1_write(
        offsets: *const u64,
        offsets_len: usize,
        table: *mut u8,
        table_len: usize,
    ) -> Answer;

    pub fn reloc_apa1_read(
        strict: bool,
        table: *const u8,
        table_len: usize,
        offsets: *mut u64,
        offsets_len: usize,
        addends: *mut i64,
        addends_len: usize,
    ) -> Answer;

    pub fn reloc_apa1_write(
        offsets: *const u64,
        offsets_len: usize,
        addends: *const i64,
        addends_len: usize,
        table: *mut u8,
        table_len: usize,
    ) -> Answer;

    pub fn reloc_relleb_read(
        class: u32,
        strict: bool,
        table: *const u8,
        table_len: usize,
        offsets: *mut u64,
        offsets_len: usize,
        types: *mut u32,
        types_len: usize,
        symbols: *mut u32,
        symbols_len: usize,
        addends: *mut i64,
        addends_len: usize,
    ) -> Answer;

    pub fn reloc_relleb_write(
        class: u32,
        offsets: *const u64,
        offsets_len: usize,
        types: *const u32,
        types_len: usize,
        symbols: *const u32,
        symbols_len: usize,
        addends: *const i64,
        addends_len: usize,
        table: *mut u8,
        table_len: usize,
    ) -> Answer;
}
