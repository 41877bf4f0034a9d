//! The calls of plain.c.

use crate::bits::Bits;
use reference::corpus::calls::{
    APA1_READ, APA1_WRITE, APR1_READ, APR1_WRITE, RELLEB_READ, RELLEB_WRITE, RELR_APPLY, RELR_READ,
    RELR_WRITE,
};
use reference::corpus::case::Case;

/// The calls of RELR for one byte order and one way through bitmaps.
#[repr(C)]
struct Relr {
    read: unsafe extern "C" fn(
        class: u32,
        table: *const u8,
        length: usize,
        offsets: *mut u64,
    ) -> usize,
    write: unsafe extern "C" fn(
        class: u32,
        offsets: *const u64,
        count: usize,
        table: *mut u8,
    ) -> usize,
    apply: unsafe extern "C" fn(
        class: u32,
        table: *const u8,
        length: usize,
        base: u64,
        start: u64,
        image: *mut u8,
    ) -> usize,
}

// What plain.c has.
unsafe extern "C" {
    static plain_relr: [[Relr; 2]; 2];

    fn plain_apr1_read(table: *const u8, offsets: *mut u64) -> usize;

    fn plain_apr1_write(offsets: *const u64, count: usize, table: *mut u8) -> usize;

    fn plain_apa1_read(table: *const u8, offsets: *mut u64, addends: *mut i64) -> usize;

    fn plain_apa1_write(
        offsets: *const u64,
        addends: *const i64,
        count: usize,
        table: *mut u8,
    ) -> usize;

    fn plain_relleb_read(
        class: u32,
        table: *const u8,
        offsets: *mut u64,
        types: *mut u32,
        symbols: *mut u32,
        addends: *mut i64,
    ) -> usize;

    fn plain_relleb_write(
        class: u32,
        offsets: *const u64,
        types: *const u32,
        symbols: *const u32,
        addends: *const i64,
        count: usize,
        table: *mut u8,
    ) -> usize;
}

/// Makes the call of a case that is known to be accepted: nothing is checked.
pub unsafe fn run<B: Bits>(case: &mut Case) -> usize {
    let count = case.offsets.len();
    let (i, length) = (case.input.as_ptr(), case.input.len());
    let (o, t) = (case.offsets.as_mut_ptr(), case.types.as_mut_ptr());
    let (s, a) = (case.symbols.as_mut_ptr(), case.addends.as_mut_ptr());
    let b = case.bytes.as_mut_ptr();
    // SAFETY: it is a constant of plain.c.
    let relr = unsafe { &plain_relr[case.big as usize][B::ZEROS as usize] };
    // SAFETY: an accepted case has every buffer that its call needs, with room; no two overlap.
    unsafe {
        match case.call {
            RELR_READ => (relr.read)(case.class, i, length, o),
            RELR_WRITE => (relr.write)(case.class, o, count, b),
            RELR_APPLY => (relr.apply)(case.class, i, length, case.base, case.start, b),
            APR1_READ => plain_apr1_read(i, o),
            APR1_WRITE => plain_apr1_write(o, count, b),
            APA1_READ => plain_apa1_read(i, o, a),
            APA1_WRITE => plain_apa1_write(o, a, count, b),
            RELLEB_READ => plain_relleb_read(case.class, i, o, t, s, a),
            RELLEB_WRITE => plain_relleb_write(case.class, o, t, s, a, count, b),
            call => panic!("no call {call}"),
        }
    }
}
