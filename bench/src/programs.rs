//! The call of a case, made by each program on the case's own buffers.

use crate::bits::{BestSteps, BitByBit, Bits, TrailingZeros};
use crate::{baseline, plain};
use reference::corpus::calls::{
    APA1_READ, APA1_WRITE, APR1_READ, APR1_WRITE, RELLEB_READ, RELLEB_WRITE, RELR_APPLY, RELR_READ,
    RELR_WRITE,
};
use reference::corpus::case::Case;
use reloc::Refusal;

/// A program: it makes the call of a case and leaves the results in it.
pub type Program = fn(&mut Case) -> Result<usize, Refusal>;

/// The ways through bitmaps, by name.
pub const WAYS: [&str; 3] = ["bit by bit", "by trailing zeros", "by the best steps"];

/// The library, then Rust and C in each way, but that C has no best steps.
const PROGRAMS: [Program; 6] = [
    library,
    rust::<BitByBit>,
    c::<BitByBit>,
    rust::<TrailingZeros>,
    c::<TrailingZeros>,
    rust::<BestSteps>,
];

/// The programs that make a call: only reading and applying RELR go through bitmaps, and only
/// applying has best steps.
pub(crate) fn programs(call: u8) -> &'static [Program] {
    match call {
        RELR_APPLY => &PROGRAMS,
        RELR_READ => &PROGRAMS[..5],
        _ => &PROGRAMS[..3],
    }
}

/// Makes the call of a case by the functions of a module, in its way through bitmaps.
macro_rules! call {
    ($case:ident, $module:ident $(, $bits:ty)?) => {{
        let (class, i, b) = ($case.class, &$case.input, &mut $case.bytes);
        let order = if $case.big { $module::ByteOrder::Big } else { $module::ByteOrder::Little };
        let (o, t) = (&mut $case.offsets, &mut $case.types);
        let (s, a) = (&mut $case.symbols, &mut $case.addends);
        match $case.call {
            RELR_READ => $module::relr_read$(::<$bits>)?(class, order, i, o),
            RELR_WRITE => $module::relr_write(class, order, o, b),
            RELR_APPLY => {
                $module::relr_apply$(::<$bits>)?(class, order, i, $case.base, $case.start, b)
            }
            APR1_READ => $module::apr1_read($case.strict, i, o),
            APR1_WRITE => $module::apr1_write(o, b),
            APA1_READ => $module::apa1_read($case.strict, i, o, a),
            APA1_WRITE => $module::apa1_write(o, a, b),
            RELLEB_READ => $module::relleb_read(class, $case.strict, i, o, t, s, a),
            RELLEB_WRITE => $module::relleb_write(class, o, t, s, a, b),
            call => panic!("no call {call}"),
        }
    }};
}

/// The library, by its wrapper.
pub fn library(case: &mut Case) -> Result<usize, Refusal> {
    call!(case, reloc)
}

/// The Rust program with the same checks.
pub fn rust<B: Bits>(case: &mut Case) -> Result<usize, Refusal> {
    call!(case, baseline, B)
}

/// The C program without any check; only for a case that the reference accepts.
fn c<B: Bits>(case: &mut Case) -> Result<usize, Refusal> {
    // SAFETY: `measure` gives only cases that the reference has accepted.
    Ok(unsafe { plain::run::<B>(case) })
}

/// The slow reference, which is not measured.
pub fn reference(case: &mut Case) -> Result<usize, Refusal> {
    case.check_settings();
    let answer = call!(case, reference);
    match answer.number {
        0 => Ok(answer.count as usize),
        number => Err(Refusal { number, place: answer.place, need: answer.count }),
    }
}
