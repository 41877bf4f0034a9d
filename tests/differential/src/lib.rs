//! One case run by the reference and by the library, for comparing.

pub mod damage;
pub mod generate;

use reference::corpus::calls::{
    APA1_READ, APA1_WRITE, APR1_READ, APR1_WRITE, RELLEB_READ, RELLEB_WRITE, RELR_APPLY, RELR_READ,
    RELR_WRITE,
};
use reference::corpus::case::{Case, FILL};
use reloc::{ByteOrder, Refusal};

/// What a call answered and left behind.
#[derive(PartialEq, Eq, Debug)]
pub struct Run {
    pub result: Result<usize, Refusal>,
    /// The case with all its buffers as they are after the call.
    pub after: Case,
    /// Nothing around the buffers was changed.
    pub inside: bool,
}

pub fn by_reference(case: &Case) -> Run {
    let (answer, after) = case.run();
    let result = match answer.number {
        0 => Ok(answer.count as usize),
        number => Err(Refusal { number, place: answer.place, need: answer.count }),
    };
    Run { result, after, inside: true }
}

pub fn by_library(case: &Case) -> Run {
    case.check_settings();
    // The guard before each buffer varies, and the alignment of bytes with it.
    let lead = 1 + (case.input.len() + case.offsets.len() + case.bytes.len()) % 8;
    let mut input = Guarded::new(&case.input, lead, FILL);
    let mut offsets = Guarded::new(&case.offsets, lead, u64::from_le_bytes([FILL; 8]));
    let mut types = Guarded::new(&case.types, lead, u32::from_le_bytes([FILL; 4]));
    let mut symbols = Guarded::new(&case.symbols, lead, u32::from_le_bytes([FILL; 4]));
    let mut addends = Guarded::new(&case.addends, lead, i64::from_le_bytes([FILL; 8]));
    let mut bytes = Guarded::new(&case.bytes, lead, FILL);
    let (i, o, b) = (input.lend(), offsets.lend(), bytes.lend());
    let (t, s, a) = (types.lend(), symbols.lend(), addends.lend());
    let order = if case.big { ByteOrder::Big } else { ByteOrder::Little };
    let result = match case.call {
        RELR_READ => reloc::relr_read(case.class, order, i, o),
        RELR_WRITE => reloc::relr_write(case.class, order, o, b),
        RELR_APPLY => reloc::relr_apply(case.class, order, i, case.base, case.start, b),
        APR1_READ => reloc::apr1_read(case.strict, i, o),
        APR1_WRITE => reloc::apr1_write(o, b),
        APA1_READ => reloc::apa1_read(case.strict, i, o, a),
        APA1_WRITE => reloc::apa1_write(o, a, b),
        RELLEB_READ => reloc::relleb_read(case.class, case.strict, i, o, t, s, a),
        RELLEB_WRITE => reloc::relleb_write(case.class, o, t, s, a, b),
        call => panic!("no call {call}"),
    };
    let mut inside = true;
    let after = Case {
        input: input.back(&mut inside),
        offsets: offsets.back(&mut inside),
        types: types.back(&mut inside),
        symbols: symbols.back(&mut inside),
        addends: addends.back(&mut inside),
        bytes: bytes.back(&mut inside),
        ..*case
    };
    Run { result, after, inside }
}

/// Entries behind a buffer.
const TAIL: usize = 8;

/// A buffer with entries around it that no call may change.
struct Guarded<T> {
    whole: Vec<T>,
    lead: usize,
    guard: T,
}

impl<T: Copy + PartialEq> Guarded<T> {
    fn new(buffer: &[T], lead: usize, guard: T) -> Guarded<T> {
        Guarded { whole: [&vec![guard; lead], buffer, &[guard; TAIL]].concat(), lead, guard }
    }

    fn lend(&mut self) -> &mut [T] {
        let end = self.whole.len() - TAIL;
        &mut self.whole[self.lead..end]
    }

    /// The buffer alone; `inside` falls to false when its guard was changed.
    fn back(mut self, inside: &mut bool) -> Vec<T> {
        let tail = self.whole.split_off(self.whole.len() - TAIL);
        *inside &= self.whole.drain(..self.lead).chain(tail).all(|entry| entry == self.guard);
        self.whole
    }
}
