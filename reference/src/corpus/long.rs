//! Inputs and lists at their limit and one over it. All of an input is zero
//! bytes, so that the file holds its length alone.

use super::Named;
use super::calls::{
    APA1_READ, APA1_WRITE, APR1_READ, APR1_WRITE, Call, RELLEB_READ, RELLEB_WRITE, RELR_APPLY,
    RELR_READ, RELR_WRITE, Setting, Shape,
};
use super::case::Case;
use super::hand::{Hand, Want, hand, named};
use super::twin::ending;
use crate::{MOST_INPUT, MOST_LIST};

const LIMIT: Want = (2, 0, 0);

/// Each call with its class and the answer at the limit.
const AT_LIMIT: [(u8, u32, Want); 14] = [
    // A zero word is the address 0; identifiers are missing; RELLEB's count is
    // 0, and its table ends behind it.
    (RELR_READ, 4, (9, 0, MOST_INPUT as u64 / 4)),
    (RELR_READ, 8, (9, 0, MOST_INPUT as u64 / 8)),
    (APR1_READ, 0, (3, 0, 0)),
    (APA1_READ, 0, (3, 0, 0)),
    (RELLEB_READ, 4, (8, 1, 0)),
    (RELLEB_READ, 8, (8, 1, 0)),
    (RELR_APPLY, 4, (0, 0, MOST_INPUT as u64 / 4)),
    (RELR_APPLY, 8, (0, 0, MOST_INPUT as u64 / 8)),
    // The second offset equals the first; a zero difference is one byte, and
    // a count takes four bytes, signed or unsigned.
    (RELR_WRITE, 4, (6, 1, 0)),
    (RELR_WRITE, 8, (6, 1, 0)),
    (APR1_WRITE, 0, (6, 1, 0)),
    (APA1_WRITE, 0, (9, 0, 4 + 4 + 2 * MOST_LIST as u64)),
    (RELLEB_WRITE, 4, (9, 0, 4 + 3 * MOST_LIST as u64)),
    (RELLEB_WRITE, 8, (9, 0, 4 + 3 * MOST_LIST as u64)),
];

/// The cases of `all`.
pub fn cases() -> impl Iterator<Item = Named> {
    all().map(named)
}

/// Each call at the limit and one over it, which is refusal 2; then the twins. A
/// case is made when its turn comes: all at once would take gigabytes.
pub fn all() -> impl Iterator<Item = Hand> {
    let twins = AT_LIMIT.iter().filter(|(call, ..)| ending(Call::of(*call)).is_some());
    let rows = AT_LIMIT.iter().map(|row| (row, false)).chain(twins.map(|row| (row, true)));
    rows.flat_map(|(&(call, class, want), twin)| {
        let answers = [(0, want), (1, LIMIT)].into_iter();
        answers.map(move |(over, want)| beyond(call, class, twin, over, want))
    })
}

/// Zeros, so many over the call's limit. No byte of the input or of the image
/// differs from the others, so that a big-endian twin has the same ones; and no
/// number of the input is padded, so that a strict twin has the same answer.
fn beyond(call: u8, class: u32, twin: bool, over: usize, want: Want) -> Hand {
    let row = Call::of(call);
    let length = over + if row.shape == Shape::Write { MOST_LIST } else { MOST_INPUT };
    let ending = ending(row).filter(|_| twin).unwrap_or_default();
    let [big, strict] = [Setting::Order, Setting::Strict].map(|on| twin && row.takes(on));
    let case = Case { big, strict, ..zeros(call, class, length) };
    hand(&format!("{length} zeros{ending}"), case, want)
}

fn zeros(call: u8, class: u32, length: usize) -> Case {
    let Call { shape, columns, .. } = Call::of(call);
    match shape {
        Shape::Read => Case::read_into(call, class, &vec![0; length], 4),
        Shape::Apply => Case::apply(class, &vec![0; length], 0x1_0003, 0, &[0xFE; 9]),
        Shape::Write => {
            let [_, types, symbols, addends] = columns.map(|has| if has { length } else { 0 });
            let case = Case::write(call, class, &vec![0; length], 16);
            let case = case.with_types(&vec![0; types]).with_symbols(&vec![0; symbols]);
            case.with_addends(&vec![0; addends])
        }
    }
}
