//! Cases from random numbers: the reference's builders with all their edges,
//! any class, both byte orders, lax and strict, columns of unequal lengths, and the
//! library's own tables.

use crate::damage::{DAMAGES, Damage, whole};
use reference::corpus::build::Build;
use reference::corpus::calls::{CALLS, Setting};
use reference::corpus::case::Case;
use reference::corpus::rng::Rng;
use reference::corpus::twin::twin;

/// A case, whether its table is one of the library, and the damage if that is
/// damaged.
pub struct Made {
    pub case: Case,
    pub written: bool,
    pub damage: Option<Damage>,
}

/// One in four of the reads and applies has a damaged table of the library, one
/// in eight a whole one. Of the others that hold LEB128 numbers some have no padded
/// ones, some have few and some have many.
pub fn case(rng: &mut Rng) -> Made {
    let call = rng.index(CALLS.len()) as u8;
    let class = rng.pick(&[4, 8]);
    let size = 1 + match rng.below(40) {
        0 => rng.index(300),
        1..=4 => rng.index(50),
        _ => rng.index(10),
    };
    let share = rng.below(8);
    let damage = (share < 2).then(|| rng.pick(&DAMAGES).0);
    let padding = rng.pick(&[0, 6, 40]);
    let mut build = Build { rng, edges: true, padding };
    if share < 3
        && let Some(case) = whole(&mut build, call, class, size, damage)
    {
        return Made { case, written: true, damage };
    }
    let mut case = build.case(call, class, size);
    if case.call().takes(Setting::Class) && rng.once_in(30) {
        case.class = if rng.once_in(2) { rng.below(17) as u32 } else { rng.draw() as u32 };
    }
    if rng.once_in(16) {
        uneven(rng, &mut case);
    }
    Made { case: in_some_setting(rng, case), written: false, damage: None }
}

/// A case, or its twin, which is big-endian or strict; each half of the time.
pub fn in_some_setting(rng: &mut Rng, case: Case) -> Case {
    if rng.once_in(2)
        && let Some(twin) = twin(&case)
    {
        return twin;
    }
    case
}

/// Makes a column that the call has longer or shorter.
fn uneven(rng: &mut Rng, case: &mut Case) {
    let more = rng.once_in(2);
    match rng.index(4) {
        column if !case.call().columns[column] => {}
        0 => resize(&mut case.offsets, more),
        1 => resize(&mut case.types, more),
        2 => resize(&mut case.symbols, more),
        _ => resize(&mut case.addends, more),
    }
}

fn resize<T: Default>(column: &mut Vec<T>, more: bool) {
    if more {
        column.push(T::default());
    } else {
        column.pop();
    }
}
