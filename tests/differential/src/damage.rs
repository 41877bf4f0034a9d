//! Whole tables that the library's writers made, damaged once.

use crate::by_library;
use crate::generate::in_some_setting;
use reference::corpus::build::Build;
use reference::corpus::calls::{
    APA1_READ, APA1_WRITE, APR1_READ, APR1_WRITE, RELLEB_READ, RELLEB_WRITE, RELR_APPLY, RELR_READ,
    RELR_WRITE, Setting,
};
use reference::corpus::case::{Case, FILL};
use reference::corpus::rng::Rng;
use reference::corpus::tables::turned;
use reference::corpus::twin::twin;
use reloc::Refusal;

/// One bit flipped, one byte changed, one byte taken out, or one put in.
#[derive(Clone, Copy, PartialEq, Eq, Debug)]
pub enum Damage {
    Bit,
    Byte,
    Less,
    More,
}

/// The damages by name, in the order of their discriminants.
pub const DAMAGES: [(Damage, &str); 4] = [
    (Damage::Bit, "bit"),
    (Damage::Byte, "byte"),
    (Damage::Less, "byte less"),
    (Damage::More, "byte more"),
];

impl Damage {
    /// Damages a table of at least one byte, anywhere.
    pub fn strike(self, rng: &mut Rng, table: &mut Vec<u8>) {
        let at = rng.index(table.len() + (self == Damage::More) as usize);
        match self {
            Damage::Bit => table[at] ^= 1 << rng.below(8),
            Damage::Byte => table[at] = table[at].wrapping_add(1 + rng.below(255) as u8),
            Damage::Less => drop(table.remove(at)),
            Damage::More => table.insert(at, rng.draw() as u8),
        }
    }
}

/// A reading call on a whole table that the library wrote, which is damaged
/// where so told; half of those that may be strict are. None for a call without such
/// tables.
pub fn whole(
    build: &mut Build,
    call: u8,
    class: u32,
    size: usize,
    damage: Option<Damage>,
) -> Option<Case> {
    let Case { class, big, bytes: mut table, .. } = written(build, writer(call)?, class, size);
    if let Some(damage) = damage {
        damage.strike(build.rng, &mut table);
    }
    // The builders take little-endian words; the twin turns them back.
    if big {
        table = turned(class, &table);
    }
    let case = match call {
        RELR_APPLY => build.applied(class, &table),
        _ => build.lend(Case::read_into(call, class, &table, 0)),
    };
    let strict = case.call().takes(Setting::Strict) && build.rng.once_in(2);
    if big || strict { twin(&case) } else { Some(case) }
}

/// The writer of the tables that a call takes.
fn writer(call: u8) -> Option<u8> {
    match call {
        RELR_READ | RELR_APPLY => Some(RELR_WRITE),
        APR1_READ => Some(APR1_WRITE),
        APA1_READ => Some(APA1_WRITE),
        RELLEB_READ => Some(RELLEB_WRITE),
        _ => None,
    }
}

/// A list that the library has accepted, with its table of at least one byte, in
/// some byte order.
fn written(build: &mut Build, writer: u8, class: u32, size: usize) -> Case {
    loop {
        let list = build.list(writer, class, size);
        let mut list = in_some_setting(build.rng, list);
        if let Err(Refusal { number: 9, need, .. }) = by_library(&list).result {
            list.bytes = vec![FILL; need as usize];
            return by_library(&list).after;
        }
    }
}
