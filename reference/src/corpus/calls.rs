//! The calls, a row each.

use Setting::{Base, Class, Order, Start, Strict};
use Shape::{Apply, Read, Write};

use crate::{LAX, STRICT};

// A call's code: its row.
pub const RELR_READ: u8 = 0;
pub const RELR_WRITE: u8 = 1;
pub const RELR_APPLY: u8 = 2;
pub const APR1_READ: u8 = 3;
pub const APR1_WRITE: u8 = 4;
pub const APA1_READ: u8 = 5;
pub const APA1_WRITE: u8 = 6;
pub const RELLEB_READ: u8 = 7;
pub const RELLEB_WRITE: u8 = 8;

/// Every number of an answer is below this.
pub const NUMBERS: usize = 32;

/// From a table into columns, from columns into a table, or from a table onto
/// an image.
#[derive(Clone, Copy, PartialEq, Eq, Debug)]
pub enum Shape {
    Read,
    Write,
    Apply,
}

/// What a call may be told besides its tables and columns.
#[derive(Clone, Copy, PartialEq, Eq, Debug)]
pub enum Setting {
    Class,
    Order,
    Strict,
    Base,
    Start,
}

/// The refusals that the strict setting alone gives.
const STRICT_ALONE: [u32; 2] = [18, 19];

pub struct Call {
    pub name: &'static str,
    pub shape: Shape,
    /// Those it takes.
    pub settings: &'static [Setting],
    /// Whether it has offsets, types, symbols, addends.
    pub columns: [bool; 4],
    /// Those that documents 01 and 02 allow it.
    pub refusals: &'static [u32],
}

impl Call {
    const fn row(
        name: &'static str,
        shape: Shape,
        settings: &'static [Setting],
        columns: [bool; 4],
        refusals: &'static [u32],
    ) -> Call {
        Call { name, shape, settings, columns, refusals }
    }

    pub fn of(code: u8) -> &'static Call {
        &CALLS[code as usize]
    }

    pub fn takes(&self, setting: Setting) -> bool {
        self.settings.contains(&setting)
    }

    /// What the call can be told of strictness.
    pub fn strictness(&self) -> &'static [bool] {
        if self.takes(Strict) { &[LAX, STRICT] } else { &[LAX] }
    }

    /// Whether a call that is told so may refuse with a number.
    pub fn allows(&self, strict: bool, number: u32) -> bool {
        self.refusals.contains(&number) && (strict || !STRICT_ALONE.contains(&number))
    }
}

const NONE: [bool; 4] = [false; 4];
const OFFSETS: [bool; 4] = [true, false, false, false];
const ADDENDS: [bool; 4] = [true, false, false, true];
const ALL: [bool; 4] = [true; 4];

/// A further call is a further row, at the end.
pub const CALLS: &[Call] = &[
    Call::row("relr_read", Read, &[Class, Order], OFFSETS, &[1, 2, 4, 6, 7, 9]),
    Call::row("relr_write", Write, &[Class, Order], OFFSETS, &[1, 2, 6, 7, 9, 10]),
    Call::row("relr_apply", Apply, &[Class, Order, Base, Start], NONE, &[1, 2, 4, 6, 7, 12, 15]),
    Call::row("apr1_read", Read, &[Strict], OFFSETS, &[2, 3, 4, 5, 7, 8, 9, 18]),
    Call::row("apr1_write", Write, &[], OFFSETS, &[2, 6, 7, 9, 13]),
    Call::row("apa1_read", Read, &[Strict], ADDENDS, &[2, 3, 4, 5, 8, 9, 11, 18]),
    Call::row("apa1_write", Write, &[], ADDENDS, &[2, 9, 11]),
    Call::row("relleb_read", Read, &[Class, Strict], ALL, &[1, 2, 4, 5, 8, 9, 11, 18, 19]),
    Call::row("relleb_write", Write, &[Class], ALL, &[1, 2, 7, 9, 11, 14]),
];
