//! The settings that have rows of their own: high byte first, and strict.

use reference::corpus::calls::{self, Call};
use reference::corpus::case::Case;

/// A setting that is off in one row and on in the next.
#[derive(Clone, Copy, PartialEq, Eq)]
pub enum Setting {
    /// RELR's words are big-endian.
    Big,
    /// LEB128 numbers are read strictly.
    Strict,
}

impl Setting {
    /// Those there are.
    pub const ALL: [Setting; 2] = [Setting::Big, Setting::Strict];

    /// The one that a call takes; none takes both.
    pub fn of(call: &Call) -> Option<Setting> {
        Setting::ALL.into_iter().find(|setting| match setting {
            Setting::Big => call.takes(calls::Setting::Order),
            Setting::Strict => call.takes(calls::Setting::Strict),
        })
    }

    /// What it is called when it is off, and when it is on.
    pub fn names(self) -> [&'static str; 2] {
        match self {
            Setting::Big => ["little-endian", "big-endian"],
            Setting::Strict => ["lax", "strict"],
        }
    }

    /// Turns it on or off in a case, in place. The words of a table change with it; the image stays
    /// as it is: any numbers will do.
    pub fn turn(self, case: &mut Case) {
        match self {
            Setting::Big => {
                case.big = !case.big;
                case.input.chunks_exact_mut(case.class as usize).for_each(<[u8]>::reverse);
            }
            Setting::Strict => case.strict = !case.strict,
        }
    }
}
