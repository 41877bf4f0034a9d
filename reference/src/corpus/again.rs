//! Tables written again.

use super::calls::{APA1_READ, APA1_WRITE, RELLEB_READ, RELLEB_WRITE};
use super::case::Case;

/// The reads whose strict tables have one table for a list, with their classes and
/// their names.
pub const AGAIN: [(u8, u32, &str); 3] = [
    (APA1_READ, 0, "APA1"),
    (RELLEB_READ, 4, "RELLEB class 4"),
    (RELLEB_READ, 8, "RELLEB class 8"),
];

/// Which of them a case is.
pub fn kind(read: &Case) -> Option<usize> {
    AGAIN.iter().position(|(call, class, _)| {
        read.call == *call && (read.class == *class || *call == APA1_READ)
    })
}

/// The write of the list that a strict read of APA1 or RELLEB gives, into as many
/// bytes as its table has: it makes that table. None where the read is another or is
/// refused.
pub fn again(read: &Case) -> Option<Case> {
    let writer = match read.call {
        APA1_READ => APA1_WRITE,
        RELLEB_READ => RELLEB_WRITE,
        _ => return None,
    };
    let (answer, after) = read.run();
    if !read.strict || answer.number != 0 {
        return None;
    }
    let count = answer.count as usize;
    let write = Case::write(writer, read.class, &after.offsets[..count], read.input.len());
    let write = write.with_addends(&after.addends[..count]);
    if writer == APA1_WRITE {
        return Some(write);
    }
    Some(write.with_types(&after.types[..count]).with_symbols(&after.symbols[..count]))
}
