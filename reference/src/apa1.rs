//! APA1: pairs of offset difference and addend difference.

use crate::leb::{self, Kind::Signed};
use crate::{Answer, MOST_INPUT, MOST_LIST, ended, identified, put, within};

/// Order: 11, 2, 3, then the first fault along the stream, then 8, 9.
pub fn apa1_read(strict: bool, table: &[u8], offsets: &mut [u64], addends: &mut [i64]) -> Answer {
    // "11: columns differ in length", place 0
    if offsets.len() != addends.len() {
        return Answer::refused(11, 0);
    }
    match parsed(strict, table) {
        Err(refusal) => refusal,
        Ok(list) if list.len() > offsets.len() => Answer::needs(list.len() as u64),
        Ok(list) => {
            for (index, &(offset, addend)) in list.iter().enumerate() {
                offsets[index] = offset;
                addends[index] = addend;
            }
            Answer::done(list.len())
        }
    }
}

fn parsed(strict: bool, table: &[u8]) -> Result<Vec<(u64, i64)>, Answer> {
    within(table.len(), MOST_INPUT)?;
    identified(table, b"APA1")?;
    // "The identifier, then a count and that many pairs (offset difference,
    // addend difference), all signed width 64."
    let (count, mut next) = leb::read(table, 4, Signed(64))?;
    // "A negative count is refusal 5", and, by document 02, "a negative count
    // stays at the number's first byte".
    if count < 0 {
        return Err(Answer::refused(5, 4));
    }
    // "4 and 5 come before it for the same number", and so does this 5
    leb::unpadded(strict, 4, next, Signed(64), count)?;
    let read = |place| leb::read_by(strict, table, place, Signed(64));
    // "Both sums start at 0 and wrap at 64 bits."
    let mut offset = 0u64;
    let mut addend = 0i64;
    let mut list = Vec::new();
    for _ in 0..count {
        let (offset_step, place) = read(next)?;
        let (addend_step, after) = read(place)?;
        next = after;
        offset = offset.wrapping_add(offset_step as u64);
        addend = addend.wrapping_add(addend_step as i64);
        list.push((offset, addend));
    }
    ended(table, next)?;
    Ok(list)
}

/// "APA1 and class 8 RELLEB writes give only 11, 2 and 9."
pub fn apa1_write(offsets: &[u64], addends: &[i64], table: &mut [u8]) -> Answer {
    put(written(offsets, addends), table)
}

fn written(offsets: &[u64], addends: &[i64]) -> Result<Vec<u8>, Answer> {
    if offsets.len() != addends.len() {
        return Err(Answer::refused(11, 0));
    }
    within(offsets.len(), MOST_LIST)?;
    let mut bytes = b"APA1".to_vec();
    leb::write_signed(offsets.len() as i64, &mut bytes);
    let mut offset = 0u64;
    let mut addend = 0i64;
    for index in 0..offsets.len() {
        leb::write_signed(offsets[index].wrapping_sub(offset) as i64, &mut bytes);
        leb::write_signed(addends[index].wrapping_sub(addend), &mut bytes);
        offset = offsets[index];
        addend = addends[index];
    }
    Ok(bytes)
}
