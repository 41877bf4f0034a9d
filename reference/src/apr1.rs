//! APR1: first offset, then runs of equal gaps.

use crate::leb::{self, Kind::Unsigned};
use crate::{Answer, MOST_INPUT, MOST_LIST, ended, identified, put, within};

/// "Each offset is at most 2^32−4, otherwise 7"
const LARGEST: u128 = 0xFFFF_FFFC;

/// A, and the pairs C, D.
struct Packed {
    first: u128,
    pairs: Vec<(u128, u128)>,
}

/// Order: 2, 3, then the first fault along the stream, then 8, 9.
pub fn apr1_read(strict: bool, table: &[u8], offsets: &mut [u64]) -> Answer {
    let packed = match parsed(strict, table) {
        Ok(packed) => packed,
        Err(refusal) => return refusal,
    };
    // Nothing is expanded before the room is known to be enough.
    let mut count = 1;
    for &(times, _) in &packed.pairs {
        count += times as u64;
    }
    if count > offsets.len() as u64 {
        return Answer::needs(count);
    }
    let list = expanded(&packed);
    offsets[..list.len()].copy_from_slice(&list);
    Answer::done(list.len())
}

fn parsed(strict: bool, table: &[u8]) -> Result<Packed, Answer> {
    within(table.len(), MOST_INPUT)?;
    identified(table, b"APR1")?;
    // "The identifier, then N, A, then N pairs C, D, all unsigned width 32."
    let read = |place| leb::read_by(strict, table, place, Unsigned(32));
    let (number, place_a) = read(4)?;
    let (first, mut next) = read(place_a)?;
    let first = first as u128;
    // "A is tested once it is read"; the place of 7 is the byte of A
    if first > LARGEST {
        return Err(Answer::refused(7, place_a));
    }
    let mut offset = first;
    let mut pairs = Vec::new();
    for _ in 0..number {
        let place_c = next;
        let (times, place_d) = read(place_c)?;
        let (gap, after) = read(place_d)?;
        next = after;
        // "a pair once C and D are both read", so behind 18 of either, "and one
        // with C = 0 gives none and isn't tested"; the last offset of a pair is
        // its largest; the place of 7 is the byte of C
        offset += times as u128 * gap as u128;
        if times != 0 && offset > LARGEST {
            return Err(Answer::refused(7, place_c));
        }
        pairs.push((times as u128, gap as u128));
    }
    ended(table, next)?;
    Ok(Packed { first, pairs })
}

/// "A is the first offset; each pair adds D and gives an offset, C times."
fn expanded(packed: &Packed) -> Vec<u64> {
    let mut offset = packed.first;
    let mut list = vec![offset as u64];
    for &(times, gap) in &packed.pairs {
        for _ in 0..times {
            offset += gap;
            list.push(offset as u64);
        }
    }
    list
}

/// Order: 2, 13, then the first fault along the list, then 9.
pub fn apr1_write(offsets: &[u64], table: &mut [u8]) -> Answer {
    put(written(offsets), table)
}

fn written(offsets: &[u64]) -> Result<Vec<u8>, Answer> {
    within(offsets.len(), MOST_LIST)?;
    // "13: APR1 write: empty list", place 0
    if offsets.is_empty() {
        return Err(Answer::refused(13, 0));
    }
    legal(offsets)?;
    let pairs = runs(offsets);
    let mut bytes = b"APR1".to_vec();
    leb::write_unsigned(pairs.len() as u64, &mut bytes);
    leb::write_unsigned(offsets[0], &mut bytes);
    for (times, gap) in pairs {
        leb::write_unsigned(times, &mut bytes);
        leb::write_unsigned(gap, &mut bytes);
    }
    Ok(bytes)
}

/// "At one index: 10, 7, 6, 14."
fn legal(offsets: &[u64]) -> Result<(), Answer> {
    for (index, &offset) in offsets.iter().enumerate() {
        // "APR1 write above 2^32−4"
        if offset as u128 > LARGEST {
            return Err(Answer::refused(7, index));
        }
        // "6: RELR or APR1 write: offset equal to or below the one before"
        if index > 0 && offset <= offsets[index - 1] {
            return Err(Answer::refused(6, index));
        }
    }
    Ok(())
}

/// "The writer makes one pair per longest run of equal gaps."
fn runs(offsets: &[u64]) -> Vec<(u64, u64)> {
    let mut pairs: Vec<(u64, u64)> = Vec::new();
    for index in 1..offsets.len() {
        let gap = offsets[index] - offsets[index - 1];
        match pairs.last_mut() {
            Some(pair) if pair.1 == gap => pair.0 += 1,
            _ => pairs.push((1, gap)),
        }
    }
    pairs
}
