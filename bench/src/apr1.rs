//! APR1: read and written.

use crate::leb::{Length, Reader, Sink, Writer};
use crate::refusal::{Answer, EMPTY, SPACE, enough, increasing, readable, refuse, writable};
use reloc::Refusal;
use std::mem::take;

/// What a table starts with.
const IDENTIFIER: &[u8] = b"APR1";

/// The largest offset.
const LAST: u64 = 0xFFFF_FFFC;

/// Reads the offsets of a table into a column.
pub fn apr1_read(strict: bool, table: &[u8], offsets: &mut [u64]) -> Answer {
    if strict { read::<true>(table, offsets) } else { read::<false>(table, offsets) }
}

/// Reading, for a setting.
fn read<const STRICT: bool>(table: &[u8], mut offsets: &mut [u64]) -> Answer {
    readable(table)?;
    let mut count = 0;
    decode::<STRICT>(table, |times, _| count += times)?;
    enough(offsets.len(), count)?;
    let mut offset = 0;
    decode::<STRICT>(table, |times, gap| {
        let (run, rest) = take(&mut offsets).split_at_mut(times as usize);
        for entry in run {
            offset += gap;
            *entry = offset;
        }
        offsets = rest;
    })?;
    Ok(count as usize)
}

/// Gives the pairs of a table; the first offset A comes first, as one gap from 0.
fn decode<const STRICT: bool>(table: &[u8], mut put: impl FnMut(u64, u64)) -> Result<(), Refusal> {
    let mut reader = Reader::<STRICT>::after(table, IDENTIFIER)?;
    let pairs = reader.unsigned(32)?;
    let place = reader.at;
    let mut offset = reader.unsigned(32)?;
    if offset > LAST {
        return refuse(SPACE, place);
    }
    put(1, offset);
    for _ in 0..pairs {
        let place = reader.at;
        let (times, gap) = (reader.unsigned(32)?, reader.unsigned(32)?);
        offset += times * gap;
        if offset > LAST {
            return refuse(SPACE, place);
        }
        put(times, gap);
    }
    reader.end()
}

/// Writes a list of offsets as a table, a pair for each longest run of equal gaps.
pub fn apr1_write(offsets: &[u64], table: &mut [u8]) -> Answer {
    writable(offsets.len())?;
    let Some(&first) = offsets.first() else {
        return refuse(EMPTY, 0);
    };
    increasing(offsets, |offset| (offset > LAST).then_some(SPACE))?;
    let mut length = Length::default();
    let pairs = encode_runs(offsets, &mut length);
    encode_head(pairs, first, &mut length);
    enough(table.len(), length.0 as u64)?;
    let mut writer = Writer::new(table);
    encode_head(pairs, first, &mut writer);
    encode_runs(offsets, &mut writer);
    Ok(length.0)
}

/// Gives a sink what stands before the pairs.
fn encode_head(pairs: u64, first: u64, sink: &mut impl Sink) {
    sink.bytes(IDENTIFIER);
    sink.unsigned(pairs);
    sink.unsigned(first);
}

/// Gives a sink the pairs of a legal list, and says how many there are.
fn encode_runs(mut offsets: &[u64], sink: &mut impl Sink) -> u64 {
    let mut pairs = 0;
    while let [before, next, ..] = offsets {
        let gap = next - before;
        let times = offsets.windows(2).take_while(|pair| pair[1] - pair[0] == gap).count();
        sink.unsigned(times as u64);
        sink.unsigned(gap);
        offsets = &offsets[times..];
        pairs += 1;
    }
    pairs
}
