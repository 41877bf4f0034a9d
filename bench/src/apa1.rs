//! APA1: read and written.

use crate::leb::{Length, Reader, Sink, Writer};
use crate::refusal::{Answer, WIDTH, enough, readable, refuse, same_length, writable};
use reloc::Refusal;

/// What a table starts with.
const IDENTIFIER: &[u8] = b"APA1";

/// Reads the records of a table into two columns.
pub fn apa1_read(strict: bool, table: &[u8], offsets: &mut [u64], addends: &mut [i64]) -> Answer {
    if strict {
        read::<true>(table, offsets, addends)
    } else {
        read::<false>(table, offsets, addends)
    }
}

/// Reading, for a setting.
fn read<const STRICT: bool>(table: &[u8], offsets: &mut [u64], addends: &mut [i64]) -> Answer {
    same_length(&[offsets.len(), addends.len()])?;
    readable(table)?;
    let count = decode::<STRICT>(table, |_, _| ())?;
    enough(offsets.len(), count)?;
    let mut room = offsets.iter_mut().zip(addends);
    decode::<STRICT>(table, |offset, addend| {
        if let Some(entries) = room.next() {
            (*entries.0, *entries.1) = (offset, addend);
        }
    })?;
    Ok(count as usize)
}

/// Gives the records of a table, and says how many there are.
fn decode<const STRICT: bool>(table: &[u8], mut put: impl FnMut(u64, i64)) -> Result<u64, Refusal> {
    // A negative count is refused for that, also a padded one.
    let Ok(count) = u64::try_from(Reader::<false>::after(table, IDENTIFIER)?.signed(64)?) else {
        return refuse(WIDTH, IDENTIFIER.len());
    };
    let mut reader = Reader::<STRICT>::after(table, IDENTIFIER)?;
    reader.signed(64)?;
    let (mut offset, mut addend) = (0u64, 0i64);
    for _ in 0..count {
        offset = offset.wrapping_add(reader.signed(64)? as u64);
        addend = addend.wrapping_add(reader.signed(64)?);
        put(offset, addend);
    }
    reader.end()?;
    Ok(count)
}

/// Writes offsets with addends as a table.
pub fn apa1_write(offsets: &[u64], addends: &[i64], table: &mut [u8]) -> Answer {
    same_length(&[offsets.len(), addends.len()])?;
    writable(offsets.len())?;
    let mut length = Length::default();
    encode(offsets, addends, &mut length);
    enough(table.len(), length.0 as u64)?;
    encode(offsets, addends, &mut Writer::new(table));
    Ok(length.0)
}

/// Gives a sink the table of two columns.
fn encode(offsets: &[u64], addends: &[i64], sink: &mut impl Sink) {
    sink.bytes(IDENTIFIER);
    sink.signed(offsets.len() as i64);
    let mut before = (0u64, 0i64);
    for (&offset, &addend) in offsets.iter().zip(addends) {
        sink.signed(offset.wrapping_sub(before.0) as i64);
        sink.signed(addend.wrapping_sub(before.1));
        before = (offset, addend);
    }
}
