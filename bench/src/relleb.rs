//! RELLEB: read and written.

use crate::leb::{Length, Reader, Sink, Writer};
use crate::refusal::{
    ADDEND, Answer, SPACE, ZERO, enough, readable, refuse, same_length, writable,
};
use crate::word::{Word, by_class};
use reloc::Refusal;

/// One record.
#[derive(Clone, Copy, Default)]
struct Record {
    offset: u64,
    kind: u32,
    symbol: u32,
    addend: i64,
}

/// The columns that a table is read into.
struct Room<'a> {
    offsets: &'a mut [u64],
    types: &'a mut [u32],
    symbols: &'a mut [u32],
    addends: &'a mut [i64],
}

/// The columns that a table is written from.
#[derive(Clone, Copy)]
struct List<'a> {
    offsets: &'a [u64],
    types: &'a [u32],
    symbols: &'a [u32],
    addends: &'a [i64],
}

/// Reads the records of a table into four columns.
pub fn relleb_read(
    class: u32,
    strict: bool,
    table: &[u8],
    offsets: &mut [u64],
    types: &mut [u32],
    symbols: &mut [u32],
    addends: &mut [i64],
) -> Answer {
    let room = Room { offsets, types, symbols, addends };
    if strict {
        by_class!(class, Little, read<true>(table, room))
    } else {
        by_class!(class, Little, read<false>(table, room))
    }
}

/// Writes the records of four columns as a table.
pub fn relleb_write(
    class: u32,
    offsets: &[u64],
    types: &[u32],
    symbols: &[u32],
    addends: &[i64],
    table: &mut [u8],
) -> Answer {
    by_class!(class, Little, write(List { offsets, types, symbols, addends }, table))
}

/// Reading, for a class and a setting.
fn read<W: Word, const STRICT: bool>(table: &[u8], room: Room) -> Answer {
    let Room { offsets, types, symbols, addends } = room;
    same_length(&[offsets.len(), types.len(), symbols.len(), addends.len()])?;
    readable(table)?;
    let count = decode::<W, STRICT>(table, |_| ())?;
    enough(offsets.len(), count)?;
    let mut entries = offsets.iter_mut().zip(types).zip(symbols).zip(addends);
    decode::<W, STRICT>(table, |record| {
        if let Some((((offset, kind), symbol), addend)) = entries.next() {
            (*offset, *kind) = (record.offset, record.kind);
            (*symbol, *addend) = (record.symbol, record.addend);
        }
    })?;
    Ok(count as usize)
}

/// Gives the records of a table, and says how many there are.
fn decode<W: Word, const STRICT: bool>(
    table: &[u8],
    mut put: impl FnMut(Record),
) -> Result<u64, Refusal> {
    let mut reader = Reader::<STRICT>::new(table);
    let count = reader.unsigned(64)?;
    let mut record = Record::default();
    for _ in 0..count {
        record = decode_record::<W, STRICT>(&mut reader, record)?;
        put(record);
    }
    reader.end()?;
    Ok(count)
}

/// The next record, from the one before it.
#[inline]
fn decode_record<W: Word, const STRICT: bool>(
    reader: &mut Reader<STRICT>,
    before: Record,
) -> Result<Record, Refusal> {
    let offset = W::wrap(before.offset.wrapping_add(reader.unsigned(W::BITS)?));
    let kind = before.kind.wrapping_add(reader.signed(32)? as u32);
    let field = reader.signed(33)?;
    if field >= 0 {
        return Ok(Record { offset, kind, symbol: field as u32, addend: before.addend });
    }
    let place = reader.at;
    let change = reader.signed(W::BITS)?;
    if STRICT && change == 0 {
        return refuse(ZERO, place);
    }
    let addend = W::signed(before.addend.wrapping_add(change) as u64);
    Ok(Record { offset, kind, symbol: (-1 - field) as u32, addend })
}

/// Writing, for a class.
fn write<W: Word>(list: List, table: &mut [u8]) -> Answer {
    same_length(&[list.offsets.len(), list.types.len(), list.symbols.len(), list.addends.len()])?;
    writable(list.offsets.len())?;
    legal::<W>(list)?;
    let mut length = Length::default();
    encode::<W>(list, &mut length);
    enough(table.len(), length.0 as u64)?;
    encode::<W>(list, &mut Writer::new(table));
    Ok(length.0)
}

/// Offsets and addends are inside the width.
fn legal<W: Word>(list: List) -> Result<(), Refusal> {
    for (index, (&offset, &addend)) in list.offsets.iter().zip(list.addends).enumerate() {
        if offset > W::TOP {
            return refuse(SPACE, index);
        }
        if addend != W::signed(addend as u64) {
            return refuse(ADDEND, index);
        }
    }
    Ok(())
}

/// Gives a sink the table of a list.
fn encode<W: Word>(list: List, sink: &mut impl Sink) {
    sink.unsigned(list.offsets.len() as u64);
    let mut before = Record::default();
    let entries = list.offsets.iter().zip(list.types).zip(list.symbols).zip(list.addends);
    for (((&offset, &kind), &symbol), &addend) in entries {
        let record = Record { offset, kind, symbol, addend };
        encode_record::<W>(before, record, sink);
        before = record;
    }
}

/// Gives a sink a record, from the one before it.
#[inline]
fn encode_record<W: Word>(before: Record, record: Record, sink: &mut impl Sink) {
    sink.unsigned(W::wrap(record.offset.wrapping_sub(before.offset)));
    sink.signed(record.kind.wrapping_sub(before.kind) as i32 as i64);
    if record.addend == before.addend {
        return sink.signed(record.symbol as i64);
    }
    sink.signed(-1 - record.symbol as i64);
    sink.signed(W::signed(record.addend.wrapping_sub(before.addend) as u64));
}
