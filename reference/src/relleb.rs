//! RELLEB: records of offset, type, symbol and addend.

use crate::leb::{self, Kind::Signed, Kind::Unsigned};
use crate::{Answer, Class, MOST_INPUT, MOST_LIST, ended, put, within};

/// "Previous values start at 0." (All of them, by Default.)
#[derive(Clone, Copy, Default)]
struct Record {
    offset: u64,
    kind: u32,
    symbol: u32,
    addend: i64,
}

/// Order: 1, 11, 2, then the first fault along the stream, then 8, 9.
pub fn relleb_read(
    class: u32,
    strict: bool,
    table: &[u8],
    offsets: &mut [u64],
    types: &mut [u32],
    symbols: &mut [u32],
    addends: &mut [i64],
) -> Answer {
    let class = match Class::of(class) {
        Ok(class) => class,
        Err(refusal) => return refusal,
    };
    if !same_length([offsets.len(), types.len(), symbols.len(), addends.len()]) {
        return Answer::refused(11, 0);
    }
    match parsed(&class, strict, table) {
        Err(refusal) => refusal,
        Ok(list) if list.len() > offsets.len() => Answer::needs(list.len() as u64),
        Ok(list) => {
            for (index, record) in list.iter().enumerate() {
                offsets[index] = record.offset;
                types[index] = record.kind;
                symbols[index] = record.symbol;
                addends[index] = record.addend;
            }
            Answer::done(list.len())
        }
    }
}

/// "11: columns differ in length", place 0
fn same_length(lengths: [usize; 4]) -> bool {
    lengths.iter().all(|length| *length == lengths[0])
}

fn parsed(class: &Class, strict: bool, table: &[u8]) -> Result<Vec<Record>, Answer> {
    within(table.len(), MOST_INPUT)?;
    // "A count, unsigned width 64."
    let (count, mut next) = leb::read_by(strict, table, 0, Unsigned(64))?;
    let mut before = Record::default();
    let mut list = Vec::new();
    for _ in 0..count {
        let (record, after) = record_at(class, strict, table, next, &before)?;
        next = after;
        before = record;
        list.push(record);
    }
    ended(table, next)?;
    Ok(list)
}

fn record_at(
    class: &Class,
    strict: bool,
    table: &[u8],
    start: usize,
    before: &Record,
) -> Result<(Record, usize), Answer> {
    // "For each record: offset difference, unsigned width W; type difference,
    // signed width 32; symbol field, signed width 33; perhaps an addend
    // difference, signed width W."
    let read = |place, kind| leb::read_by(strict, table, place, kind);
    let (offset_step, next) = read(start, Unsigned(class.bits))?;
    let (kind_step, next) = read(next, Signed(32))?;
    let (field, next) = read(next, Signed(33))?;
    // "Symbol field f ≥ 0 means symbol f and the same addend. f < 0 means
    // symbol −1−f, and an addend difference follows."
    let (symbol, addend_step, next) = if field >= 0 {
        (field, 0, next)
    } else {
        let (addend_step, after) = read(next, Signed(class.bits))?;
        // Refusal 19, "a RELLEB addend difference of zero, at its first byte,
        // after 18", by document 02; lax, "A zero difference is accepted".
        if strict && addend_step == 0 {
            return Err(Answer::refused(19, next));
        }
        (-1 - field, addend_step, after)
    };
    // "Offset and addend sums wrap at W bits, type at 32; the addend is read
    // back as a signed number."
    let record = Record {
        offset: class.wrap(before.offset as i128 + offset_step),
        kind: before.kind.wrapping_add(kind_step as u32),
        symbol: symbol as u32,
        addend: class.signed(class.wrap(before.addend as i128 + addend_step)),
    };
    Ok((record, next))
}

/// Order: 1, 11, 2, then the first fault along the list, then 9.
pub fn relleb_write(
    class: u32,
    offsets: &[u64],
    types: &[u32],
    symbols: &[u32],
    addends: &[i64],
    table: &mut [u8],
) -> Answer {
    put(written(class, offsets, types, symbols, addends), table)
}

fn written(
    class: u32,
    offsets: &[u64],
    types: &[u32],
    symbols: &[u32],
    addends: &[i64],
) -> Result<Vec<u8>, Answer> {
    let class = Class::of(class)?;
    if !same_length([offsets.len(), types.len(), symbols.len(), addends.len()]) {
        return Err(Answer::refused(11, 0));
    }
    within(offsets.len(), MOST_LIST)?;
    legal(&class, offsets, addends)?;
    let mut bytes = Vec::new();
    leb::write_unsigned(offsets.len() as u64, &mut bytes);
    let mut before = Record::default();
    for index in 0..offsets.len() {
        let record = Record {
            offset: offsets[index],
            kind: types[index],
            symbol: symbols[index],
            addend: addends[index],
        };
        write_record(&class, &before, &record, &mut bytes);
        before = record;
    }
    Ok(bytes)
}

/// "At one index: 10, 7, 6, 14."
fn legal(class: &Class, offsets: &[u64], addends: &[i64]) -> Result<(), Answer> {
    // "APA1 and class 8 RELLEB writes give only 11, 2 and 9."
    if class.bits == 64 {
        return Ok(());
    }
    for index in 0..offsets.len() {
        // "RELLEB class 4 write uses 7 above 2^32−1"
        if offsets[index] > u32::MAX as u64 {
            return Err(Answer::refused(7, index));
        }
        // "14: RELLEB class 4 write: addend outside signed 32 bits"
        if addends[index] < i32::MIN as i64 || addends[index] > i32::MAX as i64 {
            return Err(Answer::refused(14, index));
        }
    }
    Ok(())
}

fn write_record(class: &Class, before: &Record, record: &Record, bytes: &mut Vec<u8>) {
    let offset_step = class.wrap(record.offset as i128 - before.offset as i128);
    leb::write_unsigned(offset_step, bytes);
    let kind_step = record.kind.wrapping_sub(before.kind) as i32;
    leb::write_signed(kind_step as i64, bytes);
    // "A zero difference is accepted; the writer never makes one."
    if record.addend == before.addend {
        leb::write_signed(record.symbol as i64, bytes);
        return;
    }
    leb::write_signed(-1 - record.symbol as i64, bytes);
    let addend_step = class.wrap(record.addend as i128 - before.addend as i128);
    leb::write_signed(class.signed(addend_step), bytes);
}
