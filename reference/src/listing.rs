//! The listing program, as a function from its input to its output.

use crate::{Answer, ByteOrder, LAX, apa1_read, apr1_read, relleb_read, relr_read};

/// "The program holds 16,384 table bytes (more is 2) and 1,024 records (more
/// is 9)."
pub const TABLE_BYTES: usize = 16_384;
pub const RECORDS: usize = 1_024;

/// "Standard input: one line, `relr32`, `relr64`, `apr1`, `apa1`, `relleb32`
/// or `relleb64`, then the table. Output: lines of text, fields parted by
/// tabs, decimal."
pub fn list(input: &[u8]) -> String {
    match lines(input) {
        Ok(text) => text,
        // "A refusal prints only `refused`, number, place"
        Err(refusal) => format!("refused\t{}\t{}\n", refusal.number, refusal.place),
    }
}

fn lines(input: &[u8]) -> Result<String, Answer> {
    // "an unknown first line, or one without its line feed, is 1 and comes
    // first"
    let Some(end) = input.iter().position(|byte| *byte == b'\n') else {
        return Err(Answer::refused(1, 0));
    };
    let kind = &input[..end];
    let table = &input[end + 1..];
    if !known(kind) {
        return Err(Answer::refused(1, 0));
    }
    if table.len() > TABLE_BYTES {
        return Err(Answer::refused(2, 0));
    }
    let rows = rows(kind, table)?;
    let mut text = String::from("no\toffset\ttype\tsymbol\taddend\n");
    for (no, row) in rows.iter().enumerate() {
        text += &format!("{no}\t{row}\n");
    }
    Ok(text)
}

fn known(kind: &[u8]) -> bool {
    let kinds: [&[u8]; 6] = [b"relr32", b"relr64", b"apr1", b"apa1", b"relleb32", b"relleb64"];
    kinds.contains(&kind)
}

/// The fields behind the number of each line. "A kind without a field prints
/// `-`."
fn rows(kind: &[u8], table: &[u8]) -> Result<Vec<String>, Answer> {
    let mut o = vec![0u64; RECORDS];
    let mut t = vec![0u32; RECORDS];
    let mut s = vec![0u32; RECORDS];
    let mut a = vec![0i64; RECORDS];
    let answer = match kind {
        // "the program stays little-endian", by document 02
        b"relr32" => relr_read(4, ByteOrder::Little, table, &mut o),
        b"relr64" => relr_read(8, ByteOrder::Little, table, &mut o),
        // It reads lax: "Lax reading answers as before."
        b"apr1" => apr1_read(LAX, table, &mut o),
        b"apa1" => apa1_read(LAX, table, &mut o, &mut a),
        b"relleb32" => relleb_read(4, LAX, table, &mut o, &mut t, &mut s, &mut a),
        _ => relleb_read(8, LAX, table, &mut o, &mut t, &mut s, &mut a),
    };
    if answer.number != 0 {
        return Err(answer);
    }
    let row = |i: usize| match kind {
        b"relr32" | b"relr64" | b"apr1" => format!("{}\t-\t-\t-", o[i]),
        b"apa1" => format!("{}\t-\t-\t{}", o[i], a[i]),
        _ => format!("{}\t{}\t{}\t{}", o[i], t[i], s[i], a[i]),
    };
    Ok((0..answer.count as usize).map(row).collect())
}
