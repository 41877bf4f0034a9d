//! Byte forms for making tables, also such as the writers never make.

use crate::leb::Kind;

/// A number in its shortest form.
pub use crate::leb::shortest as number;

/// The bytes of a RELR word: eight for a bad class.
fn word_size(class: u32) -> usize {
    if class == 4 { 4 } else { 8 }
}

/// RELR words in the little-endian bytes of the class.
pub fn relr_bytes(class: u32, words: &[u64]) -> Vec<u8> {
    let mut table = Vec::new();
    for word in words {
        table.extend_from_slice(&word.to_le_bytes()[..word_size(class)]);
    }
    table
}

/// The same words in the other byte order. Bytes behind the last whole word stay.
pub fn turned(class: u32, bytes: &[u8]) -> Vec<u8> {
    let mut turned = bytes.to_vec();
    turned.chunks_exact_mut(word_size(class)).for_each(<[u8]>::reverse);
    turned
}

/// A number with up to `more` bytes of padding, inside its allowed length.
pub fn padded(kind: Kind, value: i128, more: usize) -> Vec<u8> {
    let mut bytes = number(kind, value);
    let length = kind.most_bytes().min(bytes.len() + more);
    let fill = if value < 0 { 0x7F } else { 0 };
    while bytes.len() < length {
        *bytes.last_mut().unwrap() |= 0x80;
        bytes.push(fill);
    }
    bytes
}

/// Pieces of bytes, one behind the other.
pub fn join(pieces: &[&[u8]]) -> Vec<u8> {
    pieces.concat()
}
