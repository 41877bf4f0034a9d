//! RELR: reading, writing, applying.

use crate::{Answer, ByteOrder, Class, MOST_INPUT, MOST_LIST, put, within};

/// Order: 1, 2, RELR length, then the first fault along the stream, then 9.
pub fn relr_read(class: u32, order: ByteOrder, table: &[u8], offsets: &mut [u64]) -> Answer {
    match Class::ordered(class, order).and_then(|class| accepted(&class, table)) {
        Err(refusal) => refusal,
        Ok(list) if list.len() > offsets.len() => Answer::needs(list.len() as u64),
        Ok(list) => {
            offsets[..list.len()].copy_from_slice(&list);
            Answer::done(list.len())
        }
    }
}

/// The list of a table, or the refusal of reading it (never 1 or 9).
fn accepted(class: &Class, table: &[u8]) -> Result<Vec<u64>, Answer> {
    within(table.len(), MOST_INPUT)?;
    // "4: input ends early; RELR length isn't whole words", at "input length"
    if !table.len().is_multiple_of(class.bytes) {
        return Err(Answer::refused(4, table.len()));
    }
    decoded(class, table)
}

fn decoded(class: &Class, table: &[u8]) -> Result<Vec<u64>, Answer> {
    let mut list = Vec::new();
    // "Where is a whole number and doesn't wrap."
    let mut place_where: Option<u128> = None;
    for (index, chunk) in table.chunks(class.bytes).enumerate() {
        let word = word_of(class, chunk);
        let place = index * class.bytes;
        if word.is_multiple_of(2) {
            // "An even word is an offset; where becomes that offset plus one
            // word."
            tell(class, word, place, &mut list)?;
            place_where = Some(word + class.bytes as u128);
            continue;
        }
        // "6: RELR read: bitmap before any address", at the "byte of the word"
        let Some(start) = place_where else {
            return Err(Answer::refused(6, place));
        };
        // "An odd word is a bitmap: bit k (k from 1 to W−1) stands for where
        // plus k−1 words"
        for k in 1..class.bits {
            if (word >> k) % 2 == 1 {
                tell(class, start + words(class, k - 1), place, &mut list)?;
            }
        }
        // "afterwards where grows by W−1 words, set bits or not"
        place_where = Some(start + words(class, class.window));
    }
    Ok(list)
}

/// The word that so many bytes as the class has hold in its order.
fn word_of(class: &Class, bytes: &[u8]) -> u128 {
    let mut word = 0;
    for (k, byte) in bytes.iter().enumerate() {
        word += (*byte as u128) << (8 * class.power(k));
    }
    word
}

/// Byte `k` of a word in the class's order. What is above W bits is lost.
fn byte_of(class: &Class, word: u128, k: usize) -> u8 {
    (word >> (8 * class.power(k))) as u8
}

/// So many words, in bytes.
fn words(class: &Class, count: u32) -> u128 {
    class.bytes as u128 * count as u128
}

/// "Each offset needs offset + class ≤ 2^W, otherwise refusal 7", at the
/// "byte of the word".
fn tell(class: &Class, offset: u128, place: usize, list: &mut Vec<u64>) -> Result<(), Answer> {
    if !class.holds(offset) {
        return Err(Answer::refused(7, place));
    }
    list.push(offset as u64);
    Ok(())
}

/// Order: 1, 2, then the first fault along the list, then 9.
pub fn relr_write(class: u32, order: ByteOrder, offsets: &[u64], table: &mut [u8]) -> Answer {
    put(written(class, order, offsets), table)
}

fn written(class: u32, order: ByteOrder, offsets: &[u64]) -> Result<Vec<u8>, Answer> {
    let class = Class::ordered(class, order)?;
    within(offsets.len(), MOST_LIST)?;
    legal(&class, offsets)?;
    let mut bytes = Vec::new();
    for word in made_words(&class, offsets) {
        bytes.extend((0..class.bytes).map(|k| byte_of(&class, word as u128, k)));
    }
    Ok(bytes)
}

/// "At one index: 10, 7, 6, 14."
fn legal(class: &Class, offsets: &[u64]) -> Result<(), Answer> {
    for (index, &offset) in offsets.iter().enumerate() {
        // "10: RELR write: odd offset", at the "index"
        if offset % 2 == 1 {
            return Err(Answer::refused(10, index));
        }
        // "RELR write uses 7 as reading does"
        if !class.holds(offset as u128) {
            return Err(Answer::refused(7, index));
        }
        // "6: RELR or APR1 write: offset equal to or below the one before"
        if index > 0 && offset <= offsets[index - 1] {
            return Err(Answer::refused(6, index));
        }
    }
    Ok(())
}

fn made_words(class: &Class, offsets: &[u64]) -> Vec<u64> {
    let mut made = Vec::new();
    let mut place_where: Option<u128> = None;
    let mut next = 0;
    while next < offsets.len() {
        // "After its first even word the writer makes a bitmap whenever the
        // next offset falls on one of that bitmap's places"
        if let Some(start) = place_where
            && bit_of(class, start, offsets[next]).is_some()
        {
            // "and puts in it that offset and those after it up to the first
            // that doesn't"
            let mut bitmap = 1;
            while next < offsets.len()
                && let Some(k) = bit_of(class, start, offsets[next])
            {
                bitmap |= 1 << k;
                next += 1;
            }
            made.push(bitmap);
            place_where = Some(start + words(class, class.window));
        } else {
            // "otherwise it writes the next offset as an even word"
            made.push(offsets[next]);
            place_where = Some(offsets[next] as u128 + class.bytes as u128);
            next += 1;
        }
    }
    made
}

/// The bit that stands for an offset in the bitmap at `start`, if it has one.
/// "bit k (k from 1 to W−1) stands for where plus k−1 words"
fn bit_of(class: &Class, start: u128, offset: u64) -> Option<u32> {
    (1..class.bits).find(|k| start + words(class, k - 1) == offset as u128)
}

/// Order: 1, 15, 2, RELR length, then the first fault along the stream, then
/// 12. The byte order is that of the table's words and of the image's.
pub fn relr_apply(
    class: u32,
    order: ByteOrder,
    table: &[u8],
    base: u64,
    start: u64,
    image: &mut [u8],
) -> Answer {
    let class = Class::ordered(class, order);
    match class.and_then(|class| patched(&class, table, base, start, image)) {
        Ok(count) => Answer::done(count),
        Err(refusal) => refusal,
    }
}

fn patched(
    class: &Class,
    table: &[u8],
    base: u64,
    start: u64,
    image: &mut [u8],
) -> Result<usize, Answer> {
    // "15: apply, class 4: base above 2^32−1", place 0
    if class.bits == 32 && base > u32::MAX as u64 {
        return Err(Answer::refused(15, 0));
    }
    let list = accepted(class, table)?;
    // "12: apply: word ends outside the image", at the "index in the list";
    // every offset is looked at before any word is patched
    for (index, &offset) in list.iter().enumerate() {
        if !inside(class, offset, start, image.len()) {
            return Err(Answer::refused(12, index));
        }
    }
    for &offset in &list {
        // "Offset minus start is the index", by document 02.
        let at = (offset - start) as usize;
        add(class, base, &mut image[at..at + class.bytes]);
    }
    Ok(list.len())
}

/// "an offset below the start, or with its word ending beyond the image, is
/// 12", by document 02; the sums are whole numbers and don't wrap.
fn inside(class: &Class, offset: u64, start: u64, length: usize) -> bool {
    let word_end = offset as u128 + class.bytes as u128;
    let image_end = start as u128 + length as u128;
    offset >= start && word_end <= image_end
}

/// "the word there becomes itself plus base, reduced modulo 2^W"
fn add(class: &Class, base: u64, word: &mut [u8]) {
    let sum = word_of(class, word) + base as u128;
    for (k, byte) in word.iter_mut().enumerate() {
        *byte = byte_of(class, sum, k);
    }
}
