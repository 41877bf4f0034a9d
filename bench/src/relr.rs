//! RELR: read, written and applied.

use crate::bits::Bits;
use crate::refusal::{
    Answer, BASE, MISSING, ODD, ORDER, OUTSIDE, SPACE, enough, increasing, readable, refuse,
    writable,
};
use crate::word::{Word, by_word};
use reloc::{ByteOrder, Refusal};
use std::marker::PhantomData;

/// Reads the offsets of a table into a column.
pub fn relr_read<B: Bits>(
    class: u32,
    order: ByteOrder,
    table: &[u8],
    offsets: &mut [u64],
) -> Answer {
    by_word!(class, order, read<B>(table, offsets))
}

/// Writes the least table for a list of offsets.
pub fn relr_write(class: u32, order: ByteOrder, offsets: &[u64], table: &mut [u8]) -> Answer {
    by_word!(class, order, write(offsets, table))
}

/// Adds the base to the image's word at each offset of a table; the image's first byte is at the
/// start.
pub fn relr_apply<B: Bits>(
    class: u32,
    order: ByteOrder,
    table: &[u8],
    base: u64,
    start: u64,
    image: &mut [u8],
) -> Answer {
    by_word!(class, order, apply<B>(table, base, start, image))
}

/// Reading, for a class and an order.
fn read<W: Word, B: Bits>(table: &[u8], offsets: &mut [u64]) -> Answer {
    let found = find::<W, B>(table, Inside { start: 0, places: u64::MAX })?;
    enough(offsets.len(), found.count as u64)?;
    let mut room = offsets.iter_mut();
    decode::<W>(table, 0, |first, set| {
        B::ones(set).for_each(|k| {
            if let Some(entry) = room.next() {
                *entry = first + k * W::STEP;
            }
        })
    });
    Ok(found.count)
}

/// Applying, for a class and an order.
fn apply<W: Word, B: Bits>(table: &[u8], base: u64, start: u64, image: &mut [u8]) -> Answer {
    if base > W::TOP {
        return refuse(BASE, 0);
    }
    let found = find::<W, B>(table, Inside::of::<W>(start, image.len()))?;
    if let Some(index) = found.outside {
        return refuse(OUTSIDE, index);
    }
    let strips = strips::<W>(base);
    decode::<W>(table, start, |first, set| {
        let first = first as usize;
        // One test for a window, not one for each bit; an address is one bit.
        if B::ZEROS
            && set != 1
            && let Some(window) = W::window(image, first)
        {
            patch::<W, B>(window, base, &strips, set);
        } else {
            B::ones(set).for_each(|k| {
                let at = first + k as usize * W::BYTES;
                add::<W>(&mut image[at..at + W::BYTES], base);
            });
        }
    });
    Ok(found.count)
}

/// Adds to a word.
fn add<W: Word>(word: &mut [u8], addend: u64) {
    W::store(W::load(word).wrapping_add(addend), word);
}

/// For each two bits what is added to two words: the base, or 0.
type Strips<W> = [[<W as Word>::Bytes; 2]; 4];

/// The strips of a base.
fn strips<W: Word>(base: u64) -> Strips<W> {
    let mut strips = Strips::<W>::default();
    for (bits, strip) in strips.iter_mut().enumerate() {
        for (k, word) in strip.iter_mut().enumerate() {
            W::Low::store(base * (bits as u64 >> k & 1), word.as_mut());
        }
    }
    strips
}

/// Adds the base to the words of a window that are marked. Where two neighbours of the upper bits are
/// set, most often many are.
fn patch<W: Word, B: Bits>(window: &mut [W::Bytes; 64], base: u64, strips: &Strips<W>, set: u64) {
    let last = W::WINDOW as usize - 1;
    if B::BEST && set == W::TOP >> 1 {
        window[..=last].iter_mut().for_each(|word| add::<W>(word.as_mut(), base));
    } else if B::BEST && set & (set >> 1) > W::TOP >> 17 {
        let mut rest = set;
        for words in &mut window.as_chunks_mut::<2>().0[..last / 2] {
            let strip = &strips[rest as usize % 4];
            add::<W>(words[0].as_mut(), W::Low::load(strip[0].as_ref()));
            add::<W>(words[1].as_mut(), W::Low::load(strip[1].as_ref()));
            rest >>= 2;
        }
        add::<W>(window[last].as_mut(), W::Low::load(strips[rest as usize % 4][0].as_ref()));
    } else {
        B::ones(set).for_each(|k| add::<W>(window[k as usize].as_mut(), base));
    }
}

/// The first pass over a table: looks at every word, and answers what it found.
fn find<W: Word, B: Bits>(table: &[u8], inside: Inside) -> Result<Found<W>, Refusal> {
    opened::<W>(table)?;
    let whole = inside.windows::<W>();
    let mut found = Found { place: 0, inside, whole, count: 0, outside: None, word: PhantomData };
    for (index, word) in words::<W>(table).enumerate() {
        let legal =
            if word % 2 == 0 { found.address::<B>(word) } else { found.bitmap::<B>(word >> 1) };
        if !legal {
            return refuse(SPACE, index * W::BYTES);
        }
    }
    Ok(found)
}

/// The offsets whose words lie inside an image: so many from its start on.
struct Inside {
    start: u64,
    places: u64,
}

impl Inside {
    /// An image of a length: its places end at its last whole word, or at the largest number.
    fn of<W: Word>(start: u64, length: usize) -> Self {
        let words = (length as u64 + 1).saturating_sub(W::STEP);
        Inside { start, places: words.min((u64::MAX - start).saturating_add(1)) }
    }

    /// Those where a whole window starts that is inside, and inside the space, with a word after it:
    /// *where* does not pass the largest number.
    fn windows<W: Word>(&self) -> Self {
        let places = self.places.min((W::LAST + 1).saturating_sub(self.start));
        Inside { start: self.start, places: places.saturating_sub(W::WINDOW * W::STEP) }
    }

    /// Whether an offset is one of them. Below the start the difference wraps to 2^64 - start or
    /// more, and there are no more places than that.
    fn holds(&self, offset: u64) -> bool {
        offset.wrapping_sub(self.start) < self.places
    }
}

/// What the first pass has found: *where*, the offsets so far, and the index of the first that is
/// not inside. Past the largest number *where* stays at it: no offset is there. By trailing zeros, a
/// word from which on a whole window is inside is only counted.
struct Found<W> {
    place: u64,
    inside: Inside,
    whole: Inside,
    count: usize,
    outside: Option<usize>,
    word: PhantomData<W>,
}

impl<W: Word> Found<W> {
    /// Takes an address; false when it is outside the space.
    fn address<B: Bits>(&mut self, offset: u64) -> bool {
        if B::ZEROS && self.whole.holds(offset) {
            self.count += 1;
            self.place = offset + W::STEP;
            return true;
        }
        if !self.inside.holds(offset) {
            self.outside.get_or_insert(self.count);
        }
        self.count += 1;
        self.place = offset.saturating_add(W::STEP);
        offset <= W::LAST
    }

    /// Takes the bits of a bitmap; false when one is outside the space.
    fn bitmap<B: Bits>(&mut self, set: u64) -> bool {
        let first = self.place;
        if B::ZEROS && self.whole.holds(first) {
            self.count += set.count_ones() as usize;
            self.place = first + W::WINDOW * W::STEP;
            return true;
        }
        self.place = first.saturating_add(W::WINDOW * W::STEP);
        for k in B::ones(set) {
            let offset = first.saturating_add(k * W::STEP);
            if offset > W::LAST {
                return false;
            }
            if !self.inside.holds(offset) {
                self.outside.get_or_insert(self.count);
            }
            self.count += 1;
        }
        true
    }
}

/// The table is whole words, the first of them not a bitmap; after an address no bitmap lacks one.
fn opened<W: Word>(table: &[u8]) -> Result<(), Refusal> {
    readable(table)?;
    if !table.len().is_multiple_of(W::BYTES) {
        return refuse(MISSING, table.len());
    }
    match words::<W>(table).next() {
        Some(word) if word % 2 == 1 => refuse(ORDER, 0),
        _ => Ok(()),
    }
}

/// The second pass over an accepted table: gives, for each word, the offset of its lowest bit, less
/// a start that no offset is below, and its bits. An address is one bit.
fn decode<W: Word>(table: &[u8], start: u64, mut put: impl FnMut(u64, u64)) {
    let mut place = 0u64;
    for word in words::<W>(table) {
        if word % 2 == 0 {
            let index = word - start;
            put(index, 1);
            place = index.wrapping_add(W::STEP);
        } else {
            put(place, word >> 1);
            place = place.wrapping_add(W::WINDOW * W::STEP);
        }
    }
}

/// The words of a table.
fn words<W: Word>(table: &[u8]) -> impl Iterator<Item = u64> {
    table.chunks_exact(W::BYTES).map(W::load)
}

/// Writing, for a class and an order.
fn write<W: Word>(offsets: &[u64], table: &mut [u8]) -> Answer {
    writable(offsets.len())?;
    increasing(offsets, |offset| match offset {
        _ if offset % 2 == 1 => Some(ODD),
        _ if offset > W::LAST => Some(SPACE),
        _ => None,
    })?;
    let need = W::BYTES * Packed::<W>::new(offsets).count();
    enough(table.len(), need as u64)?;
    for (room, word) in table.chunks_exact_mut(W::BYTES).zip(Packed::<W>::new(offsets)) {
        W::store(word, room);
    }
    Ok(need)
}

/// The words of a legal list's least table: the offsets left, and where the next bitmap starts.
struct Packed<'a, W> {
    rest: &'a [u64],
    start: u64,
    word: PhantomData<W>,
}

impl<'a, W: Word> Packed<'a, W> {
    /// All of a list. No offset is at the largest number or past it, so no bitmap starts.
    fn new(offsets: &'a [u64]) -> Self {
        Packed { rest: offsets, start: u64::MAX, word: PhantomData }
    }

    /// The bit of an offset in the next bitmap, if it has one there.
    fn location(&self, offset: u64) -> Option<u64> {
        let distance = offset.checked_sub(self.start)?;
        let k = distance / W::STEP;
        (distance % W::STEP == 0 && k < W::WINDOW).then_some(k)
    }
}

impl<W: Word> Iterator for Packed<'_, W> {
    type Item = u64;

    /// A bitmap with all offsets up to the first that does not fall in it, or else the next offset.
    fn next(&mut self) -> Option<u64> {
        let first = *self.rest.first()?;
        let (mut set, mut taken) = (0, 0);
        while let Some(k) = self.rest.get(taken).and_then(|offset| self.location(*offset)) {
            set |= 1 << k;
            taken += 1;
        }
        if taken == 0 {
            self.rest = &self.rest[1..];
            self.start = first.saturating_add(W::STEP);
            return Some(first);
        }
        self.rest = &self.rest[taken..];
        self.start = self.start.saturating_add(W::WINDOW * W::STEP);
        Some(set << 1 | 1)
    }
}
