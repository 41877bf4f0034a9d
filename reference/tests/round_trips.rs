//! Reading what was written, on random lists.

use reference::ByteOrder::{self, Big, Little};
use reference::corpus::rng::Rng;
use reference::{
    Answer, LAX, STRICT, apa1_read, apa1_write, apr1_read, apr1_write, relleb_read, relleb_write,
    relr_apply, relr_read, relr_write,
};
use std::collections::BTreeMap;

const ROUNDS: usize = 2_000;

/// Both classes in both byte orders.
const FORMS: [(u32, ByteOrder); 4] = [(4, Little), (4, Big), (8, Little), (8, Big)];

/// "the writers already meet the strict one": a table reads back in both.
const SETTINGS: [bool; 2] = [LAX, STRICT];

/// A strictly increasing list whose last offset is at most `last`.
fn rising(rng: &mut Rng, step: u64, last: u64) -> Vec<u64> {
    let mut offset = (rng.any_size() & last) / step * step;
    if rng.once_in(8) {
        offset = last - rng.below(200) * step;
    }
    let mut list = Vec::new();
    for _ in 0..rng.index(80) {
        if offset > last {
            break;
        }
        list.push(offset);
        offset = match rng.below(6) {
            0 => offset.saturating_add(step),
            1 => offset.saturating_add(step * (1 + rng.below(200))),
            _ => offset.saturating_add(8),
        };
    }
    list
}

/// Writes with no room, with one byte short, and with exact room; gives the
/// table.
fn made(write: impl Fn(&mut [u8]) -> Answer) -> Vec<u8> {
    let need = write(&mut vec![0; 9_999]);
    assert_eq!((need.number, need.place), (0, 0));
    let count = need.count as usize;
    if count > 0 {
        let short = write(&mut vec![0; count - 1]);
        assert_eq!((short.number, short.place, short.count), (9, 0, count as u64));
    }
    let mut table = vec![0; count];
    assert_eq!(write(&mut table), need);
    table
}

#[test]
fn relr() {
    let mut rng = Rng::new(11);
    for _ in 0..ROUNDS {
        for (class, order) in FORMS {
            let last = if class == 4 { 0xFFFF_FFFC } else { u64::MAX - 7 };
            let list = rising(&mut rng, 2, last);
            let table = made(|room| relr_write(class, order, &list, room));
            assert!(table.len() <= list.len() * class as usize);
            let mut got = vec![0; list.len()];
            let answer = relr_read(class, order, &table, &mut got);
            assert_eq!((answer.number, answer.count), (0, list.len() as u64));
            assert_eq!(got, list);
        }
    }
}

#[test]
fn apr1() {
    let mut rng = Rng::new(12);
    for _ in 0..ROUNDS {
        let list = rising(&mut rng, 1, 0xFFFF_FFFC);
        if list.is_empty() {
            continue;
        }
        let table = made(|room| apr1_write(&list, room));
        for strict in SETTINGS {
            let mut got = vec![0; list.len()];
            let answer = apr1_read(strict, &table, &mut got);
            assert_eq!((answer.number, answer.count), (0, list.len() as u64));
            assert_eq!(got, list);
        }
    }
}

#[test]
fn apa1() {
    let mut rng = Rng::new(13);
    for _ in 0..ROUNDS {
        let count = rng.index(70);
        let offsets: Vec<u64> = (0..count).map(|_| rng.any_size()).collect();
        let addends: Vec<i64> = (0..count).map(|_| signed(&mut rng, 64)).collect();
        let table = made(|room| apa1_write(&offsets, &addends, room));
        for strict in SETTINGS {
            let (mut o, mut a) = (vec![0; count], vec![0; count]);
            let answer = apa1_read(strict, &table, &mut o, &mut a);
            assert_eq!((answer.number, answer.count), (0, count as u64));
            assert_eq!((&o, &a), (&offsets, &addends));
        }
    }
}

#[test]
fn relleb() {
    let mut rng = Rng::new(14);
    for _ in 0..ROUNDS {
        for class in [4, 8] {
            relleb_once(&mut rng, class);
        }
    }
}

fn relleb_once(rng: &mut Rng, class: u32) {
    let bits = class * 8;
    let count = rng.index(40);
    let offsets: Vec<u64> = (0..count).map(|_| rng.any_size() >> (64 - bits)).collect();
    let types: Vec<u32> = (0..count).map(|_| (rng.any_size() >> 32) as u32).collect();
    let symbols: Vec<u32> = (0..count).map(|_| (rng.any_size() >> 32) as u32).collect();
    let mut addends: Vec<i64> = (0..count).map(|_| signed(rng, bits)).collect();
    for k in 1..count {
        if rng.once_in(2) {
            addends[k] = addends[k - 1];
        }
    }
    let table = made(|room| relleb_write(class, &offsets, &types, &symbols, &addends, room));
    for strict in SETTINGS {
        let (mut o, mut t) = (vec![0; count], vec![0; count]);
        let (mut s, mut a) = (vec![0; count], vec![0; count]);
        let answer = relleb_read(class, strict, &table, &mut o, &mut t, &mut s, &mut a);
        assert_eq!((answer.number, answer.count), (0, count as u64));
        assert_eq!((&o, &t, &s, &a), (&offsets, &types, &symbols, &addends));
    }
}

/// A signed number of the width, of any size.
fn signed(rng: &mut Rng, bits: u32) -> i64 {
    let size = (rng.any_size() >> (64 - bits)) as i128;
    (size - (1 << (bits - 1))) as i64
}

/// Applying adds the base at each offset that reading gives.
#[test]
fn apply_follows_read() {
    let mut rng = Rng::new(15);
    for _ in 0..ROUNDS {
        for (class, order) in FORMS {
            apply_once(&mut rng, class, order);
        }
    }
}

fn apply_once(rng: &mut Rng, class: u32, order: ByteOrder) {
    let table = table_from(rng, class, order, 0);
    let base = rng.draw() >> (64 - 8 * class);
    let before: Vec<u8> = (0..130).map(|_| rng.draw() as u8).collect();
    let (read, list) = list_of(class, order, &table);
    let mut want = before.clone();
    for offset in list {
        add(class, order, base, &mut want[offset as usize..]);
    }
    let mut image = before;
    assert_eq!(relr_apply(class, order, &table, base, 0, &mut image), read);
    assert_eq!(image, want);
}

/// Addresses from `first` on, each with a bitmap behind it, for 130 bytes.
fn table_from(rng: &mut Rng, class: u32, order: ByteOrder, first: u64) -> Vec<u8> {
    let mut table = Vec::new();
    for _ in 0..1 + rng.below(6) {
        let address = first + rng.below(30) * 2;
        let bitmap = rng.below(64) * 2 + 1;
        for word in [address, bitmap] {
            match order {
                Little => table.extend_from_slice(&word.to_le_bytes()[..class as usize]),
                Big => table.extend_from_slice(&word.to_be_bytes()[8 - class as usize..]),
            }
        }
    }
    table
}

/// What reading a table answers, and its list.
fn list_of(class: u32, order: ByteOrder, table: &[u8]) -> (Answer, Vec<u64>) {
    let mut list = vec![0; 999];
    let read = relr_read(class, order, table, &mut list);
    assert_eq!(read.number, 0);
    list.truncate(read.count as usize);
    (read, list)
}

/// Adds the base to the first word of some bytes.
fn add(class: u32, order: ByteOrder, base: u64, bytes: &mut [u8]) {
    let word = &mut bytes[..class as usize];
    if order == Big {
        word.reverse();
    }
    if class == 4 {
        let sum = u32::from_le_bytes(word.try_into().unwrap()).wrapping_add(base as u32);
        word.copy_from_slice(&sum.to_le_bytes());
    } else {
        let sum = u64::from_le_bytes(word.try_into().unwrap()).wrapping_add(base);
        word.copy_from_slice(&sum.to_le_bytes());
    }
    if order == Big {
        word.reverse();
    }
}

/// Applying with a start does as a map from addresses to bytes does.
#[test]
fn apply_with_a_start() {
    let mut rng = Rng::new(16);
    let mut seen = [0; 2];
    for _ in 0..ROUNDS {
        for (class, order) in FORMS {
            let accepted = apply_from(&mut rng, class, order);
            seen[accepted as usize] += 1;
        }
    }
    assert!(seen.iter().all(|times| *times > ROUNDS / 2), "{seen:?}");
}

/// A table anywhere in the space, and an image about it; whether every word lies
/// inside.
fn apply_from(rng: &mut Rng, class: u32, order: ByteOrder) -> bool {
    let top = u64::MAX >> (64 - 8 * class);
    let anywhere = rng.any_size() & (top / 2);
    let first = rng.pick(&[0, 0x1000, top - 129, anywhere]) & !1;
    let table = table_from(rng, class, order, first);
    let (read, list) = list_of(class, order, &table);
    let least = *list.iter().min().unwrap();
    let start = match rng.below(4) {
        0 => least.saturating_sub(rng.below(9)),
        1 | 2 => least.saturating_add(rng.below(3)),
        _ => least,
    };
    let short = 130 - rng.index(80);
    let length = rng.pick(&[130, 130, short, 200]);
    let base = rng.draw() >> (64 - 8 * class);
    let before: Vec<u8> = (0..length).map(|_| rng.draw() as u8).collect();
    let mut image = before.clone();
    let answer = relr_apply(class, order, &table, base, start, &mut image);
    let add = |word: &mut [u8]| add(class, order, base, word);
    let (want, after) = match mapped(class, &list, add, start, &before) {
        Ok(after) => (read, after),
        Err(index) => (Answer { number: 12, place: index as u64, count: 0 }, before),
    };
    assert_eq!(answer, want);
    assert_eq!(image, after);
    want.number == 0
}

/// The image as a map from addresses to bytes: a word is inside when the map has
/// each of its addresses. What adding leaves of the image, or the index of the
/// first offset whose word is not inside.
fn mapped(
    class: u32,
    list: &[u64],
    add: impl Fn(&mut [u8]),
    start: u64,
    image: &[u8],
) -> Result<Vec<u8>, usize> {
    let mut map: BTreeMap<u128, u8> = (start as u128..).zip(image.iter().copied()).collect();
    let addresses = |offset: &u64| *offset as u128..*offset as u128 + class as u128;
    let has = |offset| addresses(offset).all(|at| map.contains_key(&at));
    if let Some(index) = list.iter().position(|offset| !has(offset)) {
        return Err(index);
    }
    for offset in list {
        let mut word: Vec<u8> = addresses(offset).map(|at| map[&at]).collect();
        add(&mut word);
        map.extend(addresses(offset).zip(word));
    }
    Ok(map.into_values().collect())
}

/// One base and then another does as their sum does at once, where no two words overlap in part, and
/// where some do it may not.
#[test]
fn move_a_module() {
    let mut rng = Rng::new(17);
    let mut differ = 0;
    for _ in 0..ROUNDS {
        for (class, order) in FORMS {
            let table = table_from(&mut rng, class, order, 0x1000);
            let (_, list) = list_of(class, order, &table);
            let word = class as u64;
            let whole = |x: &u64| list.iter().all(|y| x == y || x.abs_diff(*y) >= word);
            let same = moves(&mut rng, class, order, &table);
            assert!(same || !list.iter().all(whole), "{list:x?}");
            differ += !same as usize;
        }
    }
    assert!(differ > ROUNDS / 10, "{differ}");
}

/// Whether two bases, one after the other, leave what their sum leaves.
fn moves(rng: &mut Rng, class: u32, order: ByteOrder, table: &[u8]) -> bool {
    let top = u64::MAX >> (64 - 8 * class);
    let [a, b] = [rng.draw() & top, rng.draw() & top];
    let old: Vec<u8> = (0..200).map(|_| rng.draw() as u8).collect();
    let [mut twice, mut once] = [old.clone(), old];
    let apply = |base, image: &mut Vec<u8>| {
        assert_eq!(relr_apply(class, order, table, base, 0x1000, image).number, 0);
    };
    apply(a, &mut twice);
    apply(b, &mut twice);
    apply(a.wrapping_add(b) & top, &mut once);
    twice == once
}
