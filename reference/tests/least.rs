//! No accepted table that decodes to a list has fewer words than the written
//! one.

use reference::ByteOrder::{self, Big, Little};
use reference::corpus::rng::Rng;
use reference::corpus::tables::{relr_bytes, turned};
use reference::{relr_read, relr_write};
use std::collections::BTreeSet;

/// How many offsets are told, and where the next bitmap begins.
type State = (usize, Option<u128>);

/// The fewest words of any accepted table that decodes to a strictly
/// increasing legal list, by trying every table, word after word: the states
/// that so many words can reach.
fn least_words(class: u32, list: &[u64]) -> usize {
    let mut states: BTreeSet<State> = BTreeSet::from([(0, None)]);
    let mut words = 0;
    while states.iter().all(|(told, _)| *told < list.len()) {
        states = states.iter().flat_map(|state| followers(class, list, *state)).collect();
        words += 1;
    }
    words
}

/// The states that one more word can reach.
fn followers(class: u32, list: &[u64], (told, start): State) -> Vec<State> {
    let word = class as u128;
    let window = 8 * word - 1;
    let mut reached = Vec::new();
    // An even word, which has to be the next offset.
    if told < list.len() {
        reached.push((told + 1, Some(list[told] as u128 + word)));
    }
    // A bitmap of the next offsets: none, one, two, as many as have places.
    if let Some(start) = start {
        let after = Some(start + window * word);
        reached.push((told, after));
        for (index, &offset) in list.iter().enumerate().skip(told) {
            let places: Vec<u128> = (0..window).map(|k| start + k * word).collect();
            if !places.contains(&(offset as u128)) {
                break;
            }
            reached.push((index + 1, after));
        }
    }
    reached
}

fn written_words(class: u32, order: ByteOrder, list: &[u64]) -> usize {
    let mut table = vec![0; list.len() * class as usize];
    let answer = relr_write(class, order, list, &mut table);
    assert_eq!(answer.number, 0, "never more words than offsets");
    let mut got = vec![0; list.len()];
    let read = relr_read(class, order, &table[..answer.count as usize], &mut got);
    assert_eq!((read.number, got), (0, list.to_vec()));
    answer.count as usize / class as usize
}

/// In both orders; also that less room is refused with the least need.
fn check(class: u32, list: &[u64]) {
    let least = least_words(class, list);
    let need = least * class as usize;
    for order in [Little, Big] {
        assert_eq!(written_words(class, order, list), least, "class {class} {list:x?}");
        for room in [0, need / 2, need.saturating_sub(1)] {
            let answer = relr_write(class, order, list, &mut vec![0; room]);
            let want = if room < need { 9 } else { 0 };
            assert_eq!((answer.number, answer.count), (want, need as u64));
        }
    }
}

/// The slow count itself, on lists small enough to count by eye.
#[test]
fn slow_count_by_eye() {
    assert_eq!(least_words(8, &[]), 0);
    assert_eq!(least_words(8, &[0x2000]), 1);
    assert_eq!(least_words(8, &[0x2000, 0x2008, 0x2010, 0x2018]), 2);
    assert_eq!(least_words(8, &[0x2000, 0x21F8, 0x2200]), 3);
    assert_eq!(least_words(8, &[0x10, 0x14, 0x18, 0x20]), 4);
    assert_eq!(least_words(4, &[0x100, 0x17C]), 2);
}

#[test]
fn random_lists() {
    let mut rng = Rng::new(21);
    for _ in 0..1_500 {
        for class in [4u32, 8] {
            let list = random_list(&mut rng, class);
            check(class, &list);
        }
    }
}

fn random_list(rng: &mut Rng, class: u32) -> Vec<u64> {
    let word = class as u64;
    let window = 8 * word - 1;
    let mut offset = 2 * rng.below(8);
    let mut list = Vec::new();
    for _ in 0..rng.index(13) {
        list.push(offset);
        offset += match rng.below(10) {
            0 => 2,
            1 => 2 * (1 + rng.below(2 * word)),
            2 => word * (window - 1 + rng.below(4)),
            3 => word * (1 + rng.below(3 * window)),
            4 => 2 * (1 + rng.below(4 * window)),
            _ => word * (1 + rng.below(4)),
        };
    }
    list
}

/// The same near the end of the address space.
#[test]
fn lists_at_the_top() {
    let mut rng = Rng::new(22);
    for _ in 0..500 {
        for class in [4u32, 8] {
            let end = (1u128 << (8 * class)) - class as u128;
            let mut list = random_list(&mut rng, class);
            let Some(last) = list.last().copied() else { continue };
            let shift = end as u64 - last - 2 * rng.below(4);
            for offset in &mut list {
                *offset += shift;
            }
            check(class, &list);
        }
    }
}

/// Every list of offsets out of a few places around the ends of the windows.
#[test]
fn all_lists_of_a_few_places() {
    for class in [4u64, 8] {
        let reach = class * (8 * class - 1);
        let near = [0, 2, class, class + 2, 2 * class];
        let first = [reach, reach + 2, reach + class];
        let second = [2 * reach, 2 * reach + class, 2 * reach + 2 * class];
        let places = [&near[..], &first, &second].concat();
        for chosen in 0..1u32 << places.len() {
            let bit = |k: &usize| chosen >> k & 1 == 1;
            let list: Vec<u64> = (0..places.len()).filter(bit).map(|k| places[k]).collect();
            check(class as u32, &list);
        }
    }
}

/// Random tables that decode to a strictly increasing list are never shorter
/// than the table written of that list.
#[test]
fn random_tables_are_not_shorter() {
    let mut rng = Rng::new(23);
    let mut seen = 0;
    for _ in 0..40_000 {
        let class = rng.pick(&[4u32, 8]);
        let order = rng.pick(&[Little, Big]);
        let words = random_words(&mut rng, class);
        let mut table = relr_bytes(class, &words);
        if order == Big {
            table = turned(class, &table);
        }
        let mut list = vec![0; 999];
        let answer = relr_read(class, order, &table, &mut list);
        list.truncate(answer.count as usize);
        if answer.number == 0 && list.is_sorted_by(|a, b| a < b) {
            assert!(written_words(class, order, &list) <= words.len(), "{words:x?}");
            seen += 1;
        }
    }
    assert!(seen > 5_000);
}

fn random_words(rng: &mut Rng, class: u32) -> Vec<u64> {
    let mut words = vec![2 * rng.below(16)];
    for k in 0..rng.below(6) {
        let word = match rng.below(5) {
            0 => 1,
            1 => (1 << rng.below(8 * class as u64)) | 1,
            2 => rng.draw() | 1,
            3 => (rng.draw() & rng.draw() & rng.draw()) | 1,
            _ => 2 * (16 + rng.below(300) * (1 + k)),
        };
        words.push(word);
    }
    words
}
