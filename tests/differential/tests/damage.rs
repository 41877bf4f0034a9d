//! The library's own tables, damaged once.

use differential::by_reference;
use differential::damage::{DAMAGES, Damage};
use differential::generate::{self, Made};
use reference::corpus::calls::{APA1_READ, APR1_READ, RELLEB_READ, RELR_APPLY, RELR_READ};
use reference::corpus::rng::Rng;
use std::collections::HashSet;

/// The calls that take tables, with their classes, and whether words are big-endian
/// or the reading is strict.
const READERS: [(u8, u32, bool); 16] = [
    (RELR_READ, 4, false),
    (RELR_READ, 4, true),
    (RELR_READ, 8, false),
    (RELR_READ, 8, true),
    (RELR_APPLY, 4, false),
    (RELR_APPLY, 4, true),
    (RELR_APPLY, 8, false),
    (RELR_APPLY, 8, true),
    (APR1_READ, 0, false),
    (APR1_READ, 0, true),
    (APA1_READ, 0, false),
    (APA1_READ, 0, true),
    (RELLEB_READ, 4, false),
    (RELLEB_READ, 4, true),
    (RELLEB_READ, 8, false),
    (RELLEB_READ, 8, true),
];

fn without(bytes: &[u8], at: usize) -> Vec<u8> {
    [&bytes[..at], &bytes[at + 1..]].concat()
}

/// The places where a table differs from the whole one, if it is damaged so and
/// not otherwise.
fn places(damage: Damage, whole: &[u8], table: &[u8]) -> Vec<usize> {
    let changed = |at: &usize| whole[*at] != table[*at];
    match damage {
        Damage::Bit | Damage::Byte => {
            assert_eq!(whole.len(), table.len());
            let places: Vec<usize> = (0..whole.len()).filter(changed).collect();
            let bits = (whole[places[0]] ^ table[places[0]]).count_ones();
            assert!(places.len() == 1 && (bits == 1 || damage == Damage::Byte));
            places
        }
        Damage::Less => (0..whole.len()).filter(|at| without(whole, *at) == table).collect(),
        Damage::More => (0..table.len()).filter(|at| without(table, *at) == whole).collect(),
    }
}

/// A damage is exactly what its name says, and meets every place.
#[test]
fn one_damage() {
    let mut rng = Rng::new(1);
    let whole = [0x00, 0x11, 0x22, 0x33];
    for (index, (damage, name)) in DAMAGES.into_iter().enumerate() {
        assert_eq!(damage as usize, index);
        let mut met = HashSet::new();
        for _ in 0..200 {
            let mut table = whole.to_vec();
            damage.strike(&mut rng, &mut table);
            let places = places(damage, &whole, &table);
            assert!(!places.is_empty(), "{name}: {table:02x?}");
            met.extend(places);
        }
        assert_eq!(met.len(), whole.len() + (damage == Damage::More) as usize, "{name}");
    }
}

/// Every call that takes tables meets each damage in each class, byte order and
/// setting, and each damage leaves some tables accepted and some refused; of those
/// that are read strictly too, some with 18.
#[test]
fn every_damage_is_met() {
    let mut rng = Rng::new(1);
    let (mut met, mut padded) = (HashSet::new(), HashSet::new());
    let (mut kept, mut refused) = (HashSet::new(), HashSet::new());
    for _ in 0..20_000 {
        let Made { case, damage: Some(damage), .. } = generate::case(&mut rng) else {
            continue;
        };
        met.insert((damage as usize, (case.call, case.class, case.is_twin())));
        let answer = by_reference(&case).result.map_err(|refusal| refusal.number);
        // 9, 12 and 15 do not refuse the table.
        match answer {
            Ok(_) | Err(9 | 12) => kept.insert((damage as usize, case.strict)),
            Err(15) => false,
            Err(_) => refused.insert((damage as usize, case.strict)),
        };
        if answer == Err(18) {
            padded.insert(damage as usize);
        }
    }
    let readers = |damage| READERS.map(|reader| (damage, reader));
    assert_eq!(met, (0..DAMAGES.len()).flat_map(readers).collect());
    assert_eq!((kept.len(), refused.len()), (2 * DAMAGES.len(), 2 * DAMAGES.len()));
    assert_eq!(padded.len(), DAMAGES.len());
}
