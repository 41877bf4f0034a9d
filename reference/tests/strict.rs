//! Strict reading beside lax reading, over the corpus and over random tables.

use reference::corpus::again::{AGAIN, again};
use reference::corpus::all;
use reference::corpus::build::{Build, need};
use reference::corpus::calls::{APA1_READ, APR1_READ, RELLEB_READ, Setting};
use reference::corpus::case::Case;
use reference::corpus::rng::Rng;
use reference::corpus::twin::twin;
use reference::leb::Kind::{self, Signed, Unsigned};
use reference::{LAX, STRICT};

const READS: [(u8, u32); 4] = [(APR1_READ, 0), (APA1_READ, 0), (RELLEB_READ, 4), (RELLEB_READ, 8)];

const ROUNDS: usize = 2_000;

/// A lax read with some padded numbers, or with none.
fn random(rng: &mut Rng, call: u8, class: u32) -> Case {
    let (size, padding) = (1 + rng.index(9), rng.pick(&[0, 6, 40]));
    Build { rng, edges: true, padding }.case(call, class, size)
}

/// A strict read with room, of a random table that it accepts.
fn accepted(rng: &mut Rng, call: u8, class: u32) -> Case {
    loop {
        let case = random(rng, call, class);
        let room = need(&Case::read_into(call, class, &case.input, 0));
        let read = Case { strict: true, ..Case::read_into(call, class, &case.input, room) };
        if read.run().0.number == 0 {
            return read;
        }
    }
}

/// The strict answer is the lax one unless it is 18 or 19, which refuse: so what is
/// accepted strictly is accepted lax, with the same list.
fn beside_lax(lax: &Case) -> u32 {
    let strict = twin(lax).expect("the call takes the strict setting");
    let ((answer, after), (strictly, left)) = (lax.run(), strict.run());
    if [18, 19].contains(&strictly.number) {
        assert!(left == strict && strictly.count == 0, "{lax:02x?}");
    } else {
        assert_eq!(strictly, answer, "{lax:02x?}");
        assert!(left == Case { strict: STRICT, ..after }, "{lax:02x?}");
    }
    strictly.number
}

#[test]
fn the_corpus_beside_lax() {
    for named in all() {
        if named.case.call().takes(Setting::Strict) && named.case.strict == LAX {
            beside_lax(&named.case);
        }
    }
}

#[test]
fn random_tables_beside_lax() {
    let mut rng = Rng::new(21);
    for (call, class) in READS {
        let mut seen = [0; 32];
        (0..ROUNDS).for_each(|_| seen[beside_lax(&random(&mut rng, call, class)) as usize] += 1);
        assert!(seen[0] > ROUNDS / 8 && seen[18] > ROUNDS / 8, "{seen:?}");
        assert!(call != RELLEB_READ || seen[19] > ROUNDS / 40, "{seen:?}");
    }
}

/// The numbers of an accepted table: where each begins and ends, and its kind.
fn numbers(call: u8, class: u32, table: &[u8]) -> Vec<(usize, usize, Kind)> {
    let word = 8 * class;
    let relleb = [Unsigned(64), Unsigned(word), Signed(32), Signed(33), Signed(word)];
    let (mut start, mut field) = (if call == RELLEB_READ { 0 } else { 4 }, 0);
    let mut numbers = Vec::new();
    while start < table.len() {
        let last = start + table[start..].iter().position(|byte| byte & 0x80 == 0).unwrap();
        let kind = match call {
            APR1_READ => Unsigned(32),
            APA1_READ => Signed(64),
            _ => relleb[field],
        };
        numbers.push((start, last + 1, kind));
        // Behind an addend difference, and behind a symbol field that has none,
        // the next record begins.
        let negative = table[last] & 0x40 != 0;
        field = if field == 4 || field == 3 && !negative { 1 } else { field + 1 };
        start = last + 1;
    }
    numbers
}

/// The table with some numbers padded, one at least, and the place of the first of
/// them; nothing where no number was drawn that can be padded.
fn spelled(rng: &mut Rng, call: u8, class: u32, table: &[u8]) -> Option<(Vec<u8>, usize)> {
    let numbers = numbers(call, class, table);
    let (mut spelled, mut first) = (table[..numbers[0].0].to_vec(), None);
    for (start, end, kind) in numbers {
        spelled.extend(&table[start..end]);
        let left = kind.most_bytes() - (end - start);
        if left == 0 || !rng.once_in(4) {
            continue;
        }
        first.get_or_insert(start);
        let fill = if kind.signed() && table[end - 1] & 0x40 != 0 { 0x7F } else { 0 };
        for _ in 0..1 + rng.index(left) {
            *spelled.last_mut().unwrap() |= 0x80;
            spelled.push(fill);
        }
    }
    Some((spelled, first?))
}

/// Another spelling of a table means the same lax, and is refused strictly at the
/// first number that is spelled otherwise.
#[test]
fn another_spelling() {
    let mut rng = Rng::new(22);
    for (call, class) in READS {
        let mut tried = 0;
        while tried < ROUNDS {
            let read = accepted(&mut rng, call, class);
            let Some((input, first)) = spelled(&mut rng, call, class, &read.input) else {
                continue;
            };
            let (answer, after) = read.run();
            let lax = Case { strict: LAX, input: input.clone(), ..read.clone() };
            assert_eq!(lax.run().0, answer, "{input:02x?}");
            assert!(Case { strict: STRICT, input: read.input.clone(), ..lax.run().1 } == after);
            let strict = Case { input, ..read };
            let refused = strict.run().0;
            assert_eq!((refused.number, refused.place), (18, first as u64), "{strict:02x?}");
            tried += 1;
        }
    }
}

/// A table of APA1 or of RELLEB that is accepted strictly is the one that is written
/// from its list.
#[test]
fn written_again() {
    let mut rng = Rng::new(23);
    for (call, class, _) in AGAIN {
        for _ in 0..ROUNDS {
            let read = accepted(&mut rng, call, class);
            let write = again(&read).expect("a list to write");
            let (answer, after) = write.run();
            assert_eq!((answer.number, answer.count), (0, read.input.len() as u64));
            assert!(after.bytes == read.input, "{read:02x?}");
        }
    }
}
