//! Swept and generated cases.

use super::Named;
use super::build::{Build, need};
use super::calls::{
    APA1_READ, APA1_WRITE, APR1_READ, APR1_WRITE, Call, RELLEB_READ, RELLEB_WRITE, RELR_APPLY,
    RELR_READ, RELR_WRITE,
};
use super::case::Case;
use super::rng::Rng;
use super::tables::{join, relr_bytes};
use crate::leb::Kind::{self, Signed, Unsigned};

const SEED: u64 = 0x5245_4C52_2D32_3031;
const ROUNDS: usize = 330;

/// How many images with a start are drawn.
const STARTS: usize = 120;

/// How many tables of each kind with few padded numbers are drawn.
const SHORTEST: usize = 80;

/// The calls in the order of a round. A further call is drawn behind the rounds:
/// among them it would change every case that follows.
const ORDER: &[u8] = &[
    RELR_READ,
    RELR_APPLY,
    RELR_WRITE,
    APR1_READ,
    APR1_WRITE,
    APA1_READ,
    APA1_WRITE,
    RELLEB_READ,
    RELLEB_WRITE,
];

/// Every value of the last allowed byte, at every width, in the place of a
/// table where that width is used.
pub fn sweeps() -> Vec<Named> {
    let mut cases = Vec::new();
    for byte in 0..=255 {
        let number = |kind: Kind| {
            let mut bytes = vec![0x80; kind.most_bytes()];
            *bytes.last_mut().unwrap() = byte;
            bytes
        };
        let u32s = join(&[b"APR1\x01\x00\x00", &number(Unsigned(32))]);
        let s32 = join(&[&[1, 0], &number(Signed(32)), &[0]]);
        let s33 = join(&[&[1, 0, 0], &number(Signed(33)), &[0]]);
        let u64s = join(&[&[1], &number(Unsigned(64)), &[0, 0]]);
        let s64 = join(&[b"APA1\x01\x00", &number(Signed(64))]);
        let tables = [
            ("unsigned 32", APR1_READ, 0, u32s),
            ("signed 32", RELLEB_READ, 4, s32),
            ("signed 33", RELLEB_READ, 8, s33),
            ("unsigned 64", RELLEB_READ, 8, u64s),
            ("signed 64", APA1_READ, 0, s64),
        ];
        for (kind, call, class, table) in tables {
            let name = format!("{} {kind} last byte {byte}", Call::of(call).name);
            let case = Case::read_into(call, class, &table, 2);
            cases.push(Named { name, case });
        }
    }
    cases
}

/// Generated cases of every call, and a few long ones.
pub fn generated() -> Vec<Named> {
    let mut build = Build { rng: &mut Rng::new(SEED), edges: false, padding: 6 };
    let mut cases = Vec::new();
    for round in 0..ROUNDS {
        let size = 1 + build.rng.index(12);
        one_of_each(&mut build, size, round, &mut cases);
    }
    for round in 0..3 {
        one_of_each(&mut build, 400, ROUNDS + round, &mut cases);
    }
    for class in [4, 8] {
        long_relr(build.rng, class, &mut cases);
    }
    long_apr1(&mut build, &mut cases);
    for round in 0..STARTS {
        let class = build.rng.pick(&[4, 8]);
        let size = 1 + build.rng.index(12);
        let name = format!("relr_apply start, generated {round}");
        cases.push(Named { name, case: build.apply_anywhere(class, size) });
    }
    mostly_shortest(build.rng, &mut cases);
    cases
}

/// A table read with exact room, one short, and with no room.
fn long_reads(call: u8, class: u32, table: &[u8], cases: &mut Vec<Named>) {
    let need = need(&Case::read_into(call, class, table, 0));
    for room in [need, need - 1, 0] {
        let name = format!("{} class {class} long, room {room} of {need}", Call::of(call).name);
        let case = Case::read_into(call, class, table, room);
        cases.push(Named { name, case });
    }
}

/// Some hundred bitmaps in a row, and a list of a thousand offsets written,
/// read and applied.
fn long_relr(rng: &mut Rng, class: u32, cases: &mut Vec<Named>) {
    let mut words = vec![0x40];
    for _ in 0..300 {
        words.push(rng.draw() | 1);
    }
    long_reads(RELR_READ, class, &relr_bytes(class, &words), cases);
    let list: Vec<u64> = (0..1_500).map(|k| 2 * k).filter(|_| rng.once_in(2)).collect();
    let need = need(&Case::write(RELR_WRITE, class, &list, 0));
    let write = Case::write(RELR_WRITE, class, &list, need);
    let table = &write.run().1.bytes;
    long_reads(RELR_READ, class, table, cases);
    let image: Vec<u8> = (0..3_008).map(|_| rng.draw() as u8).collect();
    let apply = Case::apply(class, table, rng.draw() >> 32, 0, &image);
    cases.push(Named { name: format!("relr_apply class {class} long"), case: apply });
    cases.push(Named { name: format!("relr_write class {class} long"), case: write });
}

fn long_apr1(build: &mut Build, cases: &mut Vec<Named>) {
    let mut table = b"APR1\xD8\x04\x00".to_vec();
    for _ in 0..600 {
        let pair = [build.rng.below(6), build.rng.below(300)];
        table.extend(pair.map(|value| build.number(Unsigned(32), value as i128)).concat());
    }
    long_reads(APR1_READ, 0, &table, cases);
}

/// Tables of numbers in their shortest form, but for one in forty where there are any
/// others: a strict reader gets far in them.
fn mostly_shortest(rng: &mut Rng, cases: &mut Vec<Named>) {
    for round in 0..SHORTEST {
        let (class, padding) = (rng.pick(&[4, 8]), rng.pick(&[0, 40]));
        let size = 1 + rng.index(12);
        let mut build = Build { rng, edges: true, padding };
        for call in [APR1_READ, APA1_READ, RELLEB_READ] {
            let name = format!("{} mostly shortest, generated {round}", Call::of(call).name);
            cases.push(Named { name, case: build.case(call, class, size) });
        }
    }
}

fn one_of_each(build: &mut Build, size: usize, round: usize, cases: &mut Vec<Named>) {
    let class = build.rng.pick(&[4, 8]);
    for &call in ORDER {
        let name = format!("{} generated {round}", Call::of(call).name);
        cases.push(Named { name, case: build.case(call, class, size) });
    }
}
