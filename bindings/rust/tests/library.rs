//! The wrapper's version, numbers and limits held to the library's: a number by a
//! call that must be refused with it, a limit by calls at it and one over it.

use reloc::ByteOrder::{Big, Little};
use reloc::{
    INPUT_LIMIT, Kind, LIST_LIMIT, Refusal, VERSION, apa1_read, apa1_write, apr1_read, apr1_write,
    need, relleb_read, relleb_write, relr_apply, relr_read, relr_write, version,
};

type Answer = Result<usize, Refusal>;

fn kind(answer: Answer) -> Option<Kind> {
    answer.err().map(|refusal| refusal.kind())
}

#[test]
fn versions() {
    assert_eq!(version(), VERSION);
    let (major, minor, patch) = (VERSION / 1_000_000, VERSION / 1_000 % 1_000, VERSION % 1_000);
    assert_eq!(format!("{major}.{minor}.{patch}"), env!("CARGO_PKG_VERSION"));
}

#[test]
fn each_number_has_its_name() {
    let refused = [
        (1, Kind::Class, relr_read(5, Little, &[], &mut [])),
        (2, Kind::Limit, apr1_read(false, &vec![0; INPUT_LIMIT + 1], &mut [])),
        (3, Kind::Identifier, apr1_read(false, b"APA1", &mut [])),
        (4, Kind::Missing, relr_read(8, Little, &[0; 4], &mut [])),
        (5, Kind::Width, apa1_read(false, b"APA1\x40", &mut [], &mut [])),
        (6, Kind::Order, relr_read(4, Little, &[1, 0, 0, 0], &mut [])),
        (6, Kind::Order, apr1_write(&[8, 4], &mut [])),
        (7, Kind::Space, relr_read(4, Little, &[0xFE, 0xFF, 0xFF, 0xFF], &mut [])),
        (8, Kind::Trailing, apa1_read(false, b"APA1\0\0", &mut [], &mut [])),
        (9, Kind::Room, relr_read(8, Little, &[0; 8], &mut [])),
        (10, Kind::Odd, relr_write(8, Little, &[1], &mut [])),
        (11, Kind::Columns, apa1_read(false, &[], &mut [0], &mut [])),
        (12, Kind::Outside, relr_apply(8, Little, &[0; 8], 0, 0, &mut [0; 7])),
        (12, Kind::Outside, relr_apply(8, Little, &[0; 8], 0, 1, &mut [0; 16])),
        (13, Kind::Empty, apr1_write(&[], &mut [])),
        (14, Kind::Addend, relleb_write(4, &[0], &[0], &[0], &[1 << 31], &mut [])),
        (15, Kind::Base, relr_apply(4, Little, &[], 1 << 32, 0, &mut [])),
        (18, Kind::Padded, apr1_read(true, b"APR1\x80\0\0", &mut [])),
        (18, Kind::Padded, apa1_read(true, b"APA1\x80\0", &mut [], &mut [])),
        (18, Kind::Padded, relleb(true, &[0x80, 0])),
        (19, Kind::Zero, relleb(true, &[1, 0, 0, 0x7F, 0])),
    ];
    for (number, kind, answer) in refused {
        let refusal = answer.unwrap_err();
        assert_eq!((refusal.number, refusal.kind()), (number, kind));
    }
    for number in [0, 16, 17, 20, u32::MAX] {
        assert_eq!(Refusal { number, place: 0, need: 0 }.kind(), Kind::Unknown);
    }
}

/// A RELLEB read with no room.
fn relleb(strict: bool, table: &[u8]) -> Answer {
    relleb_read(8, strict, table, &mut [], &mut [], &mut [], &mut [])
}

/// Every call with inputs and lists of zeros that are so much over their limits.
fn beyond(over: usize) -> Vec<Answer> {
    let table = vec![0; INPUT_LIMIT + over];
    let (o, t) = (vec![0; LIST_LIMIT + over], vec![0; LIST_LIMIT + over]);
    let a = vec![0; LIST_LIMIT + over];
    vec![
        relr_read(8, Little, &table, &mut []),
        relr_read(8, Big, &table, &mut []),
        relr_apply(8, Little, &table, 0, 0, &mut []),
        relr_apply(8, Big, &table, 0, 0, &mut []),
        apr1_read(false, &table, &mut []),
        apr1_read(true, &table, &mut []),
        apa1_read(false, &table, &mut [], &mut []),
        apa1_read(true, &table, &mut [], &mut []),
        relleb(false, &table),
        relleb(true, &table),
        relr_write(8, Little, &o, &mut []),
        relr_write(8, Big, &o, &mut []),
        apr1_write(&o, &mut []),
        apa1_write(&o, &a, &mut []),
        relleb_write(8, &o, &t, &t, &a, &mut []),
    ]
}

#[test]
fn limits() {
    for answer in beyond(0) {
        assert_ne!(kind(answer), Some(Kind::Limit));
    }
    for answer in beyond(1) {
        assert_eq!(kind(answer), Some(Kind::Limit));
    }
}

#[test]
fn needs() {
    for order in [Little, Big] {
        assert_eq!(need(relr_write(8, order, &[], &mut [])), Ok(0));
        assert_eq!(need(relr_write(8, order, &[8, 16], &mut [])), Ok(16));
    }
    assert_eq!(need(apa1_write(&[], &[], &mut [])), Ok(5));
    assert_eq!(need(apr1_write(&[], &mut [])).map_err(|refusal| refusal.kind()), Err(Kind::Empty));
}
