//! LEB128 numbers.

use reference::corpus::rng::Rng;
use reference::corpus::tables::{number, padded};
use reference::leb::{self, Kind, Kind::Signed, Kind::Unsigned};
use reference::published::EXAMPLES;
use reference::{Answer, LAX, STRICT};

const KINDS: [Kind; 6] =
    [Unsigned(32), Signed(32), Unsigned(33), Signed(33), Unsigned(64), Signed(64)];

fn refused(number: u32, place: u64) -> Result<(i128, usize), Answer> {
    Err(Answer { number, place, count: 0 })
}

/// The published examples, at every width.
#[test]
fn published_examples() {
    for (kind, value, bytes) in EXAMPLES {
        for same in KINDS.into_iter().filter(|other| other.signed() == kind.signed()) {
            assert_eq!(number(same, value), bytes);
            for strict in [LAX, STRICT] {
                assert_eq!(leb::read_by(strict, bytes, 0, same), Ok((value, bytes.len())));
            }
        }
    }
}

/// The value of bytes taken as one number, of whatever width.
fn value_of(kind: Kind, bytes: &[u8]) -> i128 {
    let mut value = 0i128;
    for byte in bytes.iter().rev() {
        value = value * 128 + (byte % 128) as i128;
    }
    let negative = kind.signed() && bytes[bytes.len() - 1] % 128 >= 64;
    if negative { value - 128i128.pow(bytes.len() as u32) } else { value }
}

fn within(kind: Kind, value: i128) -> bool {
    match kind {
        Unsigned(width) => (0..1 << width).contains(&value),
        Signed(width) => (-(1 << (width - 1))..1 << (width - 1)).contains(&value),
    }
}

/// The table of last bytes says the same as the ends of the width, at every
/// byte, whatever stands before.
#[test]
fn last_byte_at_every_value() {
    let mut rng = Rng::new(1);
    for kind in KINDS {
        for byte in 0..=255u8 {
            for fill in [0x80, 0xFF, rng.draw() as u8 | 0x80] {
                let mut bytes = vec![fill; kind.most_bytes()];
                *bytes.last_mut().unwrap() = byte;
                let value = value_of(kind, &bytes);
                let good = byte < 128 && within(kind, value);
                assert_eq!(leb::last_byte_allowed(kind, byte), good);
                let last = bytes.len() as u64 - 1;
                let want = if good { Ok((value, bytes.len())) } else { refused(5, last) };
                assert_eq!(leb::read(&bytes, 0, kind), want);
            }
        }
    }
}

#[test]
fn most_bytes() {
    let most: Vec<usize> = KINDS.iter().map(|kind| kind.most_bytes()).collect();
    assert_eq!(most, [5, 5, 5, 5, 10, 10]);
}

#[test]
fn missing_bytes() {
    for kind in KINDS {
        for length in 0..kind.most_bytes() {
            let bytes = vec![0x80; length];
            assert_eq!(leb::read(&bytes, 0, kind), refused(4, length as u64));
        }
        assert_eq!(leb::read(&[0, 0], 2, kind), refused(4, 2));
        assert_eq!(leb::read(&[0, 0], 9, kind), refused(4, 2));
    }
}

#[test]
fn place_and_next_place() {
    let bytes = [9, 9, 0x80, 0x80, 0x80, 0x80, 0x10, 9];
    assert_eq!(leb::read(&bytes, 2, Unsigned(32)), refused(5, 6));
    assert_eq!(leb::read(&bytes, 1, Unsigned(32)), Ok((9, 2)));
    assert_eq!(leb::read(&bytes, 2, Unsigned(64)), Ok((1 << 32, 7)));
}

/// Padding inside the allowed length changes nothing; writing is shortest.
#[test]
fn padding_and_shortest() {
    let mut rng = Rng::new(2);
    for _ in 0..2_000 {
        for kind in KINDS {
            let value = any(&mut rng, kind);
            let short = number(kind, value);
            assert_eq!(leb::read(&short, 0, kind), Ok((value, short.len())));
            let long = padded(kind, value, rng.index(10));
            assert_eq!(leb::read(&long, 0, kind), Ok((value, long.len())));
            if short.len() > 1 {
                let mut cut = short[..short.len() - 1].to_vec();
                *cut.last_mut().unwrap() &= 0x7F;
                assert_ne!(value_of(kind, &cut), value);
            }
        }
    }
}

/// Whether a number has a shorter form: it has the same value without its last
/// byte.
fn has_shorter(kind: Kind, bytes: &[u8]) -> bool {
    bytes.len() > 1 && value_of(kind, bytes) == value_of(kind, &bytes[..bytes.len() - 1])
}

/// Strict reading answers as lax reading does, but that a number which has a shorter
/// form is 18 at its first byte.
fn strictly(kind: Kind, bytes: &[u8]) {
    let table = [&[7, 0x87, 0x80], bytes].concat();
    let lax = leb::read(&table, 3, kind);
    assert_eq!(leb::read_by(LAX, &table, 3, kind), lax);
    let want = match lax {
        Ok((_, next)) if has_shorter(kind, &table[3..next]) => refused(18, 3),
        lax => lax,
    };
    assert_eq!(leb::read_by(STRICT, &table, 3, kind), want, "{kind:?} {bytes:02x?}");
}

#[test]
fn strict_numbers() {
    let mut rng = Rng::new(3);
    for kind in KINDS {
        for [first, second] in (0..=u16::MAX).map(u16::to_le_bytes) {
            strictly(kind, &[first, second]);
        }
        for _ in 0..5_000 {
            let value = any(&mut rng, kind);
            let mut bytes = padded(kind, value, rng.index(10));
            strictly(kind, &bytes);
            let at = rng.index(bytes.len());
            bytes[at] ^= 1 << rng.below(8);
            strictly(kind, &bytes);
            bytes.truncate(at);
            strictly(kind, &bytes);
        }
    }
}

/// The shortest form is accepted, and every longer one is 18.
#[test]
fn strict_lengths() {
    let mut rng = Rng::new(4);
    for _ in 0..1_000 {
        for kind in KINDS {
            let value = any(&mut rng, kind);
            let short = number(kind, value).len();
            for length in short..=kind.most_bytes() {
                let bytes = padded(kind, value, length - short);
                assert_eq!(bytes.len(), length);
                let want = if length == short { Ok((value, length)) } else { refused(18, 0) };
                assert_eq!(leb::read_by(STRICT, &bytes, 0, kind), want);
            }
        }
    }
}

/// A value of the kind, of any size and sign.
fn any(rng: &mut Rng, kind: Kind) -> i128 {
    let size = rng.any_size() as i128;
    match kind {
        Unsigned(width) => size % (1 << width),
        Signed(width) => size % (1 << width) - (1 << (width - 1)),
    }
}
