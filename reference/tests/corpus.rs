//! The corpus and its format.

use reference::corpus::calls::{
    APA1_READ, APA1_WRITE, APR1_READ, APR1_WRITE, CALLS, Call, NUMBERS, RELLEB_READ, RELLEB_WRITE,
    RELR_APPLY, RELR_READ, RELR_WRITE, Setting, Shape,
};
use reference::corpus::case::{Case, decode, fnv1a};
use reference::corpus::tables::turned;
use reference::corpus::twin::{changed, ending, twin};
use reference::corpus::{Named, all, hand, long, pairs};
use reference::leb::Kind::{self, Signed, Unsigned};
use reference::published;
use std::panic::catch_unwind;

fn decoding_gives_back(cases: &[Named], most: usize) {
    let mut file = Vec::new();
    for named in cases {
        named.case.encode(&mut file);
    }
    assert!(file.len() < most);
    let decoded = decode(&file);
    assert_eq!(decoded.len(), cases.len());
    for (got, want) in decoded.iter().zip(cases) {
        assert!(got == &want.case, "{}", want.name);
    }
}

#[test]
fn decoding_gives_the_cases_back() {
    decoding_gives_back(&all(), 1_600_000);
    for named in long::cases() {
        decoding_gives_back(&[named], 64);
    }
}

/// Crate `vectors` has room for so much of a case.
#[test]
fn every_case_fits() {
    for Named { name, case } in all() {
        let entries = [&case.types[..], &case.symbols].map(<[u32]>::len);
        assert!(case.input.len().max(case.bytes.len()) <= 8_192, "{name}");
        assert!(case.offsets.len() <= 20_000, "{name}");
        assert!(entries.into_iter().chain([case.addends.len()]).all(|n| n <= 1_024), "{name}");
    }
}

/// The calls whose cases have twins: those of RELR in both byte orders, the reads of
/// LEB128 numbers in both settings.
#[test]
fn endings() {
    let numbers = [APR1_READ, APA1_READ, RELLEB_READ];
    for code in 0..CALLS.len() as u8 {
        let want = match code {
            RELR_READ | RELR_WRITE | RELR_APPLY => Some(", big-endian"),
            _ if numbers.contains(&code) => Some(", strict"),
            _ => None,
        };
        let call = Call::of(code);
        assert_eq!(ending(call), want, "{}", call.name);
        assert!(!(call.takes(Setting::Order) && call.takes(Setting::Strict)), "{}", call.name);
    }
}

/// Each case of such a call has its twin, in the order of the cases.
#[test]
fn every_case_has_its_twin() {
    let paired = |named: &Named| ending(named.case.call()).is_some();
    let (twins, firsts): (Vec<Named>, Vec<Named>) =
        all().into_iter().filter(paired).partition(|named| named.case.is_twin());
    assert_eq!(firsts.len(), twins.len());
    for (first, other) in firsts.iter().zip(twins) {
        assert_eq!(other.name, format!("{}{}", first.name, ending(first.case.call()).unwrap()));
        assert!(Some(other.case) == twin(&first.case), "{}", other.name);
    }
}

/// A big-endian twin has the same answer, and leaves the same columns, the same
/// words of a table and, where none overlap, the same words of an image.
#[test]
fn a_twin_means_the_same() {
    let mut images = 0;
    let ordered = |named: &&Named| named.case.call().takes(Setting::Order) && !named.case.big;
    for named in all().iter().filter(ordered) {
        let big = twin(&named.case).unwrap();
        let ((answer, after), (same, big_after)) = (named.case.run(), big.run());
        assert_eq!(same, answer, "{}", named.name);
        assert!(big_after.offsets == after.offsets, "{}", named.name);
        let done = if answer.number == 0 { answer.count as usize } else { 0 };
        match named.case.call().shape {
            Shape::Write => {
                let (table, rest) = after.bytes.split_at(done);
                let table = turned(named.case.class, table);
                assert!(big_after.bytes == [&table, rest].concat(), "{}", named.name);
            }
            Shape::Apply if done > 0 && changed(&named.case).is_some() => {
                assert!(twin(&after).unwrap().bytes == big_after.bytes, "{}", named.name);
                images += 1;
            }
            _ => {}
        }
    }
    assert!(images > 100, "{images}");
}

/// The calls, each with what it can be told of strictness.
fn calls() -> impl Iterator<Item = (usize, &'static Call, bool)> {
    let told = |(code, call): (usize, &'static Call)| {
        call.strictness().iter().map(move |strict| (code, call, *strict))
    };
    CALLS.iter().enumerate().flat_map(told)
}

/// Each call refuses a long input or list with 2, and answers otherwise at the
/// limit; one that takes a class does so in both classes, one that takes the byte
/// order in both orders, one that takes the strict setting in both settings.
#[test]
fn every_call_has_its_limit() {
    let counts = pairs::counts(long::cases());
    for (code, call, strict) in calls() {
        let row = counts[code][strict as usize];
        let twice = |setting| if call.takes(setting) { 2 } else { 1 };
        assert_eq!(row[2], twice(Setting::Class) * twice(Setting::Order), "{}", call.name);
        assert_eq!(row.iter().sum::<usize>(), 2 * row[2]);
    }
}

/// Each allowed pair but those of 2 has a hand-made case and no other pair has
/// any case at all; in each setting of strictness.
#[test]
fn every_allowed_pair_is_there() {
    let by_hand = pairs::counts(hand::cases());
    let counts = pairs::counts(all());
    for (code, call, strict) in calls() {
        for number in 1..NUMBERS {
            let allowed = call.allows(strict, number as u32) && number != 2;
            let [by_hand, all] =
                [&by_hand, &counts].map(|counts| counts[code][strict as usize][number]);
            assert_eq!(by_hand > 0, allowed, "{} {number}, strict {strict}", call.name);
            assert_eq!(all > 0, allowed, "{} {number}, strict {strict}", call.name);
        }
    }
}

/// 18 and 19 are strict alone, 18 of each read of LEB128 numbers and 19 of RELLEB.
#[test]
fn strict_refusals() {
    for (code, call, strict) in calls() {
        let reads = [APR1_READ, APA1_READ, RELLEB_READ].contains(&(code as u8));
        let relleb = code == RELLEB_READ as usize;
        assert_eq!(call.allows(strict, 18), strict && reads, "{}", call.name);
        assert_eq!(call.allows(strict, 19), strict && relleb, "{}", call.name);
        assert_eq!(call.strictness().len(), if reads { 2 } else { 1 }, "{}", call.name);
    }
}

/// The bytes before a number of a table, and the number's kind.
type Field = (Vec<u8>, Kind);

/// The numbers of the tables that a call reads, each with the class.
fn fields() -> Vec<(u8, u32, Field)> {
    let apr1 = [&b"APR1"[..], b"APR1\x00", b"APR1\x01\x00", b"APR1\x01\x00\x01"];
    let apa1 = [&b"APA1"[..], b"APA1\x01", b"APA1\x01\x00"];
    let mut fields = Vec::new();
    fields.extend(apr1.map(|before| (APR1_READ, 0, (before.to_vec(), Unsigned(32)))));
    fields.extend(apa1.map(|before| (APA1_READ, 0, (before.to_vec(), Signed(64)))));
    for class in [4, 8] {
        let kinds = [Unsigned(64), Unsigned(8 * class), Signed(32), Signed(33), Signed(8 * class)];
        // -1 in the symbol's place lets an addend follow
        let record = [1, 0, 0, 0x7F];
        for (length, kind) in kinds.into_iter().enumerate() {
            fields.push((RELLEB_READ, class, (record[..length].to_vec(), kind)));
        }
    }
    fields
}

/// A number in all its allowed bytes, outside its width: the last has its top
/// bit set; the value is too large; a signed one is too small.
fn outside(kind: Kind) -> Vec<Vec<u8>> {
    let form = |fill: u8, last: u8| [vec![fill; kind.most_bytes() - 1], vec![last]].concat();
    let left = kind.width() - 7 * (kind.most_bytes() as u32 - 1);
    let mut ways = vec![form(0x80, 0x80)];
    if kind.signed() {
        ways.push(form(0x80, 1 << (left - 1)));
        ways.push(form(0xFF, 0x7F - (1 << (left - 1))));
    } else {
        ways.push(form(0x80, 1 << left));
    }
    ways
}

/// Each number of each table, outside its width in each way that there is, has
/// a hand-made case, which refuses it at its last allowed byte.
#[test]
fn every_way_outside_a_width() {
    let hands = hand::all();
    for (call, class, (before, kind)) in fields() {
        let last = before.len() + kind.most_bytes() - 1;
        for number in outside(kind) {
            let table = [&before[..], &number].concat();
            let same = |case: &Case| {
                case.call == call && case.class == class && case.input.starts_with(&table)
            };
            let wants: Vec<_> = hands.iter().filter(|h| same(&h.case)).map(|h| h.want).collect();
            let refused = wants.contains(&(5, last as u64, 0));
            assert!(refused, "{} class {class} {table:02X?}", Call::of(call).name);
        }
    }
}

/// The lengths of a padded number, with each sign that it may have.
fn paddings(kind: Kind) -> Vec<(usize, bool)> {
    let signs = if kind.signed() { &[false, true][..] } else { &[false] };
    let lengths = |minus: &bool| (2..=kind.most_bytes()).zip([*minus; 9]);
    signs.iter().flat_map(lengths).collect()
}

/// The length of the number that some bytes begin with, and whether it is negative.
fn spelled(kind: Kind, bytes: &[u8]) -> Option<(usize, bool)> {
    let last = bytes.iter().position(|byte| byte & 0x80 == 0)?;
    Some((last + 1, kind.signed() && bytes[last] & 0x40 != 0))
}

/// Each number of each table has a hand-made case of each padding that there is, with
/// each sign, which strictly is 18 at its first byte; but a negative count is 5.
#[test]
fn every_padding_of_every_number() {
    let hands = hand::all();
    for (call, class, (before, kind)) in fields() {
        let place = before.len();
        for (length, minus) in paddings(kind) {
            let negative_count = minus && call == APA1_READ && place == 4;
            let want = (if negative_count { 5 } else { 18 }, place as u64, 0);
            let same = |case: &Case| {
                (case.call, case.class, case.strict) == (call, class, true)
                    && case.input.starts_with(&before)
                    && spelled(kind, &case.input[place..]) == Some((length, minus))
            };
            let met = hands.iter().any(|hand| same(&hand.case) && hand.want == want);
            let name = format!("{} class {class} after {before:02X?}", Call::of(call).name);
            assert!(met, "{name}: {length} bytes, negative {minus}");
        }
    }
}

/// An addend difference of zero has a hand-made case in each class, of the first
/// record and of a later one; strictly it is 19, and padded it is 18.
#[test]
fn every_zero_difference() {
    let hands = hand::all();
    let befores = [&[1, 0, 0, 0x7F][..], &[2, 0, 0, 0x7E, 5, 0, 0, 0x7D]];
    for (class, before) in [4, 8].into_iter().flat_map(|class| befores.map(|b| (class, b))) {
        for (zero, number) in [(&[0][..], 19), (&[0x80, 0], 18)] {
            let input = [before, zero].concat();
            let want = (number, before.len() as u64, 0);
            let same = |case: &Case| {
                (case.call, case.class, case.strict) == (RELLEB_READ, class, true)
                    && case.input == input
            };
            let met = hands.iter().any(|hand| same(&hand.case) && hand.want == want);
            assert!(met, "class {class} {input:02X?}");
        }
    }
}

/// A code is the row of its call.
#[test]
fn codes() {
    let codes = [
        (RELR_READ, "relr_read"),
        (RELR_WRITE, "relr_write"),
        (RELR_APPLY, "relr_apply"),
        (APR1_READ, "apr1_read"),
        (APR1_WRITE, "apr1_write"),
        (APA1_READ, "apa1_read"),
        (APA1_WRITE, "apa1_write"),
        (RELLEB_READ, "relleb_read"),
        (RELLEB_WRITE, "relleb_write"),
    ];
    assert_eq!(codes.map(|(_, name)| name)[..], CALLS.iter().map(|c| c.name).collect::<Vec<_>>());
    codes.iter().for_each(|(code, name)| assert_eq!(Call::of(*code).name, *name));
}

/// The page of counts has columns up to the highest number that is allowed,
/// which may be 31.
#[test]
fn page_up_to_the_last_number() {
    let (settings, columns) = (&[Setting::Strict], [false; 4]);
    let call = Call { name: "some", shape: Shape::Read, settings, columns, refusals: &[2, 19, 31] };
    let mut counts = [[0; NUMBERS]; 2];
    counts[0][31] = 5;
    counts[1][19] = 7;
    let table = pairs::table(&[call], &[counts]);
    let lines: Vec<&str> = table.lines().collect();
    assert!(lines[0].ends_with(" 29 | 30 | 31 | all |"));
    assert_eq!(lines[1], format!("|---|{}", "---:|".repeat(33)));
    assert_eq!(lines[2], format!("| some | 0 | · | 0 |{} 5 | 5 |", " · |".repeat(28)));
    let [before, behind] = [16, 11].map(|columns| " · |".repeat(columns));
    assert_eq!(lines[3], format!("| some, strict | 0 | · | 0 |{before} 7 |{behind} 0 | 7 |"));
}

#[test]
fn one_case_byte_by_byte() {
    let case = Case::read_into(RELR_READ, 4, &[1, 2, 3, 4], 5);
    let mut bytes = Vec::new();
    case.encode(&mut bytes);
    let want = [
        &[0u8][..],
        &[4, 0, 0, 0],
        &[0, 0],
        &[0; 8],
        &[0; 8],
        &[4, 0, 0, 0, 1, 2, 3, 4],
        &[5, 0, 0, 0, 0, 0, 0, 0, 0, 0, 0, 0, 0, 0, 0, 0],
        &[0; 4],
    ]
    .concat();
    assert_eq!(bytes, want);
}

/// Cases with each setting set, and with all.
fn with_settings() -> [Case; 5] {
    let case = || Case::write(APR1_WRITE, 0, &[4], 6);
    let apply = Case::apply(8, &[0; 8], u64::MAX - 1, 0, &[7; 9]);
    [
        Case { big: true, ..case() },
        Case { strict: true, ..case() },
        Case { start: u64::MAX, ..case() },
        Case { base: 1 << 63, ..case() },
        Case { big: true, strict: true, start: 0x0123_4567_89AB_CDEF, ..apply },
    ]
}

#[test]
fn settings_are_kept() {
    let mut file = Vec::new();
    with_settings().iter().for_each(|case| case.encode(&mut file));
    assert_eq!(decode(&file), with_settings());
    let mut last = Vec::new();
    with_settings()[4].encode(&mut last);
    assert_eq!(last[..7], [RELR_APPLY, 8, 0, 0, 0, 1, 1]);
    assert_eq!(last[7..15], (u64::MAX - 1).to_le_bytes());
    assert_eq!(last[15..23], 0x0123_4567_89AB_CDEFu64.to_le_bytes());
}

/// No call runs with a setting that it doesn't take.
#[test]
fn settings_are_taken() {
    for case in with_settings() {
        assert!(catch_unwind(|| case.run()).is_err(), "{case:?}");
    }
}

/// What crate `cases` must print is what is written here.
#[test]
fn published_text() {
    assert_eq!(published::text(), include_str!("../../crates/cases/stdout"));
}

/// The published values of 64-bit FNV-1a.
#[test]
fn hash() {
    assert_eq!(fnv1a(b""), 0xCBF2_9CE4_8422_2325);
    assert_eq!(fnv1a(b"a"), 0xAF63_DC4C_8601_EC8C);
    assert_eq!(fnv1a(b"foobar"), 0x8594_4171_F739_67E8);
}
