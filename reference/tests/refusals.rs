//! Refusals: every hand-made case, what stays untouched, and the limits of
//! length.

use reference::ByteOrder::{Big, Little};
use reference::corpus::case::Case;
use reference::corpus::{all, hand};
use reference::{
    Answer, LAX, MOST_INPUT, MOST_LIST, STRICT, apa1_read, apa1_write, apr1_read, apr1_write,
    relleb_read, relleb_write, relr_apply, relr_read, relr_write,
};

fn answer(number: u32, place: u64, count: u64) -> Answer {
    Answer { number, place, count }
}

#[test]
fn hand_made_answers() {
    for hand in hand::all() {
        let (number, place, count) = hand.want;
        assert_eq!(hand.case.run().0, answer(number, place, count), "{}", hand.name);
    }
}

/// "A refusal changes nothing lent, and its count is 0, except that 9 returns
/// the records or bytes needed." "Entries or table bytes beyond the count
/// stay."
#[test]
fn untouched() {
    for named in all() {
        let before = &named.case;
        let (answer, after) = before.run();
        if answer.number != 0 {
            assert_eq!(&after, before, "{}", named.name);
            assert!(answer.count == 0 || answer.number == 9);
            continue;
        }
        assert_eq!(answer.place, 0);
        assert_beyond(before, &after, answer.count as usize);
    }
}

fn assert_beyond(before: &Case, after: &Case, count: usize) {
    assert_eq!(after.input, before.input);
    if before.is_write() {
        assert_eq!(after.bytes[count..], before.bytes[count..]);
        assert_eq!(&Case { bytes: before.bytes.clone(), ..after.clone() }, before);
        return;
    }
    assert_eq!(after.bytes.len(), before.bytes.len());
    assert!(after.offsets.iter().skip(count).eq(before.offsets.iter().skip(count)));
    assert!(after.types.iter().skip(count).eq(before.types.iter().skip(count)));
    assert!(after.symbols.iter().skip(count).eq(before.symbols.iter().skip(count)));
    assert!(after.addends.iter().skip(count).eq(before.addends.iter().skip(count)));
}

/// A table one byte over the limit is 2 before anything in it.
#[test]
fn input_over_its_length() {
    let long = vec![0x80; MOST_INPUT + 1];
    let two = answer(2, 0, 0);
    for order in [Little, Big] {
        let apply = |class, base, start| relr_apply(class, order, &long, base, start, &mut []);
        assert_eq!(relr_read(8, order, &long, &mut []), two);
        assert_eq!(relr_read(4, order, &long, &mut [0; 9]), two);
        assert_eq!(relr_read(5, order, &long, &mut []), answer(1, 0, 0));
        assert_eq!(apply(8, 1 << 40, 0), two);
        assert_eq!(apply(4, 1, 0), two);
        assert_eq!(apply(4, 1 << 40, 0), answer(15, 0, 0));
        assert_eq!(apply(9, 1 << 40, 0), answer(1, 0, 0));
        assert_eq!(apply(4, 1, u64::MAX), two);
        assert_eq!(apply(4, 1 << 40, u64::MAX), answer(15, 0, 0));
    }
    for strict in [LAX, STRICT] {
        assert_eq!(apr1_read(strict, &long, &mut []), two);
        assert_eq!(apa1_read(strict, &long, &mut [0; 2], &mut [0; 2]), two);
        assert_eq!(apa1_read(strict, &long, &mut [0; 2], &mut [0; 3]), answer(11, 0, 0));
        let mut one = [0; 1];
        assert_eq!(relleb_read(4, strict, &long, &mut [], &mut [], &mut [], &mut []), two);
        let uneven = relleb_read(8, strict, &long, &mut [], &mut [], &mut one, &mut []);
        assert_eq!(uneven, answer(11, 0, 0));
        let bad = relleb_read(0, strict, &long, &mut [], &mut [], &mut one, &mut []);
        assert_eq!(bad, answer(1, 0, 0));
    }
}

/// A padded number is 18 in a table at the limit, and behind 2 in one over it.
#[test]
fn padded_and_long() {
    for over in [false, true] {
        let length = MOST_INPUT + over as usize;
        let table = |start: &[u8]| [start, &vec![0; length - start.len()]].concat();
        let want = |place| if over { answer(2, 0, 0) } else { answer(18, place, 0) };
        assert_eq!(apr1_read(STRICT, &table(b"APR1\x80"), &mut []), want(4));
        assert_eq!(apa1_read(STRICT, &table(b"APA1\x80"), &mut [], &mut []), want(4));
        for class in [4, 8] {
            let table = table(b"\x80");
            let read = relleb_read(class, STRICT, &table, &mut [], &mut [], &mut [], &mut []);
            assert_eq!(read, want(0));
        }
    }
}

/// A table at the limit is read.
#[test]
fn input_at_its_length() {
    let full = vec![0; MOST_INPUT];
    for order in [Little, Big] {
        assert_eq!(relr_read(8, order, &full, &mut []), answer(9, 0, MOST_INPUT as u64 / 8));
        assert_eq!(relr_read(4, order, &full, &mut []), answer(9, 0, MOST_INPUT as u64 / 4));
        assert_eq!(relr_apply(4, order, &full, 0, 0, &mut []), answer(12, 0, 0));
        assert_eq!(relr_apply(8, order, &full, 0, 1, &mut [0; 9]), answer(12, 0, 0));
    }
    for strict in [LAX, STRICT] {
        assert_eq!(apr1_read(strict, &full, &mut []), answer(3, 0, 0));
        assert_eq!(apa1_read(strict, &full, &mut [], &mut []), answer(3, 0, 0));
        let answered = relleb_read(8, strict, &full, &mut [], &mut [], &mut [], &mut []);
        assert_eq!(answered, answer(8, 1, 0));
    }
}

/// A list one record over the limit is 2 before anything in it.
#[test]
fn list_over_its_length() {
    let count = MOST_LIST + 1;
    let offsets = vec![u64::MAX; count];
    let (words, addends) = (vec![1; count], vec![i64::MAX; count]);
    let two = answer(2, 0, 0);
    for order in [Little, Big] {
        assert_eq!(relr_write(8, order, &offsets, &mut []), two);
        assert_eq!(relr_write(4, order, &offsets, &mut []), two);
        assert_eq!(relr_write(3, order, &offsets, &mut []), answer(1, 0, 0));
    }
    assert_eq!(apr1_write(&offsets, &mut []), two);
    assert_eq!(apa1_write(&offsets, &addends, &mut []), two);
    assert_eq!(apa1_write(&offsets, &addends[1..], &mut []), answer(11, 0, 0));
    let relleb =
        |class, words: &[u32]| relleb_write(class, &offsets, words, words, &addends, &mut []);
    assert_eq!(relleb(4, &words), two);
    assert_eq!(relleb(8, &words), two);
    assert_eq!(relleb(8, &words[1..]), answer(11, 0, 0));
    assert_eq!(relleb(7, &words[1..]), answer(1, 0, 0));
}

/// A list at the limit is written, and its table can be read.
#[test]
fn list_at_its_length() {
    let count = MOST_LIST;
    let many = count as u64;
    let offsets: Vec<u64> = (0..many).map(|k| 4 * k).collect();
    assert_eq!(relr_write(4, Little, &offsets, &mut []).number, 9);
    assert_eq!(relr_write(4, Big, &offsets, &mut []).number, 9);
    assert_eq!(apr1_write(&offsets, &mut []), answer(9, 0, 4 + 1 + 1 + 4 + 1));
    let zeros = vec![0; count];
    let apa1 = apa1_write(&zeros, &vec![0; count], &mut []);
    assert_eq!(apa1, answer(9, 0, 4 + 4 + 2 * many));
    // Each record of the longest form: 30 bytes.
    let wide: Vec<u64> = (0..many).map(|k| 0u64.wrapping_sub(k + 1)).collect();
    let types: Vec<u32> = (0..many).map(|k| if k % 2 == 0 { 1 << 31 } else { 0 }).collect();
    let addends: Vec<i64> = (0..many).map(|k| if k % 2 == 0 { i64::MIN } else { 0 }).collect();
    let symbols = vec![u32::MAX; count];
    let mut table = vec![0; 30 * count + 10];
    let made = relleb_write(8, &wide, &types, &symbols, &addends, &mut table);
    assert_eq!(made, answer(0, 0, 30 * many + 4));
    let table = &table[..made.count as usize];
    assert!(table.len() <= MOST_INPUT);
    for strict in [LAX, STRICT] {
        let read = relleb_read(8, strict, table, &mut [], &mut [], &mut [], &mut []);
        assert_eq!(read, answer(9, 0, many));
    }
}
