//! Cases again with a setting of their call on: RELR's with big-endian words, and
//! the reads of LEB128 numbers strictly. No call takes both settings.

use super::Named;
use super::calls::{Call, RELR_READ, Setting, Shape};
use super::case::Case;
use super::tables::turned;

/// What a twin's name ends with, by the setting that is on.
const ENDINGS: [(Setting, &str); 2] =
    [(Setting::Order, ", big-endian"), (Setting::Strict, ", strict")];

/// What the names of a call's twins end with; nothing where it has none.
pub fn ending(call: &Call) -> Option<&'static str> {
    let taken = ENDINGS.iter().find(|(setting, _)| call.takes(*setting));
    taken.map(|(_, ending)| *ending)
}

/// The twin of a case; none where the call takes neither setting. A big-endian one
/// has the words of its table and of its image turned, so that it means the same. A
/// strict one has the same table, and may be refused where the case isn't.
pub fn twin(case: &Case) -> Option<Case> {
    let twin = table_twin(case)?;
    Some(match case.call().shape {
        Shape::Apply => Case { bytes: turned_image(case), ..twin },
        _ => twin,
    })
}

/// The twin of a case whose image is the same in both orders.
pub fn table_twin(case: &Case) -> Option<Case> {
    assert!(!case.is_twin(), "a twin has none");
    if case.call().takes(Setting::Strict) {
        return Some(Case { strict: true, ..case.clone() });
    }
    if !case.call().takes(Setting::Order) {
        return None;
    }
    let input = turned(case.class, &case.input);
    Some(Case { big: true, input, ..case.clone() })
}

/// A twin with its name.
pub fn named(name: &str, case: &Case) -> Option<Named> {
    let ending = ending(case.call())?;
    Some(Named { name: format!("{name}{ending}"), case: twin(case)? })
}

/// Cases with their twins behind them.
pub fn with_twins(mut cases: Vec<Named>) -> Vec<Named> {
    let twin = |case: &Named| named(&case.name, &case.case);
    let twins: Vec<Named> = cases.iter().filter_map(twin).collect();
    cases.extend(twins);
    cases
}

/// The image with each word turned that the call changes. It stays as it is where
/// such words overlap: turned one by one, they would spoil each other.
fn turned_image(case: &Case) -> Vec<u8> {
    let mut image = case.bytes.clone();
    for offset in changed(case).unwrap_or_default() {
        let at = (offset - case.start) as usize;
        image[at..at + case.class as usize].reverse();
    }
    image
}

/// The offsets of the words that an apply changes, each once; nothing where two of
/// them overlap.
pub fn changed(case: &Case) -> Option<Vec<u64>> {
    let (answer, _) = case.run();
    if answer.number != 0 {
        return Some(Vec::new());
    }
    let read = Case::read_into(RELR_READ, case.class, &case.input, answer.count as usize);
    let mut list = read.run().1.offsets;
    list.sort();
    list.dedup();
    let apart = list.windows(2).all(|pair| pair[1] - pair[0] >= case.class as u64);
    apart.then_some(list)
}
