//! Hand-made cases. Each carries the number, place and count that follow from
//! documents 01 and 02 by hand; the generator stops when an answer differs.

use super::Named;
use super::calls::Setting;
use super::case::Case;
use super::{hand_apa1, hand_apr1, hand_order, hand_padding, hand_relleb, hand_relr, twin};

/// Number, place and count.
pub type Want = (u32, u64, u64);

pub struct Hand {
    pub name: String,
    pub case: Case,
    pub want: Want,
    /// What its strict twin answers, where that is another answer.
    strictly: Option<Want>,
}

pub fn hand(name: &str, case: Case, want: Want) -> Hand {
    Hand { name: name.to_string(), case, want, strictly: None }
}

impl Hand {
    /// The case with another answer for its strict twin.
    pub fn strictly(mut self, want: Want) -> Hand {
        assert!(self.case.call().takes(Setting::Strict), "{} has no strict twin", self.name);
        assert_ne!(self.want, want, "{}", self.name);
        self.strictly = Some(want);
        self
    }
}

/// One case per room: enough room succeeds with `need`, less is refusal 9 with
/// `need`.
pub fn rooms(name: &str, need: usize, made: impl Fn(usize) -> Case) -> Vec<Hand> {
    let mut hands = Vec::new();
    let mut tried = vec![0, need.saturating_sub(1), need, need + 1, need + 7];
    tried.dedup();
    for room in tried {
        let number = if room < need { 9 } else { 0 };
        let name = format!("{name}, room {room} of {need}");
        hands.push(hand(&name, made(room), (number, 0, need as u64)));
    }
    hands
}

/// The hand-made cases as cases of the corpus.
pub fn cases() -> Vec<Named> {
    all().into_iter().map(named).collect()
}

/// The twin of a case, which has the same answer unless another is told.
fn twin(made: &Hand) -> Option<Hand> {
    let Named { name, case } = twin::named(&made.name, &made.case)?;
    Some(hand(&name, case, made.strictly.unwrap_or(made.want)))
}

/// A case without its answer.
pub fn named(hand: Hand) -> Named {
    Named { name: hand.name, case: hand.case }
}

pub fn all() -> Vec<Hand> {
    let mut hands = Vec::new();
    hands.extend(hand_relr::all());
    hands.extend(hand_apr1::all());
    hands.extend(hand_apa1::all());
    hands.extend(hand_relleb::all());
    hands.extend(hand_padding::all());
    hands.extend(hand_order::all());
    let twins: Vec<Hand> = hands.iter().filter_map(twin).collect();
    hands.extend(twins);
    hands
}
