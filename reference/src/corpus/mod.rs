//! The corpus: calls with the answers expected of them.

pub mod again;
pub mod build;
mod build_lists;
mod build_tables;
pub mod calls;
pub mod case;
pub mod generate;
pub mod hand;
pub mod hand_apa1;
pub mod hand_apr1;
pub mod hand_order;
pub mod hand_padding;
pub mod hand_relleb;
pub mod hand_relr;
pub mod long;
pub mod pairs;
pub mod rng;
pub mod tables;
pub mod twin;
pub mod widest;

use case::Case;

/// A case and what it is there for.
pub struct Named {
    pub name: String,
    pub case: Case,
}

/// The cases of the corpus but the long ones, in the order of the file:
/// hand-made, then swept, then generated, each of them with their twins behind.
pub fn all() -> Vec<Named> {
    let mut cases = hand::cases();
    cases.extend(twin::with_twins(generate::sweeps()));
    cases.extend(twin::with_twins(generate::generated()));
    cases
}
