//! The ways through the one bits of a bitmap.

use std::num::NonZero;

/// A way from each one bit to the next.
pub trait Bits {
    /// Whether it goes by trailing zeros.
    const ZEROS: bool;
    /// Whether full bitmaps and those with many bits go other ways, where a table is applied.
    const BEST: bool = false;

    /// The places of the one bits, lowest first.
    fn ones(set: u64) -> impl Iterator<Item = u64>;
}

/// Each bit is looked at, up to the highest one.
pub struct BitByBit;

impl Bits for BitByBit {
    const ZEROS: bool = false;

    fn ones(set: u64) -> impl Iterator<Item = u64> {
        (0..u64::BITS as u64 - set.leading_zeros() as u64).filter(move |k| set >> k & 1 == 1)
    }
}

/// The lowest one bit is found by the zeros below it, and taken away.
pub struct TrailingZeros;

impl Bits for TrailingZeros {
    const ZEROS: bool = true;

    fn ones(mut set: u64) -> impl Iterator<Item = u64> {
        std::iter::from_fn(move || {
            let k = NonZero::new(set)?.trailing_zeros() as u64;
            set &= set - 1;
            Some(k)
        })
    }
}

/// By trailing zeros, but where another way is faster.
pub struct BestSteps;

impl Bits for BestSteps {
    const ZEROS: bool = true;
    const BEST: bool = true;

    fn ones(set: u64) -> impl Iterator<Item = u64> {
        TrailingZeros::ones(set)
    }
}
