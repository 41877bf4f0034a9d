//! The words of a class, `u32` for class 4 and `u64` for class 8, in a byte order.

use std::marker::PhantomData;

/// What a class and an order give their tables.
pub trait Word {
    /// A word's bytes.
    type Bytes: AsRef<[u8]> + AsMut<[u8]> + Copy + Default;
    /// The words with the low byte first.
    type Low: Word<Bytes = Self::Bytes>;
    /// A word's size.
    const BYTES: usize;
    /// A word's width.
    const BITS: u32 = 8 * Self::BYTES as u32;
    /// The largest word.
    const TOP: u64 = u64::MAX >> (64 - Self::BITS);
    /// The largest offset whose whole word is inside the space.
    const LAST: u64 = Self::TOP - (Self::BYTES as u64 - 1);
    /// The distance from a word to the next.
    const STEP: u64 = Self::BYTES as u64;
    /// The locations of a bitmap.
    const WINDOW: u64 = Self::BITS as u64 - 1;

    /// The word in so many bytes.
    fn load(bytes: &[u8]) -> u64;
    /// Puts a word, wrapped, in so many bytes.
    fn store(word: u64, bytes: &mut [u8]);
    /// The 64 words from a place on, if there are so many: no window is longer.
    fn window(bytes: &mut [u8], place: usize) -> Option<&mut [Self::Bytes; 64]>;
    /// A sum wrapped at the width.
    fn wrap(sum: u64) -> u64;
    /// A sum wrapped at the width and read as a signed number.
    fn signed(sum: u64) -> i64;
}

/// The words of an unsigned type, with the high byte first or the low one.
pub struct Words<T, const BIG: bool>(PhantomData<T>);

/// Words with the low byte first.
pub type Little<T> = Words<T, false>;

/// Words with the high byte first.
pub type Big<T> = Words<T, true>;

/// The words of an unsigned type and the signed type of its width.
macro_rules! word {
    ($unsigned:ty, $signed:ty) => {
        impl<const BIG: bool> Word for Words<$unsigned, BIG> {
            type Bytes = [u8; size_of::<$unsigned>()];
            type Low = Little<$unsigned>;

            const BYTES: usize = size_of::<$unsigned>();

            fn load(bytes: &[u8]) -> u64 {
                let word = <$unsigned>::from_le_bytes(bytes.try_into().unwrap());
                (if BIG { word.swap_bytes() } else { word }) as u64
            }

            fn store(word: u64, bytes: &mut [u8]) {
                let word = word as $unsigned;
                let word = if BIG { word.swap_bytes() } else { word };
                bytes.copy_from_slice(&word.to_le_bytes());
            }

            fn window(bytes: &mut [u8], place: usize) -> Option<&mut [Self::Bytes; 64]> {
                bytes.get_mut(place..)?.as_chunks_mut().0.first_chunk_mut()
            }

            fn wrap(sum: u64) -> u64 {
                sum as $unsigned as u64
            }

            fn signed(sum: u64) -> i64 {
                sum as $signed as i64
            }
        }
    };
}

word!(u32, i32);
word!(u64, i64);

/// A call with the words of its class in a byte order, or refusal 1: in a way through bitmaps, or
/// by a setting. RELLEB has no words in its tables, and either order will do.
macro_rules! by_class {
    ($class:expr, $order:ident, $call:ident$(<$way:tt>)?($($argument:expr),*)) => {
        match $class {
            4 => $call::<$crate::word::$order<u32> $(, $way)?>($($argument),*),
            8 => $call::<$crate::word::$order<u64> $(, $way)?>($($argument),*),
            _ => $crate::refusal::refuse($crate::refusal::CLASS, 0),
        }
    };
}
pub(crate) use by_class;

/// The same, with the order as a value.
macro_rules! by_word {
    ($class:expr, $order:expr, $($call:tt)*) => {
        match $order {
            reloc::ByteOrder::Little => $crate::word::by_class!($class, Little, $($call)*),
            reloc::ByteOrder::Big => $crate::word::by_class!($class, Big, $($call)*),
        }
    };
}
pub(crate) use by_word;
