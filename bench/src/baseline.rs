//! The calls of the Rust program with the same checks.

pub use crate::apa1::{apa1_read, apa1_write};
pub use crate::apr1::{apr1_read, apr1_write};
pub use crate::relleb::{relleb_read, relleb_write};
pub use crate::relr::{relr_apply, relr_read, relr_write};
pub use reloc::ByteOrder;
