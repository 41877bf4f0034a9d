//! The same calls by several programs, for measuring: the library, a Rust program with the same
//! checks, and a C program without any; these two go through bitmaps in two ways.

#![deny(unsafe_code)]

mod apa1;
mod apr1;
pub mod baseline;
pub mod bits;
mod leb;
pub mod limits;
pub mod measure;
#[allow(unsafe_code)]
mod plain;
#[allow(unsafe_code)]
pub mod programs;
mod refusal;
mod relleb;
mod relr;
pub mod rows;
pub mod setting;
mod word;
