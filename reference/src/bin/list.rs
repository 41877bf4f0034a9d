//! The listing program: standard input to standard output.

use std::io::{Read, Write, stdin, stdout};

fn main() {
    let mut input = Vec::new();
    stdin().read_to_end(&mut input).expect("input can be read");
    let text = reference::list(&input);
    stdout().write_all(text.as_bytes()).expect("output can be written");
}
