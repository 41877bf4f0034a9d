//! Writes the corpus into a folder, which is the first argument and the
//! repository without one: what crate `vectors` reads and must print, the long
//! cases, the cases' names, the page of counts, and what crate `cases` must
//! print. FORMAT.md tells the files. They are the same at every run.

use reference::corpus::{Named, all, hand, long, pairs};
use reference::published;
use std::fs;
use std::path::{Path, PathBuf};

fn main() {
    check_answers(hand::all());
    check_answers(long::all());
    let root: PathBuf = std::env::args().nth(1).unwrap_or("..".into()).into();
    write_cases(&root, all(), "crates/vectors/stdin", "crates/vectors/stdout", "names.txt");
    let long = long::cases();
    write_cases(&root, long, &in_corpus("long"), &in_corpus("long.txt"), "long-names.txt");
    write(&root, "docs/CORPUS.md", pairs::markdown().as_bytes());
    write(&root, "crates/cases/stdout", published::text().as_bytes());
}

fn in_corpus(name: &str) -> String {
    format!("reference/corpus/{name}")
}

fn write_cases(
    root: &Path,
    cases: impl IntoIterator<Item = Named>,
    file: &str,
    expected: &str,
    names: &str,
) {
    let (mut bytes, mut lines, mut named) = (Vec::new(), String::new(), String::new());
    for Named { name, case } in cases {
        case.encode(&mut bytes);
        lines += &format!("{}\n", case.line());
        named += &format!("{name}\n");
    }
    write(root, file, &bytes);
    write(root, expected, lines.as_bytes());
    write(root, &in_corpus(names), named.as_bytes());
    println!("{file}: {} cases, {} bytes", lines.lines().count(), bytes.len());
}

fn write(root: &Path, name: &str, contents: &[u8]) {
    let path = root.join(name);
    fs::create_dir_all(path.parent().unwrap()).expect("the folder can be made");
    fs::write(path, contents).expect("the file can be written");
}

/// The answers worked by hand must be the answers of the calls.
fn check_answers(hands: impl IntoIterator<Item = hand::Hand>) {
    for hand in hands {
        let (answer, _) = hand.case.run();
        let got = (answer.number, answer.place, answer.count);
        assert_eq!(got, hand.want, "{}", hand.name);
    }
}
