//! Compiles plain.c into an archive and links it.

use std::env;
use std::path::{Path, PathBuf};
use std::process::Command;

/// Compiles and links.
fn main() {
    println!("cargo::rerun-if-changed=plain.c");
    let folder = PathBuf::from(env::var("OUT_DIR").expect("OUT_DIR"));
    let (object, archive) = (folder.join("plain.o"), folder.join("libplain.a"));
    let options =
        "-std=c99 -O2 -falign-functions=64 -falign-loops=32 -Wall -Wextra -Werror -c plain.c -o";
    run("cc", &options.split(' ').collect::<Vec<_>>(), &[&object]);
    run("ar", &["crs"], &[&archive, &object]);
    println!("cargo::rustc-link-search=native={}", folder.display());
    println!("cargo::rustc-link-lib=static=plain");
}

/// Runs a command on paths and insists on its success.
fn run(command: &str, options: &[&str], paths: &[&Path]) {
    let status = Command::new(command).args(options).args(paths).status();
    assert!(status.expect(command).success(), "{command} failed");
}
