//! Links libreloc.a from the folder that RELOC_LIB_DIR names (an absolute path),
//! or else from the repository's crates/reloc/out.

fn main() {
    println!("cargo::rerun-if-env-changed=RELOC_LIB_DIR");
    let folder = std::env::var("RELOC_LIB_DIR")
        .unwrap_or_else(|_| concat!(env!("CARGO_MANIFEST_DIR"), "/../../crates/reloc/out").into());
    println!("cargo::rerun-if-changed={folder}/libreloc.a");
    println!("cargo::rustc-link-search=native={folder}");
    println!("cargo::rustc-link-lib=static=reloc");
}
