//! Links the static library of this repository; compare/library builds it.

use std::path::Path;

fn main() {
    let root = Path::new(env!("CARGO_MANIFEST_DIR")).join("../..");
    let folder = root.join("crates/seqtullo/out");
    let archive = folder.join("libseqtullo.a");
    if !archive.exists() {
        panic!("no {}: run compare/library", archive.display());
    }
    println!("cargo:rustc-link-search=native={}", folder.display());
    println!("cargo:rustc-link-lib=static=seqtullo");
    println!("cargo:rerun-if-changed={}", archive.display());
}
