//! Links liblineup.a from the folder LINEUP_LIB, or from the one of lineup.h.
use std::path::PathBuf;

fn main() {
    let here = PathBuf::from(std::env::var("CARGO_MANIFEST_DIR").unwrap());
    let folder = std::env::var("LINEUP_LIB").map_or(here.join("../.."), PathBuf::from);
    println!("cargo:rerun-if-env-changed=LINEUP_LIB");
    println!("cargo:rerun-if-changed={}", folder.join("liblineup.a").display());
    println!("cargo:rustc-link-search=native={}", folder.display());
    println!("cargo:rustc-link-lib=static=lineup");
}
