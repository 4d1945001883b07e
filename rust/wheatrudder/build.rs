//! Links the static library that tools/build-library makes; `WHEATRUDDER_LIBRARY` names another folder that has libabi.a.

use std::env;
use std::path::PathBuf;

fn main() {
    let beside = || PathBuf::from(env::var_os("CARGO_MANIFEST_DIR").expect("set by cargo")).join("../../target/native");
    let folder = env::var_os("WHEATRUDDER_LIBRARY").map_or_else(beside, PathBuf::from);
    let archive = folder.join("libabi.a");
    assert!(archive.is_file(), "{} is not there: run tools/build-library", archive.display());
    println!("cargo::rerun-if-env-changed=WHEATRUDDER_LIBRARY");
    println!("cargo::rerun-if-changed={}", archive.display());
    println!("cargo::rustc-link-search=native={}", folder.display());
    println!("cargo::rustc-link-lib=static=abi");
}
