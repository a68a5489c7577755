//! Links libkoto_lexer.a. KOTO_LEXER_LIB is its folder; without it, that of a package, or else the one where `tools/archive` writes.

use std::path::PathBuf;

fn main() {
    let here = PathBuf::from(env!("CARGO_MANIFEST_DIR"));
    let machine = std::env::var("CARGO_CFG_TARGET_ARCH").expect("cargo names the machine");
    let packed = here.join(format!("../lib/{machine}-linux-gnu"));
    let beside = if packed.is_dir() { packed } else { here.join("../../target/staticlib") };
    let folder = std::env::var_os("KOTO_LEXER_LIB").map_or(beside, PathBuf::from);
    let archive = folder.join("libkoto_lexer.a");
    assert!(archive.is_file(), "{} is missing: `tools/archive` makes it", archive.display());
    println!("cargo:rustc-link-search=native={}", folder.display());
    println!("cargo:rustc-link-lib=static=koto_lexer");
    println!("cargo:rerun-if-changed={}", archive.display());
    println!("cargo:rerun-if-env-changed=KOTO_LEXER_LIB");
}
