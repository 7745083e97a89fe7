//! For build scripts: links an archive of proved code.

use std::path::{Path, PathBuf};

/// Links `libNAME.a` of the directory, or else of `target/staticlib`, where `tools/build NAME` puts it.
pub fn link(name: &str, directory: Option<PathBuf>) {
    let usual = || Path::new(env!("CARGO_MANIFEST_DIR")).join("../../target/staticlib");
    let directory = directory.unwrap_or_else(usual);
    let archive = directory.join(format!("lib{name}.a"));
    println!("cargo:rerun-if-changed={}", archive.display());
    assert!(
        archive.exists(),
        "no {}: run `tools/build {name}` first",
        archive.display()
    );
    println!("cargo:rustc-link-search=native={}", directory.display());
    println!("cargo:rustc-link-lib=static={name}");
}
