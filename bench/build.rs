//! With the feature `parser`, links the host of libusbredirparser.

use std::env;
use std::path::PathBuf;
use std::process::Command;

fn main() {
    if env::var_os("CARGO_FEATURE_PARSER").is_some() {
        link_parser();
    }
}

fn link_parser() {
    let out = PathBuf::from(env::var_os("OUT_DIR").expect("set by cargo"));
    println!("cargo:rerun-if-changed=src/parser.c");
    let object = out.join("parser.o");
    run(Command::new("cc")
        .args(["-O3", "-Wall", "-Wextra", "-c", "src/parser.c", "-o"])
        .arg(&object));
    run(Command::new("ar")
        .arg("crs")
        .arg(out.join("libhost.a"))
        .arg(&object));
    println!("cargo:rustc-link-search=native={}", out.display());
    println!("cargo:rustc-link-lib=static=host");
    println!("cargo:rustc-link-lib=usbredirparser");
}

fn run(command: &mut Command) {
    let status = command.status().expect("the command runs");
    assert!(status.success(), "{command:?}: {status}");
}
