//! Links the archive of the probe functions, unless the oracle answers in its place.

use std::env;

fn main() {
    println!("cargo:rerun-if-changed=build.rs");
    if env::var_os("CARGO_FEATURE_SELF_TEST").is_none() {
        tools::link("test_probe", None);
    }
}
