//! Links the archives of the proved gate. `DRIVE_DIR` names another directory, say one with archives that are wrong on
//! purpose.

use std::env;
use std::path::PathBuf;

fn main() {
    println!("cargo:rerun-if-env-changed=DRIVE_DIR");
    for name in ["test_drive", "test_drive_by_value", "test_drive_by_entry"] {
        tools::link(name, env::var_os("DRIVE_DIR").map(PathBuf::from));
    }
}
