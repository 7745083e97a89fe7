//! Reads report lines from standard input and writes the report to standard output.

#![forbid(unsafe_code)]

use std::io::{stdin, stdout};

fn main() {
    // A closed output ends the program; its exit status is 0 in every case.
    let _ = plain::report::run(stdin().lock(), stdout().lock());
}
