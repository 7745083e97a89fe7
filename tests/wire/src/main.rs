//! Tests of the wire library: captured packets, marked examples, generated and damaged packets, ignored bits and words,
//! every status byte, packets to be written.
//!
//! `wire [DIRECTORY]`: the directory holds captures with their sidecars; the fixtures beside the manifest if none is given.
//! The environment variable SEED repeats a run of the generated packets.

mod capture;
mod compare;
mod differential;
mod examples;
mod generate;
mod ignored;
mod json;
mod library;
mod oracle;
mod statuses;
mod writer;

use std::env;
use std::path::PathBuf;
use std::process::ExitCode;

use tools::Report;

fn main() -> ExitCode {
    let seed = tools::seed();
    let mut report = Report::default();
    let captured = capture::run(&directory(), &mut report);
    examples::run(&mut report);
    differential::run(seed, &captured, &mut report);
    ignored::run(seed, &mut report);
    statuses::run(seed, &mut report);
    writer::run(seed, &mut report);
    report.finish()
}

fn directory() -> PathBuf {
    match env::args_os().nth(1) {
        Some(directory) => PathBuf::from(directory),
        None => PathBuf::from(env!("CARGO_MANIFEST_DIR")).join("captures"),
    }
}
