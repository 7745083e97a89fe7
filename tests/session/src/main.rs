//! Tests of the session library: scenarios, captures of real peers, generated sessions.
//!
//! `session [DIRECTORY]`: with a directory, the captures in it are compared with the oracle as well.
//! The environment variable SEED repeats a run of the generated sessions.

mod captures;
mod differential;
mod generate;
mod library;
mod oracle;
mod packets;
mod scenarios;
mod script;

use std::env;
use std::path::Path;
use std::process::ExitCode;

use tools::Report;

fn main() -> ExitCode {
    let seed = tools::seed();
    let mut report = Report::default();
    report.group("scenarios", scenarios::run);
    report.group("captures", captures::run);
    report.group("differential", |report| differential::run(seed, report));
    if let Some(directory) = env::args_os().nth(1) {
        report.group("captures of the directory", |report| {
            captures::run_directory(Path::new(&directory), report)
        });
    }
    report.finish()
}
