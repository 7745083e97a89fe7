//! Captured traffic of real peers, in report lines.

use std::collections::BTreeMap;
use std::fs;
use std::path::{Path, PathBuf};

use plain::HOLD_SIZE;
use tools::captures;

use crate::script::{Item, Line, Script};

/// Where the captures and their totals lie.
pub fn directory() -> PathBuf {
    Path::new(env!("CARGO_MANIFEST_DIR")).join("captures")
}

/// The captures in order of their names.
pub fn files() -> Vec<PathBuf> {
    let mut files = captures::files(&directory(), "txt").expect("the directory can be listed");
    files.retain(|path| captures::name(path) != "totals");
    files
}

/// A script that offers the lines of a capture as the report program does, and whether the plain
/// session is stopped then.
pub fn script(capture: &Path) -> (Script, bool) {
    let text = fs::read_to_string(capture).expect("a capture can be read");
    let mut script = Script {
        hold_size: HOLD_SIZE,
        fill: 0,
        items: Vec::new(),
    };
    let mut line = Line::new(&script);
    for (from, bytes) in library::pieces(&text) {
        let mut rest = bytes.as_slice();
        while !rest.is_empty() {
            let call = line.call(from, rest);
            script.items.push(Item {
                from,
                piece: rest.to_vec(),
            });
            if matches!(call.number, 2 | 3) {
                break;
            }
            rest = &rest[call.taken as usize..];
        }
    }
    (script, line.session.is_stopped())
}

/// The line of totals for the numbers that a capture was answered with.
pub fn totals(name: &str, numbers: impl Iterator<Item = u8>, stopped: bool) -> String {
    let mut counts: BTreeMap<u8, usize> = BTreeMap::new();
    for number in numbers {
        *counts.entry(number).or_default() += 1;
    }
    let passed = counts.get(&0).copied().unwrap_or(0);
    let refused: usize = counts.range(10..=34).map(|(_, count)| count).sum();
    let stopped = u8::from(stopped);
    let each: Vec<String> = counts
        .iter()
        .map(|(number, count)| format!("{number}:{count}"))
        .collect();
    let each = each.join(" ");
    format!("{name} passed={passed} refused={refused} stopped={stopped} {each}")
}
