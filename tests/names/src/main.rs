//! Looks up in the repository what the documents name in backticks, and some of their numbers.
//!
//! Prints what is wrong, how much was checked, and as its last line `N passed, M failed`.

#![forbid(unsafe_code)]

mod names;
mod numbers;
mod spans;

use std::fs;
use std::path::Path;
use std::process::ExitCode;

use tools::Count;

use names::{glob, Names};

/// Words in backticks that are no names of the repository; they are left unchecked.
const ALLOWED: [&str; 21] = [
    "abbrev",            // a keyword of antt
    "bit_and",           // and of two numbers, from the toolchain's library
    "cargo",             // the tool that builds the tests
    "ensures",           // a keyword of Rattle
    "eqb",               // a test of numbers, from the toolchain's library
    "eqt",               // a test of texts, from there too
    "leb",               // a test of numbers
    "ltb",               // a test of numbers
    "match",             // a keyword of Rattle
    "memcpy",            // a C function
    "nat_le",            // a test of numbers, from the toolchain's library
    "nat_lt",            // a test of numbers
    "Option",            // a type of the toolchain's library
    "requires",          // a keyword of Rattle
    "result",            // in a clause, what the function returns
    "Result",            // a type of the toolchain's library
    "rt",                // the toolchain's command
    "target/bin/report", // the program that is built, no file of the repository
    "unfoldable",        // a keyword of antt
    "usbredirect",       // a real program that was captured
    "valgrind",          // a tool for measuring
];
/// Patterns of the documents' paths.
const DOCUMENTS: &str = "README.md docs/*.md tests/*/README.md bench/README.md";
/// Pages that give names as they were before beside those of today.
const OLD_NAMES: [&str; 2] = ["docs/PORT.md", "docs/DESIGN-PASS.md"];

#[derive(Default)]
struct Tests {
    count: Count,
    names: usize,
    texts: usize,
}

impl Tests {
    /// Counts a test, and prints what is wrong.
    fn test(&mut self, document: &str, result: Result<(), String>) {
        self.count.add(result.is_ok());
        if let Err(wrong) = result {
            println!("{document}:{wrong}");
        }
    }

    /// Every span of a document.
    fn document(&mut self, path: &str, text: &str, names: &Names) {
        for (line, parts) in spans::lines(text) {
            if parts.len() % 2 == 0 {
                self.test(path, Err(format!("{line}: a backtick is not closed")));
            }
            // The type that the line named last, for a field that stands alone.
            let mut owner = "";
            for span in parts.into_iter().skip(1).step_by(2) {
                let key = spans::key(span).filter(|_| !ALLOWED.contains(&span));
                let Some(mut key) = key else {
                    self.texts += 1;
                    continue;
                };
                let named = span.split(" .").next().filter(|name| names.is_owner(name));
                owner = named.unwrap_or(owner);
                if key.starts_with('.') && !key.contains('/') {
                    key = format!("{owner} {key}");
                }
                let missing = || format!("{line}: {span} is found nowhere");
                self.names += 1;
                self.test(path, names.has(&key).then_some(()).ok_or_else(missing));
            }
        }
    }
}

fn main() -> ExitCode {
    let root = Path::new(env!("CARGO_MANIFEST_DIR")).join("../..");
    let read = |path: &str| fs::read_to_string(root.join(path)).expect("the document is read");
    let names = Names::collect(&root);
    let mut tests = Tests::default();
    let is_document = |path: &&String| {
        DOCUMENTS.split(' ').any(|pattern| glob(pattern, path))
            && !OLD_NAMES.contains(&path.as_str())
    };
    for path in names.files.iter().filter(is_document) {
        tests.document(path, &read(path), &names);
    }
    let totals = read("tests/gate/captures/totals.txt");
    for result in numbers::captures(&read("docs/PEERS.md"), &totals) {
        tests.test("docs/PEERS.md", result);
    }
    let (checked, texts) = (tests.names, tests.texts);
    println!("checked {checked} names, {texts} texts left unchecked");
    tests.count.finish()
}
