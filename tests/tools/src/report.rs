//! Counts the test cases and prints those that fail.

use std::fmt;
use std::process::ExitCode;

/// Failed cases that are printed; those after them are only counted.
const MOST_LINES: u64 = 100;

/// How many cases passed and failed.
#[derive(Clone, Copy, Default, PartialEq, Eq)]
pub struct Count {
    passed: u64,
    failed: u64,
}

impl Count {
    pub fn add(&mut self, passes: bool) {
        if passes {
            self.passed += 1;
        } else {
            self.failed += 1;
        }
    }

    /// What has been counted since it stood at `before`.
    fn since(self, before: Count) -> Count {
        Count {
            passed: self.passed - before.passed,
            failed: self.failed - before.failed,
        }
    }

    /// Prints the last line of a run; gives its exit status, which is 0 where no case failed.
    pub fn finish(self) -> ExitCode {
        println!("{self}");
        ExitCode::from(u8::from(self.failed > 0))
    }
}

impl fmt::Display for Count {
    fn fmt(&self, f: &mut fmt::Formatter) -> fmt::Result {
        write!(f, "{} passed, {} failed", self.passed, self.failed)
    }
}

#[derive(Default)]
pub struct Report {
    count: Count,
}

impl Report {
    pub fn case(&mut self, name: &str, outcome: Result<(), String>) {
        self.count.add(outcome.is_ok());
        if let Err(why) = outcome {
            if self.count.failed <= MOST_LINES {
                println!("failed: {name}: {why}");
            }
        }
    }

    /// Runs the cases of a group and prints its count. A group without a case is a failure.
    pub fn group(&mut self, name: &str, run: impl FnOnce(&mut Report)) {
        let before = self.count;
        run(self);
        if self.count == before {
            self.case(name, Err("there is no case".to_string()));
        }
        println!("{name}: {}", self.count.since(before));
    }

    /// Prints the last line of a run; gives its exit status, which is 0 where no case failed.
    pub fn finish(self) -> ExitCode {
        self.count.finish()
    }
}

/// An outcome that passes where the condition holds.
pub fn ensure(holds: bool, why: impl FnOnce() -> String) -> Result<(), String> {
    if holds {
        Ok(())
    } else {
        Err(why())
    }
}
