//! The proved gate, as two C functions: with the session changed in place, and by value.

use crate::script::{difference, Call, Outcome, Script};

pub use library::{run, run_by_value, Run, RECORD, WATCH};

pub fn by_drive(run: Run, script: &Script) -> Outcome {
    let mut holds = script.holds();
    // All of it is written, whatever it held.
    let mut out = vec![0xaa; script.items.len() * RECORD + WATCH];
    let made = run(&script.bytes(), &mut holds, &mut out);
    let (records, behind) = out.split_at(made * RECORD);
    let calls = records.chunks(RECORD).map(Call::read).collect();
    let mut watch = [0; WATCH];
    watch.copy_from_slice(&behind[..WATCH]);
    Outcome {
        calls,
        holds,
        watch,
    }
}

/// Where a function of the library differs on a script from what the plain gate told.
fn differs(script: &Script, plain: &Outcome) -> Option<String> {
    [run as Run, run_by_value]
        .iter()
        .find_map(|run| difference(plain, &by_drive(*run, script)))
}

/// Runs a script through all. Where they differ: in what, with a script that shows it and is as
/// short as leaving out calls makes it.
pub fn compare(script: &Script) -> Result<Outcome, String> {
    let plain = script.by_plain();
    match differs(script, &plain) {
        None => Ok(plain),
        Some(_) => {
            let small = shrink(script.clone());
            let what = differs(&small, &small.by_plain()).unwrap_or_default();
            Err(format!("{what}\n{}", small.lines()))
        }
    }
}

/// Leaves out calls, in ever smaller runs, as long as the two still differ.
fn shrink(mut script: Script) -> Script {
    let mut run = script.items.len();
    while run > 0 {
        let mut at = 0;
        while at < script.items.len() {
            let mut shorter = script.clone();
            let end = (at + run).min(shorter.items.len());
            shorter.items.drain(at..end);
            if differs(&shorter, &shorter.by_plain()).is_some() {
                script = shorter;
            } else {
                at += run;
            }
        }
        run /= 2;
    }
    script
}
