//! Traffic of real peers, and how many of its packets get which number.

use std::collections::BTreeMap;
use std::fs;
use std::path::Path;

use tools::{captures, ensure, Report};

use crate::oracle::session::Session;
use crate::oracle::wire::{self, Side};
use crate::script::Script;

/// A capture of `tests/gate/captures`: its name, and how often each number comes.
struct Known {
    name: &'static str,
    totals: &'static [(u8, usize)],
}

/// README.md there tells where they come from, docs/PEERS.md why packets are refused.
#[rustfmt::skip]
const KNOWN: [Known; 10] = [
    known("lin14_uasss_xhci_ff", &[(0, 327)]),
    known("lin18_pl2303_uhci_ff", &[(0, 375), (30, 4), (31, 2), (33, 2)]),
    known("lin24_swap_devices_ff", &[(0, 212), (25, 4)]),
    known("lin27_usbtest_chunk7_ff", &[(0, 295)]),
    known("real03_kbd_xhci", &[(0, 3), (25, 1_317), (26, 2)]),
    known("sea03_kbd_uhci_00", &[(0, 167)]),
    known("sea06_msd_xhci_ff", &[(0, 50), (10, 1)]),
    known("sea14_kbd_reconnect_noack_f7", &[(0, 94), (25, 2)]),
    known("sea16_filter_reject_ff", &[(0, 7)]),
    known("sea33_kbd_intstop_ff", &[(0, 185)]),
];

const fn known(name: &'static str, totals: &'static [(u8, usize)]) -> Known {
    Known { name, totals }
}

pub fn run(report: &mut Report) {
    let directory = Path::new(env!("CARGO_MANIFEST_DIR")).join("../gate/captures");
    for known in &KNOWN {
        let path = directory.join(known.name).with_extension("txt");
        report.case(known.name, check(&path, Some(known.totals)));
    }
}

/// The captures of another directory: the library against the oracle, and a line of totals for each.
pub fn run_directory(directory: &Path, report: &mut Report) {
    match captures::files(directory, "txt") {
        Ok(paths) => {
            for path in paths {
                report.case(&path.display().to_string(), check(&path, None));
            }
        }
        Err(why) => report.case(&directory.display().to_string(), Err(why)),
    }
}

fn check(path: &Path, totals: Option<&[(u8, usize)]>) -> Result<(), String> {
    let text = fs::read_to_string(path).map_err(|why| why.to_string())?;
    let (script, numbers) = cut(&text)?;
    script.oracle_gives(&numbers)?;
    script.library_gives(&numbers)?;
    let mut counted = BTreeMap::new();
    for number in numbers {
        *counted.entry(number).or_insert(0) += 1;
    }
    let counted: Vec<(u8, usize)> = counted.into_iter().collect();
    match totals {
        Some(totals) => ensure(counted == totals, || {
            format!("numbers are {counted:?}, not {totals:?}")
        }),
        None => {
            println!("{}: {counted:?}", path.display());
            Ok(())
        }
    }
}

/// Bytes of one direction that are no whole packet yet.
#[derive(Default)]
struct Pending {
    bytes: Vec<u8>,
    /// How many at the front have been cut off.
    used: usize,
}

/// The packets in the order in which they become whole, with the oracle's numbers, up to the first header that 10, 11 or
/// 12 refuses; that one is the last, without its body.
fn cut(text: &str) -> Result<(Script, Vec<u8>), String> {
    let mut cutter = Cutter {
        session: Session::new(),
        script: Script::default(),
        numbers: Vec::new(),
    };
    let mut guest = Pending::default();
    let mut host = Pending::default();
    for piece in captures::pieces(text) {
        let (from_guest, bytes) = piece?;
        let (from, pending) = if from_guest {
            (Side::Guest, &mut guest)
        } else {
            (Side::Host, &mut host)
        };
        pending.bytes.extend(bytes);
        while let Some(size) = cutter.next_size(from, pending) {
            if !cutter.take(from, pending, size) {
                return Ok((cutter.script, cutter.numbers));
            }
        }
    }
    Ok((cutter.script, cutter.numbers))
}

struct Cutter {
    session: Session,
    script: Script,
    numbers: Vec<u8>,
}

impl Cutter {
    /// The size of what comes next from this side, where it is there: a packet, or a header that is refused.
    fn next_size(&self, from: Side, pending: &Pending) -> Option<usize> {
        let hellos = self.session.hellos();
        let bytes = &pending.bytes[pending.used..];
        let header = wire::header(hellos.shared(), bytes)?;
        let size = match wire::judge_header(hellos, from, &header) {
            Ok(()) => header.size + header.length as usize,
            Err(_) => header.size,
        };
        (size <= bytes.len()).then_some(size)
    }

    /// Takes so many bytes as the next of the script; whether it goes on behind them.
    fn take(&mut self, from: Side, pending: &mut Pending, size: usize) -> bool {
        let bytes = &pending.bytes[pending.used..pending.used + size];
        let number = self.session.judge(from, bytes);
        self.script.push(from, bytes);
        self.numbers.push(number);
        pending.used += size;
        !(10..=12).contains(&number)
    }
}
