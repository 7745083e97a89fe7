//! The library against the oracle on generated and damaged packets.

use std::collections::BTreeSet;

use tools::{ensure, Random, Report};

use crate::capture::Captured;
use crate::compare;
use crate::generate;
use crate::oracle::{self, Kind, Link, KINDS};

const BATCHES: usize = 400;
const BATCH_SIZE: usize = 1_000;

/// Captured packets longer than this are used now and then only: they take their time.
const LONG: usize = 4_096;

/// The wire checks' numbers.
const NUMBERS: [u8; 10] = [0, 10, 11, 12, 13, 20, 21, 22, 23, 24];

pub fn run(seed: u64, captured: &[Captured], report: &mut Report) {
    let mut random = Random::new(seed);
    let mut seen = Seen::default();
    for batch in 0..BATCHES {
        let name = format!("batch {batch} of seed {seed}");
        report.case(&name, run_batch(&mut random, captured, &mut seen));
    }
    seen.report(report);
}

/// Runs all packets of the batch; fails with the first that differs.
fn run_batch(random: &mut Random, captured: &[Captured], seen: &mut Seen) -> Result<(), String> {
    let mut outcome = Ok(());
    for _ in 0..BATCH_SIZE {
        let (link, bytes) = next_packet(random, captured);
        match compare::with_oracle(&link, &bytes) {
            Ok(number) => seen.note(&link, &bytes, number),
            Err(why) => outcome = outcome.and(Err(why)),
        }
    }
    outcome
}

/// A captured packet or one that the oracle has written, half of them damaged once or twice.
fn next_packet(random: &mut Random, captured: &[Captured]) -> (Link, Vec<u8>) {
    let (mut link, mut bytes) = if random.one_in(3) {
        captured_packet(random, captured)
    } else {
        generate::packet(random)
    };
    for _ in 0..random.pick(&[0, 0, 0, 1, 1, 2]) {
        generate::damage(random, &mut link, &mut bytes);
    }
    (link, bytes)
}

fn captured_packet(random: &mut Random, captured: &[Captured]) -> (Link, Vec<u8>) {
    if captured.is_empty() {
        return generate::packet(random);
    }
    let chosen = &captured[random.below(captured.len())];
    if chosen.bytes.len() > LONG && !random.one_in(20) {
        return generate::packet(random);
    }
    (chosen.link, chosen.bytes.clone())
}

// -- what the packets have covered ----------------------------------------------------------------------------------------

/// A packet's sender, kind (None: unknown, or no whole header), size of header, and number.
#[derive(Clone, Copy, PartialEq, Eq, PartialOrd, Ord)]
struct Sight {
    from_guest: bool,
    kind: Option<u32>,
    header_size: usize,
    number: u8,
}

#[derive(Default)]
struct Seen {
    sights: BTreeSet<Sight>,
}

impl Seen {
    fn note(&mut self, link: &Link, bytes: &[u8], number: u8) {
        let header = oracle::read_header(link, bytes);
        let kind = header.map(|header| header.kind);
        self.sights.insert(Sight {
            from_guest: link.from_guest,
            kind: kind.filter(|kind| oracle::kind_of(*kind).is_some()),
            header_size: header.map_or(0, |header| header.size),
            number,
        });
    }

    /// A test case: some packet was like this.
    fn require(&self, report: &mut Report, what: &str, like: impl Fn(&Sight) -> bool) {
        let outcome = ensure(self.sights.iter().any(like), || "never seen".to_string());
        report.case(&format!("coverage: {what}"), outcome);
    }

    fn report(&self, report: &mut Report) {
        for from_guest in [true, false] {
            for number in NUMBERS {
                let what = format!("{number}, {}", side(from_guest));
                self.require(report, &what, |s| {
                    s.from_guest == from_guest && s.number == number
                });
            }
            for kind in &KINDS {
                self.report_kind(report, kind, from_guest);
            }
        }
    }

    /// Every number that a kind can get from 20 up, and that it passes with each header it can have.
    fn report_kind(&self, report: &mut Report, kind: &Kind, from_guest: bool) {
        let mut require = |number: u8, header_size: usize| {
            let what = format!(
                "kind {}, {}, header of {header_size}, {number}",
                kind.number,
                side(from_guest)
            );
            let sight = Sight {
                from_guest,
                kind: Some(kind.number),
                header_size,
                number,
            };
            self.require(report, &what, |s| *s == sight);
        };
        if !kind.may_come(from_guest) {
            require(21, 12);
            return;
        }
        require(0, 12);
        if kind.number != 0 {
            require(0, 16);
        }
        if kind.needs != 0 {
            require(22, 12);
        }
        require(23, 12);
        if has_field_rule(kind.number) {
            require(24, 12);
        }
    }
}

/// No field rule speaks of these kinds: any id, no endpoint.
fn has_field_rule(kind: u32) -> bool {
    !matches!(kind, 3 | 6..=11 | 20 | 21)
}

fn side(from_guest: bool) -> &'static str {
    if from_guest {
        "guest"
    } else {
        "host"
    }
}
