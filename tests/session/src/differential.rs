//! The library against the oracle on generated sessions.

use std::collections::BTreeMap;

use tools::{ensure, Random, Report};

use crate::generate::Traffic;
use crate::oracle::wire::{self, Side};
use crate::script::{library_numbers, Script};
use Side::{Guest, Host};

const PACKETS: usize = 400_000;

/// 0 and the numbers of the wire checks and the session checks.
const NUMBERS: [u8; 20] = [
    0, 10, 11, 12, 13, 20, 21, 22, 23, 24, 25, 26, 27, 28, 29, 30, 31, 32, 33, 34,
];

pub fn run(seed: u64, report: &mut Report) {
    let mut random = Random::new(seed);
    let mut seen = Seen::default();
    let mut packets = 0;
    let mut sessions = 0;
    while packets < PACKETS {
        let generated = generate(&mut random, &mut seen);
        packets += generated.script.len();
        sessions += 1;
        let name = format!("generated session {sessions} of seed {seed}");
        report.case(&name, generated.check(&mut random));
    }
    seen.report(report);
    println!(
        "{packets} packets in {sessions} sessions; {}",
        seen.counts()
    );
}

struct Generated {
    script: Script,
    numbers: Vec<u8>,
}

fn generate(random: &mut Random, seen: &mut Seen) -> Generated {
    let size = random.pick(&[20, 100, 300, 300, 700]);
    let host = random.pick(&[1, 2, 0x80, 0xff]);
    let mut traffic = Traffic::new(random);
    let mut generated = Generated {
        script: Script::default(),
        numbers: Vec::new(),
    };
    for _ in 0..size {
        let shared = traffic.shared();
        let (from, bytes, number) = traffic.next();
        seen.note(from, wire::header(shared, &bytes), number);
        let sender = if from == Guest { 0 } else { host };
        generated.script.push_from(sender, &bytes);
        generated.numbers.push(number);
    }
    generated
}

impl Generated {
    fn check(&self, random: &mut Random) -> Result<(), String> {
        self.script.oracle_gives(&self.numbers)?;
        self.script.library_gives(&self.numbers)?;
        // Again, cut short somewhere, or with less room.
        let size = random.below(self.script.bytes().len() + 1);
        let whole = self.script.ends().take_while(|end| *end <= size).count();
        let room = random.below(self.numbers.len() + 1);
        let written = whole.min(room);
        let given = library_numbers(&self.script.bytes()[..size], room)?;
        ensure(given == self.numbers[..written], || {
            format!("other numbers for the first {size} bytes with room for {room}")
        })
    }
}

// -- what the sessions have covered --------------------------------------------------------------------------------------

/// How often a packet of a sender and kind got a number; kind None has no whole header.
#[derive(Default)]
struct Seen {
    times: BTreeMap<(Side, Option<u32>, u8), usize>,
}

impl Seen {
    fn note(&mut self, from: Side, header: Option<wire::Header>, number: u8) {
        let kind = header.map(|header| header.kind);
        *self.times.entry((from, kind, number)).or_insert(0) += 1;
    }

    fn count(&self, number: u8) -> usize {
        let of_number = self.times.iter().filter(|((_, _, n), _)| *n == number);
        of_number.map(|(_, times)| times).sum()
    }

    /// Each number with how often it was seen.
    fn counts(&self) -> String {
        let counts: Vec<String> = NUMBERS
            .iter()
            .map(|number| format!("{number}: {}", self.count(*number)))
            .collect();
        counts.join(", ")
    }

    fn report(&self, report: &mut Report) {
        for number in NUMBERS {
            let outcome = ensure(self.count(number) > 0, || "never seen".to_string());
            report.case(&format!("coverage: {number}"), outcome);
        }
        for (from, kinds, numbers) in wanted() {
            for (kind, number) in product(kinds, numbers) {
                let times = self.times.get(&(from, Some(kind), number));
                let outcome = ensure(times.is_some(), || "never seen".to_string());
                let name = format!("coverage: {from:?} sends kind {kind} and gets {number}");
                report.case(&name, outcome);
            }
        }
    }
}

fn product<'a>(kinds: &'a [u32], numbers: &'a [u8]) -> impl Iterator<Item = (u32, u8)> + 'a {
    let all = kinds.iter().map(move |kind| (*kind, numbers));
    all.flat_map(|(kind, numbers)| numbers.iter().map(move |number| (kind, *number)))
}

type Wanted = (Side, &'static [u32], &'static [u8]);

/// Which kinds have to have got which numbers of the session checks.
#[rustfmt::skip]
fn wanted() -> Vec<Wanted> {
    vec![
        (Guest, &[0, 23], &[0]),
        (Host, &[0, 23], &[0]),
        (Guest, &[22], &[0]),
        (Guest, &[24], &[0, 26]),
        (Host, &[1, 4], &[0, 26, 27]),
        (Host, &[5], &[0, 27]),
        (Host, &[2], &[0, 25]),
        (Guest, &[3, 21], &[0, 25]),
        // requests
        (Guest, &[6, 7, 9, 10], &[0, 25, 31, 32]),
        (Guest, &[12, 13, 15, 16, 18, 19, 25, 26], &[0, 25, 28, 31, 32]),
        (Guest, &[100, 101, 103], &[0, 25, 28, 29, 31, 32]),
        // replies
        (Host, &[8, 11, 14, 17, 20, 27], &[0, 25, 33]),
        (Host, &[100, 101], &[0, 25, 33, 34]),
        // data of streams; a 103 of the host is either
        (Host, &[103], &[0, 25, 28, 30, 33, 34]),
        (Host, &[102, 104], &[0, 25, 28, 30]),
        (Guest, &[102], &[0, 25, 28, 29, 30]),
    ]
}
