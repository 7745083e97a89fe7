//! The proved gate beside a plain one and libusbredirparser, in one run on one machine.
//!
//! `bench [DIVISOR [INDEX [JUDGE]]]`: with a divisor there is so much less traffic, with an index only that one, counted from 0. Prints a line
//! for each traffic and judge: the best time of some rounds, GB/s, packets/s, and the time as a multiple of the plain gate's. The last
//! line is `N passed, M failed`: the gate by each of its callers and the plain gate told the same of every call and left the same buffers, and
//! libusbredirparser, where it takes part, handed out as many packets. With the name of a judge it makes the calls of that traffic once and
//! prints how many there were: for counting instructions.
//!
//! `bench full NUMBER PLACE PACKETS`: the same by the gate, of packets that are refused with this number in a full table (`full_table`).

mod judges;
mod traffic;

use std::hint::black_box;
use std::iter::repeat;
use std::path::Path;
use std::process::ExitCode;
use std::time::{Duration, Instant};

use library::RECORD;
use plain::HOLD_SIZE;
use tools::{ensure, Report};

use judges::{by_entry, by_gate, by_plain, by_value, script_of, Script};
use traffic::{bulk_transfers, capture, full_table, interrupts, Traffic};

const ROUNDS: usize = 11;

type Judge = fn(&Script, &mut [u8], &mut [u8]) -> usize;

const GATES: &[(&str, Judge)] = &[
    ("plain", by_plain),
    ("gate", by_gate),
    ("by value", by_value),
    ("entry", by_entry),
];

fn main() -> ExitCode {
    let mut words = std::env::args().skip(1).peekable();
    if words.next_if(|word| word == "full").is_some() {
        return refuse(words);
    }
    let mut number = || {
        let word = words.next()?;
        Some(word.parse().expect("bench [DIVISOR [INDEX [JUDGE]]]"))
    };
    let divisor: usize = number().unwrap_or(1);
    let only = number();
    if let (Some(at), Some(judge)) = (only, words.next()) {
        count(&traffic(at, divisor).expect("a traffic"), &judge);
        return ExitCode::SUCCESS;
    }
    let mut report = Report::default();
    for at in only.unwrap_or(0)..only.map_or(usize::MAX, |index| index + 1) {
        let Some(traffic) = traffic(at, divisor) else {
            break;
        };
        report.case(&traffic.name, measure(&traffic));
    }
    report.finish()
}

/// The traffic to measure, one at a time: the longest has some hundred megabytes.
fn traffic(at: usize, divisor: usize) -> Option<Traffic> {
    let part = |count: usize| (count / divisor).max(16);
    let repeated = |name: &str| {
        let captures = Path::new(env!("CARGO_MANIFEST_DIR")).join("../tests/gate/captures");
        capture(&captures.join(name), part(200))
    };
    Some(match at {
        0 => bulk_transfers(part(10_000), 1_000),
        1 => bulk_transfers(part(10_000), 60_000),
        2 => interrupts(part(1_000_000)),
        3 => repeated("lin02_usbtest_ehci_00.txt"),
        4 => repeated("lin16_ftdi_uhci_ff.txt"),
        _ => return None,
    })
}

/// Makes the calls of one traffic once, by one judge, and prints how many there were; gives their records.
fn count(traffic: &Traffic, judge: &str) -> Vec<u8> {
    let script = script_of(traffic);
    let (_, judge) = GATES
        .iter()
        .find(|(name, _)| *name == judge)
        .expect("a judge");
    let mut out = vec![0; script.calls * RECORD];
    let calls = judge(black_box(&script), &mut holds(), &mut out);
    println!("{} calls: {}", calls, traffic.name);
    out
}

/// Makes the calls of packets that the gate refuses with a number in a full table; passes where each of them got it.
fn refuse(words: impl Iterator<Item = String>) -> ExitCode {
    let words: Vec<usize> = words.map(|word| word.parse().expect("a number")).collect();
    let [number, place, packets] = words[..] else {
        panic!("bench full NUMBER PLACE PACKETS");
    };
    let number = number as u8;
    let told = count(&full_table(number, place, packets), "gate");
    let refused = told
        .chunks_exact(RECORD)
        .map(|record| record[0])
        .filter(|number| *number != 0);
    let right = refused.eq(repeat(number).take(packets));
    ExitCode::from(u8::from(!right))
}

/// Both holding buffers.
fn holds() -> Vec<u8> {
    vec![0; 2 * HOLD_SIZE]
}

/// Times all judges on one traffic; passes where the gates agree.
fn measure(traffic: &Traffic) -> Result<(), String> {
    let script = script_of(traffic);
    let bytes: usize = traffic.pieces.iter().map(|piece| piece.bytes.len()).sum();
    println!(
        "{}: {} packets pass, {} are refused, {bytes} bytes, {} calls; {} times",
        traffic.name, script.packets, script.refused, script.calls, traffic.times
    );
    let mut told = Vec::new();
    let mut best = vec![Duration::MAX; GATES.len()];
    for round in 0..ROUNDS {
        for (at, (_, judge)) in GATES.iter().enumerate() {
            let mut holds = holds();
            let mut out = vec![0; script.calls * RECORD];
            let start = Instant::now();
            for _ in 0..traffic.times {
                let calls = judge(black_box(&script), &mut holds, &mut out);
                assert_eq!(calls, script.calls);
            }
            best[at] = best[at].min(start.elapsed());
            if round == 0 {
                told.push((out, holds));
            }
        }
    }
    let packets = script.packets + script.refused;
    let line = |name: &str, time: Duration| {
        let seconds = time.as_secs_f64() / traffic.times as f64;
        println!(
            "  {name:<18} {:>9.3} ms {:>8.3} GB/s {:>12.0} packets/s {:>7.2} x plain",
            seconds * 1e3,
            bytes as f64 / seconds / 1e9,
            packets as f64 / seconds,
            time.as_secs_f64() / best[0].as_secs_f64()
        );
    };
    for ((name, _), time) in GATES.iter().zip(best.clone()) {
        line(name, time);
    }
    #[cfg(feature = "parser")]
    {
        let mut best = Duration::MAX;
        let mut handed = 0;
        for _ in 0..ROUNDS {
            let start = Instant::now();
            for _ in 0..traffic.times {
                handed = judges::parser::by_parser(black_box(traffic));
            }
            best = best.min(start.elapsed());
        }
        line("libusbredirparser", best);
        ensure(handed == packets, || {
            format!("libusbredirparser hands out {handed} packets, and not {packets}")
        })?;
    }
    ensure(told.iter().all(|other| *other == told[0]), || {
        "the gates differ".to_string()
    })
}
