//! Compares the proved gate with the plain one, answer by answer, and the watch after each script.
//!
//! Fixed seeds are run, and one more: the environment variable SEED, or else one from the clock. The
//! last line is `N passed, M failed`.

mod by_hand;
mod captures;
mod damage;
mod delivery;
mod drive;
mod script;
mod statuses;
mod streams;
mod tally;
mod traffic;
mod watch;

use std::collections::{BTreeMap, BTreeSet};
use std::fs;
use std::process::ExitCode;

use library::ROW_WATCH;
use plain::{Side, HOLD_SIZE};
use tools::{hex, Random, Report};

use delivery::{deliver, Mode};
use drive::{by_drive, compare, run, run_by_value, Run, RECORD, WATCH};
use script::{Item, Line, Script};
use tally::Tally;
use traffic::{plan, shared_sets, Sent, Style};

const FIXED_SEEDS: [u64; 2] = [1, 2];
/// Packets for each seed.
const PACKETS: usize = 100_000;
/// Streams cut in two ways, for each seed.
const CUTS: usize = 300;
/// Sessions with other ignored bits and words, for each seed.
const SESSIONS: usize = 300;
/// Numbers that have to occur in the comparison.
const NUMBERS: [u8; 24] = [
    0, 1, 2, 3, 10, 11, 12, 13, 20, 21, 22, 23, 24, 25, 26, 27, 28, 29, 30, 31, 32, 33, 34, 41,
];

/// Counts a test; where it passes, prints what it did.
fn test(report: &mut Report, name: &str, outcome: Result<String, String>) {
    if let Ok(told) = &outcome {
        println!("ok      {name}: {told}");
    }
    report.case(name, outcome.map(drop));
}

fn main() -> ExitCode {
    let seed = tools::seed();
    let mut report = Report::default();
    test(&mut report, "the ends of script and output", ends());
    for seed in FIXED_SEEDS.into_iter().chain([seed]) {
        let mut counts = BTreeMap::new();
        test(
            &mut report,
            &format!("differential, seed {seed}"),
            differential(seed, &mut counts),
        );
        test(
            &mut report,
            &format!("every number occurs, seed {seed}"),
            all_occur(&counts),
        );
        test(&mut report, &format!("cuts, seed {seed}"), cuts(seed));
        test(
            &mut report,
            &format!("ignored bits and words, seed {seed}"),
            ignored(seed),
        );
        let mut tally = Tally::default();
        test(
            &mut report,
            &format!("watched streams, seed {seed}"),
            watch::random(seed, &mut tally),
        );
        test(
            &mut report,
            &format!("everything happens to the watch, seed {seed}"),
            tally.check(),
        );
    }
    for case in by_hand::cases() {
        let name = format!("watch by hand, {}", case.name);
        test(&mut report, &name, watch::by_hand(&case));
    }
    test(&mut report, "every status byte", statuses::every_byte());
    test(&mut report, "the end of the watch's bytes", watch::ends());
    for wide in [false, true] {
        let name = format!("a full count, ids of {} bits", if wide { 64 } else { 32 });
        test(&mut report, &name, watch::full_count(wide));
    }
    capture_tests(&mut report);
    report.finish()
}

/// The size of each of the two buffers: mostly just enough.
fn buffer_size(random: &mut Random) -> usize {
    match random.below(80) {
        0 => HOLD_SIZE - 1,
        1 => random.below(HOLD_SIZE),
        2..=20 => HOLD_SIZE + random.below(3000),
        _ => HOLD_SIZE,
    }
}

/// Generated traffic through both, call by call, and the buffers after each script.
fn differential(seed: u64, counts: &mut BTreeMap<u8, usize>) -> Result<String, String> {
    let mut random = Random::new(seed);
    let sets = shared_sets();
    let mut seen = BTreeSet::new();
    let (mut packets, mut calls, mut scripts, mut prefixes) = (0, 0, 0, 0);
    while packets < PACKETS || scripts < 2 * sets.len() {
        let style = Style::random(&mut random, sets[scripts % sets.len()]);
        let script = generated(&mut random, &style);
        let outcome = compare(&script).map_err(|wrong| format!("script {scripts}, {wrong}"))?;
        for call in &outcome.calls {
            *counts.entry(call.number).or_default() += 1;
        }
        if outcome.calls.iter().filter(|call| call.number == 0).count() >= 2 {
            seen.insert(style.guest_word & style.host_word & 255);
        }
        packets += outcome.calls.iter().filter(|call| call.tells()).count();
        calls += outcome.calls.len();
        scripts += 1;
        // The buffers after each single call, for some of the short scripts.
        if script.items.len() < 60 && scripts % 4 == 0 {
            let mut shorter = script;
            while shorter.items.pop().is_some() {
                compare(&shorter).map_err(|wrong| format!("part of script {scripts}, {wrong}"))?;
                prefixes += 1;
            }
        }
    }
    if seen.len() < sets.len() {
        return Err(format!(
            "only {} of {} shared sets were reached",
            seen.len(),
            sets.len()
        ));
    }
    Ok(format!(
        "{packets} packets in {calls} calls of {scripts} scripts, {} shared sets; {prefixes} parts of scripts",
        seen.len()
    ))
}

fn generated(random: &mut Random, style: &Style) -> Script {
    let script = Script {
        hold_size: buffer_size(random),
        fill: random.next(),
        items: Vec::new(),
    };
    let mut packets = plan(random, style);
    if random.percent(3) {
        // Bytes that mean nothing, with or without hellos before them.
        packets.truncate(random.below(4));
        let size = random.between(1, 400);
        let noise = random.bytes(size);
        packets.push((random.pick(&[Side::Guest, Side::Host]), noise));
    }
    let mode = random.pick(&[
        Mode::Ordered,
        Mode::Ordered,
        Mode::Ordered,
        Mode::Dropping,
        Mode::Report,
        Mode::Report,
        Mode::Loose,
    ]);
    deliver(random, &packets, mode, script)
}

/// Prints how often each number was given.
fn all_occur(counts: &BTreeMap<u8, usize>) -> Result<String, String> {
    let mut table = String::new();
    for (at, number) in NUMBERS.iter().enumerate() {
        if at % 8 == 0 {
            table.push_str("\n       ");
        }
        table.push_str(&format!(
            " {number:>2}: {:<8}",
            counts.get(number).unwrap_or(&0)
        ));
    }
    let missing: Vec<u8> = NUMBERS
        .into_iter()
        .filter(|number| !counts.contains_key(number))
        .collect();
    let others: Vec<u8> = counts
        .keys()
        .copied()
        .filter(|number| !NUMBERS.contains(number))
        .collect();
    if missing.is_empty() && others.is_empty() {
        Ok(format!("how often each was given{table}"))
    } else {
        Err(format!("missing {missing:?}, unexpected {others:?}{table}"))
    }
}

/// The same packets, made whole in the same order, cut in two ways: the same answers other than
/// 1, 2 and 3, and the same watch.
fn cuts(seed: u64) -> Result<String, String> {
    let mut random = Random::new(seed ^ 0x6375_7473);
    let sets = shared_sets();
    let mut packets = 0;
    for round in 0..CUTS {
        let mut style = Style::random(&mut random, sets[round % sets.len()]);
        style.packets = style.packets.min(120);
        let planned = plan(&mut random, &style);
        let fresh = Script {
            hold_size: HOLD_SIZE,
            fill: random.next(),
            items: Vec::new(),
        };
        let first = deliver(&mut random, &planned, Mode::Ordered, fresh.clone());
        // What became whole, and in which order.
        let events = events(&first);
        let cut_one = deliver(&mut random, &events, Mode::Ordered, fresh.clone());
        let cut_two = deliver(&mut random, &events, Mode::Ordered, fresh);
        for cut in [&first, &cut_one, &cut_two] {
            compare(cut).map_err(|wrong| format!("round {round}, {wrong}"))?;
        }
        let [whole, one, two] = [&first, &cut_one, &cut_two].map(answers);
        if whole != one || one != two {
            return Err(format!(
                "round {round}, other answers or watch:\n{}{}{}",
                first.lines(),
                cut_one.lines(),
                cut_two.lines()
            ));
        }
        packets += whole.0.len();
    }
    Ok(format!(
        "{packets} packets of {CUTS} sessions, each cut in three ways"
    ))
}

/// Sessions whose hellos differ only in the bits and words that are ignored: the same numbers, and
/// the same watch.
fn ignored(seed: u64) -> Result<String, String> {
    let mut random = Random::new(seed ^ 0x626974);
    let sets = shared_sets();
    let (mut packets, mut hellos) = (0, 0);
    for round in 0..SESSIONS {
        let style = Style::random(&mut random, sets[round % sets.len()]);
        let items = plan(&mut random, &style).into_iter();
        let script = Script {
            hold_size: HOLD_SIZE,
            fill: random.next(),
            items: items.map(|(from, piece)| Item { from, piece }).collect(),
        };
        let told = compare(&script).map_err(|wrong| format!("round {round}, {wrong}"))?;
        let mut other = script.clone();
        for (item, call) in other.items.iter_mut().zip(&told.calls) {
            let whole = call.size as usize == item.piece.len();
            if whole && matches!(call.number, 0 | 13) && item.piece[..4] == [0; 4] {
                change_ignored(&mut random, &mut item.piece);
                hellos += 1;
            }
        }
        for run in [run as Run, run_by_value] {
            let [one, two] = [&script, &other].map(|script| numbers(run, script));
            if one != two {
                return Err(format!(
                    "round {round}, other numbers or watch:\n{}{}",
                    script.lines(),
                    other.lines()
                ));
            }
        }
        packets += told.calls.iter().filter(|call| call.tells()).count();
    }
    Ok(format!(
        "{packets} packets of {SESSIONS} sessions, {hellos} hellos changed"
    ))
}

/// Other bits than 0 to 7 of a hello's first word, and other words behind it.
fn change_ignored(random: &mut Random, hello: &mut Vec<u8>) {
    hello.resize(hello.len().max(80), 0);
    random.fill(&mut hello[77..80]);
    hello.truncate(80);
    let count = random.below(8);
    hello.extend(random.bytes(4 * count));
    let length = (hello.len() - 12) as u32;
    hello[4..8].copy_from_slice(&length.to_le_bytes());
}

fn numbers(run: Run, script: &Script) -> (Vec<u8>, [u8; WATCH]) {
    let told = by_drive(run, script);
    let numbers = told.calls.iter().map(|call| call.number);
    (numbers.collect(), told.watch)
}

/// The packets and refused headers that a script's calls tell of.
fn events(script: &Script) -> Vec<Sent> {
    let mut line = Line::new(script);
    let mut events = Vec::new();
    for item in &script.items {
        if line.call(item.from, &item.piece).tells() {
            events.push((item.from, line.told(item.from, &item.piece)));
        }
    }
    events
}

/// An answer without what depends on cuts: sender, number, size, the data's start and end, id.
type Uncut = (Side, u8, u32, u32, u32, u64);

/// What the proved gate answers to a script, other than 1, 2 and 3, and the watch then.
fn answers(script: &Script) -> (Vec<Uncut>, [u8; WATCH]) {
    let told = by_drive(run, script);
    let answers = script
        .items
        .iter()
        .zip(&told.calls)
        .filter(|(_, call)| !matches!(call.number, 1..=3))
        .map(|(item, call)| {
            (
                item.from,
                call.number,
                call.size,
                call.start,
                call.end,
                call.id,
            )
        })
        .collect();
    (answers, told.watch)
}

/// A script cut short is run up to its last whole item; a short output ends it, too.
fn ends() -> Result<String, String> {
    let item = |from, size| Item {
        from,
        piece: vec![0x11; size],
    };
    let script = Script {
        hold_size: HOLD_SIZE,
        fill: 7,
        items: vec![
            item(Side::Guest, 3),
            item(Side::Host, 0),
            item(Side::Host, 5),
            item(Side::Guest, 8),
        ],
    };
    compare(&script)?;
    let bytes = script.bytes();
    let starts: Vec<usize> = (0..=4)
        .map(|count| {
            Script {
                items: script.items[..count].to_vec(),
                ..script.clone()
            }
            .bytes()
            .len()
        })
        .collect();
    let mut runs = 0;
    for size in 0..=bytes.len() {
        for room in [
            0,
            1,
            RECORD - 1,
            RECORD,
            2 * RECORD - 1,
            2 * RECORD,
            3 * RECORD + 5,
            4 * RECORD,
            4 * RECORD + 25,
        ] {
            let whole = starts.iter().filter(|start| **start <= size).count() - 1;
            let expected = whole.min(room / RECORD);
            for run in [run as Run, run_by_value] {
                let mut out = vec![0xaa; room];
                let made = run(&bytes[..size], &mut script.holds(), &mut out);
                if made != expected {
                    return Err(format!(
                        "{size} bytes of script, {room} of output: {made} calls, not {expected}"
                    ));
                }
                // The hellos and what follows leave the watch at 0.
                let (watch, behind) =
                    out[made * RECORD..].split_at((room - made * RECORD).min(WATCH));
                if watch.iter().any(|byte| *byte != 0) || behind.iter().any(|byte| *byte != 0xaa) {
                    return Err(format!(
                        "{size} bytes of script, {room} of output: behind the last record"
                    ));
                }
            }
            runs += 1;
        }
    }
    Ok(format!("{runs} runs"))
}

/// Each capture through both, its totals against those that are stored, and no break in its streams.
fn capture_tests(report: &mut Report) {
    let path = captures::directory().join("totals.txt");
    let stored = fs::read_to_string(&path).unwrap_or_default();
    let files = captures::files();
    for file in &files {
        let name = tools::captures::name(file);
        let (script, stopped) = captures::script(file);
        let result = compare(&script).and_then(|outcome| {
            let totals =
                captures::totals(&name, outcome.calls.iter().map(|call| call.number), stopped);
            // None of their streams lost a packet.
            let breaks = outcome
                .watch
                .chunks(ROW_WATCH)
                .any(|row| row[..10] != [0; 10]);
            if breaks {
                Err(format!("a break: {}", hex::digits(&outcome.watch)))
            } else if stored.lines().any(|line| line == totals) {
                Ok(totals)
            } else {
                Err(format!("not the stored totals: {totals}"))
            }
        });
        test(report, "capture", result);
    }
    let listed = stored.lines().filter(|line| !line.starts_with('#')).count();
    let complete = if listed == files.len() && listed > 0 {
        Ok(format!("{listed} captures"))
    } else {
        Err(format!("{} captures, {listed} stored totals", files.len()))
    };
    test(report, "all captures have totals", complete);
}
