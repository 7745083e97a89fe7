//! The tests of the watch.

use library::ROW_WATCH;
use plain::HOLD_SIZE;
use tools::{hex, Random};

use crate::answers;
use crate::by_hand::{self, Case, Hand};
use crate::delivery::{deliver, Mode};
use crate::drive::{by_drive, compare, run, run_by_value, Run, RECORD, WATCH};
use crate::script::{difference, Item, Script};
use crate::streams;
use crate::tally::Tally;

/// Sessions for each seed.
const SESSIONS: usize = 200;
/// Packets of a long session, and of a short one.
const LONG: usize = 300;
const SHORT: usize = 40;

/// Streams made for the watch, each packet a piece by itself and cut at random: the same answers and
/// the same watch. Of short ones the watch after each single call.
pub fn random(seed: u64, tally: &mut Tally) -> Result<String, String> {
    let mut random = Random::new(seed ^ 0x0077_6174_6368);
    let (mut packets, mut calls, mut prefixes) = (0, 0, 0);
    for round in 0..SESSIONS {
        let short = round % 10 < 2;
        let size = if short { SHORT } else { LONG };
        let planned = streams::plan(&mut random, round % 2 == 1, size);
        let fresh = Script {
            hold_size: HOLD_SIZE,
            fill: random.next(),
            items: Vec::new(),
        };
        let cut = deliver(&mut random, &planned, Mode::Ordered, fresh.clone());
        let items = planned.into_iter();
        let mut whole = Script {
            items: items.map(|(from, piece)| Item { from, piece }).collect(),
            ..fresh
        };
        for script in [&whole, &cut] {
            let told = compare(script).map_err(|wrong| format!("round {round}, {wrong}"))?;
            calls += told.calls.len();
        }
        let [one, two] = [&whole, &cut].map(answers);
        if one != two {
            return Err(format!(
                "round {round}, other answers or watch:\n{}{}",
                whole.lines(),
                cut.lines()
            ));
        }
        packets += one.0.len();
        tally.add(&whole);
        while short && whole.items.pop().is_some() {
            compare(&whole).map_err(|wrong| format!("part of round {round}, {wrong}"))?;
            prefixes += 1;
        }
    }
    Ok(format!(
        "{packets} packets of {SESSIONS} sessions, whole and cut, in {calls} calls; {prefixes} parts of sessions"
    ))
}

/// The numbers and the watch's bytes of a script are those that are written down.
pub fn by_hand(case: &Case) -> Result<String, String> {
    let Case { hand, rows, .. } = case;
    let script = &hand.script;
    for run in [run as Run, run_by_value] {
        has_rows(rows, &hand.told_by(run)?.watch)?;
    }
    // The plain gate agrees after each call.
    for count in 0..=script.items.len() {
        compare(&hand.first(count))?;
    }
    Ok(format!("{} calls", script.items.len()))
}

/// Whether the watch has these rows, each as 18 bytes in hex digits, and else only zero bytes.
fn has_rows(rows: &[(usize, &str)], watch: &[u8; WATCH]) -> Result<(), String> {
    let mut expected = [0; WATCH];
    for (row, digits) in rows {
        let at = (row - 16) * ROW_WATCH;
        expected[at..at + ROW_WATCH].copy_from_slice(&hex::read(digits)?);
    }
    for (row, (is, expected)) in (16..).zip(watch.chunks(ROW_WATCH).zip(expected.chunks(ROW_WATCH)))
    {
        if is != expected {
            return Err(format!(
                "row {row}: {}, not {}",
                hex::digits(is),
                hex::digits(expected)
            ));
        }
    }
    Ok(())
}

/// An output that ends within the watch takes as much of it as fits; behind the watch nothing is
/// written. Where the output ends a script, the watch is that of the calls made.
pub fn ends() -> Result<String, String> {
    let hand = by_hand::all_rows();
    let bytes = hand.script.bytes();
    let whole = hand.script.items.len();
    let mut runs = 0;
    for run in [run as Run, run_by_value] {
        for calls in 0..=whole {
            let expected = hand.first(calls).by_plain().watch;
            // More room than this has a record.
            let most = if calls == whole {
                WATCH + 20
            } else {
                RECORD - 1
            };
            for room in 0..=most {
                let mut out = vec![0xaa; calls * RECORD + room];
                let made = run(&bytes, &mut hand.script.holds(), &mut out);
                let watch = &out[calls * RECORD..];
                let (written, behind) = watch.split_at(room.min(WATCH));
                if made != calls
                    || *written != expected[..written.len()]
                    || behind.iter().any(|byte| *byte != 0xaa)
                {
                    return Err(format!(
                        "{made} of {calls} calls, {room} bytes: {}",
                        hex::digits(watch)
                    ));
                }
                runs += 1;
            }
        }
    }
    let all = by_drive(run, &hand.script).watch;
    if all[ROW_WATCH..]
        .chunks(ROW_WATCH)
        .any(|row| row[2..].contains(&0))
    {
        return Err(format!("a zero byte: {}", hex::digits(&all)));
    }
    Ok(format!("{runs} runs"))
}

/// A count reaches 65,535 and stays there; the gap moves on.
pub fn full_count(wide: bool) -> Result<String, String> {
    // Of an id that is repeated.
    let largest = if wide {
        "ffffffffffffffff"
    } else {
        "ffffffff00000000"
    };
    let row = |breaks, gap, expected| format!("{breaks} {gap} {expected}00000000000000");
    let mut hand = Hand::new(wide).start(18, 7);
    for _ in 0..65_534 {
        hand = hand.data(18, 1);
    }
    let mut points = Vec::new();
    let mut point = |hand: &Hand, row: String| points.push((hand.script.items.len(), row));
    point(&hand, row("feff", largest, "02"));
    hand = hand.data(18, 4);
    point(&hand, row("ffff", "0200000000000000", "05"));
    hand = hand.data(18, 8);
    point(&hand, row("ffff", "0300000000000000", "09"));
    for _ in 0..1000 {
        hand = hand.data(18, 8);
    }
    point(&hand, row("ffff", largest, "09"));
    hand = hand.data(18, 9).data(18, 10).start(18, 8);
    point(&hand, row("ffff", largest, "00"));
    hand = hand.data(18, 6).disconnect().introduction();
    point(&hand, row("ffff", "0600000000000000", "00"));
    hand = hand.start(18, 7).data(18, 5);
    point(&hand, row("ffff", "0500000000000000", "06"));
    for (count, row) in &points {
        let script = hand.first(*count);
        let plain = script.by_plain();
        for run in [run as Run, run_by_value] {
            let told = by_drive(run, &script);
            if told.calls.iter().any(|call| call.number != 0) {
                return Err(format!("one of {count} packets is refused"));
            }
            has_rows(&[(18, row)], &told.watch)
                .map_err(|wrong| format!("after {count} calls, {wrong}"))?;
            if let Some(wrong) = difference(&plain, &told) {
                return Err(format!("of {count} calls, {wrong}"));
            }
        }
    }
    let mut tally = Tally::default();
    tally.add(&hand.script);
    match tally.full()[usize::from(wide)] {
        0 => Err("no break at a full count".to_string()),
        full => Ok(format!(
            "{} calls, {full} breaks at a full count",
            hand.script.items.len()
        )),
    }
}
