//! Every status byte in every kind that carries one: both ends, both widths of an id, replies to each
//! kind of request, and statuses that answer none. The numbers are those written down here, and the
//! plain gate agrees, in its watch too.

use plain::Side;
use tools::hex;
use Side::{Guest, Host};

use crate::by_hand::{width, Hand, BULK_RECEIVING, MAX_PACKET, STREAMS};
use crate::drive::{compare, run, run_by_value, Run};
use crate::traffic::{BULK, INTERRUPT, ISO};

/// The rows of the device: streams on 18, 19 and 20, which are open; the others take requests.
const ROWS: [(usize, u8); 7] = [
    (1, ISO),
    (2, BULK),
    (3, INTERRUPT),
    (18, ISO),
    (19, INTERRUPT),
    (20, BULK),
    (21, BULK),
];
const SUCCESS: u8 = 0;
const STALL: u8 = 4;
/// The id of the request that is answered, and of one that no request has.
const ASKED: u64 = 40;
const UNKNOWN: u64 = 41;
/// The id of a bulk request that waits besides.
const WAITING: u64 = 50;

/// What a packet does, by its status.
#[derive(Clone, Copy, PartialEq)]
enum Effect {
    /// It answers the request and ends nothing.
    Answers,
    /// It answers a set configuration, or a set alt of the rows' interface.
    Settles,
    /// It answers a start or a stop of the stream of this row.
    Starts(usize),
    Stops(usize),
    /// It answers no request, with id 0, on this row; the row has another type.
    Unasked(usize),
    UnaskedElsewhere,
    /// It answers no request, with another id.
    Unmatched,
    /// It is a request, or data on a stream.
    Asks,
    Streams,
}

/// A packet, its body in hex digits with `ss` for the status, and the request that is made before it.
struct Sample {
    asked: Option<(u32, &'static str)>,
    from: Side,
    kind: u32,
    id: u64,
    body: &'static str,
    effect: Effect,
}

impl Sample {
    /// The script, and behind it the packet with this status, which gets that number.
    fn sent(&self, hand: Hand, status: u8, number: u8) -> Hand {
        let body = bytes(&self.body.replace("ss", &format!("{status:02x}")));
        hand.sent(self.from, self.kind, self.id, &body, number)
    }
}

use Effect::*;

/// A reply to this request.
fn reply(
    asked: u32,
    request: &'static str,
    kind: u32,
    body: &'static str,
    effect: Effect,
) -> Sample {
    Sample {
        asked: Some((asked, request)),
        ..alone(Host, kind, ASKED, body, effect)
    }
}

/// A packet before which no request is made.
fn alone(from: Side, kind: u32, id: u64, body: &'static str, effect: Effect) -> Sample {
    Sample {
        asked: None,
        from,
        kind,
        id,
        body,
        effect,
    }
}

/// The samples: replies by the kind of their request, then what answers none, then the rest.
fn samples() -> Vec<Sample> {
    vec![
        reply(6, "01", 8, "ss 01", Settles),
        reply(7, "", 8, "ss 01", Answers),
        reply(9, "00 01", 11, "ss 00 01", Settles),
        reply(9, "01 01", 11, "ss 01 01", Answers),
        reply(10, "00", 11, "ss 00 01", Answers),
        reply(12, "82 01 01", 14, "ss 82", Starts(18)),
        reply(13, "82", 14, "ss 82", Stops(18)),
        reply(15, "83", 17, "ss 83", Starts(19)),
        reply(16, "83", 17, "ss 83", Stops(19)),
        reply(18, "00002000 04000000", 20, "00002000 04000000 ss", Answers),
        reply(19, "00002000", 20, "00002000 00000000 ss", Answers),
        reply(
            25,
            "00000000 40000000 84 01",
            27,
            "00000000 84 ss",
            Starts(20),
        ),
        reply(26, "00000000 84", 27, "00000000 84 ss", Stops(20)),
        reply(
            100,
            "80 06 80 00 0001 0000 0400",
            100,
            "80 06 80 ss 0001 0000 0200 1201",
            Answers,
        ),
        reply(
            100,
            "00 09 00 00 0100 0000 0100 55",
            100,
            "00 09 00 ss 0100 0000 0100",
            Answers,
        ),
        reply(
            101,
            "85 00 0400 00000000",
            101,
            "85 ss 0100 00000000 77",
            Answers,
        ),
        reply(
            101,
            "02 00 0100 00000000 55",
            101,
            "02 ss 0100 00000000",
            Answers,
        ),
        reply(103, "03 00 0100 55", 103, "03 ss 0100", Answers),
        alone(Host, 14, 0, "ss 82", Unasked(18)),
        alone(Host, 17, 0, "ss 83", Unasked(19)),
        alone(Host, 27, 0, "00000000 84 ss", Unasked(20)),
        alone(Host, 14, 0, "ss 83", UnaskedElsewhere),
        alone(Host, 17, 0, "ss 84", UnaskedElsewhere),
        alone(Host, 27, 0, "00000000 82 ss", UnaskedElsewhere),
        alone(Host, 14, UNKNOWN, "ss 82", Unmatched),
        alone(Host, 17, UNKNOWN, "ss 83", Unmatched),
        alone(Host, 27, UNKNOWN, "00000000 84 ss", Unmatched),
        alone(Host, 8, 0, "ss 01", Unmatched),
        alone(Host, 11, 0, "ss 00 01", Unmatched),
        alone(Host, 20, 0, "00002000 04000000 ss", Unmatched),
        alone(Host, 100, 0, "80 06 80 ss 0001 0000 0000", Unmatched),
        alone(Host, 101, 0, "85 ss 0000 00000000", Unmatched),
        alone(Host, 103, 0, "03 ss 0100", Unmatched),
        alone(Host, 102, 0, "82 ss 0100 77", Streams),
        alone(Host, 103, 0, "83 ss 0100 77", Streams),
        alone(Host, 104, 0, "00000000 01000000 84 ss 77", Streams),
        alone(Guest, 100, ASKED, "80 06 80 ss 0001 0000 0400", Asks),
        alone(Guest, 101, ASKED, "02 ss 0100 00000000 55", Asks),
        alone(Guest, 103, ASKED, "03 ss 0100 55", Asks),
        Sample {
            asked: Some((12, "01 01 01")),
            ..alone(Guest, 102, 9, "01 ss 0100 55", Streams)
        },
    ]
}

fn bytes(digits: &str) -> Vec<u8> {
    hex::read(digits).expect("hex digits")
}

/// The word that both hellos offer.
fn word(wide: bool) -> u32 {
    STREAMS | MAX_PACKET | BULK_RECEIVING | width(wide)
}

/// The session with everything that a status could end, the packet with this status, and what shows
/// what it ended: the same packet again, the reply to the request that waits, data on each stream,
/// and the replies to the starts.
fn script(sample: &Sample, wide: bool, status: u8) -> Hand {
    let mut hand = Hand::with(word(wide), ROWS.to_vec())
        .start(18, 60)
        .start(19, 61)
        .start(20, 62)
        .data(18, 0)
        .data(19, 0)
        .data(20, 0)
        .sent(Guest, 101, WAITING, &[0x85, 0, 4, 0, 0, 0, 0, 0], 0);
    if let Some((kind, body)) = sample.asked {
        hand = hand.sent(Guest, kind, ASKED, &bytes(body), 0);
    }
    let (number, again) = match sample.effect {
        Unasked(_) | UnaskedElsewhere if status == STALL => (0, 0),
        Unasked(_) | UnaskedElsewhere | Unmatched => (33, 33),
        Asks => (0, 31),
        Streams => (0, 0),
        // Twice, a status to a start or stop is a late reply, also as a stall: its id is not 0.
        Answers | Settles | Starts(_) | Stops(_) => (0, 33),
    };
    let settled = sample.effect == Settles && status == SUCCESS;
    let open = |row| match sample.effect {
        Settles => status != SUCCESS,
        Starts(of) => of != row || status == SUCCESS,
        Stops(of) => of != row,
        Unasked(of) => of != row || status != STALL,
        _ => true,
    };
    hand = sample.sent(hand, status, number);
    hand = sample.sent(hand, status, again);
    let answered = if settled { 33 } else { 0 };
    hand = hand.sent(Host, 101, WAITING, &[0x85, 0, 0, 0, 0, 0, 0, 0], answered);
    for row in [18, 19, 20] {
        hand = hand.data(row, 1);
        if !open(row) {
            hand = hand.refused(30);
        }
    }
    // The starts still wait, and their success opens.
    for (row, id) in [(18, 60), (19, 61), (20, 62)] {
        hand = hand.status(row, id, SUCCESS).data(row, 2);
    }
    hand
}

/// The packet with this status where there is no device.
fn after_disconnect(sample: &Sample, wide: bool, status: u8) -> Hand {
    let hand = Hand::with(word(wide), ROWS.to_vec()).disconnect();
    sample.sent(hand, status, 25)
}

pub fn every_byte() -> Result<String, String> {
    let samples = samples();
    let mut calls = 0;
    for sample in &samples {
        for wide in [false, true] {
            for status in 0..=255 {
                for make in [script, after_disconnect] {
                    let hand = make(sample, wide, status);
                    as_written(&hand).map_err(|wrong| {
                        let Sample { from, kind, id, .. } = sample;
                        format!("{from:?} {kind}, id {id}, status {status}, wide {wide}: {wrong}")
                    })?;
                    calls += hand.numbers.len();
                }
            }
        }
    }
    Ok(format!(
        "{} packets with each status, in {calls} calls",
        samples.len()
    ))
}

/// Both functions of the library give the numbers that are written down. The plain gate gives the
/// same answers, and has the same buffers and the same watch at the end.
fn as_written(hand: &Hand) -> Result<(), String> {
    for run in [run as Run, run_by_value] {
        hand.told_by(run)?;
    }
    compare(&hand.script).map(drop)
}
