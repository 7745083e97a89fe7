//! Counts what happens to the watch, as the plain gate sees it.

use std::collections::BTreeMap;

use plain::{Header, RowWatch, Session, Side, IN_ROWS};
use Side::{Guest, Host};

use crate::damage::{endpoint_at, status_at};
use crate::script::{Line, Script};
use crate::traffic::{BULK, INTERRUPT, ISO};

/// What has to happen in random traffic, at both widths.
const EVENTS: [&str; 29] = [
    "expected id",
    "break",
    "first id of a stream missed",
    "repeated id",
    "gap of half the ids",
    "gap over half the ids",
    "wrap",
    "gap over the wrap",
    "start on a closed stream restarts",
    "start on an open stream restarts",
    "stall to a start restarts",
    "stall to a stop restarts",
    "unasked stall restarts",
    "stall restarts a row of another type",
    "disconnect restarts",
    "status 0 to a start",
    "status 0 to a stop",
    "another status",
    "refused stall",
    "data refused with 25",
    "data refused with 28",
    "data refused with 30",
    "data refused by the wire checks",
    "reset",
    "configuration or setting",
    "row of another type by a table",
    "start or stall of an OUT row",
    "data of the guest",
    "103 OUT of the host",
];
/// What only ids of 64 bits can do.
const PAST_32_BITS: &str = "no wrap at 32 bits";
/// What only a long script does.
const FULL: &str = "break at a full count";

/// How often each event was seen with ids of 32 and of 64 bits.
#[derive(Default)]
pub struct Tally {
    counts: BTreeMap<&'static str, [usize; 2]>,
}

/// The packet of a call, and the session before it.
struct Seen<'a> {
    before: &'a Session,
    from: Side,
    kind: u32,
    id: u64,
    body: &'a [u8],
    number: u8,
}

impl Seen<'_> {
    fn byte(&self, at: usize) -> u8 {
        self.body.get(at).copied().unwrap_or(0)
    }

    fn row(&self) -> usize {
        let endpoint = self.byte(endpoint_at(self.kind));
        usize::from(endpoint & 15 | endpoint >> 7 << 4)
    }

    /// The row's watch before the call, if it is an IN row.
    fn watch(&self) -> Option<RowWatch> {
        let row = self.row().checked_sub(16)?;
        Some(self.before.watch()[row])
    }

    fn status(&self) -> u8 {
        self.byte(status_at(self.kind))
    }
}

impl Tally {
    /// Adds what happens in a script.
    pub fn add(&mut self, script: &Script) {
        let mut line = Line::new(script);
        // The last packet of a row's stream had the largest id.
        let mut at_end = [false; IN_ROWS];
        for item in &script.items {
            let before = line.session.clone();
            let call = line.call(item.from, &item.piece);
            let packet = line.told(item.from, &item.piece);
            let Some(header) = Header::read(&packet, before.is_wide()) else {
                continue;
            };
            let seen = Seen {
                before: &before,
                from: item.from,
                kind: header.kind,
                id: header.id,
                body: &packet[header.size..],
                number: call.number,
            };
            for event in events(&seen, &line.session, &mut at_end) {
                self.counts.entry(event).or_default()[usize::from(before.is_wide())] += 1;
            }
            // What restarted a row, or all.
            for (at, ends) in at_end.iter_mut().enumerate() {
                *ends &= !restarts(&seen, at);
            }
        }
    }

    /// The counts of all events, and an error where one that random traffic has is missing.
    pub fn check(&self) -> Result<String, String> {
        let mut table = String::new();
        let mut missing = Vec::new();
        for event in EVENTS.into_iter().chain([PAST_32_BITS]) {
            let [narrow, wide] = self.of(event);
            table.push_str(&format!("\n        {event}: {narrow}, {wide}"));
            if narrow == 0 && event != PAST_32_BITS || wide == 0 {
                missing.push(event);
            }
        }
        if missing.is_empty() {
            Ok(format!("how often with ids of 32 and 64 bits{table}"))
        } else {
            Err(format!("missing {missing:?}{table}"))
        }
    }

    /// How often a break was seen whose count is full.
    pub fn full(&self) -> [usize; 2] {
        self.of(FULL)
    }

    fn of(&self, event: &str) -> [usize; 2] {
        self.counts.get(event).copied().unwrap_or_default()
    }
}

/// What a call did to the watch, or didn't where it might have.
fn events(seen: &Seen, after: &Session, at_end: &mut [bool; IN_ROWS]) -> Vec<&'static str> {
    let Seen {
        before,
        from,
        kind,
        number,
        ..
    } = *seen;
    let passes = number == 0;
    let expects = |watch: Option<RowWatch>| watch.is_some_and(|watch| watch.expected != 0);
    let any_expects = before.watch().iter().any(|watch| watch.expected != 0);
    match (from, kind) {
        (Guest, 102 | 103) if passes => vec!["data of the guest"],
        (Host, 103) if seen.row() < 16 => {
            if passes {
                vec!["103 OUT of the host"]
            } else {
                vec![]
            }
        }
        (Host, 102..=104) if passes => data(seen, after, at_end),
        (Host, 102..=104) => match seen.watch() {
            Some(watch) if watch.expected != seen.id => vec![match number {
                25 => "data refused with 25",
                28 => "data refused with 28",
                30 => "data refused with 30",
                _ => "data refused by the wire checks",
            }],
            _ => vec![],
        },
        (Guest, 12 | 15 | 25) if passes => match seen.row().checked_sub(16) {
            None => vec!["start or stall of an OUT row"],
            Some(_) => match expects(seen.watch()) {
                false => vec![],
                true if before.stream_open(seen.row()) => {
                    vec!["start on an open stream restarts"]
                }
                true => vec!["start on a closed stream restarts"],
            },
        },
        (Host, 14 | 17 | 27) => status(seen),
        (Host, 2) if passes && any_expects => vec!["disconnect restarts"],
        (Guest, 3) if passes && any_expects => vec!["reset"],
        (Host, 8 | 11) if passes && seen.status() == 0 && any_expects => {
            vec!["configuration or setting"]
        }
        (Host, 5) if passes => {
            let changed = (16..32).any(|row| {
                before.row_type(row) != after.row_type(row)
                    && before.watch()[row - 16].expected != 0
            });
            if changed {
                vec!["row of another type by a table"]
            } else {
                vec![]
            }
        }
        _ => vec![],
    }
}

/// Of a stream packet that passed.
fn data(seen: &Seen, after: &Session, at_end: &mut [bool; IN_ROWS]) -> Vec<&'static str> {
    let (largest, half) = if seen.before.is_wide() {
        (u64::MAX, 1 << 63)
    } else {
        (u64::from(u32::MAX), 1 << 31)
    };
    let at = seen.row() - 16;
    let (was, is) = (seen.before.watch()[at], after.watch()[at]);
    let mut events = Vec::new();
    if seen.id == was.expected {
        events.push("expected id");
        if at_end[at] {
            events.push("wrap");
        }
        if seen.id == 1 << 32 {
            events.push(PAST_32_BITS);
        }
    } else {
        events.push("break");
        if was.breaks == u16::MAX {
            events.push(FULL);
        }
        if was.expected == 0 && !at_end[at] {
            events.push("first id of a stream missed");
        }
        if is.last_gap == largest {
            events.push("repeated id");
        }
        if is.last_gap == half {
            events.push("gap of half the ids");
        }
        if is.last_gap > half && is.last_gap < largest {
            events.push("gap over half the ids");
        }
        if is.last_gap < half && seen.id < was.expected {
            events.push("gap over the wrap");
        }
    }
    at_end[at] = seen.id == largest;
    events
}

/// Whether a call restarts an IN row.
fn restarts(seen: &Seen, at: usize) -> bool {
    let named = seen.row() == at + 16;
    seen.number == 0
        && match seen.kind {
            2 => true,
            12 | 15 | 25 => named,
            14 | 17 | 27 => named && seen.status() == 4,
            _ => false,
        }
}

/// Of a 14, 17 or 27.
fn status(seen: &Seen) -> Vec<&'static str> {
    let stalls = seen.status() == 4;
    let Some(watch) = seen.watch() else {
        return if seen.number == 0 && stalls {
            vec!["start or stall of an OUT row"]
        } else {
            vec![]
        };
    };
    if watch.expected == 0 {
        return vec![];
    }
    if seen.number != 0 {
        return if stalls {
            vec!["refused stall"]
        } else {
            vec![]
        };
    }
    let (start, stop, own) = match seen.kind {
        14 => (12, 13, ISO),
        17 => (15, 16, INTERRUPT),
        _ => (25, 26, BULK),
    };
    let endpoint = seen.byte(endpoint_at(seen.kind));
    let answered = seen.before.live_requests().find(|request| {
        request.id == seen.id
            && request.target == endpoint
            && (request.kind == start || request.kind == stop)
    });
    let asked = answered.map(|request| request.kind);
    let mut events = vec![match (seen.status(), asked) {
        (4, None) => "unasked stall restarts",
        (4, Some(kind)) if kind == start => "stall to a start restarts",
        (4, Some(_)) => "stall to a stop restarts",
        (0, Some(kind)) if kind == start => "status 0 to a start",
        (0, Some(_)) => "status 0 to a stop",
        _ => "another status",
    }];
    if stalls && seen.before.row_type(seen.row()) != own {
        events.push("stall restarts a row of another type");
    }
    events
}
