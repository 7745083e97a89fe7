//! Scripts of reader calls, and what came of them.

use std::ops::Range;

use library::{record_of, watch_of, ROW_WATCH, WATCH};
use plain::{offer, Session, Side};
use tools::{hex, Random};

/// One reader call.
#[derive(Clone)]
pub struct Item {
    pub from: Side,
    pub piece: Vec<u8>,
}

/// A fresh session, two holding buffers, and reader calls.
#[derive(Clone)]
pub struct Script {
    /// Of each of the two.
    pub hold_size: usize,
    /// What the buffers hold before.
    pub fill: u64,
    pub items: Vec<Item>,
}

/// What a call told.
#[derive(Clone, Copy, Debug, PartialEq, Eq)]
pub struct Call {
    pub number: u8,
    pub place: u8,
    pub taken: u32,
    pub size: u32,
    pub start: u32,
    pub end: u32,
    pub id: u64,
}

/// What a script's calls told, and the buffers and the watch after them.
#[derive(PartialEq, Eq)]
pub struct Outcome {
    pub calls: Vec<Call>,
    pub holds: Vec<u8>,
    pub watch: [u8; WATCH],
}

impl Script {
    /// The bytes that the library is given: for each item the sender, the piece's size, the piece.
    /// Any byte but 0 stands for the host.
    pub fn bytes(&self) -> Vec<u8> {
        let mut bytes = Vec::new();
        for (at, item) in self.items.iter().enumerate() {
            bytes.push(match item.from {
                Side::Guest => 0,
                Side::Host => [1, 1, 2, 128, 255][at % 5],
            });
            bytes.extend((item.piece.len() as u32).to_le_bytes());
            bytes.extend(&item.piece);
        }
        bytes
    }

    /// The buffers as they are before the first call: the guest's, the host's and, for some scripts, a byte that is in neither.
    pub fn holds(&self) -> Vec<u8> {
        Random::new(self.fill).bytes(2 * self.hold_size + (self.fill % 2) as usize)
    }

    pub fn by_plain(&self) -> Outcome {
        let mut line = Line::new(self);
        for item in &self.items {
            line.call(item.from, &item.piece);
        }
        line.outcome()
    }

    /// As lines of a report, to be read by people.
    pub fn lines(&self) -> String {
        let mut text = format!("buffers of {} bytes\n", self.hold_size);
        for item in &self.items {
            let from = match item.from {
                Side::Guest => "guest",
                Side::Host => "host",
            };
            let digits = hex::digits(&item.piece);
            text.push_str(&format!("from={from} bytes={digits}\n"));
        }
        text
    }
}

/// A plain session at work, with its two buffers and what was told so far.
pub struct Line {
    pub session: Session,
    hold_size: usize,
    holds: Vec<u8>,
    pub calls: Vec<Call>,
}

impl Line {
    pub fn new(script: &Script) -> Line {
        Line {
            session: Session::new(),
            hold_size: script.hold_size,
            holds: script.holds(),
            calls: Vec::new(),
        }
    }

    /// Where a side's own buffer stands.
    fn own(&self, from: Side) -> Range<usize> {
        let start = match from {
            Side::Guest => 0,
            Side::Host => self.hold_size,
        };
        start..start + self.hold_size
    }

    pub fn call(&mut self, from: Side, piece: &[u8]) -> Call {
        let own = self.own(from);
        let hold = &mut self.holds[own];
        let answer = offer(&mut self.session, from, hold, piece);
        let call = Call::read(&record_of(&answer));
        self.calls.push(call);
        call
    }

    /// The bytes of the packet, or refused header, that the last call told of.
    pub fn told(&self, from: Side, piece: &[u8]) -> Vec<u8> {
        let call = self.calls.last().expect("a call was made");
        let hold = &self.holds[self.own(from)];
        match call.place {
            1 => piece[..call.size as usize].to_vec(),
            2 => hold[..call.size as usize].to_vec(),
            _ => Vec::new(),
        }
    }

    pub fn outcome(self) -> Outcome {
        Outcome {
            watch: watch_of(&self.session),
            calls: self.calls,
            holds: self.holds,
        }
    }
}

impl Call {
    /// What a record says.
    pub fn read(bytes: &[u8]) -> Call {
        let u32_at = |at: usize| u32::from_le_bytes(bytes[at..at + 4].try_into().expect("4 bytes"));
        Call {
            number: bytes[0],
            place: bytes[1],
            taken: u32_at(2),
            size: u32_at(6),
            start: u32_at(10),
            end: u32_at(14),
            id: u64::from_le_bytes(bytes[18..26].try_into().expect("8 bytes")),
        }
    }

    /// Whether the call told of a packet or of a refused header.
    pub fn tells(&self) -> bool {
        !matches!(self.number, 1 | 2 | 3 | 41 | 43)
    }
}

/// The first thing in which two outcomes differ.
pub fn difference(plain: &Outcome, drive: &Outcome) -> Option<String> {
    if plain == drive {
        return None;
    }
    for (at, (left, right)) in plain.calls.iter().zip(&drive.calls).enumerate() {
        if left != right {
            return Some(format!("call {}: plain {left:?}, drive {right:?}", at + 1));
        }
    }
    if plain.calls.len() != drive.calls.len() {
        return Some(format!(
            "plain made {} calls, drive {}",
            plain.calls.len(),
            drive.calls.len()
        ));
    }
    let mut bytes = plain.holds.iter().zip(&drive.holds);
    if let Some(at) = bytes.position(|(left, right)| left != right) {
        return Some(format!(
            "buffers at {at}: plain {:02x}, drive {:02x}",
            plain.holds[at], drive.holds[at]
        ));
    }
    let mut rows = (16..)
        .zip(plain.watch.chunks(ROW_WATCH))
        .zip(drive.watch.chunks(ROW_WATCH));
    let ((row, left), right) = rows.find(|((_, left), right)| left != right)?;
    Some(format!(
        "watch of row {row}: plain {}, drive {}",
        hex::digits(left),
        hex::digits(right)
    ))
}
