//! Cuts packets into reader calls.

use plain::Side;
use tools::Random;
use Side::{Guest, Host};

use crate::script::{Call, Item, Line, Script};
use crate::traffic::Sent;

/// How packets reach the gate.
#[derive(Clone, Copy, Debug, PartialEq, Eq)]
pub enum Mode {
    /// They become whole in their order; what a call leaves is offered again.
    Ordered,
    /// The same, but now and then what a call leaves is lost.
    Dropping,
    /// As report lines: a piece is offered until it is used up or answered 2 or 3.
    Report,
    /// Each side's bytes in order, the sides in any.
    Loose,
}

/// Calls answered 2, 3, 41 or 43 after which a delivery ends.
const PATIENCE: usize = 30;

struct Delivery<'a> {
    random: &'a mut Random,
    script: Script,
    line: Line,
    streams: [Vec<u8>; 2],
    /// Bytes of each stream that were taken or lost.
    at: [usize; 2],
    patience: usize,
    /// Whether pieces are mostly small.
    fine: bool,
}

fn index(side: Side) -> usize {
    match side {
        Guest => 0,
        Host => 1,
    }
}

/// A script that carries these packets, made while the plain gate answers. `script` gives the
/// buffers.
pub fn deliver(random: &mut Random, packets: &[Sent], mode: Mode, script: Script) -> Script {
    let mut streams = [Vec::new(), Vec::new()];
    let mut order = Vec::new();
    for (side, bytes) in packets {
        streams[index(*side)].extend(bytes);
        order.push((*side, streams[index(*side)].len()));
    }
    let line = Line::new(&script);
    let fine = random.percent(40);
    let mut delivery = Delivery {
        random,
        script,
        line,
        streams,
        at: [0, 0],
        patience: PATIENCE,
        fine,
    };
    match mode {
        Mode::Ordered => delivery.ordered(&order, false),
        Mode::Dropping => delivery.ordered(&order, true),
        Mode::Report => delivery.report(packets),
        Mode::Loose => delivery.loose(),
    }
    delivery.script
}

impl Delivery<'_> {
    fn call(&mut self, from: Side, piece: Vec<u8>) -> Call {
        let call = self.line.call(from, &piece);
        if matches!(call.number, 2 | 3 | 41 | 43) {
            self.patience = self.patience.saturating_sub(1);
        }
        self.script.items.push(Item { from, piece });
        call
    }

    /// Offers the next bytes of a stream.
    fn next_bytes(&mut self, from: Side, size: usize) -> Call {
        let side = index(from);
        let piece = self.streams[side][self.at[side]..self.at[side] + size].to_vec();
        let call = self.call(from, piece);
        self.at[side] += call.taken as usize;
        call
    }

    /// The size of a piece where `need` bytes end a packet and `rest` are there.
    fn cut(&mut self, need: usize, rest: usize) -> usize {
        let size = match self.random.below(10) {
            _ if self.fine && need < 200 => self.random.between(1, 6),
            0 => 1,
            1 => self.random.between(1, 16),
            2 => self.random.between(1, need),
            3 => need.saturating_sub(1).max(1),
            4..=6 => need,
            7 => need + 1,
            8 => need + self.random.below(200),
            _ => need + self.random.below(4000),
        };
        size.min(rest)
    }

    fn ordered(&mut self, order: &[(Side, usize)], drops: bool) {
        for (side, end) in order.iter().copied() {
            while self.at[index(side)] < end {
                if self.patience == 0 {
                    return;
                }
                match self.random.below(100) {
                    0..=2 => {
                        let from = self.random.pick(&[Guest, Host]);
                        self.next_bytes(from, 0);
                    }
                    3..=9 => self.early(side.other(), order),
                    _ => {
                        let at = self.at[index(side)];
                        let rest = self.streams[index(side)].len() - at;
                        let size = self.cut(end - at, rest);
                        let call = self.next_bytes(side, size);
                        if drops && call.tells() && self.random.percent(4) {
                            self.at[index(side)] += size - call.taken as usize;
                        }
                    }
                }
            }
        }
        while self.patience > PATIENCE / 2 && self.random.percent(90) {
            let from = self.random.pick(&[Guest, Host]);
            let rest = self.streams[index(from)].len() - self.at[index(from)];
            self.next_bytes(from, rest.min(3));
        }
    }

    /// Offers bytes of a side whose next packet isn't to become whole yet.
    fn early(&mut self, from: Side, order: &[(Side, usize)]) {
        let at = self.at[index(from)];
        let next_end = order.iter().find(|(side, end)| *side == from && *end > at);
        if let Some((_, end)) = next_end {
            let size = self.random.below((end - at).min(40));
            self.next_bytes(from, size);
        }
    }

    fn report(&mut self, packets: &[Sent]) {
        let mut at = 0;
        while at < packets.len() && self.patience > 0 {
            let side = packets[at].0;
            let mut joined = Vec::new();
            let most = self.random.pick(&[1, 1, 2, 5, 20]);
            let same = packets[at..]
                .iter()
                .take(most)
                .take_while(|packet| packet.0 == side);
            for (_, bytes) in same {
                joined.extend(bytes);
                at += 1;
            }
            let mut lines: &[u8] = &joined;
            while !lines.is_empty() {
                let size = if self.random.percent(50) {
                    lines.len()
                } else {
                    self.random.between(1, lines.len())
                };
                let (piece, others) = lines.split_at(size.min(4096));
                lines = others;
                let mut rest = piece;
                while !rest.is_empty() {
                    let call = self.call(side, rest.to_vec());
                    if matches!(call.number, 2 | 3 | 41) {
                        break;
                    }
                    rest = &rest[call.taken as usize..];
                }
            }
        }
    }

    fn loose(&mut self) {
        while self.patience > 0 {
            let rests = [0, 1].map(|side| self.streams[side].len() - self.at[side]);
            let from = match rests {
                [0, 0] => return,
                [_, 0] => Guest,
                [0, _] => Host,
                _ => self.random.pick(&[Guest, Host]),
            };
            let rest = rests[index(from)];
            let near = self.random.between(1, 300).min(rest);
            let size = self.cut(near, rest);
            self.next_bytes(from, size);
        }
    }
}
