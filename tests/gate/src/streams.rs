//! Traffic for the watch: streams of some IN rows, whose ids are expected, repeated, skipped or far
//! away, with all in between that restarts the watch, and that doesn't.

use plain::{Request, Side};
use tools::Random;
use Side::{Guest, Host};

use crate::damage::endpoint_at;
use crate::traffic::{
    endpoint_of, plan_by, shared_sets, Planner, Sent, Style, BULK, INTERRUPT, ISO,
};

/// The rows that most of it is for.
const ROWS: [usize; 6] = [17, 18, 19, 20, 23, 31];

/// How far ahead of the expected id the next may lie.
const JUMPS: [u64; 10] = [
    (1 << 31) - 1,
    1 << 31,
    (1 << 31) + 1,
    (1 << 32) - 1,
    1 << 32,
    (1 << 32) + 1,
    (1 << 63) - 1,
    1 << 63,
    (1 << 63) + 1,
    u64::MAX - 1,
];

/// So many packets in their order, with ids of 64 or 32 bits.
pub fn plan(random: &mut Random, wide: bool, packets: usize) -> Vec<Sent> {
    let sets = shared_sets();
    let mut shared = random.pick(&sets) & !32 | u32::from(wide) << 5;
    if random.percent(90) {
        shared |= 128;
    }
    let style = Style {
        packets,
        damage: random.pick(&[0, 0, 2]),
        stops: false,
        flood: false,
        big: 0,
        ..Style::random(random, shared)
    };
    plan_by(random, &style, |planner| planner.next_for_watch())
}

impl Planner<'_> {
    fn next_for_watch(&mut self) -> Sent {
        if !self.is_free() {
            return self.next();
        }
        // Few requests wait.
        if self.session().live_requests().count() > 10 && self.random.percent(30) {
            return (Host, self.reply());
        }
        match self.random.below(100) {
            0..=56 => (Host, self.watched_data()),
            57..=63 => (Guest, self.start_or_stop(true)),
            64..=66 => (Guest, self.start_or_stop(false)),
            67..=76 => (Host, self.status()),
            77..=80 => (Host, self.unasked_stall()),
            81..=86 => (Host, self.refused_data()),
            87..=89 => self.out_packet(),
            90 => self.new_setting(),
            91 => (Host, self.changed_table()),
            92 if self.random.percent(60) => (Guest, self.guest_kind(3)),
            93 if self.random.percent(60) => (Host, self.frame(2, 0, &[])),
            _ => self.next(),
        }
    }

    /// A row of ROWS that can have a stream, or None if there is none; now and then another one.
    fn stream_row(&mut self) -> Option<usize> {
        let rows: Vec<usize> = if self.random.percent(5) {
            (16..32).collect()
        } else {
            ROWS.to_vec()
        };
        let types: &[u8] = if self.has(7) {
            &[ISO, INTERRUPT, BULK]
        } else {
            &[ISO, INTERRUPT]
        };
        let fit: Vec<usize> = rows
            .into_iter()
            .filter(|row| types.contains(&self.session().row_type(*row)))
            .collect();
        if fit.is_empty() {
            None
        } else {
            Some(self.random.pick(&fit))
        }
    }

    // ---- ids and data ----

    /// Mostly the id that the row expects.
    fn watched_id(&mut self, row: usize) -> u64 {
        let expected = self.session().watch()[row - 16].expected;
        let largest = self.largest_id();
        let id = match self.random.below(100) {
            0..=54 => expected,
            55..=61 => expected.wrapping_sub(1),
            62..=69 => expected.wrapping_add(self.random.between(1, 5) as u64),
            70..=82 => expected.wrapping_add(self.random.pick(&JUMPS)),
            // Just before the wrap, and before one that 64 bits don't have.
            83..=90 => largest - self.random.below(3) as u64,
            91..=94 => u64::from(u32::MAX) - self.random.below(3) as u64,
            95..=97 => self.random.below(2) as u64,
            _ => self.random.near_power(),
        };
        id & largest
    }

    fn largest_id(&self) -> u64 {
        if self.session().is_wide() {
            u64::MAX
        } else {
            u64::from(u32::MAX)
        }
    }

    /// A stream packet of the host.
    fn data_of(&mut self, kind: u32, id: u64, row: usize, status: u8) -> Vec<u8> {
        let size = self.random.below(4);
        let (endpoint, length) = (endpoint_of(row), size as u8);
        let mut body = if kind == 104 {
            vec![0, 0, 0, 0, length, 0, 0, 0, endpoint, status]
        } else {
            vec![endpoint, status, length, 0]
        };
        body.extend(self.random.bytes(size));
        self.frame(kind, id, &body)
    }

    /// Data of an open stream, or a start where there is none.
    fn watched_data(&mut self) -> Vec<u8> {
        let open: Vec<usize> = (16..32)
            .filter(|row| self.session().stream_open(*row))
            .collect();
        if open.is_empty() {
            return self.start_or_stop(true);
        }
        let row = self.random.pick(&open);
        let id = self.watched_id(row);
        let status = self.random.byte();
        let kind = self.data_kind(row);
        self.data_of(kind, id, row, status)
    }

    /// The kind of stream data that a row's type asks for.
    fn data_kind(&self, row: usize) -> u32 {
        match self.session().row_type(row) {
            ISO => 102,
            BULK => 104,
            _ => 103,
        }
    }

    /// Data of a closed stream, of another kind than the row's, or with a wrong field or size. Mostly
    /// its id isn't the expected one.
    fn refused_data(&mut self) -> Vec<u8> {
        let row = self.stream_row().unwrap_or(16);
        let id = match self.random.below(3) {
            0 => self.watched_id(row),
            _ => self.random.near_power() & self.largest_id(),
        };
        match self.random.below(4) {
            0 => {
                let kind = self.random.pick(&[102, 103, 104]);
                self.data_of(kind, id, row, 0)
            }
            1 => {
                let kind = self.data_kind(row);
                let header = self.header_size(kind);
                let mut bytes = self.data_of(kind, id, row, 0);
                bytes[header + endpoint_at(kind)] ^= self.random.pick(&[0x10, 0x20, 0x40]);
                bytes
            }
            2 => {
                let kind = self.data_kind(row);
                let mut bytes = self.data_of(kind, id, row, 0);
                bytes.push(0);
                bytes[4] += 1;
                bytes
            }
            _ => {
                let rows = (16..32).filter(|row| !self.session().stream_open(*row));
                let closed: Vec<usize> = rows.collect();
                let row = self.random.pick(&closed);
                let kind = self.data_kind(row);
                self.data_of(kind, id, row, 0)
            }
        }
    }

    // ---- starts, stops and statuses ----

    fn start_or_stop(&mut self, start: bool) -> Vec<u8> {
        let Some(row) = self.stream_row() else {
            return self.changed_table();
        };
        let (id, endpoint) = (self.request_id(), endpoint_of(row));
        match (self.session().row_type(row), start) {
            (ISO, true) => self.frame(12, id, &[endpoint, 4, 2]),
            (ISO, false) => self.frame(13, id, &[endpoint]),
            (BULK, true) => self.frame(25, id, &[0, 0, 0, 0, 0, 2, 0, 0, endpoint, 4]),
            (BULK, false) => self.frame(26, id, &[0, 0, 0, 0, endpoint]),
            (_, true) => self.frame(15, id, &[endpoint]),
            (_, false) => self.frame(16, id, &[endpoint]),
        }
    }

    /// The status to a start or stop, mostly 0 or 4.
    fn status(&mut self) -> Vec<u8> {
        let live = self.session().live_requests();
        let asked: Vec<Request> = live
            .filter(|request| matches!(request.kind, 12 | 13 | 15 | 16 | 25 | 26))
            .collect();
        if asked.is_empty() {
            return self.start_or_stop(true);
        }
        let request = self.random.pick(&asked);
        let any = self.random.byte();
        let status = self.random.weighed(&[(5, 0), (4, 4), (2, any)]);
        let kind = match request.kind {
            12 | 13 => 14,
            15 | 16 => 17,
            _ => 27,
        };
        self.status_of(kind, request.id, request.target, status)
    }

    fn status_of(&self, kind: u32, id: u64, endpoint: u8, status: u8) -> Vec<u8> {
        if kind == 27 {
            self.frame(27, id, &[0, 0, 0, 0, endpoint, status])
        } else {
            self.frame(kind, id, &[status, endpoint])
        }
    }

    /// A stall that no request asked for, by any of the kinds.
    fn unasked_stall(&mut self) -> Vec<u8> {
        let row = self.stream_row().unwrap_or(16);
        let own = match self.session().row_type(row) {
            ISO => 14,
            BULK => 27,
            _ => 17,
        };
        let other = self.random.pick(&[14, 17, 27]);
        let kind = self.random.weighed(&[(2, own), (1, other)]);
        // With another id or status it is refused.
        let id = u64::from(self.random.one_in(6));
        let any = self.random.byte();
        let status = self.random.weighed(&[(18, 4), (1, 3), (1, any)]);
        self.status_of(kind, id, endpoint_of(row), status)
    }

    // ---- what the watch does not follow ----

    /// Starts, data and stalls of OUT rows, some with the numbers of ROWS.
    fn out_packet(&mut self) -> Sent {
        let row = self.random.between(1, 15);
        let interrupts: Vec<Request> = self
            .session()
            .live_requests()
            .filter(|request| request.kind == 103)
            .collect();
        match self.random.below(5) {
            0 => (Guest, self.guest_kind(12)),
            1 => (Guest, self.guest_kind(102)),
            2 => {
                let kind = self.random.pick(&[14, 17]);
                (Host, self.status_of(kind, 0, endpoint_of(row), 4))
            }
            3 if !interrupts.is_empty() => {
                let request = self.random.pick(&interrupts);
                (Host, self.reply_to(request))
            }
            _ => (Guest, self.guest_kind(103)),
        }
    }

    /// A new configuration or setting, or the reply to one.
    fn new_setting(&mut self) -> Sent {
        let waiting = self
            .session()
            .live_requests()
            .find(|request| matches!(request.kind, 6 | 9));
        match waiting {
            Some(request) => (Host, self.reply_to(request)),
            None => {
                let kind = self.random.pick(&[6, 9]);
                (Guest, self.guest_kind(kind))
            }
        }
    }
}
