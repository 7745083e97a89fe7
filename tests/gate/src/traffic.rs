//! Makes traffic: packets of both ends in the order in which they are to become whole. A model
//! session follows them, so that most can be made to fit its state, and some not.

use std::collections::VecDeque;

use plain::{Request, Session, Side, HOLD_SIZE, LENGTH_LIMIT};
use tools::Random;
use Side::{Guest, Host};

use crate::script::{Line, Script};

/// A packet and its sender.
pub type Sent = (Side, Vec<u8>);

const CONTROL: u8 = 0;
pub const ISO: u8 = 1;
pub const BULK: u8 = 2;
pub const INTERRUPT: u8 = 3;
const INVALID: u8 = 255;

/// What kind of traffic to make.
#[derive(Clone)]
pub struct Style {
    pub guest_word: u32,
    pub host_word: u32,
    /// How many packets.
    pub packets: usize,
    /// How many of 100 packets are damaged.
    pub damage: usize,
    /// Whether packets may be damaged so that the session stops or the bytes get out of step.
    pub stops: bool,
    /// How many of 100 turns are the guest's.
    pub guest_turns: usize,
    /// Whether only requests and replies are sent, so that all places fill.
    pub flood: bool,
    /// How many of 100 data sizes are near the limit.
    pub big: usize,
}

impl Style {
    pub fn random(random: &mut Random, shared: u32) -> Style {
        let (guest_word, host_word) = words(random, shared);
        let flood = random.percent(10);
        Style {
            guest_word,
            host_word,
            packets: if flood {
                300
            } else {
                random.pick(&[5, 20, 60, 120, 250])
            },
            damage: random.pick(&[0, 5, 5, 15, 40]),
            stops: random.percent(30),
            guest_turns: if flood { 80 } else { random.between(40, 60) },
            flood,
            big: random.pick(&[0, 0, 1, 4]),
        }
    }
}

/// The sets that two hellos can share: without bit 0, or with bits 0 and 4.
pub fn shared_sets() -> Vec<u32> {
    (0..256)
        .filter(|set| set & 1 == 0 || set & 16 != 0)
        .collect()
}

/// Two words that 13 lets pass and that have just these bits of 0 to 7 in common.
fn words(random: &mut Random, shared: u32) -> (u32, u32) {
    let mut words = [shared, shared];
    for bit in 0..8 {
        if shared >> bit & 1 == 0 && random.percent(50) {
            words[random.below(2)] |= 1 << bit;
        }
    }
    for word in &mut words {
        if *word & 17 == 1 {
            *word &= !1;
        }
        if random.percent(30) {
            *word |= random.word() << 8;
        }
    }
    (words[0], words[1])
}

/// Packets in their order.
pub fn plan(random: &mut Random, style: &Style) -> Vec<Sent> {
    plan_by(random, style, |planner| planner.next())
}

/// Packets in their order, each made by `next`.
pub fn plan_by(random: &mut Random, style: &Style, next: fn(&mut Planner) -> Sent) -> Vec<Sent> {
    let script = Script {
        hold_size: HOLD_SIZE,
        fill: 0,
        items: Vec::new(),
    };
    let mut planner = Planner {
        next_id: random.near_power(),
        model: Line::new(&script),
        random,
        style,
        queue: VecDeque::new(),
        types: [INVALID; 32],
        interfaces: [0; 32],
    };
    planner.new_table();
    let mut packets = Vec::new();
    for _ in 0..style.packets {
        let sent = next(&mut planner);
        let (side, bytes) = planner.maybe_damaged(sent);
        planner.feed(side, &bytes);
        packets.push((side, bytes));
        if planner.model.session.is_stopped() && planner.random.percent(30) {
            break;
        }
    }
    packets
}

pub struct Planner<'a> {
    pub random: &'a mut Random,
    pub style: &'a Style,
    model: Line,
    pub next_id: u64,
    queue: VecDeque<Sent>,
    /// The rows of the next endpoint table.
    types: [u8; 32],
    interfaces: [u8; 32],
}

pub fn endpoint_of(row: usize) -> u8 {
    (row & 15 | (row & 16) << 3) as u8
}

impl Planner<'_> {
    pub fn session(&self) -> &Session {
        &self.model.session
    }

    pub fn has(&self, bit: u32) -> bool {
        self.session().shared() >> bit & 1 == 1
    }

    /// Shows the model what was sent.
    fn feed(&mut self, side: Side, bytes: &[u8]) {
        let mut rest = bytes;
        while !rest.is_empty() {
            let call = self.model.call(side, rest);
            if matches!(call.number, 2 | 3) {
                break;
            }
            rest = &rest[call.taken as usize..];
        }
    }

    pub fn frame(&self, kind: u32, id: u64, body: &[u8]) -> Vec<u8> {
        let mut bytes = kind.to_le_bytes().to_vec();
        bytes.extend((body.len() as u32).to_le_bytes());
        bytes.extend(&id.to_le_bytes()[..self.header_size(kind) - 8]);
        bytes.extend(body);
        bytes
    }

    /// The bytes of a header of this kind.
    pub fn header_size(&self, kind: u32) -> usize {
        if self.session().is_wide() && kind != 0 {
            16
        } else {
            12
        }
    }

    // ---- which packet comes next ----

    /// Whether a device is there and no packet waits for its turn.
    pub fn is_free(&self) -> bool {
        self.session().device_present() && self.queue.is_empty()
    }

    pub fn next(&mut self) -> Sent {
        if let Some(sent) = self.queue.pop_front() {
            return sent;
        }
        let missing: Vec<Side> = [Guest, Host]
            .into_iter()
            .filter(|side| !self.session().hello_passed(*side))
            .collect();
        if !missing.is_empty() {
            let side = self.random.pick(&missing);
            return (side, self.hello(side));
        }
        if self.session().ack_owed() {
            match self.random.below(10) {
                0..=6 => return (Guest, self.frame(24, 0, &[])),
                7 => return (Host, self.introduction()),
                _ => {}
            }
        }
        if !self.session().device_present() && self.random.percent(80) {
            return (Host, self.introduction());
        }
        if self.style.flood {
            return self.flood();
        }
        let settling = self
            .session()
            .live_requests()
            .find(|request| matches!(request.kind, 6 | 9));
        if let Some(request) = settling.filter(|_| self.random.percent(25)) {
            return (Host, self.reply_to(request));
        }
        if self.random.percent(self.style.guest_turns) {
            (Guest, self.guest_packet())
        } else {
            (Host, self.host_packet())
        }
    }

    fn flood(&mut self) -> Sent {
        let live = self.session().live_requests().count();
        let guest = if live > 94 {
            50
        } else {
            self.style.guest_turns
        };
        if self.random.percent(guest) {
            let kind = self
                .random
                .pick(&[7, 10, 12, 13, 15, 100, 100, 101, 101, 103]);
            return (Guest, self.guest_kind(kind));
        }
        (Host, self.reply())
    }

    fn hello(&mut self, side: Side) -> Vec<u8> {
        let first = match side {
            Guest => self.style.guest_word,
            Host => self.style.host_word,
        };
        let mut version = [0; 64];
        let text = self.random.below(64);
        self.random.fill(&mut version[..text]);
        let mut words = vec![first];
        for _ in 0..self.random.pick(&[0, 0, 0, 1, 7]) {
            words.push(self.random.word());
        }
        if first == 0 && self.random.percent(50) {
            words.clear();
        }
        let mut id = 0;
        if self.style.stops {
            match self.random.below(30) {
                0 => words = vec![first & !16 | 1],
                1 => words = vec![0; 9],
                2 => version.fill(1),
                3 => id = self.random.near_power(),
                4 => return self.frame(7, 7, &[]),
                _ => {}
            }
        }
        let mut body = version.to_vec();
        for word in words {
            body.extend(word.to_le_bytes());
        }
        if self.style.stops && self.random.percent(5) {
            let sizes = [0, 60, 62, 63, 65, 66, 67, 70, 94, 95, 97, 98, 100, 104];
            body.resize(self.random.pick(&sizes), 0);
        }
        self.frame(0, id, &body)
    }

    /// Puts tables and connect into the queue, mostly in their order; the first is the answer.
    fn introduction(&mut self) -> Vec<u8> {
        if self.random.percent(30) {
            self.new_table();
        }
        let mut packets = vec![
            self.endpoint_table(),
            self.interface_table(),
            self.connect(),
        ];
        match self.random.below(12) {
            0 => packets.swap(0, 1),
            1 => packets.swap(1, 2),
            2 => packets.insert(2, packets[0].clone()),
            3 => packets.push(packets[2].clone()),
            _ => {}
        }
        let first = packets.remove(0);
        self.queue
            .extend(packets.into_iter().map(|bytes| (Host, bytes)));
        first
    }

    // ---- packets of the host ----

    fn new_table(&mut self) {
        for row in (1..16).chain(17..32) {
            self.types[row] = self
                .random
                .pick(&[ISO, BULK, BULK, INTERRUPT, INVALID, CONTROL]);
            self.interfaces[row] = self.random.below(3) as u8;
        }
        self.types[0] = CONTROL;
        self.types[16] = CONTROL;
    }

    /// An endpoint table with some rows that may have changed.
    pub fn changed_table(&mut self) -> Vec<u8> {
        for _ in 0..self.random.below(3) {
            let row = self.random.pick(&[1, 2, 3, 17, 18, 19]);
            self.types[row] = self.random.pick(&[ISO, BULK, INTERRUPT, INVALID]);
            self.interfaces[row] = self.random.below(3) as u8;
        }
        self.endpoint_table()
    }

    fn endpoint_table(&mut self) -> Vec<u8> {
        let mut body = self.types.to_vec();
        body.resize(64, 10);
        body.extend(self.interfaces);
        if self.has(4) {
            body.resize(160, 64);
            if self.has(0) {
                body.resize(288, 3);
            }
        }
        self.frame(5, 0, &body)
    }

    fn interface_table(&mut self) -> Vec<u8> {
        let mut body = (self.random.below(33) as u32).to_le_bytes().to_vec();
        body.resize(132, self.random.byte());
        self.frame(4, 0, &body)
    }

    fn connect(&mut self) -> Vec<u8> {
        let mut body = vec![self.random.pick(&[0, 1, 2, 3, 255]), 0, 0, 0, 0x5e, 4, 1, 2];
        if self.has(1) {
            body.extend([3, 1]);
        }
        self.frame(1, 0, &body)
    }

    fn host_packet(&mut self) -> Vec<u8> {
        match self.random.below(100) {
            0..=54 => self.reply(),
            55..=79 => self.stream_data(),
            80..=84 => self.changed_table(),
            85 | 86 => self.interface_table(),
            87 => self.connect(),
            88 if self.random.percent(60) => self.frame(2, 0, &[]),
            89..=93 => self.unsolicited(),
            94 | 95 => self.filter(),
            96 => {
                let kind = self.random.pick(&[8, 11, 14, 17, 20, 27, 100, 101, 103]);
                let request = Request {
                    id: self.random.below(100) as u64,
                    kind: match kind {
                        8 => 6,
                        11 => 9,
                        14 => 12,
                        17 => 15,
                        20 => 18,
                        27 => 25,
                        _ => kind,
                    },
                    target: endpoint_of(self.random.below(32)),
                    length: 8,
                };
                self.reply_to(request)
            }
            _ => self.reply(),
        }
    }

    /// One of the statuses that have a name, or any byte.
    fn any_status(&mut self) -> u8 {
        if self.random.percent(50) {
            self.random.below(7) as u8
        } else {
            self.random.byte()
        }
    }

    /// A status with id 0 and mostly 4, which no request may have asked for.
    fn unsolicited(&mut self) -> Vec<u8> {
        let row = self.random.between(1, 31);
        let status = if self.random.percent(85) {
            4
        } else {
            self.any_status()
        };
        match self.random.below(if self.has(7) { 3 } else { 2 }) {
            0 => self.frame(14, 0, &[status, endpoint_of(row)]),
            1 => self.frame(17, 0, &[status, endpoint_of(row)]),
            _ => self.frame(27, 0, &[0, 0, 0, 0, endpoint_of(row | 16), status]),
        }
    }

    /// Data of a stream, if there is one of an open stream.
    fn stream_data(&mut self) -> Vec<u8> {
        let open: Vec<usize> = (16..32)
            .filter(|row| self.session().stream_open(*row))
            .collect();
        let row = if open.is_empty() || self.random.percent(10) {
            self.random.between(16, 31)
        } else {
            self.random.pick(&open)
        };
        let kind = match self.session().row_type(row) {
            _ if self.random.percent(3) => self.random.pick(&[102, 103, 104]),
            ISO => 102,
            BULK => 104,
            _ => 103,
        };
        let id = self.random.near_power();
        let status = self.any_status();
        let fixed = if kind == 104 { 10 } else { 4 };
        let data = self.data(LENGTH_LIMIT as usize - fixed);
        let mut body = Vec::new();
        if kind == 104 {
            body.extend((self.random.below(3) as u32).to_le_bytes());
            body.extend((data.len() as u32).to_le_bytes());
            body.extend([endpoint_of(row), status]);
        } else {
            body.extend([endpoint_of(row), status]);
            body.extend((data.len() as u16).to_le_bytes());
        }
        body.extend(data);
        self.frame(kind, id, &body)
    }

    pub fn reply(&mut self) -> Vec<u8> {
        let live: Vec<Request> = self.session().live_requests().collect();
        if live.is_empty() {
            return self.stream_data();
        }
        let request = self.random.pick(&live);
        self.reply_to(request)
    }

    pub fn reply_to(&mut self, request: Request) -> Vec<u8> {
        let status = if self.random.percent(75) {
            0
        } else {
            self.any_status()
        };
        let byte = self.random.byte();
        let target = request.target;
        let (kind, body) = match request.kind {
            6 | 7 => (8, vec![status, byte]),
            9 | 10 => (11, vec![status, target, byte]),
            12 | 13 => (14, vec![status, target]),
            15 | 16 => (17, vec![status, target]),
            18 | 19 => (20, vec![byte, 0, 0, 0, 2, 0, 0, 0, status]),
            25 | 26 => (27, vec![byte, 0, 0, 0, target, status]),
            kind => (u32::from(kind), self.data_reply(request, status)),
        };
        // A new configuration or setting comes with its tables.
        if matches!(kind, 8 | 11) && status == 0 && self.random.percent(40) {
            if self.random.percent(50) {
                self.new_table();
            }
            let status = self.frame(kind, request.id, &body);
            let table = self.interface_table();
            self.queue.extend([(Host, table), (Host, status)]);
            return self.endpoint_table();
        }
        self.frame(kind, request.id, &body)
    }

    fn data_reply(&mut self, request: Request, status: u8) -> Vec<u8> {
        let is_in = request.target & 0x80 != 0;
        let fixed = self.fixed(u32::from(request.kind));
        let mut most = request.length as usize;
        if self.random.percent(4) {
            most += 1;
        }
        let mut length = if self.random.percent(30) {
            most
        } else {
            self.random.below(most + 1)
        };
        let mut data = Vec::new();
        if is_in {
            length = length.min(LENGTH_LIMIT as usize - fixed);
            if length > 600 && !self.random.percent(self.style.big) {
                length = 600;
            }
            data = self.random.bytes(length);
        }
        self.data_body(
            u32::from(request.kind),
            request.target,
            status,
            length as u32,
            &data,
        )
    }

    // ---- packets of the guest ----

    fn guest_packet(&mut self) -> Vec<u8> {
        let kind = match self.random.below(100) {
            0..=23 => 100,
            24..=45 => 101,
            46..=53 => 103,
            54..=62 => 102,
            63..=67 => 12,
            68 | 69 => 13,
            70..=73 => 15,
            74 | 75 => 16,
            76 | 77 => 18,
            78 => 19,
            79..=81 => 25,
            82 | 83 => 26,
            84 => 6,
            85 | 86 => 9,
            87 | 88 => 7,
            89..=91 => 10,
            92..=94 => 21,
            95 if self.random.percent(20) => 3,
            96 => 22,
            97 => 23,
            98 => 24,
            _ => 7,
        };
        self.guest_kind(kind)
    }

    pub fn guest_kind(&mut self, kind: u32) -> Vec<u8> {
        let id = self.request_id();
        match kind {
            3 | 21 => {
                let id = self.random.near_power();
                self.frame(kind, id, &[])
            }
            22 | 24 => self.frame(kind, 0, &[]),
            23 => self.filter(),
            6 => {
                let byte = self.random.byte();
                self.frame(6, id, &[byte])
            }
            7 => self.frame(7, id, &[]),
            9 => {
                let interface = self.random.below(3) as u8;
                self.frame(9, id, &[interface, 1])
            }
            10 => {
                let interface = self.random.byte();
                self.frame(10, id, &[interface])
            }
            12 | 13 => {
                let endpoint = self.endpoint(ISO, None);
                let size = if kind == 12 { 3 } else { 1 };
                self.frame(kind, id, &[endpoint, 4, 2][..size])
            }
            15 | 16 => {
                let endpoint = self.endpoint(INTERRUPT, Some(true));
                self.frame(kind, id, &[endpoint])
            }
            18 | 19 => {
                let mut mask = 0u32;
                for _ in 0..self.random.between(1, 3) {
                    let endpoint = self.endpoint(BULK, None);
                    mask |= 1 << (endpoint & 15 | endpoint >> 7 << 4);
                }
                let mut body = mask.to_le_bytes().to_vec();
                if kind == 18 {
                    body.extend([4, 0, 0, 0]);
                }
                self.frame(kind, id, &body)
            }
            25 | 26 => {
                let endpoint = self.endpoint(BULK, Some(true));
                let mut body = (self.random.below(3) as u32).to_le_bytes().to_vec();
                if kind == 25 {
                    body.extend([0, 2, 0, 0, endpoint, 4]);
                } else {
                    body.push(endpoint);
                }
                self.frame(kind, id, &body)
            }
            102 => {
                let open: Vec<usize> = (1..16)
                    .filter(|row| self.session().stream_open(*row))
                    .collect();
                let endpoint = if open.is_empty() || self.random.percent(10) {
                    self.endpoint(ISO, Some(false))
                } else {
                    endpoint_of(self.random.pick(&open))
                };
                let data = self.data(LENGTH_LIMIT as usize - 4);
                let status = self.random.byte();
                let body = self.data_body(102, endpoint, status, data.len() as u32, &data);
                let id = self.random.near_power();
                self.frame(102, id, &body)
            }
            _ => {
                let endpoint = match kind {
                    100 => self.endpoint(CONTROL, None),
                    101 => self.endpoint(BULK, None),
                    _ => self.endpoint(INTERRUPT, Some(false)),
                };
                let fixed = self.fixed(kind);
                let (length, data) = if endpoint & 0x80 != 0 {
                    let asked = self.random.near_power() as u32;
                    let wide = kind == 101 && self.has(6);
                    (if wide { asked } else { asked & 0xffff }, Vec::new())
                } else {
                    let data = self.data(LENGTH_LIMIT as usize - fixed);
                    (data.len() as u32, data)
                };
                let status = self.random.byte();
                let body = self.data_body(kind, endpoint, status, length, &data);
                self.frame(kind, id, &body)
            }
        }
    }

    /// The id of a live request, or 0.
    pub fn live_id(&mut self) -> u64 {
        let live: Vec<u64> = self
            .session()
            .live_requests()
            .map(|request| request.id)
            .collect();
        if live.is_empty() {
            0
        } else {
            self.random.pick(&live)
        }
    }

    /// Mostly an id that no live request has.
    pub fn request_id(&mut self) -> u64 {
        match self.random.below(100) {
            0..=2 => self.random.below(4) as u64,
            3 | 4 => self.live_id(),
            _ => {
                self.next_id = self.next_id.wrapping_add(1);
                self.next_id
            }
        }
    }

    /// An endpoint whose row has the type and the direction; now and then any.
    fn endpoint(&mut self, wanted: u8, is_in: Option<bool>) -> u8 {
        let rows: Vec<usize> = (0..32)
            .filter(|row| self.session().row_type(*row) == wanted)
            .filter(|row| is_in.map_or(true, |is_in| is_in == (*row >= 16)))
            .collect();
        if rows.is_empty() || self.random.percent(3) {
            let row = self.random.below(16) | usize::from(is_in == Some(true)) << 4;
            endpoint_of(row)
        } else {
            endpoint_of(self.random.pick(&rows))
        }
    }

    // ---- parts of packets ----

    fn filter(&mut self) -> Vec<u8> {
        let mut text = vec![b'1'; self.random.below(40)];
        text.push(0);
        self.frame(23, 0, &text)
    }

    /// Bytes of the fixed part of a data kind.
    fn fixed(&self, kind: u32) -> usize {
        match kind {
            100 | 104 => 10,
            101 => 8 + if self.has(6) { 2 } else { 0 },
            _ => 4,
        }
    }

    /// A body of kind 100 to 103.
    fn data_body(
        &mut self,
        kind: u32,
        endpoint: u8,
        status: u8,
        length: u32,
        data: &[u8],
    ) -> Vec<u8> {
        let low = (length as u16).to_le_bytes();
        let mut body = match kind {
            100 => vec![
                endpoint,
                6,
                endpoint & 0x80 | 1,
                status,
                0,
                1,
                0,
                0,
                low[0],
                low[1],
            ],
            101 => {
                let stream = if self.has(0) {
                    self.random.below(3) as u8
                } else {
                    0
                };
                let mut body = vec![endpoint, status, low[0], low[1], stream, 0, 0, 0];
                if self.has(6) {
                    body.extend(((length >> 16) as u16).to_le_bytes());
                }
                body
            }
            _ => vec![endpoint, status, low[0], low[1]],
        };
        body.extend(data);
        body
    }

    /// Data of at most `most` bytes, or one more where the session may stop.
    fn data(&mut self, most: usize) -> Vec<u8> {
        let size = if self.random.percent(self.style.big) {
            match self.random.below(4) {
                0 => most,
                1 => most - 1,
                2 if self.style.stops => most + 1,
                _ => (1usize << self.random.between(8, 15)).min(most) - self.random.below(2),
            }
        } else {
            match self.random.below(10) {
                0 => 0,
                1 => self.random.between(17, 600),
                _ => self.random.between(1, 16),
            }
        };
        self.random.bytes(size)
    }
}
