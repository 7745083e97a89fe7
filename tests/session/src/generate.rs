//! Sessions made up from random numbers. The oracle's session tells what would be likely next; most packets are that, some
//! are wrong in one place, some are damaged.

use tools::Random;

use crate::oracle::session::{Ask, Introduction, Request, Session};
use crate::oracle::wire::{
    self, is_in, row, Flow, Side, BULK, BULK_LENGTH_OF_32_BITS, BULK_RECEIVING, BULK_STREAMS,
    CONTROL, INTERRUPT, INVALID, ISO, MAX_PACKET_SIZE,
};
use crate::packets::{self, Packet, Rows};
use Side::{Guest, Host};

/// First words of hellos that make a difference.
const WORDS: [u32; 12] = [
    0,
    0x08,
    0x10,
    0x11,
    0x20,
    0x40,
    0x80,
    0xdf,
    0xf7,
    0x1ff,
    0xffff_ff00,
    0xffff_ffff,
];

/// How the packets of one session are chosen. Rates are in a hundred.
struct Mood {
    guest_word: u32,
    host_word: u32,
    /// How soon a missing hello comes.
    hello: usize,
    /// How many choices are wrong in one place.
    wrong: usize,
    damage: usize,
    /// Few replies, resets and statuses that free, so that the places run out.
    filling: bool,
    /// Endpoint numbers over this have no endpoint, mostly: so few rows see all that happens.
    numbers: usize,
    /// Whether kinds 6 and 9 come.
    settles: bool,
}

impl Mood {
    fn new(random: &mut Random) -> Mood {
        let guest_word = word(random);
        let host_word = if random.percent(60) {
            guest_word
        } else {
            word(random)
        };
        let filling = random.percent(25);
        Mood {
            guest_word,
            host_word,
            hello: random.weighed(&[(88, 85), (9, 4), (3, 0)]),
            wrong: random.pick(&[2, 10, 25]),
            damage: random.pick(&[0, 0, 1, 4, 15]),
            filling,
            numbers: random.pick(&[2, 4, 15]),
            settles: !filling || random.percent(50),
        }
    }
}

/// Mostly all bits or nearly all; bit 4 with bit 0, as 13 wants it.
fn word(random: &mut Random) -> u32 {
    let word = match random.below(10) {
        0..=4 => 0xff,
        5 | 6 => random.pick(&WORDS),
        7 => 0xff & !(1 << random.below(8)),
        _ => random.word(),
    };
    word | (word & BULK_STREAMS) << 4
}

/// What may come next.
#[derive(Clone, Copy)]
enum Next {
    Request,
    Reply,
    LateReply,
    StreamData,
    Unsolicited,
    Endpoints,
    Interfaces,
    Connect,
    Disconnect,
    Reset,
    Cancel,
    Filter,
    FilterReject,
    Ack,
    Hello,
}

pub struct Traffic<'a> {
    random: &'a mut Random,
    session: Session,
    mood: Mood,
    ids: Vec<u64>,
    /// Requests that have passed lately, live or not.
    past: Vec<Request>,
}

impl<'a> Traffic<'a> {
    pub fn new(random: &'a mut Random) -> Traffic<'a> {
        let mood = Mood::new(random);
        let ids = ids(random, mood.filling);
        Traffic {
            random,
            session: Session::new(),
            mood,
            ids,
            past: Vec::new(),
        }
    }

    /// The next packet with the number that the oracle gives it.
    pub fn next(&mut self) -> (Side, Vec<u8>, u8) {
        let (mut from, packet) = self.choose();
        let mut bytes = packet.bytes(from, self.shared());
        if packet.kind == 0 && self.random.one_in(5) {
            self.damage_hello(&mut bytes);
        } else if self.random.percent(self.mood.damage) {
            self.damage(&mut from, &mut bytes);
        }
        let number = self.session.judge(from, &bytes);
        if number == 0 {
            self.note();
        }
        (from, bytes, number)
    }

    pub fn shared(&self) -> u32 {
        self.session.hellos().shared()
    }

    fn shares(&self, bit: u32) -> bool {
        self.shared() & bit != 0
    }

    fn wrong(&mut self) -> bool {
        self.random.percent(self.mood.wrong)
    }

    /// Keeps a live request in mind, for a reply that comes late.
    fn note(&mut self) {
        let count = self.session.live_count();
        if count == 0 || !self.random.one_in(4) {
            return;
        }
        let chosen = self.random.below(count);
        if let Some(request) = self.session.live().nth(chosen).copied() {
            if self.past.len() < 24 {
                self.past.push(request);
            } else {
                let at = self.random.below(24);
                self.past[at] = request;
            }
        }
    }

    fn choose(&mut self) -> (Side, Packet) {
        let hellos = *self.session.hellos();
        if hellos.guest.is_none() && self.random.percent(self.mood.hello) {
            return (Guest, self.hello(self.mood.guest_word));
        }
        if hellos.host.is_none() && self.random.percent(self.mood.hello) {
            return (Host, self.hello(self.mood.host_word));
        }
        if !self.session.has_device() && self.random.percent(75) {
            return self.introduction();
        }
        let next = self.next_kind();
        self.packet(next)
    }

    /// The word's hello, or now and then one that is refused.
    fn hello(&mut self, word: u32) -> Packet {
        let packet = match self.random.below(8) {
            0 => packets::hello(&[word, self.random.word()]),
            1 if word == 0 => packets::hello(&[]),
            2 => packets::hello(&[word, 1, 2, 3, 4, 5, 6, 7]),
            _ => packets::hello(&[word]),
        };
        match self.random.below(24) {
            0 => packets::hello(&[(word | BULK_STREAMS) & !MAX_PACKET_SIZE]),
            1 => packet.with_id(1 + u64::from(self.random.word() >> 1)),
            2 => (0..64).fold(packet, |packet, i| packet.but(i, b'v')),
            3 => packets::hello(&[word; 9]),
            _ => packet,
        }
    }

    /// What leads on to a device, or another of its kinds.
    fn introduction(&mut self) -> (Side, Packet) {
        if self.session.owes_ack() && self.random.percent(50) {
            return (Guest, packets::ack());
        }
        let likely = match self.session.introduction() {
            Introduction::Nothing => Next::Endpoints,
            Introduction::One => Next::Interfaces,
            Introduction::Two => Next::Connect,
        };
        let next = if self.random.percent(80) {
            likely
        } else {
            self.random
                .pick(&[Next::Endpoints, Next::Interfaces, Next::Connect])
        };
        self.packet(next)
    }

    fn next_kind(&mut self) -> Next {
        let filling = self.mood.filling;
        let full = self.session.live_count() == 96;
        let replies = match (filling, full) {
            (true, false) => 3,
            (true, true) => 12,
            (false, _) if self.session.live_count() == 0 => 2,
            (false, _) => 30,
        };
        let few = |weight| if filling { 1 } else { weight };
        let late = if self.session.has_device() { 20 } else { 150 };
        self.random.weighed(&[
            (360, Next::Request),
            (10 * replies, Next::Reply),
            (late, Next::LateReply),
            (150, Next::StreamData),
            (25, Next::Unsolicited),
            (45, Next::Endpoints),
            (6, Next::Interfaces),
            (6, Next::Connect),
            (few(6), Next::Disconnect),
            (few(8), Next::Reset),
            (15, Next::Cancel),
            (8, Next::Filter),
            (4, Next::FilterReject),
            (6, Next::Ack),
            (3, Next::Hello),
        ])
    }

    fn packet(&mut self, next: Next) -> (Side, Packet) {
        match next {
            Next::Request => (Guest, self.request()),
            Next::Reply => (Host, self.reply()),
            Next::LateReply => (Host, self.late_reply()),
            Next::StreamData => self.stream_data(),
            Next::Unsolicited => (Host, self.unsolicited()),
            Next::Endpoints => (Host, self.endpoint_table()),
            Next::Interfaces => (Host, self.interface_table()),
            Next::Connect => (Host, self.connect()),
            Next::Disconnect => (Host, packets::disconnect()),
            Next::Reset => (Guest, packets::reset(self.any_id())),
            Next::Cancel => (Guest, packets::cancel(self.any_id())),
            Next::Filter => (self.random.pick(&[Guest, Host]), self.filter()),
            Next::FilterReject => (Guest, packets::filter_reject()),
            Next::Ack => (Guest, packets::ack()),
            Next::Hello => {
                let side = self.random.pick(&[Guest, Host]);
                let word = word(self.random);
                (side, self.hello(word))
            }
        }
    }

    // -- ids, endpoints, lengths --------------------------------------------------------------------------------------

    fn is_live(&self, id: u64) -> bool {
        self.session.live().any(|request| request.id == id)
    }

    /// An id for a new request: mostly one that isn't in use.
    fn new_id(&mut self) -> u64 {
        if self.wrong() {
            return self.any_id();
        }
        for _ in 0..8 {
            let id = self.random.pick(&self.ids);
            if !self.is_live(id) {
                return id;
            }
        }
        u64::from(self.random.word())
    }

    /// Any id that has to do with this session.
    fn any_id(&mut self) -> u64 {
        match self.random.below(8) {
            0 => 0,
            1 => u64::from(self.random.word()),
            _ => self.random.pick(&self.ids),
        }
    }

    /// An endpoint, mostly of this type; None for either direction.
    fn endpoint(&mut self, wanted: u8, inward: Option<bool>) -> u8 {
        let goes = |endpoint: &u8| inward.map_or(true, |inward| is_in(*endpoint) == inward);
        let all: Vec<u8> = (0..16).chain(0x80..0x90).filter(goes).collect();
        let types = self.session.types();
        let fits = |endpoint: &u8| types[row(*endpoint)] == wanted;
        let fitting: Vec<u8> = all.iter().copied().filter(fits).collect();
        let wrong = self.wrong();
        if wrong && self.random.one_in(8) {
            let bits = 0x10 << self.random.below(3);
            self.random.pick(&all) | bits
        } else if wrong && self.random.one_in(4) {
            self.random.pick(&all) ^ 0x80
        } else if wrong || fitting.is_empty() {
            self.random.pick(&all)
        } else {
            self.random.pick(&fitting)
        }
    }

    /// Mostly one that a row has.
    fn interface(&mut self) -> u8 {
        if self.wrong() {
            self.random.byte()
        } else {
            let row = self.random.below(self.mood.numbers + 1) + self.random.pick(&[0, 16]);
            self.session.interfaces()[row]
        }
    }

    /// The length of a request.
    fn length(&mut self) -> u32 {
        match self.random.below(40) {
            0 => self.random.pick(&[65_535, 65_536, 65_537, u32::MAX]),
            1 => self.random.word(),
            2 => 1_000,
            3..=8 => 0,
            _ => self.random.below(40) as u32,
        }
    }

    /// Data's size: little, and now and then as much as a body holds.
    fn size(&mut self) -> u16 {
        match self.random.below(1_500) {
            0 => 32_740 + self.random.below(24) as u16,
            1..=60 => 300,
            _ => self.random.below(24) as u16,
        }
    }

    /// A length for a data packet of the guest: its data's size, or how much it asks for.
    fn guest_length(&mut self, endpoint: u8, most: u32) -> u32 {
        if is_in(endpoint) {
            self.length() & most
        } else {
            u32::from(self.size())
        }
    }

    // -- requests -----------------------------------------------------------------------------------------------------

    fn request(&mut self) -> Packet {
        let settles = if self.mood.settles { 3 } else { 0 };
        let needing = |shared: bool, weight: usize| if shared { weight } else { 1 };
        let streams = self.shares(BULK_STREAMS);
        let receiving = self.shares(BULK_RECEIVING);
        // While settling most data would be refused.
        let data = if self.session.is_settling() { 3 } else { 14 };
        let kind = self.random.weighed(&[
            (settles, 6),
            (3, 7),
            (settles, 9),
            (3, 10),
            (7, 12),
            (5, 13),
            (7, 15),
            (5, 16),
            (needing(streams, 4), 18),
            (needing(streams, 4), 19),
            (needing(receiving, 7), 25),
            (needing(receiving, 5), 26),
            (data, 100),
            (data, 101),
            (data, 103),
        ]);
        self.request_of(kind)
    }

    fn request_of(&mut self, kind: u32) -> Packet {
        let id = self.new_id();
        match kind {
            6 => packets::set_config(id, self.random.byte()),
            7 => packets::get_config(id),
            9 => packets::set_alt(id, self.interface(), self.random.byte()),
            10 => packets::get_alt(id, self.interface()),
            12 => packets::start_iso(id, self.endpoint(ISO, None)),
            13 => packets::stop_iso(id, self.endpoint(ISO, None)),
            15 => packets::start_interrupt(id, self.endpoint(INTERRUPT, Some(true))),
            16 => packets::stop_interrupt(id, self.endpoint(INTERRUPT, Some(true))),
            18 => packets::alloc(id, self.mask(), self.random.word()),
            19 => packets::free(id, self.mask()),
            25 => packets::start_bulk(id, self.endpoint(BULK, Some(true)), self.random.word()),
            26 => packets::stop_bulk(id, self.endpoint(BULK, Some(true)), self.random.word()),
            100 => {
                let endpoint = self.endpoint(CONTROL, None);
                let length = self.guest_length(endpoint, 0xffff) as u16;
                packets::control(id, endpoint, length).but(3, self.random.byte())
            }
            101 => {
                let endpoint = self.endpoint(BULK, None);
                let wide = self.shares(BULK_LENGTH_OF_32_BITS);
                let most = if wide { u32::MAX } else { 0xffff };
                let length = self.guest_length(endpoint, most);
                let stream = self.stream();
                packets::bulk_on_stream(id, endpoint, length, stream).but(1, self.random.byte())
            }
            _ => {
                let endpoint = self.endpoint(INTERRUPT, Some(false));
                let length = self.guest_length(endpoint, 0xffff) as u16;
                packets::interrupt(id, endpoint, length).but(1, self.random.byte())
            }
        }
    }

    /// A bulk packet's stream: 0 where no other may be.
    fn stream(&mut self) -> u32 {
        if self.shares(BULK_STREAMS) || (self.wrong() && self.random.one_in(6)) {
            self.random.below(4) as u32
        } else {
            0
        }
    }

    /// Mostly some of the bulk rows.
    fn mask(&mut self) -> u32 {
        let types = self.session.types();
        let bulks = (0..32).filter(|row| types[*row] == BULK);
        let bulks = bulks.fold(0u32, |mask, row| mask | 1 << row);
        if self.wrong() {
            let row = 1 << self.random.below(32);
            let any = self.random.word();
            self.random.pick(&[0, row, any, bulks | row])
        } else {
            let some = bulks & self.random.word();
            if some == 0 {
                bulks
            } else {
                some
            }
        }
    }

    // -- replies ------------------------------------------------------------------------------------------------------

    /// A live request: while settling often the one that settles.
    fn live_request(&mut self) -> Option<Request> {
        let settling = self.session.is_settling() && self.random.percent(50);
        let wanted =
            |request: &&Request| !settling || matches!(request.ask, Ask::SetConfig | Ask::SetAlt);
        let chosen: Vec<Request> = self.session.live().filter(wanted).copied().collect();
        if chosen.is_empty() {
            None
        } else {
            Some(self.random.pick(&chosen))
        }
    }

    fn reply(&mut self) -> Packet {
        match self.live_request() {
            Some(request) => self.reply_to(request),
            None => self.late_reply(),
        }
    }

    /// To a request that may have been answered or freed long ago, or never was.
    fn late_reply(&mut self) -> Packet {
        let request = if self.past.is_empty() || self.random.one_in(4) {
            Request {
                id: self.any_id(),
                ask: self.any_ask(),
                byte: self.random.byte() & 0x8f,
                length: 8,
            }
        } else {
            self.random.pick(&self.past)
        };
        self.reply_to(request)
    }

    /// The right reply, or one that is wrong in a place or two.
    fn reply_to(&mut self, mut request: Request) -> Packet {
        let mut length = match self.random.below(4) {
            0 => self.random.below(request.length.min(40) as usize + 1) as u32,
            1 => 0,
            _ => request.length,
        };
        for _ in 0..2 {
            if !self.wrong() {
                continue;
            }
            match self.random.below(6) {
                0 => request.id = self.any_id(),
                1 => request.id ^= 1 << self.random.below(64),
                2 => request.byte = self.other_byte(request.byte),
                3 => request.ask = self.any_ask(),
                4 => length = request.length.wrapping_add(1),
                _ => {
                    length = request
                        .length
                        .wrapping_add(self.random.pick(&[2, 65_536, 300]))
                }
            }
        }
        let any = self.random.byte();
        let status = if self.mood.filling {
            self.random.pick(&[0, 1, 2, 3, 4, 5, 6, 7, any])
        } else {
            self.random
                .pick(&[0, 0, 0, 0, 0, 0, 1, 2, 3, 4, 4, 5, 6, 7, any])
        };
        self.reply_with(request, status, length)
    }

    fn other_byte(&mut self, byte: u8) -> u8 {
        match self.random.below(5) {
            0 => byte ^ 0x80,
            1 => byte.wrapping_add(1),
            2 => byte.wrapping_sub(1),
            3 => byte ^ 0x40,
            _ => self.random.byte() & 0x8f,
        }
    }

    fn any_ask(&mut self) -> Ask {
        self.random.pick(&[
            Ask::GetConfig,
            Ask::GetAlt,
            Ask::Start(Flow::Iso),
            Ask::Start(Flow::Interrupt),
            Ask::Start(Flow::Bulk),
            Ask::Alloc,
            Ask::Control,
            Ask::Bulk,
            Ask::Interrupt,
        ])
    }

    fn reply_with(&mut self, request: Request, status: u8, length: u32) -> Packet {
        let (id, byte) = (request.id, request.byte);
        // Data follows on IN; more than a body holds can't be sent.
        let sendable = |length: u32| {
            if is_in(byte) {
                length.min(2_000)
            } else {
                length
            }
        };
        let short = sendable(length).min(65_535) as u16;
        match request.ask {
            Ask::SetConfig | Ask::GetConfig => {
                packets::config_status(id, status, self.random.byte())
            }
            Ask::SetAlt | Ask::GetAlt => packets::alt_status(id, status, byte, self.random.byte()),
            Ask::Start(flow) | Ask::Stop(flow) => self.status(flow, id, status, byte),
            Ask::Alloc | Ask::Free => {
                packets::alloc_status(id, status, self.mask(), self.random.word())
            }
            Ask::Control => packets::control(id, byte, short).but(3, status),
            Ask::Bulk => {
                let wide = self.shares(BULK_LENGTH_OF_32_BITS);
                let most = if wide { u32::MAX } else { 0xffff };
                let length = sendable(length).min(most);
                let stream = self.stream();
                packets::bulk_on_stream(id, byte, length, stream).but(1, status)
            }
            Ask::Interrupt => packets::interrupt(id, byte, short).but(1, status),
        }
    }

    fn status(&mut self, flow: Flow, id: u64, status: u8, endpoint: u8) -> Packet {
        match flow {
            Flow::Iso => packets::iso_status(id, status, endpoint),
            Flow::Interrupt => packets::interrupt_status(id, status, endpoint),
            Flow::Bulk => packets::bulk_status(id, status, endpoint, self.random.word()),
        }
    }

    // -- streams ------------------------------------------------------------------------------------------------------

    /// Data on an open stream, or on one that isn't.
    fn stream_data(&mut self) -> (Side, Packet) {
        let addresses = (0..16).chain(0x80..0x90u8);
        let open: Vec<u8> = addresses
            .filter(|endpoint| self.session.is_open(row(*endpoint)))
            .collect();
        let receiving = self.shares(BULK_RECEIVING);
        let id = self.any_id();
        let size = self.size();
        let (kind, endpoint) = if !open.is_empty() && self.random.percent(75) {
            let endpoint = self.random.pick(&open);
            (self.session.types()[row(endpoint)], endpoint)
        } else {
            let kind = self.random.pick(&[ISO, ISO, INTERRUPT, BULK]);
            let inward = kind != ISO || self.random.percent(60);
            (kind, self.endpoint(kind, Some(inward)))
        };
        let from = match kind {
            ISO if !is_in(endpoint) => Guest,
            _ => Host,
        };
        let from = if self.wrong() && self.random.one_in(10) {
            Guest
        } else {
            from
        };
        let status = self.random.byte();
        let packet = match kind {
            ISO => packets::iso(id, endpoint, size).but(1, status),
            INTERRUPT => packets::interrupt(id, endpoint, size).but(1, status),
            _ if receiving || self.random.one_in(4) => {
                let stream = self.random.word();
                packets::buffered_bulk(id, endpoint, u32::from(size), stream).but(9, status)
            }
            _ => packets::interrupt(id, endpoint, size).but(1, status),
        };
        (from, packet)
    }

    /// A status that answers nothing, mostly with id 0 and status 4.
    fn unsolicited(&mut self) -> Packet {
        let flow = self.random.pick(&[Flow::Iso, Flow::Interrupt, Flow::Bulk]);
        let inward = if flow == Flow::Bulk || self.random.percent(70) {
            Some(true)
        } else {
            None
        };
        let wanted = match self.random.below(4) {
            0 => self.random.pick(&[ISO, INTERRUPT, BULK, CONTROL, INVALID]),
            _ => flow.row_type(),
        };
        let endpoint = self.endpoint(wanted, inward);
        let id = if self.wrong() { self.any_id() } else { 0 };
        let status = match self.random.below(6) {
            0 => self.random.pick(&[0, 3, 5, 7]),
            1 if self.wrong() => self.random.byte(),
            _ => 4,
        };
        self.status(flow, id, status, endpoint)
    }

    // -- the device ---------------------------------------------------------------------------------------------------

    /// The rows as they are with a few changed, or all new.
    fn endpoint_table(&mut self) -> Packet {
        let mut rows = Rows {
            types: *self.session.types(),
            interfaces: *self.session.interfaces(),
        };
        let fresh = !self.session.has_device() || self.random.one_in(8);
        let changes = if fresh { 32 } else { self.random.below(5) };
        for i in 0..changes {
            let row = if fresh {
                i
            } else {
                self.random.below(self.mood.numbers + 1) + self.random.pick(&[0, 16])
            };
            if row & 15 != 0 && (fresh || self.random.percent(60)) {
                rows.types[row] = self
                    .random
                    .pick(&[ISO, ISO, BULK, BULK, INTERRUPT, INTERRUPT, CONTROL, INVALID]);
            }
            if fresh || self.random.percent(60) {
                rows.interfaces[row] = self.random.pick(&[0, 0, 1, 1, 2, 3, 200]);
            }
        }
        let interval = self.random.byte();
        let table = packets::endpoint_table_with(&rows, interval, self.random.byte(), 3);
        if !self.wrong() {
            return table;
        }
        match self.random.below(6) {
            0 => table.but(0, 2),
            1 => table.but(16, 255),
            2 => table.but(self.random.below(32), 4),
            3 => table.with_id(1),
            _ => table,
        }
    }

    fn interface_table(&mut self) -> Packet {
        if self.wrong() {
            packets::interface_table(self.random.pick(&[33, 32, 0, u32::MAX]))
        } else {
            packets::interface_table(self.random.below(33) as u32)
        }
    }

    fn connect(&mut self) -> Packet {
        if self.wrong() {
            packets::connect(self.random.byte())
        } else {
            packets::connect(self.random.pick(&[0, 1, 2, 3, 255]))
        }
    }

    fn filter(&mut self) -> Packet {
        if self.wrong() {
            packets::filter(self.random.pick(&["a\0b", "\0", "x|y"]))
        } else {
            packets::filter(self.random.pick(&["", "-1,-1,-1,-1,1", "0x03,-1,-1,-1,0"]))
        }
    }

    // -- damage -------------------------------------------------------------------------------------------------------

    /// One damage to the packet, or another sender.
    fn damage(&mut self, from: &mut Side, bytes: &mut Vec<u8>) {
        match self.random.below(12) {
            0 | 1 => self.flip(bytes),
            2 => self.shorten(bytes),
            3 => self.lengthen(bytes),
            4 => {
                self.shorten(bytes);
                self.mend_length(bytes);
            }
            5 => {
                self.lengthen(bytes);
                self.mend_length(bytes);
            }
            6 | 7 => {
                let near = self.random.below(130) as u32;
                let kind = self
                    .random
                    .pick(&[near, near, 28, 99, 105, 256 + near, u32::MAX]);
                set_word(bytes, 0, kind);
            }
            8 => {
                let lengths = [0, 1, 32_768, 32_769, 65_536, 0x8000_0000, u32::MAX];
                let length = self.random.pick(&lengths);
                set_word(bytes, 4, length);
            }
            9 => {
                let id = self.any_id() as u32;
                set_word(bytes, 8, id);
            }
            10 => {
                *from = match *from {
                    Guest => Host,
                    Host => Guest,
                }
            }
            _ => bytes.truncate(self.random.below(17)),
        }
    }

    /// Leaves about as much as a header, or says a length at the limit.
    fn damage_hello(&mut self, bytes: &mut Vec<u8>) {
        if self.random.one_in(2) {
            bytes.truncate(8 + self.random.below(10));
        } else {
            let length = self.random.pick(&[0, 32_768, 32_769, u32::MAX]);
            set_word(bytes, 4, length);
        }
    }

    /// Changes a byte or two, mostly near the front.
    fn flip(&mut self, bytes: &mut [u8]) {
        for _ in 0..1 + self.random.below(2) {
            let reach = self.random.pick(&[16, 28, 120]).min(bytes.len());
            let at = self.random.below(reach.max(1));
            if let Some(byte) = bytes.get_mut(at) {
                *byte ^= 1 << self.random.below(8);
            }
        }
    }

    fn shorten(&mut self, bytes: &mut Vec<u8>) {
        let count = 1 + self.random.below(6);
        bytes.truncate(bytes.len().saturating_sub(count));
    }

    fn lengthen(&mut self, bytes: &mut Vec<u8>) {
        let count = 1 + self.random.below(6);
        bytes.extend((0..count).map(|i| i as u8));
    }

    /// Makes the header say how many bytes follow it.
    fn mend_length(&mut self, bytes: &mut [u8]) {
        if let Some(header) = wire::header(self.shared(), bytes) {
            let length = (bytes.len() - header.size) as u32;
            set_word(bytes, 4, length);
        }
    }
}

fn set_word(bytes: &mut [u8], at: usize, word: u32) {
    if let Some(place) = bytes.get_mut(at..at + 4) {
        place.copy_from_slice(&word.to_le_bytes());
    }
}

/// The ids of a session: few, so that they come again, or more than there are places. Some are equal in one half.
fn ids(random: &mut Random, filling: bool) -> Vec<u64> {
    let count = if filling {
        130
    } else {
        random.pick(&[3, 8, 40, 130])
    };
    let mut ids: Vec<u64> = (0..count)
        .map(|n| match random.below(6) {
            0 => n << 32,
            1 => n << 32 | 7,
            2 => n | 1 << 63,
            3 => random.next(),
            _ => n,
        })
        .collect();
    if random.percent(60) {
        ids[0] = 0;
    }
    ids
}
