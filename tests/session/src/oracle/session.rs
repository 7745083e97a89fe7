//! The session rules: every packet's checks in the order of their numbers, then what it changes.

use super::wire::{
    self, is_in, row, Flow, Hellos, Packet, Side, BULK, CONTROL, DISCONNECT_ACK, INTERRUPT,
    INVALID, ISO,
};
use Side::{Guest, Host};

/// "32: 96 requests live".
pub const PLACES: usize = 96;

/// What a request asks for.
#[derive(Clone, Copy, Debug, PartialEq, Eq)]
pub enum Ask {
    SetConfig,
    GetConfig,
    SetAlt,
    GetAlt,
    Start(Flow),
    Stop(Flow),
    Alloc,
    Free,
    Control,
    Bulk,
    Interrupt,
}

/// A request that waits for its reply.
#[derive(Clone, Copy, Debug)]
pub struct Request {
    pub id: u64,
    pub ask: Ask,
    /// The endpoint or interface byte, 0 where there is none.
    pub byte: u8,
    pub length: u32,
}

/// The table: a bit for each place that is taken, and those of some kinds once more.
#[derive(Clone, Debug)]
struct Requests {
    live: u128,
    /// Kinds 6 and 9.
    settling: u128,
    /// "every data request (kind 100, 101 or 103)".
    data: u128,
    places: [Request; PLACES],
}

impl Requests {
    fn new() -> Requests {
        let free = Request {
            id: 0,
            ask: Ask::GetConfig,
            byte: 0,
            length: 0,
        };
        Requests {
            live: 0,
            settling: 0,
            data: 0,
            places: [free; PLACES],
        }
    }

    fn taken(&self) -> Taken {
        Taken { left: self.live }
    }

    /// The place of the live request with this id; there is at most one.
    fn find(&self, id: u64) -> Option<usize> {
        self.taken().find(|place| self.places[*place].id == id)
    }

    /// The lowest free place.
    fn vacant(&self) -> Option<usize> {
        let lowest = self.live.trailing_ones() as usize;
        (lowest < PLACES).then_some(lowest)
    }

    fn put(&mut self, place: usize, request: Request) {
        let bit = 1u128 << place;
        self.live |= bit;
        match request.ask {
            Ask::SetConfig | Ask::SetAlt => self.settling |= bit,
            Ask::Control | Ask::Bulk | Ask::Interrupt => self.data |= bit,
            _ => {}
        }
        self.places[place] = request;
    }

    fn free(&mut self, places: u128) {
        self.live &= !places;
        self.settling &= !places;
        self.data &= !places;
    }
}

/// The places of a set, lowest first.
struct Taken {
    left: u128,
}

impl Iterator for Taken {
    type Item = usize;

    fn next(&mut self) -> Option<usize> {
        if self.left == 0 {
            return None;
        }
        let lowest = self.left.trailing_zeros() as usize;
        self.left &= self.left - 1;
        Some(lowest)
    }
}

/// How far the host has introduced its device.
#[derive(Clone, Copy, Debug, PartialEq, Eq, PartialOrd, Ord)]
pub enum Introduction {
    Nothing,
    One,
    Two,
}

#[derive(Clone, Debug)]
pub struct Session {
    hellos: Hellos,
    device: bool,
    introduction: Introduction,
    ack_owed: bool,
    types: [u8; 32],
    interfaces: [u8; 32],
    /// Bit r: the stream of row r is open.
    open: u32,
    requests: Requests,
}

fn ensure(holds: bool, number: u8) -> Result<(), u8> {
    if holds {
        Ok(())
    } else {
        Err(number)
    }
}

fn bit(endpoint: u8) -> u32 {
    1 << row(endpoint)
}

impl Session {
    /// "Start: no device, no introduction, all rows invalid but 0 and 16 (control), interfaces 0, streams closed, and a
    /// table of 96 places for requests, all free."
    pub fn new() -> Session {
        let mut types = [INVALID; 32];
        types[0] = CONTROL;
        types[16] = CONTROL;
        Session {
            hellos: Hellos::default(),
            device: false,
            introduction: Introduction::Nothing,
            ack_owed: false,
            types,
            interfaces: [0; 32],
            open: 0,
            requests: Requests::new(),
        }
    }

    /// The number of one packet's bytes. A packet that passes changes the session, another doesn't.
    pub fn judge(&mut self, from: Side, bytes: &[u8]) -> u8 {
        match self.pass(from, bytes) {
            Ok(()) => 0,
            Err(number) => number,
        }
    }

    fn pass(&mut self, from: Side, bytes: &[u8]) -> Result<(), u8> {
        let (id, packet) = wire::read(&self.hellos, from, bytes)?;
        match packet {
            Packet::Hello { word } => self.hellos.set(from, word),
            Packet::Filter | Packet::FilterReject => {}
            Packet::Connect => {
                self.no_ack_owed()?;
                ensure(!self.device && self.introduction == Introduction::Two, 26)?;
                self.device = true;
            }
            Packet::InterfaceTable => {
                self.no_ack_owed()?;
                if !self.device {
                    ensure(self.introduction >= Introduction::One, 26)?;
                    self.introduction = Introduction::Two;
                }
            }
            Packet::EndpointTable { types, interfaces } => {
                self.no_ack_owed()?;
                if !self.device {
                    self.introduction = Introduction::One;
                }
                self.replace_rows(types, interfaces);
            }
            Packet::Ack => {
                ensure(self.ack_owed, 26)?;
                self.ack_owed = false;
            }
            _ => {
                ensure(self.device, 25)?;
                self.pass_with_device(from, id, packet)?;
            }
        }
        Ok(())
    }

    /// The kinds that get 25 without a device.
    fn pass_with_device(&mut self, from: Side, id: u64, packet: Packet) -> Result<(), u8> {
        match packet {
            Packet::Disconnect => {
                *self = Session {
                    hellos: self.hellos,
                    ack_owed: self.hellos.shared() & DISCONNECT_ACK != 0,
                    ..Session::new()
                };
            }
            Packet::Reset => {
                self.requests.free(u128::MAX);
                self.open = 0;
            }
            Packet::Cancel => {}

            Packet::SetConfig => self.request(id, Ask::SetConfig, 0, 0)?,
            Packet::GetConfig => self.request(id, Ask::GetConfig, 0, 0)?,
            Packet::SetAlt { interface } => self.request(id, Ask::SetAlt, interface, 0)?,
            Packet::GetAlt { interface } => self.request(id, Ask::GetAlt, interface, 0)?,
            Packet::Start { flow, endpoint } => {
                self.typed(endpoint, flow.row_type())?;
                self.request(id, Ask::Start(flow), endpoint, 0)?;
                self.open |= bit(endpoint);
            }
            Packet::Stop { flow, endpoint } => {
                self.typed(endpoint, flow.row_type())?;
                self.request(id, Ask::Stop(flow), endpoint, 0)?;
            }
            Packet::Alloc { mask } => {
                self.all_bulk(mask)?;
                self.request(id, Ask::Alloc, 0, 0)?;
            }
            Packet::Free { mask } => {
                self.all_bulk(mask)?;
                self.request(id, Ask::Free, 0, 0)?;
            }

            Packet::ConfigStatus { status } => self.config_status(id, status)?,
            Packet::AltStatus { status, interface } => self.alt_status(id, status, interface)?,
            Packet::StreamStatus {
                flow,
                endpoint,
                status,
            } => self.stream_status(id, flow, endpoint, status)?,
            Packet::AllocStatus => {
                let place = self.answered(id, |r| matches!(r.ask, Ask::Alloc | Ask::Free))?;
                self.requests.free(1 << place);
            }

            Packet::Control { endpoint, length } => match from {
                Guest => self.data_request(id, Ask::Control, CONTROL, endpoint, length)?,
                Host => self.data_reply(id, Ask::Control, endpoint, length)?,
            },
            Packet::Bulk { endpoint, length } => match from {
                Guest => self.data_request(id, Ask::Bulk, BULK, endpoint, length)?,
                Host => self.data_reply(id, Ask::Bulk, endpoint, length)?,
            },
            Packet::Interrupt { endpoint, length } => match from {
                Guest => self.data_request(id, Ask::Interrupt, INTERRUPT, endpoint, length)?,
                Host if is_in(endpoint) => self.stream_data(endpoint, INTERRUPT)?,
                Host => self.data_reply(id, Ask::Interrupt, endpoint, length)?,
            },
            Packet::Iso { endpoint } => {
                self.typed(endpoint, ISO)?;
                ensure(from == Host || self.requests.settling == 0, 29)?;
                self.stream_data(endpoint, ISO)?;
            }
            Packet::BufferedBulk { endpoint } => self.stream_data(endpoint, BULK)?,

            Packet::Hello { .. }
            | Packet::Connect
            | Packet::InterfaceTable
            | Packet::EndpointTable { .. }
            | Packet::FilterReject
            | Packet::Filter
            | Packet::Ack => unreachable!("judged without a device"),
        }
        Ok(())
    }

    // -- the device and its rows ----------------------------------------------------------------------------------------

    fn no_ack_owed(&self) -> Result<(), u8> {
        ensure(!self.ack_owed, 27)
    }

    fn typed(&self, endpoint: u8, wanted: u8) -> Result<(), u8> {
        ensure(self.types[row(endpoint)] == wanted, 28)
    }

    fn all_bulk(&self, mask: u32) -> Result<(), u8> {
        let named = |row: &usize| mask >> row & 1 == 1;
        ensure((0..32).filter(named).all(|row| self.types[row] == BULK), 28)
    }

    /// "5 replaces the rows and closes streams whose row changes type."
    fn replace_rows(&mut self, types: &[u8], interfaces: &[u8]) {
        for (row, (old, new)) in self.types.iter().zip(types).enumerate() {
            if old != new {
                self.open &= !(1 << row);
            }
        }
        self.types.copy_from_slice(types);
        self.interfaces.copy_from_slice(interfaces);
    }

    // -- requests -------------------------------------------------------------------------------------------------------

    fn request(&mut self, id: u64, ask: Ask, byte: u8, length: u32) -> Result<(), u8> {
        ensure(self.requests.find(id).is_none(), 31)?;
        let place = self.requests.vacant().ok_or(32)?;
        let request = Request {
            id,
            ask,
            byte,
            length,
        };
        self.requests.put(place, request);
        Ok(())
    }

    fn data_request(
        &mut self,
        id: u64,
        ask: Ask,
        wanted: u8,
        endpoint: u8,
        length: u32,
    ) -> Result<(), u8> {
        self.typed(endpoint, wanted)?;
        ensure(self.requests.settling == 0, 29)?;
        self.request(id, ask, endpoint, length)
    }

    // -- replies --------------------------------------------------------------------------------------------------------

    /// The place of the request that a reply with this id answers.
    fn answered(&self, id: u64, fits: impl Fn(&Request) -> bool) -> Result<usize, u8> {
        let place = self.requests.find(id).ok_or(33)?;
        ensure(fits(&self.requests.places[place]), 33)?;
        Ok(place)
    }

    fn data_reply(&mut self, id: u64, ask: Ask, endpoint: u8, length: u32) -> Result<(), u8> {
        let place = self.answered(id, |r| r.ask == ask && r.byte == endpoint)?;
        ensure(length <= self.requests.places[place].length, 34)?;
        self.requests.free(1 << place);
        Ok(())
    }

    fn config_status(&mut self, id: u64, status: u8) -> Result<(), u8> {
        let place = self.answered(id, |r| matches!(r.ask, Ask::SetConfig | Ask::GetConfig))?;
        let sets = self.requests.places[place].ask == Ask::SetConfig;
        self.requests.free(1 << place);
        if sets && status == 0 {
            self.requests.free(self.requests.data);
            self.open = 0;
        }
        Ok(())
    }

    fn alt_status(&mut self, id: u64, status: u8, interface: u8) -> Result<(), u8> {
        let place = self.answered(id, |r| {
            matches!(r.ask, Ask::SetAlt | Ask::GetAlt) && r.byte == interface
        })?;
        let sets = self.requests.places[place].ask == Ask::SetAlt;
        self.requests.free(1 << place);
        if sets && status == 0 {
            self.settle_interface(interface);
        }
        Ok(())
    }

    /// Frees the data requests and closes the streams of "rows other than 0 and 16 of that interface", by the table as it
    /// is now.
    fn settle_interface(&mut self, interface: u8) {
        let belongs = |row: usize| row & 15 != 0 && self.interfaces[row] == interface;
        let rows = (0..32).filter(|row| belongs(*row));
        let rows = rows.fold(0u32, |rows, row| rows | 1 << row);
        let data = Taken {
            left: self.requests.data,
        };
        let freed = data
            .filter(|place| rows & bit(self.requests.places[*place].byte) != 0)
            .fold(0u128, |freed, place| freed | 1 << place);
        self.requests.free(freed);
        self.open &= !rows;
    }

    // -- streams --------------------------------------------------------------------------------------------------------

    fn stream_data(&self, endpoint: u8, wanted: u8) -> Result<(), u8> {
        self.typed(endpoint, wanted)?;
        ensure(self.open & bit(endpoint) != 0, 30)
    }

    /// 14, 17 and 27.
    fn stream_status(&mut self, id: u64, flow: Flow, endpoint: u8, status: u8) -> Result<(), u8> {
        let answered = self.answered(id, |r| {
            (r.ask == Ask::Start(flow) || r.ask == Ask::Stop(flow)) && r.byte == endpoint
        });
        let opens = match answered {
            Ok(place) => {
                let starts = self.requests.places[place].ask == Ask::Start(flow);
                self.requests.free(1 << place);
                starts && status == 0
            }
            Err(_) if id == 0 && status == 4 => false,
            Err(number) => return Err(number),
        };
        if self.types[row(endpoint)] == flow.row_type() {
            if opens {
                self.open |= bit(endpoint);
            } else {
                self.open &= !bit(endpoint);
            }
        }
        Ok(())
    }

    // -- what the making of traffic looks at ----------------------------------------------------------------------------

    pub fn hellos(&self) -> &Hellos {
        &self.hellos
    }

    pub fn has_device(&self) -> bool {
        self.device
    }

    pub fn introduction(&self) -> Introduction {
        self.introduction
    }

    pub fn owes_ack(&self) -> bool {
        self.ack_owed
    }

    pub fn types(&self) -> &[u8; 32] {
        &self.types
    }

    pub fn interfaces(&self) -> &[u8; 32] {
        &self.interfaces
    }

    pub fn is_open(&self, row: usize) -> bool {
        self.open >> row & 1 == 1
    }

    pub fn is_settling(&self) -> bool {
        self.requests.settling != 0
    }

    /// The live requests, lowest place first.
    pub fn live(&self) -> impl Iterator<Item = &Request> {
        self.requests
            .taken()
            .map(|place| &self.requests.places[place])
    }

    pub fn live_count(&self) -> usize {
        self.requests.live.count_ones() as usize
    }
}
