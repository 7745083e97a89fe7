//! The wire checks: the number that refuses one packet's bytes, or what the session rules have to know of the packet.

use Side::{Guest, Host};

/// "10: length over 32,768".
pub const LONGEST_BODY: u32 = 32_768;

// The bits of the shared set.
pub const BULK_STREAMS: u32 = 1 << 0;
pub const CONNECT_VERSION: u32 = 1 << 1;
pub const FILTER: u32 = 1 << 2;
pub const DISCONNECT_ACK: u32 = 1 << 3;
pub const MAX_PACKET_SIZE: u32 = 1 << 4;
pub const IDS_OF_64_BITS: u32 = 1 << 5;
pub const BULK_LENGTH_OF_32_BITS: u32 = 1 << 6;
pub const BULK_RECEIVING: u32 = 1 << 7;

/// They are the low byte of a word. "Other bits and words are ignored."
const BITS: u32 = 0xff;

// The types of endpoints.
pub const CONTROL: u8 = 0;
pub const ISO: u8 = 1;
pub const BULK: u8 = 2;
pub const INTERRUPT: u8 = 3;
pub const INVALID: u8 = 255;

#[derive(Clone, Copy, Debug, PartialEq, Eq, PartialOrd, Ord)]
pub enum Side {
    Guest,
    Host,
}

/// The first word of each hello that has passed.
#[derive(Clone, Copy, Debug, Default)]
pub struct Hellos {
    pub guest: Option<u32>,
    pub host: Option<u32>,
}

impl Hellos {
    pub fn of(&self, side: Side) -> Option<u32> {
        match side {
            Guest => self.guest,
            Host => self.host,
        }
    }

    pub fn set(&mut self, side: Side, word: u32) {
        match side {
            Guest => self.guest = Some(word),
            Host => self.host = Some(word),
        }
    }

    /// "Shared set: bits set in both hellos' first capability word." Nothing before both have passed.
    pub fn shared(&self) -> u32 {
        match (self.guest, self.host) {
            (Some(guest), Some(host)) => guest & host & BITS,
            _ => 0,
        }
    }
}

// -- headers ------------------------------------------------------------------------------------------------------------

#[derive(Clone, Copy, Debug)]
pub struct Header {
    pub kind: u32,
    pub length: u32,
    pub id: u64,
    /// 12 or 16.
    pub size: usize,
}

fn u16_at(bytes: &[u8], at: usize) -> u32 {
    u32::from(u16::from_le_bytes([bytes[at], bytes[at + 1]]))
}

fn u32_at(bytes: &[u8], at: usize) -> u32 {
    u32::from_le_bytes([bytes[at], bytes[at + 1], bytes[at + 2], bytes[at + 3]])
}

/// The size of the header of a packet of this kind. "id is u64 once both hellos have passed and bit 5 is shared. Hellos
/// always use the 12-byte header."
pub fn header_size(shared: u32, kind: u32) -> usize {
    if kind != 0 && shared & IDS_OF_64_BITS != 0 {
        16
    } else {
        12
    }
}

/// The header in front of the bytes, where it is whole.
pub fn header(shared: u32, bytes: &[u8]) -> Option<Header> {
    if bytes.len() < 12 {
        return None;
    }
    let kind = u32_at(bytes, 0);
    let size = header_size(shared, kind);
    if bytes.len() < size {
        return None;
    }
    let low = u64::from(u32_at(bytes, 8));
    let id = if size == 16 {
        low | u64::from(u32_at(bytes, 12)) << 32
    } else {
        low
    };
    Some(Header {
        kind,
        length: u32_at(bytes, 4),
        id,
        size,
    })
}

/// 10, 11 and 12, in that order.
pub fn judge_header(hellos: &Hellos, from: Side, header: &Header) -> Result<(), u8> {
    if header.length > LONGEST_BODY {
        return Err(10);
    }
    match (hellos.of(from), header.kind) {
        (None, 0) => Ok(()),
        (None, _) => Err(11),
        (Some(_), 0) => Err(12),
        (Some(_), _) => Ok(()),
    }
}

// -- packets ------------------------------------------------------------------------------------------------------------

/// What a stream carries: 12 to 14 are iso, 15 to 17 interrupt, 25 to 27 bulk.
#[derive(Clone, Copy, Debug, PartialEq, Eq)]
pub enum Flow {
    Iso,
    Interrupt,
    Bulk,
}

impl Flow {
    pub fn row_type(self) -> u8 {
        match self {
            Flow::Iso => ISO,
            Flow::Interrupt => INTERRUPT,
            Flow::Bulk => BULK,
        }
    }
}

/// A packet that the wire checks let through, with the fields that a session rule reads.
#[derive(Clone, Copy, Debug)]
pub enum Packet<'a> {
    Hello {
        word: u32,
    },
    Connect,
    Disconnect,
    Reset,
    InterfaceTable,
    EndpointTable {
        types: &'a [u8],
        interfaces: &'a [u8],
    },
    SetConfig,
    GetConfig,
    ConfigStatus {
        status: u8,
    },
    SetAlt {
        interface: u8,
    },
    GetAlt {
        interface: u8,
    },
    AltStatus {
        status: u8,
        interface: u8,
    },
    Start {
        flow: Flow,
        endpoint: u8,
    },
    Stop {
        flow: Flow,
        endpoint: u8,
    },
    StreamStatus {
        flow: Flow,
        endpoint: u8,
        status: u8,
    },
    Alloc {
        mask: u32,
    },
    Free {
        mask: u32,
    },
    AllocStatus,
    Cancel,
    FilterReject,
    Filter,
    Ack,
    Control {
        endpoint: u8,
        length: u32,
    },
    Bulk {
        endpoint: u8,
        length: u32,
    },
    Iso {
        endpoint: u8,
    },
    Interrupt {
        endpoint: u8,
        length: u32,
    },
    BufferedBulk {
        endpoint: u8,
    },
}

/// Reads the bytes of one packet: its id and the packet, or the number that refuses it.
///
/// Bytes that aren't a whole header get 23, and so do those whose header says another size, straight after 10 to 12.
pub fn read<'a>(hellos: &Hellos, from: Side, bytes: &'a [u8]) -> Result<(u64, Packet<'a>), u8> {
    let shared = hellos.shared();
    let header = header(shared, bytes).ok_or(23)?;
    judge_header(hellos, from, &header)?;
    let body = &bytes[header.size..];
    if body.len() != header.length as usize {
        return Err(23);
    }
    let place = Place {
        from,
        shared,
        id: header.id,
        body,
    };
    Ok((header.id, place.read(header.kind)?))
}

/// "An endpoint byte holds the number in bits 0 to 3 and IN in bit 7; bits 4 to 6 are zero."
fn is_address(endpoint: u8) -> bool {
    endpoint & 0x70 == 0
}

pub fn is_in(endpoint: u8) -> bool {
    endpoint & 0x80 != 0
}

/// "Its row is the number, plus 16 for IN."
pub fn row(endpoint: u8) -> usize {
    usize::from(endpoint & 0x0f) + if is_in(endpoint) { 16 } else { 0 }
}

/// A body, and all that its reading depends on.
struct Place<'a> {
    from: Side,
    shared: u32,
    id: u64,
    body: &'a [u8],
}

impl<'a> Place<'a> {
    fn read(&self, kind: u32) -> Result<Packet<'a>, u8> {
        match kind {
            0 => self.hello(),
            1 => self.connect(),
            2 => {
                self.sent_by(Host)?;
                self.sized(0)?;
                self.rule(self.id == 0)?;
                Ok(Packet::Disconnect)
            }
            3 => {
                self.sent_by(Guest)?;
                self.sized(0)?;
                Ok(Packet::Reset)
            }
            4 => {
                self.sent_by(Host)?;
                self.sized(132)?;
                self.rule(self.id == 0 && u32_at(self.body, 0) <= 32)?;
                Ok(Packet::InterfaceTable)
            }
            5 => self.endpoint_table(),
            6 => {
                self.sent_by(Guest)?;
                self.sized(1)?;
                Ok(Packet::SetConfig)
            }
            7 => {
                self.sent_by(Guest)?;
                self.sized(0)?;
                Ok(Packet::GetConfig)
            }
            8 => {
                self.sent_by(Host)?;
                self.sized(2)?;
                let status = self.body[0];
                Ok(Packet::ConfigStatus { status })
            }
            9 => {
                self.sent_by(Guest)?;
                self.sized(2)?;
                Ok(Packet::SetAlt {
                    interface: self.body[0],
                })
            }
            10 => {
                self.sent_by(Guest)?;
                self.sized(1)?;
                Ok(Packet::GetAlt {
                    interface: self.body[0],
                })
            }
            11 => {
                self.sent_by(Host)?;
                self.sized(3)?;
                let (status, interface) = (self.body[0], self.body[1]);
                Ok(Packet::AltStatus { status, interface })
            }
            12 => self.iso_request(3, |flow, endpoint| Packet::Start { flow, endpoint }),
            13 => self.iso_request(1, |flow, endpoint| Packet::Stop { flow, endpoint }),
            14 => self.status_of(Flow::Iso),
            15 => self.interrupt_request(|flow, endpoint| Packet::Start { flow, endpoint }),
            16 => self.interrupt_request(|flow, endpoint| Packet::Stop { flow, endpoint }),
            // Not among the kinds that name an IN endpoint.
            17 => self.status_of(Flow::Interrupt),
            18 => {
                let mask = self.mask(8)?;
                Ok(Packet::Alloc { mask })
            }
            19 => {
                let mask = self.mask(4)?;
                Ok(Packet::Free { mask })
            }
            20 => {
                self.sent_by(Host)?;
                self.needs(BULK_STREAMS)?;
                self.sized(9)?;
                Ok(Packet::AllocStatus)
            }
            21 => {
                self.sent_by(Guest)?;
                self.sized(0)?;
                Ok(Packet::Cancel)
            }
            22 => {
                self.sent_by(Guest)?;
                self.needs(FILTER)?;
                self.sized(0)?;
                self.rule(self.id == 0)?;
                Ok(Packet::FilterReject)
            }
            23 => {
                self.needs(FILTER)?;
                self.at_least(1)?;
                // "A filter's one zero byte is its last."
                let first_zero = self.body.iter().position(|byte| *byte == 0);
                self.rule(self.id == 0 && first_zero == Some(self.body.len() - 1))?;
                Ok(Packet::Filter)
            }
            24 => {
                self.sent_by(Guest)?;
                self.needs(DISCONNECT_ACK)?;
                self.sized(0)?;
                self.rule(self.id == 0)?;
                Ok(Packet::Ack)
            }
            25 => {
                let endpoint = self.receiving(Guest, 10, 8)?;
                Ok(Packet::Start {
                    flow: Flow::Bulk,
                    endpoint,
                })
            }
            26 => {
                let endpoint = self.receiving(Guest, 5, 4)?;
                Ok(Packet::Stop {
                    flow: Flow::Bulk,
                    endpoint,
                })
            }
            27 => {
                let endpoint = self.receiving(Host, 6, 4)?;
                let status = self.body[5];
                Ok(Packet::StreamStatus {
                    flow: Flow::Bulk,
                    endpoint,
                    status,
                })
            }
            100 => self.control(),
            101 => self.bulk(),
            102 => self.iso(),
            103 => self.interrupt(),
            104 => self.buffered_bulk(),
            _ => Err(20),
        }
    }

    // The checks, each with its number.

    fn sent_by(&self, side: Side) -> Result<(), u8> {
        if self.from == side {
            Ok(())
        } else {
            Err(21)
        }
    }

    fn needs(&self, bit: u32) -> Result<(), u8> {
        if self.shared & bit != 0 {
            Ok(())
        } else {
            Err(22)
        }
    }

    fn sized(&self, size: usize) -> Result<(), u8> {
        if self.body.len() == size {
            Ok(())
        } else {
            Err(23)
        }
    }

    fn at_least(&self, size: usize) -> Result<(), u8> {
        if self.body.len() >= size {
            Ok(())
        } else {
            Err(23)
        }
    }

    /// "Where data follows, its size equals the length field; elsewhere there is none". A length that no body can have
    /// is told apart from the data's size, as nothing is added to it.
    fn data(&self, fixed: usize, follows: bool, length: u32) -> Result<(), u8> {
        let size = self.body.len() - fixed;
        if size == if follows { length as usize } else { 0 } {
            Ok(())
        } else {
            Err(23)
        }
    }

    fn rule(&self, holds: bool) -> Result<(), u8> {
        if holds {
            Ok(())
        } else {
            Err(24)
        }
    }

    /// "only if guest sends on an OUT endpoint or host on an IN one". Bit 7 alone decides.
    fn sends_onward(&self, endpoint: u8) -> bool {
        match self.from {
            Guest => !is_in(endpoint),
            Host => is_in(endpoint),
        }
    }

    // The kinds that take more than a line or two.

    /// 23, 24, 13, in that order.
    fn hello(&self) -> Result<Packet<'a>, u8> {
        match self.body.len() {
            64 | 68 | 72 | 76 | 80 | 84 | 88 | 92 | 96 => {}
            _ => return Err(23),
        }
        self.rule(self.id == 0 && self.body[..64].contains(&0))?;
        let word = if self.body.len() > 64 {
            u32_at(self.body, 64)
        } else {
            0
        };
        if word & BULK_STREAMS != 0 && word & MAX_PACKET_SIZE == 0 {
            return Err(13);
        }
        Ok(Packet::Hello { word })
    }

    fn connect(&self) -> Result<Packet<'a>, u8> {
        self.sent_by(Host)?;
        let versioned = self.shared & CONNECT_VERSION != 0;
        self.sized(if versioned { 10 } else { 8 })?;
        self.rule(self.id == 0 && matches!(self.body[0], 0..=3 | 255))?;
        Ok(Packet::Connect)
    }

    fn endpoint_table(&self) -> Result<Packet<'a>, u8> {
        self.sent_by(Host)?;
        let packets = self.shared & MAX_PACKET_SIZE != 0;
        let streams = self.shared & BULK_STREAMS != 0;
        self.sized(match (packets, streams) {
            (false, _) => 96,
            (true, false) => 160,
            (true, true) => 288,
        })?;
        let types = &self.body[..32];
        let known = |t: &u8| matches!(*t, CONTROL | ISO | BULK | INTERRUPT | INVALID);
        self.rule(self.id == 0)?;
        self.rule(types.iter().all(known) && types[0] == CONTROL && types[16] == CONTROL)?;
        Ok(Packet::EndpointTable {
            types,
            interfaces: &self.body[64..96],
        })
    }

    fn iso_request(
        &self,
        size: usize,
        packet: fn(Flow, u8) -> Packet<'a>,
    ) -> Result<Packet<'a>, u8> {
        self.sent_by(Guest)?;
        self.sized(size)?;
        self.rule(is_address(self.body[0]))?;
        Ok(packet(Flow::Iso, self.body[0]))
    }

    fn interrupt_request(&self, packet: fn(Flow, u8) -> Packet<'a>) -> Result<Packet<'a>, u8> {
        self.sent_by(Guest)?;
        self.sized(1)?;
        self.rule(is_address(self.body[0]) && is_in(self.body[0]))?;
        Ok(packet(Flow::Interrupt, self.body[0]))
    }

    /// 14 and 17.
    fn status_of(&self, flow: Flow) -> Result<Packet<'a>, u8> {
        self.sent_by(Host)?;
        self.sized(2)?;
        let (status, endpoint) = (self.body[0], self.body[1]);
        self.rule(is_address(endpoint))?;
        Ok(Packet::StreamStatus {
            flow,
            endpoint,
            status,
        })
    }

    /// 18 and 19.
    fn mask(&self, size: usize) -> Result<u32, u8> {
        self.sent_by(Guest)?;
        self.needs(BULK_STREAMS)?;
        self.sized(size)?;
        let mask = u32_at(self.body, 0);
        self.rule(mask != 0)?;
        Ok(mask)
    }

    /// 25 to 27: the endpoint, which lies there.
    fn receiving(&self, side: Side, size: usize, at: usize) -> Result<u8, u8> {
        self.sent_by(side)?;
        self.needs(BULK_RECEIVING)?;
        self.sized(size)?;
        let endpoint = self.body[at];
        self.rule(is_address(endpoint) && is_in(endpoint))?;
        Ok(endpoint)
    }

    fn control(&self) -> Result<Packet<'a>, u8> {
        self.at_least(10)?;
        let (endpoint, requesttype) = (self.body[0], self.body[2]);
        let length = u16_at(self.body, 8);
        self.data(10, self.sends_onward(endpoint), length)?;
        self.rule(is_address(endpoint))?;
        self.rule(is_in(requesttype) == is_in(endpoint))?;
        Ok(Packet::Control { endpoint, length })
    }

    fn bulk(&self) -> Result<Packet<'a>, u8> {
        let wide = self.shared & BULK_LENGTH_OF_32_BITS != 0;
        let fixed = if wide { 10 } else { 8 };
        self.at_least(fixed)?;
        let endpoint = self.body[0];
        let low = u16_at(self.body, 2);
        let stream = u32_at(self.body, 4);
        let length = if wide {
            low | u16_at(self.body, 8) << 16
        } else {
            low
        };
        self.data(fixed, self.sends_onward(endpoint), length)?;
        self.rule(is_address(endpoint))?;
        self.rule(stream == 0 || self.shared & BULK_STREAMS != 0)?;
        Ok(Packet::Bulk { endpoint, length })
    }

    fn iso(&self) -> Result<Packet<'a>, u8> {
        self.at_least(4)?;
        let endpoint = self.body[0];
        self.data(4, true, u16_at(self.body, 2))?;
        self.rule(is_address(endpoint))?;
        // "Iso from the guest is OUT, from the host IN".
        self.rule(self.sends_onward(endpoint))?;
        Ok(Packet::Iso { endpoint })
    }

    fn interrupt(&self) -> Result<Packet<'a>, u8> {
        self.at_least(4)?;
        let endpoint = self.body[0];
        let length = u16_at(self.body, 2);
        self.data(4, self.sends_onward(endpoint), length)?;
        self.rule(is_address(endpoint))?;
        // "interrupt data from the guest is OUT".
        self.rule(self.from == Host || !is_in(endpoint))?;
        Ok(Packet::Interrupt { endpoint, length })
    }

    fn buffered_bulk(&self) -> Result<Packet<'a>, u8> {
        self.sent_by(Host)?;
        self.needs(BULK_RECEIVING)?;
        self.at_least(10)?;
        self.data(10, true, u32_at(self.body, 4))?;
        let endpoint = self.body[8];
        self.rule(is_address(endpoint) && is_in(endpoint))?;
        Ok(Packet::BufferedBulk { endpoint })
    }
}
