//! Packets to be sent: their fields, and their bytes under a shared set.

use crate::oracle::wire::{
    header_size, is_in, row, Side, BULK, BULK_LENGTH_OF_32_BITS, BULK_STREAMS, CONNECT_VERSION,
    CONTROL, INTERRUPT, INVALID, ISO, MAX_PACKET_SIZE,
};

#[derive(Clone, Debug)]
pub struct Packet {
    pub kind: u32,
    pub id: u64,
    /// The body's bytes that are always there.
    front: Vec<u8>,
    /// Those behind them that are there where all bits are shared.
    optional: Vec<(u32, Vec<u8>)>,
    data: Data,
}

#[derive(Clone, Copy, Debug)]
enum Data {
    None,
    Always(usize),
    /// Only where it goes the endpoint's way: from the guest to OUT, from the host on IN.
    Onward(u8, usize),
}

fn packet(kind: u32, id: u64, front: &[u8]) -> Packet {
    Packet {
        kind,
        id,
        front: front.to_vec(),
        optional: Vec::new(),
        data: Data::None,
    }
}

impl Packet {
    fn with(mut self, bits: u32, bytes: &[u8]) -> Packet {
        self.optional.push((bits, bytes.to_vec()));
        self
    }

    fn data(self, data: Data) -> Packet {
        Packet { data, ..self }
    }

    /// The same with another byte in the front of the body.
    pub fn but(mut self, at: usize, byte: u8) -> Packet {
        self.front[at] = byte;
        self
    }

    /// A hello's first word, 0 where it has none.
    pub fn first_word(&self) -> u32 {
        match self.front.get(64..68) {
            Some(word) => u32::from_le_bytes([word[0], word[1], word[2], word[3]]),
            None => 0,
        }
    }

    pub fn with_id(self, id: u64) -> Packet {
        Packet { id, ..self }
    }

    /// The packet's bytes where these bits are shared. The id is cut to the width in force.
    pub fn bytes(&self, from: Side, shared: u32) -> Vec<u8> {
        let size = match self.data {
            Data::None => 0,
            Data::Always(size) => size,
            Data::Onward(endpoint, size) if is_in(endpoint) == (from == Side::Host) => size,
            Data::Onward(..) => 0,
        };
        let optional = self
            .optional
            .iter()
            .filter(|(bits, _)| shared & bits == *bits);
        let extra: usize = optional.clone().map(|(_, bytes)| bytes.len()).sum();
        let length = self.front.len() + extra + size;
        let id_size = header_size(shared, self.kind) - 8;
        let mut bytes = Vec::with_capacity(16 + length);
        bytes.extend(self.kind.to_le_bytes());
        bytes.extend((length as u32).to_le_bytes());
        bytes.extend(&self.id.to_le_bytes()[..id_size]);
        bytes.extend(&self.front);
        for (_, part) in optional {
            bytes.extend(part);
        }
        bytes.extend((0..size).map(|i| i as u8 ^ 0x5a));
        bytes
    }
}

// -- both ----------------------------------------------------------------------------------------------------------------

/// A hello with these words.
pub fn hello(words: &[u32]) -> Packet {
    let mut front = b"test".to_vec();
    front.resize(64, 0);
    front.extend(words.iter().flat_map(|word| word.to_le_bytes()));
    packet(0, 0, &front)
}

/// A filter with this text and the zero byte behind it.
pub fn filter(text: &str) -> Packet {
    let mut front = text.as_bytes().to_vec();
    front.push(0);
    packet(23, 0, &front)
}

// -- the device ------------------------------------------------------------------------------------------------------------

/// Endpoint types and interfaces by row.
#[derive(Clone, Debug)]
pub struct Rows {
    pub types: [u8; 32],
    pub interfaces: [u8; 32],
}

impl Rows {
    /// Endpoint 0 and nothing else.
    pub fn bare() -> Rows {
        let mut types = [INVALID; 32];
        types[0] = CONTROL;
        types[16] = CONTROL;
        Rows {
            types,
            interfaces: [0; 32],
        }
    }

    /// Endpoints of every type in interfaces 0 and 1, and the last ones of both directions in interface 2.
    pub fn usual() -> Rows {
        Rows::bare()
            .with(0x01, ISO, 0)
            .with(0x81, ISO, 0)
            .with(0x02, BULK, 0)
            .with(0x82, BULK, 0)
            .with(0x03, INTERRUPT, 0)
            .with(0x83, INTERRUPT, 0)
            .with(0x05, ISO, 1)
            .with(0x85, ISO, 1)
            .with(0x06, BULK, 1)
            .with(0x86, BULK, 1)
            .with(0x07, INTERRUPT, 1)
            .with(0x87, INTERRUPT, 1)
            .with(0x0f, BULK, 2)
            .with(0x8f, BULK, 2)
    }

    pub fn with(mut self, endpoint: u8, row_type: u8, interface: u8) -> Rows {
        self.types[row(endpoint)] = row_type;
        self.interfaces[row(endpoint)] = interface;
        self
    }
}

pub fn connect(speed: u8) -> Packet {
    packet(1, 0, &[speed, 9, 0, 1, 0x34, 0x12, 0x78, 0x56]).with(CONNECT_VERSION, &[0x10, 0x01])
}

pub fn disconnect() -> Packet {
    packet(2, 0, &[])
}

pub fn reset(id: u64) -> Packet {
    packet(3, id, &[])
}

pub fn interface_table(count: u32) -> Packet {
    let mut front = count.to_le_bytes().to_vec();
    front.extend((0..32u8).chain([3; 96]));
    packet(4, 0, &front)
}

/// With interval, max packet and max streams the same in every row.
pub fn endpoint_table_with(rows: &Rows, interval: u8, max_packet: u8, max_streams: u8) -> Packet {
    let mut front = rows.types.to_vec();
    front.extend([interval; 32]);
    front.extend(rows.interfaces);
    packet(5, 0, &front)
        .with(MAX_PACKET_SIZE, &[max_packet; 64])
        .with(MAX_PACKET_SIZE | BULK_STREAMS, &[max_streams; 128])
}

pub fn endpoint_table(rows: &Rows) -> Packet {
    endpoint_table_with(rows, 10, 2, 0)
}

pub fn filter_reject() -> Packet {
    packet(22, 0, &[])
}

pub fn ack() -> Packet {
    packet(24, 0, &[])
}

pub fn cancel(id: u64) -> Packet {
    packet(21, id, &[])
}

// -- configuration and alternate settings ----------------------------------------------------------------------------------

pub fn set_config(id: u64, configuration: u8) -> Packet {
    packet(6, id, &[configuration])
}

pub fn get_config(id: u64) -> Packet {
    packet(7, id, &[])
}

pub fn config_status(id: u64, status: u8, configuration: u8) -> Packet {
    packet(8, id, &[status, configuration])
}

pub fn set_alt(id: u64, interface: u8, alt: u8) -> Packet {
    packet(9, id, &[interface, alt])
}

pub fn get_alt(id: u64, interface: u8) -> Packet {
    packet(10, id, &[interface])
}

pub fn alt_status(id: u64, status: u8, interface: u8, alt: u8) -> Packet {
    packet(11, id, &[status, interface, alt])
}

// -- streams ---------------------------------------------------------------------------------------------------------------

pub fn start_iso(id: u64, endpoint: u8) -> Packet {
    packet(12, id, &[endpoint, 8, 4])
}

pub fn stop_iso(id: u64, endpoint: u8) -> Packet {
    packet(13, id, &[endpoint])
}

pub fn iso_status(id: u64, status: u8, endpoint: u8) -> Packet {
    packet(14, id, &[status, endpoint])
}

pub fn start_interrupt(id: u64, endpoint: u8) -> Packet {
    packet(15, id, &[endpoint])
}

pub fn stop_interrupt(id: u64, endpoint: u8) -> Packet {
    packet(16, id, &[endpoint])
}

pub fn interrupt_status(id: u64, status: u8, endpoint: u8) -> Packet {
    packet(17, id, &[status, endpoint])
}

/// Allocates bulk streams; other stream kinds here are those of starting and stopping.
pub fn alloc(id: u64, mask: u32, count: u32) -> Packet {
    packet(18, id, &words(&[mask, count]))
}

pub fn free(id: u64, mask: u32) -> Packet {
    packet(19, id, &words(&[mask]))
}

pub fn alloc_status(id: u64, status: u8, mask: u32, count: u32) -> Packet {
    let mut front = words(&[mask, count]);
    front.push(status);
    packet(20, id, &front)
}

/// Starts bulk receiving.
pub fn start_bulk(id: u64, endpoint: u8, stream: u32) -> Packet {
    let mut front = words(&[stream, 512]);
    front.extend([endpoint, 2]);
    packet(25, id, &front)
}

pub fn stop_bulk(id: u64, endpoint: u8, stream: u32) -> Packet {
    let mut front = words(&[stream]);
    front.push(endpoint);
    packet(26, id, &front)
}

pub fn bulk_status(id: u64, status: u8, endpoint: u8, stream: u32) -> Packet {
    let mut front = words(&[stream]);
    front.extend([endpoint, status]);
    packet(27, id, &front)
}

fn words(numbers: &[u32]) -> Vec<u8> {
    numbers.iter().flat_map(|word| word.to_le_bytes()).collect()
}

// -- data ------------------------------------------------------------------------------------------------------------------

/// The length says how many bytes follow, or, where none do, what is asked for or was written.
pub fn control(id: u64, endpoint: u8, length: u16) -> Packet {
    let mut front = vec![endpoint, 6, endpoint & 0x80, 0, 0, 1, 0, 0];
    front.extend(length.to_le_bytes());
    packet(100, id, &front).data(Data::Onward(endpoint, usize::from(length)))
}

pub fn bulk_on_stream(id: u64, endpoint: u8, length: u32, stream: u32) -> Packet {
    let mut front = vec![endpoint, 0];
    front.extend((length as u16).to_le_bytes());
    front.extend(stream.to_le_bytes());
    let high = (length >> 16) as u16;
    packet(101, id, &front)
        .with(BULK_LENGTH_OF_32_BITS, &high.to_le_bytes())
        .data(Data::Onward(endpoint, length as usize))
}

pub fn bulk(id: u64, endpoint: u8, length: u32) -> Packet {
    bulk_on_stream(id, endpoint, length, 0)
}

pub fn iso(id: u64, endpoint: u8, length: u16) -> Packet {
    packet(102, id, &short_front(endpoint, length)).data(Data::Always(usize::from(length)))
}

pub fn interrupt(id: u64, endpoint: u8, length: u16) -> Packet {
    packet(103, id, &short_front(endpoint, length))
        .data(Data::Onward(endpoint, usize::from(length)))
}

fn short_front(endpoint: u8, length: u16) -> Vec<u8> {
    let [low, high] = length.to_le_bytes();
    vec![endpoint, 0, low, high]
}

pub fn buffered_bulk(id: u64, endpoint: u8, length: u32, stream: u32) -> Packet {
    let mut front = words(&[stream, length]);
    front.extend([endpoint, 0]);
    packet(104, id, &front).data(Data::Always(length as usize))
}
