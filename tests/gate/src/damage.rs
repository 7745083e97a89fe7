//! Damages packets.

use plain::LENGTH_LIMIT;

use crate::traffic::{Planner, Sent};

/// Kinds that aren't known; some have a known one in their lowest byte.
const UNKNOWN: [u32; 10] = [
    28,
    29,
    99,
    105,
    255,
    256,
    263,
    0x0100_0000,
    0x6400_0000,
    u32::MAX,
];

/// Where the body of a kind has its endpoint or, for 9 to 11, its interface.
pub fn endpoint_at(kind: u32) -> usize {
    match kind {
        11 | 14 | 17 => 1,
        25 | 104 => 8,
        26 | 27 => 4,
        _ => 0,
    }
}

/// Where it has its status.
pub fn status_at(kind: u32) -> usize {
    match kind {
        20 => 8,
        27 => 5,
        100 => 3,
        101..=103 => 1,
        104 => 9,
        _ => 0,
    }
}

impl Planner<'_> {
    /// The packet, or now and then one that is like it.
    pub fn maybe_damaged(&mut self, (side, bytes): Sent) -> Sent {
        let is_hello = bytes[..4] == [0; 4];
        if !self.random.percent(self.style.damage) || is_hello && !self.style.stops {
            return (side, bytes);
        }
        let kind = u32::from_le_bytes(bytes[..4].try_into().expect("4 bytes"));
        let header = self.header_size(kind);
        match self.random.below(if self.style.stops { 16 } else { 12 }) {
            0 => (side.other(), bytes),
            1 => (side, self.of_kind(bytes)),
            2 => (side, self.resized(bytes, header)),
            3 | 4 => (side, self.other_byte(bytes, header)),
            5 | 6 => (side, self.other_endpoint_or_status(bytes, header, kind)),
            7 => (side, self.other_id(bytes, header)),
            8 | 9 => (side, self.other_number(bytes, header, kind)),
            10 | 11 => (side, self.at_a_border(bytes, header, kind)),
            _ => (side, self.out_of_step(bytes, header)),
        }
    }

    fn of_kind(&mut self, mut bytes: Vec<u8>) -> Vec<u8> {
        let kind = match self.random.below(10) {
            0..=3 => self.random.between(1, 27) as u32,
            4 | 5 => self.random.between(100, 104) as u32,
            _ => self.random.pick(&UNKNOWN),
        };
        bytes[..4].copy_from_slice(&kind.to_le_bytes());
        bytes
    }

    /// A body of another size, with a header that says so.
    fn resized(&mut self, mut bytes: Vec<u8>, header: usize) -> Vec<u8> {
        let body = bytes.len() - header;
        let size = match self.random.below(4) {
            0 => body.saturating_sub(self.random.between(1, 3)),
            1 => body + self.random.between(1, 3),
            2 => self.random.below(300),
            _ => self.random.below(body + 1),
        };
        let size = size.min(LENGTH_LIMIT as usize);
        bytes.resize(header + size, 0);
        bytes[4..8].copy_from_slice(&(size as u32).to_le_bytes());
        bytes
    }

    fn other_byte(&mut self, mut bytes: Vec<u8>, header: usize) -> Vec<u8> {
        let body = bytes.len() - header;
        if body > 0 {
            let at = header + self.random.below(body.min(32));
            if self.random.percent(50) {
                bytes[at] = self.random.byte();
            } else {
                bytes[at] ^= 1 << self.random.below(8);
            }
        }
        bytes
    }

    fn other_endpoint_or_status(
        &mut self,
        mut bytes: Vec<u8>,
        header: usize,
        kind: u32,
    ) -> Vec<u8> {
        let (endpoint, status) = (header + endpoint_at(kind), header + status_at(kind));
        if self.random.percent(60) {
            if endpoint < bytes.len() {
                bytes[endpoint] ^= self.random.pick(&[0x10, 0x20, 0x40, 0x80, 0x80, 1]);
            }
        } else if status < bytes.len() {
            bytes[status] = self.random.pick(&[0, 3, 4, 5, 7, 132, 255]);
        }
        bytes
    }

    fn other_id(&mut self, mut bytes: Vec<u8>, header: usize) -> Vec<u8> {
        let id = match self.random.below(4) {
            0 => 0,
            1 => self.random.near_power(),
            2 => self.live_id() ^ u64::from(self.random.percent(30)) << 32,
            _ => self.next_id.wrapping_add(1),
        };
        bytes[8..header].copy_from_slice(&id.to_le_bytes()[..header - 8]);
        bytes
    }

    /// Another length, count, mask or stream.
    fn other_number(&mut self, mut bytes: Vec<u8>, header: usize, kind: u32) -> Vec<u8> {
        let (at, size) = match kind {
            100 => (8, 2),
            101 => self.random.pick(&[(2, 2), (8, 2), (4, 4)]),
            102 | 103 => (2, 2),
            104 => (4, 4),
            _ => (0, 4),
        };
        let field = header + at..header + at + size;
        if field.end <= bytes.len() {
            let value = self.random.near_power().to_le_bytes();
            bytes[field].copy_from_slice(&value[..size]);
        }
        bytes
    }

    /// A value just inside or outside what the kind's fields may hold.
    fn at_a_border(&mut self, mut bytes: Vec<u8>, header: usize, kind: u32) -> Vec<u8> {
        let body = &mut bytes[header..];
        match kind {
            1 if !body.is_empty() => body[0] = self.random.pick(&[3, 4, 5, 254, 255]),
            4 if body.len() > 4 => {
                let count = self.random.pick(&[31, 32, 33, 34, 256, 0x0100_0000]);
                body[..4].copy_from_slice(&u32::to_le_bytes(count));
            }
            5 if body.len() > 32 => {
                let row = self.random.pick(&[0, 1, 15, 16, 17, 31]);
                body[row] = self.random.pick(&[0, 1, 2, 3, 4, 5, 254, 255]);
            }
            18 | 19 if body.len() >= 4 => {
                let mask = self.random.pick(&[0, 1, 1 << 16, 1 << 31, u32::MAX]);
                body[..4].copy_from_slice(&mask.to_le_bytes());
            }
            23 if !body.is_empty() => {
                let at = self.random.below(body.len());
                body[at] ^= b'1';
            }
            100 if body.len() > 2 => body[2] ^= 0x80,
            _ => {
                let at = endpoint_at(kind);
                if at < body.len() {
                    body[at] ^= 0x80;
                }
            }
        }
        bytes
    }

    /// A header that doesn't fit its body, bytes that are missing or too many, a second hello.
    fn out_of_step(&mut self, mut bytes: Vec<u8>, header: usize) -> Vec<u8> {
        match self.random.below(4) {
            0 => {
                let length = match self.random.below(4) {
                    0 => LENGTH_LIMIT,
                    1 => LENGTH_LIMIT + 1,
                    2 => (bytes.len() - header) as u32 + 1,
                    _ => self.random.near_power() as u32,
                };
                bytes[4..8].copy_from_slice(&length.to_le_bytes());
            }
            1 => {
                let size = self.random.between(1, bytes.len());
                bytes.truncate(size);
            }
            2 => {
                for _ in 0..self.random.between(1, 20) {
                    bytes.push(self.random.byte());
                }
            }
            _ => bytes[..4].fill(0),
        }
        bytes
    }
}
