//! Integers, the two ends, and the header with its numbers 10 to 12.

/// The longest body, in bytes.
pub const LENGTH_LIMIT: u32 = 32_768;

/// The end that sends.
#[derive(Clone, Copy, Debug, PartialEq, Eq)]
pub enum Side {
    Guest,
    Host,
}

impl Side {
    pub fn other(self) -> Side {
        match self {
            Side::Guest => Side::Host,
            Side::Host => Side::Guest,
        }
    }

    pub(crate) fn index(self) -> usize {
        match self {
            Side::Guest => 0,
            Side::Host => 1,
        }
    }
}

pub(crate) fn u16_at(bytes: &[u8], at: usize) -> u16 {
    u16::from_le_bytes([bytes[at], bytes[at + 1]])
}

pub(crate) fn u32_at(bytes: &[u8], at: usize) -> u32 {
    u32::from_le_bytes([bytes[at], bytes[at + 1], bytes[at + 2], bytes[at + 3]])
}

/// A whole header.
#[derive(Clone, Copy, Debug, PartialEq, Eq)]
pub struct Header {
    pub kind: u32,
    pub length: u32,
    pub id: u64,
    /// Its own bytes: 12, or 16 with a 64-bit id.
    pub size: usize,
}

impl Header {
    /// The header at the front of `bytes`, if it is whole. `wide`: 64-bit ids are in force. A
    /// hello's id has 32 bits even then.
    #[inline]
    pub fn read(bytes: &[u8], wide: bool) -> Option<Header> {
        if bytes.len() < 12 {
            return None;
        }
        let kind = u32_at(bytes, 0);
        let low = u64::from(u32_at(bytes, 8));
        let (id, size) = if wide && kind != 0 {
            if bytes.len() < 16 {
                return None;
            }
            (low | u64::from(u32_at(bytes, 12)) << 32, 16)
        } else {
            (low, 12)
        };
        Some(Header {
            kind,
            length: u32_at(bytes, 4),
            id,
            size,
        })
    }

    /// Header and body. Only asked of a header that 10 doesn't refuse.
    pub(crate) fn total(&self) -> usize {
        self.size + self.length as usize
    }

    /// 10, 11 or 12; `own_hello`: the sender's hello has passed.
    #[inline]
    pub(crate) fn refusal(&self, own_hello: bool) -> Option<u8> {
        if self.length > LENGTH_LIMIT {
            Some(10)
        } else if self.kind != 0 && !own_hello {
            Some(11)
        } else if self.kind == 0 && own_hello {
            Some(12)
        } else {
            None
        }
    }
}
