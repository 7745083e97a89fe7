//! The kinds and the wire checks on a whole packet: 20 to 24, and 13 for a hello.

use crate::header::{u16_at, u32_at, Header, Side};

/// Capability bits, as masks of a hello's first word.
pub(crate) mod bit {
    pub const STREAMS: u32 = 1 << 0;
    pub const CONNECT_VERSION: u32 = 1 << 1;
    pub const FILTER: u32 = 1 << 2;
    pub const DISCONNECT_ACK: u32 = 1 << 3;
    pub const MAX_PACKET: u32 = 1 << 4;
    pub const WIDE_IDS: u32 = 1 << 5;
    pub const BULK_LENGTH: u32 = 1 << 6;
    pub const BULK_RECEIVING: u32 = 1 << 7;

    /// All that there are; what else a hello sets is ignored.
    pub const ALL: u32 = STREAMS
        | CONNECT_VERSION
        | FILTER
        | DISCONNECT_ACK
        | MAX_PACKET
        | WIDE_IDS
        | BULK_LENGTH
        | BULK_RECEIVING;
}

const VERSION_SIZE: usize = 64;
const INTERFACE_LIMIT: u32 = 32;

/// Endpoint types, as in an endpoint table.
pub(crate) const CONTROL: u8 = 0;
pub(crate) const ISO: u8 = 1;
pub(crate) const BULK: u8 = 2;
pub(crate) const INTERRUPT: u8 = 3;
pub(crate) const INVALID: u8 = 255;

pub(crate) fn is_in(endpoint: u8) -> bool {
    endpoint & 0x80 != 0
}

/// The length field of a data kind; for bulk the whole count.
pub(crate) fn data_length(kind: u32, shared: u32, body: &[u8]) -> u32 {
    match kind {
        100 => u32::from(u16_at(body, 8)),
        101 => {
            let high = if shared & bit::BULK_LENGTH != 0 {
                u16_at(body, 8)
            } else {
                0
            };
            u32::from(u16_at(body, 2)) | u32::from(high) << 16
        }
        104 => u32_at(body, 4),
        _ => u32::from(u16_at(body, 2)),
    }
}

/// A hello's first capability word; without words nothing is offered.
pub(crate) fn first_word(body: &[u8]) -> u32 {
    if body.len() > VERSION_SIZE {
        u32_at(body, VERSION_SIZE)
    } else {
        0
    }
}

/// The wire checks on a packet whose header isn't refused by 10 to 12. On success the offset in the
/// body at which what follows its fields starts: 0 in a kind of which nothing but fields is left.
pub(crate) fn check(from: Side, shared: u32, header: &Header, body: &[u8]) -> Result<usize, u8> {
    let kind = header.kind;
    let (sent_by, needs) = sender_and_bit(kind).ok_or(20)?;
    if sent_by.is_some_and(|side| side != from) {
        return Err(21);
    }
    if needs & !shared != 0 {
        return Err(22);
    }
    let data = sized(from, shared, kind, body).ok_or(23)?;
    if !fields_hold(from, shared, header, body) {
        return Err(24);
    }
    if kind == 0 && first_word(body) & (bit::STREAMS | bit::MAX_PACKET) == bit::STREAMS {
        return Err(13);
    }
    Ok(data)
}

/// The one side that sends the kind, if it isn't both, and the bit it needs. None: the kind is
/// unknown.
fn sender_and_bit(kind: u32) -> Option<(Option<Side>, u32)> {
    const G: Option<Side> = Some(Side::Guest);
    const H: Option<Side> = Some(Side::Host);
    const B: Option<Side> = None;
    Some(match kind {
        0 | 100..=103 => (B, 0),
        1 | 2 | 4 | 5 | 8 | 11 | 14 | 17 => (H, 0),
        3 | 6 | 7 | 9 | 10 | 12 | 13 | 15 | 16 | 21 => (G, 0),
        18 | 19 => (G, bit::STREAMS),
        20 => (H, bit::STREAMS),
        22 => (G, bit::FILTER),
        23 => (B, bit::FILTER),
        24 => (G, bit::DISCONNECT_ACK),
        25 | 26 => (G, bit::BULK_RECEIVING),
        27 | 104 => (H, bit::BULK_RECEIVING),
        _ => return None,
    })
}

/// Where the data of a body of the right size starts; None: the size is wrong.
fn sized(from: Side, shared: u32, kind: u32, body: &[u8]) -> Option<usize> {
    let has = |mask| shared & mask == mask;
    let size = body.len();
    let exact = |wanted: usize, data: usize| if size == wanted { Some(data) } else { None };
    match kind {
        0 => {
            let words = size.checked_sub(VERSION_SIZE)?;
            if words <= 32 && words % 4 == 0 {
                Some(VERSION_SIZE)
            } else {
                None
            }
        }
        1 => exact(if has(bit::CONNECT_VERSION) { 10 } else { 8 }, 0),
        4 => exact(132, 0),
        5 => exact(
            if has(bit::MAX_PACKET | bit::STREAMS) {
                288
            } else if has(bit::MAX_PACKET) {
                160
            } else {
                96
            },
            0,
        ),
        23 => {
            if size >= 1 {
                Some(0)
            } else {
                None
            }
        }
        2 | 3 | 7 | 21 | 22 | 24 => exact(0, 0),
        6 | 10 | 13 | 15 | 16 => exact(1, 0),
        8 | 9 | 14 | 17 => exact(2, 0),
        11 | 12 => exact(3, 0),
        19 => exact(4, 0),
        26 => exact(5, 0),
        27 => exact(6, 0),
        18 => exact(8, 0),
        20 => exact(9, 0),
        25 => exact(10, 0),
        _ => {
            let (fixed, endpoint) = match kind {
                100 => (10, 0),
                101 => (if has(bit::BULK_LENGTH) { 10 } else { 8 }, 0),
                104 => (10, 8),
                _ => (4, 0),
            };
            let rest = size.checked_sub(fixed)?;
            let follows =
                kind == 102 || kind == 104 || is_in(body[endpoint]) == (from == Side::Host);
            let wanted = if follows {
                data_length(kind, shared, body) as usize
            } else {
                0
            };
            if rest == wanted {
                Some(fixed)
            } else {
                None
            }
        }
    }
}

/// The field rules, on a body of the right size.
fn fields_hold(from: Side, shared: u32, header: &Header, body: &[u8]) -> bool {
    let endpoint = |at: usize| body[at] & 0x70 == 0;
    let endpoint_in = |at: usize| body[at] & 0xf0 == 0x80;
    let id_is_0 = header.id == 0;
    match header.kind {
        0 => id_is_0 && body[..VERSION_SIZE].contains(&0),
        1 => id_is_0 && matches!(body[0], 0..=3 | 255),
        2 | 22 | 24 => id_is_0,
        4 => id_is_0 && u32_at(body, 0) <= INTERFACE_LIMIT,
        5 => {
            let types = &body[..32];
            id_is_0
                && types[0] == CONTROL
                && types[16] == CONTROL
                && types
                    .iter()
                    .all(|kind| matches!(*kind, CONTROL..=INTERRUPT | INVALID))
        }
        12 | 13 => endpoint(0),
        14 | 17 => endpoint(1),
        15 | 16 => endpoint_in(0),
        18 | 19 => u32_at(body, 0) != 0,
        23 => id_is_0 && body.iter().position(|byte| *byte == 0) == Some(body.len() - 1),
        25 | 104 => endpoint_in(8),
        26 | 27 => endpoint_in(4),
        100 => endpoint(0) && is_in(body[0]) == is_in(body[2]),
        101 => endpoint(0) && (shared & bit::STREAMS != 0 || u32_at(body, 4) == 0),
        102 => endpoint(0) && is_in(body[0]) == (from == Side::Host),
        103 => endpoint(0) && !(from == Side::Guest && is_in(body[0])),
        _ => true,
    }
}
