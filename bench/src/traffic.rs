//! The traffic that is judged: packets of a guest and a host, cut into pieces.

use std::iter::repeat;
use std::path::Path;

use plain::{Side, PLACES};

/// A piece of what a side sends.
pub struct Piece {
    pub from: Side,
    pub bytes: Vec<u8>,
}

/// One session from its hellos on, judged `times` over.
pub struct Traffic {
    pub name: String,
    pub pieces: Vec<Piece>,
    pub times: usize,
}

/// Capabilities of both ends in the traffic made here: all but 64-bit ids, as most hosts have them.
const WORD: u32 = 0xdf;
/// Packets that a side sends in a row.
const BATCH: u64 = 16;

fn packet(kind: u32, id: u64, fields: &[u8], data: &[u8]) -> Vec<u8> {
    let mut bytes = Vec::with_capacity(12 + fields.len() + data.len());
    bytes.extend(kind.to_le_bytes());
    bytes.extend(((fields.len() + data.len()) as u32).to_le_bytes());
    bytes.extend((id as u32).to_le_bytes());
    bytes.extend(fields);
    bytes.extend(data);
    bytes
}

/// Both hellos, and a device with the endpoints 1 IN interrupt, 2 OUT and 2 IN bulk.
fn introduction() -> Vec<(Side, Vec<u8>)> {
    let mut hello = vec![0; 64];
    hello.extend(WORD.to_le_bytes());
    let mut table = vec![0; 288];
    for (row, kind) in table[..32].iter_mut().enumerate() {
        *kind = match row {
            0 | 16 => 0,
            17 => 3,
            2 | 18 => 2,
            _ => 255,
        };
    }
    vec![
        (Side::Guest, packet(0, 0, &hello, &[])),
        (Side::Host, packet(0, 0, &hello, &[])),
        (Side::Host, packet(5, 0, &table, &[])),
        (Side::Host, packet(4, 0, &[0; 132], &[])),
        (Side::Host, packet(1, 0, &[0; 10], &[])),
    ]
}

fn bulk(id: u64, endpoint: u8, length: usize, data: &[u8]) -> Vec<u8> {
    let [low, high] = [length as u16, (length >> 16) as u16].map(u16::to_le_bytes);
    let fields = [endpoint, 0, low[0], low[1], 0, 0, 0, 0, high[0], high[1]];
    packet(101, id, &fields, data)
}

/// Cuts what a side sends in a row every `size` bytes, and where the sender changes.
fn cut(sent: Vec<(Side, Vec<u8>)>, size: usize) -> Vec<Piece> {
    let mut pieces: Vec<Piece> = Vec::new();
    for (from, bytes) in sent {
        let mut rest = &bytes[..];
        while !rest.is_empty() {
            match pieces.last_mut() {
                Some(last) if last.from == from && last.bytes.len() < size => {
                    let (head, tail) = rest.split_at(rest.len().min(size - last.bytes.len()));
                    last.bytes.extend(head);
                    rest = tail;
                }
                _ => pieces.push(Piece {
                    from,
                    bytes: Vec::with_capacity(size.min(65_536)),
                }),
            }
        }
    }
    pieces
}

/// So many bulk packets with 32,000 data bytes, half of each direction, and their requests and replies.
pub fn bulk_transfers(packets: usize, size: usize) -> Traffic {
    let data: Vec<u8> = (0..32_000).map(|at| at as u8).collect();
    let mut sent = introduction();
    for batch in 0..packets as u64 / BATCH {
        let ids = batch * BATCH..(batch + 1) * BATCH;
        for id in ids.clone() {
            let request = if id % 2 == 0 {
                bulk(id, 2, 32_000, &data)
            } else {
                bulk(id, 0x82, 32_000, &[])
            };
            sent.push((Side::Guest, request));
        }
        for id in ids {
            let reply = if id % 2 == 0 {
                bulk(id, 2, 32_000, &[])
            } else {
                bulk(id, 0x82, 32_000, &data)
            };
            sent.push((Side::Host, reply));
        }
    }
    Traffic {
        name: format!("bulk, cut every {size} bytes"),
        pieces: cut(sent, size),
        times: 1,
    }
}

/// A piece for each packet.
fn uncut(sent: Vec<(Side, Vec<u8>)>) -> Vec<Piece> {
    sent.into_iter()
        .map(|(from, bytes)| Piece { from, bytes })
        .collect()
}

/// So many interrupt packets with 8 data bytes from the host, a piece each.
pub fn interrupts(packets: usize) -> Traffic {
    let mut sent = introduction();
    sent.push((Side::Guest, packet(15, 0, &[0x81], &[])));
    sent.push((Side::Host, packet(17, 0, &[0, 0x81], &[])));
    sent.extend(
        (0..packets as u64).map(|id| (Side::Host, packet(103, id, &[0x81, 0, 8, 0], &[7; 8]))),
    );
    Traffic {
        name: "interrupts, a piece each".into(),
        pieces: uncut(sent),
        times: 1,
    }
}

/// A request at every place of the table; then so many packets that are refused with this number, a piece each, so that the table stays as it
/// is. 31, 33 and 34 are found out at the place whose id they have; 28 is said before the table is searched.
pub fn full_table(number: u8, place: usize, packets: usize) -> Traffic {
    let id = place as u64;
    let refused = match number {
        28 => (Side::Guest, bulk(id, 0x81, 0, &[])),
        31 => (Side::Guest, bulk(id, 2, 0, &[])),
        33 => (Side::Host, packet(100, id, &[0; 10], &[])),
        34 => (Side::Host, bulk(id, 2, 1, &[])),
        _ => panic!("28, 31, 33 or 34"),
    };
    let mut sent = introduction();
    sent.extend((0..PLACES as u64).map(|id| (Side::Guest, bulk(id, 2, 0, &[]))));
    sent.extend(repeat(refused).take(packets));
    Traffic {
        name: format!("full table, {number} at place {place}"),
        pieces: uncut(sent),
        times: 1,
    }
}

/// A capture in report lines, so many times.
pub fn capture(path: &Path, times: usize) -> Traffic {
    let text = std::fs::read_to_string(path).expect("a capture");
    let pieces = library::pieces(&text).map(|(from, bytes)| Piece { from, bytes });
    Traffic {
        name: tools::captures::name(path),
        pieces: pieces.collect(),
        times,
    }
}
