//! Packets made from random values, and damage done to packets.

use tools::Random;

use crate::oracle::{self, Field, Link, Packet, Sender, Shape, Value, KINDS};

// -- links --------------------------------------------------------------------------------------------------------------

/// First words of hellos that make a difference.
const WORDS: [u32; 17] = [
    0,
    0x01,
    0x02,
    0x04,
    0x08,
    0x10,
    0x11,
    0x20,
    0x31,
    0x40,
    0x80,
    0xce,
    0xdf,
    0xff,
    0x100,
    0xffff_ff00,
    0xffff_ffff,
];

fn word(random: &mut Random) -> u32 {
    match random.below(4) {
        0 => random.word(),
        1 => u32::from(random.byte()),
        _ => random.pick(&WORDS),
    }
}

fn hello(random: &mut Random) -> Option<u32> {
    if random.one_in(10) {
        None
    } else {
        Some(word(random))
    }
}

pub fn link(random: &mut Random) -> Link {
    let guest = hello(random);
    let host = if random.one_in(2) {
        guest
    } else {
        hello(random)
    };
    Link {
        from_guest: random.one_in(2),
        guest,
        host,
    }
}

/// A link that mostly lets packets of this kind through.
fn link_for(random: &mut Random, kind: &oracle::Kind) -> Link {
    let mut link = link(random);
    if !random.one_in(16) {
        link.from_guest = match kind.sender {
            Sender::Guest => true,
            Sender::Host => false,
            Sender::Both => link.from_guest,
        };
    }
    if !random.one_in(8) {
        let own = match kind.number {
            0 => None,
            _ => Some(link.own_hello().unwrap_or(0xff)),
        };
        set_own_hello(&mut link, own);
    }
    if !random.one_in(8) {
        link.guest = link.guest.map(|word| word | kind.needs);
        link.host = link.host.map(|word| word | kind.needs);
    }
    link
}

fn set_own_hello(link: &mut Link, hello: Option<u32>) {
    if link.from_guest {
        link.guest = hello;
    } else {
        link.host = hello;
    }
}

// -- packets ------------------------------------------------------------------------------------------------------------

/// The bytes of a packet of some kind, written by the oracle: most obey the field rules, some break one.
pub fn packet(random: &mut Random) -> (Link, Vec<u8>) {
    let kind = &KINDS[random.below(KINDS.len())];
    let link = link_for(random, kind);
    let mut packet = any_packet(random, &link, kind);
    fit(random, &link, &mut packet);
    if random.one_in(3) {
        spoil(random, kind, &mut packet);
    }
    (link, oracle::write(&link, &packet))
}

/// The bytes of a packet of this kind that passes.
pub fn passing(random: &mut Random, link: &Link, kind: &oracle::Kind) -> Vec<u8> {
    loop {
        let mut packet = any_packet(random, link, kind);
        fit(random, link, &mut packet);
        let bytes = oracle::write(link, &packet);
        if oracle::read(link, &bytes).is_ok() {
            return bytes;
        }
    }
}

/// Any values in the fields that the link lets onto the wire.
fn any_packet(random: &mut Random, link: &Link, kind: &oracle::Kind) -> Packet {
    let id_size = link.header_size(kind.number) - 8;
    let mut packet = Packet {
        kind: kind.number,
        id: random.number(id_size),
        fields: Vec::new(),
    };
    for field in kind.fields {
        let value = if link.shares(field.needs) {
            any_value(random, field)
        } else {
            Value::Absent
        };
        packet.fields.push((field.name, value));
    }
    packet
}

fn any_value(random: &mut Random, field: &Field) -> Value {
    match field.shape {
        Shape::Number(size) => Value::Number(random.number(size)),
        Shape::Column(size) => Value::Column((0..32).map(|_| random.number(size)).collect()),
        Shape::Bytes(size) => Value::Bytes(random.bytes(size)),
        Shape::Words => {
            let count = random.below(9);
            Value::Words((0..count).map(|_| word(random)).collect())
        }
        Shape::Rest => {
            let size = random.below(40);
            Value::Bytes(random.bytes(size))
        }
    }
}

/// Makes the packet obey the field rules and gives it as much data as may follow.
fn fit(random: &mut Random, link: &Link, packet: &mut Packet) {
    if oracle::has_id_zero(packet.kind) {
        packet.id = 0;
    }
    if packet.endpoint().is_some() {
        let endpoint = fitting_endpoint(random, link, packet.kind);
        packet.set("endpoint", Value::Number(endpoint));
    }
    fit_own_rule(random, link, packet);
    if packet.get("data").is_some() {
        fit_data(random, link, packet);
    }
}

fn fitting_endpoint(random: &mut Random, link: &Link, kind: u32) -> u64 {
    let is_in = match kind {
        15 | 16 | 25 | 26 | 27 | 104 => true,
        102 => !link.from_guest,
        103 if link.from_guest => false,
        _ => random.one_in(2),
    };
    let number = random.below(16) as u64;
    if is_in {
        number + 0x80
    } else {
        number
    }
}

fn fit_own_rule(random: &mut Random, link: &Link, packet: &mut Packet) {
    match packet.kind {
        0 => fit_hello(random, packet),
        1 => packet.set("speed", Value::Number(random.pick(&[0, 1, 2, 3, 255]))),
        4 => packet.set("count", Value::Number(random.below(33) as u64)),
        5 => packet.set("type", fitting_types(random)),
        18 | 19 => {
            let mask = packet.number("mask").unwrap_or(0) | 1 << random.below(32);
            packet.set("mask", Value::Number(mask));
        }
        23 => packet.set("string", fitting_filter(random)),
        100 => fit_requesttype(packet),
        101 if !link.shares(oracle::BULK_STREAMS) => packet.set("stream", Value::Number(0)),
        _ => {}
    }
}

/// A version with a zero byte; and mostly a first word that has bit 4 if it has bit 0.
fn fit_hello(random: &mut Random, packet: &mut Packet) {
    let mut version = packet.bytes("version").to_vec();
    version[random.below(64)] = 0;
    packet.set("version", Value::Bytes(version));
    if let Some(Value::Words(mut words)) = packet.get("words").cloned() {
        if let Some(first) = words.first_mut() {
            if !random.one_in(6) {
                *first |= (*first & oracle::BULK_STREAMS) << 4;
            }
        }
        packet.set("words", Value::Words(words));
    }
}

fn fitting_types(random: &mut Random) -> Value {
    let mut types: Vec<u64> = (0..32).map(|_| random.pick(&[0, 1, 2, 3, 255])).collect();
    types[0] = 0;
    types[16] = 0;
    Value::Column(types)
}

fn fitting_filter(random: &mut Random) -> Value {
    let size = random.below(60);
    let mut string: Vec<u8> = random.bytes(size).into_iter().map(|b| b.max(1)).collect();
    string.push(0);
    Value::Bytes(string)
}

fn fit_requesttype(packet: &mut Packet) {
    let requesttype = packet.number("requesttype").unwrap_or(0) & 0x7f;
    let direction = packet.number("endpoint").unwrap_or(0) & 0x80;
    packet.set("requesttype", Value::Number(requesttype | direction));
}

/// Data of some size and a length field that says so; where no data follows, none, and any length.
fn fit_data(random: &mut Random, link: &Link, packet: &mut Packet) {
    if !oracle::data_follows(link, packet) {
        packet.set("data", Value::Bytes(Vec::new()));
        return;
    }
    let data = data(random);
    let size = data.len() as u64;
    packet.set("data", Value::Bytes(data));
    packet.set("length", Value::Number(size));
    packet.set("length low", Value::Number(size));
    if packet.number("length high").is_some() {
        packet.set("length high", Value::Number(0));
        if size > 0 && random.one_in(20) {
            // a count whose parts add up to the size, and which is far over it
            packet.set("length low", Value::Number(size - 1));
            packet.set("length high", Value::Number(1));
        }
    }
}

/// Mostly little data, sometimes so much that the body has about 32,768 bytes.
fn data(random: &mut Random) -> Vec<u8> {
    let size = if random.one_in(200) {
        oracle::LONGEST_BODY as usize - random.below(13)
    } else {
        random.below(70)
    };
    random.bytes(size)
}

/// Numbers at the borders of some rule.
const BORDERS: [u64; 20] = [
    0, 1, 3, 4, 5, 6, 7, 15, 16, 31, 32, 33, 64, 112, 127, 128, 143, 144, 254, 255,
];

/// Puts another value into one field, or any id into the header.
fn spoil(random: &mut Random, kind: &oracle::Kind, packet: &mut Packet) {
    let chosen = random.below(kind.fields.len() + 1);
    match kind.fields.get(chosen) {
        None => packet.id = random.number(4),
        Some(field) => {
            if let Some(old) = packet.get(field.name) {
                let value = spoilt(random, field, old);
                packet.set(field.name, value);
            }
        }
    }
}

fn spoilt(random: &mut Random, field: &Field, old: &Value) -> Value {
    match old {
        Value::Absent => Value::Absent,
        Value::Number(_) if random.one_in(2) => Value::Number(random.pick(&BORDERS)),
        Value::Column(numbers) => spoilt_column(random, numbers),
        Value::Bytes(bytes) if random.one_in(2) => spoilt_bytes(random, bytes),
        _ => any_value(random, field),
    }
}

/// The column with another number in one row, often row 0 or 16.
fn spoilt_column(random: &mut Random, numbers: &[u64]) -> Value {
    let mut numbers = numbers.to_vec();
    let any_row = random.below(32);
    let row = random.pick(&[0, 16, any_row, any_row]);
    numbers[row] = random.pick(&BORDERS);
    Value::Column(numbers)
}

/// The bytes with no zero byte, or with one more.
fn spoilt_bytes(random: &mut Random, bytes: &[u8]) -> Value {
    let mut bytes = bytes.to_vec();
    if random.one_in(2) {
        bytes.iter_mut().for_each(|byte| *byte = (*byte).max(1));
    } else {
        let at = random.below(bytes.len().max(1));
        if let Some(byte) = bytes.get_mut(at) {
            *byte = 0;
        }
    }
    Value::Bytes(bytes)
}

// -- damage -------------------------------------------------------------------------------------------------------------

/// Does one damage to the packet or to the link it is judged on.
pub fn damage(random: &mut Random, link: &mut Link, bytes: &mut Vec<u8>) {
    match random.below(14) {
        0 | 1 => flip(random, bytes),
        2 => cut(random, bytes),
        3 => extend(random, bytes),
        4 | 5 => {
            cut(random, bytes);
            mend_length(link, bytes);
        }
        6 | 7 => {
            extend(random, bytes);
            mend_length(link, bytes);
        }
        8 => change_kind(random, bytes),
        9 => change_length(random, bytes),
        10 => change_id(random, bytes),
        11 => link.from_guest = !link.from_guest,
        12 => change_a_hello(random, link),
        _ => *link = self::link(random),
    }
}

/// Changes up to three bytes, mostly in the header and the first fields.
fn flip(random: &mut Random, bytes: &mut [u8]) {
    for _ in 0..1 + random.below(3) {
        let reach = if random.one_in(2) { 32 } else { bytes.len() };
        let at = random.below(reach.min(bytes.len()).max(1));
        let change = if random.one_in(2) {
            1 << random.below(8)
        } else {
            random.byte()
        };
        if let Some(byte) = bytes.get_mut(at) {
            *byte ^= change;
        }
    }
}

/// Takes bytes off the end: a few, or any number.
fn cut(random: &mut Random, bytes: &mut Vec<u8>) {
    let most = if random.one_in(4) { bytes.len() } else { 6 };
    let count = random.below(most + 1).min(bytes.len());
    bytes.truncate(bytes.len() - count);
}

fn extend(random: &mut Random, bytes: &mut Vec<u8>) {
    let count = 1 + random.below(8);
    bytes.extend(random.bytes(count));
}

/// Makes the header's length say how many bytes follow.
fn mend_length(link: &Link, bytes: &mut [u8]) {
    if let Some(header) = oracle::read_header(link, bytes) {
        let length = (bytes.len() - header.size) as u32;
        bytes[4..8].copy_from_slice(&length.to_le_bytes());
    }
}

fn set_at(bytes: &mut [u8], at: usize, number: u32) {
    if let Some(place) = bytes.get_mut(at..at + 4) {
        place.copy_from_slice(&number.to_le_bytes());
    }
}

fn change_kind(random: &mut Random, bytes: &mut [u8]) {
    let near = random.below(130) as u32;
    let any = random.word();
    let kind = random.pick(&[near, near, near, 28, 99, 105, 256 + near, any]);
    set_at(bytes, 0, kind);
}

fn change_length(random: &mut Random, bytes: &mut [u8]) {
    let near = random.below(300) as u32;
    let any = random.word();
    let length = random.pick(&[near, any, 32_768, 32_769, 65_536, 0x8000_0000, u32::MAX]);
    set_at(bytes, 4, length);
}

fn change_id(random: &mut Random, bytes: &mut [u8]) {
    let id = random.number(4) as u32;
    set_at(bytes, 8, id);
}

fn change_a_hello(random: &mut Random, link: &mut Link) {
    if random.one_in(2) {
        link.guest = hello(random);
    } else {
        link.host = hello(random);
    }
}
