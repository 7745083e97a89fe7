//! The writer on bulk packets, also on those that it has to refuse: its number, and every byte of the output.

use tools::{ensure, Random, Report};

use crate::library;
use crate::oracle::{
    self, Link, Packet, Value, BULK_LENGTH_OF_32_BITS, IDS_OF_64_BITS, LONGEST_BODY,
};

const BATCHES: usize = 40;
const BATCH_SIZE: usize = 500;

/// What the output holds before a call.
const UNTOUCHED: u8 = 0xa5;

/// A bulk packet with status and stream 0.
pub struct Bulk {
    pub id: u64,
    pub endpoint: u8,
    pub count: u32,
    pub data: Vec<u8>,
}

impl Bulk {
    /// The oracle's packet, with the count's high part or without.
    fn on_the_wire(&self, wide: bool) -> Packet {
        let number = |n: u32| Value::Number(u64::from(n));
        let high = if wide {
            number(self.count >> 16)
        } else {
            Value::Absent
        };
        Packet {
            kind: 101,
            id: self.id,
            fields: vec![
                ("endpoint", number(u32::from(self.endpoint))),
                ("status", number(0)),
                ("length low", number(self.count & 0xffff)),
                ("stream", number(0)),
                ("length high", high),
                ("data", Value::Bytes(self.data.clone())),
            ],
        }
    }
}

pub fn run(seed: u64, report: &mut Report) {
    for (name, link, packet, room, number) in examples() {
        report.case(
            name,
            check(&link, &packet, room).and_then(|seen| {
                ensure(seen == number, || {
                    format!("the number is {seen}, not {number}")
                })
            }),
        );
    }
    let mut random = Random::new(seed);
    let mut seen = [0u32; 256];
    for batch in 0..BATCHES {
        let name = format!("writer's batch {batch} of seed {seed}");
        report.case(&name, run_batch(&mut random, &mut seen));
    }
    for number in [0, 10, 11, 22, 23, 24, 40] {
        let times = seen[number];
        report.case(
            "the writer's numbers are met",
            ensure(times > 0, || format!("never {number}")),
        );
    }
}

fn run_batch(random: &mut Random, seen: &mut [u32; 256]) -> Result<(), String> {
    for _ in 0..BATCH_SIZE {
        let (link, packet, room) = next(random);
        seen[usize::from(check(&link, &packet, room)?)] += 1;
    }
    Ok(())
}

/// The number, where it and the output are as they have to be.
fn check(link: &Link, packet: &Bulk, room: usize) -> Result<u8, String> {
    let mut expected = vec![UNTOUCHED; room];
    let number = write(link, packet, &mut expected);
    let mut out = vec![UNTOUCHED; room];
    let answer = library::write_bulk(link, packet, &mut out);
    ensure(answer == number, || {
        format!("the number is {answer}, not {number}: {} bytes on endpoint {}, count {}, id {}, room {room}, shared {:x}",
                packet.data.len(), packet.endpoint, packet.count, packet.id, link.shared())
    })?;
    ensure(out == expected, || {
        format!("the output of number {number} differs")
    })?;
    Ok(number)
}

/// The writer as document 01 has it, for this kind: the number, and the packet in front of the output where it is 0.
pub fn write(link: &Link, packet: &Bulk, out: &mut [u8]) -> u8 {
    let wide = link.shares(BULK_LENGTH_OF_32_BITS);
    let body = if wide { 10 } else { 8 } + packet.data.len();
    let follows = link.from_guest != oracle::is_in(packet.endpoint);
    let size = if follows { packet.count as usize } else { 0 };
    let long_id = packet.id >> 32 != 0 && !link.shares(IDS_OF_64_BITS);
    if body > LONGEST_BODY as usize {
        10
    } else if link.own_hello().is_none() {
        11
    } else if long_id || (packet.count > 0xffff && !wide) {
        22
    } else if packet.data.len() != size {
        23
    } else if packet.endpoint & 0x70 != 0 {
        24
    } else {
        put(&oracle::write(link, &packet.on_the_wire(wide)), out)
    }
}

/// The bytes in front of the output, or 40.
fn put(bytes: &[u8], out: &mut [u8]) -> u8 {
    match out.get_mut(..bytes.len()) {
        Some(front) => {
            front.copy_from_slice(bytes);
            0
        }
        None => 40,
    }
}

/// A packet that is mostly right, with an output that mostly has room.
fn next(random: &mut Random) -> (Link, Bulk, usize) {
    let hello = |random: &mut Random| {
        (!random.one_in(12)).then(|| random.pick(&[0, 0x20, 0x40, 0x60, 0xff, 0xffff_ffff]))
    };
    let link = Link {
        from_guest: random.one_in(2),
        guest: hello(random),
        host: hello(random),
    };
    let size = if random.one_in(50) {
        32_740 + random.below(30)
    } else {
        random.below(40)
    };
    let onward = if link.from_guest { 0 } else { 0x80 };
    let endpoint = random.pick(&[
        onward,
        onward | 2,
        onward | 15,
        onward ^ 0x81,
        onward | 0x12,
    ]);
    let follows = endpoint & 0x80 == onward;
    let high = random.pick(&[0, 0, 0, 0, 0x1_0000, 0xffff_0000]);
    let id_size = random.pick(&[4, 4, 8]);
    let packet = Bulk {
        id: random.number(id_size),
        endpoint,
        count: high + if random.one_in(8) { 1 } else { size as u32 },
        data: if follows || random.one_in(8) {
            random.bytes(size)
        } else {
            Vec::new()
        },
    };
    let room = if random.one_in(4) {
        packet.data.len() + random.below(30)
    } else {
        packet.data.len() + 40
    };
    (link, packet, room)
}

type Case = (&'static str, Link, Bulk, usize, u8);

#[rustfmt::skip]
fn examples() -> Vec<Case> {
    let link = |from_guest, word| Link { from_guest, guest: Some(word), host: Some(word) };
    let bulk = |id, endpoint, count, size| Bulk { id, endpoint, count, data: vec![0xaa; size] };
    vec![
        ("M3 written", link(true, 0), bulk(9, 2, 2, 2), 22, 0),
        ("M4 written", link(false, 0), bulk(9, 2, 2, 0), 20, 0),
        ("M3 with no room", link(true, 0), bulk(9, 2, 2, 2), 21, 40),
        ("no room for a 64-bit id", link(true, 0x20), bulk(9, 2, 2, 2), 25, 40),
        ("a count of 65,538 without bit 6", link(true, 0), bulk(9, 2, 65_538, 2), 0, 22),
        ("a count of 65,538 without bit 6 and without data", link(false, 0), bulk(9, 2, 65_538, 0), 100, 22),
        ("a count of 65,538 with bit 6 and without data", link(false, 0x40), bulk(9, 2, 65_538, 0), 22, 0),
        ("a count of 65,538 with bit 6 over two bytes", link(true, 0x40), bulk(9, 2, 65_538, 2), 100, 23),
        ("an id of 33 bits without bit 5", link(true, 0), bulk(1 << 32, 2, 2, 2), 100, 22),
        ("an id of 33 bits with bit 5", link(true, 0x20), bulk(1 << 32, 2, 2, 2), 26, 0),
        ("endpoint 12 hex written", link(true, 0), bulk(9, 0x12, 2, 2), 100, 24),
        ("a body of 32,768 bytes", link(true, 0), bulk(9, 2, 32_760, 32_760), 32_780, 0),
        ("a body of 32,769 bytes", link(true, 0), bulk(9, 2, 32_761, 32_761), 40_000, 10),
    ]
}
