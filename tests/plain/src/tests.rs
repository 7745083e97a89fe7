//! The marked examples M1 to M11, and the readings of rules that are easily read in another way.

use crate::Side::{Guest, Host};
use crate::{offer, report, Answer, Handed, Place, Session, Side, HOLD_SIZE};

// ---- packets ----

/// A packet with a 12-byte header.
fn packet(kind: u32, id: u32, body: &[u8]) -> Vec<u8> {
    let mut bytes = kind.to_le_bytes().to_vec();
    bytes.extend((body.len() as u32).to_le_bytes());
    bytes.extend(id.to_le_bytes());
    bytes.extend(body);
    bytes
}

fn hello(words: &[u32]) -> Vec<u8> {
    let mut body = vec![0; 64];
    body[0] = b'v';
    for word in words {
        body.extend(word.to_le_bytes());
    }
    packet(0, 0, &body)
}

/// An endpoint table of 96 bytes: rows as (row, type, interface), all others invalid.
fn endpoints(rows: &[(usize, u8, u8)]) -> Vec<u8> {
    let mut body = [255; 32].to_vec();
    body.extend([0; 64]);
    body[0] = 0;
    body[16] = 0;
    for (row, kind, interface) in rows {
        body[*row] = *kind;
        body[64 + row] = *interface;
    }
    packet(5, 0, &body)
}

fn interfaces() -> Vec<u8> {
    packet(4, 0, &[0; 132])
}

fn connect() -> Vec<u8> {
    packet(1, 0, &[0; 8])
}

fn control_in(id: u32, length: u16) -> Vec<u8> {
    let mut body = vec![0x80, 6, 0x80, 0, 0, 1, 0, 0];
    body.extend(length.to_le_bytes());
    packet(100, id, &body)
}

fn control_reply(id: u32, data: &[u8]) -> Vec<u8> {
    let mut body = vec![0x80, 6, 0x80, 0, 0, 1, 0, 0];
    body.extend((data.len() as u16).to_le_bytes());
    body.extend(data);
    packet(100, id, &body)
}

fn bulk_out(id: u32, endpoint: u8, data: &[u8]) -> Vec<u8> {
    let mut body = vec![endpoint, 0];
    body.extend((data.len() as u16).to_le_bytes());
    body.extend([0; 4]);
    body.extend(data);
    packet(101, id, &body)
}

fn bulk_reply(id: u32, endpoint: u8, length: u16) -> Vec<u8> {
    let mut body = vec![endpoint, 0];
    body.extend(length.to_le_bytes());
    body.extend([0; 4]);
    packet(101, id, &body)
}

/// Stream data of kinds 102 and 103, one byte.
fn stream_data(kind: u32, endpoint: u8) -> Vec<u8> {
    packet(kind, 0, &[endpoint, 0, 1, 0, 0x55])
}

fn hex(text: &str) -> Vec<u8> {
    let digits: Vec<u8> = text.bytes().filter(|byte| *byte != b' ').collect();
    digits
        .chunks(2)
        .map(|pair| u8::from_str_radix(std::str::from_utf8(pair).unwrap(), 16).unwrap())
        .collect()
}

// ---- a session with its two holding buffers ----

struct Gate {
    session: Session,
    guest: Vec<u8>,
    host: Vec<u8>,
}

impl Gate {
    fn new() -> Gate {
        Gate {
            session: Session::new(),
            guest: vec![0xee; HOLD_SIZE],
            host: vec![0xee; HOLD_SIZE],
        }
    }

    /// Both hellos passed.
    fn greeted(word: u32) -> Gate {
        let mut gate = Gate::new();
        gate.pass(Guest, &hello(&[word]));
        gate.pass(Host, &hello(&[word]));
        gate
    }

    /// A device with rows as in `endpoints`; no bit shared.
    fn connected(rows: &[(usize, u8, u8)]) -> Gate {
        let mut gate = Gate::greeted(0);
        gate.introduce(rows);
        gate
    }

    fn introduce(&mut self, rows: &[(usize, u8, u8)]) {
        self.pass(Host, &endpoints(rows));
        self.pass(Host, &interfaces());
        self.pass(Host, &connect());
    }

    fn offer(&mut self, from: Side, piece: &[u8]) -> Answer {
        let hold = match from {
            Guest => &mut self.guest,
            Host => &mut self.host,
        };
        offer(&mut self.session, from, hold, piece)
    }

    fn number(&mut self, from: Side, piece: &[u8]) -> u8 {
        self.offer(from, piece).number
    }

    fn pass(&mut self, from: Side, bytes: &[u8]) {
        let answer = self.offer(from, bytes);
        assert_eq!((answer.number, answer.taken), (0, bytes.len()));
    }
}

fn report_of(input: &str) -> String {
    let mut output = Vec::new();
    report::run(input.as_bytes(), &mut output).unwrap();
    String::from_utf8(output).unwrap()
}

fn line(from: &str, bytes: &[u8]) -> String {
    let digits: String = bytes.iter().map(|byte| format!("{byte:02x}")).collect();
    format!("from={from} bytes={digits}\n")
}

const ISO: u8 = 1;
const BULK: u8 = 2;
const INTERRUPT: u8 = 3;

// ---- marked examples ----

#[test]
fn m1_get_config() {
    let mut gate = Gate::connected(&[]);
    let answer = gate.offer(Guest, &hex("07000000 00000000 07000000"));
    let handed = Handed {
        kind: 7,
        id: 7,
        header: 12,
        data: 12..12,
    };
    assert_eq!(
        answer,
        Answer {
            number: 0,
            taken: 12,
            place: Place::Piece,
            size: 12,
            handed: Some(handed)
        }
    );
}

#[test]
fn m2_get_config_with_64_bit_ids() {
    let mut gate = Gate::greeted(32);
    let table = packet(5, 0, &endpoints(&[])[12..]);
    for (kind, body) in [(5, &table[12..]), (4, &[0; 132][..]), (1, &[0; 8][..])] {
        let mut bytes = packet(kind, 0, body);
        bytes.splice(12..12, [0; 4]);
        gate.pass(Host, &bytes);
    }
    assert_eq!(gate.number(Guest, &hex("07000000 00000000 07000000")), 1);
    let answer = gate.offer(Guest, &[0; 4]);
    let handed = Handed {
        kind: 7,
        id: 7,
        header: 16,
        data: 16..16,
    };
    assert_eq!(
        answer,
        Answer {
            number: 0,
            taken: 4,
            place: Place::Buffer,
            size: 16,
            handed: Some(handed)
        }
    );
    let live: Vec<_> = gate.session.live_requests().collect();
    assert_eq!((live.len(), live[0].id, live[0].kind), (1, 7, 7));
}

#[test]
fn m3_m4_m5_bulk_out_and_its_reply() {
    let mut gate = Gate::connected(&[(2, BULK, 0)]);
    let request = hex("65000000 0a000000 09000000 02 00 0200 00000000 aabb");
    let answer = gate.offer(Guest, &request);
    assert_eq!((answer.number, answer.taken, answer.size), (0, 22, 22));
    let data = answer.handed.unwrap().data;
    assert_eq!(&request[data], &[0xaa, 0xbb]);
    let reply = hex("65000000 08000000 09000000 02 00 0200 00000000");
    gate.pass(Host, &reply);
    assert_eq!(gate.number(Host, &reply), 33);
}

#[test]
fn m6_m7_length_limit() {
    let mut gate = Gate::connected(&[]);
    assert_eq!(gate.number(Guest, &hex("65000000 00800000 09000000")), 1);
    let mut gate = Gate::connected(&[]);
    let answer = gate.offer(Guest, &hex("65000000 01800000 09000000 aabb"));
    assert_eq!((answer.number, answer.taken, answer.size), (10, 12, 12));
    assert!(gate.session.is_stopped());
}

#[test]
fn m8_m9_endpoint_bytes() {
    assert_eq!(crate::device::row_of(0x82), 18);
    let mut gate = Gate::connected(&[(2, BULK, 0), (18, ISO, 0)]);
    gate.pass(Guest, &packet(12, 1, &[0x82, 1, 1]));
    assert!(gate.session.stream_open(18));
    assert_eq!(gate.number(Guest, &bulk_out(9, 0x12, &[1])), 24);
}

#[test]
fn m10_streams_without_max_packet() {
    assert_eq!(Gate::new().number(Guest, &hello(&[1])), 13);
    assert_eq!(Gate::new().number(Guest, &hello(&[17])), 0);
}

#[test]
fn m11_96_requests() {
    let mut gate = Gate::connected(&[]);
    for id in 0..96 {
        gate.pass(Guest, &control_in(id, 8));
    }
    assert_eq!(gate.number(Guest, &control_in(96, 8)), 32);
    assert_eq!(gate.number(Guest, &control_in(95, 8)), 31);
    gate.pass(Host, &control_reply(40, &[1, 2]));
    gate.pass(Guest, &control_in(96, 8));
    assert_eq!(gate.number(Guest, &control_in(97, 8)), 32);
}

// ---- reader ----

#[test]
fn a_second_hello_has_a_12_byte_header() {
    for word in [0, 32] {
        let mut gate = Gate::greeted(word);
        let answer = gate.offer(Guest, &hex("00000000 44000000 05000000"));
        assert_eq!(
            answer,
            Answer {
                number: 12,
                taken: 12,
                place: Place::Piece,
                size: 12,
                handed: None
            }
        );
        assert_eq!(gate.number(Host, &[1]), 3);
    }
    // Begun in the buffer it falls after 12 bytes as well.
    let mut gate = Gate::greeted(32);
    assert_eq!(gate.number(Guest, &[0; 11]), 1);
    let answer = gate.offer(Guest, &[0; 8]);
    assert_eq!(
        answer,
        Answer {
            number: 12,
            taken: 1,
            place: Place::Buffer,
            size: 12,
            handed: None
        }
    );
}

#[test]
fn the_width_holds_from_the_next_packet_on() {
    let mut gate = Gate::new();
    gate.pass(Guest, &hello(&[32]));
    let mut bytes = hello(&[32]);
    bytes.extend(packet(2, 0, &[]));
    bytes.extend([0; 4]);
    assert_eq!(gate.offer(Host, &bytes).taken, 80);
    let answer = gate.offer(Host, &bytes[80..]);
    assert_eq!((answer.number, answer.taken, answer.size), (25, 16, 16));
}

#[test]
fn a_refused_header_in_the_piece_is_not_copied() {
    let mut gate = Gate::new();
    let answer = gate.offer(Guest, &hex("07000000 00000000 07000000"));
    assert_eq!((answer.number, answer.place), (11, Place::Piece));
    assert!(gate.guest.iter().all(|byte| *byte == 0xee));
}

#[test]
fn a_refused_header_begun_in_the_buffer_is_completed_there() {
    let mut gate = Gate::new();
    let bytes = hex("07000000 00000000 07000000 99999999");
    assert_eq!(gate.number(Guest, &bytes[..5]), 1);
    let answer = gate.offer(Guest, &bytes[5..]);
    assert_eq!(
        answer,
        Answer {
            number: 11,
            taken: 7,
            place: Place::Buffer,
            size: 12,
            handed: None
        }
    );
    assert_eq!(&gate.guest[..12], &bytes[..12]);
    assert!(gate.guest[12..].iter().all(|byte| *byte == 0xee));
}

#[test]
fn what_follows_the_fields_is_handed_out() {
    let mut gate = Gate::new();
    for (from, words, data) in [(Guest, &[0, 7, 9][..], 76..88), (Host, &[], 76..76)] {
        let answer = gate.offer(from, &hello(words));
        assert_eq!(answer.handed.unwrap().data, data);
    }
    // A table has nothing but its fields.
    for table in [endpoints(&[]), interfaces(), connect()] {
        let answer = gate.offer(Host, &table);
        assert_eq!(answer.handed.unwrap().data, 12..12);
    }
}

#[test]
fn other_bits_and_words_are_not_shared() {
    for (guest, host, shared) in [
        (&[u32::MAX, u32::MAX][..], &[u32::MAX, 0, u32::MAX][..], 255),
        (&[0x8000_0120, 1], &[0x8000_0160], 32),
        (&[0xffff_ff00, 255], &[0xffff_ffff, 255], 0),
        (&[], &[u32::MAX], 0),
    ] {
        let mut gate = Gate::new();
        gate.pass(Guest, &hello(guest));
        gate.pass(Host, &hello(host));
        assert_eq!(gate.session.shared(), shared);
    }
}

#[test]
fn a_packet_in_the_piece_is_not_copied() {
    let mut gate = Gate::greeted(0);
    assert!(gate
        .guest
        .iter()
        .chain(&gate.host)
        .all(|byte| *byte == 0xee));
    // One begun in the buffer is completed there, with its own bytes and no more.
    let mut bytes = endpoints(&[]);
    bytes.extend([0x77; 9]);
    assert_eq!(gate.number(Host, &bytes[..50]), 1);
    let answer = gate.offer(Host, &bytes[50..]);
    assert_eq!(
        (answer.number, answer.taken, answer.place, answer.size),
        (0, 58, Place::Buffer, 108)
    );
    assert_eq!(answer.handed.unwrap().data, 12..12);
    assert_eq!(&gate.host[..108], &bytes[..108]);
    assert!(gate.host[108..].iter().all(|byte| *byte == 0xee));
}

#[test]
fn taken_counts_this_piece_alone() {
    let mut gate = Gate::connected(&[(2, BULK, 0)]);
    let bytes = bulk_out(9, 2, &[1, 2, 3]);
    for (cut, byte) in bytes.iter().enumerate() {
        let answer = gate.offer(Guest, &[*byte]);
        assert_eq!(
            (answer.number, answer.taken),
            (u8::from(cut + 1 < bytes.len()), 1)
        );
    }
}

#[test]
fn held_counts_of_both_directions_are_tested() {
    let mut gate = Gate::greeted(0);
    gate.session.held[1] = 40_000;
    let answer = gate.offer(Guest, &[7]);
    assert_eq!(
        answer,
        Answer {
            number: 43,
            taken: 0,
            place: Place::Nowhere,
            size: 0,
            handed: None
        }
    );
    gate.session.held[1] = 32_783;
    assert_eq!(gate.number(Guest, &[7]), 1);
    gate.session.held[1] = 32_784;
    assert_eq!(gate.number(Guest, &[7]), 43);
    // Own hello passed and the other's not: nothing may be held, whoever calls.
    let mut gate = Gate::new();
    gate.pass(Guest, &hello(&[]));
    assert_eq!(gate.number(Guest, &[7]), 2);
    gate.session.held[0] = 1;
    assert_eq!(gate.number(Guest, &[7]), 43);
    assert_eq!(gate.number(Host, &[7]), 43);
    // 43 comes before 3 and after 41.
    gate.session.stopped = true;
    assert_eq!(gate.number(Host, &[7]), 43);
    gate.host.truncate(HOLD_SIZE - 1);
    assert_eq!(gate.number(Host, &[7]), 41);
}

#[test]
fn held_bytes_of_the_direction_called_are_tested() {
    let whole = packet(7, 7, &[]);
    for (bytes, number) in [
        (&whole[..], 43),
        (&hex("07000000 01800000 07000000")[..], 43),
        (&hex("07000000 00800000 07000000")[..], 1),
    ] {
        let mut gate = Gate::greeted(0);
        gate.guest[..12].copy_from_slice(bytes);
        gate.session.held[0] = 12;
        assert_eq!(gate.number(Guest, &[]), number);
        assert_eq!(gate.number(Host, &[]), 1);
    }
    // 15 bytes of a 16-byte header are no header, but 12 to 15 of a hello are.
    let mut gate = Gate::greeted(32);
    gate.guest[..12].copy_from_slice(&hex("07000000 01800000 07000000"));
    gate.session.held[0] = 15;
    assert_eq!(gate.number(Guest, &[]), 1);
    gate.guest[0] = 0;
    assert_eq!(gate.number(Guest, &[]), 43);
}

#[test]
fn the_order_of_the_first_numbers() {
    let mut gate = Gate::new();
    assert_eq!(gate.number(Guest, &[]), 1);
    gate.pass(Guest, &hello(&[]));
    assert_eq!(gate.number(Guest, &[]), 2);
    // 2 hides 10 and 12.
    assert_eq!(gate.number(Guest, &hello(&[])), 2);
    assert_eq!(gate.number(Guest, &[0xff; 12]), 2);
    assert_eq!(gate.number(Host, &packet(7, 7, &[])), 11);
    assert_eq!(gate.number(Guest, &[]), 3);
    assert_eq!(gate.number(Host, &[]), 3);
    let mut gate = Gate::new();
    gate.guest.truncate(HOLD_SIZE - 1);
    assert_eq!(gate.number(Guest, &[]), 41);
    assert_eq!(gate.number(Host, &[]), 1);
}

#[test]
fn a_refused_hello_stops() {
    let mut no_zero = hello(&[1]);
    no_zero[12..76].fill(1);
    let mut short = hello(&[1]);
    short[4] = 67;
    short.truncate(79);
    for (bytes, number) in [
        (short, 23),
        (no_zero, 24),
        (hello(&[1]), 13),
        (hello(&[0; 9]), 23),
    ] {
        let mut gate = Gate::new();
        let answer = gate.offer(Host, &bytes);
        assert_eq!((answer.number, answer.taken), (number, bytes.len()));
        assert_eq!(gate.number(Guest, &hello(&[])), 3);
        assert!(!gate.session.hello_passed(Host));
    }
}

// ---- session ----

#[test]
fn a_disconnect_keeps_the_hellos() {
    let mut gate = Gate::connected(&[(18, ISO, 0)]);
    gate.pass(Guest, &packet(12, 1, &[0x82, 1, 1]));
    gate.pass(Host, &packet(2, 0, &[]));
    assert!(
        !gate.session.device_present() && !gate.session.ack_owed() && !gate.session.stream_open(18)
    );
    assert_eq!(gate.session.live_requests().count(), 0);
    assert_eq!(gate.number(Host, &interfaces()), 26);
    gate.introduce(&[]);
    // With bit 3 an ack is owed first.
    let mut gate = Gate::greeted(8);
    gate.introduce(&[]);
    gate.pass(Host, &packet(2, 0, &[]));
    for bytes in [endpoints(&[]), interfaces(), connect()] {
        assert_eq!(gate.number(Host, &bytes), 27);
    }
    gate.pass(Guest, &packet(24, 0, &[]));
    assert_eq!(gate.number(Guest, &packet(24, 0, &[])), 26);
    gate.introduce(&[]);
}

#[test]
fn cancel_and_reset_need_a_device() {
    let mut gate = Gate::greeted(0);
    assert_eq!(gate.number(Guest, &packet(21, 5, &[])), 25);
    assert_eq!(gate.number(Guest, &packet(3, 5, &[])), 25);
    gate.introduce(&[]);
    gate.pass(Guest, &packet(21, 5, &[]));
    gate.pass(Guest, &packet(3, 5, &[]));
}

#[test]
fn settling_holds_back_all_guest_data() {
    for settle in [packet(6, 1, &[1]), packet(9, 1, &[7, 0])] {
        let mut gate = Gate::connected(&[
            (1, ISO, 0),
            (2, BULK, 0),
            (3, INTERRUPT, 0),
            (19, INTERRUPT, 0),
        ]);
        gate.pass(Guest, &packet(12, 9, &[1, 1, 1]));
        gate.pass(Guest, &packet(15, 10, &[0x83]));
        gate.pass(Guest, &settle);
        for bytes in [
            control_in(2, 1),
            bulk_out(2, 2, &[1]),
            stream_data(102, 1),
            stream_data(103, 3),
        ] {
            assert_eq!(gate.number(Guest, &bytes), 29);
        }
        // Other requests pass, another 6 or 9 too, and so does what the host sends.
        gate.pass(Guest, &packet(7, 3, &[]));
        gate.pass(Guest, &packet(9, 4, &[8, 1]));
        gate.pass(Host, &stream_data(103, 0x83));
        let status = if settle[0] == 6 {
            packet(8, 1, &[3, 1])
        } else {
            packet(11, 1, &[3, 7, 0])
        };
        gate.pass(Host, &status);
        assert_eq!(gate.number(Guest, &control_in(2, 1)), 29);
        gate.pass(Host, &packet(11, 4, &[3, 8, 1]));
        gate.pass(Guest, &control_in(2, 1));
    }
}

#[test]
fn a_stall_with_id_0_answers_a_request_that_matches() {
    let mut gate = Gate::connected(&[(18, ISO, 0)]);
    gate.pass(Guest, &packet(12, 0, &[0x82, 1, 1]));
    gate.pass(Host, &packet(14, 0, &[4, 0x82]));
    assert_eq!(gate.session.live_requests().count(), 0);
    assert_eq!(gate.number(Host, &packet(14, 0, &[0, 0x82])), 33);
    // Once more it is unsolicited.
    gate.pass(Host, &packet(14, 0, &[4, 0x82]));
}

#[test]
fn a_stall_with_id_0_passes_beside_a_request_that_does_not_match() {
    let mut gate = Gate::connected(&[(18, ISO, 0), (19, ISO, 0)]);
    gate.pass(Guest, &packet(7, 0, &[]));
    gate.pass(Host, &packet(14, 0, &[4, 0x82]));
    gate.pass(Host, &packet(17, 0, &[4, 0x01]));
    assert_eq!(gate.session.live_requests().count(), 1);
    assert_eq!(gate.number(Host, &packet(14, 0, &[3, 0x82])), 33);
    assert_eq!(gate.number(Host, &packet(14, 1, &[4, 0x82])), 33);
    gate.pass(Host, &packet(8, 0, &[0, 1]));
}

#[test]
fn streams_belong_to_rows() {
    let mut gate = Gate::greeted(128);
    gate.introduce(&[(17, BULK, 0), (18, BULK, 0)]);
    let buffered = |stream: u8, endpoint: u8| {
        packet(104, 0, &[stream, 0, 0, 0, 1, 0, 0, 0, endpoint, 0, 0x55])
    };
    assert_eq!(gate.number(Host, &buffered(1, 0x81)), 30);
    gate.pass(Guest, &packet(25, 5, &[1, 0, 0, 0, 64, 0, 0, 0, 0x81, 1]));
    gate.pass(Host, &buffered(2, 0x81));
    assert_eq!(gate.number(Host, &buffered(1, 0x82)), 30);
    gate.pass(Host, &packet(27, 5, &[9, 0, 0, 0, 0x81, 0]));
    gate.pass(Host, &buffered(1, 0x81));
}

#[test]
fn a_start_opens_at_once() {
    let mut gate = Gate::connected(&[(19, INTERRUPT, 0)]);
    assert_eq!(gate.number(Host, &stream_data(103, 0x83)), 30);
    gate.pass(Guest, &packet(15, 1, &[0x83]));
    gate.pass(Host, &stream_data(103, 0x83));
    // A status other than 0 to the start closes.
    gate.pass(Host, &packet(17, 1, &[3, 0x83]));
    assert_eq!(gate.number(Host, &stream_data(103, 0x83)), 30);
}

#[test]
fn a_stop_closes_by_its_status() {
    for status in 0..=255 {
        let mut gate = Gate::connected(&[(18, ISO, 0)]);
        gate.pass(Guest, &packet(12, 1, &[0x82, 1, 1]));
        gate.pass(Host, &packet(14, 1, &[0, 0x82]));
        gate.pass(Guest, &packet(13, 2, &[0x82]));
        gate.pass(Host, &stream_data(102, 0x82));
        gate.pass(Host, &packet(14, 2, &[status, 0x82]));
        assert_eq!(gate.number(Host, &stream_data(102, 0x82)), 30);
    }
    // An unsolicited status closes, but only where the row's type is its kind's.
    let mut gate = Gate::connected(&[(18, ISO, 0)]);
    gate.pass(Guest, &packet(12, 1, &[0x82, 1, 1]));
    gate.pass(Host, &packet(17, 0, &[4, 0x82]));
    gate.pass(Host, &stream_data(102, 0x82));
    gate.pass(Host, &packet(14, 0, &[4, 0x82]));
    assert_eq!(gate.number(Host, &stream_data(102, 0x82)), 30);
}

#[test]
fn what_a_reply_is_compared_by() {
    let mut gate = Gate::greeted(1 | 16);
    let mut table = endpoints(&[(2, BULK, 0)])[12..].to_vec();
    table.extend([0; 64 + 128]);
    gate.pass(Host, &packet(5, 0, &table));
    gate.pass(Host, &interfaces());
    gate.pass(Host, &connect());
    // The whole endpoint byte.
    gate.pass(Guest, &control_in(1, 8));
    let mut other = control_reply(1, &[]);
    other[12] = 0;
    other[14] = 0;
    assert_eq!(gate.number(Host, &other), 33);
    // Not request, value and index; longer than asked is 34 and leaves the place.
    assert_eq!(gate.number(Host, &control_reply(1, &[0; 9])), 34);
    let mut changed = control_reply(1, &[0; 8]);
    changed[13] = 0x99;
    changed[16..20].fill(0x99);
    gate.pass(Host, &changed);
    // The interface of 11, but not its alternate setting.
    gate.pass(Guest, &packet(10, 1, &[3]));
    assert_eq!(gate.number(Host, &packet(11, 1, &[0, 2, 0])), 33);
    gate.pass(Host, &packet(11, 1, &[0, 3, 200]));
    // Neither mask nor count of 20, but the kind.
    gate.pass(Guest, &packet(18, 1, &[4, 0, 0, 0, 2, 0, 0, 0]));
    assert_eq!(gate.number(Host, &packet(8, 1, &[0, 0])), 33);
    gate.pass(Host, &packet(20, 1, &[0, 0, 0, 0, 9, 0, 0, 0, 0]));
    // A bulk reply's stream isn't compared, its endpoint is.
    let mut request = bulk_out(1, 2, &[1]);
    request[16] = 5;
    gate.pass(Guest, &request);
    assert_eq!(gate.number(Host, &bulk_reply(1, 3, 1)), 33);
    gate.pass(Host, &bulk_reply(1, 2, 1));
}

#[test]
fn an_alternate_setting_ends_the_requests_of_its_rows() {
    // Rows by the table as it stands when the status comes, those of type 255 among them.
    let mut gate = Gate::connected(&[
        (1, BULK, 3),
        (2, BULK, 3),
        (3, BULK, 4),
        (17, ISO, 3),
        (18, ISO, 4),
    ]);
    for (id, endpoint) in [(1, 1), (2, 2), (3, 3)] {
        gate.pass(Guest, &bulk_out(id, endpoint, &[0]));
    }
    gate.pass(Guest, &control_in(4, 8));
    gate.pass(Guest, &packet(12, 5, &[0x81, 1, 1]));
    gate.pass(Guest, &packet(12, 6, &[0x82, 1, 1]));
    gate.pass(Guest, &packet(9, 7, &[3, 1]));
    gate.pass(
        Host,
        &endpoints(&[
            (1, 255, 3),
            (2, BULK, 4),
            (3, BULK, 3),
            (17, ISO, 3),
            (18, ISO, 4),
        ]),
    );
    gate.pass(Host, &packet(11, 7, &[0, 3, 1]));
    assert_eq!(gate.number(Host, &bulk_reply(1, 1, 1)), 33);
    gate.pass(Host, &bulk_reply(2, 2, 1));
    assert_eq!(gate.number(Host, &bulk_reply(3, 3, 1)), 33);
    gate.pass(Host, &control_reply(4, &[]));
    assert_eq!(gate.number(Host, &stream_data(102, 0x81)), 30);
    gate.pass(Host, &stream_data(102, 0x82));
    // The starts themselves still wait.
    assert_eq!(
        gate.session
            .live_requests()
            .map(|request| request.id)
            .collect::<Vec<_>>(),
        [5, 6]
    );
}

#[test]
fn a_configuration_ends_all_data_requests() {
    let mut gate = Gate::connected(&[(1, BULK, 3), (17, ISO, 3)]);
    gate.pass(Guest, &bulk_out(1, 1, &[0]));
    gate.pass(Guest, &control_in(2, 8));
    gate.pass(Guest, &packet(12, 3, &[0x81, 1, 1]));
    gate.pass(Guest, &packet(6, 4, &[1]));
    gate.pass(Guest, &packet(6, 5, &[1]));
    gate.pass(Host, &packet(8, 4, &[0, 1]));
    assert_eq!(
        gate.session
            .live_requests()
            .map(|request| request.id)
            .collect::<Vec<_>>(),
        [3, 5]
    );
    assert!(!gate.session.stream_open(17));
    assert_eq!(gate.number(Guest, &control_in(2, 8)), 29);
}

#[test]
fn a_refused_packet_changes_nothing() {
    let mut gate = Gate::connected(&[(2, BULK, 0)]);
    gate.pass(Guest, &bulk_out(1, 2, &[1]));
    let before = format!("{:?}", gate.session);
    for (from, bytes) in [
        (Guest, packet(99, 0, &[])),
        (Guest, packet(2, 0, &[])),
        (Guest, packet(22, 0, &[])),
        (Guest, packet(3, 0, &[0])),
        (Host, packet(8, 0, &[7, 0])),
        (Host, connect()),
        (Guest, packet(12, 5, &[2, 1, 1])),
        (Guest, bulk_out(1, 2, &[2])),
        (Host, bulk_reply(1, 2, 2)),
        (Host, bulk_reply(2, 2, 0)),
    ] {
        assert!(gate.number(from, &bytes) >= 20);
        assert_eq!(format!("{:?}", gate.session), before);
    }
}

#[test]
fn a_count_near_32_bits_is_not_added_to() {
    let mut gate = Gate::greeted(64);
    gate.introduce(&[(2, BULK, 0), (18, BULK, 0)]);
    // OUT: 4,294,967,295 bytes don't follow, whatever 10 more would wrap to.
    assert_eq!(
        gate.number(
            Guest,
            &packet(101, 1, &[2, 0, 0xff, 0xff, 0, 0, 0, 0, 0xff, 0xff])
        ),
        23
    );
    // IN: it is what is asked for.
    gate.pass(
        Guest,
        &packet(101, 1, &[0x82, 0, 0xff, 0xff, 0, 0, 0, 0, 0xff, 0xff]),
    );
    assert_eq!(
        gate.session.live_requests().next().unwrap().length,
        u32::MAX
    );
}

// ---- watch ----

/// OUT rows 1 and 3; IN rows of each type, and a second one of type iso.
const WATCHED: [(usize, u8, u8); 6] = [
    (1, ISO, 0),
    (3, INTERRUPT, 0),
    (18, ISO, 0),
    (19, INTERRUPT, 0),
    (20, BULK, 0),
    (21, ISO, 0),
];

/// A packet with a 16-byte header.
fn wide_packet(kind: u32, id: u64, body: &[u8]) -> Vec<u8> {
    let mut bytes = packet(kind, id as u32, body);
    bytes.splice(12..12, ((id >> 32) as u32).to_le_bytes());
    bytes
}

/// A gate with a device that has the rows WATCHED, and with bulk receiving.
struct Watched {
    gate: Gate,
    wide: bool,
    /// For requests.
    id: u64,
}

impl Watched {
    fn new(wide: bool) -> Watched {
        let mut watched = Watched {
            gate: Gate::greeted(if wide { 128 | 32 } else { 128 }),
            wide,
            id: 1000,
        };
        watched.introduce();
        watched
    }

    fn introduce(&mut self) {
        self.passes(Host, 5, 0, &endpoints(&WATCHED)[12..]);
        self.passes(Host, 4, 0, &[0; 132]);
        self.passes(Host, 1, 0, &[0; 8]);
    }

    fn number(&mut self, from: Side, kind: u32, id: u64, body: &[u8]) -> u8 {
        let bytes = if self.wide {
            wide_packet(kind, id, body)
        } else {
            packet(kind, id as u32, body)
        };
        self.gate.number(from, &bytes)
    }

    fn passes(&mut self, from: Side, kind: u32, id: u64, body: &[u8]) {
        assert_eq!(self.number(from, kind, id, body), 0, "kind {kind}, id {id}");
    }

    /// Sends a request of an id of its own, and tells the id.
    fn request(&mut self, kind: u32, body: &[u8]) -> u64 {
        self.id += 1;
        self.passes(Guest, kind, self.id, body);
        self.id
    }

    fn start(&mut self, row: u8) -> u64 {
        let endpoint = 0x80 | row & 15;
        match row {
            19 => self.request(15, &[endpoint]),
            20 => self.request(25, &[0, 0, 0, 0, 64, 0, 0, 0, endpoint, 1]),
            _ => self.request(12, &[endpoint, 1, 1]),
        }
    }

    fn stop(&mut self, row: u8) -> u64 {
        let endpoint = 0x80 | row & 15;
        match row {
            19 => self.request(16, &[endpoint]),
            20 => self.request(26, &[0, 0, 0, 0, endpoint]),
            _ => self.request(13, &[endpoint]),
        }
    }

    /// The status to a start or stop, or an unasked one.
    fn status(&mut self, row: u8, id: u64, status: u8) {
        let endpoint = 0x80 | row & 15;
        match row {
            19 => self.passes(Host, 17, id, &[status, endpoint]),
            20 => self.passes(Host, 27, id, &[0, 0, 0, 0, endpoint, status]),
            _ => self.passes(Host, 14, id, &[status, endpoint]),
        }
    }

    /// The answer to a stream packet of the host, one byte.
    fn data(&mut self, row: u8, id: u64) -> u8 {
        let endpoint = 0x80 | row & 15;
        match row {
            19 => self.number(Host, 103, id, &[endpoint, 0, 1, 0, 0x55]),
            20 => self.number(Host, 104, id, &[0, 0, 0, 0, 1, 0, 0, 0, endpoint, 0, 0x55]),
            _ => self.number(Host, 102, id, &[endpoint, 0, 1, 0, 0x55]),
        }
    }

    fn all(&mut self, row: u8, ids: &[u64]) {
        for id in ids {
            assert_eq!(self.data(row, *id), 0, "row {row}, id {id}");
        }
    }

    /// Breaks, last gap and expected id of a row.
    fn row(&self, row: u8) -> (u16, u64, u64) {
        let seen = self.gate.session.watch()[usize::from(row) - 16];
        (seen.breaks, seen.last_gap, seen.expected)
    }

    /// That nothing was seen on the rows other than this one.
    fn alone(&self, row: u8) {
        for other in (16..32).filter(|other| *other != row) {
            assert_eq!(self.row(other), (0, 0, 0), "row {other}");
        }
    }
}

/// Both widths, and a row of each type.
fn watched_rows() -> impl Iterator<Item = (bool, u8)> {
    [false, true]
        .into_iter()
        .flat_map(|wide| [18, 19, 20].map(|row| (wide, row)))
}

#[test]
fn at_first_0_is_expected() {
    for (wide, row) in watched_rows() {
        let mut gate = Watched::new(wide);
        assert_eq!(gate.row(row), (0, 0, 0));
        gate.start(row);
        gate.all(row, &[0]);
        assert_eq!(gate.row(row), (0, 0, 1));
        gate.all(row, &[1, 2]);
        assert_eq!(gate.row(row), (0, 0, 3));
        gate.alone(row);
    }
}

#[test]
fn a_gap_is_counted_from_the_expected_id() {
    for (wide, row) in watched_rows() {
        let mut gate = Watched::new(wide);
        gate.start(row);
        gate.all(row, &[0, 1, 4]);
        assert_eq!(gate.row(row), (1, 2, 5));
        // It is the new base, and the gap stays over good packets.
        gate.all(row, &[5, 6]);
        assert_eq!(gate.row(row), (1, 2, 7));
        gate.all(row, &[17]);
        assert_eq!(gate.row(row), (2, 10, 18));
        gate.alone(row);
        // The first id, too.
        let mut gate = Watched::new(wide);
        gate.start(row);
        gate.all(row, &[3]);
        assert_eq!(gate.row(row), (1, 3, 4));
    }
}

#[test]
fn a_repeated_id_lies_ahead_by_the_largest_gap() {
    for (wide, row) in watched_rows() {
        let largest = if wide {
            18_446_744_073_709_551_615
        } else {
            4_294_967_295
        };
        let mut gate = Watched::new(wide);
        gate.start(row);
        gate.all(row, &[0, 1, 1]);
        assert_eq!(gate.row(row), (1, largest, 2));
        gate.all(row, &[0]);
        assert_eq!(gate.row(row), (2, largest - 1, 1));
        gate.all(row, &[1]);
        assert_eq!(gate.row(row), (2, largest - 1, 2));
    }
}

#[test]
fn an_id_of_32_bits_wraps() {
    for row in [18, 19, 20] {
        let mut gate = Watched::new(false);
        gate.start(row);
        gate.all(row, &[4_294_967_294]);
        assert_eq!(gate.row(row), (1, 4_294_967_294, 4_294_967_295));
        gate.all(row, &[4_294_967_295]);
        assert_eq!(gate.row(row), (1, 4_294_967_294, 0));
        gate.all(row, &[0]);
        assert_eq!(gate.row(row), (1, 4_294_967_294, 1));
        // A gap over the wrap: 4,294,967,291 to 7.
        gate.all(row, &[4_294_967_290, 7]);
        assert_eq!(gate.row(row), (3, 12, 8));
    }
}

#[test]
fn an_id_of_64_bits_wraps() {
    for row in [18, 19, 20] {
        let mut gate = Watched::new(true);
        gate.start(row);
        // Not at 32 bits.
        gate.all(row, &[4_294_967_295]);
        assert_eq!(gate.row(row), (1, 4_294_967_295, 4_294_967_296));
        gate.all(row, &[4_294_967_296]);
        assert_eq!(gate.row(row), (1, 4_294_967_295, 4_294_967_297));
        gate.all(row, &[18_446_744_073_709_551_615]);
        assert_eq!(gate.row(row), (2, 18_446_744_069_414_584_318, 0));
        gate.all(row, &[0]);
        assert_eq!(gate.row(row), (2, 18_446_744_069_414_584_318, 1));
        // A gap over the wrap: 18,446,744,073,709,551,611 to 7.
        gate.all(row, &[18_446_744_073_709_551_610, 7]);
        assert_eq!(gate.row(row), (4, 12, 8));
        // All 64 bits count: the expected id is 8.
        gate.all(row, &[4_294_967_304]);
        assert_eq!(gate.row(row), (5, 4_294_967_296, 4_294_967_305));
    }
}

#[test]
fn a_gap_of_half_the_ids_and_more() {
    let mut gate = Watched::new(false);
    gate.start(18);
    gate.all(18, &[0, 2_147_483_649]);
    assert_eq!(gate.row(18), (1, 2_147_483_648, 2_147_483_650));
    gate.all(18, &[2]);
    assert_eq!(gate.row(18), (2, 2_147_483_648, 3));
    gate.all(18, &[2_147_483_652]);
    assert_eq!(gate.row(18), (3, 2_147_483_649, 2_147_483_653));
    gate.all(18, &[4]);
    assert_eq!(gate.row(18), (4, 2_147_483_647, 5));
    let mut gate = Watched::new(true);
    gate.start(18);
    gate.all(18, &[0, 2_147_483_649]);
    assert_eq!(gate.row(18), (1, 2_147_483_648, 2_147_483_650));
    gate.all(18, &[2]);
    assert_eq!(gate.row(18), (2, 18_446_744_071_562_067_968, 3));
    gate.all(18, &[9_223_372_036_854_775_811]);
    assert_eq!(
        gate.row(18),
        (3, 9_223_372_036_854_775_808, 9_223_372_036_854_775_812)
    );
    gate.all(18, &[5]);
    assert_eq!(gate.row(18), (4, 9_223_372_036_854_775_809, 6));
}

#[test]
fn a_start_restarts_when_it_passes() {
    for (wide, row) in watched_rows() {
        let mut gate = Watched::new(wide);
        let first = gate.start(row);
        gate.all(row, &[0, 1, 5]);
        assert_eq!(gate.row(row), (1, 3, 6));
        // On an open stream; its count and gap stay.
        let second = gate.start(row);
        assert_eq!(gate.row(row), (1, 3, 0));
        gate.all(row, &[0, 1]);
        assert_eq!(gate.row(row), (1, 3, 2));
        // The statuses to them come later and restart nothing.
        gate.status(row, first, 0);
        gate.all(row, &[2]);
        gate.status(row, second, 0);
        gate.all(row, &[3]);
        assert_eq!(gate.row(row), (1, 3, 4));
        // A refused start restarts nothing: 28, 31.
        gate.start(21);
        let taken = gate.id;
        assert_eq!(gate.number(Guest, 12, 7, &[0x83, 1, 1]), 28);
        assert_eq!(gate.number(Guest, 15, 7, &[0x82]), 28);
        assert_eq!(gate.number(Guest, 12, taken, &[0x82, 1, 1]), 31);
        assert_eq!(gate.number(Guest, 15, taken, &[0x83]), 31);
        let buffered = [0, 0, 0, 0, 64, 0, 0, 0, 0x84, 1];
        assert_eq!(gate.number(Guest, 25, taken, &buffered), 31);
        assert_eq!(gate.row(row), (1, 3, 4));
        gate.alone(row);
    }
}

#[test]
fn a_stall_restarts() {
    for (wide, row) in watched_rows() {
        let mut gate = Watched::new(wide);
        // It answers a start, and closes the stream.
        let start = gate.start(row);
        gate.all(row, &[0, 1]);
        gate.status(row, start, 4);
        assert_eq!(gate.row(row), (0, 0, 0));
        // It answers a stop.
        gate.start(row);
        gate.all(row, &[2]);
        assert_eq!(gate.row(row), (1, 2, 3));
        let stop = gate.stop(row);
        gate.all(row, &[3]);
        gate.status(row, stop, 4);
        assert_eq!(gate.row(row), (1, 2, 0));
        // Unasked, on a stream that is open and on one that is closed.
        gate.start(row);
        gate.all(row, &[0]);
        gate.status(row, 0, 4);
        assert_eq!(gate.row(row), (1, 2, 0));
        gate.status(row, 0, 4);
        assert_eq!(gate.row(row), (1, 2, 0));
        gate.alone(row);
    }
}

#[test]
fn a_stall_restarts_a_row_of_another_type() {
    for (wide, row) in watched_rows() {
        let endpoint = 0x80 | row & 15;
        let stalls = [
            (14, vec![4, endpoint]),
            (17, vec![4, endpoint]),
            (27, vec![0, 0, 0, 0, endpoint, 4]),
        ];
        for (at, (kind, body)) in stalls.iter().enumerate() {
            let mut gate = Watched::new(wide);
            gate.start(row);
            gate.all(row, &[0, 1]);
            gate.passes(Host, *kind, 0, body);
            assert_eq!(gate.row(row), (0, 0, 0));
            // The stream is closed by its own kind alone.
            let closed = at == usize::from(row) - 18;
            assert_eq!(gate.data(row, 1), if closed { 30 } else { 0 });
            let after = if closed { (0, 0, 0) } else { (1, 1, 2) };
            assert_eq!(gate.row(row), after);
        }
    }
    // It answers a start whose row has changed its type since.
    let mut gate = Watched::new(false);
    let start = gate.start(18);
    gate.all(18, &[7]);
    gate.passes(Host, 5, 0, &endpoints(&[(18, INTERRUPT, 0)])[12..]);
    assert_eq!(gate.row(18), (1, 7, 8));
    gate.status(18, start, 4);
    assert_eq!(gate.row(18), (1, 7, 0));
}

#[test]
fn other_statuses_restart_nothing() {
    for (wide, row) in watched_rows() {
        for status in (0..=255).filter(|status| *status != 4) {
            let mut gate = Watched::new(wide);
            let start = gate.start(row);
            gate.all(row, &[0, 1]);
            gate.status(row, start, status);
            assert_eq!(gate.row(row), (0, 0, 2));
            let stop = gate.stop(row);
            gate.status(row, stop, status);
            assert_eq!(gate.row(row), (0, 0, 2));
        }
    }
}

#[test]
fn a_refused_stall_restarts_nothing() {
    let mut gate = Watched::new(false);
    for row in [18, 19, 20] {
        gate.start(row);
        gate.all(row, &[0, 1]);
    }
    // No such request; a wrong size; an endpoint that isn't allowed; a wrong sender; no stall.
    for (from, kind, id, body, number) in [
        (Host, 14, 9, &[4, 0x82][..], 33),
        (Host, 17, 9, &[4, 0x83], 33),
        (Host, 27, 9, &[0, 0, 0, 0, 0x84, 4], 33),
        (Host, 14, 0, &[4, 0x82, 0], 23),
        (Host, 14, 0, &[7, 0x82], 33),
        (Host, 14, 0, &[4, 0x92], 24),
        (Guest, 17, 0, &[4, 0x83], 21),
    ] {
        assert_eq!(gate.number(from, kind, id, body), number);
    }
    for row in [18, 19, 20] {
        assert_eq!(gate.row(row), (0, 0, 2));
    }
}

#[test]
fn refused_data_is_not_watched() {
    for (wide, row) in watched_rows() {
        let mut gate = Watched::new(wide);
        let endpoint = 0x80 | row & 15;
        // The stream is closed.
        assert_eq!(gate.data(row, 7), 30);
        assert_eq!(gate.row(row), (0, 0, 0));
        let start = gate.start(row);
        gate.all(row, &[0, 3]);
        assert_eq!(gate.row(row), (1, 2, 4));
        // The row has another type.
        if row != 18 {
            assert_eq!(gate.number(Host, 102, 9, &[endpoint, 0, 0, 0]), 28);
        }
        if row != 19 {
            assert_eq!(gate.number(Host, 103, 9, &[endpoint, 0, 0, 0]), 28);
        }
        if row != 20 {
            let body = [0, 0, 0, 0, 0, 0, 0, 0, endpoint, 0];
            assert_eq!(gate.number(Host, 104, 9, &body), 28);
        }
        // A wrong size; an endpoint that isn't allowed; a wrong sender.
        let (kind, fields): (u32, &[u8]) = match row {
            18 => (102, &[0x92, 0, 0, 0]),
            19 => (103, &[0x93, 0, 0, 0]),
            _ => (104, &[0, 0, 0, 0, 0, 0, 0, 0, 0x94, 0]),
        };
        assert_eq!(gate.number(Host, kind, 9, &[fields, &[1]].concat()), 23);
        assert_eq!(gate.number(Host, kind, 9, fields), 24);
        let sender = if kind == 104 { 21 } else { 24 };
        assert_eq!(gate.number(Guest, kind, 9, fields), sender);
        assert_eq!(gate.row(row), (1, 2, 4));
        gate.all(row, &[4]);
        // The stream is closed again.
        gate.status(row, start, 3);
        assert_eq!(gate.data(row, 9), 30);
        assert_eq!(gate.row(row), (1, 2, 5));
        gate.alone(row);
    }
}

#[test]
fn a_disconnect_keeps_counts_and_gaps() {
    for wide in [false, true] {
        let mut gate = Watched::new(wide);
        for (row, id) in [(18, 5), (19, 6), (20, 7)] {
            gate.start(row);
            gate.all(row, &[id]);
        }
        gate.passes(Host, 2, 0, &[]);
        for (row, gap) in [(18, 5), (19, 6), (20, 7)] {
            assert_eq!(gate.row(row), (1, gap, 0));
        }
        // No device.
        assert_eq!(gate.data(18, 3), 25);
        gate.introduce();
        assert_eq!(gate.data(18, 3), 30);
        assert_eq!(gate.row(18), (1, 5, 0));
        gate.start(18);
        gate.all(18, &[0, 9]);
        assert_eq!(gate.row(18), (2, 8, 10));
        assert_eq!(gate.row(19), (1, 6, 0));
        // A refused one sets nothing back.
        assert_eq!(gate.number(Host, 2, 1, &[]), 24);
        assert_eq!(gate.row(18), (2, 8, 10));
    }
}

#[test]
fn a_count_stops_at_65535_and_the_gap_moves_on() {
    let mut gate = Watched::new(false);
    gate.start(18);
    for _ in 0..65_534 {
        gate.all(18, &[1]);
    }
    assert_eq!(gate.row(18), (65_534, 4_294_967_295, 2));
    gate.all(18, &[4]);
    assert_eq!(gate.row(18), (65_535, 2, 5));
    gate.all(18, &[8]);
    assert_eq!(gate.row(18), (65_535, 3, 9));
    gate.all(18, &[9, 8]);
    assert_eq!(gate.row(18), (65_535, 4_294_967_294, 9));
    gate.passes(Host, 2, 0, &[]);
    gate.introduce();
    gate.start(18);
    gate.all(18, &[6]);
    assert_eq!(gate.row(18), (65_535, 6, 7));
    gate.alone(18);
}

#[test]
fn rows_are_watched_each_by_itself() {
    let mut gate = Watched::new(false);
    for row in [18, 19, 20, 21] {
        gate.start(row);
    }
    gate.all(18, &[0, 1]);
    gate.all(21, &[0, 3]);
    gate.all(18, &[2]);
    gate.all(19, &[5]);
    gate.all(20, &[0, 0]);
    gate.start(21);
    assert_eq!(gate.row(18), (0, 0, 3));
    assert_eq!(gate.row(19), (1, 5, 6));
    assert_eq!(gate.row(20), (1, 4_294_967_295, 1));
    assert_eq!(gate.row(21), (1, 2, 0));
    // The last row.
    gate.passes(Host, 5, 0, &endpoints(&[(31, ISO, 0)])[12..]);
    gate.start(31);
    gate.all(31, &[1]);
    assert_eq!(gate.row(31), (1, 1, 2));
}

#[test]
fn out_rows_and_the_guest_are_not_watched() {
    // Rows 1 and 3 are OUT; 17 and 19 have their numbers.
    let mut gate = Watched::new(false);
    gate.start(19);
    gate.all(19, &[0, 2]);
    gate.passes(Guest, 12, 1, &[1, 1, 1]);
    gate.passes(Guest, 102, 9, &[1, 0, 0, 0]);
    gate.passes(Host, 14, 1, &[0, 1]);
    gate.passes(Guest, 102, 8, &[1, 0, 1, 0, 0x55]);
    gate.passes(Host, 14, 0, &[4, 1]);
    gate.passes(Host, 14, 0, &[4, 3]);
    gate.passes(Host, 17, 0, &[4, 3]);
    assert_eq!(gate.row(19), (1, 1, 3));
    // The host's 103 OUT is a reply.
    gate.passes(Guest, 103, 7, &[3, 0, 2, 0, 0x55, 0x66]);
    gate.passes(Host, 103, 7, &[3, 0, 2, 0]);
    assert_eq!(gate.row(19), (1, 1, 3));
    // So are its 100 and 101, and they aren't watched on an IN row either.
    gate.passes(Guest, 100, 8, &[0x80, 6, 0x80, 0, 0, 1, 0, 0, 0, 0]);
    gate.passes(Host, 100, 8, &[0x80, 6, 0x80, 0, 0, 1, 0, 0, 0, 0]);
    gate.passes(Guest, 101, 8, &[0x84, 0, 0, 0, 0, 0, 0, 0]);
    gate.passes(Host, 101, 8, &[0x84, 0, 0, 0, 0, 0, 0, 0]);
    gate.alone(19);
}

#[test]
fn tables_restart_nothing() {
    let mut gate = Watched::new(false);
    gate.start(18);
    gate.all(18, &[0, 3]);
    gate.passes(Host, 5, 0, &endpoints(&WATCHED)[12..]);
    gate.passes(Host, 4, 0, &[0; 132]);
    gate.all(18, &[4]);
    // The row changes its type, and back: its stream is closed.
    gate.passes(Host, 5, 0, &endpoints(&[(18, BULK, 0)])[12..]);
    assert_eq!(gate.row(18), (1, 2, 5));
    gate.passes(Host, 5, 0, &endpoints(&WATCHED)[12..]);
    assert_eq!(gate.data(18, 9), 30);
    assert_eq!(gate.row(18), (1, 2, 5));
    gate.start(18);
    gate.all(18, &[0, 1]);
    assert_eq!(gate.row(18), (1, 2, 2));
}

#[test]
fn reset_settings_and_stops_restart_nothing() {
    let mut gate = Watched::new(false);
    for row in [18, 19, 20] {
        gate.start(row);
        gate.all(row, &[0, 3]);
    }
    let kept = |gate: &Watched| {
        for row in [18, 19, 20] {
            assert_eq!(gate.row(row), (1, 2, 4));
        }
    };
    for row in [18, 19, 20] {
        gate.stop(row);
    }
    kept(&gate);
    // In 11 and 8 a 4 is no stall of a stream; with 0 all streams close.
    for status in [4, 0] {
        let setting = gate.request(9, &[0, 1]);
        gate.passes(Host, 11, setting, &[status, 0, 1]);
        kept(&gate);
        let configuration = gate.request(6, &[1]);
        gate.passes(Host, 8, configuration, &[status, 1]);
        kept(&gate);
    }
    assert_eq!(gate.data(18, 9), 30);
    gate.request(21, &[]);
    kept(&gate);
    gate.request(3, &[]);
    kept(&gate);
}

// ---- report ----

#[test]
fn report_example() {
    let expected = "from=guest type=7 length=0 id=7 answer=11\npassed=0 refused=1 stopped=1\n";
    assert_eq!(
        report_of("from=guest bytes=070000000000000007000000\n"),
        expected
    );
    assert_eq!(
        report_of("from=guest bytes=070000000000000007000000"),
        expected
    );
}

#[test]
fn a_line_without_digits_is_good() {
    assert_eq!(
        report_of("from=guest bytes=\nfrom=host bytes=\n"),
        "passed=0 refused=0 stopped=0\n"
    );
}

#[test]
fn the_rest_after_a_2_is_lost() {
    let mut both = hello(&[]);
    both.extend(packet(2, 0, &[]));
    let input = [
        line("host", &both),
        line("guest", &hello(&[])),
        line("host", &packet(4, 0, &[0; 132])),
    ]
    .concat();
    let expected = "from=host type=0 length=64 id=0 answer=0\n\
                    from=guest type=0 length=64 id=0 answer=0\n\
                    from=host type=4 length=132 id=0 answer=26\n\
                    passed=2 refused=1 stopped=0\n";
    assert_eq!(report_of(&input), expected);
}

#[test]
fn bad_lines_end_the_input() {
    let long = format!("from=host bytes={}\n", "0".repeat(4098));
    for bad in [
        "\n",
        "from=guest bytes=0\n",
        "from=guest bytes=0A\n",
        "from=guest bytes=00\r\n",
        "from=guest bytes=00 \n",
        " from=guest bytes=00\n",
        "from=guest  bytes=00\n",
        "from=Guest bytes=00\n",
        "from=guest bytes=0g\n",
        "from=both bytes=00\n",
        "bytes=00 from=guest\n",
        "from=guest bytes",
        &long,
    ] {
        let input = format!("{bad}from=guest bytes=070000000000000007000000\n");
        assert_eq!(
            report_of(&input),
            "line=bad\npassed=0 refused=0 stopped=0\n",
            "{bad:?}"
        );
    }
    assert_eq!(
        report_of(&format!("from=guest bytes={}\n", "0".repeat(4096)))
            .lines()
            .count(),
        2
    );
    assert_eq!(report_of(""), "passed=0 refused=0 stopped=0\n");
}

#[test]
fn lines_after_a_stop_print_nothing_but_a_bad_one_does() {
    let stop = "from=guest bytes=070000000000000007000000\nfrom=host bytes=00\n";
    let told = "from=guest type=7 length=0 id=7 answer=11\n";
    assert_eq!(
        report_of(stop),
        format!("{told}passed=0 refused=1 stopped=1\n")
    );
    assert_eq!(
        report_of(&format!("{stop}x")),
        format!("{told}line=bad\npassed=0 refused=1 stopped=1\n")
    );
}
