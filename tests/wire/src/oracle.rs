//! The wire rules of document 01, read for themselves: what the library is measured with.
//!
//! A packet's bytes are judged by the link they arrive on: who sends, and which hellos have passed before. Sentences in
//! quotation marks are document 01's; where it leaves room, docs/DECISIONS.md has the reading.

/// "10: length over 32,768".
pub const LONGEST_BODY: u32 = 32_768;

// The bits of the shared set.
pub const BULK_STREAMS: u32 = 1 << 0;
pub const CONNECT_VERSION: u32 = 1 << 1;
pub const FILTER: u32 = 1 << 2;
pub const DISCONNECT_ACK: u32 = 1 << 3;
pub const MAX_PACKET_SIZE: u32 = 1 << 4;
pub const IDS_OF_64_BITS: u32 = 1 << 5;
pub const BULK_LENGTH_OF_32_BITS: u32 = 1 << 6;
pub const BULK_RECEIVING: u32 = 1 << 7;

/// "Other bits and words are ignored."
const IGNORED_BITS: u32 = 0xffff_ff00;

/// Who sends a packet, and the first word of each hello that has passed before it.
#[derive(Clone, Copy, Debug, PartialEq)]
pub struct Link {
    pub from_guest: bool,
    pub guest: Option<u32>,
    pub host: Option<u32>,
}

impl Link {
    /// "Shared set: bits set in both hellos' first capability word." Nothing is shared before both have passed.
    pub fn shared(&self) -> u32 {
        match (self.guest, self.host) {
            (Some(guest), Some(host)) => guest & host & !IGNORED_BITS,
            _ => 0,
        }
    }

    /// Whether all of these bits are shared.
    pub fn shares(&self, bits: u32) -> bool {
        self.shared() & bits == bits
    }

    pub fn own_hello(&self) -> Option<u32> {
        if self.from_guest {
            self.guest
        } else {
            self.host
        }
    }

    /// "id is u64 once both hellos have passed and bit 5 is shared. Hellos always use the 12-byte header."
    pub fn header_size(&self, kind: u32) -> usize {
        if kind != 0 && self.shares(IDS_OF_64_BITS) {
            16
        } else {
            12
        }
    }
}

// ---------------------------------------------------------------------------------------------------------------------
// The kinds and their fields
// ---------------------------------------------------------------------------------------------------------------------

#[derive(Clone, Copy, Debug, PartialEq)]
pub enum Sender {
    Guest,
    Host,
    Both,
}
use Sender::{Both, Guest, Host};

/// How a field lies in the body.
#[derive(Clone, Copy, Debug, PartialEq)]
pub enum Shape {
    /// A number of that many bytes, least significant first.
    Number(usize),
    /// Such a number for each of the 32 rows.
    Column(usize),
    /// That many bytes.
    Bytes(usize),
    /// Numbers of four bytes up to the body's end.
    Words,
    /// Bytes up to the body's end.
    Rest,
}

/// A field of a kind; it is on the wire where all bits of `needs` are shared.
#[derive(Clone, Copy, Debug)]
pub struct Field {
    pub name: &'static str,
    pub shape: Shape,
    pub needs: u32,
}

impl Field {
    const fn with(self, needs: u32) -> Field {
        Field { needs, ..self }
    }
}

const fn field(name: &'static str, shape: Shape) -> Field {
    Field {
        name,
        shape,
        needs: 0,
    }
}

const fn n8(name: &'static str) -> Field {
    field(name, Shape::Number(1))
}

const fn n16(name: &'static str) -> Field {
    field(name, Shape::Number(2))
}

const fn n32(name: &'static str) -> Field {
    field(name, Shape::Number(4))
}

const fn column8(name: &'static str) -> Field {
    field(name, Shape::Column(1))
}

const fn column16(name: &'static str) -> Field {
    field(name, Shape::Column(2))
}

const fn column32(name: &'static str) -> Field {
    field(name, Shape::Column(4))
}

const VERSION: Field = field("version", Shape::Bytes(64));
const WORDS: Field = field("words", Shape::Words);
const STRING: Field = field("string", Shape::Rest);
const DATA: Field = field("data", Shape::Rest);

/// A kind: its number, who sends it, the bit it needs, its fields in body order.
pub struct Kind {
    pub number: u32,
    pub sender: Sender,
    pub needs: u32,
    pub fields: &'static [Field],
}

const fn kind(number: u32, sender: Sender, needs: u32, fields: &'static [Field]) -> Kind {
    Kind {
        number,
        sender,
        needs,
        fields,
    }
}

/// "Fields in order." Data stands in every kind that may carry it; where none follows it is empty.
#[rustfmt::skip]
pub static KINDS: [Kind; 33] = [
    /* hello */             kind(0, Both, 0, &[VERSION, WORDS]),
    /* connect */           kind(1, Host, 0, &[n8("speed"), n8("class"), n8("subclass"), n8("protocol"), n16("vendor"),
                                               n16("product"), n16("version").with(CONNECT_VERSION)]),
    /* disconnect */        kind(2, Host, 0, &[]),
    /* reset */             kind(3, Guest, 0, &[]),
    /* interface table */   kind(4, Host, 0, &[n32("count"), column8("number"), column8("class"), column8("subclass"),
                                               column8("protocol")]),
    /* endpoint table */    kind(5, Host, 0, &[column8("type"), column8("interval"), column8("interface"),
                                               column16("max packet").with(MAX_PACKET_SIZE),
                                               column32("max streams").with(MAX_PACKET_SIZE | BULK_STREAMS)]),
    /* set config */        kind(6, Guest, 0, &[n8("configuration")]),
    /* get config */        kind(7, Guest, 0, &[]),
    /* config status */     kind(8, Host, 0, &[n8("status"), n8("configuration")]),
    /* set alt */           kind(9, Guest, 0, &[n8("interface"), n8("alt")]),
    /* get alt */           kind(10, Guest, 0, &[n8("interface")]),
    /* alt status */        kind(11, Host, 0, &[n8("status"), n8("interface"), n8("alt")]),
    /* start iso */         kind(12, Guest, 0, &[n8("endpoint"), n8("packets"), n8("urbs")]),
    /* stop iso */          kind(13, Guest, 0, &[n8("endpoint")]),
    /* iso status */        kind(14, Host, 0, &[n8("status"), n8("endpoint")]),
    /* start interrupt */   kind(15, Guest, 0, &[n8("endpoint")]),
    /* stop interrupt */    kind(16, Guest, 0, &[n8("endpoint")]),
    /* interrupt status */  kind(17, Host, 0, &[n8("status"), n8("endpoint")]),
    /* alloc streams */     kind(18, Guest, BULK_STREAMS, &[n32("mask"), n32("count")]),
    /* free streams */      kind(19, Guest, BULK_STREAMS, &[n32("mask")]),
    /* streams status */    kind(20, Host, BULK_STREAMS, &[n32("mask"), n32("count"), n8("status")]),
    /* cancel */            kind(21, Guest, 0, &[]),
    /* filter reject */     kind(22, Guest, FILTER, &[]),
    /* filter */            kind(23, Both, FILTER, &[STRING]),
    /* disconnect ack */    kind(24, Guest, DISCONNECT_ACK, &[]),
    /* start receiving */   kind(25, Guest, BULK_RECEIVING, &[n32("stream"), n32("bytes"), n8("endpoint"), n8("transfers")]),
    /* stop receiving */    kind(26, Guest, BULK_RECEIVING, &[n32("stream"), n8("endpoint")]),
    /* receiving status */  kind(27, Host, BULK_RECEIVING, &[n32("stream"), n8("endpoint"), n8("status")]),
    /* control */           kind(100, Both, 0, &[n8("endpoint"), n8("request"), n8("requesttype"), n8("status"),
                                                 n16("value"), n16("index"), n16("length"), DATA]),
    /* bulk */              kind(101, Both, 0, &[n8("endpoint"), n8("status"), n16("length low"), n32("stream"),
                                                 n16("length high").with(BULK_LENGTH_OF_32_BITS), DATA]),
    /* iso */               kind(102, Both, 0, &[n8("endpoint"), n8("status"), n16("length"), DATA]),
    /* interrupt */         kind(103, Both, 0, &[n8("endpoint"), n8("status"), n16("length"), DATA]),
    /* buffered bulk */     kind(104, Host, BULK_RECEIVING, &[n32("stream"), n32("length"), n8("endpoint"), n8("status"),
                                                              DATA]),
];

pub fn kind_of(number: u32) -> Option<&'static Kind> {
    KINDS.iter().find(|kind| kind.number == number)
}

impl Kind {
    pub fn may_come(&self, from_guest: bool) -> bool {
        match self.sender {
            Guest => from_guest,
            Host => !from_guest,
            Both => true,
        }
    }
}

/// The column "body bytes", with the data's size still free.
fn body_size_holds(kind: u32, link: &Link, size: usize) -> bool {
    match kind {
        0 => (64..=64 + 4 * 8).contains(&size) && size % 4 == 0,
        1 if link.shares(CONNECT_VERSION) => size == 10,
        1 => size == 8,
        2 | 3 | 7 | 21 | 22 | 24 => size == 0,
        4 => size == 132,
        // "96; 160 with bit 4; 288 with bits 4 and 0": bit 0 alone adds nothing.
        5 if link.shares(MAX_PACKET_SIZE | BULK_STREAMS) => size == 288,
        5 if link.shares(MAX_PACKET_SIZE) => size == 160,
        5 => size == 96,
        6 | 10 | 13 | 15 | 16 => size == 1,
        8 | 9 | 14 | 17 => size == 2,
        11 | 12 => size == 3,
        18 => size == 8,
        19 => size == 4,
        20 => size == 9,
        23 => size >= 1,
        25 => size == 10,
        26 => size == 5,
        27 => size == 6,
        100 | 104 => size >= 10,
        101 if link.shares(BULK_LENGTH_OF_32_BITS) => size >= 10,
        101 => size >= 8,
        102 | 103 => size >= 4,
        _ => false,
    }
}

// ---------------------------------------------------------------------------------------------------------------------
// Packets as values
// ---------------------------------------------------------------------------------------------------------------------

#[derive(Clone, Debug, PartialEq)]
pub enum Value {
    /// The shared set keeps the field off the wire.
    Absent,
    Number(u64),
    /// The 32 numbers of a table's column.
    Column(Vec<u64>),
    Bytes(Vec<u8>),
    Words(Vec<u32>),
}

/// A packet: its kind, its id, and the value of each field of that kind in body order.
#[derive(Clone, Debug, PartialEq)]
pub struct Packet {
    pub kind: u32,
    pub id: u64,
    pub fields: Vec<(&'static str, Value)>,
}

impl Packet {
    pub fn get(&self, name: &str) -> Option<&Value> {
        let (_, value) = self.fields.iter().find(|(known, _)| *known == name)?;
        Some(value)
    }

    pub fn set(&mut self, name: &str, value: Value) {
        for (known, old) in &mut self.fields {
            if *known == name {
                *old = value.clone();
            }
        }
    }

    /// The number of that name, if the kind has one and it is on the wire.
    pub fn number(&self, name: &str) -> Option<u64> {
        match self.get(name) {
            Some(Value::Number(number)) => Some(*number),
            _ => None,
        }
    }

    pub fn endpoint(&self) -> Option<u8> {
        self.number("endpoint").map(|number| number as u8)
    }

    pub fn bytes(&self, name: &str) -> &[u8] {
        match self.get(name) {
            Some(Value::Bytes(bytes)) => bytes,
            _ => &[],
        }
    }

    pub fn data(&self) -> &[u8] {
        self.bytes("data")
    }

    /// The length field. "The bulk count is low + 65,536 times high, or low without bit 6."
    pub fn length(&self) -> u64 {
        if self.kind == 101 {
            let low = self.number("length low").unwrap_or(0);
            let high = self.number("length high").unwrap_or(0);
            low + 65_536 * high
        } else {
            self.number("length").unwrap_or(0)
        }
    }
}

/// "An endpoint byte holds the number in bits 0 to 3 and IN in bit 7; bits 4 to 6 are zero. Its row is the number, plus 16
/// for IN." None where one of bits 4 to 6 is set.
pub fn row_of(endpoint: u8) -> Option<u8> {
    if endpoint & 0x70 != 0 {
        return None;
    }
    let number = endpoint & 0x0f;
    Some(if is_in(endpoint) { number + 16 } else { number })
}

/// Bit 7 alone, also in a byte that is no address.
pub fn is_in(endpoint: u8) -> bool {
    endpoint & 0x80 != 0
}

// ---------------------------------------------------------------------------------------------------------------------
// Reading
// ---------------------------------------------------------------------------------------------------------------------

#[derive(Clone, Copy, Debug, PartialEq)]
pub struct Header {
    pub kind: u32,
    pub length: u32,
    pub id: u64,
    /// 12 or 16.
    pub size: usize,
}

/// "Integers are least significant byte first, packed."
pub fn read_number(bytes: &[u8]) -> u64 {
    bytes
        .iter()
        .rev()
        .fold(0, |number, byte| number << 8 | u64::from(*byte))
}

/// The header at the front of the bytes, once it is whole. "Header: type u32, length u32, id u32".
pub fn read_header(link: &Link, bytes: &[u8]) -> Option<Header> {
    let kind = read_number(bytes.get(0..4)?) as u32;
    let size = link.header_size(kind);
    Some(Header {
        kind,
        length: read_number(bytes.get(4..8)?) as u32,
        id: read_number(bytes.get(8..size)?),
        size,
    })
}

/// "10, 11, 12 (that order) fall when the header is whole". 0 for a header that they let through.
pub fn header_number(link: &Link, header: &Header) -> u8 {
    let hello = header.kind == 0;
    let own_hello_passed = link.own_hello().is_some();
    if header.length > LONGEST_BODY {
        10
    } else if !own_hello_passed && !hello {
        11
    } else if own_hello_passed && hello {
        12
    } else {
        0
    }
}

/// Reads the bytes of one packet, or gives the wire checks' number that refuses them.
///
/// Bytes that aren't a header and as many bytes as it says get 23 straight after 10 to 12: document 01 doesn't speak of
/// them, its reader answers 1 or leaves the rest for the next call.
pub fn read(link: &Link, bytes: &[u8]) -> Result<Packet, u8> {
    let Some(header) = read_header(link, bytes) else {
        return Err(23);
    };
    let refusal = header_number(link, &header);
    if refusal != 0 {
        return Err(refusal);
    }
    let body = &bytes[header.size..];
    if body.len() != header.length as usize {
        return Err(23);
    }
    read_body(link, &header, body)
}

/// "Where several hold, the lowest from 20 up is given." "A hello refused with 23, 24 or 13 (that order)": no other kind
/// can get 13, and a hello can't get 20 to 22, so this one order serves both.
fn read_body(link: &Link, header: &Header, body: &[u8]) -> Result<Packet, u8> {
    let Some(kind) = kind_of(header.kind) else {
        return Err(20);
    };
    if !kind.may_come(link.from_guest) {
        return Err(21);
    }
    if !link.shares(kind.needs) {
        return Err(22);
    }
    if !body_size_holds(header.kind, link, body.len()) {
        return Err(23);
    }
    let packet = Packet {
        kind: header.kind,
        id: header.id,
        fields: read_fields(link, kind, body),
    };
    if !data_size_holds(link, &packet) {
        return Err(23);
    }
    if !field_rules_hold(link, &packet) {
        return Err(24);
    }
    if offers_streams_without_packet_sizes(&packet) {
        return Err(13);
    }
    Ok(packet)
}

/// The fields of a body whose size holds.
fn read_fields(link: &Link, kind: &Kind, body: &[u8]) -> Vec<(&'static str, Value)> {
    let mut fields = Vec::new();
    let mut rest = body;
    for field in kind.fields {
        let value = if link.shares(field.needs) {
            let (here, behind) = rest.split_at(size_here(field.shape, rest.len()));
            rest = behind;
            read_value(field.shape, here)
        } else {
            Value::Absent
        };
        fields.push((field.name, value));
    }
    assert!(
        rest.is_empty(),
        "fields and body size of kind {} differ",
        kind.number
    );
    fields
}

/// How many bytes a field takes that has so many before the body's end.
fn size_here(shape: Shape, left: usize) -> usize {
    match shape {
        Shape::Number(size) | Shape::Bytes(size) => size,
        Shape::Column(size) => 32 * size,
        Shape::Words | Shape::Rest => left,
    }
}

fn read_value(shape: Shape, bytes: &[u8]) -> Value {
    match shape {
        Shape::Number(_) => Value::Number(read_number(bytes)),
        Shape::Column(size) => Value::Column(bytes.chunks(size).map(read_number).collect()),
        Shape::Bytes(_) | Shape::Rest => Value::Bytes(bytes.to_vec()),
        Shape::Words => Value::Words(bytes.chunks(4).map(|b| read_number(b) as u32).collect()),
    }
}

/// "Data follows a 100, 101 or 103 packet only if guest sends on an OUT endpoint or host on an IN one; always for 102 and
/// 104."
pub fn data_follows(link: &Link, packet: &Packet) -> bool {
    match (packet.kind, packet.endpoint()) {
        (100 | 101 | 103, Some(endpoint)) => is_in(endpoint) != link.from_guest,
        (102 | 104, _) => true,
        _ => false,
    }
}

/// "Where data follows, its size equals the length field; elsewhere there is none; otherwise 23."
fn data_size_holds(link: &Link, packet: &Packet) -> bool {
    let size = packet.data().len() as u64;
    if data_follows(link, packet) {
        size == packet.length()
    } else {
        size == 0
    }
}

// ---------------------------------------------------------------------------------------------------------------------
// Field rules (24)
// ---------------------------------------------------------------------------------------------------------------------

fn field_rules_hold(link: &Link, packet: &Packet) -> bool {
    id_holds(packet)
        && endpoint_holds(packet)
        && direction_holds(link, packet)
        && own_rule_holds(link, packet)
}

/// "Id is 0 in kinds 0, 1, 2, 4, 5, 22, 23, 24."
pub fn has_id_zero(kind: u32) -> bool {
    matches!(kind, 0 | 1 | 2 | 4 | 5 | 22 | 23 | 24)
}

fn id_holds(packet: &Packet) -> bool {
    packet.id == 0 || !has_id_zero(packet.kind)
}

/// "bits 4 to 6 are zero", in every endpoint field of every kind.
fn endpoint_holds(packet: &Packet) -> bool {
    match packet.endpoint() {
        Some(endpoint) => row_of(endpoint).is_some(),
        None => true,
    }
}

/// "Kinds 15, 16, 25 to 27 and 104 name an IN endpoint. Iso from the guest is OUT, from the host IN; interrupt data from the
/// guest is OUT." Kind 17 isn't among them.
fn direction_holds(link: &Link, packet: &Packet) -> bool {
    let Some(endpoint) = packet.endpoint() else {
        return true;
    };
    match packet.kind {
        15 | 16 | 25 | 26 | 27 | 104 => is_in(endpoint),
        102 if link.from_guest => !is_in(endpoint),
        102 => is_in(endpoint),
        103 if link.from_guest => !is_in(endpoint),
        _ => true,
    }
}

fn own_rule_holds(link: &Link, packet: &Packet) -> bool {
    match packet.kind {
        0 => packet.bytes("version").contains(&0),
        1 => matches!(packet.number("speed"), Some(0..=3 | 255)),
        4 => matches!(packet.number("count"), Some(0..=32)),
        5 => types_hold(packet),
        18 | 19 => packet.number("mask") != Some(0),
        23 => filter_holds(packet.bytes("string")),
        100 => request_direction_holds(packet),
        // "Stream is 0 in kind 101 without bit 0."
        101 => link.shares(BULK_STREAMS) || packet.number("stream") == Some(0),
        _ => true,
    }
}

/// "Endpoint types are 0 control, 1 iso, 2 bulk, 3 interrupt or 255 invalid; rows 0 and 16 are control."
fn types_hold(packet: &Packet) -> bool {
    let Some(Value::Column(types)) = packet.get("type") else {
        return false;
    };
    let known = types.iter().all(|t| matches!(t, 0..=3 | 255));
    known && types[0] == 0 && types[16] == 0
}

/// "A filter's one zero byte is its last."
fn filter_holds(string: &[u8]) -> bool {
    match string.split_last() {
        Some((last, before)) => *last == 0 && !before.contains(&0),
        None => false,
    }
}

/// "In kind 100, bit 7 of requesttype equals the endpoint's."
fn request_direction_holds(packet: &Packet) -> bool {
    match (packet.number("requesttype"), packet.number("endpoint")) {
        (Some(requesttype), Some(endpoint)) => requesttype & 0x80 == endpoint & 0x80,
        _ => false,
    }
}

/// "13: hello has bit 0 without bit 4". One without words offers nothing.
fn offers_streams_without_packet_sizes(packet: &Packet) -> bool {
    match packet.get("words") {
        Some(Value::Words(words)) => match words.first() {
            Some(word) => word & BULK_STREAMS != 0 && word & MAX_PACKET_SIZE == 0,
            None => false,
        },
        _ => false,
    }
}

// ---------------------------------------------------------------------------------------------------------------------
// Writing
// ---------------------------------------------------------------------------------------------------------------------

/// The bytes of a packet as it stands: absent fields take no bytes, nothing is checked. The link gives the id's width.
pub fn write(link: &Link, packet: &Packet) -> Vec<u8> {
    let body = write_fields(packet);
    let id_size = link.header_size(packet.kind) - 8;
    let mut bytes = Vec::new();
    write_number(&mut bytes, u64::from(packet.kind), 4);
    write_number(&mut bytes, body.len() as u64, 4);
    write_number(&mut bytes, packet.id, id_size);
    bytes.extend(body);
    bytes
}

fn write_fields(packet: &Packet) -> Vec<u8> {
    let kind = kind_of(packet.kind).expect("a packet has one of document 01's kinds");
    let mut body = Vec::new();
    for (field, (_, value)) in kind.fields.iter().zip(&packet.fields) {
        write_value(&mut body, field.shape, value);
    }
    body
}

fn write_value(body: &mut Vec<u8>, shape: Shape, value: &Value) {
    match (shape, value) {
        (_, Value::Absent) => {}
        (Shape::Number(size), Value::Number(number)) => write_number(body, *number, size),
        (Shape::Column(size), Value::Column(numbers)) => {
            for number in numbers {
                write_number(body, *number, size);
            }
        }
        (Shape::Words, Value::Words(words)) => {
            for word in words {
                write_number(body, u64::from(*word), 4);
            }
        }
        (Shape::Bytes(_) | Shape::Rest, Value::Bytes(bytes)) => body.extend(bytes),
        _ => panic!("{value:?} is no value for {shape:?}"),
    }
}

/// The low bytes of a number, least significant first.
fn write_number(bytes: &mut Vec<u8>, number: u64, size: usize) {
    bytes.extend(&number.to_le_bytes()[..size]);
}
