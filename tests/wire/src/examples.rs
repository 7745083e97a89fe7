//! The marked examples of document 01 that one packet decides, and packets that tell readings of its sentences apart. Their
//! numbers are written out here, so they measure the oracle as well.

use tools::{ensure, hex, Report};

use crate::compare;
use crate::library;
use crate::oracle::{self, Link};

struct Example {
    name: &'static str,
    link: Link,
    bytes: Vec<u8>,
    number: u8,
    /// The first fields that are numbers, where the packet passes.
    fields: &'static [u64],
}

pub fn run(report: &mut Report) {
    for example in marked().into_iter().chain(readings()) {
        report.case(example.name, check(&example));
    }
    report.case("M8: endpoint 82 hex is row 18", row_is(0x82, 18));
    report.case("M9: 12 hex has no row", row_is(0x12, 255));
    report.case("the row of every byte", every_row());
}

fn check(example: &Example) -> Result<(), String> {
    let number = compare::with_oracle(&example.link, &example.bytes)?;
    ensure(number == example.number, || {
        format!("the number is {number}, not {}", example.number)
    })?;
    for (i, expected) in example.fields.iter().enumerate() {
        let field = library::field(&example.link, &example.bytes, i);
        ensure(field == *expected, || {
            format!("field {i} is {field}, not {expected}")
        })?;
    }
    Ok(())
}

fn row_is(byte: u8, expected: u8) -> Result<(), String> {
    let row = library::row(byte);
    ensure(row == expected, || format!("the row is {row}"))
}

fn every_row() -> Result<(), String> {
    for byte in 0..=255 {
        let expected = oracle::row_of(byte).unwrap_or(255);
        row_is(byte, expected).map_err(|why| format!("{byte}: {why}"))?;
    }
    Ok(())
}

// -- making examples ------------------------------------------------------------------------------------------------------

/// A packet from the guest after two hellos with the same word.
fn guest(word: u32) -> Link {
    Link {
        from_guest: true,
        guest: Some(word),
        host: Some(word),
    }
}

/// A packet from the host after two hellos with the same word.
fn host(word: u32) -> Link {
    Link {
        from_guest: false,
        ..guest(word)
    }
}

/// The guest's first packet.
const FIRST: Link = Link {
    from_guest: true,
    guest: None,
    host: None,
};

fn example(name: &'static str, link: Link, bytes: Vec<u8>, number: u8) -> Example {
    Example {
        name,
        link,
        bytes,
        number,
        fields: &[],
    }
}

fn hex_example(name: &'static str, link: Link, digits: &str, number: u8) -> Example {
    let bytes = hex::read(digits).expect("the examples here are hex digits");
    example(name, link, bytes, number)
}

impl Example {
    fn reads(self, fields: &'static [u64]) -> Example {
        Example { fields, ..self }
    }
}

/// A header with 12 bytes.
fn header(kind: u32, length: u32, id: u32) -> Vec<u8> {
    [kind, length, id]
        .into_iter()
        .flat_map(u32::to_le_bytes)
        .collect()
}

/// A hello whose version is all zero bytes.
fn hello(id: u32, words: &[u32]) -> Vec<u8> {
    let mut bytes = header(0, 64 + 4 * words.len() as u32, id);
    bytes.extend([0; 64]);
    bytes.extend(words.iter().flat_map(|word| word.to_le_bytes()));
    bytes
}

/// Bulk from the guest on OUT endpoint 2 whose body has this many bytes, without bit 6.
fn bulk(body_size: u32) -> Vec<u8> {
    let mut bytes = header(101, body_size, 9);
    let size = body_size - 8;
    bytes.extend([2, 0]);
    bytes.extend((size as u16).to_le_bytes());
    bytes.extend([0; 4]);
    bytes.extend(vec![0x5a; size as usize]);
    bytes
}

/// An endpoint table whose rows are all control, with that many bytes.
fn endpoint_table(size: u32) -> Vec<u8> {
    let mut bytes = header(5, size, 0);
    bytes.extend(vec![0; size as usize]);
    bytes
}

/// The same with another type in one row.
fn endpoint_table_with(row: usize, kind: u8) -> Vec<u8> {
    let mut bytes = endpoint_table(96);
    bytes[12 + row] = kind;
    bytes
}

/// An interface table with that count.
fn interface_table(count: u32) -> Vec<u8> {
    let mut bytes = header(4, 132, 0);
    bytes.extend(count.to_le_bytes());
    bytes.extend([0; 128]);
    bytes
}

// -- the examples -----------------------------------------------------------------------------------------------------------

#[rustfmt::skip]
fn marked() -> Vec<Example> {
    vec![
        hex_example("M1: get config, 32-bit id", guest(0), "07000000 00000000 07000000", 0),
        hex_example("M2: get config, 64-bit id", guest(0x20), "07000000 00000000 07000000 00000000", 0),
        hex_example("M2: its bytes with 32-bit ids", guest(0), "07000000 00000000 07000000 00000000", 23),
        hex_example("M1: its bytes with 64-bit ids", guest(0x20), "07000000 00000000 07000000", 23),
        hex_example("M3: bulk OUT", guest(0), "65000000 0a000000 09000000 02 00 0200 00000000 aabb", 0)
            .reads(&[2, 0, 2, 0, 0]),
        hex_example("M4: its reply", host(0), "65000000 08000000 09000000 02 00 0200 00000000", 0)
            .reads(&[2, 0, 2, 0, 0]),
        example("M6: a header with length 32,768", guest(0), header(101, 32_768, 9), 23),
        example("M6: a packet with length 32,768", guest(0), bulk(32_768), 0).reads(&[2, 0, 32_760, 0]),
        example("M7: a header with length 32,769", guest(0), header(101, 32_769, 9), 10),
        example("M7: a packet with length 32,769", guest(0), bulk(32_769), 10),
        hex_example("M9: endpoint 12 hex", guest(0), "65000000 0a000000 09000000 12 00 0200 00000000 aabb", 24),
        example("M10: hello with word 1", FIRST, hello(0, &[1]), 13),
        example("M10: hello with word 17", FIRST, hello(0, &[17]), 0),
    ]
}

/// The readings of docs/DECISIONS.md, and "Easy ways to get it wrong".
#[rustfmt::skip]
fn readings() -> Vec<Example> {
    let one_offers_64 = Link { host: Some(0), ..guest(0x20) };
    let other_awaited = Link { host: None, ..guest(0xff) };
    vec![
        hex_example("second hello at 64-bit ids", guest(0x20), "00000000 44000000 05000000", 12),
        example("hello without words", FIRST, hello(0, &[]), 0),
        example("endpoint table with bit 0 alone", host(0x01), endpoint_table(96), 0),
        example("endpoint table with bit 4", host(0x10), endpoint_table(160), 0),
        example("endpoint table with bits 4 and 0", host(0x11), endpoint_table(288), 0),
        example("type 3 in row 31", host(0), endpoint_table_with(31, 3), 0),
        example("type 4 in row 31", host(0), endpoint_table_with(31, 4), 24),
        example("type 255 in row 15", host(0), endpoint_table_with(15, 255), 0),
        example("row 16 is iso", host(0), endpoint_table_with(16, 1), 24),
        example("row 0 is invalid", host(0), endpoint_table_with(0, 255), 24),
        example("an interface count of 32", host(0), interface_table(32), 0),
        example("an interface count of 33", host(0), interface_table(33), 24),
        hex_example("bad endpoint, wrong size", guest(0), "65000000 09000000 09000000 12 00 0200 00000000 aa", 23),
        hex_example("guest iso on IN", guest(0), "66000000 05000000 09000000 81 00 0100 aa", 24),
        hex_example("guest iso on IN, wrong size", guest(0), "66000000 04000000 09000000 81 00 0100", 23),
        hex_example("guest interrupt on IN with data", guest(0), "67000000 05000000 09000000 81 00 0100 aa", 23),
        hex_example("guest interrupt on IN", guest(0), "67000000 04000000 09000000 81 00 0100", 24),
        hex_example("a free length", guest(0x40), "65000000 0a000000 09000000 82 00 ffff 00000000 ffff", 0)
            .reads(&[0x82, 0, 65_535, 0, 65_535]),
        hex_example("bulk too short for bit 6", guest(0x40), "65000000 08000000 09000000 72 00 0000 00000000", 23),
        hex_example("kind 17 on OUT", host(0), "11000000 02000000 00000000 04 01", 0).reads(&[4, 1]),
        hex_example("a host's status 7", host(0), "08000000 02000000 01000000 07 01", 0).reads(&[7, 1]),
        hex_example("a host's status 255", host(0), "11000000 02000000 00000000 ff 81", 0).reads(&[255, 0x81]),
        hex_example("a guest's status 255", guest(0), "65000000 08000000 09000000 82 ff 0000 00000000", 0),
        hex_example("stream 1 in kind 25 without bit 0", guest(0x80),
                    "19000000 0a000000 01000000 01000000 40000000 81 02", 0).reads(&[1, 64, 0x81, 2]),
        hex_example("stream 1 in kind 101 without bit 0", guest(0),
                    "65000000 08000000 09000000 82 00 0000 01000000", 24),
        hex_example("the shortest filter", host(0x04), "17000000 01000000 00000000 00", 0),
        hex_example("two zero bytes", host(0x04), "17000000 02000000 00000000 0000", 24),
        hex_example("no zero byte", host(0x04), "17000000 02000000 00000000 3031", 24),
        example("get config before the own hello", FIRST, header(7, 0, 7), 11),
        example("get config before the other's hello", other_awaited, header(7, 0, 7), 0),
        example("hello with length 32,769", FIRST, header(0, 32_769, 0), 10),
        example("hello with id 1 and word 1", FIRST, hello(1, &[1]), 24),
        example("hello with nine words and id 1", FIRST, hello(1, &[1; 9]), 23),
        example("host alloc without bit 0", host(0), header(18, 0, 1), 21),
        example("guest alloc without bit 0", guest(0), header(18, 0, 1), 22),
        example("type 256 + 7", guest(0), header(263, 0, 7), 20),
        example("one hello offers bit 5", one_offers_64, header(7, 0, 7), 0),
        hex_example("a bulk count with 10 added in 32 bits", guest(0x40),
                    "65000000 09000000 09000000 02 00 ffff 00000000 ff", 23),
        hex_example("a bulk count of 65,537 over two bytes", guest(0x40),
                    "65000000 0c000000 09000000 02 00 0100 00000000 0100 aabb", 23),
        hex_example("a bulk count of 65,538 over two bytes", guest(0x40),
                    "65000000 0c000000 09000000 02 00 0200 00000000 0100 aabb", 23),
        hex_example("speed 0", host(0), "01000000 08000000 00000000 00 09 00 01 3412 7856", 0)
            .reads(&[0, 9, 0, 1, 0x1234, 0x5678, 0]),
        hex_example("speed 4", host(0), "01000000 08000000 00000000 04 09 00 01 3412 7856", 24),
    ]
}
