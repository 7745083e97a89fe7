//! The library's answers about one packet against a reading of it.

use tools::{ensure, hex};

use crate::library;
use crate::oracle::{self, Link, Packet, Shape, Value};

/// A packet has at most seven fields that are numbers; what is asked beyond them is 0.
const FIELDS_ASKED: usize = 9;

/// The library against the oracle. Gives the number on which both agree.
pub fn with_oracle(link: &Link, bytes: &[u8]) -> Result<u8, String> {
    let reading = oracle::read(link, bytes);
    let number = library::number(link, bytes);
    let outcome = match &reading {
        Ok(packet) if number == 0 => passed(link, bytes, packet),
        Err(expected) if number == *expected => refused(link, bytes),
        _ => Err(format!(
            "library says {number}, oracle {}",
            reading.err().unwrap_or(0)
        )),
    };
    match outcome {
        Ok(()) => Ok(number),
        Err(why) => Err(format!("{why}; {link:?} {}", hex::show(bytes))),
    }
}

/// The library's reading of a packet that passes is this one, and it writes the packet as it was.
pub fn passed(link: &Link, bytes: &[u8], packet: &Packet) -> Result<(), String> {
    let body = &bytes[link.header_size(packet.kind)..];
    fields(link, bytes, packet)?;
    part(link, bytes, body, packet)?;
    table(body, packet)?;
    rewrite(link, bytes)
}

/// Nothing is read from a packet that is refused, and nothing written.
pub fn refused(link: &Link, bytes: &[u8]) -> Result<(), String> {
    for i in 0..FIELDS_ASKED {
        let field = library::field(link, bytes, i);
        ensure(field == 0, || format!("refused, but field {i} is {field}"))?;
    }
    let ends = (
        library::part_start(link, bytes),
        library::part_end(link, bytes),
    );
    ensure(ends == (0, 0), || format!("refused, but part is {ends:?}"))?;
    writes_nothing(link, bytes, bytes.len() + 64)
}

// -- fields -----------------------------------------------------------------------------------------------------------

/// The fields that are numbers, in body order; None for one that the shared set keeps off the wire.
fn numbers(packet: &Packet) -> Vec<Option<u64>> {
    let kind = oracle::kind_of(packet.kind).expect("a packet that passes has a known kind");
    let named = kind.fields.iter().zip(&packet.fields);
    named
        .filter(|(field, _)| matches!(field.shape, Shape::Number(_)))
        .map(|(field, _)| packet.number(field.name))
        .collect()
}

fn fields(link: &Link, bytes: &[u8], packet: &Packet) -> Result<(), String> {
    let expected = numbers(packet);
    for i in 0..FIELDS_ASKED {
        let here = library::field(link, bytes, i);
        let there = expected.get(i).copied().flatten().unwrap_or(0);
        ensure(here == there, || {
            format!("field {i} is {here}, not {there}")
        })?;
    }
    Ok(())
}

// -- the part of the body that is handed out as bytes -------------------------------------------------------------------

/// What follows the fields: a hello's words, a filter's string, data.
fn part_bytes(packet: &Packet) -> Vec<u8> {
    match (packet.kind, packet.get("words")) {
        (0, Some(Value::Words(words))) => words.iter().flat_map(|w| w.to_le_bytes()).collect(),
        (23, _) => packet.bytes("string").to_vec(),
        _ => packet.data().to_vec(),
    }
}

/// The part is the body's last bytes, just as many as there are; where there are none it may be empty anywhere in it.
fn part(link: &Link, bytes: &[u8], body: &[u8], packet: &Packet) -> Result<(), String> {
    let start = library::part_start(link, bytes);
    let end = library::part_end(link, bytes);
    let expected = part_bytes(packet);
    let Some(found) = body.get(start..end) else {
        return Err(format!("part {start}..{end} isn't in the body"));
    };
    ensure(found == expected, || {
        format!(
            "part {start}..{end} is {}, not {}",
            hex::show(found),
            hex::show(&expected)
        )
    })?;
    ensure(expected.is_empty() || end == body.len(), || {
        format!("part {start}..{end} doesn't end with the body")
    })
}

// -- tables -----------------------------------------------------------------------------------------------------------

/// Column by column the 32 numbers of a table, read by row: 0 past them, and all 0 where the part isn't as long as the table.
fn table(body: &[u8], packet: &Packet) -> Result<(), String> {
    let (start, columns): (usize, &[&str]) = match packet.kind {
        4 => (4, &["number", "class", "subclass", "protocol"]),
        5 => (
            0,
            &["type", "interval", "interface", "max packet", "max streams"],
        ),
        _ => return Ok(()),
    };
    let end = body.len();
    let mut others = vec![(start, end - 1), (start + 1, end), (end, start)];
    if start > 0 {
        others.push((0, end));
    }
    for (column, name) in columns.iter().enumerate() {
        for row in 0..34 {
            let here = cell(packet, body, (start, end), row, column);
            let there = column_number(packet, name, row);
            ensure(here == there, || {
                format!("{name} of row {row} is {here}, not {there}")
            })?;
        }
        for part in others.iter().copied() {
            let here = cell(packet, body, part, column, column);
            ensure(here == 0, || {
                format!("{name} of row {column} in the part {part:?} is {here}, not 0")
            })?;
        }
    }
    Ok(())
}

/// The library's cell of a table.
fn cell(
    packet: &Packet,
    body: &[u8],
    (start, end): (usize, usize),
    row: usize,
    column: usize,
) -> u64 {
    if packet.kind == 4 {
        library::interface_cell(body, start, end, row, column)
    } else {
        let present = |name| packet.get(name) != Some(&Value::Absent);
        let optional = (present("max packet"), present("max streams"));
        library::endpoint_cell(body, start, end, optional, row, column)
    }
}

/// The number of a row in a column; 0 in one that isn't on the wire.
fn column_number(packet: &Packet, name: &str, row: usize) -> u64 {
    match packet.get(name) {
        Some(Value::Column(numbers)) => numbers.get(row).copied().unwrap_or(0),
        _ => 0,
    }
}

// -- writing ----------------------------------------------------------------------------------------------------------

/// Bytes that show where a writer has been.
fn pattern(size: usize) -> Vec<u8> {
    (0..size).map(|i| (i * 37 + 11) as u8).collect()
}

/// The packet comes out as it was, into an output that is longer and into one that just holds it.
fn rewrite(link: &Link, bytes: &[u8]) -> Result<(), String> {
    writes_all(link, bytes, bytes.len() + 64)?;
    writes_all(link, bytes, bytes.len())?;
    writes_nothing(link, bytes, bytes.len() - 1)
}

fn writes_all(link: &Link, bytes: &[u8], room: usize) -> Result<(), String> {
    let mut out = pattern(room);
    let mut expected = pattern(room);
    expected[..bytes.len()].copy_from_slice(bytes);
    let size = library::rewrite(link, bytes, &mut out);
    ensure(size == bytes.len(), || {
        format!("rewrite into {room} bytes puts out {size}")
    })?;
    ensure(out == expected, || {
        format!("rewrite into {room} bytes leaves {}", hex::show(&out))
    })
}

fn writes_nothing(link: &Link, bytes: &[u8], room: usize) -> Result<(), String> {
    let mut out = pattern(room);
    let size = library::rewrite(link, bytes, &mut out);
    ensure(size == 0, || {
        format!("rewrite into {room} bytes puts out {size}, not 0")
    })?;
    ensure(out == pattern(room), || {
        format!("rewrite into {room} bytes gives 0 and changes them")
    })
}
