//! Captured packets of real peers, and what their sidecars say of them.

use std::fs;
use std::path::{Path, PathBuf};

use tools::{captures, ensure, hex, Report};

use crate::compare;
use crate::json::{self, Json};
use crate::oracle::{self, Field, Header, Link, Packet, Shape, Value};

/// A packet of a capture, with the link it is judged on.
pub struct Captured {
    pub name: String,
    pub link: Link,
    pub bytes: Vec<u8>,
    sidecar: Json,
}

/// Runs every packet of every set in the directory; gives the packets for further use.
pub fn run(directory: &Path, report: &mut Report) -> Vec<Captured> {
    let mut all = Vec::new();
    match sets(directory) {
        Ok(sets) => {
            for set in sets {
                match packets(&set) {
                    Ok(packets) => all.extend(packets),
                    Err(why) => report.case(&set.display().to_string(), Err(why)),
                }
            }
        }
        Err(why) => report.case(&directory.display().to_string(), Err(why)),
    }
    for captured in &all {
        report.case(&captured.name, check(captured));
    }
    all
}

fn check(captured: &Captured) -> Result<(), String> {
    let (link, bytes) = (&captured.link, &captured.bytes);
    let number = compare::with_oracle(link, bytes)?;
    if number != 0 {
        return Ok(());
    }
    let expected = sidecar_packet(captured).ok_or("the sidecar lacks a field")?;
    let reading = oracle::read(link, bytes);
    ensure(reading.as_ref() == Ok(&expected), || {
        format!("the oracle reads {reading:?}, the sidecar says {expected:?}")
    })?;
    ensure(oracle::write(link, &expected) == *bytes, || {
        format!(
            "the oracle writes {expected:?} otherwise than {}",
            hex::show(bytes)
        )
    })?;
    compare::passed(link, bytes, &expected)
}

// -- the sets of a directory --------------------------------------------------------------------------------------------

/// The sidecars of the directory, sorted.
fn sets(directory: &Path) -> Result<Vec<PathBuf>, String> {
    let sidecars = captures::files(directory, "jsonl")?;
    ensure(!sidecars.is_empty(), || "no sidecar here".to_string())?;
    Ok(sidecars)
}

/// The joined bytes of one direction.
#[derive(Default)]
struct Stream {
    bytes: Vec<u8>,
    cut: usize,
}

/// The packets of a set in wire order.
fn packets(sidecar: &Path) -> Result<Vec<Captured>, String> {
    let set = captures::name(sidecar);
    let (mut guest, mut host) = streams(&read(&sidecar.with_extension("txt"))?)?;
    let mut link = Link {
        from_guest: true,
        guest: None,
        host: None,
    };
    let mut packets = Vec::new();
    for (n, line) in read(sidecar)?.lines().enumerate() {
        let name = format!("{set} n={n}");
        let sidecar = json::read(line).map_err(|why| format!("{name}: {why}"))?;
        link.from_guest = is_from_guest(&sidecar).ok_or(format!("{name}: no direction"))?;
        let stream = if link.from_guest {
            &mut guest
        } else {
            &mut host
        };
        let captured = cut(name, link, stream, sidecar)?;
        note_hello(&mut link, &captured.sidecar);
        packets.push(captured);
    }
    ensure(
        guest.cut == guest.bytes.len() && host.cut == host.bytes.len(),
        || "bytes behind the last packet".to_string(),
    )?;
    Ok(packets)
}

fn read(path: &Path) -> Result<String, String> {
    fs::read_to_string(path).map_err(|why| format!("{}: {why}", path.display()))
}

/// Both directions' bytes of a capture, guest first.
fn streams(text: &str) -> Result<(Stream, Stream), String> {
    let mut guest = Stream::default();
    let mut host = Stream::default();
    for piece in captures::pieces(text) {
        let (from_guest, bytes) = piece?;
        let stream = if from_guest { &mut guest } else { &mut host };
        stream.bytes.extend(bytes);
    }
    Ok((guest, host))
}

fn is_from_guest(sidecar: &Json) -> Option<bool> {
    match sidecar.get("dir")?.text()? {
        "guest" => Some(true),
        "host" => Some(false),
        _ => None,
    }
}

/// The header as the sidecar tells it.
fn sidecar_header(sidecar: &Json) -> Option<Header> {
    Some(Header {
        kind: u32::try_from(sidecar.get("kind")?.number()?).ok()?,
        length: u32::try_from(sidecar.get("length")?.number()?).ok()?,
        id: sidecar.get("id")?.number()?,
        size: usize::try_from(sidecar.get("header_len")?.number()?).ok()?,
    })
}

/// Cuts the next packet off its direction's bytes, by the sidecar, whose header must be the one in the bytes.
fn cut(name: String, link: Link, stream: &mut Stream, sidecar: Json) -> Result<Captured, String> {
    let header = sidecar_header(&sidecar).ok_or(format!("{name}: no header in the sidecar"))?;
    let offset = sidecar.get("offset").and_then(Json::number);
    ensure(offset == Some(stream.cut as u64), || {
        format!("{name}: offset isn't {}", stream.cut)
    })?;
    let end = stream.cut + header.size + header.length as usize;
    let Some(bytes) = stream.bytes.get(stream.cut..end) else {
        return Err(format!("{name}: the capture ends before byte {end}"));
    };
    stream.cut = end;
    let link = link_of_width(link, &header);
    let found = oracle::read_header(&link, bytes);
    ensure(found == Some(header), || {
        format!("{name}: header is {found:?}, the sidecar says {header:?}")
    })?;
    Ok(Captured {
        name,
        link,
        bytes: bytes.to_vec(),
        sidecar,
    })
}

/// The link with which document 01 gives the header the size it has in the capture.
///
/// The peers send 12-byte headers until they have read the other's hello, also when it has passed already and bit 5 is
/// shared. Such a packet is judged with bit 5 taken out of both words; all other bits stay as they are. (The reverse, a
/// 16-byte header too early, gets bit 5 put into both.)
fn link_of_width(link: Link, header: &Header) -> Link {
    if link.header_size(header.kind) == header.size {
        link
    } else if header.size == 12 {
        Link {
            guest: link.guest.map(|word| word & !oracle::IDS_OF_64_BITS),
            host: link.host.map(|word| word & !oracle::IDS_OF_64_BITS),
            ..link
        }
    } else {
        Link {
            guest: Some(link.guest.unwrap_or(0) | oracle::IDS_OF_64_BITS),
            host: Some(link.host.unwrap_or(0) | oracle::IDS_OF_64_BITS),
            ..link
        }
    }
}

/// A hello's first word is in force for the packets behind it in wire order.
///
/// A hello that the wire checks refuse would stop a session; here its word is in force all the same, as it is for the
/// peers, so that the packets behind it test something. A second hello changes nothing.
fn note_hello(link: &mut Link, sidecar: &Json) {
    let kind = sidecar.get("kind").and_then(Json::number);
    if kind != Some(0) || link.own_hello().is_some() {
        return;
    }
    let words = sidecar_words(sidecar).unwrap_or_default();
    let first = words.first().copied().unwrap_or(0);
    if link.from_guest {
        link.guest = Some(first);
    } else {
        link.host = Some(first);
    }
}

// -- a sidecar's fields -------------------------------------------------------------------------------------------------

fn sidecar_words(sidecar: &Json) -> Option<Vec<u32>> {
    let caps = sidecar.get("fields")?.get("caps")?.numbers()?;
    caps.into_iter()
        .map(|word| u32::try_from(word).ok())
        .collect()
}

/// The packet as the sidecar tells it. It names every field given to the send call, also those that stay off the wire.
fn sidecar_packet(captured: &Captured) -> Option<Packet> {
    let header = sidecar_header(&captured.sidecar)?;
    let kind = oracle::kind_of(header.kind)?;
    let mut fields = Vec::new();
    for field in kind.fields {
        let value = if captured.link.shares(field.needs) {
            sidecar_value(&captured.sidecar, header.kind, field)?
        } else {
            Value::Absent
        };
        fields.push((field.name, value));
    }
    Some(Packet {
        kind: header.kind,
        id: header.id,
        fields,
    })
}

fn sidecar_value(sidecar: &Json, kind: u32, field: &Field) -> Option<Value> {
    let named = || {
        sidecar
            .get("fields")?
            .get(sidecar_name(kind, field.name))
            .cloned()
    };
    match field.shape {
        Shape::Number(_) => Some(Value::Number(named()?.number()?)),
        Shape::Column(_) => Some(Value::Column(named()?.numbers()?)),
        Shape::Bytes(size) => {
            let mut bytes = named()?.text()?.as_bytes().to_vec();
            bytes.resize(size, 0);
            Some(Value::Bytes(bytes))
        }
        Shape::Words => Some(Value::Words(sidecar_words(sidecar)?)),
        // Data and a filter's string with its zero byte.
        Shape::Rest => Some(Value::Bytes(hex::read(sidecar.get("data")?.text()?).ok()?)),
    }
}

/// The sidecar's name of a field of document 01.
fn sidecar_name(kind: u32, name: &'static str) -> &'static str {
    match (kind, name) {
        (1, "class") => "device_class",
        (1, "subclass") => "device_subclass",
        (1, "protocol") => "device_protocol",
        (1, "vendor") => "vendor_id",
        (1, "product") => "product_id",
        (1, "version") => "device_version_bcd",
        (4, "count") => "interface_count",
        (4, "number") => "interface",
        (4, "class") => "interface_class",
        (4, "subclass") => "interface_subclass",
        (4, "protocol") => "interface_protocol",
        (5, "max packet") => "max_packet_size",
        (5, "max streams") => "max_streams",
        (12, "packets") => "pkts_per_urb",
        (12, "urbs") => "no_urbs",
        (18..=20, "mask") => "endpoints",
        (18..=20, "count") => "no_streams",
        (25, "bytes") => "bytes_per_transfer",
        (25, "transfers") => "no_transfers",
        (101, "length low") => "length",
        (101, "length high") => "length_high",
        (_, "stream") => "stream_id",
        _ => name,
    }
}
