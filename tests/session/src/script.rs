//! Scripts, and the numbers that the library and the oracle give for them.

use tools::{ensure, hex};

use crate::library;
use crate::oracle;
use crate::oracle::wire::Side;

/// What the output holds before a call.
const UNTOUCHED: u8 = 0xa5;

/// A list of packets as bytes, with the place of each.
#[derive(Clone, Default)]
pub struct Script {
    bytes: Vec<u8>,
    /// Where each packet's entry starts: its sender's byte.
    starts: Vec<usize>,
}

impl Script {
    pub fn push(&mut self, from: Side, packet: &[u8]) {
        let sender = match from {
            Side::Guest => 0,
            Side::Host => 1,
        };
        self.push_from(sender, packet);
    }

    /// With the byte that tells the sender.
    pub fn push_from(&mut self, sender: u8, packet: &[u8]) {
        let size = u16::try_from(packet.len()).expect("a packet has less than 65,536 bytes");
        self.starts.push(self.bytes.len());
        self.bytes.push(sender);
        self.bytes.extend(size.to_le_bytes());
        self.bytes.extend(packet);
    }

    /// How many packets it has.
    pub fn len(&self) -> usize {
        self.starts.len()
    }

    /// Where each packet's entry ends.
    pub fn ends(&self) -> impl Iterator<Item = usize> + '_ {
        let behind = self.starts.iter().skip(1).copied();
        behind.chain((!self.starts.is_empty()).then_some(self.bytes.len()))
    }

    pub fn bytes(&self) -> &[u8] {
        &self.bytes
    }

    /// Packet i, for a message.
    pub fn show(&self, i: usize) -> String {
        let end = self.starts.get(i + 1).copied().unwrap_or(self.bytes.len());
        let entry = &self.bytes[self.starts[i]..end];
        let from = if entry[0] == 0 { "guest" } else { "host" };
        format!("packet {i} from {from} {}", hex::show(&entry[3..]))
    }

    /// The library gives exactly these numbers.
    pub fn library_gives(&self, numbers: &[u8]) -> Result<(), String> {
        let given = library_numbers(&self.bytes, self.len() + 8)?;
        self.compare("library", &given, numbers)
    }

    /// The oracle gives exactly these numbers.
    pub fn oracle_gives(&self, numbers: &[u8]) -> Result<(), String> {
        self.compare("oracle", &self.oracle_numbers(), numbers)
    }

    pub fn oracle_numbers(&self) -> Vec<u8> {
        let mut out = vec![UNTOUCHED; self.len()];
        let written = oracle::replay(&self.bytes, &mut out);
        out.truncate(written);
        out
    }

    fn compare(&self, who: &str, given: &[u8], numbers: &[u8]) -> Result<(), String> {
        for (i, (given, number)) in given.iter().zip(numbers).enumerate() {
            ensure(given == number, || {
                format!("{who} says {given}, not {number}, to {}", self.show(i))
            })?;
        }
        ensure(given.len() == numbers.len(), || {
            let (few, many) = (given.len(), numbers.len());
            format!("{who} gives {few} numbers for {many} packets")
        })
    }
}

/// The library's numbers for the bytes of a script, with room for so many. What it doesn't say it wrote is untouched.
pub fn library_numbers(script: &[u8], room: usize) -> Result<Vec<u8>, String> {
    let mut out = vec![UNTOUCHED; room];
    let written = library::replay(script, &mut out);
    ensure(written <= room, || {
        format!("library says it wrote {written} bytes into {room}")
    })?;
    ensure(out[written..].iter().all(|byte| *byte == UNTOUCHED), || {
        format!("library wrote past its {written} numbers")
    })?;
    out.truncate(written);
    Ok(out)
}
