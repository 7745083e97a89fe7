//! Scenarios with the numbers that document 01 gives for them, written out by hand: the library and the oracle have to
//! give exactly these.

mod device;
mod framing;
mod refusals;
mod replies;
mod requests;
mod settling;
mod streams;

use tools::{hex, Report};

use crate::oracle::wire::{Hellos, Side};
use crate::packets::{connect, endpoint_table, hello, interface_table, Packet, Rows};
use crate::script::Script;

// Words with which both hellos come, so that a scenario is run with ids of either width and with few and all bits.
const EVERY: &[u32] = &[0x00, 0x20, 0xdf, 0xff];
const WITH_ACK: &[u32] = &[0x08, 0x28, 0xdf, 0xff];
const WITHOUT_ACK: &[u32] = &[0x00, 0x20, 0xd7, 0xf7];
const WITH_ACK_AND_FILTER: &[u32] = &[0x0c, 0x2c, 0xdf, 0xff];
const WITH_BULK_STREAMS: &[u32] = &[0x11, 0x31, 0xdf, 0xff];
const WITH_RECEIVING: &[u32] = &[0x80, 0xa0, 0xdf, 0xff];
const WITH_STREAMS_AND_RECEIVING: &[u32] = &[0x91, 0xb1, 0xdf, 0xff];
const WITH_LONG_COUNTS: &[u32] = &[0x40, 0x60, 0xdf, 0xff];
const WITH_SHORT_COUNTS: &[u32] = &[0x00, 0x20, 0x9f, 0xbf];
const WITH_LONG_IDS: &[u32] = &[0x20, 0xff];
const NOTHING: &[u32] = &[0x00];

/// The usual device's endpoints, whose interface is 0. The low nibble tells the type, as in `Rows::usual`.
const ISO_OUT: u8 = 0x01;
const ISO_IN: u8 = 0x81;
const BULK_OUT: u8 = 0x02;
const BULK_IN: u8 = 0x82;
const INTERRUPT_OUT: u8 = 0x03;
const INTERRUPT_IN: u8 = 0x83;

/// Those whose interface is 1.
const ISO_OUT_1: u8 = 0x05;
const ISO_IN_1: u8 = 0x85;
const BULK_OUT_1: u8 = 0x06;
const BULK_IN_1: u8 = 0x86;
const INTERRUPT_OUT_1: u8 = 0x07;
const INTERRUPT_IN_1: u8 = 0x87;

/// No endpoint of the usual device.
const NO_OUT: u8 = 0x04;
const NO_IN: u8 = 0x84;

struct Scenario {
    name: &'static str,
    words: &'static [u32],
    play: fn(u32) -> Play,
}

fn scenario(name: &'static str, words: &'static [u32], play: fn(u32) -> Play) -> Scenario {
    Scenario { name, words, play }
}

pub fn run(report: &mut Report) {
    let scenarios = [
        device::scenarios(),
        requests::scenarios(),
        replies::scenarios(),
        settling::scenarios(),
        streams::scenarios(),
        refusals::scenarios(),
    ];
    for scenario in scenarios.iter().flatten() {
        for word in scenario.words {
            let name = format!("{}, word {word:02x}", scenario.name);
            report.case(&name, (scenario.play)(*word).check());
        }
    }
    framing::run(report);
}

/// Packets in order, each with the number that it has to get.
#[derive(Clone, Default)]
struct Play {
    hellos: Hellos,
    script: Script,
    numbers: Vec<u8>,
}

impl Play {
    fn new() -> Play {
        Play::default()
    }

    fn send(mut self, from: Side, packet: Packet, number: u8) -> Play {
        let bytes = packet.bytes(from, self.hellos.shared());
        if packet.kind == 0 && number == 0 {
            self.hellos.set(from, packet.first_word());
        }
        self.script.push(from, &bytes);
        self.numbers.push(number);
        self
    }

    fn guest(self, packet: Packet, number: u8) -> Play {
        self.send(Side::Guest, packet, number)
    }

    fn host(self, packet: Packet, number: u8) -> Play {
        self.send(Side::Host, packet, number)
    }

    /// Bytes as they stand; a hello among them must not pass.
    fn bytes(mut self, from: Side, bytes: &[u8], number: u8) -> Play {
        self.script.push(from, bytes);
        self.numbers.push(number);
        self
    }

    fn guest_hex(self, digits: &str, number: u8) -> Play {
        self.bytes(Side::Guest, &hex::read(digits).expect("hex digits"), number)
    }

    fn host_hex(self, digits: &str, number: u8) -> Play {
        self.bytes(Side::Host, &hex::read(digits).expect("hex digits"), number)
    }

    /// Both hellos pass.
    fn hellos(self, word: u32) -> Play {
        self.host(hello(&[word]), 0).guest(hello(&[word]), 0)
    }

    /// A device with these rows is introduced.
    fn introduce(self, rows: &Rows) -> Play {
        self.host(endpoint_table(rows), 0)
            .host(interface_table(3), 0)
            .host(connect(2), 0)
    }

    /// Each of these packets from the guest gets the number.
    fn each_guest(self, packets: impl IntoIterator<Item = Packet>, number: u8) -> Play {
        let packets = packets.into_iter();
        packets.fold(self, |play, packet| play.guest(packet, number))
    }

    fn each_host(self, packets: impl IntoIterator<Item = Packet>, number: u8) -> Play {
        let packets = packets.into_iter();
        packets.fold(self, |play, packet| play.host(packet, number))
    }

    fn check(&self) -> Result<(), String> {
        self.script.oracle_gives(&self.numbers)?;
        self.script.library_gives(&self.numbers)
    }
}

/// Both hellos with this word, and the usual device.
fn device(word: u32) -> Play {
    Play::new().hellos(word).introduce(&Rows::usual())
}
