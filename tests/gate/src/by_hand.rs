//! Scripts for the watch that are made by hand, with the bytes that it has then.

use plain::{Side, HOLD_SIZE};
use Side::{Guest, Host};

use crate::drive::{by_drive, Run};
use crate::script::{Item, Outcome, Script};
use crate::traffic::{endpoint_of, BULK, INTERRUPT, ISO};

/// Bits of a hello's word.
pub const STREAMS: u32 = 1 << 0;
pub const MAX_PACKET: u32 = 1 << 4;
const WIDE_IDS: u32 = 1 << 5;
pub const BULK_RECEIVING: u32 = 1 << 7;

/// The rows of the device, the first two of them OUT; all others but 0 and 16 are invalid.
const ROWS: [(usize, u8); 6] = [
    (1, ISO),
    (3, INTERRUPT),
    (18, ISO),
    (19, INTERRUPT),
    (20, BULK),
    (31, ISO),
];

/// A script, with the number that each call is to be answered with.
pub struct Hand {
    pub script: Script,
    pub numbers: Vec<u8>,
    /// The word that both hellos offer.
    word: u32,
    rows: Vec<(usize, u8)>,
}

/// A script, and the watch after it: rows as breaks, last gap and expected id in hex digits, least
/// significant byte first. All others are 0.
pub struct Case {
    pub name: &'static str,
    pub hand: Hand,
    pub rows: Vec<(usize, &'static str)>,
}

impl Hand {
    /// Both hellos, with bulk receiving and the width, and the device.
    pub fn new(wide: bool) -> Hand {
        Hand::with(BULK_RECEIVING | width(wide), ROWS.to_vec())
    }

    /// Both hellos with this word, and the device with these rows.
    pub fn with(word: u32, rows: Vec<(usize, u8)>) -> Hand {
        let hand = Hand {
            script: Script {
                hold_size: HOLD_SIZE,
                fill: 5,
                items: Vec::new(),
            },
            numbers: Vec::new(),
            word,
            rows,
        };
        let mut hello = [0; 68];
        hello[64..].copy_from_slice(&word.to_le_bytes());
        hand.sent(Guest, 0, 0, &hello, 0)
            .sent(Host, 0, 0, &hello, 0)
            .introduction()
    }

    pub fn introduction(self) -> Hand {
        let size = match (self.has(MAX_PACKET), self.has(STREAMS)) {
            (false, _) => 96,
            (true, false) => 160,
            (true, true) => 288,
        };
        let mut table = vec![0; size];
        table[..32].fill(255);
        table[0] = 0;
        table[16] = 0;
        for (row, kind) in &self.rows {
            table[*row] = *kind;
        }
        self.sent(Host, 5, 0, &table, 0)
            .sent(Host, 4, 0, &[0; 132], 0)
            .sent(Host, 1, 0, &[0; 8], 0)
    }

    fn has(&self, bit: u32) -> bool {
        self.word & bit != 0
    }

    pub fn disconnect(self) -> Hand {
        self.sent(Host, 2, 0, &[], 0)
    }

    /// A packet, and the number it gets.
    pub fn sent(mut self, from: Side, kind: u32, id: u64, body: &[u8], number: u8) -> Hand {
        let mut piece = kind.to_le_bytes().to_vec();
        piece.extend((body.len() as u32).to_le_bytes());
        let wide = self.has(WIDE_IDS) && kind != 0;
        let size = if wide { 8 } else { 4 };
        piece.extend(&id.to_le_bytes()[..size]);
        piece.extend(body);
        self.script.items.push(Item { from, piece });
        self.numbers.push(number);
        self
    }

    /// The last packet gets another number than 0.
    pub fn refused(mut self, number: u8) -> Hand {
        *self.numbers.last_mut().expect("a packet") = number;
        self
    }

    fn type_of(&self, row: usize) -> u8 {
        let found = self.rows.iter().find(|(of, _)| *of == row);
        found.expect("a row of the device").1
    }

    pub fn start(self, row: usize, id: u64) -> Hand {
        let endpoint = endpoint_of(row);
        match self.type_of(row) {
            ISO => self.sent(Guest, 12, id, &[endpoint, 1, 1], 0),
            BULK => self.sent(Guest, 25, id, &[0, 0, 0, 0, 64, 0, 0, 0, endpoint, 1], 0),
            _ => self.sent(Guest, 15, id, &[endpoint], 0),
        }
    }

    fn stop(self, row: usize, id: u64) -> Hand {
        let endpoint = endpoint_of(row);
        match self.type_of(row) {
            ISO => self.sent(Guest, 13, id, &[endpoint], 0),
            BULK => self.sent(Guest, 26, id, &[0, 0, 0, 0, endpoint], 0),
            _ => self.sent(Guest, 16, id, &[endpoint], 0),
        }
    }

    pub fn status(self, row: usize, id: u64, status: u8) -> Hand {
        let endpoint = endpoint_of(row);
        match self.type_of(row) {
            ISO => self.sent(Host, 14, id, &[status, endpoint], 0),
            BULK => self.sent(Host, 27, id, &[0, 0, 0, 0, endpoint, status], 0),
            _ => self.sent(Host, 17, id, &[status, endpoint], 0),
        }
    }

    /// A stream packet without data.
    pub fn data(self, row: usize, id: u64) -> Hand {
        let endpoint = endpoint_of(row);
        match self.type_of(row) {
            ISO => self.sent(Host, 102, id, &[endpoint, 0, 0, 0], 0),
            BULK => self.sent(Host, 104, id, &[0, 0, 0, 0, 0, 0, 0, 0, endpoint, 0], 0),
            _ => self.sent(Host, 103, id, &[endpoint, 0, 0, 0], 0),
        }
    }

    /// What a function of the library tells of the script; its numbers are those written down.
    pub fn told_by(&self, run: Run) -> Result<Outcome, String> {
        let told = by_drive(run, &self.script);
        let numbers: Vec<u8> = told.calls.iter().map(|call| call.number).collect();
        if numbers != self.numbers {
            return Err(format!("numbers {numbers:?}, not {:?}", self.numbers));
        }
        Ok(told)
    }

    /// The first calls of the script.
    pub fn first(&self, count: usize) -> Script {
        Script {
            items: self.script.items[..count].to_vec(),
            ..self.script
        }
    }
}

/// The bit of 64-bit ids, or none.
pub fn width(wide: bool) -> u32 {
    if wide {
        WIDE_IDS
    } else {
        0
    }
}

/// Rows 17 to 31 as iso streams, each with a break; gap and expected id have no zero byte.
pub fn all_rows() -> Hand {
    let mut hand = Hand::with(
        BULK_RECEIVING | WIDE_IDS,
        (17..32).map(|row| (row, ISO)).collect(),
    );
    for row in 17..32 {
        hand = hand.start(row, row as u64);
    }
    for row in 17..32 {
        hand = hand.data(row, 0x0102_0304_0506_0700 + row as u64);
    }
    hand
}

/// The cases.
pub fn cases() -> Vec<Case> {
    let case = |name, hand, rows: &[(usize, &'static str)]| Case {
        name,
        hand,
        rows: rows.to_vec(),
    };
    let narrow = || Hand::new(false);
    let wide = || Hand::new(true);
    vec![
        case("nothing passed", narrow(), &[]),
        case(
            "0 comes first, on a row of each type",
            narrow()
                .start(18, 7)
                .start(19, 8)
                .start(20, 9)
                .data(18, 0)
                .data(19, 0)
                .data(20, 0),
            &[
                (18, "0000 0000000000000000 0100000000000000"),
                (19, "0000 0000000000000000 0100000000000000"),
                (20, "0000 0000000000000000 0100000000000000"),
            ],
        ),
        case(
            "0 comes first, on a row of each type, 64 bits",
            wide()
                .start(18, 7)
                .start(19, 8)
                .start(20, 9)
                .data(18, 0)
                .data(19, 0)
                .data(20, 0)
                .data(20, 1),
            &[
                (18, "0000 0000000000000000 0100000000000000"),
                (19, "0000 0000000000000000 0100000000000000"),
                (20, "0000 0000000000000000 0200000000000000"),
            ],
        ),
        case(
            "another id than 0 comes first",
            narrow().start(31, 7).data(31, 3),
            &[(31, "0100 0300000000000000 0400000000000000")],
        ),
        case(
            "gaps",
            narrow()
                .start(18, 7)
                .start(19, 8)
                .start(20, 9)
                .data(18, 0)
                .data(18, 1)
                .data(18, 4)
                .data(19, 0)
                .data(19, 2)
                .data(19, 0x304)
                .data(20, 0x0908_0706)
                .data(20, 0x0908_0707),
            &[
                (18, "0100 0200000000000000 0500000000000000"),
                (19, "0200 0103000000000000 0503000000000000"),
                (20, "0100 0607080900000000 0807080900000000"),
            ],
        ),
        case(
            "a repeated id",
            narrow().start(18, 7).data(18, 0).data(18, 0),
            &[(18, "0100 ffffffff00000000 0100000000000000")],
        ),
        case(
            "a repeated id, 64 bits",
            wide().start(19, 7).data(19, 0).data(19, 0),
            &[(19, "0100 ffffffffffffffff 0100000000000000")],
        ),
        case(
            "a wrap",
            narrow()
                .start(20, 7)
                .data(20, 0xffff_fffe)
                .data(20, 0xffff_ffff)
                .data(20, 0)
                .data(20, 1),
            &[(20, "0100 feffffff00000000 0200000000000000")],
        ),
        case(
            "no wrap at 32 bits of 64",
            wide()
                .start(18, 7)
                .data(18, 0xffff_ffff)
                .data(18, 0x1_0000_0000),
            &[(18, "0100 ffffffff00000000 0100000001000000")],
        ),
        case(
            "0 where 2^32 is expected",
            wide().start(18, 7).data(18, 0xffff_ffff).data(18, 0),
            &[(18, "0200 00000000ffffffff 0100000000000000")],
        ),
        case(
            "a wrap, 64 bits",
            wide()
                .start(19, 7)
                .data(19, 0xffff_ffff_ffff_fffe)
                .data(19, 0xffff_ffff_ffff_ffff)
                .data(19, 0),
            &[(19, "0100 feffffffffffffff 0100000000000000")],
        ),
        case(
            "a gap over the wrap",
            narrow().start(18, 7).data(18, 0xffff_fffe).data(18, 5),
            &[(18, "0200 0600000000000000 0600000000000000")],
        ),
        case(
            "a gap over the wrap, 64 bits",
            wide()
                .start(18, 7)
                .data(18, 0xffff_ffff_ffff_fffe)
                .data(18, 5),
            &[(18, "0200 0600000000000000 0600000000000000")],
        ),
        case(
            "gaps of 2^31, and one more",
            narrow()
                .start(18, 7)
                .start(19, 8)
                .data(18, 0)
                .data(18, 0x8000_0001)
                .data(19, 0)
                .data(19, 0x8000_0002),
            &[
                (18, "0100 0000008000000000 0200008000000000"),
                (19, "0100 0100008000000000 0300008000000000"),
            ],
        ),
        case(
            "gaps of 2^63, one more, and 2^32",
            wide()
                .start(18, 7)
                .start(19, 8)
                .start(20, 9)
                .data(18, 0)
                .data(18, 0x8000_0000_0000_0001)
                .data(19, 0)
                .data(19, 0x8000_0000_0000_0002)
                .data(20, 0)
                .data(20, 0x1_0000_0001),
            &[
                (18, "0100 0000000000000080 0200000000000080"),
                (19, "0100 0100000000000080 0300000000000080"),
                (20, "0100 0000000001000000 0200000001000000"),
            ],
        ),
        case(
            "a start on an open stream",
            narrow()
                .start(18, 7)
                .data(18, 0)
                .data(18, 2)
                .start(18, 8)
                .data(18, 0)
                .start(19, 9)
                .data(19, 0)
                .start(19, 10),
            &[
                (18, "0100 0100000000000000 0100000000000000"),
                (19, "0000 0000000000000000 0000000000000000"),
            ],
        ),
        case(
            "status 0 to a start and to a stop",
            narrow()
                .start(18, 7)
                .data(18, 0)
                .data(18, 1)
                .status(18, 7, 0)
                .data(18, 2)
                .start(20, 8)
                .data(20, 0)
                .stop(20, 9)
                .data(20, 1)
                .status(20, 9, 0),
            &[
                (18, "0000 0000000000000000 0300000000000000"),
                (20, "0000 0000000000000000 0200000000000000"),
            ],
        ),
        case(
            "a stall to a start, to a stop, and an unasked one",
            narrow()
                .start(18, 7)
                .data(18, 4)
                .status(18, 7, 4)
                .start(19, 8)
                .data(19, 5)
                .stop(19, 9)
                .status(19, 9, 4)
                .start(20, 10)
                .data(20, 6)
                .status(20, 0, 4),
            &[
                (18, "0100 0400000000000000 0000000000000000"),
                (19, "0100 0500000000000000 0000000000000000"),
                (20, "0100 0600000000000000 0000000000000000"),
            ],
        ),
        case(
            "a stall on rows of another type: the streams stay open",
            narrow()
                .start(18, 7)
                .data(18, 0)
                .data(18, 1)
                .sent(Host, 17, 0, &[4, 0x82], 0)
                .data(18, 2)
                .start(19, 8)
                .data(19, 0)
                .sent(Host, 27, 0, &[0, 0, 0, 0, 0x83, 4], 0)
                .data(19, 0)
                .start(20, 9)
                .data(20, 0)
                .sent(Host, 14, 0, &[4, 0x84], 0),
            &[
                (18, "0100 0200000000000000 0300000000000000"),
                (19, "0000 0000000000000000 0100000000000000"),
                (20, "0000 0000000000000000 0000000000000000"),
            ],
        ),
        case(
            "a refused stall, and other statuses",
            narrow()
                .start(18, 7)
                .start(19, 8)
                .data(18, 0)
                .data(19, 0)
                .status(18, 9, 4)
                .refused(33)
                .status(18, 0, 3)
                .refused(33)
                .status(18, 0, 7)
                .refused(33)
                .status(18, 7, 5)
                .status(19, 8, 7),
            &[
                (18, "0000 0000000000000000 0100000000000000"),
                (19, "0000 0000000000000000 0100000000000000"),
            ],
        ),
        case(
            "refused data",
            narrow()
                .data(18, 3)
                .refused(30)
                .start(18, 7)
                .data(18, 0)
                .sent(Host, 103, 9, &[0x82, 0, 0, 0], 28)
                .sent(Host, 104, 9, &[0, 0, 0, 0, 0, 0, 0, 0, 0x82, 0], 28)
                .sent(Host, 102, 9, &[0x82, 0, 1, 0], 23)
                .sent(Host, 102, 9, &[0x92, 0, 0, 0], 24)
                .sent(Guest, 102, 9, &[0x82, 0, 0, 0], 24)
                .data(18, 1)
                .status(18, 7, 1)
                .data(18, 9)
                .refused(30),
            &[(18, "0000 0000000000000000 0200000000000000")],
        ),
        case(
            "a disconnect",
            narrow()
                .start(18, 7)
                .data(18, 5)
                .start(19, 8)
                .data(19, 6)
                .disconnect()
                .data(18, 6)
                .refused(25)
                .introduction()
                .data(18, 6)
                .refused(30)
                .start(18, 7)
                .data(18, 2),
            &[
                (18, "0200 0200000000000000 0300000000000000"),
                (19, "0100 0600000000000000 0000000000000000"),
            ],
        ),
        case(
            "reset, tables, setting and configuration",
            narrow()
                .start(18, 7)
                .data(18, 2)
                .introduction()
                .refused(26)
                .data(18, 3)
                .sent(Guest, 9, 8, &[0, 1], 0)
                .sent(Host, 11, 8, &[0, 0, 1], 0)
                .data(18, 9)
                .refused(30)
                .sent(Guest, 6, 8, &[1], 0)
                .sent(Host, 8, 8, &[0, 1], 0)
                .sent(Guest, 3, 8, &[], 0)
                .sent(Guest, 21, 8, &[], 0),
            &[(18, "0100 0200000000000000 0400000000000000")],
        ),
        case(
            "OUT rows, and the guest",
            narrow()
                .start(19, 7)
                .data(19, 2)
                .start(1, 8)
                .sent(Guest, 102, 9, &[1, 0, 0, 0], 0)
                .status(1, 8, 4)
                .sent(Host, 17, 0, &[4, 3], 0)
                .sent(Guest, 103, 9, &[3, 0, 1, 0, 0x55], 0)
                .sent(Host, 103, 9, &[3, 0, 1, 0], 0),
            &[(19, "0100 0200000000000000 0300000000000000")],
        ),
    ]
}
