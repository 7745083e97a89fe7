//! Those who judge the traffic: the plain gate, the proved one by each of its callers, and libusbredirparser.

use library::{record_of, RECORD};
use plain::{offer, Session, Side, HOLD_SIZE};

use crate::traffic::Traffic;

/// Reader calls in a row: for each the sender, the size of the piece in four bytes, and the piece. A piece that is not used up is
/// offered again from the first byte that was not taken.
pub struct Script {
    pub bytes: Vec<u8>,
    pub calls: usize,
    pub packets: usize,
    pub refused: usize,
}

/// The calls that the traffic makes, found out by the plain reader.
pub fn script_of(traffic: &Traffic) -> Script {
    let mut script = Script {
        bytes: Vec::new(),
        calls: 0,
        packets: 0,
        refused: 0,
    };
    let mut session = Session::new();
    let mut holds = [vec![0; HOLD_SIZE], vec![0; HOLD_SIZE]];
    for piece in &traffic.pieces {
        let mut rest = &piece.bytes[..];
        while !rest.is_empty() {
            script.bytes.push(piece.from as u8);
            script.bytes.extend((rest.len() as u32).to_le_bytes());
            script.bytes.extend(rest);
            let answer = offer(
                &mut session,
                piece.from,
                &mut holds[piece.from as usize],
                rest,
            );
            script.calls += 1;
            script.packets += usize::from(answer.number == 0);
            script.refused += usize::from(answer.number >= 10);
            if matches!(answer.number, 2 | 3) {
                break;
            }
            rest = &rest[answer.taken..];
        }
    }
    script
}

/// The proved gate, with the session's columns changed in place. Not inlined, as those below, so that each can be counted by itself.
#[inline(never)]
pub fn by_gate(script: &Script, holds: &mut [u8], out: &mut [u8]) -> usize {
    library::run(&script.bytes, holds, out)
}

/// The proved gate, with the session by value.
#[inline(never)]
pub fn by_value(script: &Script, holds: &mut [u8], out: &mut [u8]) -> usize {
    library::run_by_value(&script.bytes, holds, out)
}

/// The proved gate by its entry, with the session in a record of the caller's.
#[inline(never)]
pub fn by_entry(script: &Script, holds: &mut [u8], out: &mut [u8]) -> usize {
    library::run_by_entry(&script.bytes, holds, out)
}

/// The plain gate: the same calls, the same records.
#[inline(never)]
pub fn by_plain(script: &Script, holds: &mut [u8], out: &mut [u8]) -> usize {
    let (guest, host) = holds.split_at_mut(HOLD_SIZE);
    let mut session = Session::new();
    let mut rest = &script.bytes[..];
    let mut calls = 0;
    for record in out.chunks_exact_mut(RECORD) {
        if rest.len() < 5 {
            break;
        }
        let size = u32::from_le_bytes([rest[1], rest[2], rest[3], rest[4]]) as usize;
        let (from, hold) = if rest[0] == 0 {
            (Side::Guest, &mut *guest)
        } else {
            (Side::Host, &mut *host)
        };
        let answer = offer(&mut session, from, hold, &rest[5..5 + size]);
        record.copy_from_slice(&record_of(&answer));
        rest = &rest[5 + size..];
        calls += 1;
    }
    calls
}

#[cfg(feature = "parser")]
pub mod parser {
    use super::{Side, Traffic};

    #[repr(C)]
    struct End {
        _private: [u8; 0],
    }

    extern "C" {
        fn side_new(reads_host: i32, word: u32) -> *mut End;
        fn side_read(side: *mut End, piece: *const u8, size: usize);
        fn side_free(side: *mut End) -> usize;
    }

    /// The first capability word of a side's hello.
    fn word_of(traffic: &Traffic, from: Side) -> u32 {
        let mut sent = Vec::new();
        for piece in traffic.pieces.iter().filter(|piece| piece.from == from) {
            sent.extend(&piece.bytes);
            if sent.len() >= 80 {
                break;
            }
        }
        if sent.len() < 80 || sent[4] < 68 {
            return 0;
        }
        u32::from_le_bytes([sent[76], sent[77], sent[78], sent[79]])
    }

    /// libusbredirparser: it checks each packet's form and knows no session. Tells the packets handed out.
    pub fn by_parser(traffic: &Traffic) -> usize {
        let words = [Side::Guest, Side::Host].map(|side| word_of(traffic, side));
        // SAFETY: the two ends are used as the C file makes them and freed once; a piece comes with its size.
        unsafe {
            let ends = [side_new(0, words[1]), side_new(1, words[0])];
            for piece in &traffic.pieces {
                side_read(
                    ends[piece.from as usize],
                    piece.bytes.as_ptr(),
                    piece.bytes.len(),
                );
            }
            ends.map(|end| side_free(end)).iter().sum()
        }
    }
}
