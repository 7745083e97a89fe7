//! Document 01's rules of one packet and of a session, read for themselves: what the library is measured with.
//!
//! Sentences in quotation marks are document 01's; where it leaves room, docs/DECISIONS.md has the reading.

pub mod session;
pub mod wire;

use session::Session;
use wire::Side;

/// Who sends: "0 guest, any other value host".
fn side(byte: u8) -> Side {
    if byte == 0 {
        Side::Guest
    } else {
        Side::Host
    }
}

/// The numbers of the packets of a script, from a fresh session on; how many were written.
///
/// A script is a list of packets, each a byte for its sender, two bytes for its size, least significant first, and its
/// bytes. The list ends where it is cut short or `out` is full.
pub fn replay(script: &[u8], out: &mut [u8]) -> usize {
    let mut session = Session::new();
    let mut rest = script;
    let mut written = 0;
    while let [sender, low, high, after @ ..] = rest {
        let size = usize::from(u16::from_le_bytes([*low, *high]));
        if after.len() < size || written == out.len() {
            break;
        }
        let (bytes, later) = after.split_at(size);
        out[written] = session.judge(side(*sender), bytes);
        written += 1;
        rest = later;
    }
    written
}
