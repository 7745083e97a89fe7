//! The proved gate as a Rust function, and captures as pieces: what the tests of the gate and the benchmark share.

use plain::{Answer, Place, Session, Side, IN_ROWS};
use tools::captures;

/// What the archives of the proved gate export: the gate by each of its callers.
type Export = unsafe extern "C" fn(
    script: *const u8,
    script_size: usize,
    holds: *mut u8,
    holds_size: usize,
    out: *mut u8,
    out_size: usize,
) -> usize;

mod archive {
    macro_rules! exports {
        ($($name:ident),*) => {
            extern "C" {
                $(pub fn $name(
                    script: *const u8,
                    script_size: usize,
                    holds: *mut u8,
                    holds_size: usize,
                    out: *mut u8,
                    out_size: usize,
                ) -> usize;)*
            }
        };
    }

    exports!(test_drive, test_drive_by_value, drive_by_entry);
}

/// Bytes that the library writes for each call.
pub const RECORD: usize = 26;

/// Bytes that the library writes for the watch of an IN row: its breaks (2), its last gap (8) and the id that it expects (8).
pub const ROW_WATCH: usize = 18;

/// Bytes of the whole watch.
pub const WATCH: usize = IN_ROWS * ROW_WATCH;

/// Runs a script's bytes, and tells how many calls were made. The guest's holding buffer is the first half of `holds`, the host's the second. Behind
/// the records stands the watch after all calls, as far as the output goes.
pub type Run = fn(script: &[u8], holds: &mut [u8], out: &mut [u8]) -> usize;

fn call(export: Export, script: &[u8], holds: &mut [u8], out: &mut [u8]) -> usize {
    // SAFETY: each pointer comes with the size of the slice it is taken from, and the slices that
    // are written are borrowed alone.
    unsafe {
        export(
            script.as_ptr(),
            script.len(),
            holds.as_mut_ptr(),
            holds.len(),
            out.as_mut_ptr(),
            out.len(),
        )
    }
}

/// With the session's columns kept, and changed in place.
pub fn run(script: &[u8], holds: &mut [u8], out: &mut [u8]) -> usize {
    call(archive::test_drive, script, holds, out)
}

/// With the session by value through each call.
pub fn run_by_value(script: &[u8], holds: &mut [u8], out: &mut [u8]) -> usize {
    call(archive::test_drive_by_value, script, holds, out)
}

/// With the session in a record that the entry changes in place.
pub fn run_by_entry(script: &[u8], holds: &mut [u8], out: &mut [u8]) -> usize {
    call(archive::drive_by_entry, script, holds, out)
}

/// The record of a call of the plain gate, as the library writes one: number, place, taken, size, where
/// the data starts and ends among the packet's bytes, id.
pub fn record_of(answer: &Answer) -> [u8; RECORD] {
    let (start, end, id) = match &answer.handed {
        Some(handed) => (handed.data.start as u32, handed.data.end as u32, handed.id),
        None => (0, 0, 0),
    };
    let mut record = [0; RECORD];
    record[0] = answer.number;
    record[1] = match answer.place {
        Place::Nowhere => 0,
        Place::Piece => 1,
        Place::Buffer => 2,
    };
    record[2..6].copy_from_slice(&(answer.taken as u32).to_le_bytes());
    record[6..10].copy_from_slice(&(answer.size as u32).to_le_bytes());
    record[10..14].copy_from_slice(&start.to_le_bytes());
    record[14..18].copy_from_slice(&end.to_le_bytes());
    record[18..26].copy_from_slice(&id.to_le_bytes());
    record
}

/// The watch of the plain gate, as the library writes it.
pub fn watch_of(session: &Session) -> [u8; WATCH] {
    let mut bytes = [0; WATCH];
    for (row, watch) in bytes.chunks_exact_mut(ROW_WATCH).zip(session.watch()) {
        row[..2].copy_from_slice(&watch.breaks.to_le_bytes());
        row[2..10].copy_from_slice(&watch.last_gap.to_le_bytes());
        row[10..].copy_from_slice(&watch.expected.to_le_bytes());
    }
    bytes
}

/// The pieces of a capture.
pub fn pieces(text: &str) -> impl Iterator<Item = (Side, Vec<u8>)> + '_ {
    captures::pieces(text).map(|piece| {
        let (from_guest, bytes) = piece.expect("a capture");
        let from = if from_guest { Side::Guest } else { Side::Host };
        (from, bytes)
    })
}
