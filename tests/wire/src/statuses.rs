//! "every status byte is allowed": each of the 256 bytes in each kind that has a status, from each end that may send it, with
//! both sizes of a header. The packet passes, its status is read as it was sent, and it is written again as it was.

use tools::{ensure, hex, Random, Report};

use crate::compare;
use crate::generate;
use crate::library;
use crate::oracle::{self, Link};

/// The kinds, with the place of the status in the body and among the fields.
const STATUSES: [(u32, usize, usize); 11] = [
    (8, 0, 0),
    (11, 0, 0),
    (14, 0, 0),
    (17, 0, 0),
    (20, 8, 2),
    (27, 5, 2),
    (100, 3, 3),
    (101, 1, 1),
    (102, 1, 1),
    (103, 1, 1),
    (104, 9, 3),
];

pub fn run(seed: u64, report: &mut Report) {
    let mut random = Random::new(seed);
    for (kind, at, index) in STATUSES {
        for from_guest in [true, false] {
            let name = format!("every status byte, kind {kind}, from guest {from_guest}");
            let known = oracle::kind_of(kind).expect("a known kind");
            if known.may_come(from_guest) {
                for word in [known.needs, known.needs | 0x20, 0xff] {
                    let link = Link {
                        from_guest,
                        guest: Some(word),
                        host: Some(word),
                    };
                    let bytes = generate::passing(&mut random, &link, known);
                    report.case(&name, every_byte(&link, bytes, kind, at, index));
                }
            }
        }
    }
}

fn every_byte(
    link: &Link,
    mut bytes: Vec<u8>,
    kind: u32,
    at: usize,
    index: usize,
) -> Result<(), String> {
    let at = link.header_size(kind) + at;
    for status in 0..=255 {
        bytes[at] = status;
        let number = compare::with_oracle(link, &bytes)?;
        let read = library::field(link, &bytes, index);
        ensure(number == 0 && read == u64::from(status), || {
            format!(
                "number {number}, status {read} on {link:?} {}",
                hex::show(&bytes)
            )
        })?;
    }
    Ok(())
}
