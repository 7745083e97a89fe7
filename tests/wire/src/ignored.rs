//! "Other bits and words are ignored": hellos that differ only in them get the same number, and so does what is sent behind them.

use tools::{ensure, hex, Random, Report};

use crate::compare;
use crate::generate;
use crate::library;
use crate::oracle::{self, Link};

const BATCHES: usize = 20;
const BATCH_SIZE: usize = 1_000;

/// The bytes before a hello's words: the header and the version.
const FRONT: usize = 12 + 64;

pub fn run(seed: u64, report: &mut Report) {
    let mut random = Random::new(seed);
    let mut hellos = 0;
    for batch in 0..BATCHES {
        let name = format!("ignored bits and words, batch {batch} of seed {seed}");
        report.case(&name, run_batch(&mut random, &mut hellos));
    }
    report.case(
        "hellos with other words are met",
        ensure(hellos > 0, || "never".to_string()),
    );
}

fn run_batch(random: &mut Random, hellos: &mut usize) -> Result<(), String> {
    for _ in 0..BATCH_SIZE {
        let (link, bytes) = generate::packet(random);
        let other_link = Link {
            guest: link.guest.map(|word| with_other_bits(random, word)),
            host: link.host.map(|word| with_other_bits(random, word)),
            ..link
        };
        let other_bytes = with_other_words(random, &link, &bytes);
        *hellos += usize::from(other_bytes != bytes);
        let number = compare::with_oracle(&link, &bytes)?;
        let other = library::number(&other_link, &other_bytes);
        ensure(number == other, || {
            format!(
                "{number} on {link:?} {}, but {other} on {other_link:?} {}",
                hex::show(&bytes),
                hex::show(&other_bytes)
            )
        })?;
        compare::with_oracle(&other_link, &other_bytes)?;
    }
    Ok(())
}

/// A word with the same bits 0 to 7.
fn with_other_bits(random: &mut Random, word: u32) -> u32 {
    word & 0xff | random.word() & !0xff
}

/// A hello of the right size with other bits in its first word and other words behind it; another packet as it is.
fn with_other_words(random: &mut Random, link: &Link, bytes: &[u8]) -> Vec<u8> {
    let hello = oracle::read_header(link, bytes).is_some_and(|header| {
        header.kind == 0 && header.size + header.length as usize == bytes.len()
    });
    let sized = bytes.len() >= FRONT && bytes.len() <= FRONT + 32 && bytes.len() % 4 == 0;
    if !hello || !sized {
        return bytes.to_vec();
    }
    let mut other = bytes[..FRONT].to_vec();
    let first = bytes.get(FRONT..FRONT + 4).map_or(0, oracle::read_number);
    // without words nothing is offered, as with a first word in which bits 0 to 7 aren't set
    if first & 0xff != 0 || random.one_in(2) {
        other.extend(with_other_bits(random, first as u32).to_le_bytes());
        let count = random.below(8);
        other.extend(random.bytes(4 * count));
    }
    let length = (other.len() - 12) as u32;
    other[4..8].copy_from_slice(&length.to_le_bytes());
    other
}
