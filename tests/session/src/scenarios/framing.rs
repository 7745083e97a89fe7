//! The script itself: where it is cut short, how much room the output has, what each call starts from.

use tools::ensure;

use super::*;
use crate::oracle;
use crate::packets::get_config;
use crate::script::library_numbers;

/// Hellos, a device and seven packets more, with their numbers.
fn sample() -> Play {
    device(0)
        .guest(get_config(1), 0)
        .guest(get_config(1), 31)
        .host(get_config(1), 21)
        .guest(get_config(2), 0)
        .host_hex("", 23)
        .guest_hex("", 23)
        .guest(get_config(3), 0)
}

pub fn run(report: &mut Report) {
    report.case("a script cut at every byte", cut_everywhere());
    report.case("an output of every size", every_room());
    report.case("every byte of a sender", every_sender());
    report.case("two calls in a row", two_calls());
    report.case("a packet of 65,535 bytes", longest_entry());
}

/// The library's numbers and the oracle's are both these.
fn both_give(script: &[u8], room: usize, numbers: &[u8]) -> Result<(), String> {
    let given = library_numbers(script, room)?;
    ensure(given == numbers, || {
        let (size, shown) = (script.len(), hex::show(script));
        format!(
            "library gives {given:?}, not {numbers:?}, for {size} bytes {shown} and room {room}"
        )
    })?;
    let mut out = vec![0xa5; room];
    let written = oracle::replay(script, &mut out);
    ensure(out[..written] == *numbers, || {
        format!("oracle gives {:?}, not {numbers:?}", &out[..written])
    })
}

/// So many packets are whole where the script ends after `size` bytes.
fn whole_within(play: &Play, size: usize) -> usize {
    play.script.ends().take_while(|end| *end <= size).count()
}

fn cut_everywhere() -> Result<(), String> {
    let play = sample();
    let bytes = play.script.bytes();
    for size in 0..=bytes.len() {
        let whole = whole_within(&play, size);
        both_give(&bytes[..size], 64, &play.numbers[..whole])?;
    }
    Ok(())
}

fn every_room() -> Result<(), String> {
    let play = sample();
    for room in 0..play.numbers.len() + 3 {
        let written = room.min(play.numbers.len());
        both_give(play.script.bytes(), room, &play.numbers[..written])?;
    }
    Ok(())
}

/// 0 is the guest, any other byte the host: a get config of the host is 21, one of the guest 25.
fn every_sender() -> Result<(), String> {
    let start = Play::new().hellos(0);
    for sender in 0..=255 {
        let mut script = start.script.clone();
        script.push_from(sender, &get_config(1).bytes(Side::Guest, 0));
        let number = if sender == 0 { 25 } else { 21 };
        both_give(script.bytes(), 3, &[0, 0, number])?;
    }
    Ok(())
}

/// Each call starts from a fresh session.
fn two_calls() -> Result<(), String> {
    let play = sample();
    play.check()?;
    let later = Play::new().guest(get_config(1), 11).hellos(0x20);
    later.check()?;
    play.check()
}

/// The largest entry a script can have, which is no packet, and a packet behind it.
fn longest_entry() -> Result<(), String> {
    let mut header = [7u32, 65_523, 1].map(u32::to_le_bytes).concat();
    header.resize(65_535, 0);
    let mut short = [7u32, 32_768, 1].map(u32::to_le_bytes).concat();
    short.resize(65_535, 0);
    device(0)
        .bytes(Side::Guest, &header, 10)
        .bytes(Side::Guest, &short, 23)
        .guest(get_config(1), 0)
        .check()
}
