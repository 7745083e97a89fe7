//! Set config and set alt: what they hold back while they wait, and what their statuses end.

use super::*;
use crate::oracle::wire::{BULK, INTERRUPT, INVALID, ISO};
use crate::packets::*;

pub fn scenarios() -> Vec<Scenario> {
    vec![
        scenario(
            "data of the guest is held back on every row while a 6 waits",
            EVERY,
            |word| {
                device(word)
                    .guest(start_iso(1, ISO_OUT), 0)
                    .guest(start_iso(2, ISO_OUT_1), 0)
                    .guest(iso(0, ISO_OUT, 4), 0)
                    .guest(set_config(3, 1), 0)
                    .each_guest(guest_data(), 29)
                    .host(config_status(3, 1, 1), 0)
                    .each_guest(guest_data(), 0)
            },
        ),
        scenario(
            "data of the guest is held back on every row while a 9 waits",
            EVERY,
            |word| {
                device(word)
                    .guest(start_iso(1, ISO_OUT), 0)
                    .guest(start_iso(2, ISO_OUT_1), 0)
                    .guest(set_alt(3, 1, 1), 0)
                    .each_guest(guest_data(), 29)
                    .host(alt_status(3, 2, 1, 1), 0)
                    .each_guest(guest_data(), 0)
                    .guest(reset(0), 0)
                    // An interface that no row has.
                    .guest(set_alt(3, 99, 1), 0)
                    .guest(bulk(4, BULK_OUT, 4), 29)
            },
        ),
        scenario(
            "asking for a configuration or setting holds nothing back",
            EVERY,
            |word| {
                device(word)
                    .guest(start_iso(1, ISO_OUT), 0)
                    .guest(start_iso(2, ISO_OUT_1), 0)
                    .guest(get_config(3), 0)
                    .guest(get_alt(4, 0), 0)
                    .each_guest(guest_data(), 0)
            },
        ),
        scenario(
            "all other requests pass while a 6 and a 9 wait",
            WITH_STREAMS_AND_RECEIVING,
            |word| {
                device(word)
                    .guest(set_config(1, 1), 0)
                    .guest(set_alt(2, 0, 1), 0)
                    .guest(get_config(3), 0)
                    .guest(get_alt(4, 0), 0)
                    .guest(start_iso(5, ISO_IN), 0)
                    .guest(stop_iso(6, ISO_IN), 0)
                    .guest(start_interrupt(7, INTERRUPT_IN), 0)
                    .guest(stop_interrupt(8, INTERRUPT_IN), 0)
                    .guest(alloc(9, 1 << 2, 4), 0)
                    .guest(free(10, 1 << 2), 0)
                    .guest(start_bulk(11, BULK_IN, 0), 0)
                    .guest(stop_bulk(12, BULK_IN, 0), 0)
                    .guest(cancel(1), 0)
                    .guest(control(13, 0x00, 0), 29)
            },
        ),
        scenario(
            "settling comes before stream, id and places, and behind the type",
            EVERY,
            |word| {
                device(word)
                    .guest(bulk(1, BULK_OUT, 4), 0)
                    .guest(set_config(2, 1), 0)
                    .guest(iso(1, ISO_OUT, 4), 29)
                    .guest(bulk(1, BULK_OUT, 4), 29)
                    .guest(bulk(2, BULK_OUT, 4), 29)
                    .guest(iso(1, BULK_OUT, 4), 28)
                    .guest(bulk(1, ISO_OUT, 4), 28)
                    .guest(control(1, BULK_OUT, 4), 28)
                    .guest(interrupt(1, 0x00, 4), 28)
                    .each_guest((3..97).map(get_config), 0)
                    .guest(get_config(97), 32)
                    .guest(bulk(97, BULK_OUT, 4), 29)
                    .guest(control(97, 0x80, 4), 29)
                    .guest(interrupt(97, INTERRUPT_OUT, 4), 29)
                    .host(config_status(2, 1, 1), 0)
                    .guest(iso(1, ISO_OUT, 4), 30)
                    .guest(bulk(1, BULK_OUT, 4), 31)
                    .guest(bulk(97, BULK_OUT, 4), 0)
                    .guest(bulk(98, BULK_OUT, 4), 32)
            },
        ),
        scenario(
            "the host's packets pass while a 6 and a 9 wait",
            WITH_RECEIVING,
            |word| {
                device(word)
                    .guest(control(1, 0x80, 4), 0)
                    .guest(bulk(2, BULK_OUT, 4), 0)
                    .guest(interrupt(3, INTERRUPT_OUT, 4), 0)
                    .guest(start_iso(4, ISO_IN), 0)
                    .guest(start_interrupt(5, INTERRUPT_IN), 0)
                    .guest(start_bulk(6, BULK_IN, 0), 0)
                    .guest(set_config(7, 1), 0)
                    .guest(set_alt(8, 0, 1), 0)
                    .host(control(1, 0x80, 4), 0)
                    .host(bulk(2, BULK_OUT, 4), 0)
                    .host(interrupt(3, INTERRUPT_OUT, 4), 0)
                    .host(iso(0, ISO_IN, 4), 0)
                    .host(interrupt(0, INTERRUPT_IN, 4), 0)
                    .host(buffered_bulk(0, BULK_IN, 4, 0), 0)
                    .host(interface_table(1), 0)
                    .host(endpoint_table(&Rows::usual()), 0)
                    .host(iso_status(0, 4, ISO_IN_1), 0)
                    .host(iso_status(4, 0, ISO_IN), 0)
                    .host(interrupt_status(5, 0, INTERRUPT_IN), 0)
                    .host(bulk_status(6, 0, BULK_IN, 0), 0)
                    .guest(control(9, 0x80, 4), 29)
            },
        ),
        scenario("settling lasts until no 6 and no 9 waits", EVERY, |word| {
            let probe = || bulk(9, BULK_OUT, 4);
            device(word)
                .guest(set_config(1, 1), 0)
                .guest(set_alt(2, 0, 1), 0)
                .guest(set_alt(3, 0, 2), 0)
                .guest(set_config(4, 2), 0)
                .guest(probe(), 29)
                .host(config_status(1, 0, 1), 0)
                .guest(probe(), 29)
                .host(alt_status(3, 0, 0, 2), 0)
                .guest(probe(), 29)
                .host(config_status(4, 5, 1), 0)
                .guest(probe(), 29)
                .host(alt_status(2, 6, 0, 1), 0)
                .guest(probe(), 0)
        }),
        scenario(
            "status 0 to a 6 frees every data request and no other",
            WITH_STREAMS_AND_RECEIVING,
            |word| {
                device(word)
                    .guest(control(1, 0x00, 4), 0)
                    .guest(control(2, 0x80, 4), 0)
                    .guest(bulk(3, BULK_OUT, 4), 0)
                    .guest(bulk(4, BULK_IN_1, 4), 0)
                    .guest(interrupt(5, INTERRUPT_OUT, 4), 0)
                    .guest(get_config(6), 0)
                    .guest(get_alt(7, 0), 0)
                    .guest(start_iso(8, ISO_IN), 0)
                    .guest(stop_iso(9, ISO_OUT), 0)
                    .guest(start_interrupt(10, INTERRUPT_IN), 0)
                    .guest(stop_interrupt(11, INTERRUPT_IN_1), 0)
                    .guest(alloc(12, 1 << 2, 4), 0)
                    .guest(free(13, 1 << 18), 0)
                    .guest(start_bulk(14, BULK_IN, 0), 0)
                    .guest(stop_bulk(15, BULK_IN_1, 0), 0)
                    .guest(set_config(20, 1), 0)
                    .guest(set_alt(21, 0, 1), 0)
                    .guest(set_config(22, 2), 0)
                    .host(config_status(20, 0, 1), 0)
                    .host(config_status(20, 0, 1), 33)
                    .host(control(1, 0x00, 4), 33)
                    .host(control(2, 0x80, 4), 33)
                    .host(bulk(3, BULK_OUT, 4), 33)
                    .host(bulk(4, BULK_IN_1, 4), 33)
                    .host(interrupt(5, INTERRUPT_OUT, 4), 33)
                    .guest(bulk(1, BULK_OUT, 4), 29)
                    .host(config_status(6, 0, 1), 0)
                    .host(alt_status(7, 0, 0, 1), 0)
                    .host(iso_status(8, 0, ISO_IN), 0)
                    .host(iso_status(9, 0, ISO_OUT), 0)
                    .host(interrupt_status(10, 0, INTERRUPT_IN), 0)
                    .host(interrupt_status(11, 0, INTERRUPT_IN_1), 0)
                    .host(alloc_status(12, 0, 1 << 2, 4), 0)
                    .host(alloc_status(13, 0, 1 << 18, 0), 0)
                    .host(bulk_status(14, 0, BULK_IN, 0), 0)
                    .host(bulk_status(15, 0, BULK_IN_1, 0), 0)
                    .host(alt_status(21, 1, 0, 1), 0)
                    .host(config_status(22, 1, 2), 0)
                    .guest(bulk(1, BULK_OUT, 4), 0)
            },
        ),
        scenario(
            "the places that status 0 to a 6 frees are free",
            EVERY,
            |word| {
                device(word)
                    .each_guest((0..90).map(|id| bulk(id, BULK_IN, 4)), 0)
                    .each_guest((90..95).map(get_config), 0)
                    .guest(set_config(95, 1), 0)
                    .guest(get_config(96), 32)
                    .host(config_status(95, 0, 1), 0)
                    .each_guest((100..191).map(|id| control(id, 0x00, 0)), 0)
                    .guest(control(191, 0x00, 0), 32)
                    .each_host((90..95).map(|id| config_status(id, 0, 1)), 0)
            },
        ),
        scenario(
            "status 0 to a 6 frees a data request in the last place",
            EVERY,
            |word| {
                let data: [fn(u64) -> Packet; 3] = [
                    |id| control(id, 0x80, 4),
                    |id| bulk(id, BULK_OUT, 4),
                    |id| interrupt(id, INTERRUPT_OUT, 4),
                ];
                data.into_iter().fold(device(word), |play, request| {
                    play.each_guest((0..95).map(get_config), 0)
                        .guest(request(95), 0)
                        .host(config_status(17, 0, 1), 0)
                        .guest(set_config(96, 1), 0)
                        .host(config_status(96, 0, 1), 0)
                        .host(request(95), 33)
                        .guest(request(95), 0)
                        .guest(get_config(96), 0)
                        .guest(get_config(97), 32)
                        .guest(reset(0), 0)
                })
            },
        ),
        scenario(
            "status 0 to a 9 frees a data request in the last place",
            EVERY,
            |word| {
                device(word)
                    .each_guest((0..95).map(|id| get_alt(id, 0)), 0)
                    .guest(bulk(95, BULK_OUT, 4), 0)
                    .host(alt_status(0, 0, 0, 1), 0)
                    .guest(set_alt(0, 0, 1), 0)
                    .host(alt_status(0, 0, 0, 1), 0)
                    .host(bulk(95, BULK_OUT, 4), 33)
                    .each_guest((200..202).map(get_config), 0)
                    .guest(get_config(202), 32)
            },
        ),
        scenario(
            "a place that a data request has left is as new",
            EVERY,
            |word| {
                device(word)
                    .guest(bulk(1, BULK_OUT, 4), 0)
                    .host(bulk(1, BULK_OUT, 4), 0)
                    .guest(get_config(2), 0)
                    .guest(set_config(3, 1), 0)
                    .host(config_status(3, 0, 1), 0)
                    .guest(get_alt(4, 0), 0)
                    .guest(bulk(5, BULK_OUT, 4), 0)
                    .host(config_status(2, 0, 1), 0)
                    .host(alt_status(4, 0, 0, 1), 0)
                    .host(bulk(5, BULK_OUT, 4), 0)
                    // Behind a reset, and a status 0 to a 9.
                    .guest(bulk(1, BULK_OUT, 100), 0)
                    .guest(reset(0), 0)
                    .guest(start_interrupt(6, INTERRUPT_IN), 0)
                    .guest(set_alt(7, 0, 1), 0)
                    .host(alt_status(7, 0, 0, 1), 0)
                    .host(interrupt_status(6, 0, INTERRUPT_IN), 0)
                    .guest(bulk(8, BULK_OUT, 0), 0)
                    .host(bulk(8, BULK_OUT, 1), 34)
            },
        ),
        scenario(
            "another status, or one to a 7, frees and closes nothing more",
            WITH_RECEIVING,
            |word| {
                let start = device(word)
                    .guest(bulk(1, BULK_OUT, 4), 0)
                    .guest(control(2, 0x80, 4), 0)
                    .guest(start_iso(3, ISO_IN), 0)
                    .guest(start_bulk(4, BULK_IN, 0), 0)
                    .guest(get_config(5), 0)
                    .host(config_status(5, 0, 1), 0)
                    .host(iso(0, ISO_IN, 4), 0)
                    .guest(get_alt(5, 0), 0)
                    .host(alt_status(5, 0, 0, 1), 0)
                    .host(iso(0, ISO_IN, 4), 0);
                (1..=6)
                    .fold(start, |play, status| {
                        play.guest(set_config(5, 1), 0)
                            .host(config_status(5, status, 1), 0)
                            .guest(set_alt(5, 0, 1), 0)
                            .host(alt_status(5, status, 0, 1), 0)
                            .host(iso(0, ISO_IN, 4), 0)
                            .host(buffered_bulk(0, BULK_IN, 4, 0), 0)
                    })
                    .host(bulk(1, BULK_OUT, 4), 0)
                    .host(control(2, 0x80, 4), 0)
            },
        ),
        scenario(
            "status 0 to a 6 closes the streams of all rows",
            WITH_RECEIVING,
            |word| {
                let all = |row_type| {
                    (1..16).fold(Rows::bare(), |rows, number: u8| {
                        rows.with(number, row_type, number)
                            .with(number | 0x80, row_type, number)
                    })
                };
                let outs = || (1u64..16).zip(0x01..0x10u8);
                let ins = || (101u64..116).zip(0x81..0x90u8);
                let settle = |play: Play| {
                    play.guest(set_config(200, 1), 0)
                        .host(config_status(200, 0, 1), 0)
                };
                let isos = Play::new()
                    .hellos(word)
                    .introduce(&all(ISO))
                    .each_guest(outs().map(|(id, e)| start_iso(id, e)), 0)
                    .each_guest(ins().map(|(id, e)| start_iso(id, e)), 0)
                    .each_guest(outs().map(|(id, e)| iso(id, e, 1)), 0)
                    .each_host(ins().map(|(id, e)| iso(id, e, 1)), 0);
                let interrupts = settle(isos)
                    .each_guest(outs().map(|(id, e)| iso(id, e, 1)), 30)
                    .each_host(ins().map(|(id, e)| iso(id, e, 1)), 30)
                    .guest(reset(0), 0)
                    .host(endpoint_table(&all(INTERRUPT)), 0)
                    .each_guest(ins().map(|(id, e)| start_interrupt(id, e)), 0)
                    .each_host(ins().map(|(id, e)| interrupt(id, e, 1)), 0);
                let bulks = settle(interrupts)
                    .each_host(ins().map(|(id, e)| interrupt(id, e, 1)), 30)
                    .guest(reset(0), 0)
                    .host(endpoint_table(&all(BULK)), 0)
                    .each_guest(ins().map(|(id, e)| start_bulk(id, e, 0)), 0)
                    .each_host(ins().map(|(id, e)| buffered_bulk(id, e, 1, 0)), 0);
                settle(bulks).each_host(ins().map(|(id, e)| buffered_bulk(id, e, 1, 0)), 30)
            },
        ),
        scenario(
            "status 0 to a 9 frees and closes the rows of its interface",
            WITH_RECEIVING,
            |word| {
                device(word)
                    .guest(bulk(1, BULK_OUT, 4), 0)
                    .guest(bulk(2, BULK_IN, 4), 0)
                    .guest(interrupt(3, INTERRUPT_OUT, 4), 0)
                    .guest(bulk(4, BULK_OUT_1, 4), 0)
                    .guest(bulk(5, BULK_IN_1, 4), 0)
                    .guest(interrupt(6, INTERRUPT_OUT_1, 4), 0)
                    // Rows 0 and 16, whose interface is 0 in the table.
                    .guest(control(7, 0x00, 4), 0)
                    .guest(control(8, 0x80, 4), 0)
                    .guest(start_iso(9, ISO_IN), 0)
                    .guest(start_iso(10, ISO_OUT), 0)
                    .guest(start_interrupt(11, INTERRUPT_IN), 0)
                    .guest(start_bulk(12, BULK_IN, 0), 0)
                    .guest(start_iso(13, ISO_IN_1), 0)
                    .guest(start_iso(14, ISO_OUT_1), 0)
                    .guest(start_interrupt(15, INTERRUPT_IN_1), 0)
                    .guest(start_bulk(16, BULK_IN_1, 0), 0)
                    .guest(set_alt(20, 0, 1), 0)
                    .host(alt_status(20, 0, 0, 1), 0)
                    .host(bulk(1, BULK_OUT, 4), 33)
                    .host(bulk(2, BULK_IN, 4), 33)
                    .host(interrupt(3, INTERRUPT_OUT, 4), 33)
                    .host(iso(0, ISO_IN, 4), 30)
                    .guest(iso(0, ISO_OUT, 4), 30)
                    .host(interrupt(0, INTERRUPT_IN, 4), 30)
                    .host(buffered_bulk(0, BULK_IN, 4, 0), 30)
                    .host(iso(0, ISO_IN_1, 4), 0)
                    .guest(iso(0, ISO_OUT_1, 4), 0)
                    .host(interrupt(0, INTERRUPT_IN_1, 4), 0)
                    .host(buffered_bulk(0, BULK_IN_1, 4, 0), 0)
                    .host(bulk(4, BULK_OUT_1, 4), 0)
                    .host(bulk(5, BULK_IN_1, 4), 0)
                    .host(interrupt(6, INTERRUPT_OUT_1, 4), 0)
                    .host(control(7, 0x00, 4), 0)
                    .host(control(8, 0x80, 4), 0)
                    // The starts are live: no data requests.
                    .guest(get_config(9), 31)
                    .host(iso_status(9, 1, ISO_IN), 0)
                    .host(iso_status(10, 1, ISO_OUT), 0)
                    .host(interrupt_status(11, 1, INTERRUPT_IN), 0)
                    .host(bulk_status(12, 1, BULK_IN, 0), 0)
            },
        ),
        scenario(
            "status 0 to a 9 goes by the table of the moment",
            EVERY,
            |word| {
                let moved = Rows::usual()
                    .with(BULK_OUT, BULK, 5)
                    .with(BULK_IN, BULK, 0)
                    .with(BULK_OUT_1, BULK, 0)
                    .with(ISO_IN, ISO, 5)
                    .with(ISO_IN_1, ISO, 0);
                device(word)
                    .guest(bulk(1, BULK_OUT, 4), 0)
                    .guest(bulk(2, BULK_IN, 4), 0)
                    .guest(bulk(3, BULK_OUT_1, 4), 0)
                    .guest(start_iso(4, ISO_IN), 0)
                    .guest(start_iso(5, ISO_IN_1), 0)
                    .guest(set_alt(6, 0, 1), 0)
                    .host(endpoint_table(&moved), 0)
                    .host(alt_status(6, 0, 0, 1), 0)
                    .host(bulk(1, BULK_OUT, 4), 0)
                    .host(bulk(2, BULK_IN, 4), 33)
                    .host(bulk(3, BULK_OUT_1, 4), 33)
                    .host(iso(0, ISO_IN, 4), 0)
                    .host(iso(0, ISO_IN_1, 4), 30)
            },
        ),
        scenario(
            "status 0 to a 9 compares interfaces in all bits",
            EVERY,
            |word| {
                let rows = Rows::usual()
                    .with(BULK_OUT, BULK, 0x80)
                    .with(BULK_IN, BULK, 0x81)
                    .with(ISO_IN, ISO, 0x80);
                device(word)
                    .host(endpoint_table(&rows), 0)
                    .guest(bulk(1, BULK_OUT, 4), 0)
                    .guest(bulk(2, BULK_IN, 4), 0)
                    .guest(bulk(3, BULK_OUT_1, 4), 0)
                    .guest(interrupt(4, INTERRUPT_OUT, 4), 0)
                    .guest(start_iso(5, ISO_IN), 0)
                    .guest(start_iso(6, ISO_OUT), 0)
                    .guest(set_alt(7, 0x80, 1), 0)
                    .host(alt_status(7, 0, 0x80, 1), 0)
                    .host(bulk(1, BULK_OUT, 4), 33)
                    .host(bulk(2, BULK_IN, 4), 0)
                    .host(bulk(3, BULK_OUT_1, 4), 0)
                    .host(interrupt(4, INTERRUPT_OUT, 4), 0)
                    .host(iso(0, ISO_IN, 4), 30)
                    .guest(iso(0, ISO_OUT, 4), 0)
            },
        ),
        scenario("status 0 to a 9 counts invalid rows in", EVERY, |word| {
            let invalid = Rows::usual()
                .with(BULK_OUT, INVALID, 0)
                .with(BULK_OUT_1, INVALID, 1);
            device(word)
                .guest(bulk(1, BULK_OUT, 4), 0)
                .guest(bulk(2, BULK_OUT_1, 4), 0)
                .guest(set_alt(3, 0, 1), 0)
                .host(endpoint_table(&invalid), 0)
                .host(alt_status(3, 0, 0, 1), 0)
                .host(bulk(1, BULK_OUT, 4), 33)
                .host(bulk(2, BULK_OUT_1, 4), 0)
        }),
        scenario(
            "status 0 to a 9 spares control requests on rows 0 and 16 alone",
            EVERY,
            |word| {
                let control_4 = Rows::usual().with(NO_OUT, 0, 0).with(NO_IN, 0, 0);
                device(word)
                    .host(endpoint_table(&control_4), 0)
                    .guest(control(1, 0x00, 4), 0)
                    .guest(control(2, 0x80, 4), 0)
                    .guest(control(3, NO_OUT, 4), 0)
                    .guest(control(4, NO_IN, 4), 0)
                    .guest(set_alt(5, 0, 1), 0)
                    .host(alt_status(5, 0, 0, 1), 0)
                    .host(control(3, NO_OUT, 4), 33)
                    .host(control(4, NO_IN, 4), 33)
                    .host(control(1, 0x00, 4), 0)
                    .host(control(2, 0x80, 4), 0)
            },
        ),
        scenario(
            "a start that waits across a status 0 to a 6 or 9 opens its stream again",
            EVERY,
            |word| {
                device(word)
                    .guest(start_iso(1, ISO_IN), 0)
                    .guest(set_config(2, 1), 0)
                    .host(iso(0, ISO_IN, 4), 0)
                    .host(config_status(2, 0, 1), 0)
                    .host(iso(0, ISO_IN, 4), 30)
                    .host(iso_status(1, 0, ISO_IN), 0)
                    .host(iso(0, ISO_IN, 4), 0)
                    .guest(start_interrupt(3, INTERRUPT_IN), 0)
                    .guest(set_alt(4, 0, 1), 0)
                    .host(alt_status(4, 0, 0, 1), 0)
                    .host(interrupt(0, INTERRUPT_IN, 4), 30)
                    .host(iso(0, ISO_IN, 4), 30)
                    .host(interrupt_status(3, 0, INTERRUPT_IN), 0)
                    .host(interrupt(0, INTERRUPT_IN, 4), 0)
                    .host(iso(0, ISO_IN, 4), 30)
            },
        ),
    ]
}

/// Data of every kind from the guest on rows of interfaces 0 and 1. Ids from 50 on, but for iso, whose id is any.
fn guest_data() -> Vec<Packet> {
    vec![
        control(50, 0x00, 4),
        control(51, 0x80, 4),
        bulk(52, BULK_OUT, 4),
        bulk(53, BULK_IN, 4),
        bulk(54, BULK_OUT_1, 4),
        interrupt(55, INTERRUPT_OUT, 4),
        interrupt(56, INTERRUPT_OUT_1, 4),
        iso(57, ISO_OUT, 4),
        iso(3, ISO_OUT_1, 4),
    ]
}
