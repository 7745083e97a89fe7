//! Requests: the types of their rows, their ids, their places.

use super::*;
use crate::oracle::wire::{BULK, INTERRUPT, ISO};
use crate::packets::*;

pub fn scenarios() -> Vec<Scenario> {
    vec![
        scenario("M5: a bulk request's reply comes once", NOTHING, |word| {
            let reply = "65000000 08000000 09000000 02 00 0200 00000000";
            device(word)
                .guest_hex("65000000 0a000000 09000000 02 00 0200 00000000 aabb", 0)
                .host_hex(reply, 0)
                .host_hex(reply, 33)
        }),
        scenario("M5 with other words", EVERY, |word| {
            device(word)
                .guest(bulk(9, BULK_OUT, 2), 0)
                .host(bulk(9, BULK_OUT, 2), 0)
                .host(bulk(9, BULK_OUT, 2), 33)
                .guest(bulk(9, BULK_OUT, 2), 0)
                .host(bulk(9, BULK_OUT, 2), 0)
        }),
        scenario(
            "M11: request 97 has no place until one is answered",
            EVERY,
            |word| {
                device(word)
                    .each_guest((0..96).map(|id| bulk(id, BULK_OUT, 2)), 0)
                    .guest(bulk(96, BULK_OUT, 2), 32)
                    .host(bulk(96, BULK_OUT, 2), 33)
                    .guest(bulk(96, BULK_OUT, 2), 32)
                    .host(bulk(40, BULK_OUT, 2), 0)
                    .guest(bulk(96, BULK_OUT, 2), 0)
                    .guest(bulk(97, BULK_OUT, 2), 32)
                    .host(bulk(96, BULK_OUT, 2), 0)
            },
        ),
        scenario(
            "every kind of request takes a place",
            WITH_STREAMS_AND_RECEIVING,
            |word| {
                // Fifteen kinds six times are 90, and six more. Data comes first, as it can't behind a 6 or a 9.
                (0..6)
                    .fold(device(word), |play, n| play.each_guest(data_requests(n), 0))
                    .each_guest((0..6).flat_map(plain_requests), 0)
                    .each_guest((90..96).map(get_config), 0)
                    .each_guest(plain_requests(9), 32)
                    .host(config_status(95, 0, 1), 0)
                    .guest(start_iso(99, ISO_IN_1), 0)
                    .each_guest(plain_requests(9), 32)
            },
        ),
        scenario(
            "data requests get 32, and an id in use comes before it",
            WITH_STREAMS_AND_RECEIVING,
            |word| {
                device(word)
                    .each_guest((0..96).map(|id| get_alt(id, 0)), 0)
                    .each_guest(data_requests(9), 32)
                    .each_guest(plain_requests(9), 32)
                    .guest(get_config(95), 31)
                    .guest(bulk(0, BULK_IN, 8), 31)
                    .guest(iso(3, ISO_OUT, 3), 30)
                    .guest(cancel(200), 0)
            },
        ),
        scenario("a refused packet takes no place", EVERY, |word| {
            let start = device(word).each_guest((0..95).map(get_config), 0);
            (0..50)
                .fold(start, |play, n| {
                    play.guest(bulk(200, ISO_OUT, 2), 28)
                        .guest(get_config(n), 31)
                        .guest(bulk(200, 0x12, 2), 24)
                        .host(config_status(200, 0, 1), 33)
                        .host(get_config(200), 21)
                })
                .guest(get_config(200), 0)
                .guest(get_config(201), 32)
        }),
        scenario(
            "no request may have the id of a live one, whatever its kind",
            WITH_STREAMS_AND_RECEIVING,
            |word| {
                device(word)
                    .guest(start_iso(6, ISO_OUT), 0)
                    .guest(get_config(5), 0)
                    .each_guest(data_requests(0).map(|p| p.with_id(5)), 31)
                    .each_guest(plain_requests(0).map(|p| p.with_id(5)), 31)
                    .guest(iso(5, ISO_OUT, 4), 0)
                    .guest(cancel(5), 0)
                    .guest(reset(5), 0)
                    .guest(get_config(5), 0)
            },
        ),
        scenario(
            "the id of every kind of request is in use while it lives",
            WITH_STREAMS_AND_RECEIVING,
            |word| {
                data_requests(0).into_iter().chain(plain_requests(0)).fold(
                    device(word),
                    |play, request| {
                        play.guest(request.with_id(77), 0)
                            .guest(get_config(77), 31)
                            .guest(get_alt(77, 9), 31)
                            .guest(reset(0), 0)
                    },
                )
            },
        ),
        scenario(
            "ids are told apart in all their bits",
            WITH_LONG_IDS,
            |word| {
                device(word)
                    .guest(get_config(1), 0)
                    .guest(get_config(1 | 1 << 32), 0)
                    .guest(get_config(1 | 1 << 63), 0)
                    .guest(get_config(1 | 1 << 32), 31)
                    .host(config_status(1 | 1 << 33, 0, 1), 33)
                    .host(config_status(1 | 1 << 32, 0, 1), 0)
                    .host(config_status(1 | 1 << 32, 0, 1), 33)
                    .host(config_status(1, 0, 1), 0)
                    .host(config_status(1 | 1 << 63, 0, 1), 0)
            },
        ),
        scenario("an id answered is free again", EVERY, |word| {
            (0..200).fold(device(word), |play, _| {
                play.guest(bulk(0xffff_ffff, BULK_IN, 3), 0)
                    .host(bulk(0xffff_ffff, BULK_IN, 3), 0)
            })
        }),
        scenario(
            "kinds of the guest want rows of their type",
            WITH_RECEIVING,
            |word| {
                const OUT: [u8; 5] = [0x00, ISO_OUT, BULK_OUT, INTERRUPT_OUT, NO_OUT];
                const IN: [u8; 5] = [0x80, ISO_IN, BULK_IN, INTERRUPT_IN, NO_IN];
                let wrong = |right: u8| {
                    let of_number = move |e: &u8| e & 0x0f != right & 0x0f;
                    OUT.into_iter().chain(IN).filter(of_number)
                };
                let wrong_out = move |right: u8| wrong(right).filter(|e| e & 0x80 == 0);
                let wrong_in = move |right: u8| wrong(right).filter(|e| e & 0x80 != 0);
                device(word)
                    .each_guest(wrong(ISO_IN).map(|e| start_iso(1, e)), 28)
                    .each_guest(wrong(ISO_IN).map(|e| stop_iso(1, e)), 28)
                    .each_guest(wrong_in(INTERRUPT_IN).map(|e| start_interrupt(1, e)), 28)
                    .each_guest(wrong_in(INTERRUPT_IN).map(|e| stop_interrupt(1, e)), 28)
                    .each_guest(wrong_in(BULK_IN).map(|e| start_bulk(1, e, 0)), 28)
                    .each_guest(wrong_in(BULK_IN).map(|e| stop_bulk(1, e, 0)), 28)
                    .each_guest(wrong(0x00).map(|e| control(1, e, 2)), 28)
                    .each_guest(wrong(BULK_IN).map(|e| bulk(1, e, 2)), 28)
                    .each_guest(wrong_out(ISO_OUT).map(|e| iso(1, e, 2)), 28)
                    .each_guest(wrong_out(INTERRUPT_OUT).map(|e| interrupt(1, e, 2)), 28)
                    // The right ones, one of each.
                    .guest(start_iso(1, ISO_IN), 0)
                    .guest(start_iso(2, ISO_OUT), 0)
                    .guest(stop_iso(3, ISO_IN), 0)
                    .guest(start_interrupt(4, INTERRUPT_IN), 0)
                    .guest(stop_interrupt(5, INTERRUPT_IN), 0)
                    .guest(start_bulk(6, BULK_IN, 0), 0)
                    .guest(stop_bulk(7, BULK_IN, 0), 0)
                    .guest(control(8, 0x00, 2), 0)
                    .guest(control(9, 0x80, 2), 0)
                    .guest(bulk(10, BULK_OUT, 2), 0)
                    .guest(bulk(11, BULK_IN, 2), 0)
                    .guest(iso(12, ISO_OUT, 2), 0)
                    .guest(interrupt(13, INTERRUPT_OUT, 2), 0)
            },
        ),
        scenario(
            "stream data of the host wants rows of its type",
            WITH_RECEIVING,
            |word| {
                device(word)
                    .guest(start_iso(1, ISO_IN), 0)
                    .guest(start_interrupt(2, INTERRUPT_IN), 0)
                    .guest(start_bulk(3, BULK_IN, 0), 0)
                    .each_host(
                        [0x80, BULK_IN, INTERRUPT_IN, NO_IN].map(|e| iso(0, e, 2)),
                        28,
                    )
                    .each_host(
                        [0x80, BULK_IN, ISO_IN, NO_IN].map(|e| interrupt(0, e, 2)),
                        28,
                    )
                    .each_host(
                        [0x80, INTERRUPT_IN, ISO_IN, NO_IN].map(|e| buffered_bulk(0, e, 2, 0)),
                        28,
                    )
                    .host(iso(0, ISO_IN, 2), 0)
                    .host(interrupt(0, INTERRUPT_IN, 2), 0)
                    .host(buffered_bulk(0, BULK_IN, 2, 0), 0)
            },
        ),
        scenario("every row of a mask is bulk", WITH_BULK_STREAMS, |word| {
            const BULKS: u32 = 1 << 2 | 1 << 18 | 1 << 6 | 1 << 22 | 1 << 15 | 1 << 31;
            let others = |row: &u32| BULKS >> row & 1 == 0;
            device(word)
                .each_guest((0..32).filter(others).map(|row| alloc(1, 1 << row, 4)), 28)
                .each_guest((0..32).filter(others).map(|row| free(1, 1 << row)), 28)
                .each_guest(
                    (0..32)
                        .filter(others)
                        .map(|row| alloc(1, BULKS | 1 << row, 4)),
                    28,
                )
                .each_guest(
                    (0..32).filter(others).map(|row| free(1, BULKS | 1 << row)),
                    28,
                )
                .guest(alloc(1, 0, 4), 24)
                .guest(free(1, 0), 24)
                .guest(alloc(1, u32::MAX, 4), 28)
                .guest(alloc(1, BULKS, 4), 0)
                .guest(free(2, BULKS), 0)
                .guest(alloc(3, 1 << 31, 4), 0)
                .guest(free(4, 1 << 2), 0)
                .host(endpoint_table(&Rows::usual().with(0x8f, ISO, 2)), 0)
                .guest(alloc(5, 1 << 31, 4), 28)
                .guest(alloc(5, BULKS, 4), 28)
                .guest(free(5, BULKS), 28)
                .guest(free(5, BULKS & !(1 << 31)), 0)
        }),
        scenario(
            "rows 15 and 31 are rows like others",
            WITH_RECEIVING,
            |word| {
                let rows = Rows::bare().with(0x0f, ISO, 0).with(0x8f, INTERRUPT, 0);
                device(word)
                    .guest(bulk(1, 0x0f, 2), 0)
                    .guest(start_bulk(2, 0x8f, 0), 0)
                    .host(buffered_bulk(3, 0x8f, 5, 0), 0)
                    .host(endpoint_table(&rows), 0)
                    .guest(start_iso(3, 0x0f), 0)
                    .guest(iso(3, 0x0f, 5), 0)
                    .guest(start_iso(4, 0x8f), 28)
                    .host(interrupt(3, 0x8f, 5), 30)
                    .guest(start_interrupt(4, 0x8f), 0)
                    .host(interrupt(3, 0x8f, 5), 0)
                    .host(endpoint_table(&rows.with(0x8f, BULK, 0)), 0)
                    .host(buffered_bulk(3, 0x8f, 5, 0), 30)
                    .guest(iso(3, 0x0f, 5), 0)
            },
        ),
        scenario("nothing ties an interface to the tables", EVERY, |word| {
            device(word)
                .host(interface_table(0), 0)
                .guest(get_alt(1, 255), 0)
                .guest(get_alt(2, 77), 0)
                .guest(set_alt(3, 200, 9), 0)
                .host(alt_status(1, 0, 255, 0), 0)
                .host(alt_status(2, 3, 77, 0), 0)
                .host(alt_status(3, 0, 200, 9), 0)
        }),
    ]
}

/// A request of each data kind, with ids of their own for each n.
fn data_requests(n: u64) -> [Packet; 3] {
    let id = 1_000 + 100 * n;
    [
        control(id, 0x80, 8),
        bulk(id + 1, BULK_OUT, 8),
        interrupt(id + 2, INTERRUPT_OUT, 8),
    ]
}

/// A request of each other kind.
fn plain_requests(n: u64) -> [Packet; 12] {
    let id = 1_010 + 100 * n;
    [
        set_config(id, 1),
        get_config(id + 1),
        set_alt(id + 2, 0, 1),
        get_alt(id + 3, 0),
        start_iso(id + 4, ISO_OUT),
        stop_iso(id + 5, ISO_IN),
        start_interrupt(id + 6, INTERRUPT_IN),
        stop_interrupt(id + 7, INTERRUPT_IN),
        alloc(id + 8, 1 << 2, 4),
        free(id + 9, 1 << 2),
        start_bulk(id + 10, BULK_IN, 0),
        stop_bulk(id + 11, BULK_IN, 0),
    ]
}
