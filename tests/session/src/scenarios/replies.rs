//! Replies: what they answer, what is compared, and what isn't.

use super::*;
use crate::packets::*;

/// A data packet with this id, endpoint and length.
type Data = fn(u64, u8, u16) -> Packet;

pub fn scenarios() -> Vec<Scenario> {
    vec![
        scenario(
            "a reply answers its own kinds and no other",
            WITH_STREAMS_AND_RECEIVING,
            |word| {
                // Each request with the kind of its reply; all others on the same endpoint or interface get 33.
                let requests = [
                    (set_config(3, 1), 8, 0x00),
                    (get_config(3), 8, 0x00),
                    (set_alt(3, 0x82, 1), 11, 0x82),
                    (get_alt(3, 0x82), 11, 0x82),
                    (start_iso(3, ISO_IN), 14, ISO_IN),
                    (stop_iso(3, ISO_OUT), 14, ISO_OUT),
                    (start_interrupt(3, INTERRUPT_IN), 17, INTERRUPT_IN),
                    (stop_interrupt(3, INTERRUPT_IN), 17, INTERRUPT_IN),
                    (alloc(3, 1 << 18, 4), 20, 0x00),
                    (free(3, 1 << 18), 20, 0x00),
                    (start_bulk(3, BULK_IN, 0), 27, BULK_IN),
                    (stop_bulk(3, BULK_IN, 0), 27, BULK_IN),
                    (control(3, 0x00, 6), 100, 0x00),
                    (control(3, 0x80, 6), 100, 0x80),
                    (bulk(3, BULK_OUT, 6), 101, BULK_OUT),
                    (bulk(3, BULK_IN, 6), 101, BULK_IN),
                    (interrupt(3, INTERRUPT_OUT, 6), 103, INTERRUPT_OUT),
                ];
                requests
                    .into_iter()
                    .fold(device(word), |play, (request, kind, byte)| {
                        let replies = every_reply(3, byte);
                        let wrong = replies.iter().filter(|reply| reply.kind != kind);
                        let right = replies.iter().find(|reply| reply.kind == kind);
                        let right = right.expect("a reply of that kind").clone();
                        play.guest(request, 0)
                            .each_host(wrong.cloned(), 33)
                            .host(right.clone(), 0)
                            .host(right, 33)
                    })
            },
        ),
        scenario(
            "a reply needs a request with its id",
            WITH_STREAMS_AND_RECEIVING,
            |word| {
                device(word)
                    .each_host(every_reply(3, BULK_IN), 33)
                    .guest(bulk(3, BULK_IN, 6), 0)
                    .each_host(every_reply(2, BULK_IN), 33)
                    .each_host(every_reply(4, BULK_IN), 33)
                    .host(bulk(3, BULK_IN, 6), 0)
            },
        ),
        scenario(
            "an interface that differs is 33 and leaves the request",
            EVERY,
            |word| {
                device(word)
                    .guest(set_alt(1, 3, 1), 0)
                    .guest(get_alt(2, 4), 0)
                    .host(alt_status(1, 0, 4, 1), 33)
                    .host(alt_status(2, 0, 3, 1), 33)
                    .host(alt_status(1, 0, 0x83, 1), 33)
                    .host(alt_status(1, 0, 3, 1), 0)
                    .host(alt_status(2, 0, 4, 1), 0)
            },
        ),
        scenario(
            "an endpoint that differs is 33 and leaves the request",
            WITH_RECEIVING,
            |word| {
                device(word)
                    .guest(start_iso(1, ISO_IN), 0)
                    .each_host(
                        [ISO_OUT, ISO_IN_1, ISO_OUT_1].map(|e| iso_status(1, 0, e)),
                        33,
                    )
                    .host(iso_status(1, 0, ISO_IN), 0)
                    .guest(start_interrupt(1, INTERRUPT_IN), 0)
                    .each_host(
                        [INTERRUPT_OUT, INTERRUPT_IN_1, BULK_IN].map(|e| interrupt_status(1, 0, e)),
                        33,
                    )
                    .host(interrupt_status(1, 0, INTERRUPT_IN), 0)
                    .guest(stop_bulk(1, BULK_IN, 0), 0)
                    .host(bulk_status(1, 0, BULK_IN_1, 0), 33)
                    .host(bulk_status(1, 0, BULK_IN, 0), 0)
                    .guest(bulk(1, BULK_OUT, 6), 0)
                    .each_host([BULK_OUT_1, BULK_IN, 0x0f].map(|e| bulk(1, e, 6)), 33)
                    .host(bulk(1, BULK_OUT, 6), 0)
                    .guest(bulk(1, BULK_IN, 6), 0)
                    .each_host([BULK_IN_1, BULK_OUT, 0x8f].map(|e| bulk(1, e, 6)), 33)
                    .host(bulk(1, BULK_IN, 6), 0)
                    .guest(interrupt(1, INTERRUPT_OUT, 6), 0)
                    .each_host([INTERRUPT_OUT_1, BULK_OUT].map(|e| interrupt(1, e, 6)), 33)
                    .host(interrupt(1, INTERRUPT_OUT, 6), 0)
            },
        ),
        scenario("endpoint 0 out isn't endpoint 0 in", EVERY, |word| {
            device(word)
                .guest(control(1, 0x00, 6), 0)
                .guest(control(2, 0x80, 6), 0)
                .host(control(1, 0x80, 6), 33)
                .host(control(2, 0x00, 6), 33)
                .host(control(1, 0x00, 6), 0)
                .host(control(2, 0x80, 6), 0)
        }),
        scenario(
            "configuration, alt, mask, count, stream and setup bytes aren't compared",
            WITH_STREAMS_AND_RECEIVING,
            |word| {
                device(word)
                    .guest(set_config(1, 1), 0)
                    .host(config_status(1, 0, 99), 0)
                    .guest(set_alt(1, 0, 1), 0)
                    .host(alt_status(1, 0, 0, 99), 0)
                    .guest(alloc(1, 1 << 2, 4), 0)
                    .host(alloc_status(1, 0, 1 << 0, 99), 0)
                    .guest(free(1, 1 << 2), 0)
                    .host(alloc_status(1, 6, 0, 0), 0)
                    .guest(start_bulk(1, BULK_IN, 1), 0)
                    .host(bulk_status(1, 0, BULK_IN, 99), 0)
                    .guest(bulk_on_stream(1, BULK_IN, 4, 1), 0)
                    .host(bulk_on_stream(1, BULK_IN, 4, 99), 0)
                    .guest(control(1, 0x80, 4), 0)
                    .host(
                        control(1, 0x80, 4)
                            .but(1, 99)
                            .but(2, 0xa1)
                            .but(4, 99)
                            .but(7, 99),
                        0,
                    )
            },
        ),
        scenario("a reply of any status frees its place", EVERY, |word| {
            (0..=255).fold(device(word), |play, status| {
                play.guest(bulk(1, BULK_OUT, 6), 0)
                    .host(bulk(1, BULK_OUT, 6).but(1, status), 0)
                    .guest(get_config(1), 0)
                    .host(config_status(1, status, 1), 0)
                    .guest(get_alt(1, 0), 0)
                    .host(alt_status(1, status, 0, 1), 0)
                    .guest(stop_iso(1, ISO_IN), 0)
                    .host(iso_status(1, status, ISO_IN), 0)
            })
        }),
        scenario(
            "a reply that is too long is 34 and leaves the request",
            EVERY,
            |word| {
                let kinds: [(Data, u8, u8); 5] = [
                    (control, 0x00, 0x80),
                    (control, 0x80, 0x00),
                    (|id, e, n| bulk(id, e, u32::from(n)), BULK_OUT, BULK_OUT_1),
                    (|id, e, n| bulk(id, e, u32::from(n)), BULK_IN, BULK_IN_1),
                    (interrupt, INTERRUPT_OUT, INTERRUPT_OUT_1),
                ];
                kinds
                    .into_iter()
                    .fold(device(word), |play, (data, endpoint, other)| {
                        play.guest(data(1, endpoint, 10), 0)
                            .host(data(1, endpoint, 11), 34)
                            .host(data(1, endpoint, 1_000), 34)
                            // A wrong endpoint or id comes first.
                            .host(data(1, other, 11), 33)
                            .host(data(2, endpoint, 11), 33)
                            .guest(get_config(1), 31)
                            .host(data(1, endpoint, 10), 0)
                            .host(data(1, endpoint, 11), 33)
                            .guest(data(1, endpoint, 10), 0)
                            .host(data(1, endpoint, 9), 0)
                            .guest(data(1, endpoint, 10), 0)
                            .host(data(1, endpoint, 0), 0)
                            .guest(data(1, endpoint, 0), 0)
                            .host(data(1, endpoint, 1), 34)
                            .host(data(1, endpoint, 0), 0)
                    })
            },
        ),
        scenario(
            "a bulk request's length is the whole count",
            WITH_LONG_COUNTS,
            |word| {
                device(word)
                    .guest(bulk(1, BULK_IN, 65_537), 0)
                    .host(bulk(1, BULK_IN, 2), 0)
                    .guest(bulk(2, BULK_OUT, 2), 0)
                    .host(bulk(2, BULK_OUT, 65_538), 34)
                    .host(bulk(2, BULK_OUT, 0x8000_0002), 34)
                    .host(bulk(2, BULK_OUT, 2), 0)
                    .guest(bulk(3, BULK_IN, u32::MAX), 0)
                    .host(bulk(3, BULK_IN, 32_758), 0)
                    .guest(bulk(4, BULK_OUT, 32_758), 0)
                    .host(bulk(4, BULK_OUT, u32::MAX), 34)
                    .host(bulk(4, BULK_OUT, 32_759), 34)
                    .host(bulk(4, BULK_OUT, 32_758), 0)
            },
        ),
        scenario(
            "a bulk request's length without bit 6",
            WITH_SHORT_COUNTS,
            |word| {
                device(word)
                    .guest(bulk(1, BULK_IN, 65_535), 0)
                    .host(bulk(1, BULK_IN, 32_760), 0)
                    .guest(bulk(2, BULK_OUT, 32_760), 0)
                    .host(bulk(2, BULK_OUT, 32_761), 34)
                    .host(bulk(2, BULK_OUT, 65_535), 34)
                    .host(bulk(2, BULK_OUT, 32_760), 0)
            },
        ),
        scenario(
            "interrupt data of the host is no reply on IN and a reply on OUT",
            EVERY,
            |word| {
                let turned = Rows::usual().with(INTERRUPT_OUT, crate::oracle::wire::BULK, 0);
                device(word)
                    .guest(interrupt(5, INTERRUPT_OUT, 4), 0)
                    .host(interrupt(5, INTERRUPT_IN, 4), 30)
                    .guest(start_interrupt(6, INTERRUPT_IN), 0)
                    .host(interrupt(5, INTERRUPT_IN, 4), 0)
                    .host(interrupt(6, INTERRUPT_IN, 900), 0)
                    .host(interrupt(99, INTERRUPT_IN, 4), 0)
                    .host(interrupt(99, INTERRUPT_IN, 4), 0)
                    .host(interrupt_status(6, 0, INTERRUPT_IN), 0)
                    .host(endpoint_table(&turned), 0)
                    .host(interrupt(99, INTERRUPT_OUT, 4), 33)
                    .host(interrupt(5, INTERRUPT_OUT, 4), 0)
                    .host(interrupt(5, INTERRUPT_OUT, 4), 33)
            },
        ),
        scenario(
            "replies pass though their rows have changed type",
            WITH_STREAMS_AND_RECEIVING,
            |word| {
                device(word)
                    .guest(start_iso(1, ISO_IN), 0)
                    .guest(stop_iso(2, ISO_OUT), 0)
                    .guest(start_interrupt(3, INTERRUPT_IN), 0)
                    .guest(start_bulk(4, BULK_IN, 0), 0)
                    .guest(alloc(5, 1 << 18, 2), 0)
                    .guest(bulk(6, BULK_OUT, 4), 0)
                    .guest(bulk(7, BULK_IN, 4), 0)
                    .guest(interrupt(8, INTERRUPT_OUT, 4), 0)
                    .host(endpoint_table(&Rows::bare()), 0)
                    .host(iso_status(1, 0, ISO_IN), 0)
                    .host(iso_status(2, 0, ISO_OUT), 0)
                    .host(interrupt_status(3, 0, INTERRUPT_IN), 0)
                    .host(bulk_status(4, 0, BULK_IN, 0), 0)
                    .host(alloc_status(5, 0, 1 << 18, 2), 0)
                    .host(bulk(6, BULK_OUT, 4), 0)
                    .host(bulk(7, BULK_IN, 4), 0)
                    .host(interrupt(8, INTERRUPT_OUT, 4), 0)
            },
        ),
    ]
}

/// A reply of every kind with this id, on this endpoint or interface where the kind can name it.
fn every_reply(id: u64, byte: u8) -> Vec<Packet> {
    let inward = byte | 0x80;
    let outward = byte & 0x7f;
    vec![
        config_status(id, 0, 1),
        alt_status(id, 0, byte, 1),
        iso_status(id, 0, byte),
        interrupt_status(id, 0, byte),
        alloc_status(id, 0, 1 << 18, 4),
        bulk_status(id, 0, inward, 0),
        control(id, byte, 6),
        bulk(id, byte, 6),
        // On an IN endpoint it would be stream data.
        interrupt(id, outward, 6),
    ]
}
