//! Streams: what opens and closes them, and statuses that nobody asked for.

use super::*;
use crate::oracle::wire::{BULK, INTERRUPT, ISO};
use crate::packets::*;

/// The packets of one kind of stream on an endpoint.
#[derive(Clone, Copy)]
struct Flow {
    endpoint: u8,
    /// Another endpoint of the same type.
    other: u8,
    start: fn(u64, u8) -> Packet,
    stop: fn(u64, u8) -> Packet,
    status: fn(u64, u8, u8) -> Packet,
    data: fn(u64, u8) -> Packet,
}

const FLOWS: [Flow; 3] = [
    Flow {
        endpoint: ISO_IN,
        other: ISO_IN_1,
        start: start_iso,
        stop: stop_iso,
        status: iso_status,
        data: |id, endpoint| iso(id, endpoint, 4),
    },
    Flow {
        endpoint: INTERRUPT_IN,
        other: INTERRUPT_IN_1,
        start: start_interrupt,
        stop: stop_interrupt,
        status: interrupt_status,
        data: |id, endpoint| interrupt(id, endpoint, 4),
    },
    Flow {
        endpoint: BULK_IN,
        other: BULK_IN_1,
        start: |id, endpoint| start_bulk(id, endpoint, 0),
        stop: |id, endpoint| stop_bulk(id, endpoint, 0),
        status: |id, status, endpoint| bulk_status(id, status, endpoint, 0),
        data: |id, endpoint| buffered_bulk(id, endpoint, 4, 0),
    },
];

/// The device, then the same packets for each kind of stream.
fn for_each_flow(word: u32, play: fn(Play, Flow) -> Play) -> Play {
    FLOWS.into_iter().fold(device(word), play)
}

pub fn scenarios() -> Vec<Scenario> {
    vec![
        scenario(
            "a start opens its own row's stream at once",
            WITH_RECEIVING,
            |word| {
                for_each_flow(word, |play, flow| {
                    play.host((flow.data)(1, flow.endpoint), 30)
                        .guest((flow.start)(1, flow.endpoint), 0)
                        .host((flow.data)(7, flow.endpoint), 0)
                        .host((flow.data)(1, flow.endpoint), 0)
                        .host((flow.data)(1, flow.other), 30)
                        .host((flow.status)(1, 0, flow.endpoint), 0)
                        .host((flow.data)(1, flow.endpoint), 0)
                        .host((flow.data)(1, flow.other), 30)
                })
            },
        ),
        scenario(
            "a status other than 0 to a start closes",
            WITH_RECEIVING,
            |word| {
                for_each_flow(word, |play, flow| {
                    (1..=255).fold(play, |play, status| {
                        play.guest((flow.start)(1, flow.endpoint), 0)
                            .host((flow.data)(0, flow.endpoint), 0)
                            .host((flow.status)(1, status, flow.endpoint), 0)
                            .host((flow.data)(0, flow.endpoint), 30)
                    })
                })
            },
        ),
        scenario(
            "a stop changes nothing, its status closes, whatever it says",
            WITH_RECEIVING,
            |word| {
                for_each_flow(word, |play, flow| {
                    (0..=255).fold(play, |play, status| {
                        play.guest((flow.start)(1, flow.endpoint), 0)
                            .host((flow.status)(1, 0, flow.endpoint), 0)
                            .guest((flow.start)(1, flow.other), 0)
                            .host((flow.status)(1, 0, flow.other), 0)
                            .guest((flow.stop)(2, flow.endpoint), 0)
                            .host((flow.data)(0, flow.endpoint), 0)
                            .host((flow.status)(2, status, flow.endpoint), 0)
                            .host((flow.data)(0, flow.endpoint), 30)
                            .host((flow.data)(0, flow.other), 0)
                    })
                })
            },
        ),
        scenario(
            "an open stream may be started, a closed one stopped",
            WITH_RECEIVING,
            |word| {
                for_each_flow(word, |play, flow| {
                    play.guest((flow.stop)(1, flow.endpoint), 0)
                        .host((flow.data)(0, flow.endpoint), 30)
                        .host((flow.status)(1, 0, flow.endpoint), 0)
                        .host((flow.data)(0, flow.endpoint), 30)
                        .guest((flow.start)(1, flow.endpoint), 0)
                        .guest((flow.start)(2, flow.endpoint), 0)
                        .host((flow.data)(0, flow.endpoint), 0)
                        .host((flow.status)(1, 0, flow.endpoint), 0)
                        // The second start fails: that closes.
                        .host((flow.status)(2, 1, flow.endpoint), 0)
                        .host((flow.data)(0, flow.endpoint), 30)
                })
            },
        ),
        scenario(
            "with a start and a stop waiting the last status decides",
            WITH_RECEIVING,
            |word| {
                for_each_flow(word, |play, flow| {
                    play.guest((flow.start)(1, flow.endpoint), 0)
                        .guest((flow.stop)(2, flow.endpoint), 0)
                        .host((flow.data)(0, flow.endpoint), 0)
                        .host((flow.status)(2, 0, flow.endpoint), 0)
                        .host((flow.data)(0, flow.endpoint), 30)
                        .host((flow.status)(1, 0, flow.endpoint), 0)
                        .host((flow.data)(0, flow.endpoint), 0)
                        .guest((flow.stop)(2, flow.endpoint), 0)
                        .guest((flow.start)(1, flow.endpoint), 0)
                        .host((flow.status)(1, 0, flow.endpoint), 0)
                        .host((flow.data)(0, flow.endpoint), 0)
                        .host((flow.status)(2, 0, flow.endpoint), 0)
                        .host((flow.data)(0, flow.endpoint), 30)
                })
            },
        ),
        scenario(
            "iso of the guest needs a stream on its OUT row",
            EVERY,
            |word| {
                device(word)
                    .guest(iso(1, ISO_OUT, 4), 30)
                    .guest(start_iso(1, ISO_IN), 0)
                    .guest(iso(1, ISO_OUT, 4), 30)
                    .guest(start_iso(2, ISO_OUT), 0)
                    .guest(iso(1, ISO_OUT, 4), 0)
                    .guest(iso(99, ISO_OUT, 0), 0)
                    .guest(iso(99, ISO_OUT_1, 0), 30)
                    .guest(stop_iso(3, ISO_OUT), 0)
                    .guest(iso(1, ISO_OUT, 4), 0)
                    .host(iso_status(3, 0, ISO_OUT), 0)
                    .guest(iso(1, ISO_OUT, 4), 30)
                    .host(iso(1, ISO_IN, 4), 0)
                    .host(iso_status(2, 0, ISO_OUT), 0)
                    .guest(iso(1, ISO_OUT, 4), 0)
            },
        ),
        scenario(
            "the stream of bulk receiving is the row's, not its number's",
            WITH_RECEIVING,
            |word| {
                device(word)
                    .guest(start_bulk(1, BULK_IN, 1), 0)
                    .host(buffered_bulk(0, BULK_IN, 4, 2), 0)
                    .host(buffered_bulk(0, BULK_IN, 4, u32::MAX), 0)
                    .host(bulk_status(1, 0, BULK_IN, 9), 0)
                    .guest(stop_bulk(1, BULK_IN, 7), 0)
                    .host(bulk_status(1, 0, BULK_IN, 3), 0)
                    .host(buffered_bulk(0, BULK_IN, 4, 1), 30)
            },
        ),
        scenario(
            "allocating and freeing bulk streams opens and closes nothing",
            WITH_STREAMS_AND_RECEIVING,
            |word| {
                device(word)
                    .guest(alloc(1, 1 << 18, 4), 0)
                    .host(buffered_bulk(0, BULK_IN, 4, 1), 30)
                    .host(alloc_status(1, 0, 1 << 18, 4), 0)
                    .host(buffered_bulk(0, BULK_IN, 4, 1), 30)
                    .guest(start_bulk(2, BULK_IN, 1), 0)
                    .host(bulk_status(2, 0, BULK_IN, 1), 0)
                    .guest(free(3, 1 << 18), 0)
                    .host(buffered_bulk(0, BULK_IN, 4, 1), 0)
                    .host(alloc_status(3, 0, 1 << 18, 0), 0)
                    .host(buffered_bulk(0, BULK_IN, 4, 1), 0)
                    .guest(alloc(3, 1 << 18, 4), 0)
                    .host(alloc_status(3, 5, 1 << 18, 0), 0)
                    .host(buffered_bulk(0, BULK_IN, 4, 1), 0)
                    // A stream that was never allocated.
                    .guest(bulk_on_stream(4, BULK_OUT, 2, 77), 0)
                    .host(bulk_on_stream(4, BULK_OUT, 2, 77), 0)
            },
        ),
        scenario(
            "a status opens only where the row has its type now",
            WITH_RECEIVING,
            |word| {
                let turned = Rows::usual().with(ISO_IN, BULK, 0);
                device(word)
                    .guest(start_iso(1, ISO_IN), 0)
                    .host(endpoint_table(&turned), 0)
                    .host(iso_status(1, 0, ISO_IN), 0)
                    .host(buffered_bulk(0, ISO_IN, 4, 0), 30)
                    .host(endpoint_table(&Rows::usual()), 0)
                    .host(iso(0, ISO_IN, 4), 30)
            },
        ),
        scenario(
            "a status closes only where the row has its type now",
            WITH_RECEIVING,
            |word| {
                let turned = Rows::usual()
                    .with(ISO_IN, BULK, 0)
                    .with(BULK_IN, INTERRUPT, 0)
                    .with(INTERRUPT_IN, ISO, 0);
                device(word)
                    .guest(start_iso(1, ISO_IN), 0)
                    .guest(stop_bulk(2, BULK_IN, 0), 0)
                    .guest(start_interrupt(3, INTERRUPT_IN), 0)
                    .host(endpoint_table(&turned), 0)
                    .guest(start_bulk(4, ISO_IN, 0), 0)
                    .guest(start_interrupt(5, BULK_IN), 0)
                    .guest(start_iso(6, INTERRUPT_IN), 0)
                    .host(iso_status(1, 3, ISO_IN), 0)
                    .host(buffered_bulk(0, ISO_IN, 4, 0), 0)
                    .host(bulk_status(2, 0, BULK_IN, 0), 0)
                    .host(interrupt(0, BULK_IN, 4), 0)
                    .host(interrupt_status(3, 1, INTERRUPT_IN), 0)
                    .host(iso(0, INTERRUPT_IN, 4), 0)
            },
        ),
        scenario(
            "a type that goes and comes back leaves the stream closed until a status opens it",
            WITH_RECEIVING,
            |word| {
                let turned = Rows::usual().with(ISO_IN, BULK, 0);
                device(word)
                    .guest(start_iso(1, ISO_IN), 0)
                    .host(iso(0, ISO_IN, 4), 0)
                    .host(endpoint_table(&turned), 0)
                    .host(endpoint_table(&Rows::usual()), 0)
                    .host(iso(0, ISO_IN, 4), 30)
                    .host(iso_status(1, 0, ISO_IN), 0)
                    .host(iso(0, ISO_IN, 4), 0)
                    // No stream crosses over into the other type.
                    .host(endpoint_table(&turned), 0)
                    .host(buffered_bulk(0, ISO_IN, 4, 0), 30)
            },
        ),
        scenario(
            "an unsolicited status passes and closes",
            WITH_RECEIVING,
            |word| {
                for_each_flow(word, |play, flow| {
                    play.guest((flow.start)(5, flow.endpoint), 0)
                        .guest((flow.start)(6, flow.other), 0)
                        .host((flow.status)(5, 0, flow.endpoint), 0)
                        .host((flow.status)(0, 4, flow.endpoint), 0)
                        .host((flow.data)(0, flow.endpoint), 30)
                        .host((flow.data)(0, flow.other), 0)
                        .host((flow.status)(0, 4, flow.endpoint), 0)
                        // The start of the other stream still waits.
                        .host((flow.status)(0, 4, flow.other), 0)
                        .host((flow.data)(0, flow.other), 30)
                        .host((flow.status)(6, 0, flow.other), 0)
                        .host((flow.data)(0, flow.other), 0)
                })
            },
        ),
        scenario(
            "only id 0 and status 4 are unsolicited",
            WITH_RECEIVING,
            |word| {
                for_each_flow(word, |play, flow| {
                    let statuses = (0..=255).filter(|status| *status != 4);
                    let statuses = statuses.map(|s| (flow.status)(0, s, flow.endpoint));
                    let ids = [1, 4, 0xffff_ffff].map(|id| (flow.status)(id, 4, flow.endpoint));
                    play.guest((flow.start)(5, flow.endpoint), 0)
                        .each_host(statuses, 33)
                        .each_host(ids, 33)
                        .host((flow.data)(0, flow.endpoint), 0)
                        .host(config_status(0, 4, 1), 33)
                        .host(alt_status(0, 4, 0, 1), 33)
                        .host(bulk(0, BULK_OUT, 4).but(1, 4), 33)
                        .host((flow.status)(5, 0, flow.endpoint), 0)
                })
            },
        ),
        scenario(
            "an id that is 0 in its low half isn't 0",
            &[0xa0, 0xff],
            |word| {
                for_each_flow(word, |play, flow| {
                    play.guest((flow.start)(1 << 32, flow.endpoint), 0)
                        .host((flow.status)(1 << 33, 4, flow.endpoint), 33)
                        .host((flow.data)(0, flow.endpoint), 0)
                        .host((flow.status)(0, 4, flow.endpoint), 0)
                        .host((flow.data)(0, flow.endpoint), 30)
                        .host((flow.status)(1 << 32, 0, flow.endpoint), 0)
                        .host((flow.data)(0, flow.endpoint), 0)
                })
            },
        ),
        scenario(
            "a status with id 0 and 4 that matches a request is its reply",
            WITH_RECEIVING,
            |word| {
                for_each_flow(word, |play, flow| {
                    play.guest((flow.start)(0, flow.endpoint), 0)
                        .host((flow.data)(0, flow.endpoint), 0)
                        .host((flow.status)(0, 4, flow.endpoint), 0)
                        .host((flow.data)(0, flow.endpoint), 30)
                        .host((flow.status)(0, 0, flow.endpoint), 33)
                        .guest((flow.stop)(0, flow.endpoint), 0)
                        .host((flow.status)(0, 4, flow.endpoint), 0)
                        .host((flow.status)(0, 0, flow.endpoint), 33)
                        .guest((flow.start)(0, flow.endpoint), 0)
                        .host((flow.status)(0, 0, flow.endpoint), 0)
                })
            },
        ),
        scenario(
            "a status with id 0 and 4 that matches no request leaves the one with id 0",
            WITH_RECEIVING,
            |word| {
                for_each_flow(word, |play, flow| {
                    play.guest(get_config(0), 0)
                        .host((flow.status)(0, 4, flow.endpoint), 0)
                        .host((flow.status)(0, 0, flow.endpoint), 33)
                        .guest(get_alt(0, 0), 31)
                        .host(config_status(0, 0, 1), 0)
                        .guest((flow.start)(0, flow.endpoint), 0)
                        .host((flow.status)(0, 4, flow.other), 0)
                        .host((flow.data)(0, flow.endpoint), 0)
                        .host((flow.status)(0, 0, flow.other), 33)
                        .host((flow.status)(0, 0, flow.endpoint), 0)
                })
            },
        ),
        scenario(
            "an unsolicited status of another kind leaves the stream open",
            WITH_RECEIVING,
            |word| {
                device(word)
                    .guest(start_bulk(0, BULK_IN, 0), 0)
                    .host(iso_status(0, 4, BULK_IN), 0)
                    .host(buffered_bulk(0, BULK_IN, 4, 0), 0)
                    .host(interrupt_status(0, 4, BULK_IN), 0)
                    .host(buffered_bulk(0, BULK_IN, 4, 0), 0)
                    .host(bulk_status(0, 0, BULK_IN, 0), 0)
                    .guest(start_iso(0, ISO_IN), 0)
                    .host(bulk_status(0, 4, ISO_IN, 0), 0)
                    .host(interrupt_status(0, 4, ISO_IN), 0)
                    .host(iso(0, ISO_IN, 4), 0)
                    .host(iso_status(0, 0, ISO_IN), 0)
                    .guest(start_interrupt(0, INTERRUPT_IN), 0)
                    .host(iso_status(0, 4, INTERRUPT_IN), 0)
                    .host(bulk_status(0, 4, INTERRUPT_IN, 0), 0)
                    .host(interrupt(0, INTERRUPT_IN, 4), 0)
                    .host(interrupt_status(0, 0, INTERRUPT_IN), 0)
                    .host(interrupt(0, INTERRUPT_IN, 4), 0)
                    .host(iso(0, ISO_IN, 4), 0)
                    .host(buffered_bulk(0, BULK_IN, 4, 0), 0)
            },
        ),
        scenario(
            "an unsolicited status passes on any row, 17 on OUT too",
            WITH_RECEIVING,
            |word| {
                let every = || (0..16).chain(0x80..0x90u8);
                device(word)
                    .guest(start_iso(1, ISO_OUT), 0)
                    .each_host(every().map(|e| interrupt_status(0, 4, e)), 0)
                    .each_host((0x80..0x90).map(|e| bulk_status(0, 4, e, 0)), 0)
                    .guest(iso(0, ISO_OUT, 4), 0)
                    .each_host(every().map(|e| iso_status(0, 4, e)), 0)
                    .guest(iso(0, ISO_OUT, 4), 30)
                    .host(bulk_status(0, 4, BULK_OUT, 0), 24)
                    .host(interrupt_status(0, 4, 0x13), 24)
                    .host(interrupt_status(1, 4, INTERRUPT_OUT), 33)
            },
        ),
        scenario(
            "buffered bulk has as much data as its length of 32 bits says",
            WITH_RECEIVING,
            |word| {
                // A body of 32,768 bytes, and lengths that no body can meet.
                let but_length = |length: u32| {
                    let packet = buffered_bulk(1, BULK_IN, 8, 0);
                    let bytes = length.to_le_bytes();
                    (0..4).fold(packet, |packet, i| packet.but(4 + i, bytes[i]))
                };
                device(word)
                    .guest(start_bulk(1, BULK_IN, 0), 0)
                    .host(buffered_bulk(1, BULK_IN, 32_758, 0), 0)
                    .host(but_length(8), 0)
                    .each_host(
                        [7, 9, 18, 65_544, u32::MAX - 1, u32::MAX].map(but_length),
                        23,
                    )
            },
        ),
    ]
}
