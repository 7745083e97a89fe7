//! Hellos, the device's coming and going, its rows.

use super::*;
use crate::oracle::wire::{BULK, INTERRUPT, INVALID, ISO};
use crate::packets::*;

pub fn scenarios() -> Vec<Scenario> {
    vec![
        scenario(
            "a fresh session has no hello, no device and owes no ack",
            WITH_ACK,
            |word| {
                Play::new()
                    .guest(get_config(1), 11)
                    .guest(ack(), 11)
                    .host(endpoint_table(&Rows::usual()), 11)
                    .guest(hello(&[word]), 0)
                    .guest(hello(&[word]), 12)
                    .guest(get_config(1), 25)
                    .host(connect(2), 11)
                    .host(hello(&[word]), 0)
                    .host(hello(&[word]), 12)
                    .guest(hello(&[word]), 12)
                    .guest(ack(), 26)
                    .host(connect(2), 26)
                    .host(interface_table(1), 26)
                    .guest(get_config(1), 25)
            },
        ),
        scenario(
            "a refused hello leaves the session as it was",
            EVERY,
            |word| {
                let no_zero_byte = (0..64).fold(hello(&[word]), |hello, i| hello.but(i, b'x'));
                Play::new()
                    .guest(hello(&[1]), 13)
                    .guest(hello(&[0xffff_ffef]), 13)
                    .guest(hello(&[1]).with_id(1), 24)
                    .guest(no_zero_byte, 24)
                    .guest(hello(&[1; 9]).with_id(1), 23)
                    .guest_hex("00000000 01800000 00000000", 10)
                    .guest_hex("07000000 01800000 00000000", 10)
                    .guest(get_config(1), 11)
                    .host(get_config(1), 11)
                    .hellos(word)
                    .introduce(&Rows::usual())
                    .guest(get_config(1), 0)
            },
        ),
        scenario("a hello passes while a device is there", WITH_ACK, |word| {
            Play::new()
                .host(hello(&[word]), 0)
                .introduce(&Rows::usual())
                .guest(get_config(1), 11)
                .guest(hello(&[word]), 0)
                .guest(get_config(1), 0)
                .host(config_status(1, 0, 1), 0)
                .host(disconnect(), 0)
                .host(endpoint_table(&Rows::usual()), 27)
        }),
        scenario(
            "nothing is shared before both hellos have passed",
            WITH_ACK,
            |word| {
                Play::new()
                    .host(hello(&[word]), 0)
                    .introduce(&Rows::usual())
                    .host(disconnect(), 0)
                    .introduce(&Rows::usual())
                    .host(filter("-1,-1,-1,-1,1"), 22)
                    .host(buffered_bulk(1, BULK_IN, 4, 0), 22)
                    .host(disconnect(), 0)
                    .guest(hello(&[word]), 0)
                    .guest(ack(), 26)
            },
        ),
        scenario(
            "a late hello changes what is shared and nothing else",
            NOTHING,
            |_| {
                Play::new()
                    .host(hello(&[0xff]), 0)
                    .introduce(&Rows::usual().with(NO_IN, BULK, 3))
                    .guest(hello(&[0xff]), 0)
                    .host(connect(2), 26)
                    .guest(start_bulk(1, NO_IN, 0), 0)
                    .host(buffered_bulk(2, NO_IN, 3, 0), 0)
            },
        ),
        scenario("a hello without words offers nothing", NOTHING, |_| {
            Play::new()
                .guest(hello(&[]), 0)
                .host(hello(&[0xff]), 0)
                .introduce(&Rows::usual())
                .guest(ack(), 22)
                .guest(get_config(1), 0)
                .guest_hex("07000000 00000000 02000000", 0)
                .guest_hex("07000000 00000000 03000000 00000000", 23)
        }),
        scenario("only the first word counts", NOTHING, |_| {
            Play::new()
                .guest(hello(&[0x08, 0xff, 0xff]), 0)
                .host(hello(&[0xff, 0, 0, 0, 0, 0, 0, 0]), 0)
                .introduce(&Rows::usual())
                .host(disconnect(), 0)
                .host(endpoint_table(&Rows::usual()), 27)
                .guest(ack(), 0)
                .host(filter("x"), 22)
        }),
        scenario(
            "a device is introduced by 5, 4 and 1 in that order",
            EVERY,
            |word| {
                Play::new()
                    .hellos(word)
                    .host(connect(2), 26)
                    .host(interface_table(1), 26)
                    .host(connect(2), 26)
                    .host(endpoint_table(&Rows::usual()), 0)
                    .host(connect(2), 26)
                    .host(endpoint_table(&Rows::usual()), 0)
                    .host(interface_table(1), 0)
                    .guest(get_config(1), 25)
                    .host(connect(2), 0)
                    .guest(get_config(1), 0)
            },
        ),
        scenario(
            "another 5 takes the introduction back to one, another 4 keeps it at two",
            EVERY,
            |word| {
                Play::new()
                    .hellos(word)
                    .host(endpoint_table(&Rows::usual()), 0)
                    .host(interface_table(1), 0)
                    .host(endpoint_table(&Rows::usual()), 0)
                    .host(connect(2), 26)
                    .host(interface_table(1), 0)
                    .host(interface_table(2), 0)
                    .host(connect(2), 0)
            },
        ),
        scenario(
            "with a device both tables pass and a connect doesn't",
            EVERY,
            |word| {
                device(word)
                    .host(connect(2), 26)
                    .host(interface_table(1), 0)
                    .host(connect(2), 26)
                    .host(endpoint_table(&Rows::usual()), 0)
                    .host(connect(2), 26)
                    .host(interface_table(0), 0)
                    .guest(get_config(1), 0)
            },
        ),
        scenario(
            "the rows are those of the last endpoint table",
            EVERY,
            |word| {
                Play::new()
                    .hellos(word)
                    .host(endpoint_table(&Rows::usual()), 0)
                    .host(interface_table(1), 0)
                    .host(
                        endpoint_table(&Rows::bare().with(BULK_OUT, INTERRUPT, 0)),
                        0,
                    )
                    .host(interface_table(1), 0)
                    .host(connect(2), 0)
                    .guest(bulk(1, BULK_OUT, 2), 28)
                    .guest(interrupt(1, BULK_OUT, 2), 0)
                    .guest(bulk(2, BULK_IN, 2), 28)
                    .host(endpoint_table(&Rows::usual()), 0)
                    .guest(interrupt(2, BULK_OUT, 2), 28)
                    .guest(bulk(2, BULK_OUT, 2), 0)
            },
        ),
        scenario(
            "a disconnect returns to the start, but keeps the hellos",
            WITHOUT_ACK,
            |word| {
                device(word)
                    .guest(bulk(7, BULK_OUT, 4), 0)
                    .guest(start_interrupt(8, INTERRUPT_IN), 0)
                    .host(interrupt(1, INTERRUPT_IN, 2), 0)
                    .guest(set_config(9, 1), 0)
                    .host(disconnect(), 0)
                    .host(bulk(7, BULK_OUT, 4), 25)
                    .host(interrupt(1, INTERRUPT_IN, 2), 25)
                    .host(disconnect(), 25)
                    .host(connect(2), 26)
                    .host(interface_table(1), 26)
                    .guest(hello(&[word]), 12)
                    .host(hello(&[word]), 12)
                    .introduce(&Rows::usual())
                    .host(bulk(7, BULK_OUT, 4), 33)
                    .host(interrupt_status(8, 0, INTERRUPT_IN), 33)
                    .host(config_status(9, 0, 1), 33)
                    .host(interrupt(1, INTERRUPT_IN, 2), 30)
                    .guest(bulk(7, BULK_OUT, 4), 0)
                    .guest(start_interrupt(9, INTERRUPT_IN), 0)
            },
        ),
        scenario("a disconnect frees all 96 places", WITHOUT_ACK, |word| {
            device(word)
                .each_guest((0..96).map(get_config), 0)
                .guest(get_config(96), 32)
                .host(disconnect(), 0)
                .introduce(&Rows::usual())
                .each_guest((0..96).map(get_config), 0)
                .guest(get_config(96), 32)
        }),
        scenario(
            "with bit 3 a disconnect owes an ack, which comes once",
            WITH_ACK,
            |word| {
                device(word)
                    .guest(ack(), 26)
                    .host(disconnect(), 0)
                    .host(endpoint_table(&Rows::usual()), 27)
                    .guest(ack(), 0)
                    .guest(ack(), 26)
                    .introduce(&Rows::usual())
                    .guest(ack(), 26)
                    .host(disconnect(), 0)
                    .guest(ack(), 0)
                    .introduce(&Rows::usual())
                    .guest(get_config(1), 0)
            },
        ),
        scenario(
            "without bit 3 on one side a disconnect owes no ack",
            WITH_ACK,
            |word| {
                Play::new()
                    .guest(hello(&[word]), 0)
                    .host(hello(&[word & !0x08]), 0)
                    .introduce(&Rows::usual())
                    .host(disconnect(), 0)
                    .guest(ack(), 22)
                    .introduce(&Rows::usual())
                    .guest(get_config(1), 0)
            },
        ),
        scenario(
            "while an ack is owed 1, 4, 5 get 27 and all else is as without a device",
            WITH_ACK_AND_FILTER,
            |word| {
                device(word)
                    .host(disconnect(), 0)
                    .host(connect(2), 27)
                    .host(interface_table(1), 27)
                    .host(endpoint_table(&Rows::usual()), 27)
                    .guest(filter_reject(), 0)
                    .guest(filter("-1,-1,-1,-1,1"), 0)
                    .host(filter("-1,-1,-1,-1,1"), 0)
                    .each_guest(guests_for_device(), 25)
                    .each_host(hosts_for_device(), 25)
                    .host(connect(2), 27)
                    .guest(ack(), 0)
                    .host(connect(2), 26)
                    .host(interface_table(1), 26)
                    .introduce(&Rows::usual())
            },
        ),
        scenario(
            "without a device nearly all kinds get 25, cancel and reset too",
            WITH_STREAMS_AND_RECEIVING,
            |word| {
                Play::new()
                    .hellos(word)
                    .each_guest(guests_for_device(), 25)
                    .each_host(hosts_for_device(), 25)
                    .each_guest(guests_with_bits_0_and_7(), 25)
                    .each_host(hosts_with_bits_0_and_7(), 25)
                    .host(endpoint_table(&Rows::usual()), 0)
                    .guest(cancel(1), 25)
                    .host(interface_table(1), 0)
                    .guest(reset(1), 25)
                    .guest(cancel(1), 25)
                    .host(disconnect(), 25)
                    .host(connect(2), 0)
                    .guest(cancel(1), 0)
                    .guest(reset(1), 0)
            },
        ),
        scenario(
            "filters pass with and without a device",
            WITH_ACK_AND_FILTER,
            |word| {
                Play::new()
                    .hellos(word)
                    .guest(filter("0x03,-1,-1,-1,0|-1,-1,-1,-1,1"), 0)
                    .guest(filter_reject(), 0)
                    .introduce(&Rows::usual())
                    .guest(filter_reject(), 0)
                    .host(filter("0x03,-1,-1,-1,0"), 0)
                    .guest(filter(""), 0)
                    .guest(get_config(1), 0)
            },
        ),
        scenario(
            "a cancel passes with any id and changes nothing",
            EVERY,
            |word| {
                device(word)
                    .guest(cancel(5), 0)
                    .guest(get_config(5), 0)
                    .guest(cancel(5), 0)
                    .guest(get_config(5), 31)
                    .host(config_status(5, 0, 1), 0)
                    .host(config_status(5, 0, 1), 33)
                    .guest(cancel(5), 0)
                    .guest(cancel(u64::MAX), 0)
                    .guest(set_alt(6, 0, 1), 0)
                    .guest(cancel(6), 0)
                    .guest(bulk(7, BULK_OUT, 1), 29)
            },
        ),
        scenario(
            "a reset frees every place, ends settling, closes all streams",
            WITH_RECEIVING,
            |word| {
                device(word)
                    .guest(start_iso(1, ISO_IN), 0)
                    .guest(start_iso(2, ISO_OUT), 0)
                    .guest(start_interrupt(3, INTERRUPT_IN), 0)
                    .guest(start_bulk(4, BULK_IN, 0), 0)
                    .guest(get_config(5), 0)
                    .guest(bulk(6, BULK_OUT, 4), 0)
                    .guest(set_config(7, 1), 0)
                    .guest(set_alt(8, 0, 1), 0)
                    .guest(control(9, 0x00, 0), 29)
                    .guest(reset(7), 0)
                    .host(iso(0, ISO_IN, 4), 30)
                    .guest(iso(0, ISO_OUT, 4), 30)
                    .host(interrupt(0, INTERRUPT_IN, 4), 30)
                    .host(buffered_bulk(0, BULK_IN, 4, 0), 30)
                    .host(iso_status(1, 0, ISO_IN), 33)
                    .host(iso_status(2, 0, ISO_OUT), 33)
                    .host(interrupt_status(3, 0, INTERRUPT_IN), 33)
                    .host(bulk_status(4, 0, BULK_IN, 0), 33)
                    .host(config_status(5, 0, 1), 33)
                    .host(bulk(6, BULK_OUT, 4), 33)
                    .host(config_status(7, 0, 1), 33)
                    .host(alt_status(8, 0, 0, 1), 33)
                    .guest(reset(7), 0)
                    .guest(reset(8), 0)
                    .host(connect(2), 26)
                    .guest(control(9, 0x00, 0), 0)
                    .guest(bulk(6, BULK_OUT, 4), 0)
                    .guest(start_iso(1, ISO_IN), 0)
                    .host(iso(0, ISO_IN, 4), 0)
            },
        ),
        scenario("a reset frees all 96 places", EVERY, |word| {
            device(word)
                .each_guest((0..96).map(get_config), 0)
                .guest(get_config(96), 32)
                .guest(reset(0), 0)
                .each_guest((0..96).map(get_config), 0)
                .guest(get_config(96), 32)
        }),
        scenario(
            "an endpoint table closes a stream only where the type changes",
            WITH_RECEIVING,
            |word| {
                let usual = Rows::usual();
                let moved = usual
                    .clone()
                    .with(ISO_IN, ISO, 7)
                    .with(BULK_IN, BULK, 8)
                    .with(INTERRUPT_IN, INTERRUPT, 9);
                let other = usual.clone().with(ISO_IN, BULK, 0);
                device(word)
                    .guest(start_iso(1, ISO_IN), 0)
                    .guest(start_bulk(2, BULK_IN, 0), 0)
                    .guest(start_interrupt(3, INTERRUPT_IN), 0)
                    .host(endpoint_table_with(&moved, 1, 4, 5), 0)
                    .host(iso(0, ISO_IN, 4), 0)
                    .host(buffered_bulk(0, BULK_IN, 4, 0), 0)
                    .host(interrupt(0, INTERRUPT_IN, 4), 0)
                    .host(endpoint_table(&other), 0)
                    .host(iso(0, ISO_IN, 4), 28)
                    .host(buffered_bulk(0, ISO_IN, 4, 0), 30)
                    .host(buffered_bulk(0, BULK_IN, 4, 0), 0)
                    .host(interrupt(0, INTERRUPT_IN, 4), 0)
                    .host(endpoint_table(&usual), 0)
                    .host(iso(0, ISO_IN, 4), 30)
                    .host(buffered_bulk(0, BULK_IN, 4, 0), 0)
            },
        ),
        scenario("an endpoint table frees no request", EVERY, |word| {
            let bare = Rows::bare();
            let invalid = bare.clone().with(BULK_OUT, INVALID, 9);
            device(word)
                .guest(bulk(1, BULK_OUT, 4), 0)
                .guest(control(2, 0x80, 8), 0)
                .guest(start_iso(3, ISO_IN), 0)
                .guest(get_alt(4, 0), 0)
                .host(endpoint_table(&bare), 0)
                .host(endpoint_table(&invalid), 0)
                .guest(get_config(1), 31)
                .guest(get_config(3), 31)
                .host(bulk(1, BULK_OUT, 4), 0)
                .host(control(2, 0x80, 8), 0)
                .host(iso_status(3, 0, ISO_IN), 0)
                .host(alt_status(4, 0, 0, 0), 0)
        }),
        scenario(
            "speed 0 to 3 and 255 pass, 4 and 5 don't",
            WITHOUT_ACK,
            |word| {
                let start = Play::new()
                    .hellos(word)
                    .host(endpoint_table(&Rows::usual()), 0)
                    .host(interface_table(1), 0)
                    .each_host([4, 5, 6, 127, 128, 254].map(connect), 24)
                    .host(connect(0), 0);
                [1, 2, 3, 255].into_iter().fold(start, |play, speed| {
                    play.guest(get_config(1), 0)
                        .host(disconnect(), 0)
                        .host(endpoint_table(&Rows::usual()), 0)
                        .host(interface_table(1), 0)
                        .host(connect(speed), 0)
                })
            },
        ),
        scenario("the width of ids follows from both hellos", NOTHING, |_| {
            Play::new()
                .guest(hello(&[0x20]), 0)
                // Only one end offers bit 5 so far: a 12-byte header.
                .guest_hex("07000000 00000000 07000000", 25)
                .host(hello(&[0x21 | 0x10]), 0)
                .guest_hex("07000000 00000000 07000000 00000000", 25)
                .guest_hex("07000000 00000000 07000000", 23)
                // A second hello's header has 12 bytes all the same.
                .guest_hex("00000000 44000000 05000000", 12)
                .host_hex("00000000 01800000 05000000", 10)
                // 15 bytes of a header of 16, with a length over the limit.
                .guest_hex("07000000 01800000 07000000 000000", 23)
                .guest_hex("07000000 01800000 07000000 00000000", 10)
                .introduce(&Rows::usual())
                .guest_hex("07000000 00000000 07000000 00000000", 0)
        }),
    ]
}

/// A packet of every guest kind that gets 25, but for those that need a bit.
fn guests_for_device() -> Vec<Packet> {
    vec![
        reset(1),
        set_config(1, 1),
        get_config(1),
        set_alt(1, 0, 0),
        get_alt(1, 0),
        start_iso(1, ISO_IN),
        stop_iso(1, ISO_IN),
        start_interrupt(1, INTERRUPT_IN),
        stop_interrupt(1, INTERRUPT_IN),
        cancel(1),
        control(1, 0x00, 2),
        bulk(1, BULK_OUT, 2),
        iso(1, ISO_OUT, 2),
        interrupt(1, INTERRUPT_OUT, 2),
    ]
}

fn guests_with_bits_0_and_7() -> Vec<Packet> {
    vec![
        alloc(1, 1 << 2, 4),
        free(1, 1 << 2),
        start_bulk(1, BULK_IN, 0),
        stop_bulk(1, BULK_IN, 0),
    ]
}

/// A packet of every host kind that gets 25, but for those that need a bit; unsolicited statuses too.
fn hosts_for_device() -> Vec<Packet> {
    vec![
        disconnect(),
        config_status(1, 0, 1),
        alt_status(1, 0, 0, 0),
        iso_status(1, 0, ISO_IN),
        iso_status(0, 4, ISO_IN),
        interrupt_status(1, 0, INTERRUPT_IN),
        interrupt_status(0, 4, INTERRUPT_IN),
        control(1, 0x80, 2),
        bulk(1, BULK_IN, 2),
        iso(1, ISO_IN, 2),
        interrupt(1, INTERRUPT_IN, 2),
        interrupt(1, INTERRUPT_OUT, 2),
    ]
}

fn hosts_with_bits_0_and_7() -> Vec<Packet> {
    vec![
        alloc_status(1, 0, 1 << 2, 4),
        bulk_status(1, 0, BULK_IN, 0),
        bulk_status(0, 4, BULK_IN, 0),
        buffered_bulk(1, BULK_IN, 2, 0),
    ]
}
