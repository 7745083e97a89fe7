//! Refused packets: what they would have changed stays as it was.

use super::*;
use crate::oracle::wire::BULK;
use crate::packets::*;

pub fn scenarios() -> Vec<Scenario> {
    vec![
        scenario("a refused start opens nothing", EVERY, |word| {
            device(word)
                .guest(get_config(1), 0)
                .guest(start_iso(1, ISO_IN), 31)
                .host(iso(0, ISO_IN, 4), 30)
                .guest(start_iso(2, INTERRUPT_IN), 28)
                .host(interrupt(0, INTERRUPT_IN, 4), 30)
                .guest(start_interrupt(2, INTERRUPT_OUT), 24)
                .host(start_iso(2, ISO_IN), 21)
                .host(iso(0, ISO_IN, 4), 30)
                .each_guest((2..97).map(get_config), 0)
                .guest(start_iso(97, ISO_IN), 32)
                .host(iso(0, ISO_IN, 4), 30)
        }),
        scenario("a refused 6 or 9 holds nothing back", EVERY, |word| {
            device(word)
                .guest(get_config(1), 0)
                .guest(set_config(1, 1), 31)
                .guest(set_alt(1, 0, 1), 31)
                .guest(bulk(2, BULK_OUT, 4), 0)
                .each_guest((3..97).map(get_config), 0)
                .guest(set_config(97, 1), 32)
                .guest(set_alt(97, 0, 1), 32)
                .host(bulk(2, BULK_OUT, 4), 0)
                .guest(bulk(2, BULK_OUT, 4), 0)
        }),
        scenario(
            "a refused endpoint table leaves rows, streams and introduction",
            EVERY,
            |word| {
                let turned = || endpoint_table(&Rows::bare().with(ISO_IN, BULK, 0));
                device(word)
                    .guest(start_iso(1, ISO_IN), 0)
                    .host(turned().but(31, 4), 24)
                    .host(turned().but(0, 2), 24)
                    .host(turned().but(16, 255), 24)
                    .host(turned().with_id(1), 24)
                    .guest(turned(), 21)
                    .host(iso(0, ISO_IN, 4), 0)
                    .guest(bulk(2, BULK_OUT, 4), 0)
            },
        ),
        scenario("refused packets introduce no device", EVERY, |word| {
            let usual = || endpoint_table(&Rows::usual());
            Play::new()
                .hellos(word)
                .host(usual().but(31, 4), 24)
                .host(usual().with_id(1), 24)
                .host(interface_table(1), 26)
                .host(usual(), 0)
                .host(interface_table(33), 24)
                .host(connect(2), 26)
                .host(interface_table(32), 0)
                .host(connect(9), 24)
                .guest(get_config(1), 25)
                .host(connect(2).with_id(1), 24)
                .guest(connect(2), 21)
                .guest(get_config(1), 25)
                .host(connect(2), 0)
        }),
        scenario(
            "packets refused while an ack is owed introduce nothing",
            WITH_ACK,
            |word| {
                device(word)
                    .host(disconnect(), 0)
                    .host(endpoint_table(&Rows::usual()), 27)
                    .host(interface_table(1), 27)
                    .host(connect(2), 27)
                    .guest(ack().with_id(1), 24)
                    .host(ack(), 21)
                    .host(endpoint_table(&Rows::usual()), 27)
                    .guest(ack(), 0)
                    .host(interface_table(1), 26)
                    .host(connect(2), 26)
                    .guest(get_config(1), 25)
            },
        ),
        scenario(
            "a refused disconnect or reset leaves device, streams and requests",
            EVERY,
            |word| {
                device(word)
                    .guest(start_iso(1, ISO_IN), 0)
                    .guest(bulk(2, BULK_OUT, 4), 0)
                    .host(disconnect().with_id(1), 24)
                    .guest(disconnect(), 21)
                    .host(reset(1), 21)
                    // With ids of either width the size is wrong.
                    .host_hex("02000000 01000000 00000000 00", 23)
                    .host(iso(0, ISO_IN, 4), 0)
                    .host(bulk(2, BULK_OUT, 4), 0)
                    .host(iso_status(1, 0, ISO_IN), 0)
            },
        ),
        scenario(
            "a refused status neither frees nor closes nor settles",
            WITH_RECEIVING,
            |word| {
                device(word)
                    .guest(start_iso(1, ISO_IN), 0)
                    .host(iso_status(1, 0, ISO_IN | 0x20), 24)
                    .host(iso_status(2, 1, ISO_IN), 33)
                    .host(iso_status(1, 1, ISO_IN_1), 33)
                    .host(interrupt_status(1, 1, ISO_IN), 33)
                    .host(bulk_status(1, 1, ISO_IN, 0), 33)
                    .host(iso_status(0, 5, ISO_IN), 33)
                    .host(iso_status(0, 4, ISO_IN | 0x10), 24)
                    .guest(iso_status(0, 4, ISO_IN), 21)
                    .host(iso(0, ISO_IN, 4), 0)
                    .guest(bulk(3, BULK_OUT, 4), 0)
                    .guest(set_config(4, 1), 0)
                    .guest(set_alt(5, 0, 1), 0)
                    .host(config_status(5, 0, 1), 33)
                    .guest(config_status(4, 0, 1), 21)
                    .host(alt_status(4, 0, 0, 1), 33)
                    .host(alt_status(5, 0, 1, 1), 33)
                    .guest(alt_status(5, 0, 0, 1), 21)
                    .guest(bulk(6, BULK_OUT, 4), 29)
                    .host(iso(0, ISO_IN, 4), 0)
                    .host(bulk(3, BULK_OUT, 4), 0)
                    .host(config_status(4, 1, 1), 0)
                    .host(alt_status(5, 1, 0, 1), 0)
                    .guest(bulk(6, BULK_OUT, 4), 0)
            },
        ),
        scenario("a refused data reply leaves its request", EVERY, |word| {
            device(word)
                .guest(bulk(1, BULK_IN, 4), 0)
                .host(bulk(1, BULK_IN, 5), 34)
                .host(bulk(1, BULK_IN_1, 4), 33)
                .host(bulk(1, BULK_IN | 0x40, 4), 24)
                .host(control(1, BULK_IN, 4), 33)
                .guest(bulk(1, BULK_IN, 4), 31)
                .host(bulk(1, BULK_IN, 4), 0)
        }),
        scenario(
            "unknown kinds and broken headers change nothing",
            NOTHING,
            |word| {
                device(word)
                    .guest(get_config(1), 0)
                    .guest_hex("1c000000 00000000 01000000", 20)
                    .guest_hex("63000000 00000000 01000000", 20)
                    .guest_hex("63000000 01000000 01000000", 23)
                    .guest_hex("63000000 00000000 01000000 00", 23)
                    .guest_hex("69000000 00000000 01000000", 20)
                    .guest_hex("07010000 00000000 02000000", 20)
                    .guest_hex("07000080 00000000 02000000", 20)
                    .guest_hex("07000000 01800000 02000000", 10)
                    .guest_hex("07000000 ffffffff 02000000", 10)
                    .guest_hex("07000000 00000000 020000", 23)
                    .guest_hex("07000000 01000000 02000000", 23)
                    .guest_hex("07000000 00000000 02000000 00", 23)
                    .guest_hex("", 23)
                    .guest_hex("00000000 44000000 00000000", 12)
                    .host_hex("00000000 00000000 00000000", 12)
                    .guest(get_config(1), 31)
                    .guest(get_config(2), 0)
            },
        ),
    ]
}
