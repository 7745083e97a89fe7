//! The functions of crates/test_probe/src/lib.rt behind safe ones. With the feature `self-test` the oracle answers instead.

pub use answers::{
    endpoint_cell, field, interface_cell, number, part_end, part_start, rewrite, row, write_bulk,
};

#[cfg(not(feature = "self-test"))]
mod answers {
    use crate::oracle::Link;
    use crate::writer::Bulk;

    // The archive takes a slice as a pointer, then its length.
    extern "C" {
        fn test_probe_number(
            sender: u8,
            guest: u64,
            host: u64,
            bytes: *const u8,
            size: usize,
        ) -> u8;

        fn test_probe_field(
            sender: u8,
            guest: u64,
            host: u64,
            bytes: *const u8,
            size: usize,
            i: usize,
        ) -> u64;

        fn test_probe_part(
            sender: u8,
            guest: u64,
            host: u64,
            bytes: *const u8,
            size: usize,
            end: u8,
        ) -> usize;

        fn test_probe_row(byte: u8) -> u8;

        fn test_probe_rewrite(
            sender: u8,
            guest: u64,
            host: u64,
            bytes: *const u8,
            size: usize,
            out: *mut u8,
            out_size: usize,
        ) -> usize;

        fn test_probe_write_bulk(
            sender: u8,
            guest: u64,
            host: u64,
            id: u64,
            endpoint: u8,
            count: u32,
            body: *const u8,
            size: usize,
            out: *mut u8,
            out_size: usize,
        ) -> u8;

        fn test_probe_interface(
            body: *const u8,
            size: usize,
            start: usize,
            end: usize,
            row: usize,
            column: usize,
        ) -> u64;

        fn test_probe_endpoint(
            body: *const u8,
            size: usize,
            start: usize,
            end: usize,
            packets: u8,
            streams: u8,
            row: u8,
            column: usize,
        ) -> u64;
    }

    /// "A side is 0 for the guest, else the host."
    fn sender(link: &Link) -> u8 {
        if link.from_guest {
            0
        } else {
            1
        }
    }

    /// "A hello is its first word, or 4,294,967,296 and more before it has passed."
    fn hello(word: Option<u32>) -> u64 {
        match word {
            Some(word) => u64::from(word),
            None => 1 << 32,
        }
    }

    /// The number of the bytes of one packet.
    pub fn number(link: &Link, bytes: &[u8]) -> u8 {
        let (guest, host) = (hello(link.guest), hello(link.host));
        // SAFETY: pointer and length are a slice that lives over the call and is only read.
        unsafe { test_probe_number(sender(link), guest, host, bytes.as_ptr(), bytes.len()) }
    }

    /// Field i of a packet that passes, in body order; 0 where it isn't there.
    pub fn field(link: &Link, bytes: &[u8], i: usize) -> u64 {
        let (guest, host) = (hello(link.guest), hello(link.host));
        // SAFETY: as in `number`.
        unsafe { test_probe_field(sender(link), guest, host, bytes.as_ptr(), bytes.len(), i) }
    }

    fn part(link: &Link, bytes: &[u8], end: u8) -> usize {
        let (guest, host) = (hello(link.guest), hello(link.host));
        // SAFETY: as in `number`.
        unsafe { test_probe_part(sender(link), guest, host, bytes.as_ptr(), bytes.len(), end) }
    }

    /// Where what follows the packet's fields starts, counted from the body's first byte; 0 where the packet doesn't pass.
    pub fn part_start(link: &Link, bytes: &[u8]) -> usize {
        part(link, bytes, 0)
    }

    /// Where it ends.
    pub fn part_end(link: &Link, bytes: &[u8]) -> usize {
        part(link, bytes, 1)
    }

    /// The row of an endpoint's byte; 255 where it is no address.
    pub fn row(byte: u8) -> u8 {
        // SAFETY: plain numbers.
        unsafe { test_probe_row(byte) }
    }

    /// Reads a packet and writes it again: the bytes put out, 0 where it doesn't pass or `out` is too short.
    pub fn rewrite(link: &Link, bytes: &[u8], out: &mut [u8]) -> usize {
        let (guest, host) = (hello(link.guest), hello(link.host));
        let (input, input_size) = (bytes.as_ptr(), bytes.len());
        let (output, output_size) = (out.as_mut_ptr(), out.len());
        // SAFETY: two slices that live over the call and don't overlap; only the second is written, within its length.
        unsafe {
            test_probe_rewrite(
                sender(link),
                guest,
                host,
                input,
                input_size,
                output,
                output_size,
            )
        }
    }

    /// Writes a bulk packet: the number.
    pub fn write_bulk(link: &Link, packet: &Bulk, out: &mut [u8]) -> u8 {
        let (guest, host) = (hello(link.guest), hello(link.host));
        let (data, data_size) = (packet.data.as_ptr(), packet.data.len());
        let (output, output_size) = (out.as_mut_ptr(), out.len());
        // SAFETY: as in `rewrite`.
        unsafe {
            test_probe_write_bulk(
                sender(link),
                guest,
                host,
                packet.id,
                packet.endpoint,
                packet.count,
                data,
                data_size,
                output,
                output_size,
            )
        }
    }

    /// A column of a row of the interface table whose rows are that part of the body.
    pub fn interface_cell(body: &[u8], start: usize, end: usize, row: usize, column: usize) -> u64 {
        // SAFETY: as in `number`.
        unsafe { test_probe_interface(body.as_ptr(), body.len(), start, end, row, column) }
    }

    /// A column of a row of the endpoint table whose rows are that part of the body, with max packet and max streams.
    pub fn endpoint_cell(
        body: &[u8],
        start: usize,
        end: usize,
        (packets, streams): (bool, bool),
        row: usize,
        column: usize,
    ) -> u64 {
        let (packets, streams) = (u8::from(packets), u8::from(streams));
        let (bytes, size) = (body.as_ptr(), body.len());
        // SAFETY: as in `number`.
        unsafe { test_probe_endpoint(bytes, size, start, end, packets, streams, row as u8, column) }
    }
}

#[cfg(feature = "self-test")]
mod answers {
    use crate::oracle::{self, Link, Packet, Shape, Value};
    use crate::writer::{self, Bulk};

    pub fn number(link: &Link, bytes: &[u8]) -> u8 {
        oracle::read(link, bytes).err().unwrap_or(0)
    }

    pub fn field(link: &Link, bytes: &[u8], i: usize) -> u64 {
        let Ok(packet) = oracle::read(link, bytes) else {
            return 0;
        };
        let kind = oracle::kind_of(packet.kind).expect("a packet that passes has a known kind");
        match (kind.fields.get(i), packet.fields.get(i)) {
            (Some(field), Some((_, Value::Number(number)))) => {
                assert!(matches!(field.shape, Shape::Number(_)));
                *number
            }
            _ => 0,
        }
    }

    pub fn part_start(link: &Link, bytes: &[u8]) -> usize {
        match oracle::read(link, bytes) {
            Ok(packet) => match packet.kind {
                0 => 64,
                100 | 104 => 10,
                101 if packet.number("length high").is_some() => 10,
                101 => 8,
                102 | 103 => 4,
                _ => 0,
            },
            Err(_) => 0,
        }
    }

    pub fn part_end(link: &Link, bytes: &[u8]) -> usize {
        let has_part = |packet: &Packet| matches!(packet.kind, 0 | 23 | 100..=104);
        match oracle::read(link, bytes) {
            Ok(packet) if has_part(&packet) => bytes.len() - link.header_size(packet.kind),
            _ => 0,
        }
    }

    pub fn row(byte: u8) -> u8 {
        oracle::row_of(byte).unwrap_or(255)
    }

    pub fn rewrite(link: &Link, bytes: &[u8], out: &mut [u8]) -> usize {
        let Ok(packet) = oracle::read(link, bytes) else {
            return 0;
        };
        let again = oracle::write(link, &packet);
        match out.get_mut(..again.len()) {
            Some(front) => {
                front.copy_from_slice(&again);
                again.len()
            }
            None => 0,
        }
    }

    pub fn write_bulk(link: &Link, packet: &Bulk, out: &mut [u8]) -> u8 {
        writer::write(link, packet, out)
    }

    pub fn interface_cell(body: &[u8], start: usize, end: usize, row: usize, column: usize) -> u64 {
        match body.get(start..end) {
            Some(rows) if rows.len() == 128 && row < 32 => u64::from(rows[32 * column + row]),
            _ => 0,
        }
    }

    pub fn endpoint_cell(
        body: &[u8],
        start: usize,
        end: usize,
        (packets, streams): (bool, bool),
        row: usize,
        column: usize,
    ) -> u64 {
        let size = 96 + if packets { 64 } else { 0 } + if streams { 128 } else { 0 };
        let rows = match body.get(start..end) {
            Some(rows) if rows.len() == size && row < 32 => rows,
            _ => return 0,
        };
        match column {
            0..=2 => u64::from(rows[32 * column + row]),
            3 if packets => oracle::read_number(&rows[96 + 2 * row..96 + 2 * row + 2]),
            4 if streams => oracle::read_number(&rows[160 + 4 * row..160 + 4 * row + 4]),
            _ => 0,
        }
    }
}
