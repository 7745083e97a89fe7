//! The report program: pieces in, a line for each packet out.

use std::io::{self, BufRead, BufReader, BufWriter, Read, Write};

use crate::header::{Header, Side};
use crate::reader::{offer, Place, HOLD_SIZE};
use crate::session::Session;

const GUEST: &[u8] = b"from=guest bytes=";
const HOST: &[u8] = b"from=host bytes=";
const DIGITS: usize = 4096;

/// Reads lines until the input ends or a line is bad; writes a line for each answer other than 1, 2
/// and 3, then the totals. Keeps no more than a line of the input.
pub fn run(input: impl Read, output: impl Write) -> io::Result<()> {
    // The longest good line with its end. A line that fills it without an end is bad, however long
    // it is.
    let room = (GUEST.len() + DIGITS + 1) as u64;
    let mut input = BufReader::new(input);
    let mut report = Report::new(BufWriter::new(output));
    let mut line = Vec::with_capacity(room as usize);
    let mut piece = [0; DIGITS / 2];
    loop {
        line.clear();
        match (&mut input).take(room).read_until(b'\n', &mut line) {
            Ok(0) | Err(_) => break,
            Ok(_) => {}
        }
        if line.last() == Some(&b'\n') {
            line.pop();
        }
        match decode(&line, &mut piece) {
            Some((from, size)) => report.piece(from, &piece[..size])?,
            None => {
                writeln!(report.output, "line=bad")?;
                break;
            }
        }
    }
    report.totals()
}

/// The sender and the size of the piece that a line gives.
fn decode(line: &[u8], piece: &mut [u8; DIGITS / 2]) -> Option<(Side, usize)> {
    let (from, digits) = if let Some(digits) = line.strip_prefix(GUEST) {
        (Side::Guest, digits)
    } else {
        (Side::Host, line.strip_prefix(HOST)?)
    };
    if digits.len() > DIGITS || digits.len() % 2 != 0 {
        return None;
    }
    for (byte, pair) in piece.iter_mut().zip(digits.chunks_exact(2)) {
        *byte = digit(pair[0])? << 4 | digit(pair[1])?;
    }
    Some((from, digits.len() / 2))
}

fn digit(byte: u8) -> Option<u8> {
    match byte {
        b'0'..=b'9' => Some(byte - b'0'),
        b'a'..=b'f' => Some(byte - b'a' + 10),
        _ => None,
    }
}

struct Report<W: Write> {
    output: W,
    session: Session,
    guest: Vec<u8>,
    host: Vec<u8>,
    passed: u64,
    refused: u64,
}

impl<W: Write> Report<W> {
    fn new(output: W) -> Report<W> {
        Report {
            output,
            session: Session::new(),
            guest: vec![0; HOLD_SIZE],
            host: vec![0; HOLD_SIZE],
            passed: 0,
            refused: 0,
        }
    }

    /// Offers a piece until it is used up or answered 2 or 3.
    fn piece(&mut self, from: Side, piece: &[u8]) -> io::Result<()> {
        let (name, hold) = match from {
            Side::Guest => ("guest", &mut self.guest),
            Side::Host => ("host", &mut self.host),
        };
        let mut rest = piece;
        while !rest.is_empty() {
            let answer = offer(&mut self.session, from, hold, rest);
            if matches!(answer.number, 2 | 3) {
                break;
            }
            let bytes: &[u8] = match answer.place {
                Place::Nowhere => &[],
                Place::Piece => rest,
                Place::Buffer => hold,
            };
            // A packet other than a hello doesn't change the width, and a hello's header has one
            // width.
            if let Some(header) = Header::read(bytes, self.session.is_wide()) {
                let Header {
                    kind, length, id, ..
                } = header;
                writeln!(
                    self.output,
                    "from={name} type={kind} length={length} id={id} answer={}",
                    answer.number
                )?;
                if answer.number == 0 {
                    self.passed += 1;
                } else {
                    self.refused += 1;
                }
            }
            rest = &rest[answer.taken..];
        }
        Ok(())
    }

    fn totals(mut self) -> io::Result<()> {
        let stopped = u8::from(self.session.is_stopped());
        writeln!(
            self.output,
            "passed={} refused={} stopped={stopped}",
            self.passed, self.refused
        )?;
        self.output.flush()
    }
}
