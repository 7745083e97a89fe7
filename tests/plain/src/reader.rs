//! The reader: one call offers a piece of one side's bytes and gets one answer.

use std::mem;
use std::ops::Range;

use crate::header::{Header, Side};
use crate::session::Session;
use crate::wire;

/// The least size of a holding buffer: the longest packet.
pub const HOLD_SIZE: usize = 32_784;

/// Where a packet, or a header that 10 to 12 refuse, lies after a call.
#[derive(Clone, Copy, Debug, PartialEq, Eq)]
pub enum Place {
    Nowhere,
    Piece,
    Buffer,
}

/// What a call tells.
#[derive(Clone, Debug, PartialEq, Eq)]
pub struct Answer {
    pub number: u8,
    /// Bytes of this call's piece that were used.
    pub taken: usize,
    pub place: Place,
    /// Bytes of the packet, or of the header that 10 to 12 refuse; 0 at 1, 2, 3, 41 and 43.
    pub size: usize,
    /// At number 0 the packet.
    pub handed: Option<Handed>,
}

/// A packet that has passed.
#[derive(Clone, Debug, PartialEq, Eq)]
pub struct Handed {
    pub kind: u8,
    pub id: u64,
    pub header: usize,
    /// What follows the fields, as offsets in the packet's bytes: a hello's words, a filter's string,
    /// the data of kinds 100 to 104; else empty behind the header.
    pub data: Range<usize>,
}

impl Answer {
    fn without_packet(number: u8, taken: usize) -> Answer {
        Answer {
            number,
            taken,
            place: Place::Nowhere,
            size: 0,
            handed: None,
        }
    }
}

/// Offers `piece`, bytes that `from` sent, to the session. `hold` is the holding buffer of that
/// direction; at its front lie the bytes of an unfinished packet, as the calls before left them.
pub fn offer(session: &mut Session, from: Side, hold: &mut [u8], piece: &[u8]) -> Answer {
    if hold.len() < HOLD_SIZE {
        return Answer::without_packet(41, 0);
    }
    let side = from.index();
    let wide = session.is_wide();
    let own_hello = session.hello_passed(from);
    if counts_unfit(session)
        || session.tables_unfit()
        || holds_too_much(&hold[..session.held[side]], wide, own_hello)
    {
        return Answer::without_packet(43, 0);
    }
    if session.stopped {
        return Answer::without_packet(3, 0);
    }
    if own_hello && !session.hello_passed(from.other()) {
        return Answer::without_packet(2, 0);
    }

    // Nothing held: judge the packet where it lies, or keep what is there.
    let held = session.held[side];
    if held == 0 {
        if let Some(header) = Header::read(piece, wide) {
            if let Some(number) = header.refusal(own_hello) {
                return refused_header(session, from, number, header.size, Place::Piece);
            }
            let total = header.total();
            if piece.len() >= total {
                return judged(session, from, &header, &piece[..total], Place::Piece);
            }
        }
        hold[..piece.len()].copy_from_slice(piece);
        session.held[side] = piece.len();
        return Answer::without_packet(1, piece.len());
    }

    // Complete what is held: first the header, then the body.
    let mut filled = fill(hold, held, held, piece, 12);
    if wide && filled >= 12 && hold[..4] != [0; 4] {
        filled = fill(hold, held, filled, piece, 16);
    }
    if let Some(header) = Header::read(&hold[..filled], wide) {
        if let Some(number) = header.refusal(own_hello) {
            return refused_header(session, from, number, header.size, Place::Buffer);
        }
        let total = header.total();
        filled = fill(hold, held, filled, piece, total);
        if filled == total {
            return judged(session, from, &header, &hold[..total], Place::Buffer);
        }
    }
    session.held[side] = filled;
    Answer::without_packet(1, filled - held)
}

/// The part of 43 about held counts, of both directions.
fn counts_unfit(session: &Session) -> bool {
    [Side::Guest, Side::Host].iter().any(|side| {
        let held = session.held[side.index()];
        let waits = session.hello_passed(*side) && !session.hello_passed(side.other());
        held >= HOLD_SIZE || waits && held > 0
    })
}

/// The part of 43 about held bytes: they are a whole packet already, or a header that 10 to 12
/// refuse.
fn holds_too_much(held: &[u8], wide: bool, own_hello: bool) -> bool {
    Header::read(held, wide)
        .is_some_and(|header| header.refusal(own_hello).is_some() || header.total() <= held.len())
}

/// Copies bytes of the piece behind the first `filled` of the buffer until `upto` are there or the
/// piece is used up; tells how many are there then. `held` of them were there before this call.
fn fill(hold: &mut [u8], held: usize, filled: usize, piece: &[u8], upto: usize) -> usize {
    let unused = &piece[filled - held..];
    let count = upto.saturating_sub(filled).min(unused.len());
    hold[filled..filled + count].copy_from_slice(&unused[..count]);
    filled + count
}

/// 10 to 12: takes the header and stops the session.
fn refused_header(
    session: &mut Session,
    from: Side,
    number: u8,
    size: usize,
    place: Place,
) -> Answer {
    let taken = size - mem::take(&mut session.held[from.index()]);
    session.stopped = true;
    Answer {
        number,
        taken,
        place,
        size,
        handed: None,
    }
}

/// The wire checks and the session checks on a whole packet.
fn judged(
    session: &mut Session,
    from: Side,
    header: &Header,
    packet: &[u8],
    place: Place,
) -> Answer {
    let body = &packet[header.size..];
    let size = packet.len();
    let taken = size - mem::take(&mut session.held[from.index()]);
    let refused = |number| Answer {
        number,
        taken,
        place,
        size,
        handed: None,
    };
    let data = match wire::check(from, session.shared(), header, body) {
        Ok(data) => data,
        Err(number) => {
            if header.kind == 0 {
                session.stopped = true;
            }
            return refused(number);
        }
    };
    if let Err(number) = session.judge(from, header, body) {
        return refused(number);
    }
    let has_data = matches!(header.kind, 0 | 23 | 100..=104);
    let start = header.size + data;
    let handed = Handed {
        kind: header.kind as u8,
        id: header.id,
        header: header.size,
        data: start..if has_data { size } else { start },
    };
    Answer {
        number: 0,
        taken,
        place,
        size,
        handed: Some(handed),
    }
}
