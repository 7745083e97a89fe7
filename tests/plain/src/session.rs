//! The session and its checks, 25 to 34.

use crate::device::{row_of, Device, Introduction};
use crate::header::{u32_at, Header, Side};
use crate::requests::{Request, Requests};
use crate::watch::{RowWatch, Watch, IN_ROWS};
use crate::wire::{bit, data_length, first_word, is_in, BULK, CONTROL, INTERRUPT, ISO};

const SUCCESS: u8 = 0;
const STALL: u8 = 4;

/// One session between a guest and a host, both directions.
#[derive(Clone, Debug)]
pub struct Session {
    /// The first capability word of each side's hello, once it has passed.
    words: [Option<u32>; 2],
    /// Of the bits that there are, those in both words; none until both hellos have passed.
    shared: u32,
    pub(crate) stopped: bool,
    /// Bytes of an unfinished packet in each side's holding buffer.
    pub(crate) held: [usize; 2],
    ack_owed: bool,
    device: Device,
    requests: Requests,
    watch: Watch,
}

impl Default for Session {
    fn default() -> Session {
        Session::new()
    }
}

impl Session {
    /// A fresh session.
    pub fn new() -> Session {
        Session {
            words: [None, None],
            shared: 0,
            stopped: false,
            held: [0, 0],
            ack_owed: false,
            device: Device::start(),
            requests: Requests::start(),
            watch: Watch::start(),
        }
    }

    /// The part of 43 about requests and rows. Only this crate writes a session, so it never holds; it is asked as the rules say.
    pub(crate) fn tables_unfit(&self) -> bool {
        self.requests.ids_clash() || !self.device.has_control_rows()
    }

    pub fn is_stopped(&self) -> bool {
        self.stopped
    }

    /// Whether a side's hello has passed.
    pub fn hello_passed(&self, side: Side) -> bool {
        self.words[side.index()].is_some()
    }

    /// The shared set, as a mask.
    pub fn shared(&self) -> u32 {
        self.shared
    }

    /// Whether ids have 64 bits.
    pub fn is_wide(&self) -> bool {
        self.shared & bit::WIDE_IDS != 0
    }

    pub fn held(&self, side: Side) -> usize {
        self.held[side.index()]
    }

    pub fn device_present(&self) -> bool {
        self.device.present
    }

    pub fn ack_owed(&self) -> bool {
        self.ack_owed
    }

    pub fn row_type(&self, row: usize) -> u8 {
        self.device.row_type(row)
    }

    pub fn row_interface(&self, row: usize) -> u8 {
        self.device.row_interface(row)
    }

    pub fn stream_open(&self, row: usize) -> bool {
        self.device.is_open(row)
    }

    /// The requests that wait, lowest place first.
    pub fn live_requests(&self) -> impl Iterator<Item = Request> + '_ {
        self.requests.live()
    }

    /// The watch of rows 16 to 31.
    pub fn watch(&self) -> &[RowWatch; IN_ROWS] {
        self.watch.rows()
    }

    /// Judges a packet that the wire checks let through. Only a packet that passes changes the
    /// session.
    pub(crate) fn judge(&mut self, from: Side, header: &Header, body: &[u8]) -> Result<(), u8> {
        match header.kind {
            0 => self.hello(from, body),
            1 | 4 | 5 => return self.introduce(header.kind, body),
            22 | 23 => {}
            24 => {
                if !self.ack_owed {
                    return Err(26);
                }
                self.ack_owed = false;
            }
            _ if !self.device.present => return Err(25),
            2 => self.disconnect(),
            3 => {
                self.requests.free_all();
                self.device.close_all();
            }
            21 => {}
            102 => self.stream_data(from, header.id, ISO, body[0])?,
            103 if from == Side::Host && is_in(body[0]) => {
                self.stream_data(from, header.id, INTERRUPT, body[0])?
            }
            104 => self.stream_data(from, header.id, BULK, body[8])?,
            _ => {
                return match from {
                    Side::Guest => self.request(header, body),
                    Side::Host => self.reply(header, body),
                }
            }
        }
        Ok(())
    }

    fn hello(&mut self, from: Side, body: &[u8]) {
        self.words[from.index()] = Some(first_word(body));
        if let [Some(guest), Some(host)] = self.words {
            self.shared = guest & host & bit::ALL;
        }
    }

    /// Kinds 1, 4 and 5.
    fn introduce(&mut self, kind: u32, body: &[u8]) -> Result<(), u8> {
        if self.ack_owed {
            return Err(27);
        }
        let device = &mut self.device;
        match kind {
            1 => {
                if device.present || device.introduction != Introduction::Interfaces {
                    return Err(26);
                }
                device.present = true;
            }
            4 => {
                if !device.present {
                    if device.introduction == Introduction::None {
                        return Err(26);
                    }
                    device.introduction = Introduction::Interfaces;
                }
            }
            _ => {
                if !device.present {
                    device.introduction = Introduction::Endpoints;
                }
                device.replace_rows(body);
            }
        }
        Ok(())
    }

    /// Back to the start; hellos and held bytes stay, and so do the watch's counts and gaps.
    fn disconnect(&mut self) {
        self.device = Device::start();
        self.requests.free_all();
        self.watch.restart_all();
        self.ack_owed = self.shared & bit::DISCONNECT_ACK != 0;
    }

    /// Data that belongs to a stream. The host's is watched.
    #[inline(always)]
    fn stream_data(&mut self, from: Side, id: u64, wanted: u8, endpoint: u8) -> Result<(), u8> {
        let row = row_of(endpoint);
        if self.device.row_type(row) != wanted {
            return Err(28);
        }
        if from == Side::Guest && self.requests.is_settling() {
            return Err(29);
        }
        if !self.device.is_open(row) {
            return Err(30);
        }
        if from == Side::Host {
            let largest = if self.is_wide() {
                u64::MAX
            } else {
                u64::from(u32::MAX)
            };
            self.watch.passed(row, id, largest);
        }
        Ok(())
    }

    /// A guest's packet that takes a place.
    fn request(&mut self, header: &Header, body: &[u8]) -> Result<(), u8> {
        let kind = header.kind;
        let (target, wanted) = match kind {
            9 | 10 => (body[0], None),
            12 | 13 => (body[0], Some(ISO)),
            15 | 16 | 103 => (body[0], Some(INTERRUPT)),
            25 => (body[8], Some(BULK)),
            26 => (body[4], Some(BULK)),
            100 => (body[0], Some(CONTROL)),
            101 => (body[0], Some(BULK)),
            _ => (0, None),
        };
        let type_fits = match (kind, wanted) {
            (18 | 19, _) => self.device.all_of_type(u32_at(body, 0), BULK),
            (_, Some(wanted)) => self.device.row_type(row_of(target)) == wanted,
            (_, None) => true,
        };
        let length = if kind >= 100 {
            data_length(kind, self.shared, body)
        } else {
            0
        };
        if !type_fits {
            return Err(28);
        }
        if kind >= 100 && self.requests.is_settling() {
            return Err(29);
        }
        if self.requests.find(header.id).is_some() {
            return Err(31);
        }
        if self.requests.is_full() {
            return Err(32);
        }
        self.requests.take(Request {
            id: header.id,
            kind: kind as u8,
            target,
            length,
        });
        if matches!(kind, 12 | 15 | 25) {
            self.device.set_stream(row_of(target), true);
            self.watch.restart(row_of(target));
        }
        Ok(())
    }

    /// A host's packet that answers a request, or tells unasked that a stream has stopped.
    fn reply(&mut self, header: &Header, body: &[u8]) -> Result<(), u8> {
        let kind = header.kind;
        // The request kinds that it answers, what both carry, its status, and the type of row whose
        // stream it moves.
        let (answers, target, status, stream) = match kind {
            8 => ([6, 7], None, body[0], None),
            11 => ([9, 10], Some(body[1]), body[0], None),
            14 => ([12, 13], Some(body[1]), body[0], Some(ISO)),
            17 => ([15, 16], Some(body[1]), body[0], Some(INTERRUPT)),
            20 => ([18, 19], None, body[8], None),
            27 => ([25, 26], Some(body[4]), body[5], Some(BULK)),
            _ => ([kind as u8; 2], Some(body[0]), 0, None),
        };
        let found = self.requests.find(header.id).filter(|place| {
            let request = self.requests.at(*place);
            answers.contains(&request.kind) && target.map_or(true, |byte| byte == request.target)
        });
        let request = match found {
            Some(place) => {
                let request = self.requests.at(place);
                if kind >= 100 && data_length(kind, self.shared, body) > request.length {
                    return Err(34);
                }
                self.requests.free(place);
                Some(request.kind)
            }
            None if stream.is_some() && header.id == 0 && status == STALL => None,
            None => return Err(33),
        };
        if let (Some(wanted), Some(endpoint)) = (stream, target) {
            let row = row_of(endpoint);
            if self.device.row_type(row) == wanted {
                let started = request == Some(answers[0]) && status == SUCCESS;
                self.device.set_stream(row, started);
            }
            if status == STALL {
                self.watch.restart(row);
            }
        }
        if status == SUCCESS {
            match (request, target) {
                (Some(6), _) => {
                    self.requests.free_data(u32::MAX);
                    self.device.close_all();
                }
                (Some(9), Some(interface)) => {
                    let rows = self.device.rows_of_interface(interface);
                    self.requests.free_data(rows);
                    self.device.close_rows(rows);
                }
                _ => {}
            }
        }
        Ok(())
    }
}
