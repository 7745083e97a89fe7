//! The table of 96 places for requests that wait.

use crate::device::row_of;

/// How many requests can wait.
pub const PLACES: usize = 96;
const ALL: u128 = (1 << PLACES) - 1;

/// A request that waits. What its kind lacks is 0.
#[derive(Clone, Copy, Debug, PartialEq, Eq)]
pub struct Request {
    pub id: u64,
    pub kind: u8,
    /// The endpoint or interface byte.
    pub target: u8,
    pub length: u32,
}

impl Request {
    const FREE: Request = Request {
        id: 0,
        kind: 0,
        target: 0,
        length: 0,
    };

    fn settles(&self) -> bool {
        matches!(self.kind, 6 | 9)
    }

    fn is_data(&self) -> bool {
        matches!(self.kind, 100 | 101 | 103)
    }
}

#[derive(Clone, Debug)]
pub(crate) struct Requests {
    places: [Request; PLACES],
    /// Bit p: place p is taken.
    live: u128,
    /// How many kinds 6 and 9 wait.
    settling: u32,
}

impl Requests {
    pub fn start() -> Requests {
        Requests {
            places: [Request::FREE; PLACES],
            live: 0,
            settling: 0,
        }
    }

    pub fn is_settling(&self) -> bool {
        self.settling > 0
    }

    pub fn is_full(&self) -> bool {
        self.live == ALL
    }

    /// Two live requests have one id.
    pub fn ids_clash(&self) -> bool {
        let mut rest = self.live;
        while rest != 0 {
            let id = self.places[rest.trailing_zeros() as usize].id;
            rest &= rest - 1;
            let mut others = rest;
            while others != 0 {
                if self.places[others.trailing_zeros() as usize].id == id {
                    return true;
                }
                others &= others - 1;
            }
        }
        false
    }

    /// The place of the live request with an id. There is at most one.
    pub fn find(&self, id: u64) -> Option<usize> {
        places_in(self.live).find(|place| self.places[*place].id == id)
    }

    pub fn at(&self, place: usize) -> Request {
        self.places[place]
    }

    pub fn live(&self) -> impl Iterator<Item = Request> + '_ {
        places_in(self.live).map(|place| self.places[place])
    }

    /// Puts a request into the lowest free place; asked only when one is free.
    pub fn take(&mut self, request: Request) {
        let place = (!self.live).trailing_zeros() as usize;
        self.places[place] = request;
        self.live |= 1 << place;
        self.settling += u32::from(request.settles());
    }

    pub fn free(&mut self, place: usize) {
        self.settling -= u32::from(self.places[place].settles());
        self.places[place] = Request::FREE;
        self.live &= !(1 << place);
    }

    pub fn free_all(&mut self) {
        *self = Requests::start();
    }

    /// Frees the data requests on the rows of a mask.
    pub fn free_data(&mut self, rows: u32) {
        for place in places_in(self.live) {
            let request = self.places[place];
            if request.is_data() && rows >> row_of(request.target) & 1 == 1 {
                self.free(place);
            }
        }
    }
}

/// The places whose bits are set, lowest first.
fn places_in(mut mask: u128) -> impl Iterator<Item = usize> {
    std::iter::from_fn(move || {
        if mask == 0 {
            return None;
        }
        let place = mask.trailing_zeros() as usize;
        mask &= mask - 1;
        Some(place)
    })
}
