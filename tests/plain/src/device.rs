//! The device: its introduction, its 32 rows and their streams.

use crate::wire::{CONTROL, INVALID};

/// The row of an endpoint byte: its number, plus 16 for IN.
pub(crate) fn row_of(endpoint: u8) -> usize {
    usize::from(endpoint & 15 | endpoint >> 7 << 4)
}

/// How far a device that isn't there yet has been introduced.
#[derive(Clone, Copy, Debug, PartialEq, Eq)]
pub(crate) enum Introduction {
    None,
    Endpoints,
    Interfaces,
}

#[derive(Clone, Debug)]
pub(crate) struct Device {
    pub present: bool,
    pub introduction: Introduction,
    types: [u8; 32],
    interfaces: [u8; 32],
    /// Bit r: the stream of row r is open.
    open: u32,
}

impl Device {
    pub fn start() -> Device {
        let mut types = [INVALID; 32];
        types[0] = CONTROL;
        types[16] = CONTROL;
        Device {
            present: false,
            introduction: Introduction::None,
            types,
            interfaces: [0; 32],
            open: 0,
        }
    }

    /// Rows 0 and 16 are control.
    pub fn has_control_rows(&self) -> bool {
        self.types[0] == CONTROL && self.types[16] == CONTROL
    }

    pub fn row_type(&self, row: usize) -> u8 {
        self.types[row]
    }

    pub fn row_interface(&self, row: usize) -> u8 {
        self.interfaces[row]
    }

    /// Whether every row of a mask has the type.
    pub fn all_of_type(&self, mask: u32, wanted: u8) -> bool {
        let mut rest = mask;
        while rest != 0 {
            if self.types[rest.trailing_zeros() as usize] != wanted {
                return false;
            }
            rest &= rest - 1;
        }
        true
    }

    pub fn is_open(&self, row: usize) -> bool {
        self.open >> row & 1 == 1
    }

    pub fn set_stream(&mut self, row: usize, open: bool) {
        if open {
            self.open |= 1 << row;
        } else {
            self.open &= !(1 << row);
        }
    }

    pub fn close_all(&mut self) {
        self.open = 0;
    }

    /// Takes over the rows of a kind 5's body. A row that changes type loses its stream.
    pub fn replace_rows(&mut self, table: &[u8]) {
        for (row, new) in table[..32].iter().enumerate() {
            if self.types[row] != *new {
                self.open &= !(1 << row);
            }
        }
        self.types.copy_from_slice(&table[..32]);
        self.interfaces.copy_from_slice(&table[64..96]);
    }

    /// The rows other than 0 and 16 that belong to an interface, as a mask.
    pub fn rows_of_interface(&self, interface: u8) -> u32 {
        let mut mask = 0;
        for (row, of) in self.interfaces.iter().enumerate() {
            mask |= u32::from(*of == interface) << row;
        }
        mask & !(1 | 1 << 16)
    }

    pub fn close_rows(&mut self, mask: u32) {
        self.open &= !mask;
    }
}
