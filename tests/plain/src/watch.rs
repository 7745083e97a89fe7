//! The watch: whether stream packets of the host went missing, told by their ids.

/// How many rows are IN.
pub const IN_ROWS: usize = 16;
/// The first of them.
const FIRST_IN: usize = 16;

/// What is known of an IN row.
#[derive(Clone, Copy, Debug, PartialEq, Eq)]
pub struct RowWatch {
    /// How many ids weren't the expected one; stops at the largest count.
    pub breaks: u16,
    /// How far ahead of the expected id the last of them lay.
    pub last_gap: u64,
    /// The id that comes next where nothing is missing.
    pub expected: u64,
}

#[derive(Clone, Debug)]
pub(crate) struct Watch {
    rows: [RowWatch; IN_ROWS],
}

impl Watch {
    pub fn start() -> Watch {
        let row = RowWatch {
            breaks: 0,
            last_gap: 0,
            expected: 0,
        };
        Watch {
            rows: [row; IN_ROWS],
        }
    }

    pub fn rows(&self) -> &[RowWatch; IN_ROWS] {
        &self.rows
    }

    /// A stream packet with this id passed on an IN row; `largest` is the largest id of the width in
    /// force.
    #[inline]
    pub fn passed(&mut self, row: usize, id: u64, largest: u64) {
        let row = &mut self.rows[row - FIRST_IN];
        if id != row.expected {
            row.breaks = row.breaks.saturating_add(1);
            row.last_gap = id.wrapping_sub(row.expected) & largest;
        }
        row.expected = id.wrapping_add(1) & largest;
    }

    /// From now on 0 is expected on the row, if it is an IN row.
    pub fn restart(&mut self, row: usize) {
        if row >= FIRST_IN {
            self.rows[row - FIRST_IN].expected = 0;
        }
    }

    /// The same for every row.
    pub fn restart_all(&mut self) {
        for row in &mut self.rows {
            row.expected = 0;
        }
    }
}
