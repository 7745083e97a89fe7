//! The gate's rules in plain Rust: what the proved gate is compared with, answer by answer and in
//! speed.
//!
//! It shares no code with the proved crates. The session is changed in place, a packet that lies
//! whole in the piece is judged where it lies, and no call allocates.
//!
//! | module | rules |
//! |---|---|
//! | `header` | integers, sides, the two header widths, numbers 10 to 12 |
//! | `wire` | the kinds and the wire checks, numbers 13 and 20 to 24 |
//! | `device` | introduction, rows, streams |
//! | `requests` | the 96 places |
//! | `watch` | ids of stream packets: breaks and gaps |
//! | `session` | the session checks, numbers 25 to 34 |
//! | `reader` | pieces, holding buffers, numbers 0 to 3, 41 and 43 |
//! | `report` | the report program |

#![forbid(unsafe_code)]

mod device;
mod header;
mod reader;
pub mod report;
mod requests;
mod session;
#[cfg(test)]
mod tests;
mod watch;
mod wire;

pub use header::{Header, Side, LENGTH_LIMIT};
pub use reader::{offer, Answer, Handed, Place, HOLD_SIZE};
pub use requests::{Request, PLACES};
pub use session::Session;
pub use watch::{RowWatch, IN_ROWS};
