//! What the test projects share that is no part of what they test.

#![forbid(unsafe_code)]

mod archive;
pub mod captures;
pub mod hex;
mod random;
mod report;

pub use archive::link;
pub use random::{seed, Random};
pub use report::{ensure, Count, Report};
