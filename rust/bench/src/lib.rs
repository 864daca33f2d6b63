//! What the library is timed against, and a log to be played. A crate of its own, so that no
//! function is fitted to the lengths that the calls have.

pub mod baseline;
pub mod log;
