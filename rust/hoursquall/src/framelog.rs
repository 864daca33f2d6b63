//! The frame log: records of one size, each with one frame.
//!
//! ```
//! use hoursquall::framelog::{self, RECORD_SIZE};
//!
//! let frames = [&b"first"[..], b"", b"third"];
//! let mut log = [0; 3 * RECORD_SIZE];
//! for (frame, record) in frames.iter().zip(log.chunks_exact_mut(RECORD_SIZE)) {
//!     framelog::write(frame, record)?;
//! }
//! for (frame, record) in frames.iter().zip(log.chunks_exact(RECORD_SIZE)) {
//!     assert_eq!(framelog::read(record)?, *frame);
//! }
//!
//! // Behind a frame its record has zeros, and a log of three records is not one record.
//! log[RECORD_SIZE - 1] = 1;
//! assert_eq!(framelog::read(&log[..RECORD_SIZE]), Err(53));
//! assert_eq!(framelog::read(&log), Err(50));
//! # Ok::<(), hoursquall::Refusal>(())
//! ```

use crate::{accepted, calls, Refusal};

/// Bytes of a record.
pub const RECORD_SIZE: usize = 260;
/// Bytes of a record's header.
pub const HEADER_SIZE: usize = 4;
/// Bytes that a record's frame has at most.
pub const FRAME_MAX: usize = 256;

/// The frame in a record. Whether it parses is not looked at. Refusals, in order: 50, 52, 51, 53.
pub fn read(record: &[u8]) -> Result<&[u8], Refusal> {
    let mut frame_len = 0;
    let answer = calls::log_read(record, &mut frame_len);
    accepted(answer).map(|()| &record[HEADER_SIZE..HEADER_SIZE + frame_len])
}

/// Writes the record of a frame over all of `record`, which is unchanged if it is refused.
/// Refusals, in order: 50, 52.
pub fn write(frame: &[u8], record: &mut [u8]) -> Result<(), Refusal> {
    accepted(calls::log_write(frame, record))
}
