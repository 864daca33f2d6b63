//! Message frames, their reassembly, the notice ring, UBIOS tables, SFI tables, the frame log, its
//! replay and table sums: safe wrappers over the proved static library.
//!
//! ```
//! use hoursquall::{count, data, parse, write, Envelope, FRAME_MAX};
//!
//! let envelope = Envelope { sequence: 0, id: 7, sender: 10, receiver: 11, status: 0 };
//! let message = b"a message of two frames";
//! let mut joined: Vec<u8> = Vec::new();
//! for index in 0..count(message.len(), 16)? {
//!     let mut out = [0; FRAME_MAX];
//!     let length = write(&envelope, message, 16, index, &mut out)?;
//!     let frame = &out[..length];
//!     assert_eq!(parse(frame, 11)?.index as usize, index);
//!     joined.extend(data(frame));
//! }
//! assert_eq!(joined, message);
//! # Ok::<(), hoursquall::Refusal>(())
//! ```

pub mod calls;
pub mod framelog;
mod notice;
pub mod raw;
mod reassembly;
pub mod replay;
pub mod sfi;
mod ubios;

pub use notice::{Notice, Positions};
pub use reassembly::{Reassembly, Verdict, Words};
pub use ubios::{Body, Region, Root, Table};

/// Bytes of a frame's header.
pub const HEADER_SIZE: usize = 24;
/// Bytes that a frame has at most.
pub const FRAME_MAX: usize = 256;
/// Bytes of data that a frame has at most.
pub const PIECE_MAX: usize = 232;
/// Bytes that a message has at most.
pub const MESSAGE_MAX: usize = 4096;
/// Bytes that a ring has at least.
pub const RING_MIN: usize = 16;
/// Bytes that a ring has at most.
pub const RING_MAX: usize = 65_536;
/// Bytes of a notice's header.
pub const NOTICE_HEADER_SIZE: usize = 8;
/// Bytes of data that a notice has at most.
pub const NOTICE_MAX: usize = 1024;
/// Bytes of a UBIOS table's header.
pub const TABLE_HEADER_SIZE: usize = 32;
/// Bytes of the root's header.
pub const ROOT_HEADER_SIZE: usize = 40;
/// Bytes that a UBIOS table has at most.
pub const TABLE_MAX: usize = 65_536;
/// Slots that the root has at most.
pub const SLOTS_MAX: usize = 128;
/// Bytes that a UBIOS table's name has at most.
pub const NAME_MAX: usize = 16;

/// A refusal's number in the specification.
pub type Refusal = u32;

/// What a frame's header says, in the frame's order.
#[derive(Clone, Copy, Debug, PartialEq, Eq)]
pub struct Header {
    /// The message's number, from byte 1, which is Reserved in T/GCC 3007-2025.
    pub sequence: u8,
    /// The frame's place in its message, from 0.
    pub index: u32,
    /// Message ID.
    pub id: u32,
    /// Sender ID.
    pub sender: u32,
    /// Receiver ID.
    pub receiver: u32,
    /// Output Size or Returned Status.
    pub status: u32,
    /// Data Total Size, the length of the whole message.
    pub total: u32,
}

/// The words that every frame of a message repeats, besides the message's length.
#[derive(Clone, Copy, Debug, PartialEq, Eq)]
pub struct Envelope {
    /// The message's number, in byte 1 of each of its frames; of any value.
    pub sequence: u8,
    /// Message ID.
    pub id: u32,
    /// Sender ID.
    pub sender: u32,
    /// Receiver ID.
    pub receiver: u32,
    /// Output Size or Returned Status.
    pub status: u32,
}

/// The bytes added up modulo 2^8, the sum of SFI tables.
pub fn sum8(bytes: &[u8]) -> u8 {
    calls::sum8(bytes)
}

/// The little-endian 32-bit words added up modulo 2^32, the sum of UBIOS tables; a short last word
/// is filled with zeros at the high end.
pub fn sum32(bytes: &[u8]) -> u32 {
    calls::sum32(bytes)
}

/// Reads the header of a frame for receiver `us`. Refusals, in order: 1 to 4.
pub fn parse(frame: &[u8], us: u32) -> Result<Header, Refusal> {
    let mut words = [0; 7];
    let answer = calls::parse(frame, us, &mut words);
    let [sequence, index, id, sender, receiver, status, total] = words;
    accepted(answer).map(|()| Header {
        sequence: sequence as u8, // it is a byte of the frame
        index,
        id,
        sender,
        receiver,
        status,
        total,
    })
}

/// The data that a frame carries: the bytes behind its header, none if it is shorter than that.
pub fn data(frame: &[u8]) -> &[u8] {
    frame.get(HEADER_SIZE..).unwrap_or(&[])
}

/// How many frames a message of `length` bytes takes: at least 1. Refusals, in order: 10, 12.
pub fn count(length: usize, piece_size: usize) -> Result<usize, Refusal> {
    let mut frames = 0;
    let answer = calls::count(length, piece_size, &mut frames);
    accepted(answer).map(|()| frames)
}

/// Writes the frame `index` of a message at the start of `out` and answers the frame's length.
/// All pieces but the last have `piece_size` bytes. The bytes of `out` behind the frame are
/// unchanged, and all of them are if it is refused. Refusals, in order: 10, 12, 13, 14.
pub fn write(
    envelope: &Envelope,
    message: &[u8],
    piece_size: usize,
    index: usize,
    out: &mut [u8],
) -> Result<usize, Refusal> {
    let mut frame_len = 0;
    let answer = calls::write(
        envelope.sequence,
        envelope.id,
        envelope.sender,
        envelope.status,
        envelope.receiver,
        message,
        piece_size,
        index,
        out,
        &mut frame_len,
    );
    accepted(answer).map(|()| frame_len)
}

/// The library answers 0, or the number of a refusal.
fn accepted(answer: u32) -> Result<(), Refusal> {
    match answer {
        0 => Ok(()),
        refusal => Err(refusal),
    }
}
