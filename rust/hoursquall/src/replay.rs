//! The player: a recorded day, played for one receiver and listed as text, a line a record.
//!
//! ```
//! use hoursquall::framelog::{self, RECORD_SIZE};
//! use hoursquall::replay::{self, Played, Player};
//! use hoursquall::{write, Envelope, Verdict, FRAME_MAX};
//!
//! // A log of two messages, each of two frames; the second message loses its first one.
//! let envelope = Envelope { sequence: 0, id: 7, sender: 10, receiver: 11, status: 0 };
//! let mut log = [0; 3 * RECORD_SIZE];
//! let messages = [(b"first", 0), (b"first", 1), (b"other", 1)];
//! for ((message, index), record) in messages.iter().zip(log.chunks_exact_mut(RECORD_SIZE)) {
//!     let mut frame = [0; FRAME_MAX];
//!     let length = write(&envelope, *message, 3, *index, &mut frame)?;
//!     framelog::write(&frame[..length], record)?;
//! }
//! let us = replay::receiver(&[11, 0, 0, 0]).expect("it has four bytes");
//!
//! // The output has room for one line of any length, and then for the others.
//! let mut player = Player::new();
//! let mut out = [0; 100];
//! let Played { read, written } = player.chunk(&log, us, &mut out[..replay::LINE_MAX]);
//! assert_eq!((read, &out[..written]), (RECORD_SIZE, &b"0 more\n"[..]));
//! let Played { read, written } = player.chunk(&log[read..], us, &mut out);
//! assert_eq!(read, 2 * RECORD_SIZE);
//! assert_eq!(&out[..written], b"1 delivered 7 5\n2 5\n");
//!
//! // The same record by record, where the message itself is at hand.
//! let mut player = Player::new();
//! let mut records = log.chunks(RECORD_SIZE);
//! assert_eq!(player.record(records.next().unwrap(), us), Verdict::More);
//! let Verdict::Delivered(words) = player.record(records.next().unwrap(), us) else {
//!     panic!("it is complete");
//! };
//! assert_eq!(&player.buffer()[..words.total as usize], b"first");
//! assert_eq!(player.record(records.next().unwrap(), us), Verdict::Refused(5));
//! # Ok::<(), hoursquall::Refusal>(())
//! ```

use crate::reassembly::verdict;
use crate::{calls, Verdict, MESSAGE_MAX};

/// Numbers of a player: the reassembly's state, and the next record's number.
pub const PLAYER_NUMBERS: usize = 9;
/// Bytes that a line has at most.
pub const LINE_MAX: usize = 47;

/// A player between two records, with the buffer in which a message grows.
#[derive(Clone, Debug, PartialEq, Eq)]
pub struct Player {
    numbers: [u64; PLAYER_NUMBERS],
    buffer: [u8; MESSAGE_MAX],
}

/// What came of a chunk.
#[derive(Clone, Copy, Debug, PartialEq, Eq)]
pub struct Played {
    /// Bytes of the chunk that were played.
    pub read: usize,
    /// Bytes of the output that hold their lines.
    pub written: usize,
}

/// The receiver that a file names: a little-endian Receiver ID, if that is all it has.
pub fn receiver(file: &[u8]) -> Option<u32> {
    file.try_into().ok().map(u32::from_le_bytes)
}

impl Player {
    /// A player at the start of a day.
    pub fn new() -> Player {
        Player::from_numbers([0; PLAYER_NUMBERS], [0; MESSAGE_MAX])
    }

    /// Plays one record for receiver `us`, and counts it; the count stays at the largest number.
    /// Refusals of the record, in order: 50, 52, 51, 53; they change nothing but the count. Else its frame is run: what it leads to is
    /// as in [`crate::Reassembly::step`]. A message that is delivered is the buffer's start.
    pub fn record(&mut self, record: &[u8], us: u32) -> Verdict {
        let [state @ .., number] = &mut self.numbers;
        let mut words = [0; 5];
        let answer = calls::replay_record(state, record, us, &mut self.buffer, &mut words);
        *number = number.saturating_add(1);
        verdict(answer, words)
    }

    /// Plays the records of a chunk for receiver `us`, one behind the other, and puts the line of
    /// each into `out`, behind the one before it: the record's number, and then the refusal's
    /// number, `more`, or `delivered` with Message ID and length. It stops where less than
    /// [`LINE_MAX`] bytes of `out` are left, or no number: hand in the rest of the chunk again.
    /// The chunk ends at a record's end, unless it is the log's last; what is short then is
    /// refused with 50. Bytes of `out` behind the lines are unchanged.
    pub fn chunk(&mut self, chunk: &[u8], us: u32, out: &mut [u8]) -> Played {
        let mut read = 0;
        let (player, buffer) = (&mut self.numbers, &mut self.buffer);
        let written = calls::replay_chunk(player, chunk, us, buffer, out, &mut read);
        Played { read, written }
    }

    /// The buffer, as the last record left it.
    pub fn buffer(&self) -> &[u8; MESSAGE_MAX] {
        &self.buffer
    }

    /// The player as `include/hoursquall.h` lays it out, to be kept elsewhere, with the buffer.
    pub fn numbers(&self) -> [u64; PLAYER_NUMBERS] {
        self.numbers
    }

    /// A player from such numbers and such a buffer. Any will do: what is no state of the
    /// reassembly is refused with 11.
    pub fn from_numbers(numbers: [u64; PLAYER_NUMBERS], buffer: [u8; MESSAGE_MAX]) -> Player {
        Player { numbers, buffer }
    }
}

impl Default for Player {
    fn default() -> Player {
        Player::new()
    }
}
