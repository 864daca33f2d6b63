//! Frames put together to messages.

use crate::{calls, Refusal};

/// The state of a reassembly between two frames: fresh, or a message is open.
///
/// ```
/// use hoursquall::{write, Envelope, Reassembly, Refusal, Verdict, FRAME_MAX};
///
/// let envelope = Envelope { sequence: 3, id: 7, sender: 10, receiver: 11, status: 0 };
/// let frame = |message: &[u8], index| {
///     let mut out = [0; FRAME_MAX];
///     let length = write(&envelope, message, 2, index, &mut out)?;
///     Ok::<_, Refusal>(out[..length].to_vec())
/// };
/// let mut reassembly = Reassembly::default();
/// let mut buffer = [0; 5];
///
/// // Of three frames the second is lost: the third is refused, and the message is dropped.
/// assert_eq!(reassembly.step(&frame(b"first", 0)?, 11, &mut buffer), Verdict::More);
/// assert_eq!(reassembly.step(&frame(b"first", 2)?, 11, &mut buffer), Verdict::Refused(6));
///
/// // The next message loses none.
/// assert_eq!(reassembly.step(&frame(b"next", 0)?, 11, &mut buffer), Verdict::More);
/// let Verdict::Delivered(words) = reassembly.step(&frame(b"next", 1)?, 11, &mut buffer) else {
///     panic!("it is complete");
/// };
/// assert_eq!((words.sequence, words.id, words.sender, words.status), (3, 7, 10, 0));
/// assert_eq!(&buffer[..words.total as usize], b"next");
/// # Ok::<(), Refusal>(())
/// ```
#[derive(Clone, Copy, Debug, Default, PartialEq, Eq)]
pub struct Reassembly {
    numbers: [u64; 8],
}

/// What a frame led to, or a record of the frame log.
#[derive(Clone, Copy, Debug, PartialEq, Eq)]
pub enum Verdict {
    /// More frames are wanted.
    More,
    /// The message with these words is the first `total` bytes of the buffer.
    Delivered(Words),
    /// The number of the refusal.
    Refused(Refusal),
}

/// The words that a message carries.
#[derive(Clone, Copy, Debug, PartialEq, Eq)]
pub struct Words {
    /// The message's number, from byte 1 of its frames.
    pub sequence: u8,
    /// Message ID.
    pub id: u32,
    /// Sender ID.
    pub sender: u32,
    /// Output Size or Returned Status.
    pub status: u32,
    /// Data Total Size, the length of the message.
    pub total: u32,
}

impl Reassembly {
    /// Takes one frame for receiver `us`. Until a message is delivered each call needs the buffer
    /// as the last one left it. Refusals, in order: 11, 1 to 7, 10, 8, 9; they change no byte of
    /// the buffer, and only 1 to 4 keep an open message.
    pub fn step(&mut self, frame: &[u8], us: u32, buffer: &mut [u8]) -> Verdict {
        let mut words = [0; 5];
        let answer = calls::step(&mut self.numbers, frame, us, buffer, &mut words);
        verdict(answer, words)
    }

    /// The state as `include/hoursquall.h` lays it out, to be kept elsewhere.
    pub fn numbers(&self) -> [u64; 8] {
        self.numbers
    }

    /// A state from such numbers. Any will do: what is no state is refused with 11.
    pub fn from_numbers(numbers: [u64; 8]) -> Self {
        Reassembly { numbers }
    }
}

/// The library answers 0, or 100 for a delivery, or the number of a refusal.
pub(crate) fn verdict(answer: u32, [sequence, id, sender, status, total]: [u32; 5]) -> Verdict {
    match answer {
        0 => Verdict::More,
        100 => Verdict::Delivered(Words {
            sequence: sequence as u8, // it is a byte of the message's frames
            id,
            sender,
            status,
            total,
        }),
        refusal => Verdict::Refused(refusal),
    }
}
