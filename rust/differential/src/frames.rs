//! Messages and their frames, for both implementations.

use crate::random::Random;
use hoursquall::{Envelope, Refusal, FRAME_MAX, MESSAGE_MAX};

/// Byte 0 of a frame: type 1 and version 1.
pub const TYPE_AND_VERSION: u8 = 0x11;

/// All frames of a message, by Index, or the refusal.
pub type Frames = Result<Vec<Vec<u8>>, Refusal>;

pub fn random_envelope(random: &mut Random) -> Envelope {
    Envelope {
        sequence: random.u8(),
        id: random.word(),
        sender: random.word(),
        receiver: random.word(),
        status: random.word(),
    }
}

/// The same envelope, in the reference's type.
pub fn for_reference(envelope: &Envelope) -> reference::frame::Envelope {
    reference::frame::Envelope {
        sequence: envelope.sequence,
        id: envelope.id,
        sender: envelope.sender,
        receiver: envelope.receiver,
        status: envelope.status,
    }
}

/// The frames that the library writes, up to the first Index for which it has none.
pub fn library_frames(envelope: &Envelope, message: &[u8], piece_size: usize) -> Frames {
    let mut frames = Vec::new();
    for index in 0..=MESSAGE_MAX {
        let mut out = [0; FRAME_MAX];
        match hoursquall::write(envelope, message, piece_size, index, &mut out) {
            Ok(length) => frames.push(out[..length].to_vec()),
            Err(13) if index > 0 => break,
            Err(refusal) => return Err(refusal),
        }
    }
    Ok(frames)
}

/// The frames that the reference writes.
pub fn reference_frames(envelope: &Envelope, message: &[u8], piece_size: usize) -> Frames {
    reference::frame::frames(&for_reference(envelope), message, piece_size)
}

/// Any other byte, often one with the right type or the right version.
pub fn wrong_type(random: &mut Random) -> u8 {
    let any = TYPE_AND_VERSION ^ random.within(1..=255) as u8;
    random.pick(&[any, any, 0x00, 0x01, 0x10, 0x12, 0x21, 0x91, 0x1F, 0xFF])
}

/// Any other number, often one that differs in a single bit.
pub fn other_receiver(random: &mut Random, us: u32) -> u32 {
    if random.bool() {
        return us ^ (1 << random.within(0..=31));
    }
    us ^ random.within(1..=u32::MAX as usize) as u32
}
