//! What the library writes, it reads back and hands up as it was meant.

use differential::frames::{library_frames, random_envelope, reference_frames};
use differential::random::Random;
use differential::{cases, report};
use hoursquall::{Envelope, Header, Reassembly, Verdict, Words, MESSAGE_MAX, PIECE_MAX};

/// Writes a message frame by frame, reads it back, and answers how many frames that took.
fn check(envelope: &Envelope, message: &[u8], piece_size: usize) -> usize {
    let frames = library_frames(envelope, message, piece_size);
    assert_eq!(frames, reference_frames(envelope, message, piece_size));
    let frames = frames.expect("the sizes are legal");
    let count = hoursquall::count(message.len(), piece_size);
    assert_eq!(count, Ok(frames.len()));

    let mut joined: Vec<u8> = Vec::new();
    for (index, frame) in frames.iter().enumerate() {
        let header = Header {
            sequence: envelope.sequence,
            index: index as u32,
            id: envelope.id,
            sender: envelope.sender,
            receiver: envelope.receiver,
            status: envelope.status,
            total: message.len() as u32,
        };
        assert_eq!(hoursquall::parse(frame, envelope.receiver), Ok(header));
        joined.extend(hoursquall::data(frame));
    }
    assert_eq!(joined, message);
    check_reassembly(envelope, message, &frames);
    frames.len()
}

/// Every frame asks for more but the last, which completes the message.
fn check_reassembly(envelope: &Envelope, message: &[u8], frames: &[Vec<u8>]) {
    let mut reassembly = Reassembly::default();
    let mut buffer = vec![0; message.len()];
    let (last, others) = frames.split_last().expect("there is one at least");
    for frame in others {
        let verdict = reassembly.step(frame, envelope.receiver, &mut buffer);
        assert_eq!(verdict, Verdict::More);
    }
    let words = Words {
        sequence: envelope.sequence,
        id: envelope.id,
        sender: envelope.sender,
        status: envelope.status,
        total: message.len() as u32,
    };
    let verdict = reassembly.step(last, envelope.receiver, &mut buffer);
    assert_eq!(verdict, Verdict::Delivered(words));
    assert_eq!(buffer, message);
}

#[test]
fn random_messages() {
    let mut random = Random::new(40);
    let mut compared = 0;
    for _ in 0..cases(2_000) {
        let length = random.pick_or_within(&[0, 1, 232, 4095, MESSAGE_MAX], 0..=MESSAGE_MAX);
        let piece_size = random.pick_or_within(&[1, 2, 231, PIECE_MAX], 1..=PIECE_MAX);
        let message = random.bytes(length);
        compared += check(&random_envelope(&mut random), &message, piece_size);
    }
    report("round trip, frames of random messages", compared);
}

#[test]
fn every_piece_size() {
    let mut random = Random::new(41);
    let mut compared = 0;
    for piece_size in 1..=PIECE_MAX {
        for length in [0, 1, piece_size, piece_size + 1, 1000, MESSAGE_MAX] {
            let message = random.bytes(length);
            compared += check(&random_envelope(&mut random), &message, piece_size);
        }
    }
    report("round trip, frames with every piece size", compared);
}

#[test]
fn every_sequence_number() {
    let mut random = Random::new(42);
    let mut compared = 0;
    for sequence in 0..=255 {
        for length in [0, 1, PIECE_MAX + 1] {
            let envelope = Envelope {
                sequence,
                ..random_envelope(&mut random)
            };
            compared += check(&envelope, &random.bytes(length), PIECE_MAX);
        }
    }
    report("round trip, frames with every sequence number", compared);
}
