//! The frame writer against the reference.

use differential::frames::{for_reference, random_envelope};
use differential::memory::Memory;
use differential::random::Random;
use differential::{cases, report};
use hoursquall::{raw, Envelope, HEADER_SIZE, PIECE_MAX};

/// What one call is given.
#[derive(Debug)]
struct Case {
    envelope: Envelope,
    message: Vec<u8>,
    piece_size: usize,
    index: usize,
    out: Vec<u8>,
}

impl Case {
    fn new(random: &mut Random, sizes: Sizes) -> Case {
        Case {
            envelope: random_envelope(random),
            message: random.bytes(sizes.message),
            piece_size: sizes.piece,
            index: sizes.index,
            out: random.bytes(sizes.out),
        }
    }

    fn reference(&self) -> Result<(Vec<u8>, usize), u32> {
        let envelope = for_reference(&self.envelope);
        let Case { message, out, .. } = self;
        reference::frame::write(&envelope, message, self.piece_size, self.index, out)
    }

    fn library(&self, message: &[u8], out: &mut [u8], frame_len: &mut usize) -> u32 {
        let envelope = &self.envelope;
        // SAFETY: each pointer and length are those of one slice, and what is written is borrowed
        // exclusively.
        unsafe {
            raw::hs_frame_write(
                envelope.sequence,
                envelope.id,
                envelope.sender,
                envelope.status,
                envelope.receiver,
                message.as_ptr(),
                message.len(),
                self.piece_size,
                self.index,
                out.as_mut_ptr(),
                out.len(),
                frame_len,
            )
        }
    }

    fn wrapper(&self, out: &mut [u8]) -> Result<usize, u32> {
        let Case { message, .. } = self;
        hoursquall::write(&self.envelope, message, self.piece_size, self.index, out)
    }
}

/// The lengths and numbers of one call.
#[derive(Clone, Copy)]
struct Sizes {
    message: usize,
    piece: usize,
    index: usize,
    out: usize,
}

/// Compares one call, and all that it was lent, with the reference.
fn check(random: &mut Random, sizes: Sizes) {
    let case = Case::new(random, sizes);
    let mut message = Memory::new(&case.message, random.u8());
    let mut out = Memory::new(&case.out, random.u8());
    let mut frame_len = Memory::new(&[random.usize()], random.usize());
    let message_before = message.clone();
    let (mut out_after, mut frame_len_after) = (out.clone(), frame_len.clone());
    let expected = case.reference();
    if let Ok((whole, length)) = &expected {
        out_after.lent().copy_from_slice(whole);
        frame_len_after.lent()[0] = *length;
    }
    let expected = expected.map(|(_, length)| length);

    let answer = case.library(message.lent(), out.lent(), &mut frame_len.lent()[0]);

    assert_eq!(answer, expected.err().unwrap_or(0), "{case:02x?}");
    assert_eq!(out, out_after, "{case:02x?}");
    assert_eq!(frame_len, frame_len_after, "{case:02x?}");
    assert_eq!(message, message_before, "{case:02x?}");
    let mut out = case.out.clone();
    assert_eq!(case.wrapper(&mut out), expected, "{case:02x?}");
    assert_eq!(out, out_after.lent(), "{case:02x?}");
}

/// How many frames there would be if no size were refused.
fn frame_count(message: usize, piece: usize) -> usize {
    message.div_ceil(piece.max(1)).max(1)
}

/// How long the frame would be if no size were refused.
fn frame_length(message: usize, piece: usize, index: usize) -> usize {
    let missing = message.saturating_sub(index.saturating_mul(piece));
    HEADER_SIZE + missing.min(piece).min(PIECE_MAX)
}

/// Sizes with the refusals 10, 12, 13 and 14 called for by the bits 0 to 3 of `faults`.
fn sizes(random: &mut Random, faults: usize) -> Sizes {
    let piece = piece_size(random, faults & 2 > 0);
    let message = message_length(random, piece, faults & 1 > 0);
    let index = index(random, message, piece, faults & 4 > 0);
    let frame = frame_length(message, piece, index);
    let out = if faults & 8 > 0 {
        random.pick_or_within(&[0, 23.min(frame - 1), frame - 1], 0..=frame - 1)
    } else {
        random.pick_or_within(&[frame, frame + 1, 256, 257], frame..=frame + 40)
    };
    Sizes {
        message,
        piece,
        index,
        out,
    }
}

fn piece_size(random: &mut Random, fault: bool) -> usize {
    if fault {
        let around = [0, 0, 233, 256, 65_537, (1 << 32) + 1, usize::MAX];
        return random.pick_or_within(&around, 233..=600);
    }
    random.pick_or_within(&[1, 2, 231, 232], 1..=232)
}

fn message_length(random: &mut Random, piece: usize, fault: bool) -> usize {
    if fault {
        return random.pick_or_within(&[4097, 4098, 8192], 4097..=5000);
    }
    let piece = piece.clamp(1, PIECE_MAX);
    let around = [0, 1, piece - 1, piece, piece + 1, 2 * piece, 4095, 4096];
    random.pick_or_within(&around, 0..=4096)
}

/// An Index that has a frame or, with the fault, one that has none, though it would with fewer
/// bits, or if Index times piece size were taken modulo 2^64.
fn index(random: &mut Random, message: usize, piece: usize, fault: bool) -> usize {
    let count = frame_count(message, piece);
    let inside = random.pick_or_within(&[0, count - 1], 0..=count - 1);
    if !fault {
        return inside;
    }
    let wrapping = usize::MAX / piece.max(2) + 1;
    let outside = [
        count,
        count + 1,
        65_535,
        65_536 + inside,
        (1 << 32) + inside,
        (1 << 63) + inside,
        wrapping + inside,
        usize::MAX,
    ];
    random.pick_or_within(&outside, count..=count + 5000)
}

#[test]
fn valid() {
    let mut random = Random::new(30);
    let count = cases(100_000);
    for _ in 0..count {
        let sizes = sizes(&mut random, 0);
        check(&mut random, sizes);
    }
    report("write, valid", count);
}

/// Every set of faults, so that the order of the refusals shows.
#[test]
fn faults() {
    let mut random = Random::new(31);
    let count = cases(200_000);
    for case in 0..count {
        let sizes = sizes(&mut random, case % 16);
        check(&mut random, sizes);
    }
    report("write, faults", count);
}

#[test]
fn all_small_sizes() {
    let mut random = Random::new(32);
    let mut compared = 0;
    for message in 0..=12 {
        for piece in 0..=14 {
            for index in 0..=14 {
                for out in 20..=40 {
                    let sizes = Sizes {
                        message,
                        piece,
                        index,
                        out,
                    };
                    check(&mut random, sizes);
                    compared += 1;
                }
            }
        }
    }
    report("write, all small sizes", compared);
}

#[test]
fn limits() {
    let mut random = Random::new(33);
    let mut compared = 0;
    for message in [0, 1, 231, 232, 233, 464, 4095, 4096, 4097, 65_536, 65_541] {
        for piece in [0, 1, 2, 231, 232, 233, 256, 4096, 65_537, usize::MAX] {
            for index in limits_of_index(message, piece) {
                let frame = frame_length(message, piece, index);
                for out in [0, 23, 24, 25, frame - 1, frame, frame + 1, 255, 256, 257] {
                    let sizes = Sizes {
                        message,
                        piece,
                        index,
                        out,
                    };
                    check(&mut random, sizes);
                    compared += 1;
                }
            }
        }
    }
    report("write, limits", compared);
}

fn limits_of_index(message: usize, piece: usize) -> [usize; 10] {
    let count = frame_count(message, piece);
    [
        0,
        1,
        count - 1,
        count,
        count + 1,
        65_535,
        65_536,
        65_536 + count - 1,
        1 << 32,
        usize::MAX,
    ]
}

/// Sizes that know nothing of each other.
#[test]
fn garbage() {
    let mut random = Random::new(34);
    let count = cases(50_000);
    for _ in 0..count {
        let sizes = Sizes {
            message: random.within(0..=5000),
            piece: random.usize() >> random.within(50..=63),
            index: random.usize() >> random.within(0..=63),
            out: random.within(0..=300),
        };
        check(&mut random, sizes);
    }
    report("write, garbage", count);
}
