//! The frame reader against the reference.

use differential::frames::{other_receiver, wrong_type, TYPE_AND_VERSION};
use differential::memory::Memory;
use differential::random::Random;
use differential::{cases, report};
use hoursquall::raw;
use reference::frame::{self, Header};

/// Lengths at the limits of a frame.
const LIMITS: [usize; 6] = [23, 24, 25, 255, 256, 257];

/// Compares one call, and all that it was lent, with the reference.
fn check(random: &mut Random, bytes: &[u8], us: u32) {
    let mut frame = Memory::new(bytes, random.u8());
    let mut header = Memory::new(&[0; 7].map(|_| random.u32()), random.u32());
    let frame_before = frame.clone();
    let mut header_after = header.clone();
    let expected = frame::parse(bytes, us);
    if let Ok(parsed) = &expected {
        header_after.lent().copy_from_slice(&words(parsed));
    }

    let answer = call(frame.lent(), us, header.lent());

    let input = format_args!("frame {bytes:02x?} for {us:#x}");
    assert_eq!(answer, expected.err().unwrap_or(0), "{input}");
    assert_eq!(header, header_after, "{input}");
    assert_eq!(frame, frame_before, "{input}");
    let wrapped = hoursquall::parse(bytes, us).map(|header| words_of_wrapper(&header));
    assert_eq!(wrapped, expected.map(|header| words(&header)), "{input}");
    assert_eq!(hoursquall::data(bytes), frame::data(bytes), "{input}");
}

fn call(frame: &[u8], us: u32, header: &mut [u32]) -> u32 {
    let header: &mut [u32; 7] = header.try_into().expect("seven words are lent");
    // SAFETY: the pointer and the length are those of one slice, and `header` is another's.
    unsafe { raw::hs_frame_parse(frame.as_ptr(), frame.len(), us, header) }
}

fn words(h: &Header) -> [u32; 7] {
    [
        h.sequence.into(),
        h.index.into(),
        h.id,
        h.sender,
        h.receiver,
        h.status,
        h.total,
    ]
}

fn words_of_wrapper(h: &hoursquall::Header) -> [u32; 7] {
    [
        h.sequence.into(),
        h.index,
        h.id,
        h.sender,
        h.receiver,
        h.status,
        h.total,
    ]
}

/// A frame of this length, and the receiver that reads it; with a wrong byte 0, another
/// receiver's ID, or both, as far as the length lets it have them.
fn frame(random: &mut Random, length: usize, type_fault: bool, us_fault: bool) -> (Vec<u8>, u32) {
    let us = random.word();
    let mut frame = random.bytes(length.max(24));
    frame[0] = TYPE_AND_VERSION;
    if type_fault {
        frame[0] = wrong_type(random);
    }
    frame[12..16].copy_from_slice(&us.to_le_bytes());
    frame.truncate(length);
    if us_fault {
        return (frame, other_receiver(random, us));
    }
    (frame, us)
}

#[test]
fn all_short_lengths() {
    let mut random = Random::new(10);
    let mut compared = 0;
    for length in 0..=300 {
        for faults in 0..4 {
            for _ in 0..8 {
                let (frame, us) = frame(&mut random, length, faults & 1 > 0, faults & 2 > 0);
                check(&mut random, &frame, us);
                compared += 1;
            }
        }
    }
    report("parse, all short lengths", compared);
}

#[test]
fn every_byte_0() {
    let mut random = Random::new(11);
    let mut compared = 0;
    for byte in 0..=255 {
        for length in LIMITS {
            for us_fault in [false, true] {
                let (mut frame, us) = frame(&mut random, length, false, us_fault);
                frame[0] = byte;
                check(&mut random, &frame, us);
                compared += 1;
            }
        }
    }
    report("parse, every byte 0", compared);
}

#[test]
fn every_byte_1() {
    let mut random = Random::new(15);
    let mut compared = 0;
    for byte in 0..=255 {
        for length in LIMITS {
            for faults in 0..4 {
                let (mut frame, us) = frame(&mut random, length, faults & 1 > 0, faults & 2 > 0);
                frame[1] = byte;
                check(&mut random, &frame, us);
                compared += 1;
            }
        }
    }
    report("parse, every byte 1", compared);
}

#[test]
fn valid() {
    let mut random = Random::new(12);
    let count = cases(100_000);
    for _ in 0..count {
        let length = random.pick_or_within(&[24, 25, 255, 256], 24..=256);
        let (frame, us) = frame(&mut random, length, false, false);
        check(&mut random, &frame, us);
    }
    report("parse, valid", count);
}

/// None, one or several faults, so that the order of the refusals shows.
#[test]
fn faults() {
    let mut random = Random::new(13);
    let count = cases(200_000);
    for _ in 0..count {
        let length = match random.within(0..=2) {
            0 => random.pick_or_within(&[0, 1, 12, 15, 16, 23], 0..=23),
            1 => random.pick_or_within(&[24, 25, 255, 256], 24..=256),
            _ => random.pick_or_within(&[257, 258, 280, 512, 4096], 257..=600),
        };
        let (type_fault, us_fault) = (random.bool(), random.bool());
        let (frame, us) = frame(&mut random, length, type_fault, us_fault);
        check(&mut random, &frame, us);
    }
    report("parse, faults", count);
}

#[test]
fn garbage() {
    let mut random = Random::new(14);
    let count = cases(50_000);
    for _ in 0..count {
        let length = random.pick_or_within(&LIMITS, 0..=600);
        let frame = random.bytes(length);
        let us = random.word();
        check(&mut random, &frame, us);
    }
    report("parse, garbage", count);
}
