//! The frame count against the reference.

use differential::memory::Memory;
use differential::random::Random;
use differential::{cases, report};
use hoursquall::raw;

/// Numbers at the limits of sizes and of machine words, where a narrower word would wrap.
const LIMITS: [usize; 24] = [
    0,
    1,
    2,
    231,
    232,
    233,
    255,
    256,
    257,
    4095,
    4096,
    4097,
    (1 << 16) - 1,
    1 << 16,
    (1 << 16) + 1,
    (1 << 16) + 232,
    (1 << 32) - 1,
    1 << 32,
    (1 << 32) + 1,
    (1 << 32) + 232,
    (1 << 63) - 1,
    1 << 63,
    usize::MAX - 1,
    usize::MAX,
];

/// Compares one call, and what it was lent, with the reference.
fn check(random: &mut Random, length: usize, piece_size: usize) {
    let mut frames = Memory::new(&[random.usize()], random.usize());
    let mut frames_after = frames.clone();
    let expected = reference::frame::count(length, piece_size);
    if let Ok(count) = expected {
        frames_after.lent()[0] = count;
    }

    // SAFETY: the pointer is that of one number.
    let answer = unsafe { raw::hs_frame_count(length, piece_size, &mut frames.lent()[0]) };

    let input = format_args!("length {length}, piece size {piece_size}");
    assert_eq!(answer, expected.err().unwrap_or(0), "{input}");
    assert_eq!(frames, frames_after, "{input}");
    assert_eq!(hoursquall::count(length, piece_size), expected, "{input}");
}

#[test]
fn all_short_lengths() {
    let mut random = Random::new(20);
    let mut compared = 0;
    for length in 0..=4200 {
        for piece_size in 0..=260 {
            check(&mut random, length, piece_size);
            compared += 1;
        }
    }
    report("count, all short lengths", compared);
}

#[test]
fn limits() {
    let mut random = Random::new(21);
    let mut compared = 0;
    for length in LIMITS {
        for piece_size in LIMITS {
            check(&mut random, length, piece_size);
            compared += 1;
        }
    }
    report("count, limits", compared);
}

#[test]
fn any_numbers() {
    let mut random = Random::new(22);
    let count = cases(50_000);
    for _ in 0..count {
        let length = random.usize() >> random.within(0..=63);
        let piece_size = random.usize() >> random.within(0..=63);
        check(&mut random, length, piece_size);
    }
    report("count, any numbers", count);
}
