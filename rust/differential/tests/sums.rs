//! The 8-bit and the 32-bit sum against the reference.

use differential::random::Random;
use differential::{cases, report};

fn check(bytes: &[u8]) {
    assert_eq!(
        hoursquall::sum8(bytes),
        reference::sum::sum8(bytes),
        "sum8 of {bytes:02x?}"
    );
    assert_eq!(
        hoursquall::sum32(bytes),
        reference::sum::sum32(bytes),
        "sum32 of {bytes:02x?}"
    );
}

/// Every length, from every place in an eight-byte word, in bytes that change the sum if they are
/// read though they stand outside.
#[test]
fn all_short_lengths() {
    let mut random = Random::new(1);
    let fills = [vec![0xFF; 600], random.bytes(600), random.bytes(600)];
    let mut compared = 0;
    for fill in &fills {
        for start in 0..8 {
            for length in 0..=580 {
                check(&fill[start..start + length]);
                compared += 1;
            }
        }
    }
    report("sums, all short lengths", compared);
}

/// One byte alone, so that its weight in the sum shows: at every place of slices that are too short to
/// be cut into quarters, which have 32 bytes and more, and of slices that are cut.
#[test]
fn one_byte_among_zeros() {
    let mut compared = 0;
    for length in (1..=40)
        .chain(125..=131)
        .chain(253..=259)
        .chain([515, 1024, 4098])
    {
        for at in 0..length {
            for byte in [1, 0x7F, 0x80, 0xFF] {
                let mut bytes = vec![0; length];
                bytes[at] = byte;
                check(&bytes);
                compared += 1;
            }
        }
    }
    report("sums, one byte among zeros", compared);
}

#[test]
fn long() {
    let mut random = Random::new(2);
    let around = [4095, 4096, 4097, 65_535, 65_536, 65_537];
    let count = cases(500);
    for _ in 0..count {
        let length = random.pick_or_within(&around, 581..=70_000);
        check(&random.bytes(length));
    }
    report("sums, long", count);
}

/// Every word at its highest, so that each addition carries out of the top.
#[test]
fn highest_words() {
    let bytes = vec![0xFF; 70_000];
    for length in 65_500..=65_600 {
        check(&bytes[..length]);
    }
    report("sums, highest words", 101);
}

#[test]
fn nothing() {
    assert_eq!(hoursquall::sum8(&[]), 0);
    assert_eq!(hoursquall::sum32(&[]), 0);
}
