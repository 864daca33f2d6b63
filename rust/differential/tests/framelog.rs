//! The frame log's records, read and written, against the reference.

use differential::cases;
use differential::faults::Faults;
use differential::framelog::Machine;
use differential::frames::{library_frames, random_envelope};
use differential::random::Random;
use differential::records::{self, long_length, non_zero, other_length, put_length, record, spoil};
use differential::tables::put;
use hoursquall::framelog::{FRAME_MAX, HEADER_SIZE, RECORD_SIZE};
use hoursquall::PIECE_MAX;

const READ_ANSWERS: [usize; 5] = [0, 50, 51, 52, 53];
const WRITE_ANSWERS: [usize; 3] = [0, 50, 52];

/// The refusals of a write, in their order.
const WRITE_ORDER: [u32; 2] = [50, 52];

/// What a frame and a slice of these lengths get, if all else is right.
fn refusal_of(frame_length: usize, length: usize) -> Option<u32> {
    if length != 260 {
        return Some(50);
    }
    (frame_length > 256).then_some(52)
}

/// The length of a frame that has a record.
fn frame_length(random: &mut Random) -> usize {
    random.pick_or_within(&[0, 1, 2, 23, 24, 254, 255, 256], 0..=FRAME_MAX)
}

/// A frame, sometimes one of zeros only, which are the frame's all the same.
fn frame(random: &mut Random, length: usize) -> Vec<u8> {
    match random.within(0..=7) {
        0 => vec![0; length],
        _ => random.bytes(length),
    }
}

/// A record with these faults.
fn faulty(random: &mut Random, faults: Faults) -> Vec<u8> {
    // Behind the longest frame there is no byte that could be one.
    let length = match frame_length(random) {
        FRAME_MAX if faults.has(53) => FRAME_MAX - 1,
        length => length,
    };
    let mut record = record(&frame(random, length));
    spoil(random, &mut record, faults);
    record
}

/// Every length of a frame up to 300 with every length of a slice around that of a record.
#[test]
fn each_length() {
    let mut random = Random::new(140);
    let mut machine = Machine::new(&mut random);
    let others = [0, 1, 2, 3, 4, 5, 24, 128, 130, 252, 300, 512, 516, 520];
    for frame_length in 0..=300 {
        let frame = random.bytes(frame_length);
        for length in (255..=265).chain(others) {
            let refusal = refusal_of(frame_length, length);
            let written = machine.write(&frame, &random.bytes(length));
            assert_eq!(written, refusal.map_or_else(|| Ok(record(&frame)), Err));
            let mut slice = record(&frame);
            slice.resize(length, 0);
            assert_eq!(machine.read(&slice), refusal.map_or(Ok(&frame[..]), Err));
        }
    }
    machine.assert_reads("frame log, each length", &[0, 50, 52], 40);
    machine.assert_writes("frame log, each length", &WRITE_ANSWERS, 40);
}

/// Lengths that would be legal if only some of their bits counted.
#[test]
fn lengths_of_more_bits() {
    let mut random = Random::new(141);
    let mut machine = Machine::new(&mut random);
    let wide = [256, 512, 1 << 12, 1 << 15, 1 << 16, 1 << 17];
    for more in wide {
        for rest in [0, 1, 24, 255, 256] {
            let long = random.bytes(more + rest);
            let refusal = refusal_of(long.len(), RECORD_SIZE);
            let answer = machine.write(&long, &random.bytes(RECORD_SIZE));
            assert_eq!(answer.err(), refusal, "{more} + {rest}");
            let slice = random.bytes(more + RECORD_SIZE);
            assert_eq!(machine.write(&long[..rest], &slice), Err(50));
            let mut slice = record(&long[..rest]);
            slice.resize(more + RECORD_SIZE, 0);
            assert_eq!(machine.read(&slice), Err(50), "{more}");
        }
    }
    machine.assert_reads("frame log, lengths of more bits", &[50], 30);
    machine.assert_writes("frame log, lengths of more bits", &[50, 52], 25);
}

/// Every set of faults of a record, so that each shows alone, and the order of the refusals.
#[test]
fn faults_of_reads() {
    let mut random = Random::new(142);
    let mut machine = Machine::new(&mut random);
    for case in 0..cases(96_000) {
        let faults = Faults::new(&records::ORDER, case % 16);
        let record = faulty(&mut random, faults);
        let answer = machine.read(&record);
        assert_eq!(answer.err(), faults.first(), "{faults:?}");
    }
    machine.assert_reads("frame log, faults of reads", &READ_ANSWERS, 5000);
}

/// The same of writes.
#[test]
fn faults_of_writes() {
    let mut random = Random::new(143);
    let mut machine = Machine::new(&mut random);
    for case in 0..cases(40_000) {
        let faults = Faults::new(&WRITE_ORDER, case % 4);
        let frame_length = if faults.has(52) {
            random.pick_or_within(&[257, 258, 260, 512, 4096], 257..=600)
        } else {
            frame_length(&mut random)
        };
        let length = if faults.has(50) {
            other_length(&mut random)
        } else {
            RECORD_SIZE
        };
        let frame = frame(&mut random, frame_length);
        let answer = machine.write(&frame, &random.bytes(length));
        assert_eq!(answer.err(), faults.first(), "{faults:?}");
    }
    machine.assert_writes("frame log, faults of writes", &WRITE_ANSWERS, 10_000);
}

/// A byte that isn't zero at each place behind the length, for each length: in the frame it is the
/// frame's.
#[test]
fn a_byte_at_each_place() {
    let mut random = Random::new(144);
    let mut machine = Machine::new(&mut random);
    for length in 0..=FRAME_MAX {
        let frame = frame(&mut random, length);
        let end = HEADER_SIZE + length;
        for place in 2..RECORD_SIZE {
            let mut record = record(&frame);
            record[place] = non_zero(&mut random);
            let expected = match place {
                2 | 3 => Err(51),
                _ if place < end => Ok(&record[HEADER_SIZE..end]),
                _ => Err(53),
            };
            assert_eq!(machine.read(&record), expected, "{length}, {place}");
        }
    }
    machine.assert_reads("frame log, a byte at each place", &[0, 51, 53], 500);
}

/// All that bytes 2 and 3 can be.
#[test]
fn bytes_two_and_three() {
    let mut random = Random::new(145);
    let mut machine = Machine::new(&mut random);
    for both in 0..=u16::MAX {
        let length = frame_length(&mut random);
        let mut record = record(&frame(&mut random, length));
        put(&mut record, 2, &both.to_le_bytes());
        let refusal = (both != 0).then_some(51);
        assert_eq!(machine.read(&record).err(), refusal, "{both:#x}");
    }
    machine.assert_reads("frame log, bytes 2 and 3", &[51], 65_535);
}

/// All that a record can say of its frame's length, with zeros behind the frame and without.
#[test]
fn each_length_that_a_record_says() {
    let mut random = Random::new(146);
    let mut machine = Machine::new(&mut random);
    let full = record(&[0xA5; FRAME_MAX]);
    for length in 0..=0xFFFF {
        let frame = random.bytes(length.min(FRAME_MAX));
        let mut good = record(&frame);
        put_length(&mut good, length);
        let refusal = (length > 256).then_some(52);
        assert_eq!(machine.read(&good), refusal.map_or(Ok(&frame[..]), Err));
        let mut full = full.clone();
        put_length(&mut full, length);
        let refusal = refusal.or((length < 256).then_some(53));
        assert_eq!(machine.read(&full).err(), refusal, "{length}");
    }
    machine.assert_reads("frame log, each length said", &[0, 52, 53], 256);
}

/// What is written reads back as that frame, whatever was there before; and what reads as a frame
/// is what is written of it.
#[test]
fn round_trip() {
    let mut random = Random::new(147);
    let mut machine = Machine::new(&mut random);
    for _ in 0..cases(40_000) {
        let length = frame_length(&mut random);
        let frame = frame(&mut random, length);
        let written = machine.write(&frame, &random.bytes(RECORD_SIZE));
        let written = written.expect("the lengths are legal");
        assert_eq!(machine.read(&written), Ok(&frame[..]));
        let loose = loose_record(&mut random);
        if let Ok(frame) = machine.read(&loose) {
            assert_eq!(machine.write(frame, &written), Ok(loose));
        }
    }
    machine.assert_reads("frame log, round trip", &READ_ANSWERS, 1000);
    machine.assert_writes("frame log, round trip", &[0], 50_000);
}

/// Fields that know nothing of each other, each often legal.
fn loose_record(random: &mut Random) -> Vec<u8> {
    let length = match random.within(0..=9) {
        0 => other_length(random),
        _ => RECORD_SIZE,
    };
    let end = random.within(0..=length);
    let mut record = random.bytes(end);
    record.resize(length, 0);
    if length < HEADER_SIZE {
        return record;
    }
    let fit = end.saturating_sub(HEADER_SIZE);
    let (any, long) = (frame_length(random), long_length(random));
    put_length(
        &mut record,
        random.pick(&[fit, fit, fit, fit + 1, any, long]),
    );
    if random.within(0..=3) > 0 {
        put(&mut record, 2, &[0, 0]);
    }
    record
}

#[test]
fn loose_fields() {
    let mut random = Random::new(148);
    let mut machine = Machine::new(&mut random);
    for _ in 0..cases(60_000) {
        let record = loose_record(&mut random);
        let _ = machine.read(&record);
        let length = random.within(0..=300);
        let _ = machine.write(&random.bytes(length), &record);
    }
    machine.assert_reads("frame log, loose fields", &READ_ANSWERS, 1000);
    machine.assert_writes("frame log, loose fields", &WRITE_ANSWERS, 1000);
}

/// Bytes that know nothing of anything.
#[test]
fn garbage() {
    let mut random = Random::new(149);
    let mut machine = Machine::new(&mut random);
    for _ in 0..cases(30_000) {
        let length = random.pick_or_within(&[RECORD_SIZE], 0..=300);
        let mut slice = random.bytes(length);
        let _ = machine.read(&slice);
        if length >= HEADER_SIZE {
            put_length(&mut slice, random.within(0..=FRAME_MAX));
        }
        let _ = machine.read(&slice);
    }
    machine.assert_reads("frame log, garbage", &[50, 51, 52], 1000);
}

/// Logs of messages: a record for each frame, one behind the other.
#[test]
fn logs_of_messages() {
    let mut random = Random::new(150);
    let mut machine = Machine::new(&mut random);
    for _ in 0..cases(1000) {
        let length = random.within(0..=1000);
        let (envelope, message) = (random_envelope(&mut random), random.bytes(length));
        let piece_size = random.pick_or_within(&[PIECE_MAX], 20..=PIECE_MAX);
        let frames = library_frames(&envelope, &message, piece_size);
        let frames = frames.expect("the sizes are legal");
        let mut log = random.bytes(RECORD_SIZE * frames.len());
        for (frame, record) in frames.iter().zip(log.chunks_exact_mut(RECORD_SIZE)) {
            let written = machine.write(frame, record);
            record.copy_from_slice(&written.expect("the lengths are legal"));
        }
        for (frame, record) in frames.iter().zip(log.chunks_exact(RECORD_SIZE)) {
            assert_eq!(machine.read(record), Ok(&frame[..]));
        }
    }
    machine.assert_reads("frame log, logs of messages", &[0], 4000);
    machine.assert_writes("frame log, logs of messages", &[0], 4000);
}
