//! Records of the frame log, and all that can be wrong with them.

use crate::faults::Faults;
use crate::random::Random;
use crate::tables::put;
use hoursquall::framelog::{FRAME_MAX, HEADER_SIZE, RECORD_SIZE};

/// The refusals of a read, in their order.
pub const ORDER: [u32; 4] = [50, 52, 51, 53];

/// The record of a frame; of one that is too long, as much as there is room for. It is not made by
/// the reference, so that the two are compared.
pub fn record(frame: &[u8]) -> Vec<u8> {
    let mut record = vec![0; HEADER_SIZE];
    put_length(&mut record, frame.len());
    record.extend(frame);
    record.resize(RECORD_SIZE, 0);
    record
}

/// Sets a record's length, which is any.
pub fn put_length(record: &mut [u8], length: usize) {
    put(record, 0, &(length as u16).to_le_bytes());
}

/// The length of a frame that is too long, as a record can say it.
pub fn long_length(random: &mut Random) -> usize {
    let limits = [257, 258, 260, 511, 512, 0x0800, 0x8000, 0xFF00, 0xFFFF];
    random.pick_or_within(&limits, 257..=0xFFFF)
}

/// The length of a slice that is no record.
pub fn other_length(random: &mut Random) -> usize {
    let limits = [0, 1, 2, 3, 4, 256, 259, 261, 264, 516, 520];
    match random.pick_or_within(&limits, 0..=600) {
        RECORD_SIZE => RECORD_SIZE + 1,
        length => length,
    }
}

pub fn non_zero(random: &mut Random) -> u8 {
    let any = random.within(1..=255) as u8;
    random.pick(&[any, any, 1, 0x80, 0xFF])
}

/// Gives a good record these faults.
pub fn spoil(random: &mut Random, record: &mut Vec<u8>, faults: Faults) {
    if faults.has(53) {
        // Behind the longest frame there is no byte that could be one: it loses its last.
        let length = usize::from(u16::from_le_bytes([record[0], record[1]])).min(FRAME_MAX - 1);
        put_length(record, length);
        let (first, last) = (HEADER_SIZE + length, RECORD_SIZE - 1);
        let place = random.pick_or_within(&[first, last], first..=last);
        record[place] = non_zero(random);
    }
    if faults.has(51) {
        let bytes = [non_zero(random), non_zero(random)];
        let either = random.pick(&[[bytes[0], 0], [0, bytes[1]], bytes]);
        put(record, 2, &either);
    }
    if faults.has(52) {
        put_length(record, long_length(random));
    }
    if faults.has(50) {
        record.resize(other_length(random), random.u8());
    }
}
