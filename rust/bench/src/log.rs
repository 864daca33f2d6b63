//! A frame log of a busy day, the same on every machine.

use crate::baseline;
use std::io::{self, Write};

/// Whose messages they are.
pub const RECEIVER: u32 = 11;

pub const RECORD_SIZE: usize = 260;

const PIECE_MAX: usize = 232;

/// Writes a log of so many records: messages of mixed lengths, one after another, of which one
/// frame in 100 is lost, and one record in 200 damaged.
pub fn write(out: &mut impl Write, records: usize) -> io::Result<()> {
    let mut random = Random { state: 1 };
    let mut written = 0;
    while written < records {
        for record in message(&mut random).iter().take(records - written) {
            out.write_all(record)?;
            written += 1;
        }
    }
    Ok(())
}

/// The records of a message: half of them are short, and half have up to 4,096 bytes.
fn message(random: &mut Random) -> Vec<[u8; RECORD_SIZE]> {
    let longest = if random.one_in(2) { 64 } else { 4096 };
    let piece_size = if random.one_in(2) { 64 } else { PIECE_MAX };
    let bytes = random.bytes(longest);
    let [sequence, id, sender] = [(); 3].map(|()| random.number() as u32);
    let mut records = vec![];
    for index in 0..bytes.len().div_ceil(piece_size).max(1) {
        let (mut frame, mut length, mut record) = ([0; 256], 0, [0; RECORD_SIZE]);
        let written = baseline::write(
            sequence as u8,
            id,
            sender % 8,
            0,
            RECEIVER,
            &bytes,
            piece_size,
            index,
            &mut frame,
            &mut length,
        );
        let logged = baseline::log_write(&frame[..length], &mut record);
        assert_eq!((written, logged), (0, 0), "the sizes are legal");
        if random.one_in(200) {
            record[random.below(RECORD_SIZE)] ^= 1 << random.below(8);
        }
        if !random.one_in(100) {
            records.push(record);
        }
    }
    records
}

/// The generator SplitMix64.
struct Random {
    state: u64,
}

impl Random {
    fn number(&mut self) -> u64 {
        self.state = self.state.wrapping_add(0x9E37_79B9_7F4A_7C15);
        let mut z = self.state;
        z = (z ^ (z >> 30)).wrapping_mul(0xBF58_476D_1CE4_E5B9);
        z = (z ^ (z >> 27)).wrapping_mul(0x94D0_49BB_1331_11EB);
        z ^ (z >> 31)
    }

    fn below(&mut self, limit: usize) -> usize {
        self.number() as usize % limit
    }

    fn one_in(&mut self, count: usize) -> bool {
        self.below(count) == 0
    }

    /// So many bytes at most.
    fn bytes(&mut self, longest: usize) -> Vec<u8> {
        let length = self.below(longest + 1);
        (0..length).map(|_| self.number() as u8).collect()
    }
}
