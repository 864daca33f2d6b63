//! Random inputs, the same on every machine.

use std::ops::RangeInclusive;

/// The generator SplitMix64.
pub struct Random {
    state: u64,
}

impl Random {
    pub fn new(seed: u64) -> Self {
        Random { state: seed }
    }

    pub fn u64(&mut self) -> u64 {
        self.state = self.state.wrapping_add(0x9E37_79B9_7F4A_7C15);
        let mut z = self.state;
        z = (z ^ (z >> 30)).wrapping_mul(0xBF58_476D_1CE4_E5B9);
        z = (z ^ (z >> 27)).wrapping_mul(0x94D0_49BB_1331_11EB);
        z ^ (z >> 31)
    }

    pub fn usize(&mut self) -> usize {
        self.u64() as usize
    }

    pub fn u32(&mut self) -> u32 {
        self.u64() as u32
    }

    pub fn u8(&mut self) -> u8 {
        self.u64() as u8
    }

    pub fn bool(&mut self) -> bool {
        self.u64() & 1 == 1
    }

    pub fn within(&mut self, range: RangeInclusive<usize>) -> usize {
        let (low, high) = range.into_inner();
        low + self.usize() % (high - low + 1)
    }

    pub fn pick<T: Copy>(&mut self, choices: &[T]) -> T {
        choices[self.within(0..=choices.len() - 1)]
    }

    /// One of the choices or, as often, a number in the range.
    pub fn pick_or_within(&mut self, choices: &[usize], range: RangeInclusive<usize>) -> usize {
        if self.bool() {
            self.pick(choices)
        } else {
            self.within(range)
        }
    }

    /// A word of a frame: any number, and often one whose bytes or bits are at a limit.
    pub fn word(&mut self) -> u32 {
        let any = self.u32();
        self.pick(&[any, any, any, 0, 1, 0xFF, 0x8000_0000, u32::MAX])
    }

    pub fn bytes(&mut self, length: usize) -> Vec<u8> {
        let words = (0..length.div_ceil(8)).flat_map(|_| self.u64().to_le_bytes());
        words.take(length).collect()
    }
}
