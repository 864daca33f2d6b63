//! The notice ring of both implementations, operation by operation.

use crate::memory::Memory;
use crate::random::Random;
use hoursquall::{raw, Refusal};
use reference::notice::{self, Notice, Positions};
use std::fmt::Arguments;

/// Both implementations side by side, and the safe wrapper besides. Each goes on from what its
/// last operation left; each operation, and all that it was lent, is compared.
pub struct Machine {
    library: Lent,
    wrapper: Lent,
    reference: Lent,
}

/// What every operation is lent, besides the data or the output.
#[derive(Clone)]
struct Lent {
    ring: Memory<u8>,
    positions: Memory<usize>,
    id: Memory<u32>,
    length: Memory<usize>,
}

impl Machine {
    pub fn new(random: &mut Random, ring: &[u8], positions: Positions) -> Machine {
        let positions = [positions.read, positions.write];
        let lent = Lent {
            ring: Memory::new(ring, random.u8()),
            positions: Memory::new(&positions, random.usize()),
            id: Memory::new(&[random.u32()], random.u32()),
            length: Memory::new(&[random.usize()], random.usize()),
        };
        Machine {
            library: lent.clone(),
            wrapper: lent.clone(),
            reference: lent,
        }
    }

    pub fn capacity(&mut self) -> usize {
        self.reference.ring.lent().len()
    }

    /// The positions as they stand after the last operation.
    pub fn positions(&mut self) -> Positions {
        self.reference.positions()
    }

    /// The ring as it stands after the last operation.
    pub fn ring(&mut self) -> &[u8] {
        self.reference.ring.lent()
    }

    /// Changes the positions behind the implementations' backs.
    pub fn set_positions(&mut self, positions: Positions) {
        for lent in self.all() {
            lent.set_positions(positions);
        }
    }

    /// Writes over bytes of the ring, from an offset on and past its last byte to its first.
    pub fn damage(&mut self, at: usize, bytes: &[u8]) {
        for lent in self.all() {
            let ring = lent.ring.lent();
            for (place, byte) in bytes.iter().enumerate() {
                ring[(at + place) % ring.len()] = *byte;
            }
        }
    }

    fn all(&mut self) -> [&mut Lent; 3] {
        [&mut self.library, &mut self.wrapper, &mut self.reference]
    }

    /// Posts a notice on both implementations, and compares.
    pub fn post(&mut self, id: u32, bytes: &[u8]) -> Result<(), Refusal> {
        let before = (self.capacity(), self.positions());
        let mut data = Memory::new(bytes, 0xA5);
        let data_before = data.clone();
        let expected = self.reference.reference_post(id, bytes);

        let answer = self.library.library_post(id, data.lent());

        let length = bytes.len();
        let input = format_args!("ring {before:?}, post of {length} bytes");
        assert_eq!(answer, expected.err().unwrap_or(0), "{input}");
        assert_eq!(self.wrapper.wrapper_post(id, bytes), expected, "{input}");
        assert_eq!(data, data_before, "{input}");
        self.compare(input);
        expected
    }

    /// Takes a notice on both implementations, and compares.
    pub fn take(&mut self, out: &[u8]) -> Result<Notice, Refusal> {
        let before = (self.capacity(), self.positions());
        let mut library_out = Memory::new(out, 0xA5);
        let [mut wrapper_out, mut reference_out] = [(); 2].map(|()| library_out.clone());
        let expected = self.reference.reference_take(reference_out.lent());

        let answer = self.library.library_take(library_out.lent());

        let length = out.len();
        let input = format_args!("ring {before:?}, take into {length} bytes");
        assert_eq!(answer, number(&expected), "{input}");
        let wrapped = self.wrapper.wrapper_take(wrapper_out.lent());
        assert_eq!(wrapped, answer, "{input}");
        assert_eq!(library_out, reference_out, "{input}");
        assert_eq!(wrapper_out, reference_out, "{input}");
        self.compare(input);
        expected
    }

    fn compare(&mut self, input: Arguments) {
        for lent in [&self.library, &self.wrapper] {
            assert_eq!(lent.positions, self.reference.positions, "{input}");
            assert_eq!(lent.id, self.reference.id, "{input}");
            assert_eq!(lent.length, self.reference.length, "{input}");
            let rings_agree = lent.ring == self.reference.ring;
            assert!(rings_agree, "the ring after {input}");
        }
    }
}

impl Lent {
    fn positions(&mut self) -> Positions {
        let &mut [read, write] = self.two_positions();
        Positions { read, write }
    }

    fn set_positions(&mut self, positions: Positions) {
        *self.two_positions() = [positions.read, positions.write];
    }

    fn two_positions(&mut self) -> &mut [usize; 2] {
        self.positions.lent().try_into().expect("two are lent")
    }

    fn library_post(&mut self, id: u32, data: &[u8]) -> u32 {
        let positions: &mut [usize; 2] = self.positions.lent().try_into().expect("two are lent");
        let ring = self.ring.lent();
        let (start, length) = (ring.as_mut_ptr(), ring.len());
        // SAFETY: each pointer and length are those of one slice, and what is written is borrowed
        // exclusively.
        unsafe { raw::hs_notice_post(start, length, positions, id, data.as_ptr(), data.len()) }
    }

    fn library_take(&mut self, out: &mut [u8]) -> u32 {
        let positions: &mut [usize; 2] = self.positions.lent().try_into().expect("two are lent");
        let ring = self.ring.lent();
        // SAFETY: each pointer and length are those of one slice, and what is written is borrowed
        // exclusively.
        unsafe {
            raw::hs_notice_take(
                ring.as_ptr(),
                ring.len(),
                positions,
                out.as_mut_ptr(),
                out.len(),
                &mut self.id.lent()[0],
                &mut self.length.lent()[0],
            )
        }
    }

    fn wrapper_post(&mut self, id: u32, data: &[u8]) -> Result<(), Refusal> {
        let mut positions = self.wrapper_positions();
        let answer = positions.post(self.ring.lent(), id, data);
        *self.two_positions() = [positions.read, positions.write];
        answer
    }

    fn wrapper_take(&mut self, out: &mut [u8]) -> u32 {
        let mut positions = self.wrapper_positions();
        let answer = positions.take(self.ring.lent(), out);
        *self.two_positions() = [positions.read, positions.write];
        if let Ok(notice) = &answer {
            self.id.lent()[0] = notice.id;
            self.length.lent()[0] = notice.length;
        }
        number(&answer)
    }

    fn wrapper_positions(&mut self) -> hoursquall::Positions {
        let &mut [read, write] = self.two_positions();
        hoursquall::Positions { read, write }
    }

    fn reference_post(&mut self, id: u32, data: &[u8]) -> Result<(), Refusal> {
        let mut positions = self.positions();
        let answer = notice::post(self.ring.lent(), &mut positions, id, data);
        self.set_positions(positions);
        answer
    }

    fn reference_take(&mut self, out: &mut [u8]) -> Result<Notice, Refusal> {
        let mut positions = self.positions();
        let answer = notice::take(self.ring.lent(), &mut positions, out);
        self.set_positions(positions);
        if let Ok(notice) = &answer {
            self.id.lent()[0] = notice.id;
            self.length.lent()[0] = notice.data.len();
        }
        answer
    }
}

/// What the C function answers.
fn number<T>(answer: &Result<T, Refusal>) -> u32 {
    match answer {
        Ok(_) => 0,
        Err(refusal) => *refusal,
    }
}
