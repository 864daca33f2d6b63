//! The reassembly of both implementations, call by call.

use crate::memory::Memory;
use crate::random::Random;
use hoursquall::{raw, Reassembly, Verdict, Words};
use reference::reassembly::{self, Answer, Open, State};

/// A state as the library has it.
pub type Block = [u64; 8];

/// Both implementations side by side. Each goes on from the state and the buffer that its last
/// call left; each call, and all that it was lent, is compared.
pub struct Machine {
    us: u32,
    library: Lent,
    reference: Lent,
    wrapper: Reassembly,
    wrapper_buffer: Vec<u8>,
}

/// What every call is lent, besides the frame.
#[derive(Clone)]
struct Lent {
    state: Memory<u64>,
    words: Memory<u32>,
    buffer: Memory<u8>,
}

impl Machine {
    pub fn new(random: &mut Random, us: u32, state: Block, buffer: &[u8]) -> Machine {
        let lent = Lent {
            state: Memory::new(&state, random.u64()),
            words: Memory::new(&[0; 5].map(|_| random.u32()), random.u32()),
            buffer: Memory::new(buffer, random.u8()),
        };
        Machine {
            us,
            library: lent.clone(),
            reference: lent,
            wrapper: Reassembly::from_numbers(state),
            wrapper_buffer: buffer.to_vec(),
        }
    }

    /// The buffer as it stands after the last call.
    pub fn buffer(&self) -> &[u8] {
        &self.wrapper_buffer
    }

    /// Gives a frame to both implementations, and compares.
    pub fn step(&mut self, bytes: &[u8]) -> Verdict {
        let us = self.us;
        let state = self.wrapper.numbers();
        let mut frame = Memory::new(bytes, 0xA5);
        let frame_before = frame.clone();
        let expected = self.reference.reference_step(bytes, us);

        let answer = self.library.library_step(frame.lent(), us);

        let length = self.wrapper_buffer.len();
        let input = format_args!("{state:?}, frame {bytes:02x?} for {us:#x}, buffer of {length}");
        assert_eq!(answer, number(expected), "{input}");
        assert_eq!(self.library.state, self.reference.state, "{input}");
        assert_eq!(self.library.words, self.reference.words, "{input}");
        let buffers_agree = self.library.buffer == self.reference.buffer;
        assert!(buffers_agree, "the buffer after {input}");
        assert_eq!(frame, frame_before, "{input}");
        let wrapped = self.wrapper.step(bytes, us, &mut self.wrapper_buffer);
        assert_eq!(wrapped, expected, "{input}");
        self.compare_wrapper();
        expected
    }

    fn compare_wrapper(&mut self) {
        assert_eq!(self.wrapper.numbers(), self.reference.state.lent());
        let buffers_agree = self.wrapper_buffer == self.reference.buffer.lent();
        assert!(buffers_agree, "the wrapper's buffer");
    }
}

impl Lent {
    fn library_step(&mut self, frame: &[u8], us: u32) -> u32 {
        let state: &mut Block = self.state.lent().try_into().expect("eight are lent");
        let words: &mut [u32; 5] = self.words.lent().try_into().expect("five are lent");
        let buffer = self.buffer.lent();
        let (start, length) = (buffer.as_mut_ptr(), buffer.len());
        // SAFETY: each pointer and length are those of one slice, and what is written is borrowed
        // exclusively.
        unsafe {
            raw::hs_reassembly_step(state, frame.as_ptr(), frame.len(), us, start, length, words)
        }
    }

    fn reference_step(&mut self, frame: &[u8], us: u32) -> Verdict {
        let block: Block = (&*self.state.lent()).try_into().expect("eight are lent");
        let answer = match state_of(block) {
            Some(state) => reassembly::step(state, frame, us, self.buffer.lent()),
            None => Answer {
                verdict: reassembly::Verdict::Refused(11),
                state: State::Fresh,
            },
        };
        // A frame that is not read leaves the numbers as they are, whatever they are.
        if !matches!(answer.verdict, reassembly::Verdict::Refused(1..=4)) {
            self.state.lent().copy_from_slice(&block_of(answer.state));
        }
        if let reassembly::Verdict::Delivered(words) = answer.verdict {
            self.words.lent().copy_from_slice(&numbers_of(words));
        }
        for_library(answer.verdict)
    }
}

/// The state that a block stands for, if it stands for one.
pub(crate) fn state_of(
    [kind, sequence, id, sender, status, total, next, filled]: Block,
) -> Option<State> {
    if kind == 0 {
        return Some(State::Fresh);
    }
    let words = reassembly::Words {
        sequence: sequence.try_into().ok()?,
        id: id.try_into().ok()?,
        sender: sender.try_into().ok()?,
        status: status.try_into().ok()?,
        total: total.try_into().ok()?,
    };
    let open = Open {
        words,
        next,
        filled,
    };
    (kind == 1).then_some(State::Open(open))
}

pub(crate) fn block_of(state: State) -> Block {
    let State::Open(Open {
        words,
        next,
        filled,
    }) = state
    else {
        return [0; 8];
    };
    let [sequence, id, sender, status, total] = numbers_of(words).map(u64::from);
    [1, sequence, id, sender, status, total, next, filled]
}

/// The carried words as the library hands them up.
pub(crate) fn numbers_of(words: reassembly::Words) -> [u32; 5] {
    let sequence = u32::from(words.sequence);
    [sequence, words.id, words.sender, words.status, words.total]
}

/// The same verdict, in the library's type.
pub(crate) fn for_library(verdict: reassembly::Verdict) -> Verdict {
    match verdict {
        reassembly::Verdict::More => Verdict::More,
        reassembly::Verdict::Delivered(words) => Verdict::Delivered(Words {
            sequence: words.sequence,
            id: words.id,
            sender: words.sender,
            status: words.status,
            total: words.total,
        }),
        reassembly::Verdict::Refused(refusal) => Verdict::Refused(refusal),
    }
}

/// What the C function answers.
pub(crate) fn number(verdict: Verdict) -> u32 {
    match verdict {
        Verdict::More => 0,
        Verdict::Delivered(_) => 100,
        Verdict::Refused(refusal) => refusal,
    }
}
