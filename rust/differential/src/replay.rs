//! The player's calls of both implementations, on the same records.

use crate::assert_each;
use crate::memory::{Lent, Memory, Shown};
use crate::random::Random;
use crate::reassembly::{block_of, for_library, number, numbers_of, state_of, Block};
use hoursquall::replay::{Player, PLAYER_NUMBERS};
use hoursquall::{raw, Verdict, MESSAGE_MAX};
use reference::reassembly::{self, Open, State, Words};
use reference::replay::{self, Played};
use std::fmt::Arguments;

/// A player as the library has it.
pub type Numbers = [u64; PLAYER_NUMBERS];

/// The buffer that a player is lent.
pub type Buffer = [u8; MESSAGE_MAX];

/// What numbers that are no state are read as: no buffer is consistent with it.
const NO_STATE: State = State::Open(Open {
    words: Words {
        sequence: 0,
        id: 0,
        sender: 0,
        status: 0,
        total: 0,
    },
    next: 0,
    filled: 0,
});

/// Both implementations side by side, and the safe wrapper besides. Each goes on from what its last
/// call left; each call, and all that it was lent, is compared.
pub struct Machine {
    us: u32,
    library: Kept,
    reference: Kept,
    wrapper: Player,
}

/// What is lent to call after call.
#[derive(Clone)]
struct Kept {
    player: Memory<u64>,
    buffer: Memory<u8>,
    words: Memory<u32>,
    read: Memory<usize>,
}

impl Machine {
    pub fn new(random: &mut Random, us: u32, player: Numbers, buffer: Buffer) -> Machine {
        let kept = Kept {
            player: Memory::new(&player, random.u64()),
            buffer: Memory::new(&buffer, random.u8()),
            words: Memory::new(&[0; 5].map(|_| random.u32()), random.u32()),
            read: Memory::new(&[random.usize()], random.usize()),
        };
        Machine {
            us,
            library: kept.clone(),
            reference: kept,
            wrapper: Player::from_numbers(player, buffer),
        }
    }

    /// The player as it stands after the last call.
    pub fn numbers(&self) -> Numbers {
        self.wrapper.numbers()
    }

    /// The buffer as it stands after the last call.
    pub fn buffer(&self) -> &Buffer {
        self.wrapper.buffer()
    }

    /// Plays one record, and counts it, as a caller of the C function has to.
    pub fn record(&mut self, bytes: &[u8]) -> Verdict {
        let (us, player) = (self.us, self.numbers());
        let mut record = Lent::new(bytes, bytes, 0xA5);
        let expected = self.reference.reference_record(bytes, us);

        let answer = self.library.library_record(record.lent(), us);

        let call = format_args!("{player:?}, record of {} for {us:#x}", Shown(bytes));
        assert_eq!(answer, number(expected), "{call}");
        record.assert_bytes(call);
        self.compare_kept(call);
        let wrapped = self.wrapper.record(bytes, us);
        assert_eq!(wrapped, expected, "{call}");
        for kept in [&mut self.library, &mut self.reference] {
            let number = &mut kept.player.lent()[PLAYER_NUMBERS - 1];
            *number = number.saturating_add(1);
        }
        self.compare_wrapper(call);
        expected
    }

    /// Plays a chunk, and answers how much of it was played, and the lines.
    pub fn chunk(&mut self, bytes: &[u8], out: &[u8]) -> (usize, Vec<u8>) {
        let (us, player) = (self.us, self.numbers());
        let mut chunk = Lent::new(bytes, bytes, 0xA5);
        let mut after = out.to_vec();
        let played = self.reference.reference_chunk(bytes, us, &mut after);
        let [mut library_out, mut wrapper_out] = [(); 2].map(|()| Lent::new(out, &after, 0xA5));

        let written = self
            .library
            .library_chunk(chunk.lent(), us, library_out.lent());

        let room = out.len();
        let chunk_shown = Shown(bytes);
        let call = format_args!("{player:?}, chunk of {chunk_shown} for {us:#x} into {room}");
        assert_eq!(written, played.written, "{call}");
        chunk.assert_bytes(call);
        library_out.assert_bytes(call);
        self.compare_kept(call);
        let wrapped = self.wrapper.chunk(bytes, us, wrapper_out.lent());
        assert_eq!(wrapped, for_wrapper(played), "{call}");
        wrapper_out.assert_bytes(call);
        self.compare_wrapper(call);
        after.truncate(written);
        (played.read, after)
    }

    fn compare_kept(&self, call: Arguments) {
        let Kept {
            player,
            buffer,
            words,
            read,
        } = &self.reference;
        assert_eq!(&self.library.player, player, "{call}");
        assert_eq!(&self.library.words, words, "{call}");
        assert_eq!(&self.library.read, read, "{call}");
        let buffers_agree = &self.library.buffer == buffer;
        assert!(buffers_agree, "the buffer after {call}");
    }

    fn compare_wrapper(&mut self, call: Arguments) {
        let Kept { player, buffer, .. } = &mut self.reference;
        assert_eq!(self.wrapper.numbers(), player.lent(), "{call}");
        let buffers_agree = self.wrapper.buffer() == buffer.lent();
        assert!(buffers_agree, "the wrapper's buffer after {call}");
    }
}

impl Kept {
    fn library_record(&mut self, record: &[u8], us: u32) -> u32 {
        let state = self.player.lent().first_chunk_mut();
        let state: &mut Block = state.expect("nine are lent");
        let buffer: &mut Buffer = self.buffer.lent().try_into().expect("all of it is lent");
        let words: &mut [u32; 5] = self.words.lent().try_into().expect("five are lent");
        // SAFETY: the pointer and the length are those of one slice, and what is written is
        // borrowed exclusively.
        unsafe { raw::hs_replay_record(state, record.as_ptr(), record.len(), us, buffer, words) }
    }

    fn library_chunk(&mut self, chunk: &[u8], us: u32, out: &mut [u8]) -> usize {
        let player: &mut Numbers = self.player.lent().try_into().expect("nine are lent");
        let buffer: &mut Buffer = self.buffer.lent().try_into().expect("all of it is lent");
        // SAFETY: each pointer and length are those of one slice, and what is written is borrowed
        // exclusively.
        unsafe {
            raw::hs_replay_chunk(
                player,
                chunk.as_ptr(),
                chunk.len(),
                us,
                buffer,
                out.as_mut_ptr(),
                out.len(),
                &mut self.read.lent()[0],
            )
        }
    }

    fn reference_record(&mut self, record: &[u8], us: u32) -> Verdict {
        let answer = replay::play(self.state(), record, us, self.buffer.lent());
        // What is not read leaves the numbers as they are, whatever they are.
        if !matches!(answer.verdict, reassembly::Verdict::Refused(1..=4 | 50..)) {
            self.set_state(answer.state);
        }
        if let reassembly::Verdict::Delivered(words) = answer.verdict {
            self.words.lent().copy_from_slice(&numbers_of(words));
        }
        for_library(answer.verdict)
    }

    fn reference_chunk(&mut self, chunk: &[u8], us: u32, out: &mut [u8]) -> Played {
        let mut player = replay::Player {
            state: self.state(),
            number: self.player.lent()[PLAYER_NUMBERS - 1],
        };
        let played = player.chunk(chunk, us, self.buffer.lent(), out);
        // The numbers are written anew, unless nothing was played.
        if played.read > 0 {
            self.set_state(player.state);
            self.player.lent()[PLAYER_NUMBERS - 1] = player.number;
        }
        self.read.lent()[0] = played.read;
        played
    }

    fn state(&mut self) -> State {
        let block = self.player.lent().first_chunk().expect("nine are lent");
        state_of(*block).unwrap_or(NO_STATE)
    }

    fn set_state(&mut self, state: State) {
        let block = self.player.lent().first_chunk_mut();
        *block.expect("nine are lent") = block_of(state);
    }
}

/// The same in the wrapper's type.
fn for_wrapper(Played { read, written }: Played) -> hoursquall::replay::Played {
    hoursquall::replay::Played { read, written }
}

/// One more than the highest answer.
const ANSWERS: usize = 101;

/// How often each answer was given, so that a test that misses one fails.
pub struct Seen([usize; ANSWERS]);

impl Seen {
    pub fn new() -> Seen {
        Seen([0; ANSWERS])
    }

    /// Counts what a record led to.
    pub fn verdict(&mut self, verdict: Verdict) {
        self.0[number(verdict) as usize] += 1;
    }

    /// Counts what lines say.
    pub fn lines(&mut self, text: &[u8]) {
        let text = std::str::from_utf8(text).expect("it is text");
        for line in text.lines() {
            let answer = match line.split(' ').nth(1).expect("what the record led to") {
                "more" => 0,
                "delivered" => 100,
                refusal => refusal.parse().expect("a number"),
            };
            self.0[answer] += 1;
        }
    }

    /// Each of these answers was given often enough.
    pub fn assert_each(&self, what: &str, answers: &[usize], least: usize) {
        assert_each(what, &self.0, answers, least);
    }
}

impl Default for Seen {
    fn default() -> Seen {
        Seen::new()
    }
}
