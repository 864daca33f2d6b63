//! One step of the reassembly against the reference, from any state.

use differential::frames::{other_receiver, wrong_type};
use differential::random::Random;
use differential::reassembly::{Block, Machine};
use differential::{cases, report};
use hoursquall::{Verdict, MESSAGE_MAX, PIECE_MAX};
use reference::frame::{encode, Header};

/// The refusals in their order.
const ORDER: [u32; 11] = [11, 1, 2, 3, 4, 5, 6, 7, 10, 8, 9];

/// The longest buffer that is lent.
const BUFFER_MAX: usize = 5000;

/// Data Total Sizes at the limits of a message and of a word.
const TOTALS: [u64; 10] = [
    0,
    1,
    2,
    3,
    4095,
    4096,
    4097,
    65_536,
    (1 << 32) - 1,
    (1 << 32) + 3,
];

// Places in a state.
const KIND: usize = 0;
const SEQUENCE: usize = 1; // the first of the carried words
const TOTAL: usize = 5; // the last of them
const NEXT: usize = 6;
const FILLED: usize = 7;

/// What one call is given.
struct Case {
    state: Block,
    buffer: usize,
    header: Header,
    data: usize,
}

impl Case {
    /// The frame, before any byte of it is spoilt.
    fn frame(&self, random: &mut Random) -> Vec<u8> {
        [encode(&self.header), random.bytes(self.data)].concat()
    }

    fn check(&self, random: &mut Random) -> Verdict {
        let frame = self.frame(random);
        check(random, self, &frame, self.header.receiver)
    }
}

/// Compares one call, and all that it was lent, with the reference.
fn check(random: &mut Random, case: &Case, frame: &[u8], us: u32) -> Verdict {
    let buffer = random.bytes(case.buffer);
    Machine::new(random, us, case.state, &buffer).step(frame)
}

/// A header with any words, for a message of this length.
fn header(random: &mut Random, index: usize, total: usize) -> Header {
    Header {
        sequence: random.u8(),
        index: index as u16,
        id: random.word(),
        sender: random.word(),
        receiver: random.word(),
        status: random.word(),
        total: total as u32,
    }
}

/// A state that is open with the header's words.
fn open(header: &Header, next: usize, filled: usize) -> Block {
    [
        1,
        header.sequence.into(),
        header.id.into(),
        header.sender.into(),
        header.status.into(),
        header.total.into(),
        next as u64,
        filled as u64,
    ]
}

/// The refusal at a place of the order, and any of those behind it.
fn faults(random: &mut Random, first: usize) -> Vec<u32> {
    let mut faults = Vec::new();
    for (place, fault) in ORDER.into_iter().enumerate() {
        if place == first || place > first && random.bool() {
            faults.push(fault);
        }
    }
    faults
}

/// A case with these faults. Of those that no frame can have together, it has the first.
fn case(random: &mut Random, faults: &[u32]) -> Case {
    let about_index = faults.iter().find(|fault| [5, 6, 7, 10].contains(fault));
    let begins = about_index.map_or(random.bool(), |&fault| fault == 10);
    let mut case = if begins {
        beginning(random, faults)
    } else {
        continuing(random, faults)
    };
    if faults.contains(&11) {
        spoil_state(random, &mut case);
    }
    case
}

/// A frame with Index 0, and any legal state before it.
fn beginning(random: &mut Random, faults: &[u32]) -> Case {
    let Case { mut state, .. } = continuing(random, &[]);
    let mut shortest = state[TOTAL] as usize;
    if random.bool() {
        state[KIND] = 0;
        shortest = usize::from(faults.contains(&8)); // else no message but the empty one passes
    }
    let buffer = buffer(random, shortest);
    let total = total(random, buffer.min(MESSAGE_MAX), faults);
    Case {
        state,
        buffer,
        header: header(random, 0, total),
        data: data(random, total, faults),
    }
}

/// Data Total Size in a frame with Index 0, if a message may have `longest` bytes.
fn total(random: &mut Random, longest: usize, faults: &[u32]) -> usize {
    if faults.contains(&10) {
        let over = [
            longest + 1,
            4097,
            5000,
            longest + 65_536,
            1 << 31,
            (1 << 32) - 1,
        ];
        return random.pick(&over);
    }
    if faults.contains(&8) {
        return random.pick_or_within(&[1, longest], 1..=longest);
    }
    let longest = if faults.contains(&9) {
        longest.min(PIECE_MAX - 1)
    } else {
        longest
    };
    random.pick_or_within(&[0, longest.min(1), longest], 0..=longest)
}

/// A frame that is the next one of the open message, but for the faults.
fn continuing(random: &mut Random, faults: &[u32]) -> Case {
    let missing = if faults.contains(&9) {
        random.pick_or_within(&[1, PIECE_MAX - 1], 1..=PIECE_MAX - 1)
    } else {
        random.pick_or_within(&[1, 2, 231, 232, 233, 4095], 1..=4095)
    };
    let most = MESSAGE_MAX - missing;
    let filled = random.pick_or_within(&[1, most], 1..=most);
    let next = random.pick_or_within(&[1, filled], 1..=filled);
    let mut header = header(random, next, filled + missing);
    let mut state = open(&header, next, filled);
    let mut shortest = filled + missing;
    if faults.contains(&5) {
        state[KIND] = 0;
        shortest = 0;
    }
    if faults.contains(&6) {
        header.index = wrong_index(random, next);
    }
    if faults.contains(&7) {
        change_words(random, &mut header);
    }
    Case {
        state,
        buffer: buffer(random, shortest),
        header,
        data: data(random, missing, faults),
    }
}

/// Any other Index but 0, often one that is close, or alike in one of its bytes.
fn wrong_index(random: &mut Random, next: usize) -> u16 {
    let any = random.within(1..=65_535);
    let wrong = random.pick(&[next - 1, next + 1, next ^ 0x100, next + 0x1000, 65_535, any]);
    if wrong == 0 || wrong == next {
        return next as u16 + 1;
    }
    wrong as u16
}

/// Changes one or several of the carried words, each by one bit or more.
fn change_words(random: &mut Random, header: &mut Header) {
    let words = [
        &mut header.id,
        &mut header.sender,
        &mut header.status,
        &mut header.total,
    ];
    let several = random.within(1..=31);
    let changed = random.pick(&[1, 2, 4, 8, 16, several]);
    for (place, word) in words.into_iter().enumerate() {
        if changed & (1 << place) > 0 {
            *word = other_receiver(random, *word);
        }
    }
    if changed & 16 > 0 {
        header.sequence ^= random.pick_or_within(&[1, 0x10, 0x80, 0xFF], 1..=255) as u8;
    }
}

/// How much data the frame has, if this much is missing.
fn data(random: &mut Random, missing: usize, faults: &[u32]) -> usize {
    if faults.contains(&8) {
        return 0;
    }
    if faults.contains(&9) && missing < PIECE_MAX {
        return random.pick_or_within(&[missing + 1, PIECE_MAX], missing + 1..=PIECE_MAX);
    }
    let least = missing.min(1);
    let most = missing.min(PIECE_MAX);
    random.pick_or_within(&[least, most], least..=most)
}

/// The length of a buffer that is long enough for this many bytes.
fn buffer(random: &mut Random, shortest: usize) -> usize {
    let limits = [0, 1, 4096, BUFFER_MAX].map(|limit| shortest.max(limit));
    if random.bool() {
        return random.pick(&[shortest, shortest + 1]);
    }
    random.pick_or_within(&limits, shortest..=BUFFER_MAX)
}

/// Makes the state one that is neither fresh nor consistent, by one step or by far.
fn spoil_state(random: &mut Random, case: &mut Case) {
    let Case { state, buffer, .. } = case;
    state[KIND] = 1;
    match random.within(0..=9) {
        0 => state[KIND] = random.pick(&[2, 3, 256, 257, 1 << 32, (1 << 32) + 1, u64::MAX]),
        1 => state[random.within(SEQUENCE + 1..=TOTAL)] += 1 << random.within(32..=63),
        2 => state[SEQUENCE] += 1 << random.within(8..=63),
        3 => state[NEXT] = 0,
        4 => state[NEXT] = state[FILLED] + 1,
        5 => state[FILLED] = state[TOTAL],
        6 => state[random.pick(&[NEXT, FILLED])] += 1 << random.within(16..=63),
        7 => state[TOTAL] = random.pick(&[0, 1]),
        8 => {
            state[TOTAL] = random.pick(&[4097, 5000, (1 << 32) - 1]);
            *buffer = BUFFER_MAX;
        }
        _ => *buffer = random.pick(&[0, 1, state[TOTAL] as usize - 1]),
    }
}

/// Each refusal in turn as the first, and none, with any of those behind it besides, so that
/// their order shows.
#[test]
fn faults_in_order() {
    let mut random = Random::new(60);
    let count = cases(300_000);
    for turn in 0..count {
        let faults = faults(&mut random, turn % (ORDER.len() + 1));
        let case = case(&mut random, &faults);
        let mut frame = case.frame(&mut random);
        let us = spoil_frame(&mut random, &mut frame, case.header.receiver, &faults);
        let verdict = check(&mut random, &case, &frame, us);
        match faults.first() {
            Some(&first) => assert_eq!(verdict, Verdict::Refused(first)),
            None => assert!(!matches!(verdict, Verdict::Refused(_))),
        }
    }
    report("step, faults in order", count);
}

/// Gives the frame those of the faults 1 to 3, and answers our ID, which it has or, with 4,
/// has not.
fn spoil_frame(random: &mut Random, frame: &mut Vec<u8>, receiver: u32, faults: &[u32]) -> u32 {
    if faults.contains(&3) {
        frame[0] = wrong_type(random);
    }
    if faults.contains(&1) {
        frame.truncate(random.pick_or_within(&[0, 1, 12, 16, 23], 0..=23));
    } else if faults.contains(&2) {
        let length = random.pick_or_within(&[257, 258, 280, 512], 257..=600);
        frame.resize(length, 0xA5);
    }
    if faults.contains(&4) {
        return other_receiver(random, receiver);
    }
    receiver
}

#[test]
fn all_small_sizes() {
    let mut random = Random::new(61);
    let mut compared = 0;
    for state in small_states(&mut random) {
        for buffer in 0..=5 {
            for index in 0..=4 {
                compared += check_small_frames(&mut random, state, buffer, index);
            }
        }
    }
    report("step, all small sizes", compared);
}

fn check_small_frames(random: &mut Random, state: Block, buffer: usize, index: usize) -> usize {
    let mut compared = 0;
    for (total, sequence) in (0..=5).flat_map(|total| [7, 8].map(|sequence| (total, sequence))) {
        for data in 0..=4 {
            let mut header = header(random, index, total);
            header.sequence = sequence;
            [header.id, header.sender, header.status] = [1, 2, 3];
            let case = Case {
                state,
                buffer,
                header,
                data,
            };
            case.check(random);
            compared += 1;
        }
    }
    compared
}

/// Fresh, open with small numbers, and of no kind.
fn small_states(random: &mut Random) -> Vec<Block> {
    let mut states = vec![[0; 8], [2, 7, 1, 2, 3, 4, 1, 1]];
    for (total, next) in (0..=4).flat_map(|total| (0..=4).map(move |next| (total, next))) {
        for filled in 0..=4 {
            states.push([1, 7, 1, 2, 3, total, next, filled]);
        }
        states.push([0, random.u64(), 1, 2, 3, total, next, random.u64()]);
    }
    states
}

/// Every number of the state around its limits, and where fewer bits would make it a legal one.
#[test]
fn limits_of_the_state() {
    let mut random = Random::new(62);
    let mut compared = 0;
    for total in TOTALS {
        for filled in around(total) {
            for next in around(filled) {
                for buffer in around(total) {
                    compared += check_limits(&mut random, [total, filled, next, buffer]);
                }
            }
        }
    }
    report("step, limits of the state", compared);
}

fn around(number: u64) -> [u64; 8] {
    [
        0,
        1,
        number.saturating_sub(1),
        number,
        number + 1,
        number.wrapping_add(1 << 16),
        number.wrapping_add(1 << 32),
        number.wrapping_sub(1 << 63),
    ]
}

/// The next frame, and one that begins anew.
fn check_limits(random: &mut Random, [total, filled, next, buffer]: [u64; 4]) -> usize {
    for index in [next, 0] {
        let header = header(random, index as usize, total as usize);
        let mut state = open(&header, next as usize, filled as usize);
        state[TOTAL] = total;
        let case = Case {
            state,
            buffer: buffer.min(BUFFER_MAX as u64) as usize,
            header,
            data: random.within(0..=3),
        };
        case.check(random);
    }
    2
}

/// Two sequence numbers, where no other word differs: at the next Index 7 exactly where they are not
/// the same, at another 6, and Index 0 begins anew.
#[test]
fn every_pair_of_sequence_numbers() {
    let mut random = Random::new(64);
    let mut compared = 0;
    for (opened, sequence) in (0..=255).flat_map(|a| (0..=255).map(move |b| (a, b))) {
        let mut header = header(&mut random, 2, 5);
        header.sequence = opened;
        let state = open(&header, 2, 3);
        header.sequence = sequence;
        let next = if opened == sequence {
            Verdict::More
        } else {
            Verdict::Refused(7)
        };
        let elsewhere = random.pick(&[1, 3, 4]);
        let expected = [
            (2, next),
            (elsewhere, Verdict::Refused(6)),
            (0, Verdict::More),
        ];
        for (index, verdict) in expected {
            header.index = index;
            assert_eq!(check_one_byte(&mut random, state, header), verdict);
            compared += 1;
        }
    }
    report("step, every pair of sequence numbers", compared);
}

/// A state whose sequence number is no byte, though its lowest byte is the frame's.
#[test]
fn wide_sequence_numbers() {
    let mut random = Random::new(65);
    let mut compared = 0;
    for (sequence, bit) in (0..=255).flat_map(|a| (8..=63).map(move |bit| (a, bit))) {
        let mut header = header(&mut random, 2, 5);
        header.sequence = sequence;
        let mut state = open(&header, 2, 3);
        state[SEQUENCE] += 1 << bit;
        let verdict = check_one_byte(&mut random, state, header);
        assert_eq!(verdict, Verdict::Refused(11));
        compared += 1;
    }
    report("step, wide sequence numbers", compared);
}

/// A frame with one byte of data, and a buffer of five.
fn check_one_byte(random: &mut Random, state: Block, header: Header) -> Verdict {
    let (buffer, data) = (5, 1);
    let case = Case {
        state,
        buffer,
        header,
        data,
    };
    case.check(random)
}

/// Numbers that know nothing of each other.
#[test]
fn garbage() {
    let mut random = Random::new(63);
    let count = cases(100_000);
    for _ in 0..count {
        let index = random.pick_or_within(&[0, 1, 2], 0..=65_535);
        let total = random.usize() >> random.within(32..=63);
        let mut state = [0; 8].map(|_| random.u64() >> random.within(0..=63));
        state[KIND] = random.pick(&[0, 1, 1, 2, state[KIND]]);
        state[SEQUENCE] &= random.pick(&[0xFF, u64::MAX]); // often a byte
        let case = Case {
            state,
            buffer: random.within(0..=BUFFER_MAX),
            header: header(&mut random, index, total),
            data: random.within(0..=PIECE_MAX + 1),
        };
        case.check(&mut random);
    }
    report("step, garbage", count);
}
