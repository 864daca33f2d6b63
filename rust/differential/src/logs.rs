//! Frame logs of a day, with every fault that a record and its frame can have.

use crate::faults::Faults;
use crate::frames::{for_reference, other_receiver, random_envelope, wrong_type};
use crate::random::Random;
use crate::records::{self, put_length, record, spoil};
use crate::tables::{put, put_word};
use hoursquall::framelog::{FRAME_MAX, RECORD_SIZE};
use hoursquall::{Envelope, HEADER_SIZE, MESSAGE_MAX, PIECE_MAX};
use reference::frame;

// Places of a frame's words.
const SEQUENCE: usize = 1;
const INDEX: usize = 2;
const ID: usize = 4;
const SENDER: usize = 8;
const RECEIVER: usize = 12;
const STATUS: usize = 16;
const TOTAL: usize = 20;

/// A log, and the receiver that it is played for.
pub struct Log {
    pub us: u32,
    pub bytes: Vec<u8>,
}

impl Log {
    /// A log of so many messages, of which frames are lost or spoilt, with anything in between.
    /// Often its last record is short.
    pub fn any(random: &mut Random, messages: usize) -> Log {
        let us = random.word();
        let mut log = Log { us, bytes: vec![] };
        let one_in = random.pick(&[2, 4, 10, 50]);
        for frame in sent(random, us, messages) {
            if random.within(1..=one_in) == 1 {
                log.suffer(random, frame);
            } else {
                log.push(record(&frame));
            }
        }
        if random.bool() {
            log.end_short(random);
        }
        log
    }

    /// Lays what became of a frame: it is lost, or comes twice, or is spoilt, or its record is, or
    /// such a record stands before it.
    fn suffer(&mut self, random: &mut Random, mut frame: Vec<u8>) {
        match random.within(0..=11) {
            0 | 1 => (),
            2 => self.push(record(&frame).repeat(2)),
            3..=7 => {
                spoil_frame(random, &mut frame, self.us);
                self.push(record(&frame));
            }
            8 => self.push(spoilt_record(random, &frame)),
            9 | 10 => {
                let spoilt = spoilt_record(random, &frame);
                self.push([spoilt, record(&frame)].concat());
            }
            _ => {
                let garbage = garbage(random);
                self.push([garbage, record(&frame)].concat());
            }
        }
    }

    fn push(&mut self, records: Vec<u8>) {
        self.bytes.extend(records);
    }

    /// Any part of a record behind all others, a good one's too.
    fn end_short(&mut self, random: &mut Random) {
        let length = random.pick_or_within(&[1, 2, 4, 256, 259], 1..=RECORD_SIZE - 1);
        let last = match random.within(0..=2) {
            0 => vec![0; RECORD_SIZE],
            1 => random.bytes(RECORD_SIZE),
            _ => {
                let frames = sent(random, self.us, 1);
                record(&frames[0])
            }
        };
        self.push(last[..length].to_vec());
    }
}

/// The frames of messages of a few senders, one message after the other or two at a time.
fn sent(random: &mut Random, us: u32, messages: usize) -> Vec<Vec<u8>> {
    let first = Envelope {
        receiver: us,
        ..random_envelope(random)
    };
    // Alike but for a word, so that only it tells them apart.
    let numbered = Envelope {
        sequence: first.sequence.wrapping_add(1),
        ..first
    };
    let other = Envelope {
        sender: other_receiver(random, first.sender),
        ..first
    };
    let mut frames: Vec<Vec<u8>> = vec![];
    for _ in 0..messages {
        let envelope = random.pick(&[first, numbered, other]);
        let pieces = pieces(random);
        let pieces: Vec<&[u8]> = pieces.iter().map(Vec::as_slice).collect();
        let message = frame::framed(&for_reference(&envelope), &pieces);
        let since = frames.len().saturating_sub(message.len());
        if random.within(0..=3) > 0 {
            frames.extend(message);
            continue;
        }
        let before = frames.split_off(since);
        frames.extend(merged(random, before, message));
    }
    frames
}

/// Two lists as one, each in its order.
fn merged(random: &mut Random, first: Vec<Vec<u8>>, second: Vec<Vec<u8>>) -> Vec<Vec<u8>> {
    let (mut first, mut second) = (first.into_iter(), second.into_iter());
    let mut all = vec![];
    while first.len() + second.len() > 0 {
        let (one, other) = if random.bool() {
            (&mut first, &mut second)
        } else {
            (&mut second, &mut first)
        };
        all.extend(one.next().or_else(|| other.next()));
    }
    all
}

/// The pieces of a message: few of any length, or many; the longest message, or one that is too
/// long, or empty.
fn pieces(random: &mut Random) -> Vec<Vec<u8>> {
    if random.within(0..=9) == 0 {
        let total = random.pick(&[0, 0, MESSAGE_MAX, MESSAGE_MAX + 1]);
        if total == 0 {
            return vec![vec![]];
        }
        let message = random.bytes(total);
        return message.chunks(PIECE_MAX).map(<[u8]>::to_vec).collect();
    }
    let longest = random.pick_or_within(&[1, 2, PIECE_MAX], 1..=PIECE_MAX);
    let count = random.pick_or_within(&[1, 2, 3], 1..=12);
    let piece = |_| {
        let length = random.within(1..=longest);
        random.bytes(length)
    };
    (0..count).map(piece).collect()
}

/// Changes a frame so that it is mostly refused: by its header, as another one than the next, by
/// its words, by its data or by the message's length.
pub fn spoil_frame(random: &mut Random, frame: &mut Vec<u8>, us: u32) {
    match random.within(0..=10) {
        0 => frame.truncate(random.pick_or_within(&[0, 1, 23], 0..=HEADER_SIZE - 1)),
        1 => frame[0] = wrong_type(random),
        2 => put(frame, RECEIVER, &other_receiver(random, us).to_le_bytes()),
        3 => {
            let index = random.pick_or_within(&[0, 1, 2, 256, 0xFFFF], 0..=20);
            put(frame, INDEX, &(index as u16).to_le_bytes());
        }
        4 => frame[SEQUENCE] ^= 1 << random.within(0..=7),
        5 => {
            let place = random.pick(&[ID, SENDER, STATUS, TOTAL]);
            frame[place + random.within(0..=3)] ^= 1 << random.within(0..=7);
        }
        6 | 7 => frame.truncate(HEADER_SIZE),
        8 | 9 => frame.resize(random.pick_or_within(&[FRAME_MAX], 25..=FRAME_MAX), 0xA5),
        _ => {
            put(frame, INDEX, &[0, 0]);
            let total = random.pick_or_within(&[4097, 5000, 1 << 31], 0..=5000);
            put_word(frame, TOTAL, total);
        }
    }
}

/// The record of a frame with one or several of the faults 51, 52 and 53.
fn spoilt_record(random: &mut Random, frame: &[u8]) -> Vec<u8> {
    let mut record = record(frame);
    let set = 2 * random.within(1..=7);
    spoil(random, &mut record, Faults::new(&records::ORDER, set));
    record
}

/// A record of any bytes, or one whose frame has any.
pub fn garbage(random: &mut Random) -> Vec<u8> {
    let mut record = random.bytes(RECORD_SIZE);
    match random.within(0..=3) {
        0 => record.fill(0),
        1 => {
            put_length(&mut record, FRAME_MAX);
            put(&mut record, 2, &[0, 0]);
        }
        2 => put_length(&mut record, random.within(0..=FRAME_MAX)),
        _ => (),
    }
    record
}
