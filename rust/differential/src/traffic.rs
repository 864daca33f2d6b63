//! Traffic for the reassembly: any messages for us, framed by the rules and sent one after another;
//! any frames lost except those with Index 0, or those too where messages are told apart by their
//! carried words; frames that are refused with 1 to 4 put in anywhere. It is known of each call
//! what it must hand up.

use crate::frames::{for_reference, other_receiver, random_envelope, wrong_type, TYPE_AND_VERSION};
use crate::random::Random;
use hoursquall::{Envelope, Words, MESSAGE_MAX, PIECE_MAX};
use reference::frame;

/// What is handed up.
#[derive(Clone, Debug, PartialEq, Eq)]
pub struct Message {
    pub words: Words,
    pub bytes: Vec<u8>,
}

/// A frame that stands in the traffic, and what its call must hand up.
pub struct Call {
    pub frame: Vec<u8>,
    pub hands_up: Option<Message>,
}

/// Which frames may be lost.
#[derive(Clone, Copy, PartialEq, Eq)]
pub enum Losses {
    AllButIndex0,
    Any,
}

/// A list of calls that grows, and what went into it.
pub struct Traffic {
    pub us: u32,
    losses: Losses,
    /// The carried words of the last message whose Index 0 frame arrived.
    begun: Option<Words>,
    pub calls: Vec<Call>,
    /// How many messages lost no frame.
    pub whole: usize,
    /// How many lost one.
    pub damaged: usize,
    /// How many frames were put in.
    pub put_in: usize,
}

impl Traffic {
    /// Traffic of a few messages, for a buffer of this length.
    pub fn any(random: &mut Random, losses: Losses, buffer: usize) -> Traffic {
        let mut traffic = Traffic::new(random.word(), losses);
        let longest = buffer.min(MESSAGE_MAX);
        // Few, so that messages with the same words follow each other, or with all but one the same.
        let [first, other] = [(); 2].map(|()| Envelope {
            receiver: traffic.us,
            ..random_envelope(random)
        });
        let envelopes = [first, next_number(first), other];
        let mut repeated = length(random, longest);
        for _ in 0..random.within(0..=8) {
            if random.bool() {
                repeated = length(random, longest);
            }
            let bytes = random.bytes(repeated);
            let envelope = random.pick(&envelopes);
            traffic.send(random, envelope, bytes);
        }
        let empty = frame::framed(&for_reference(&envelopes[0]), &[&[]]);
        traffic.put_in_some(random, &[&empty[0]]);
        if random.bool() {
            let bytes = random.bytes(longest.min(40));
            traffic.put_in_message(random, &envelopes[0], &bytes);
        }
        traffic
    }

    fn new(us: u32, losses: Losses) -> Traffic {
        Traffic {
            us,
            losses,
            begun: None,
            calls: Vec::new(),
            whole: 0,
            damaged: 0,
            put_in: 0,
        }
    }

    /// Sends a message, of which frames may be lost, and puts frames in before each.
    fn send(&mut self, random: &mut Random, envelope: Envelope, bytes: Vec<u8>) {
        let pieces = cut(random, &bytes);
        let arrives = arrivals(random, pieces.len(), self.losses);
        let envelope = self.told_apart(envelope, bytes.len(), arrives[0]);
        let frames = frame::framed(&for_reference(&envelope), &pieces);
        for (index, frame) in frames.iter().enumerate() {
            self.put_in_some(random, &[&frames[0], frame]);
            if arrives[index] {
                self.push(frame.clone());
            }
        }
        if arrives.contains(&false) {
            self.damaged += 1;
            return;
        }
        self.whole += 1;
        let last = self.calls.last_mut().expect("the last frame arrived");
        let words = words(&envelope, bytes.len());
        last.hands_up = Some(Message { words, bytes });
    }

    /// The envelope; where a message does not begin, as its Index 0 frame is lost, with another
    /// sequence number if else it would have the words of the last one that did.
    fn told_apart(&mut self, envelope: Envelope, length: usize, begins: bool) -> Envelope {
        let words = words(&envelope, length);
        if begins {
            self.begun = Some(words);
        } else if self.begun == Some(words) {
            return next_number(envelope);
        }
        envelope
    }

    /// Puts in none or a few frames that are refused with 1 to 4, each otherwise like one of
    /// those given, or like nothing.
    fn put_in_some(&mut self, random: &mut Random, like: &[&[u8]]) {
        while random.within(0..=5) == 0 {
            let length = random.within(24..=256);
            let any = random.bytes(length);
            let like = random.pick(like);
            let like = random.pick(&[like, &any]);
            let frame = refused(random, like, self.us);
            self.put_in(frame);
        }
    }

    fn put_in(&mut self, frame: Vec<u8>) {
        let refusal = frame::parse(&frame, self.us).err();
        assert!(matches!(refusal, Some(1..=4)), "put in: {frame:02x?}");
        self.put_in += 1;
        self.push(frame);
    }

    fn push(&mut self, frame: Vec<u8>) {
        let hands_up = None;
        self.calls.push(Call { frame, hands_up });
    }

    /// Puts in the frames of a message for another receiver, in their order, anywhere.
    fn put_in_message(&mut self, random: &mut Random, envelope: &Envelope, bytes: &[u8]) {
        let envelope = Envelope {
            receiver: other_receiver(random, self.us),
            ..*envelope
        };
        let frames = frame::framed(&for_reference(&envelope), &cut(random, bytes));
        let mut frames = frames.into_iter();
        for call in std::mem::take(&mut self.calls) {
            let here = random.pick(&[0, 0, 1, 2]);
            let frames = frames.by_ref().take(here);
            frames.for_each(|frame| self.put_in(frame));
            self.calls.push(call);
        }
        frames.for_each(|frame| self.put_in(frame));
    }
}

fn words(envelope: &Envelope, length: usize) -> Words {
    Words {
        sequence: envelope.sequence,
        id: envelope.id,
        sender: envelope.sender,
        status: envelope.status,
        total: length as u32,
    }
}

/// The same envelope with the next sequence number.
fn next_number(envelope: Envelope) -> Envelope {
    Envelope {
        sequence: envelope.sequence.wrapping_add(1),
        ..envelope
    }
}

/// Cuts a message into pieces by the rules, alike or of differing lengths.
fn cut<'a>(random: &mut Random, message: &'a [u8]) -> Vec<&'a [u8]> {
    if message.is_empty() {
        return vec![message];
    }
    let most = message.len().min(PIECE_MAX);
    let longest = random.pick_or_within(&[1, 2, 231, PIECE_MAX], 1..=most);
    let alike = random.bool();
    let (mut pieces, mut rest) = (Vec::new(), message);
    while !rest.is_empty() {
        let length = if alike {
            longest
        } else {
            random.within(1..=longest)
        };
        let (piece, after) = rest.split_at(length.min(rest.len()));
        pieces.push(piece);
        rest = after;
    }
    pieces
}

/// For each frame of a message, whether it arrives: all do, all but one, some, the first only, or
/// those on one side of a place.
fn arrivals(random: &mut Random, count: usize, losses: Losses) -> Vec<bool> {
    let one = random.pick_or_within(&[1, 2, count - 1], 0..=count - 1);
    let kind = random.within(0..=7);
    let mut arrives = |index| match kind {
        0..=2 => true,
        3 => index != one,
        4 => random.bool(),
        5 => index == 0,
        6 => index < one,
        _ => index >= one,
    };
    let spared = |index| index == 0 && losses == Losses::AllButIndex0;
    (0..count)
        .map(|index| spared(index) || arrives(index))
        .collect()
}

/// A frame like this one, with one or several of the faults that are refused with 1 to 4.
fn refused(random: &mut Random, like: &[u8], us: u32) -> Vec<u8> {
    let mut frame = like.to_vec();
    let faults = random.within(1..=15);
    frame[0] = TYPE_AND_VERSION;
    if faults & 1 > 0 {
        frame[0] = wrong_type(random);
    }
    if faults & 2 > 0 {
        frame[12..16].copy_from_slice(&other_receiver(random, us).to_le_bytes());
    }
    if faults & 4 > 0 {
        frame.truncate(random.pick_or_within(&[0, 1, 12, 16, 23], 0..=23));
    } else if faults & 8 > 0 {
        let length = random.pick_or_within(&[257, 258, 280, 512], 257..=600);
        frame.resize(length, 0xA5);
    }
    frame
}

/// A length that is often at a limit.
fn length(random: &mut Random, longest: usize) -> usize {
    let limits = [0, 1, 2, 232, 233, longest].map(|length| length.min(longest));
    random.pick_or_within(&limits, 0..=longest)
}
