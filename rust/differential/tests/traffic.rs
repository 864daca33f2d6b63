//! Whole traffic through the reassembly. Each message that lost no frame is handed up once, with the
//! call that gets its last frame, and nothing else is.

use differential::random::Random;
use differential::reassembly::{Block, Machine};
use differential::traffic::{Losses, Message, Traffic};
use differential::{cases, report};
use hoursquall::Verdict;

/// A fresh state; whatever the seven numbers behind its first are, they don't count.
fn fresh(random: &mut Random) -> Block {
    if random.bool() {
        return [0; 8];
    }
    let mut state = [0; 8].map(|_| random.u64() >> random.within(0..=63));
    state[0] = 0;
    state
}

/// Makes the calls, and compares call by call what is handed up. Answers how many are refused with 7.
fn check(random: &mut Random, traffic: &Traffic, buffer: &[u8]) -> usize {
    let state = fresh(random);
    let mut machine = Machine::new(random, traffic.us, state, buffer);
    let mut other_words = 0;
    for call in &traffic.calls {
        let verdict = machine.step(&call.frame);
        let handed_up = match verdict {
            Verdict::Delivered(words) => Some(Message {
                words,
                bytes: machine.buffer()[..words.total as usize].to_vec(),
            }),
            _ => None,
        };
        assert_eq!(handed_up, call.hands_up);
        other_words += usize::from(verdict == Verdict::Refused(7));
    }
    other_words
}

/// Checks as much traffic as is asked for. Answers how many calls are refused with 7.
fn check_many(seed: u64, what: &str, count: usize, losses: Losses, buffers: &[usize]) -> usize {
    let random = &mut Random::new(seed);
    let (mut calls, mut whole, mut damaged, mut put_in, mut other_words) = (0, 0, 0, 0, 0);
    for _ in 0..count {
        let buffer = random.pick_or_within(buffers, 0..=buffers[buffers.len() - 1]);
        let traffic = Traffic::any(random, losses, buffer);
        let buffer = random.bytes(buffer);
        other_words += check(random, &traffic, &buffer);
        calls += traffic.calls.len();
        whole += traffic.whole;
        damaged += traffic.damaged;
        put_in += traffic.put_in;
    }
    report(&format!("{what}, calls"), calls);
    report(&format!("{what}, frames put in"), put_in);
    report(&format!("{what}, messages handed up"), whole);
    report(&format!("{what}, messages that lost a frame"), damaged);
    other_words
}

const SHORT: [usize; 5] = [0, 1, 2, 3, 24];
const LONG: [usize; 7] = [231, 232, 233, 4095, 4096, 4097, 5000];

#[test]
fn short_messages() {
    let count = cases(20_000);
    check_many(50, "traffic, short", count, Losses::AllButIndex0, &SHORT);
}

#[test]
fn long_messages() {
    let count = cases(1_000);
    check_many(51, "traffic, long", count, Losses::AllButIndex0, &LONG);
}

/// Where Index 0 frames are lost too, the front of one message can meet the back of the next, and
/// only their words tell them apart, often byte 1 alone.
#[test]
fn any_frame_lost() {
    let (short, long) = (cases(20_000), cases(1_000));
    let other_words = check_many(52, "any loss, short", short, Losses::Any, &SHORT)
        + check_many(53, "any loss, long", long, Losses::Any, &LONG);
    report("any loss, calls refused with 7", other_words);
}
