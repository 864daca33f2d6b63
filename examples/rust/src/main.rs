//! Hoursquall from Rust. The deck computer learns the sound speed from a firmware table and sends
//! it to the towed head, twice. The second time the cable loses a frame, and the head gives notice.
//!
//! After `scripts/build.sh libraries`, `cargo run` in this package builds and runs it.

use hoursquall::{Envelope, Notice, Positions, Reassembly, Refusal, Region, Verdict, Words};
use hoursquall::{FRAME_MAX, MESSAGE_MAX, NOTICE_MAX};

const HEAD: u32 = 10;
const DECK: u32 = 11;
const PIECE: usize = 3;
const BASE: u64 = 4096;

/// Memory from address `BASE` on: the root table, whose first two slots are empty, and behind it
/// the table that its third slot leads to.
const MEMORY: &[u8] = b"\
    root_table\0\0\0\0\0\0\
    \x40\0\0\0\x01\0\0\0\0\0\0\0\x3F\xA6\x2E\x29\
    \x03\0\0\0\0\0\0\0\0\0\0\0\0\0\0\0\
    \0\0\0\0\0\0\0\0\x40\x10\0\0\0\0\0\0\
    sound_speed\0\0\0\0\0\
    \x28\0\0\0\x01\0\0\0\0\0\0\0\x4A\x2A\x4B\x76\
    1487 m/s";

/// What the head was just handed up: the carried words of a message, and its bytes.
fn say_message(words: &Words, buffer: &[u8]) {
    let Words {
        sequence,
        id,
        sender,
        status,
        total,
    } = *words;
    let bytes = buffer[..total as usize].escape_ascii();
    print!("delivered, sequence {sequence}, message {id}, sender {sender}, ");
    println!("status {status}: {bytes}");
}

/// The deck computer writes the frames of a message, and the head takes all but the lost one. A
/// refusal is no reason to stop: nothing is handed up, and the state is ready for what follows.
fn transmit(
    sequence: u8,
    id: u32,
    message: &[u8],
    lost: Option<usize>,
    state: &mut Reassembly,
    buffer: &mut [u8],
) -> Result<(), Refusal> {
    let envelope = Envelope {
        sequence,
        id,
        sender: DECK,
        receiver: HEAD,
        status: 0,
    };
    let frames = hoursquall::count(message.len(), PIECE)?;
    println!("message {id}, {} bytes in {frames} frames", message.len());
    for index in 0..frames {
        let mut out = [0; FRAME_MAX];
        let length = hoursquall::write(&envelope, message, PIECE, index, &mut out)?;
        if Some(index) == lost {
            continue;
        }
        print!("  index {index}, {length} bytes: ");
        match state.step(&out[..length], HEAD, buffer) {
            Verdict::More => println!("more wanted"),
            Verdict::Delivered(words) => say_message(&words, buffer),
            Verdict::Refused(refusal) => println!("refused with {refusal}"),
        }
    }
    Ok(())
}

fn main() -> Result<(), Refusal> {
    let region = Region {
        bytes: MEMORY,
        base: BASE,
    };
    let body = region.find(BASE, b"sound_speed")?;
    let speed = &MEMORY[body.offset..body.offset + body.length];
    println!("slot {}, sound_speed: {}", body.slot, speed.escape_ascii());

    // What the head keeps from frame to frame.
    let (mut state, mut buffer) = (Reassembly::default(), [0; MESSAGE_MAX]);
    transmit(7, 1, speed, None, &mut state, &mut buffer)?;
    transmit(8, 2, speed, Some(1), &mut state, &mut buffer)?;

    let (mut positions, mut ring) = (Positions::default(), [0; 64]);
    positions.post(&mut ring, 6, b"send message 2 again")?;
    let mut out = [0; NOTICE_MAX];
    let Notice { id, length } = positions.take(&ring, &mut out)?;
    println!("notice {id}: {}", out[..length].escape_ascii());
    Ok(())
}
