//! The day that is kept with the program `play`, in `crates/play`: a short log for receiver 11, in
//! which each kind of line comes up. `examples/day.rs` writes the files, and `tests/play.rs` holds
//! them to this.

use crate::tables::{put, put_word};
use reference::frame::{frames, Envelope};
use reference::{framelog, replay};

/// The receiver file.
pub const RECEIVER: [u8; 4] = [11, 0, 0, 0];

const US: u32 = 11;
const RECORD_SIZE: usize = 260;

// Places in a frame.
const TYPE: usize = 0;
const SEQUENCE: usize = 1;
const STATUS: usize = 16;
const TOTAL: usize = 20;

/// What the program writes.
pub fn lines() -> Vec<u8> {
    replay::output(&RECEIVER, &log())
}

/// The log's records, each with its line.
pub fn log() -> Vec<u8> {
    [
        numbers_to_check_by(),
        sound_speeds(),
        refused_frames(),
        refused_words(),
        refused_lengths(),
        refused_records(),
        message_begun_anew(),
        short_record(),
    ]
    .concat()
}

/// Document 01's message of five bytes, in pieces of 2, and an empty one.
fn numbers_to_check_by() -> Vec<u8> {
    let five = Envelope {
        sequence: 0,
        id: 0x0102_0304,
        sender: 10,
        receiver: US,
        status: 0xFFFF_FFFF,
    };
    let five = framed(&five, &[1, 2, 3, 4, 5], 2);
    let empty = framed(&envelope(1), b"", 16);
    [
        record(&five[0]),  // 0 more
        record(&five[1]),  // 1 more
        record(&five[2]),  // 2 delivered 16909060 5
        record(&empty[0]), // 3 delivered 1 0
    ]
    .concat()
}

/// Two messages of text. A refused record in the middle does not drop the first; the second loses a
/// frame.
fn sound_speeds() -> Vec<u8> {
    let first = framed(&envelope(2), b"sound speed 1487.2 m/s at 12 m depth", 16);
    let second = framed(&envelope(3), b"sound speed 1488.9 m/s at 20 m depth", 16);
    [
        record(&first[0]),                // 4 more
        changed(record(&first[1]), 1, 1), // 5 52: its length is 296
        record(&first[1]),                // 6 more
        record(&first[2]),                // 7 delivered 2 36
        record(&second[0]),               // 8 more
        record(&second[2]),               // 9 6: the one before it is lost
        record(&second[1]),               // 10 5: it comes late, and nothing is open
    ]
    .concat()
}

/// Frames that don't parse do not drop a message.
fn refused_frames() -> Vec<u8> {
    let message = framed(&envelope(4), b"depth 31 m", 8);
    let for_another = Envelope {
        receiver: 12,
        ..envelope(4)
    };
    let for_another = framed(&for_another, b"depth 31 m", 8);
    [
        record(&message[0]),                              // 11 more
        record(&message[1][..23]),                        // 12 1
        record(b""),                                      // 13 1: all of the record is zeros
        record(&changed(message[1].clone(), TYPE, 0x12)), // 14 3
        record(&for_another[1]),                          // 15 4
        record(&message[1]),                              // 16 delivered 4 10
    ]
    .concat()
}

/// The next Index with another word, byte 1 among them, drops the message.
fn refused_words() -> Vec<u8> {
    let message = framed(&envelope(5), b"ping", 2);
    [
        record(&message[0]),                               // 17 more
        record(&changed(message[1].clone(), STATUS, 1)),   // 18 7
        record(&message[0]),                               // 19 more
        record(&changed(message[1].clone(), SEQUENCE, 1)), // 20 7
        record(&message[1]),                               // 21 5: nothing is open
    ]
    .concat()
}

/// Messages whose length, or whose data, is not legal.
fn refused_lengths() -> Vec<u8> {
    let message = framed(&envelope(6), b"ping", 4);
    let of_length = |total| {
        let mut frame = message[0].clone();
        put_word(&mut frame, TOTAL, total);
        frame
    };
    [
        record(&of_length(4097)),  // 22 10
        record(&of_length(3)),     // 23 9
        record(&message[0][..24]), // 24 8
        record(&of_length(5)),     // 25 more
        record(&message[0]),       // 26 delivered 6 4: it begins anew
    ]
    .concat()
}

/// Refused records do not drop a message.
fn refused_records() -> Vec<u8> {
    let message = framed(&envelope(7), b"sound speed 1491.0 m/s", 16);
    let second = record(&message[1]);
    let last_byte = RECORD_SIZE - 1;
    [
        record(&message[0]),                   // 27 more
        changed(second.clone(), 2, 1),         // 28 51
        changed(second.clone(), 3, 1),         // 29 51
        changed(second.clone(), last_byte, 1), // 30 53
        second,                                // 31 delivered 7 22
    ]
    .concat()
}

/// A message drops the one before it, of which a frame is lost, and is delivered.
fn message_begun_anew() -> Vec<u8> {
    let first = framed(&envelope(8), b"bottom at 44 m", 10);
    let second = framed(&envelope(9), b"bottom at 45 m", 10);
    [
        record(&first[0]),  // 32 more
        record(&second[0]), // 33 more
        record(&second[1]), // 34 delivered 9 14
    ]
    .concat()
}

/// The recorder stopped in the middle of a record.
fn short_record() -> Vec<u8> {
    let message = framed(&envelope(10), b"bottom at 46 m", 14);
    record(&message[0])[..100].to_vec() // 35 50
}

/// For us, from sender 20; byte 1 is the message's number.
fn envelope(id: u32) -> Envelope {
    Envelope {
        sequence: id as u8,
        id,
        sender: 20,
        receiver: US,
        status: 0,
    }
}

fn framed(envelope: &Envelope, message: &[u8], piece_size: usize) -> Vec<Vec<u8>> {
    frames(envelope, message, piece_size).expect("the sizes are legal")
}

fn record(frame: &[u8]) -> Vec<u8> {
    let mut record = vec![0; RECORD_SIZE];
    framelog::write(frame, &mut record).expect("the sizes are legal");
    record
}

/// The same bytes with another at a place.
fn changed(mut bytes: Vec<u8>, at: usize, byte: u8) -> Vec<u8> {
    put(&mut bytes, at, &[byte]);
    bytes
}
