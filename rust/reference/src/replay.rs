//! The player: the records of a frame log, played in order for one receiver and listed as text.
//! Q-2 of document 02.

use crate::frame::Refusal;
use crate::framelog;
use crate::reassembly::{self, Answer, State, Verdict};

const RECORD_SIZE: usize = 260;
const BUFFER: usize = 4096;

/// Bytes that a line has at most.
const LINE_MAX: usize = 47;

/// The records of a log, in order. A short last one is a record too.
pub fn records(log: &[u8]) -> impl Iterator<Item = &[u8]> {
    log.chunks(RECORD_SIZE)
}

/// Plays one record: its frame is run, unless the record is refused.
pub fn play(state: State, record: &[u8], us: u32, buffer: &mut [u8]) -> Answer {
    match framelog::read(record) {
        Ok(frame) => reassembly::step(state, frame, us, buffer),
        Err(refusal) => refused(refusal, state),
    }
}

/// The frame is not run, so the state stays.
fn refused(refusal: Refusal, state: State) -> Answer {
    Answer {
        verdict: Verdict::Refused(refusal),
        state,
    }
}

/// What each record of a log leads to, from a fresh start.
pub fn verdicts(us: u32, log: &[u8]) -> Vec<Verdict> {
    let (mut state, mut buffer) = (State::Fresh, [0; BUFFER]);
    let verdict = |record| {
        let answer = play(state, record, us, &mut buffer);
        state = answer.state;
        answer.verdict
    };
    records(log).map(verdict).collect()
}

/// The lines of a log: one a record, numbered from 0.
pub fn lines(us: u32, log: &[u8]) -> Vec<u8> {
    let verdicts = verdicts(us, log).into_iter();
    let lines = (0..).zip(verdicts).map(|(number, said)| line(number, said));
    lines.collect::<String>().into_bytes()
}

fn line(number: u64, verdict: Verdict) -> String {
    match verdict {
        Verdict::More => format!("{number} more\n"),
        Verdict::Delivered(words) => format!("{number} delivered {} {}\n", words.id, words.total),
        Verdict::Refused(refusal) => format!("{number} {refusal}\n"),
    }
}

/// What the program writes, given the bytes of its two files.
pub fn output(receiver: &[u8], log: &[u8]) -> Vec<u8> {
    match <[u8; 4]>::try_from(receiver) {
        Ok(us) => lines(u32::from_le_bytes(us), log),
        Err(_) => b"no receiver\n".to_vec(),
    }
}

/// A player of a log that comes in chunks, between two of them.
#[derive(Clone, Copy, Debug, PartialEq, Eq)]
pub struct Player {
    pub state: State,
    /// The next record's number.
    pub number: u64,
}

/// How much of a chunk was played, and how much of the output that filled.
#[derive(Clone, Copy, Debug, PartialEq, Eq)]
pub struct Played {
    pub read: usize,
    pub written: usize,
}

impl Player {
    /// At the start of a day.
    pub fn new() -> Player {
        let (state, number) = (State::Fresh, 0);
        Player { state, number }
    }

    /// Plays records from a chunk's start on, as long as there is room for any line, and a number
    /// to go on with.
    pub fn chunk(&mut self, chunk: &[u8], us: u32, buffer: &mut [u8], out: &mut [u8]) -> Played {
        let (mut read, mut written) = (0, 0);
        for record in records(chunk) {
            let room = &mut out[written..];
            if room.len() < LINE_MAX || self.number == u64::MAX {
                break;
            }
            let line = self.line(record, us, buffer);
            room[..line.len()].copy_from_slice(line.as_bytes());
            read += record.len();
            written += line.len();
        }
        Played { read, written }
    }

    /// Plays one record, and answers its line.
    fn line(&mut self, record: &[u8], us: u32, buffer: &mut [u8]) -> String {
        let answer = play(self.state, record, us, buffer);
        let line = line(self.number, answer.verdict);
        self.state = answer.state;
        self.number += 1;
        line
    }
}

impl Default for Player {
    fn default() -> Player {
        Player::new()
    }
}

#[cfg(test)]
mod tests {
    use super::*;
    use crate::frame::{frames, Envelope};
    use crate::reassembly::Words;

    const US: u32 = 11;

    const ENVELOPE: Envelope = Envelope {
        sequence: 0,
        id: 0x0102_0304,
        sender: 10,
        receiver: US,
        status: 0xFFFF_FFFF,
    };

    fn record(frame: &[u8]) -> [u8; RECORD_SIZE] {
        let mut record = [0xA5; RECORD_SIZE];
        framelog::write(frame, &mut record).expect("the sizes are legal");
        record
    }

    /// The records of document 01's message of five bytes.
    fn three_records() -> [[u8; RECORD_SIZE]; 3] {
        let frames = frames(&ENVELOPE, &[1, 2, 3, 4, 5], 2).expect("the sizes are legal");
        [0, 1, 2].map(|index| record(&frames[index]))
    }

    fn text(log: &[u8]) -> String {
        String::from_utf8(lines(US, log)).expect("it is text")
    }

    #[test]
    fn five_bytes_in_pieces_of_two() {
        let log = three_records().concat();
        assert_eq!(text(&log), "0 more\n1 more\n2 delivered 16909060 5\n");
        assert_eq!(text(&[]), "");
    }

    #[test]
    fn a_refused_record_keeps_the_message() {
        let [first, second, third] = three_records();
        let mut long = second;
        long[1] = 1;
        let log = [first, long, second, third].concat();
        let expected = "0 more\n1 52\n2 more\n3 delivered 16909060 5\n";
        assert_eq!(text(&log), expected);
    }

    #[test]
    fn short_records() {
        let [first, ..] = three_records();
        assert_eq!(text(&first[..1]), "0 50\n");
        assert_eq!(text(&first[..259]), "0 50\n");
        assert_eq!(text(&[&first[..], &[0]].concat()), "0 more\n1 50\n");
        assert_eq!(text(&[0; RECORD_SIZE]), "0 1\n");
    }

    #[test]
    fn receivers() {
        let log = three_records().concat();
        assert_eq!(output(&[11, 0, 0, 0], &log), lines(US, &log));
        assert_eq!(output(&[0, 0, 0, 11], &log), b"0 4\n1 4\n2 4\n");
        assert_eq!(output(&[11, 0, 0, 0], &[]), b"");
        for length in [0, 1, 2, 3, 5, 8, 260] {
            assert_eq!(output(&vec![11; length], &log), b"no receiver\n");
        }
    }

    #[test]
    fn longest_line() {
        let words = Words {
            sequence: 0,
            id: u32::MAX,
            sender: 0,
            status: 0,
            total: 4096,
        };
        let line = line(u64::MAX - 1, Verdict::Delivered(words));
        assert_eq!(line.len(), LINE_MAX);
    }

    /// The chunk that is not played is handed in again.
    #[test]
    fn stops_for_room() {
        let log = [&three_records().concat()[..], &[0; 7]].concat();
        let (mut player, mut buffer, mut out) = (Player::new(), [0; BUFFER], [b'-'; 60]);
        let mut play = |chunk, length| {
            let played = player.chunk(chunk, US, &mut buffer, &mut out[..length]);
            (played.read, played.written)
        };
        assert_eq!(play(&log, 46), (0, 0));
        assert_eq!(play(&log, 47), (260, 7));
        assert_eq!(play(&log[260..], 60), (780 - 260, 7 + 23));
        assert_eq!(play(&log[780..], 47), (7, 5));
        assert_eq!(&out[..6], b"3 50\ne");
        assert_eq!(player.number, 4);
    }

    #[test]
    fn stops_at_the_last_number() {
        let log = three_records().concat();
        let (mut buffer, mut out) = ([0; BUFFER], [b'-'; 94]);
        let mut player = Player {
            state: State::Fresh,
            number: u64::MAX - 1,
        };
        let played = player.chunk(&log, US, &mut buffer, &mut out);
        assert_eq!((played.read, played.written), (260, 26));
        assert_eq!(&out[..27], b"18446744073709551614 more\n-");
        let played = player.chunk(&log, US, &mut buffer, &mut out);
        assert_eq!((played.read, played.written), (0, 0));
    }
}
