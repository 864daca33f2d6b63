//! The player against the reference: whole logs in chunks, and single calls from any player.

use differential::faults::Faults;
use differential::logs::{garbage, spoil_frame, Log};
use differential::random::Random;
use differential::reassembly::Block;
use differential::records::{self, record, spoil};
use differential::replay::{Buffer, Machine, Numbers, Seen};
use differential::traffic::{Losses, Message, Traffic};
use differential::{cases, report};
use hoursquall::framelog::RECORD_SIZE;
use hoursquall::replay::{receiver, LINE_MAX, PLAYER_NUMBERS};
use hoursquall::{Verdict, MESSAGE_MAX, PIECE_MAX};
use reference::frame::{encode, Header};
use reference::{framelog, replay};

/// All that a log can get, from a fresh start: no frame in a record has 2, and no state 11.
const ANSWERS: [usize; 15] = [0, 1, 3, 4, 5, 6, 7, 8, 9, 10, 50, 51, 52, 53, 100];

/// A player at the start of a day.
const START: Numbers = [0; PLAYER_NUMBERS];

/// A player whose next record has that number.
fn player(state: Block, number: u64) -> Numbers {
    let mut player = [number; PLAYER_NUMBERS];
    player[..8].copy_from_slice(&state);
    player
}

fn any_buffer(random: &mut Random) -> Buffer {
    random.bytes(MESSAGE_MAX).try_into().expect("its length")
}

/// Plays a chunk to its end, each call with an output of any length; some have no room for a line,
/// and then nothing is played. Answers the lines, and adds to the calls.
fn play_all(
    random: &mut Random,
    machine: &mut Machine,
    chunk: &[u8],
    calls: &mut usize,
) -> Vec<u8> {
    let (mut lines, mut rest) = (vec![], chunk);
    while !rest.is_empty() {
        let longer = random.within(0..=20 * LINE_MAX);
        let room = random.pick_or_within(&[LINE_MAX - 1, LINE_MAX, longer, longer], 0..=60);
        let (read, more) = machine.chunk(rest, &random.bytes(room));
        assert_eq!(read > 0, room >= LINE_MAX, "room for {room}");
        lines.extend(more);
        rest = &rest[read..];
        *calls += 1;
    }
    lines
}

/// Logs with every fault, in chunks that end where a record does.
#[test]
fn logs_in_chunks() {
    let random = &mut Random::new(160);
    let (mut seen, mut calls) = (Seen::new(), 0);
    let count = cases(2_500);
    for turn in 0..count {
        let messages = if turn % 50 == 0 {
            60 // more records than a program would read at once
        } else {
            random.within(0..=8)
        };
        let log = Log::any(random, messages);
        let buffer = any_buffer(random);
        let mut machine = Machine::new(random, log.us, START, buffer);
        let (mut lines, mut rest) = (vec![], &log.bytes[..]);
        while !rest.is_empty() {
            let records = random.pick_or_within(&[0, 1, 2, 252], 0..=20);
            let (chunk, behind) = rest.split_at(rest.len().min(records * RECORD_SIZE));
            lines.extend(play_all(random, &mut machine, chunk, &mut calls));
            rest = behind;
        }
        assert!(lines == replay::lines(log.us, &log.bytes), "log {turn}");
        seen.lines(&lines);
    }
    report("replay, logs in chunks", count);
    report("replay, logs in chunks, calls", calls);
    seen.assert_each("replay, logs in chunks, records", &ANSWERS, 200);
}

/// The same logs through both calls in turn, which go on from each other.
#[test]
fn logs_by_records_and_chunks() {
    let random = &mut Random::new(161);
    let mut seen = Seen::new();
    let count = cases(500);
    for turn in 0..count {
        let messages = random.within(0..=8);
        let log = Log::any(random, messages);
        let buffer = any_buffer(random);
        let mut machine = Machine::new(random, log.us, START, buffer);
        let lines = replay::lines(log.us, &log.bytes);
        let mut lines = lines.split_inclusive(|&byte| byte == b'\n');
        for (place, bytes) in replay::records(&log.bytes).enumerate() {
            let line = lines.next().expect("a line a record");
            if random.bool() {
                let (read, text) = machine.chunk(bytes, &[0; LINE_MAX]);
                assert_eq!((read, &text[..]), (bytes.len(), line), "log {turn}");
                seen.lines(&text);
                continue;
            }
            let verdict = machine.record(bytes);
            assert_eq!(text_of(place, verdict).as_bytes(), line, "log {turn}");
            seen.verdict(verdict);
        }
    }
    report("replay, logs by records and chunks", count);
    seen.assert_each("replay, logs by records and chunks", &ANSWERS, 30);
}

/// The line of a record, from what the call for one record answers.
fn text_of(number: usize, verdict: Verdict) -> String {
    match verdict {
        Verdict::More => format!("{number} more\n"),
        Verdict::Delivered(words) => format!("{number} delivered {} {}\n", words.id, words.total),
        Verdict::Refused(refusal) => format!("{number} {refusal}\n"),
    }
}

/// A state, and a record with a frame that mostly has to do with it.
struct Case {
    state: Block,
    record: Vec<u8>,
}

impl Case {
    fn any(random: &mut Random, us: u32) -> Case {
        let total = random.pick_or_within(&[0, 1, 2, 232, 233, 4095, 4096, 4097], 0..=MESSAGE_MAX);
        let most = total.saturating_sub(1);
        let filled = random.pick_or_within(&[most, most.min(1)], 0..=most);
        let next = random.pick_or_within(&[1, filled], filled.min(1)..=filled);
        let header = Header {
            sequence: random.u8(),
            index: random.pick(&[0, next, next, next, next + 1]) as u16,
            id: random.word(),
            sender: random.word(),
            receiver: us,
            status: random.word(),
            total: total as u32,
        };
        let missing = total - if header.index == 0 { 0 } else { filled };
        Case {
            state: state(random, &header, next, filled),
            record: any_record(random, &header, missing),
        }
    }
}

/// Fresh, open with the header's words, or open in a way that is not consistent, or no state.
fn state(random: &mut Random, header: &Header, next: usize, filled: usize) -> Block {
    let mut state = [
        1,
        header.sequence.into(),
        header.id.into(),
        header.sender.into(),
        header.status.into(),
        header.total.into(),
        next as u64,
        filled as u64,
    ];
    match random.within(0..=9) {
        0 => return [0; 8],
        1 => state[0] = 0,
        2 => {
            state = [0; 8].map(|_| random.u64() >> random.within(0..=63));
            state[0] = random.pick(&[0, 1, state[0]]);
        }
        3 => {
            let number = &mut state[random.within(0..=7)];
            let any = random.u64();
            let wide = *number + (1 << random.pick(&[8, 16, 32, 63]));
            let close = [*number + 1, number.saturating_sub(1)];
            *number = random.pick(&[0, 1, 2, close[0], close[1], wide, u64::MAX, any]);
        }
        _ => (),
    }
    state
}

/// The record of a frame with this header, if so much of its message is missing; often the frame is
/// spoilt, or the record, or both.
fn any_record(random: &mut Random, header: &Header, missing: usize) -> Vec<u8> {
    let data = random.pick_or_within(&[0, 1, missing, missing, missing + 1], 0..=PIECE_MAX);
    let data = random.bytes(data.min(PIECE_MAX));
    let mut frame = [encode(header), data].concat();
    if random.within(0..=2) == 0 {
        spoil_frame(random, &mut frame, header.receiver);
    }
    let mut record = record(&frame);
    match random.within(0..=9) {
        0..=2 => {
            let set = random.pick_or_within(&[1, 2, 4, 8], 1..=15);
            spoil(random, &mut record, Faults::new(&records::ORDER, set));
        }
        3 => record = garbage(random),
        _ => (),
    }
    record
}

/// One record from any state, with any buffer.
#[test]
fn any_call_for_a_record() {
    let random = &mut Random::new(162);
    let mut seen = Seen::new();
    for _ in 0..cases(150_000) {
        let us = random.word();
        let Case { state, record } = Case::any(random, us);
        let player = player(state, random.u64());
        let buffer = any_buffer(random);
        let mut machine = Machine::new(random, us, player, buffer);
        seen.verdict(machine.record(&record));
        if random.within(0..=3) == 0 {
            seen.verdict(machine.record(&record)); // and from what it left
        }
    }
    let answers = [&ANSWERS[..], &[11]].concat();
    seen.assert_each("replay, any call for a record", &answers, 1000);
}

/// A number that is often one at which a digit comes, or the last.
fn any_number(random: &mut Random) -> u64 {
    let tens = 10u64.pow(random.within(0..=19) as u32);
    let few = random.within(0..=4) as u64;
    let any = random.u64() >> random.within(0..=63);
    random.pick(&[
        0,
        0,
        any,
        tens - 1,
        tens,
        tens.saturating_sub(few),
        u64::MAX - few,
    ])
}

/// A chunk of any length from any player, into an output of any length, and then what is left of
/// it.
#[test]
fn any_call_for_a_chunk() {
    let random = &mut Random::new(163);
    let (mut seen, mut calls, mut without) = (Seen::new(), 0, 0);
    for _ in 0..cases(60_000) {
        let us = random.word();
        let Case { state, record } = Case::any(random, us);
        let mut chunk = record;
        for _ in 0..random.within(0..=4) {
            chunk.extend(Case::any(random, us).record);
        }
        if random.within(0..=3) == 0 {
            chunk.truncate(random.within(0..=chunk.len()));
        }
        let player = player(state, any_number(random));
        let buffer = any_buffer(random);
        let mut machine = Machine::new(random, us, player, buffer);
        let mut rest = &chunk[..];
        for _ in 0..random.within(1..=3) {
            let limits = [0, 46, 47, 48, 93, 94, 95, 141, 300];
            let room = random.pick_or_within(&limits, 0..=400);
            let (read, lines) = machine.chunk(rest, &random.bytes(room));
            seen.lines(&lines);
            rest = &rest[read..];
            calls += 1;
            without += usize::from(read == 0);
        }
    }
    report("replay, any call for a chunk", calls);
    report("replay, any call for a chunk, none played", without);
    let answers = [&ANSWERS[..], &[11]].concat();
    seen.assert_each("replay, any call for a chunk, records", &answers, 300);
}

/// A header of a message of this length, for receiver 11.
fn header(id: u32, index: u16, total: u32) -> Header {
    Header {
        sequence: 3,
        index,
        id,
        sender: 10,
        receiver: 11,
        status: 0,
        total,
    }
}

/// A message of two bytes, of which the first came.
const OPEN: Block = [1, 3, 7, 10, 0, 2, 1, 1];

/// What numbers that are no state are written as.
const NO_STATE: Block = [1, 0, 0, 0, 0, 0, 0, 0];

/// Open, with words in their limits, but with more filled than the message has.
const INCONSISTENT: Block = [1, 255, 7, 10, 0xFFFF_FFFF, 2, 9, u64::MAX];

/// States before, after a frame in a chunk that is refused with 3 unless the state is with 11, and
/// after a record that is refused with 52.
const STATES: [[Block; 3]; 12] = [
    [[0; 8], [0; 8], [0; 8]],
    [[0, 1, 2, 3, 4, 5, 6, 7], [0; 8], [0; 8]],
    [OPEN, OPEN, OPEN],
    [INCONSISTENT, [0; 8], INCONSISTENT],
    [NO_STATE, [0; 8], NO_STATE],
    [[2, 0, 0, 0, 0, 0, 0, 0], [0; 8], NO_STATE],
    [[u64::MAX; 8], [0; 8], NO_STATE],
    [[1, 256, 7, 10, 0, 2, 1, 1], [0; 8], NO_STATE],
    [[1, 3, 1 << 32, 10, 0, 2, 1, 1], [0; 8], NO_STATE],
    [[1, 3, 7, 1 << 32, 0, 2, 1, 1], [0; 8], NO_STATE],
    [[1, 3, 7, 10, 1 << 32, 2, 1, 1], [0; 8], NO_STATE],
    [[1, 3, 7, 10, 0, 1 << 32, 1, 1], [0; 8], NO_STATE],
];

/// What a record that changes no state leaves of the numbers: the call for a record leaves all of
/// them as they are, that for a chunk the state that they stand for.
#[test]
fn numbers_written_anew() {
    let random = &mut Random::new(164);
    let mut frame = [encode(&header(7, 1, 2)), vec![9]].concat();
    let mut long = record(&frame);
    long[1] = 1;
    frame[0] = 0x12;
    let wrong_type = record(&frame);
    for [before, after_3, after_52] in STATES {
        check_chunk(random, before, &wrong_type, after_3);
        check_chunk(random, before, &long, after_52);
        // Where the two differ, the state is refused with 11 as the frame is run.
        let left = if after_3 == after_52 { before } else { [0; 8] };
        check_record(random, before, &wrong_type, left);
        check_record(random, before, &long, before);
    }
    report("replay, numbers written anew", 4 * STATES.len());
}

fn check_chunk(random: &mut Random, before: Block, record: &[u8], after: Block) {
    let mut machine = Machine::new(random, 11, player(before, 5), [0; MESSAGE_MAX]);
    machine.chunk(record, &[0; LINE_MAX - 1]); // there is no room, so nothing is played
    assert_eq!(machine.numbers(), player(before, 5));
    machine.chunk(record, &[0; LINE_MAX]);
    assert_eq!(machine.numbers(), player(after, 6), "{before:?}");
    machine.chunk(&[], &[0; LINE_MAX]);
    assert_eq!(machine.numbers(), player(after, 6), "{before:?}");
}

fn check_record(random: &mut Random, before: Block, record: &[u8], after: Block) {
    let mut machine = Machine::new(random, 11, player(before, 5), [0; MESSAGE_MAX]);
    machine.record(record);
    assert_eq!(machine.numbers(), player(after, 6), "{before:?}");
}

/// Some records that get each kind of line.
fn short_log() -> Vec<u8> {
    let frame = |id, index, total, data: &[u8]| [encode(&header(id, index, total)), data.to_vec()];
    let frames = [
        frame(7, 0, 2, &[1]),
        frame(7, 1, 2, &[2]),
        frame(u32::MAX, 0, 0, &[]),
        frame(7, 1, 2, &[2]),
        frame(8, 0, 4097, &[1]),
    ];
    let mut log: Vec<u8> = frames.iter().flat_map(|f| record(&f.concat())).collect();
    log.extend([1; RECORD_SIZE]);
    log.extend([0; 100]);
    log
}

/// Every length of an output up to that of several longest lines.
#[test]
fn each_length_of_an_output() {
    let random = &mut Random::new(165);
    let log = short_log();
    let mut calls = 0;
    for number in [
        0,
        8,
        10u64.pow(19) - 3,
        u64::MAX - 4,
        u64::MAX - 1,
        u64::MAX,
    ] {
        for room in 0..=8 * LINE_MAX {
            let buffer = any_buffer(random);
            let mut machine = Machine::new(random, 11, player([0; 8], number), buffer);
            let mut rest = &log[..];
            for _ in 0..8 {
                let (read, _) = machine.chunk(rest, &random.bytes(room));
                rest = &rest[read..];
                calls += 1;
            }
        }
    }
    report("replay, each length of an output", calls);
}

/// Every length of a chunk up to that of several records: all of it is played.
#[test]
fn each_length_of_a_chunk() {
    let random = &mut Random::new(166);
    let log = short_log();
    for length in 0..=log.len() {
        let buffer = any_buffer(random);
        let mut machine = Machine::new(random, 11, START, buffer);
        let (read, lines) = machine.chunk(&log[..length], &random.bytes(8 * LINE_MAX));
        assert_eq!(read, length);
        assert_eq!(lines, replay::lines(11, &log[..length]));
    }
    report("replay, each length of a chunk", log.len() + 1);
}

/// Around each power of ten, and the last numbers.
fn at_digits(last: u64) -> Vec<u64> {
    let tens = (0..20).map(|digits| 10u64.pow(digits));
    let around = tens.flat_map(|ten| [ten - 1, ten, ten + 1]);
    let last = [last - 2, last - 1, last];
    let all = [0, 2, 7].into_iter().chain(around).chain(last);
    all.filter(|&number| number <= last[2]).collect()
}

/// Plays the frame that completes a message of that Message ID and length, as that record, and
/// compares the line.
fn check_line(random: &mut Random, number: u64, id: u32, length: u32) {
    let (index, came) = if length < 2 { (0, 0) } else { (1, length - 1) };
    let state = match came {
        0 => [0; 8],
        _ => [1, 3, id.into(), 10, 0, length.into(), 1, came.into()],
    };
    let data = random.bytes((length - came) as usize);
    let frame = [encode(&header(id, index, length)), data].concat();
    let buffer = any_buffer(random);
    let mut machine = Machine::new(random, 11, player(state, number), buffer);
    let (_, lines) = machine.chunk(&record(&frame), &[0; LINE_MAX]);
    let expected = format!("{number} delivered {id} {length}\n");
    assert_eq!(lines, expected.as_bytes());
}

/// Record numbers and Message IDs where a digit comes, and all lengths.
#[test]
fn numbers_in_lines() {
    let random = &mut Random::new(167);
    let (numbers, ids) = (at_digits(u64::MAX - 1), at_digits(u32::MAX.into()));
    for &number in &numbers {
        for &id in &ids {
            let length = random.pick_or_within(&[0, 1, 9, 10, 99, 100, 999, 1000, 4096], 0..=4096);
            check_line(random, number, id as u32, length as u32);
        }
    }
    for length in 0..=4096 {
        let (number, id) = (any_number(random).min(u64::MAX - 1), random.u32());
        check_line(random, number, id, length);
    }
    report("replay, numbers in lines", numbers.len() * ids.len() + 4097);
}

/// What a log's records must hand up, by their numbers.
type Handed = Vec<(usize, Message)>;

/// The traffic as a log, which has no record for a frame that is too long; records that are refused
/// stand anywhere in it.
fn logged(random: &mut Random, traffic: Traffic) -> (Vec<u8>, Handed) {
    let (mut log, mut handed) = (vec![], vec![]);
    for call in traffic.calls {
        while random.within(0..=9) == 0 {
            let mut refused = record(&call.frame[..call.frame.len().min(40)]);
            let set = random.pick(&[2, 4, 8, 6, 10, 12, 14]);
            spoil(random, &mut refused, Faults::new(&records::ORDER, set));
            log.extend(refused);
        }
        let mut record = [0xA5; RECORD_SIZE];
        if framelog::write(&call.frame, &mut record).is_err() {
            assert!(call.hands_up.is_none());
            continue;
        }
        let number = log.len() / RECORD_SIZE;
        handed.extend(call.hands_up.map(|message| (number, message)));
        log.extend(record);
    }
    (log, handed)
}

/// Days of traffic, logged and played: each message that lost no frame is delivered with its last
/// one, and nothing else is.
#[test]
fn days_of_traffic() {
    let random = &mut Random::new(168);
    let (mut played, mut delivered, mut calls) = (0, 0, 0);
    let count = cases(600);
    for turn in 0..count {
        let losses = random.pick(&[Losses::AllButIndex0, Losses::Any]);
        let longest = if turn % 20 == 0 { MESSAGE_MAX } else { 200 };
        let traffic = Traffic::any(random, losses, longest);
        let us = traffic.us;
        let (log, handed) = logged(random, traffic);
        assert_eq!(by_records(random, us, &log), handed);
        let buffer = any_buffer(random);
        let mut machine = Machine::new(random, us, START, buffer);
        let lines = play_all(random, &mut machine, &log, &mut calls);
        assert_eq!(
            deliveries(&lines),
            handed.iter().map(told).collect::<Vec<_>>()
        );
        played += log.len() / RECORD_SIZE;
        delivered += handed.len();
    }
    report("replay, days of traffic", count);
    report("replay, days of traffic, records", played);
    report("replay, days of traffic, messages delivered", delivered);
}

/// What is handed up if the records are played one by one.
fn by_records(random: &mut Random, us: u32, log: &[u8]) -> Handed {
    let buffer = any_buffer(random);
    let mut machine = Machine::new(random, us, START, buffer);
    let mut handed = vec![];
    for (number, record) in replay::records(log).enumerate() {
        if let Verdict::Delivered(words) = machine.record(record) {
            let bytes = machine.buffer()[..words.total as usize].to_vec();
            handed.push((number, Message { words, bytes }));
        }
    }
    handed
}

/// The lines of a text that tell of a delivery.
fn deliveries(text: &[u8]) -> Vec<String> {
    let text = std::str::from_utf8(text).expect("it is text");
    let lines = text.lines().filter(|line| line.contains(" delivered "));
    lines.map(str::to_string).collect()
}

fn told((number, Message { words, .. }): &(usize, Message)) -> String {
    format!("{number} delivered {} {}", words.id, words.total)
}

#[test]
fn receivers() {
    let random = &mut Random::new(169);
    for length in 0..=300 {
        let file = random.bytes(length);
        let us = receiver(&file);
        assert_eq!(us.is_some(), length == 4);
        let lines = us.map_or(b"no receiver\n".to_vec(), |us| replay::lines(us, &[1]));
        assert_eq!(lines, replay::output(&file, &[1]));
    }
    assert_eq!(receiver(&[0x0B, 0, 0, 0]), Some(11));
    assert_eq!(receiver(&[1, 2, 3, 4]), Some(0x0403_0201));
    report("replay, receivers", 301);
}
