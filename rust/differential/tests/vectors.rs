//! What the program `vectors` prints of the library's answers, built a second time from those of the
//! reference, and compared line by line with the stored text.

use differential::random::Random;
use differential::report;
use differential::sfi_memory::lay_syst_of;
use differential::sfi_tables::{self, Kind, CPUS, FREQ, MMAP, MTMR, WAKE};
use differential::tables::{self, put, put_word, word};
use differential::tables::{CHECKSUM, COUNT, ROOT_NAME, TOTAL, VERSION};
use reference::frame::{self, Envelope, Refusal};
use reference::framelog;
use reference::notice::{self, Notice, Positions};
use reference::reassembly::{self, Open, State, Verdict, Words};
use reference::sfi::{self, Source};
use reference::sum::sum32;
use reference::ubios::{self, Region};
use std::fmt::Display;

const STORED: &str = include_str!("../../../crates/vectors/stdout");

#[test]
fn vectors() {
    let lines = lines();
    for (place, (stored, line)) in STORED.lines().zip(&lines).enumerate() {
        assert_eq!(stored, line, "line {}", place + 1);
    }
    assert_eq!(STORED.lines().count(), lines.len(), "lines");
    report("vectors", lines.len());
}

/// All refusals of document 01 come up.
#[test]
fn every_refusal() {
    let listed = [1..=14, 20..=25, 30..=39, 40..=48, 50..=53];
    let given: Vec<Refusal> = lines().iter().filter_map(|line| refusal(line)).collect();
    for refusal in listed.into_iter().flatten() {
        assert!(given.contains(&refusal), "{refusal}");
    }
}

/// The refusal that a line tells of, at its end or before a state.
fn refusal(line: &str) -> Option<Refusal> {
    let (_, number) = line.split_once("refused with ")?;
    number.split(';').next()?.parse().ok()
}

fn lines() -> Vec<String> {
    [
        frames(),
        reassembly(),
        notices(),
        ubios_tables(),
        sfi_tables(),
        frame_log(),
    ]
    .concat()
}

/// A heading, and a line for each case.
fn part(heading: &str, cases: &[String]) -> Vec<String> {
    let cases = cases.iter().map(|case| format!("  {case}"));
    [heading.to_string()].into_iter().chain(cases).collect()
}

/// A case and what came of it.
fn case<T>(what: impl Display, answer: Result<T, Refusal>, show: impl Fn(T) -> String) -> String {
    format!("{what}: {}", answer.map_or_else(refused, show))
}

fn refused(refusal: Refusal) -> String {
    format!("refused with {refusal}")
}

/// Bytes in hexadecimal, at most 32 of them.
fn shown(bytes: &[u8]) -> String {
    let first = bytes.iter().take(32).map(|byte| format!("{byte:02X}"));
    let more = (bytes.len() > 32).then(|| "..".to_string());
    first.chain(more).collect::<Vec<_>>().join(" ")
}

/// Bytes 1, 2, 3 and on.
fn counting(length: usize) -> Vec<u8> {
    (1..=length).map(|number| number as u8).collect()
}

fn changed(bytes: &[u8], at: usize, byte: u8) -> Vec<u8> {
    let mut bytes = bytes.to_vec();
    bytes[at] = byte;
    bytes
}

/// The same bytes, and zeros behind them.
fn extended(bytes: &[u8], length: usize) -> Vec<u8> {
    let mut bytes = bytes.to_vec();
    bytes.resize(length, 0);
    bytes
}

// Frames.

const US: u32 = 11;

const ENVELOPE: Envelope = Envelope {
    sequence: 0,
    id: 0x0102_0304,
    sender: 10,
    receiver: US,
    status: 0xFFFF_FFFF,
};

fn frames() -> Vec<String> {
    let second = frame_of(&ENVELOPE, 5, 1);
    part(
        "Frames of message 0x01020304, sender 10, receiver 11, word 0xFFFFFFFF; \
         byte k of a message is k + 1 modulo 256",
        &[
            count(5, 2),
            write(5, 2, 0, 256),
            write(5, 2, 1, 256),
            write(5, 2, 2, 256),
            count(0, 2),
            write(0, 2, 0, 24),
            write_numbered(255),
            count(4096, 232),
            write(4096, 232, 17, 256),
            count(4097, 232),
            count(5, 0),
            write(4097, 232, 0, 256),
            write(5, 233, 0, 256),
            write(5, 2, 3, 256),
            write(5, 2, 0, 25),
            read("index 1, by receiver 11", &second, US),
            read("byte 1 is 0xA5", &changed(&second, 1, 0xA5), US),
            read("its first 23 bytes", &second[..23], US),
            read("257 bytes", &extended(&second, 257), US),
            read("byte 0 is 0x12", &changed(&second, 0, 0x12), US),
            read("index 1, by receiver 12", &second, 12),
        ],
    )
}

/// A frame of a message in pieces of 2.
fn frame_of(envelope: &Envelope, length: usize, index: usize) -> Vec<u8> {
    let frames = frame::frames(envelope, &counting(length), 2);
    frames.expect("the message is not too long")[index].clone()
}

fn count(length: usize, piece_size: usize) -> String {
    let what = format_args!("count, {length} bytes in pieces of {piece_size}");
    case(what, frame::count(length, piece_size), |n| n.to_string())
}

fn write(length: usize, piece_size: usize, index: usize, room: usize) -> String {
    let message = counting(length);
    let written = frame::write(&ENVELOPE, &message, piece_size, index, &vec![0; room]);
    let sizes = format_args!("{length} bytes in pieces of {piece_size}");
    let what = format_args!("write, {sizes}, index {index}, output of {room}");
    case(what, written, |(out, length)| {
        format!("{length} bytes: {}", shown(&out[..length]))
    })
}

/// An empty message with that sequence number.
fn write_numbered(sequence: u8) -> String {
    let frame = frame_of(&numbered(sequence), 0, 0);
    let what = format_args!("write, 0 bytes, sequence {sequence}");
    format!("{what}: {} bytes: {}", frame.len(), shown(&frame))
}

fn numbered(sequence: u8) -> Envelope {
    Envelope {
        sequence,
        ..ENVELOPE
    }
}

fn read(what: &str, frame: &[u8], us: u32) -> String {
    let header = frame::parse(frame, us);
    case(format_args!("read, {what}"), header, |header| {
        let words = [
            format!("sequence {}", header.sequence),
            format!("index {}", header.index),
            format!("message 0x{:08X}", header.id),
            format!("sender {}", header.sender),
            format!("receiver {}", header.receiver),
            format!("word 0x{:08X}", header.status),
            format!("total {}", header.total),
            format!("data {}", shown(frame::data(frame))),
        ];
        words.join(", ")
    })
}

// Reassembly.

fn reassembly() -> Vec<String> {
    let [first, second, third] = [0, 1, 2].map(|index| frame_of(&ENVELOPE, 5, index));
    let [mut to_another, mut other_word] = [ENVELOPE; 2];
    to_another.receiver = 12;
    other_word.status = 0;
    let mut receiver = Receiver::new();
    part(
        "Reassembly of a message of 5 bytes in pieces of 2, for receiver 11, buffer of 8",
        &[
            receiver.step("index 0", &first),
            receiver.step("index 1", &second),
            receiver.step("index 2", &third),
            receiver.step("index 0", &first),
            receiver.step("index 2, index 1 lost", &third),
            receiver.step("index 1, nothing open", &second),
            receiver.step("index 0", &first),
            receiver.step("index 1, its first 23 bytes", &second[..23]),
            receiver.step("index 1 and more, 257 bytes", &extended(&second, 257)),
            receiver.step("index 1, byte 0 is 0x12", &changed(&second, 0, 0x12)),
            receiver.step("index 1, for receiver 12", &frame_of(&to_another, 5, 1)),
            receiver.step("index 1, word 0x00000000", &frame_of(&other_word, 5, 1)),
            receiver.step(
                "index 0 of 2 bytes, sequence 255",
                &frame_of(&numbered(255), 2, 0),
            ),
            receiver.step("index 0, sequence 255", &frame_of(&numbered(255), 5, 0)),
            receiver.step("index 1, sequence 254", &frame_of(&numbered(254), 5, 1)),
            receiver.step("index 0, sequence 255", &frame_of(&numbered(255), 5, 0)),
            receiver.step("index 2, sequence 254", &frame_of(&numbered(254), 5, 2)),
            receiver.step("index 0 of 9 bytes", &frame_of(&ENVELOPE, 9, 0)),
            receiver.step("index 0, without its data", &first[..24]),
            receiver.step("index 0, 6 bytes of data", &extended(&first, 30)),
            receiver.at_next_0().step("index 0, from next 0", &first),
        ],
    )
}

struct Receiver {
    state: State,
    buffer: [u8; 8],
}

impl Receiver {
    fn new() -> Receiver {
        let (state, buffer) = (State::Fresh, [0; 8]);
        Receiver { state, buffer }
    }

    /// The five bytes are open, though none of them came.
    fn at_next_0(&mut self) -> &mut Receiver {
        let words = Words {
            sequence: ENVELOPE.sequence,
            id: ENVELOPE.id,
            sender: ENVELOPE.sender,
            status: ENVELOPE.status,
            total: 5,
        };
        self.state = State::Open(Open {
            words,
            next: 0,
            filled: 0,
        });
        self
    }

    fn step(&mut self, what: &str, frame: &[u8]) -> String {
        let answer = reassembly::step(self.state, frame, US, &mut self.buffer);
        self.state = answer.state;
        let verdict = match answer.verdict {
            Verdict::More => "more wanted".to_string(),
            Verdict::Delivered(words) => self.delivered(&words),
            Verdict::Refused(refusal) => refused(refusal),
        };
        format!("{what}: {verdict}; {}", shown_state(answer.state))
    }

    fn delivered(&self, words: &Words) -> String {
        let words_and_data = [
            format!("sequence {}", words.sequence),
            format!("message 0x{:08X}", words.id),
            format!("sender {}", words.sender),
            format!("word 0x{:08X}", words.status),
            format!("data {}", shown(&self.buffer[..words.total as usize])),
        ];
        format!("delivered, {}", words_and_data.join(", "))
    }
}

fn shown_state(state: State) -> String {
    let State::Open(open) = state else {
        return "fresh".to_string();
    };
    let (next, filled, total) = (open.next, open.filled, open.words.total);
    format!("index {next} is next, {filled} of {total} bytes")
}

// Notices.

fn notices() -> Vec<String> {
    let mut ring = Ring::new(16);
    part(
        "Notices in a ring of 16 bytes, empty at 0",
        &[
            ring.post_notice(7, 8),
            ring.post_notice(7, 7),
            ring.take_into(6),
            ring.take_into(8),
            ring.take_into(8),
            ring.post_notice(8, 2),
            format!("the ring: {}", shown(&ring.bytes)),
            ring.take_into(8),
            ring.post_notice(9, 1025),
            ring.at(9, 0).take("7 bytes wait", 8),
            ring.at(16, 0).post("position 16", 9, 1025),
            Ring::new(12).take("a ring of 12", 8),
        ],
    )
}

struct Ring {
    bytes: Vec<u8>,
    positions: Positions,
}

impl Ring {
    fn new(capacity: usize) -> Ring {
        let (bytes, positions) = (vec![0; capacity], Positions { read: 0, write: 0 });
        Ring { bytes, positions }
    }

    fn at(&mut self, read: usize, write: usize) -> &mut Ring {
        self.positions = Positions { read, write };
        self
    }

    fn post_notice(&mut self, id: u32, length: usize) -> String {
        self.post(&format!("notice {id}, {length} bytes"), id, length)
    }

    fn take_into(&mut self, room: usize) -> String {
        self.take(&format!("output of {room}"), room)
    }

    fn post(&mut self, what: &str, id: u32, length: usize) -> String {
        let posted = notice::post(&mut self.bytes, &mut self.positions, id, &counting(length));
        let done = |()| "done".to_string();
        self.with_positions(case(format_args!("post, {what}"), posted, done))
    }

    fn take(&mut self, what: &str, room: usize) -> String {
        let mut out = vec![0; room];
        let taken = notice::take(&self.bytes, &mut self.positions, &mut out);
        let notice = |Notice { id, data }: Notice| {
            let data = shown(&out[..data.len()]);
            format!("notice {id}, data {data}")
        };
        self.with_positions(case(format_args!("take, {what}"), taken, notice))
    }

    fn with_positions(&self, case: String) -> String {
        let Positions { read, write } = self.positions;
        format!("{case}; read {read}, write {write}")
    }
}

// UBIOS tables.

const BASE: u64 = 4096;
const SOUND_SPEED: u64 = BASE + 64;
const DEPTH: u64 = BASE + 112;
/// The place of a reserved byte.
const RESERVED: usize = 21;

fn ubios_tables() -> Vec<String> {
    let gap = region([0, SOUND_SPEED, DEPTH]);
    let twice = region([DEPTH, SOUND_SPEED, DEPTH]);
    let one_more = changed(&twice, RESERVED, twice[RESERVED].wrapping_add(1));
    part(
        "UBIOS tables in a region of 256 bytes at 4096: \
         a root with three slots, a gap, sound_speed and depth",
        &[
            sum_of(&[1, 0, 0, 0, 0xFF]),
            checksum_of_root(),
            root("that root", &shortest_root(), BASE),
            root("root", &gap, BASE),
            table(
                "table in slot 1, a byte behind its used part is 1",
                &gap,
                SOUND_SPEED,
            ),
            find("sound_speed", &gap, b"sound_speed"),
            find("depth", &gap, b"depth"),
            find("bottom", &gap, b"bottom"),
            find("depth, in two slots", &twice, b"depth"),
            find("no name", &twice, b""),
            root("root at 4100", &twice, 4100),
            root("root at 8192", &twice, 8192),
            root("root, Total 39", &resealed(&gap, TOTAL, 39), BASE),
            root("root, Version 2", &resealed(&gap, VERSION, 2), BASE),
            root("root, one byte more in its sum", &one_more, BASE),
            root("root, another name", &resealed(&gap, 0, b'b'), BASE),
            root("root, Count 4", &resealed(&gap, COUNT, 4), BASE),
        ],
    )
}

fn sum_of(bytes: &[u8]) -> String {
    format!("sum, {}: 0x{:08X}", shown(bytes), sum32(bytes))
}

fn checksum_of_root() -> String {
    let checksum = word(&shortest_root(), CHECKSUM);
    format!("the checksum of a root with Total 40, Version 1, all else 0: 0x{checksum:08X}")
}

fn root(what: &str, region: &[u8], address: u64) -> String {
    let root = ubios::check_root(at_base(region), address);
    case(what, root, |root| {
        let (offset, used, count) = (root.offset, root.used, root.count);
        format!("at {offset}, {used} bytes used, {count} slots")
    })
}

fn table(what: &str, region: &[u8], address: u64) -> String {
    let table = ubios::check_table(at_base(region), address);
    case(what, table, |table| {
        format!("at {}, {} bytes used", table.offset, table.used)
    })
}

fn find(what: &str, region: &[u8], name: &[u8]) -> String {
    let body = ubios::find(at_base(region), BASE, name);
    case(format_args!("find, {what}"), body, |body| {
        let (slot, offset, length) = (body.slot, body.offset, body.length);
        let bytes = shown(&region[offset..offset + length]);
        format!("slot {slot}, {length} bytes at {offset}: {bytes}")
    })
}

fn at_base(bytes: &[u8]) -> Region<'_> {
    Region { bytes, base: BASE }
}

/// Total 40, Version 1, all else 0, and the checksum that it needs.
fn shortest_root() -> Vec<u8> {
    let mut root = vec![0; 40];
    put(&mut root, 0, ROOT_NAME);
    put_word(&mut root, TOTAL, 40);
    root[VERSION] = 1;
    tables::seal(&mut root);
    root
}

/// A root with these slots, `sound_speed`, with a byte that is 1 behind its used part, and `depth`.
/// What else no check reads is any.
fn region(slots: [u64; 3]) -> Vec<u8> {
    let random = &mut Random::new(90);
    let mut region = random.bytes(256);
    let root = tables::root(random, &slots, 0, 0);
    let mut speed = tables::table(random, b"sound_speed", &[0xCF, 5, 0, 0, 0, 0, 0, 0], 8);
    speed[40] = 1;
    let depth = tables::table(random, b"depth", &[0x1F, 0, 0, 0], 0);
    for (place, table) in [(0, root), (64, speed), (112, depth)] {
        put(&mut region, place, &table);
    }
    region
}

/// With another byte in the root, and the checksum that it needs then.
fn resealed(region: &[u8], at: usize, byte: u8) -> Vec<u8> {
    let mut region = changed(region, at, byte);
    tables::seal(&mut region);
    region
}

// SFI tables.

fn sfi_tables() -> Vec<String> {
    let cpus = laid(&CPUS, 28);
    let failing = &cpus[..27];
    let two_cpus = laid(&CPUS, 32);
    part(
        "SFI tables",
        &[
            checksum_of_cpus(),
            check("CPUS of 28 bytes", &cpus),
            check("its first 27 bytes", failing),
            check("another signature", &resealed_sfi(&cpus, 3, b'X')),
            check("Length 27", &resealed_sfi(&cpus, sfi_tables::LENGTH, 27)),
            check("Checksum 0", &changed(&cpus, sfi_tables::CHECKSUM, 0)),
            check("MMAP with an entry of 40 bytes", &laid(&MMAP, 64)),
            check("WAKE of 40 bytes", &laid(&WAKE, 40)),
            check("WAKE of 32 bytes", &laid(&WAKE, 32)),
            check("FREQ of Revision 0", &revised(&FREQ, 36, 0)),
            check("FREQ of Revision 1", &revised(&FREQ, 36, 1)),
            check("FREQ of Revision 2", &revised(&FREQ, 36, 2)),
            check("FREQ of Revision 255", &revised(&FREQ, 36, 255)),
            check(
                "FREQ of Revision 2 with an entry of 16 bytes",
                &revised(&FREQ, 40, 2),
            ),
            check("MTMR of Revision 1", &revised(&MTMR, 40, 1)),
            check("MTMR of Revision 3", &revised(&MTMR, 40, 3)),
            check("WAKE of Revision 1", &revised(&WAKE, 32, 1)),
            check("WAKE of Revision 3", &revised(&WAKE, 32, 3)),
            entry("entry 0", &cpus, 0),
            entry("entry 1", &cpus, 1),
            entry("entry 1, MMAP of 96 bytes", &laid(&MMAP, 96), 1),
            find_syst("at 4064 with Length 32", &memory(&[(4064, 32, 1)])),
            find_syst(
                "at 4064 and at 8192",
                &memory(&[(4064, 32, 1), (8192, 32, 1)]),
            ),
            find_syst("at 4064 with Length 40", &memory(&[(4064, 40, 1)])),
            find_syst("at 4064 of Revision 0", &memory(&[(4064, 32, 0)])),
            find_syst("at 4064 of Revision 2", &memory(&[(4064, 32, 2)])),
            find_syst("131071 bytes", &memory(&[(4064, 40, 1)])[..131_071]),
            choose("choose CPUS, the board's passes", b"CPUS", &cpus, failing),
            choose(
                "choose CPUS, both pass, the built-in one with 28 bytes",
                b"CPUS",
                &two_cpus,
                &cpus,
            ),
            choose(
                "choose CPUS, the board's is of Revision 2",
                b"CPUS",
                &revised(&CPUS, 32, 2),
                &cpus,
            ),
            choose(
                "choose CPUS, the board's is of Revision 0",
                b"CPUS",
                &revised(&CPUS, 32, 0),
                &cpus,
            ),
            choose("choose CPUS, the board's fails", b"CPUS", failing, &cpus),
            choose("choose CPUS, both fail", b"CPUS", failing, failing),
            choose("choose, another signature", b"CPUX", &cpus, &cpus),
        ],
    )
}

/// A table of this kind and Length, the rest 0, and the checksum that it needs.
fn laid(kind: &Kind, length: usize) -> Vec<u8> {
    revised(kind, length, kind.revision)
}

/// The same of that Revision.
fn revised(kind: &Kind, length: usize, revision: u8) -> Vec<u8> {
    let mut table = vec![0; length];
    put(&mut table, 0, &kind.signature);
    put_word(&mut table, sfi_tables::LENGTH, length);
    table[sfi_tables::REVISION] = revision;
    sfi_tables::seal(&mut table);
    table
}

/// With another byte, and the checksum that it needs then.
fn resealed_sfi(table: &[u8], at: usize, byte: u8) -> Vec<u8> {
    let mut table = changed(table, at, byte);
    sfi_tables::seal(&mut table);
    table
}

fn checksum_of_cpus() -> String {
    let checksum = laid(&CPUS, 28)[sfi_tables::CHECKSUM];
    format!("the checksum of CPUS with Length 28, Revision 1, the rest 0: 0x{checksum:02X}")
}

/// Zeros, and at each of these offsets a SYST of that Length and Revision.
fn memory(places: &[(usize, usize, u8)]) -> Vec<u8> {
    let mut memory = vec![0; 131_072];
    for &(offset, length, revision) in places {
        lay_syst_of(&mut memory, offset, length, revision);
    }
    memory
}

fn check(what: &str, slice: &[u8]) -> String {
    case(format_args!("check, {what}"), sfi::check(slice), |table| {
        let signature = table.kind.signature.escape_ascii();
        format!("{signature}, {} bytes", table.length)
    })
}

fn entry(what: &str, slice: &[u8], k: usize) -> String {
    case(what, sfi::entry(slice, k), shown_offset)
}

fn find_syst(what: &str, memory: &[u8]) -> String {
    let offset = sfi::find_syst(memory);
    case(format_args!("find SYST, {what}"), offset, shown_offset)
}

fn shown_offset(offset: usize) -> String {
    format!("at {offset}")
}

fn choose(what: &str, signature: &[u8; 4], board: &[u8], built_in: &[u8]) -> String {
    let choice = sfi::choose(*signature, board, built_in);
    case(what, choice, |(source, length)| match source {
        Source::Board => format!("board, {length} bytes"),
        Source::BuiltIn => format!("built-in, {length} bytes"),
    })
}

// The frame log.

fn frame_log() -> Vec<String> {
    let record = record();
    part(
        "The frame log, records of 260 bytes",
        &[
            log("write, 5 bytes", 5, 260),
            read_record("read", &record),
            read_record("read, 259 bytes", &record[..259]),
            read_record("read, byte 2 is 1", &changed(&record, 2, 1)),
            read_record("read, length 257", &[&[1, 1], &record[2..]].concat()),
            read_record("read, the last byte is 1", &changed(&record, 259, 1)),
            log("write, a slice of 259", 5, 259),
            log("write, 257 bytes", 257, 260),
        ],
    )
}

/// The record of a frame of five bytes.
fn record() -> Vec<u8> {
    let mut record = vec![0xFF; 260];
    framelog::write(&counting(5), &mut record).expect("the sizes are legal");
    record
}

fn log(what: &str, length: usize, room: usize) -> String {
    let mut slice = vec![0xFF; room];
    let written = framelog::write(&counting(length), &mut slice);
    case(what, written, |()| format!("done: {}", shown(&slice)))
}

fn read_record(what: &str, slice: &[u8]) -> String {
    case(what, framelog::read(slice), |frame| {
        format!("{} bytes: {}", frame.len(), shown(frame))
    })
}
