//! Times the library beside plain Rust with the same meaning.
//!
//! `bench rounds` prints what each round took, `bench table FILE ..` makes a Markdown table of the
//! rounds of several runs; `bench sums` and `bench sums-table FILE ..` do so for the sums alone, and
//! `bench clock` says how fast the processor runs. `scripts/bench.sh` does all of it.

mod clock;
mod sums;
mod table;
mod timing;

use bench::{baseline, log};
use hoursquall::calls as library;
use std::arch::global_asm;
use std::hint::black_box;
use std::{env, process};
use timing::print_rounds;

// Bytes before the code of both sides, which is linked behind this crate's. A loop that crosses the
// end of a cache line can take twice as long as the same loop elsewhere; moved on by 16 bytes at a
// time, each comes to stand at every place that the linker could give it.
global_asm!(
    ".section .text.pad,\"axR\",@progbits",
    concat!(".zero ", env!("BENCH_PAD")),
    ".text"
);

const SEQUENCE: u8 = 9;
const ID: u32 = 0x0102_0304;
const SENDER: u32 = 10;
const RECEIVER: u32 = 11;
const STATUS: u32 = 0;

const MESSAGE: usize = 4096;
const PIECE: usize = 232;

const RING: usize = 4096;
const NOTICE: usize = 1024;

const BASE: u64 = 0x1000;
const SLOTS: usize = 128;
const ROOT: usize = 40 + 8 * SLOTS;
const TABLE: usize = 256;

const SYST: u32 = u32::from_le_bytes(*b"SYST");
const MEMORY: usize = 131_072;

const FRAME: usize = 256;
const RECORD: usize = 260;

const RECORDS: usize = 252;
const LINE: usize = 47;

/// The functions as both sides have them.
type Parse = fn(&[u8], u32, &mut [u32; 7]) -> u32;
type Count = fn(usize, usize, &mut usize) -> u32;
type Write = fn(u8, u32, u32, u32, u32, &[u8], usize, usize, &mut [u8], &mut usize) -> u32;
type Step = fn(&mut [u64; 8], &[u8], u32, &mut [u8], &mut [u32; 5]) -> u32;
type Post = fn(&mut [u8], &mut [usize; 2], u32, &[u8]) -> u32;
type Take = fn(&[u8], &mut [usize; 2], &mut [u8], &mut u32, &mut usize) -> u32;
type Table = fn(&[u8], u64, u64, &mut [usize; 2]) -> u32;
type Root = fn(&[u8], u64, u64, &mut [usize; 3]) -> u32;
type Find = fn(&[u8], u64, u64, &[u8], &mut [usize; 3]) -> u32;
type SfiCheck = fn(&[u8], &mut u32, &mut usize) -> u32;
type SfiEntry = fn(&[u8], usize, &mut usize) -> u32;
type SfiChoose = fn(u32, &[u8], &[u8], &mut usize) -> u32;
type FindSyst = fn(&[u8], &mut usize) -> u32;
type LogWrite = fn(&[u8], &mut [u8]) -> u32;
type LogRead = fn(&[u8], &mut usize) -> u32;
type ReplayRecord = fn(&mut [u64; 8], &[u8], u32, &mut [u8; 4096], &mut [u32; 5]) -> u32;
type ReplayChunk = fn(&mut [u64; 9], &[u8], u32, &mut [u8; 4096], &mut [u8], &mut usize) -> usize;

fn main() {
    let mut words = env::args().skip(1);
    match words.next().as_deref() {
        Some("rounds") => {
            timing::warm_up();
            print_all_rounds();
        }
        Some("table") => table::print(words),
        Some("sums") => {
            timing::warm_up();
            sums::print_all_rounds();
        }
        Some("sums-table") => table::print_sums(words),
        Some("clock") => println!("{:.2} GHz", clock::gigahertz()),
        _ => {
            eprintln!("usage: bench rounds | table FILE .. | sums | sums-table FILE .. | clock");
            process::exit(2);
        }
    }
}

fn print_all_rounds() {
    parse();
    write("write, a frame of 256 B", 7);
    write("write, the last frame, 176 B", 17);
    count();
    reassemble("reassemble 4,096 B in pieces of 232", PIECE);
    reassemble("reassemble 4,096 B in pieces of 1", 1);
    post_and_take("post and take, 0 B", 0);
    post_and_take("post and take, 256 B", 256);
    post_and_take("post and take, 1,024 B", NOTICE);
    table_check();
    root_check();
    find();
    sfi_check();
    sfi_entry();
    sfi_choose();
    find_syst("find SYST, 128 KiB, no hit", &pattern(MEMORY));
    find_syst(
        "find SYST, 128 KiB, 8,192 false signatures",
        &false_signatures(),
    );
    log_write_and_read();
    replay_records();
    replay_chunk();
}

fn parse() {
    let mut frame = [0; 256];
    assert_eq!(
        call_write(baseline::write, &message(), PIECE, 7, &mut frame).0,
        0
    );
    let (mut library_header, mut rust_header) = ([0; 7], [0; 7]);
    print_rounds(
        "parse, a frame of 256 B",
        || call_parse(library::parse, &frame, &mut library_header),
        || call_parse(baseline::parse, &frame, &mut rust_header),
    );
    assert_eq!(library_header, rust_header, "the headers differ");
}

fn count() {
    print_rounds(
        "count",
        || call_count(library::count),
        || call_count(baseline::count),
    );
}

fn write(what: &str, index: usize) {
    let message = message();
    let (mut library_out, mut rust_out) = ([0; 256], [0; 256]);
    print_rounds(
        what,
        || call_write(library::write, &message, PIECE, index, &mut library_out),
        || call_write(baseline::write, &message, PIECE, index, &mut rust_out),
    );
    assert_eq!(library_out, rust_out, "{what}: the frames differ");
}

/// All calls of one message, from the fresh state to the delivery.
fn reassemble(what: &str, piece_size: usize) {
    let message = message();
    let frames = frames(&message, piece_size);
    let (mut library_buffer, mut rust_buffer) = ([0; MESSAGE], [0; MESSAGE]);
    print_rounds(
        what,
        || call_steps(library::step, &frames, &mut library_buffer),
        || call_steps(baseline::step, &frames, &mut rust_buffer),
    );
    assert_eq!(library_buffer, message, "{what}: the library's message");
    assert_eq!(rust_buffer, message, "{what}: Rust's message");
}

/// A post into an empty ring, and the take of that notice. The positions move on with each pair,
/// so that some notices run past the ring's last byte.
fn post_and_take(what: &str, length: usize) {
    let data = pattern(length);
    let (mut library_ring, mut rust_ring) = (Ring::new(), Ring::new());
    print_rounds(
        what,
        || call_post_and_take(library::post, library::take, &data, &mut library_ring),
        || call_post_and_take(baseline::post, baseline::take, &data, &mut rust_ring),
    );
    assert_eq!(library_ring.out[..length], data, "{what}: the library's");
    assert_eq!(rust_ring.out[..length], data, "{what}: Rust's");
}

fn table_check() {
    let region = ubios_table(b"table", &pattern(65_536 - 32));
    assert_eq!(call_table(baseline::table, &region), (0, [0, 65_536]));
    print_rounds(
        "table check, 64 KiB",
        || call_table(library::table, &region),
        || call_table(baseline::table, &region),
    );
}

fn root_check() {
    let region = root_and_tables();
    let expected = (0, [0, ROOT, SLOTS]);
    assert_eq!(call_root(baseline::root, &region), expected);
    print_rounds(
        "root check, 128 slots",
        || call_root(library::root, &region),
        || call_root(baseline::root, &region),
    );
}

/// Every slot leads to a table of another name; the last one's is sought.
fn find() {
    let last = SLOTS - 1;
    let (region, name) = (root_and_tables(), table_name(last));
    let expected = [last, ROOT + TABLE * last + 32, TABLE - 32];
    assert_eq!(call_find(baseline::find, &region, &name), (0, expected));
    print_rounds(
        "find, 128 slots with 128 tables",
        || call_find(library::find, &region, &name),
        || call_find(baseline::find, &region, &name),
    );
}

fn sfi_check() {
    let table = syst(65_536);
    let expected = (0, SYST, 65_536);
    assert_eq!(call_sfi_check(baseline::sfi_check, &table), expected);
    print_rounds(
        "sfi check, 64 KiB",
        || call_sfi_check(library::sfi_check, &table),
        || call_sfi_check(baseline::sfi_check, &table),
    );
}

/// The last entry, so that all are counted.
fn sfi_entry() {
    let table = syst(1024);
    let last = (1024 - 24) / 8 - 1;
    let expected = (0, 24 + 8 * last);
    assert_eq!(call_sfi_entry(baseline::sfi_entry, &table, last), expected);
    print_rounds(
        "sfi entry, the last of 1 KiB",
        || call_sfi_entry(library::sfi_entry, &table, last),
        || call_sfi_entry(baseline::sfi_entry, &table, last),
    );
}

/// The board's table is right in all but its sum, so both are summed.
fn sfi_choose() {
    let (mut board, built_in) = (syst(1024), syst(1024));
    board[9] ^= 1;
    let expected = (102, 1024);
    assert_eq!(
        call_sfi_choose(baseline::sfi_choose, &board, &built_in),
        expected
    );
    print_rounds(
        "sfi choose, the second of two of 1 KiB",
        || call_sfi_choose(library::sfi_choose, &board, &built_in),
        || call_sfi_choose(baseline::sfi_choose, &board, &built_in),
    );
}

/// All of the memory is searched.
fn find_syst(what: &str, memory: &[u8]) {
    assert_eq!(call_find_syst(baseline::find_syst, memory), (47, 0));
    print_rounds(
        what,
        || call_find_syst(library::find_syst, memory),
        || call_find_syst(baseline::find_syst, memory),
    );
}

/// The write of a frame's record, and the read of that record.
fn log_write_and_read() {
    let frame: [u8; FRAME] = pattern(FRAME).try_into().expect("it has that length");
    let (mut library_record, mut rust_record) = ([0; RECORD], [0; RECORD]);
    print_rounds(
        "log, write and read a frame of 256 B",
        || {
            call_log(
                library::log_write,
                library::log_read,
                &frame,
                &mut library_record,
            )
        },
        || {
            call_log(
                baseline::log_write,
                baseline::log_read,
                &frame,
                &mut rust_record,
            )
        },
    );
    assert_eq!(library_record, rust_record, "the records differ");
}

/// The records of one message, each with a call, from the fresh state to the delivery.
fn replay_records() {
    let message = message();
    let records: Vec<[u8; RECORD]> = frames(&message, PIECE).iter().map(|f| record(f)).collect();
    let (mut library_buffer, mut rust_buffer) = ([0; MESSAGE], [0; MESSAGE]);
    print_rounds(
        "replay 4,096 B in 18 records",
        || call_replay_records(library::replay_record, &records, &mut library_buffer),
        || call_replay_records(baseline::replay_record, &records, &mut rust_buffer),
    );
    assert_eq!(library_buffer, message, "the library's message");
    assert_eq!(rust_buffer, message, "Rust's message");
}

/// The first records of the log that the program `play` is timed with, all in one call.
fn replay_chunk() {
    let mut chunk = vec![];
    log::write(&mut chunk, RECORDS).expect("there is memory for it");
    let (mut library_player, mut rust_player) = (Player::new(), Player::new());
    print_rounds(
        "replay a chunk of 252 records",
        || call_replay_chunk(library::replay_chunk, &chunk, &mut library_player),
        || call_replay_chunk(baseline::replay_chunk, &chunk, &mut rust_player),
    );
    assert_eq!(library_player.out, rust_player.out, "the lines differ");
    assert_eq!(library_player.buffer, rust_player.buffer);
}

/// The record of a frame.
fn record(frame: &[u8]) -> [u8; RECORD] {
    let mut record = [0; RECORD];
    assert_eq!(baseline::log_write(frame, &mut record), 0);
    record
}

/// What the replay of a chunk is lent, besides the chunk and the numbers.
struct Player {
    buffer: [u8; MESSAGE],
    out: [u8; RECORDS * LINE],
}

impl Player {
    fn new() -> Player {
        Player {
            buffer: [0; MESSAGE],
            out: [0; RECORDS * LINE],
        }
    }
}

/// A SYST that passes.
fn syst(length: usize) -> Vec<u8> {
    let mut table = pattern(length);
    table[..4].copy_from_slice(&SYST.to_le_bytes());
    table[4..8].copy_from_slice(&(length as u32).to_le_bytes());
    table[8..10].copy_from_slice(&[1, 0]);
    table[9] = baseline::sum8(&table).wrapping_neg();
    table
}

/// At every 16th byte a SYST with one entry that is right in all but its sum. So each is summed,
/// but for the last one of a page, which has no room there. Every table's last 16 bytes are the
/// first of the next one.
fn false_signatures() -> Vec<u8> {
    b"SYST\x20\0\0\0\x01\0\0\0\0\0\0\0".repeat(MEMORY / 16)
}

/// What the posts and takes are lent, besides the data.
struct Ring {
    bytes: [u8; RING],
    positions: [usize; 2],
    out: [u8; NOTICE],
}

impl Ring {
    fn new() -> Ring {
        Ring {
            bytes: [0; RING],
            positions: [0; 2],
            out: [0; NOTICE],
        }
    }
}

/// All frames of a message.
fn frames(message: &[u8; MESSAGE], piece_size: usize) -> Vec<Vec<u8>> {
    let frame = |index| {
        let mut out = [0; 256];
        let (answer, length) = call_write(baseline::write, message, piece_size, index, &mut out);
        assert_eq!(answer, 0);
        out[..length].to_vec()
    };
    (0..MESSAGE.div_ceil(piece_size)).map(frame).collect()
}

/// A root, and the tables that its slots lead to.
fn root_and_tables() -> Vec<u8> {
    let mut body = vec![SLOTS as u8, 0, 0, 0, 0, 0, 0, 0];
    for slot in 0..SLOTS {
        let address = BASE + (ROOT + TABLE * slot) as u64;
        body.extend(address.to_le_bytes());
    }
    let mut region = ubios_table(b"root_table", &body);
    assert_eq!(region.len(), ROOT);
    for slot in 0..SLOTS {
        region.extend(ubios_table(&table_name(slot), &pattern(TABLE - 32)));
    }
    region
}

fn table_name(slot: usize) -> [u8; 9] {
    let name = format!("table {slot:03}").into_bytes();
    name.try_into().expect("it has that length")
}

/// A table that passes.
fn ubios_table(name: &[u8], body: &[u8]) -> Vec<u8> {
    let mut table = vec![0; 32];
    table.extend(body);
    let total = table.len() as u32;
    table[..name.len()].copy_from_slice(name);
    table[16..20].copy_from_slice(&total.to_le_bytes());
    table[20] = 1;
    let checksum = baseline::sum32(&table).wrapping_neg();
    table[28..32].copy_from_slice(&checksum.to_le_bytes());
    table
}

/// Bytes that are not all alike.
fn pattern(length: usize) -> Vec<u8> {
    (0..length).map(|i| (i * 7 + i / 256) as u8).collect()
}

fn message() -> [u8; MESSAGE] {
    pattern(MESSAGE).try_into().expect("it has that length")
}

// Each call hides its arguments from the optimiser, which could otherwise fit the Rust function to
// them or call it once. In the shortest calls numbers and thin pointers are hidden: a slice would
// cost more.

#[inline(always)]
fn call_parse(parse: Parse, frame: &[u8; 256], header: &mut [u32; 7]) -> u32 {
    parse(black_box(frame), black_box(RECEIVER), black_box(header))
}

#[inline(always)]
fn call_count(count: Count) -> (u32, usize) {
    let mut frames = 0;
    let answer = count(black_box(MESSAGE), black_box(PIECE), &mut frames);
    (answer, frames)
}

#[inline(always)]
fn call_write(
    write: Write,
    message: &[u8; MESSAGE],
    piece_size: usize,
    index: usize,
    out: &mut [u8; 256],
) -> (u32, usize) {
    let mut frame_len = 0;
    let answer = write(
        black_box(SEQUENCE),
        black_box(ID),
        black_box(SENDER),
        black_box(STATUS),
        black_box(RECEIVER),
        black_box(message),
        black_box(piece_size),
        black_box(index),
        black_box(out),
        &mut frame_len,
    );
    (answer, frame_len)
}

#[inline(always)]
fn call_steps(step: Step, frames: &[Vec<u8>], buffer: &mut [u8; MESSAGE]) -> (u32, [u32; 5]) {
    let (mut state, mut words) = ([0; 8], [0; 5]);
    let mut answer = 0;
    for frame in black_box(frames) {
        let (state, buffer) = (black_box(&mut state), black_box(&mut *buffer));
        answer = step(state, frame, black_box(RECEIVER), buffer, &mut words);
    }
    (answer, words)
}

#[inline(always)]
fn call_post_and_take(post: Post, take: Take, data: &[u8], ring: &mut Ring) -> (u32, u32, usize) {
    let (mut id, mut data_len) = (0, 0);
    let data = black_box(data);
    let Ring {
        bytes,
        positions,
        out,
    } = black_box(ring);
    let posted = post(bytes, positions, black_box(ID), data);
    let taken = take(bytes, positions, out, &mut id, &mut data_len);
    (posted + taken, id, data_len)
}

#[inline(always)]
fn call_table(table: Table, region: &[u8]) -> (u32, [usize; 2]) {
    let mut part = [0; 2];
    let answer = table(
        black_box(region),
        black_box(BASE),
        black_box(BASE),
        &mut part,
    );
    (answer, part)
}

#[inline(always)]
fn call_root(root: Root, region: &[u8]) -> (u32, [usize; 3]) {
    let mut part = [0; 3];
    let answer = root(
        black_box(region),
        black_box(BASE),
        black_box(BASE),
        &mut part,
    );
    (answer, part)
}

#[inline(always)]
fn call_find(find: Find, region: &[u8], name: &[u8; 9]) -> (u32, [usize; 3]) {
    let mut body = [0; 3];
    let (region, name) = (black_box(region), black_box(name));
    let answer = find(region, black_box(BASE), black_box(BASE), name, &mut body);
    (answer, body)
}

#[inline(always)]
fn call_sfi_check(check: SfiCheck, table: &[u8]) -> (u32, u32, usize) {
    let (mut signature, mut length) = (0, 0);
    let answer = check(black_box(table), &mut signature, &mut length);
    (answer, signature, length)
}

#[inline(always)]
fn call_sfi_entry(entry: SfiEntry, table: &[u8], k: usize) -> (u32, usize) {
    let mut offset = 0;
    let answer = entry(black_box(table), black_box(k), &mut offset);
    (answer, offset)
}

#[inline(always)]
fn call_sfi_choose(choose: SfiChoose, board: &[u8], built_in: &[u8]) -> (u32, usize) {
    let mut length = 0;
    let (board, built_in) = (black_box(board), black_box(built_in));
    let answer = choose(black_box(SYST), board, built_in, &mut length);
    (answer, length)
}

#[inline(always)]
fn call_find_syst(find_syst: FindSyst, memory: &[u8]) -> (u32, usize) {
    let mut offset = 0;
    let answer = find_syst(black_box(memory), &mut offset);
    (answer, offset)
}

#[inline(always)]
fn call_log(
    write: LogWrite,
    read: LogRead,
    frame: &[u8; FRAME],
    record: &mut [u8; RECORD],
) -> (u32, usize) {
    let mut frame_len = 0;
    let (frame, record) = (black_box(frame), black_box(record));
    let written = write(frame, record);
    let read = read(record, &mut frame_len);
    (written + read, frame_len)
}

#[inline(always)]
fn call_replay_records(
    replay: ReplayRecord,
    records: &[[u8; RECORD]],
    buffer: &mut [u8; MESSAGE],
) -> (u32, [u32; 5]) {
    let (mut state, mut words) = ([0; 8], [0; 5]);
    let mut answer = 0;
    for record in black_box(records) {
        let (state, buffer) = (black_box(&mut state), black_box(&mut *buffer));
        answer = replay(state, record, black_box(RECEIVER), buffer, &mut words);
    }
    (answer, words)
}

#[inline(always)]
fn call_replay_chunk(
    replay: ReplayChunk,
    chunk: &[u8],
    player: &mut Player,
) -> ([u64; 9], usize, usize) {
    let (mut numbers, mut read) = ([0; 9], 0);
    let (chunk, Player { buffer, out }) = (black_box(chunk), black_box(player));
    let us = black_box(log::RECEIVER);
    let written = replay(&mut numbers, chunk, us, buffer, out, &mut read);
    (numbers, read, written)
}
