//! What the library does, in plain optimised Rust. Never inlined, since a call to the library
//! isn't either, and with the arguments of the C functions.

use std::io::{self, Write};

const HEADER_SIZE: usize = 24;
const NOTICE_HEADER_SIZE: usize = 8;
const TABLE_HEADER_SIZE: usize = 32;
const ROOT_HEADER_SIZE: usize = 40;
const SFI_HEADER_SIZE: usize = 24;
const LOG_HEADER_SIZE: usize = 4;
const RECORD_SIZE: usize = 260;
const LINE_MAX: usize = 47;
const PAGE: usize = 4096;

/// The loop that Q-3 asks for: one byte at a time.
#[inline(never)]
pub fn sum8(bytes: &[u8]) -> u8 {
    let mut sum = 0u8;
    for byte in bytes {
        sum = sum.wrapping_add(*byte);
    }
    sum
}

/// The loop that Q-3 asks for: one word at a time, and then what is left as a short one.
#[inline(never)]
pub fn sum32(bytes: &[u8]) -> u32 {
    let (words, rest) = bytes.as_chunks();
    let mut sum = 0u32;
    for word in words {
        sum = sum.wrapping_add(u32::from_le_bytes(*word));
    }
    let last = match *rest {
        [a] => [a, 0, 0, 0],
        [a, b] => [a, b, 0, 0],
        [a, b, c] => [a, b, c, 0],
        _ => [0; 4],
    };
    sum.wrapping_add(u32::from_le_bytes(last))
}

#[inline(never)]
pub fn parse(frame: &[u8], us: u32, header: &mut [u32; 7]) -> u32 {
    read_header(frame, us, header)
}

#[inline(always)]
fn read_header(frame: &[u8], us: u32, header: &mut [u32; 7]) -> u32 {
    if frame.len() < HEADER_SIZE {
        return 1;
    }
    if frame.len() > 256 {
        return 2;
    }
    if frame[0] != 0x11 {
        return 3;
    }
    if word_at(frame, 12) != us {
        return 4;
    }
    *header = [
        u32::from(frame[1]),
        u32::from(u16::from_le_bytes([frame[2], frame[3]])),
        word_at(frame, 4),
        word_at(frame, 8),
        word_at(frame, 12),
        word_at(frame, 16),
        word_at(frame, 20),
    ];
    0
}

#[inline(never)]
pub fn count(length: usize, piece_size: usize, frames: &mut usize) -> u32 {
    if length > 4096 {
        return 10;
    }
    if piece_size == 0 || piece_size > 232 {
        return 12;
    }
    *frames = length.div_ceil(piece_size).max(1);
    0
}

#[inline(never)]
#[allow(clippy::too_many_arguments)] // those of the C function
pub fn write(
    sequence: u8,
    id: u32,
    sender: u32,
    status: u32,
    receiver: u32,
    message: &[u8],
    piece_size: usize,
    index: usize,
    out: &mut [u8],
    frame_len: &mut usize,
) -> u32 {
    if message.len() > 4096 {
        return 10;
    }
    if piece_size == 0 || piece_size > 232 {
        return 12;
    }
    if index >= message.len().div_ceil(piece_size).max(1) {
        return 13;
    }
    let start = index * piece_size;
    let piece = &message[start..message.len().min(start + piece_size)];
    let length = HEADER_SIZE + piece.len();
    if out.len() < length {
        return 14;
    }
    out[..4].copy_from_slice(&[0x11, sequence, index as u8, (index >> 8) as u8]);
    let words = [id, sender, receiver, status, message.len() as u32];
    for (place, word) in out[4..HEADER_SIZE].chunks_exact_mut(4).zip(words) {
        place.copy_from_slice(&word.to_le_bytes());
    }
    out[HEADER_SIZE..length].copy_from_slice(piece);
    *frame_len = length;
    0
}

#[inline(never)]
pub fn step(
    state: &mut [u64; 8],
    frame: &[u8],
    us: u32,
    buffer: &mut [u8],
    words: &mut [u32; 5],
) -> u32 {
    run(state, frame, us, buffer, words)
}

#[inline(always)]
fn run(
    state: &mut [u64; 8],
    frame: &[u8],
    us: u32,
    buffer: &mut [u8],
    words: &mut [u32; 5],
) -> u32 {
    if !is_state(state, buffer.len()) {
        *state = [0; 8];
        return 11;
    }
    let mut header = [0; 7];
    let refusal = read_header(frame, us, &mut header);
    if refusal != 0 {
        return refusal;
    }
    let answer = accept(state, &header, &frame[HEADER_SIZE..], buffer);
    if answer == 100 {
        *words = [header[0], header[2], header[3], header[5], header[6]];
    }
    if answer != 0 {
        *state = [0; 8];
    }
    answer
}

/// Fresh or consistent.
#[inline(always)]
fn is_state(state: &[u64; 8], buffer: usize) -> bool {
    let &[kind, sequence, id, sender, status, total, next, filled] = state;
    let narrow = sequence >> 8 == 0 && (id | sender | status) >> 32 == 0;
    let ordered = 1 <= next && next <= filled && filled < total;
    let fits = total <= 4096 && total <= buffer as u64;
    kind == 0 || kind == 1 && narrow && ordered && fits
}

/// What a frame that parses leads to. A state in which more is wanted is written here.
#[inline(always)]
fn accept(state: &mut [u64; 8], header: &[u32; 7], data: &[u8], buffer: &mut [u8]) -> u32 {
    let [sequence, index, id, sender, _, status, total] = header.map(u64::from);
    let carried = (sequence, id, sender, status, total);
    if index == 0 {
        if total > 4096 || total > buffer.len() as u64 {
            return 10;
        }
        *state = [1, sequence, id, sender, status, total, 0, 0];
    } else if state[0] == 0 {
        return 5;
    } else if state[6] != index {
        return 6;
    } else if (state[1], state[2], state[3], state[4], state[5]) != carried {
        return 7;
    }
    if data.is_empty() && total != 0 {
        return 8;
    }
    let start = state[7] as usize;
    if data.len() > total as usize - start {
        return 9;
    }
    let filled = start + data.len();
    buffer[start..filled].copy_from_slice(data);
    state[6] = index + 1;
    state[7] = filled as u64;
    if filled == total as usize {
        100
    } else {
        0
    }
}

#[inline(never)]
pub fn post(ring: &mut [u8], positions: &mut [usize; 2], id: u32, data: &[u8]) -> u32 {
    let [read, write] = *positions;
    if !is_ring(ring.len(), read, write) {
        return 20;
    }
    if data.len() > 1024 {
        return 24;
    }
    let length = NOTICE_HEADER_SIZE + data.len();
    if length > ring.len() - 1 - distance(ring.len(), read, write) {
        return 25;
    }
    let mut header = [0; NOTICE_HEADER_SIZE];
    header[..4].copy_from_slice(&id.to_le_bytes());
    header[4..].copy_from_slice(&(data.len() as u32).to_le_bytes());
    copy_in(ring, write, &header);
    let start = moved(ring.len(), write, NOTICE_HEADER_SIZE);
    copy_in(ring, start, data);
    positions[1] = moved(ring.len(), write, length);
    0
}

#[inline(never)]
pub fn take(
    ring: &[u8],
    positions: &mut [usize; 2],
    out: &mut [u8],
    id: &mut u32,
    data_len: &mut usize,
) -> u32 {
    let [read, write] = *positions;
    if !is_ring(ring.len(), read, write) {
        return 20;
    }
    if read == write {
        return 21;
    }
    let waiting = distance(ring.len(), read, write);
    if waiting < NOTICE_HEADER_SIZE {
        return 22;
    }
    let mut header = [0; NOTICE_HEADER_SIZE];
    copy_out(ring, read, &mut header);
    let length = word_at(&header, 4) as usize;
    if length > 1024 || length > waiting - NOTICE_HEADER_SIZE {
        return 22;
    }
    if out.len() < length {
        return 23;
    }
    let start = moved(ring.len(), read, NOTICE_HEADER_SIZE);
    copy_out(ring, start, &mut out[..length]);
    *id = word_at(&header, 0);
    *data_len = length;
    positions[0] = moved(ring.len(), read, NOTICE_HEADER_SIZE + length);
    0
}

#[inline(always)]
fn is_ring(capacity: usize, read: usize, write: usize) -> bool {
    let legal = (16..=65_536).contains(&capacity) && capacity.is_multiple_of(8);
    legal && read < capacity && write < capacity
}

/// How many bytes wait between the positions.
#[inline(always)]
fn distance(capacity: usize, read: usize, write: usize) -> usize {
    if read <= write {
        write - read
    } else {
        capacity - read + write
    }
}

/// A position moved on by less than the capacity.
#[inline(always)]
fn moved(capacity: usize, position: usize, by: usize) -> usize {
    let end = position + by;
    if end < capacity {
        end
    } else {
        end - capacity
    }
}

/// Copies into the ring, in two parts if it runs past the last byte.
#[inline(always)]
fn copy_in(ring: &mut [u8], at: usize, bytes: &[u8]) {
    if let Some(place) = ring.get_mut(at..at + bytes.len()) {
        place.copy_from_slice(bytes);
        return;
    }
    let (first, rest) = bytes.split_at(ring.len() - at);
    ring[at..].copy_from_slice(first);
    ring[..rest.len()].copy_from_slice(rest);
}

/// Copies out of the ring likewise.
#[inline(always)]
fn copy_out(ring: &[u8], at: usize, bytes: &mut [u8]) {
    if let Some(place) = ring.get(at..at + bytes.len()) {
        bytes.copy_from_slice(place);
        return;
    }
    let (first, rest) = bytes.split_at_mut(ring.len() - at);
    first.copy_from_slice(&ring[at..]);
    rest.copy_from_slice(&ring[..rest.len()]);
}

#[inline(never)]
pub fn table(region: &[u8], base: u64, address: u64, part: &mut [usize; 2]) -> u32 {
    match used_part(region, base, address, TABLE_HEADER_SIZE) {
        Ok((offset, used)) => {
            *part = [offset, used.len()];
            0
        }
        Err(refusal) => refusal,
    }
}

#[inline(never)]
pub fn root(region: &[u8], base: u64, address: u64, root: &mut [usize; 3]) -> u32 {
    match root_part(region, base, address) {
        Ok((offset, used, count)) => {
            *root = [offset, used.len(), count];
            0
        }
        Err(refusal) => refusal,
    }
}

#[inline(never)]
pub fn find(region: &[u8], base: u64, root: u64, name: &[u8], body: &mut [usize; 3]) -> u32 {
    if name.is_empty() || name.len() > 16 || name.contains(&0) {
        return 39;
    }
    let slots = match slots(region, base, root) {
        Ok(slots) => slots,
        Err(refusal) => return refusal,
    };
    let mut found = None;
    for (slot, address) in slots.chunks_exact(8).enumerate() {
        let address = u64::from_le_bytes(address.try_into().expect("it has eight bytes"));
        if address == 0 || !has_name(region, base, address, name) {
            continue;
        }
        let Ok((offset, used)) = used_part(region, base, address, TABLE_HEADER_SIZE) else {
            continue;
        };
        if found.is_some() {
            return 38;
        }
        let length = used.len() - TABLE_HEADER_SIZE;
        found = Some([slot, offset + TABLE_HEADER_SIZE, length]);
    }
    let Some(found) = found else {
        return 37;
    };
    *body = found;
    0
}

/// The slots of a root that passes.
#[inline(always)]
fn slots(region: &[u8], base: u64, root: u64) -> Result<&[u8], u32> {
    let (_, root, count) = root_part(region, base, root)?;
    Ok(&root[ROOT_HEADER_SIZE..ROOT_HEADER_SIZE + 8 * count])
}

/// The offset, the used part and the Count of a root that passes.
#[inline(always)]
fn root_part(region: &[u8], base: u64, root: u64) -> Result<(usize, &[u8], usize), u32> {
    let (offset, root) = used_part(region, base, root, ROOT_HEADER_SIZE)?;
    if !is_named(root, b"root_table") {
        return Err(35);
    }
    let count = usize::from(u16::from_le_bytes([root[32], root[33]]));
    if count > 128 || ROOT_HEADER_SIZE + 8 * count > root.len() {
        return Err(36);
    }
    Ok((offset, root, count))
}

/// Whether there is a header with that name. It is cheaper than the sum, so it comes first: only
/// a table of the name has to pass.
#[inline(always)]
fn has_name(region: &[u8], base: u64, address: u64, name: &[u8]) -> bool {
    header_offset(region, base, address, TABLE_HEADER_SIZE)
        .is_ok_and(|offset| is_named(&region[offset..], name))
}

/// The bytes before the first zero of the table's sixteen are the name's.
#[inline(always)]
fn is_named(table: &[u8], name: &[u8]) -> bool {
    let field = &table[..16];
    field.starts_with(name) && field.get(name.len()).is_none_or(|&next| next == 0)
}

/// The offset and the used part of a table that passes.
#[inline(always)]
fn used_part(
    region: &[u8],
    base: u64,
    address: u64,
    header_size: usize,
) -> Result<(usize, &[u8]), u32> {
    let offset = header_offset(region, base, address, header_size)?;
    let table = &region[offset..];
    let (total, remaining) = (word_at(table, 16) as usize, word_at(table, 24) as usize);
    if total < header_size || total > 65_536.min(table.len()) || remaining > total - header_size {
        return Err(32);
    }
    if table[20] != 1 {
        return Err(33);
    }
    let used = &table[..total - remaining];
    if sum32(used) != 0 {
        return Err(34);
    }
    Ok((offset, used))
}

/// Where a header is in the region, if all of it is.
#[inline(always)]
fn header_offset(region: &[u8], base: u64, address: u64, header_size: usize) -> Result<usize, u32> {
    if !address.is_multiple_of(8) {
        return Err(31);
    }
    // A region may end at 2^64, but not past it.
    let past = !region.is_empty() && base.checked_add(region.len() as u64 - 1).is_none();
    if past || address < base {
        return Err(30);
    }
    let offset = (address - base) as usize;
    if offset > region.len() || region.len() - offset < header_size {
        return Err(30);
    }
    Ok(offset)
}

#[inline(never)]
pub fn sfi_check(table: &[u8], signature: &mut u32, length: &mut usize) -> u32 {
    match sfi_table(table) {
        Ok((table, _)) => {
            *signature = word_at(table, 0);
            *length = table.len();
            0
        }
        Err(refusal) => refusal,
    }
}

#[inline(never)]
pub fn sfi_entry(table: &[u8], k: usize, offset: &mut usize) -> u32 {
    let (table, entry_size) = match sfi_table(table) {
        Ok(passed) => passed,
        Err(refusal) => return refusal,
    };
    if k >= (table.len() - SFI_HEADER_SIZE) / entry_size {
        return 45;
    }
    *offset = SFI_HEADER_SIZE + k * entry_size;
    0
}

#[inline(never)]
pub fn sfi_choose(signature: u32, board: &[u8], built_in: &[u8], length: &mut usize) -> u32 {
    let signature = signature.to_le_bytes();
    if sfi_kind(&signature).is_none() {
        return 42;
    }
    for (table, which) in [(board, 101), (built_in, 102)] {
        if let Ok((table, _)) = sfi_table(table) {
            if table.starts_with(&signature) {
                *length = table.len();
                return which;
            }
        }
    }
    48
}

#[inline(never)]
pub fn find_syst(memory: &[u8], offset: &mut usize) -> u32 {
    if memory.len() != 131_072 {
        return 46;
    }
    // A hit stays inside its page, so no more than that is looked at.
    for (page, bytes) in memory.chunks_exact(PAGE).enumerate() {
        for place in (0..PAGE).step_by(16) {
            let table = &bytes[place..];
            if table.starts_with(b"SYST") && sfi_table(table).is_ok() {
                *offset = PAGE * page + place;
                return 0;
            }
        }
    }
    47
}

/// The bytes of a table that passes, and the size of its entries.
#[inline(always)]
fn sfi_table(slice: &[u8]) -> Result<(&[u8], usize), u32> {
    if slice.len() < SFI_HEADER_SIZE {
        return Err(40);
    }
    let length = word_at(slice, 4) as usize;
    if length < SFI_HEADER_SIZE || length > 65_536.min(slice.len()) {
        return Err(40);
    }
    let Some((entry_size, revision)) = sfi_kind(&slice[..4]) else {
        return Err(42);
    };
    if slice[8] < revision {
        return Err(44);
    }
    let entries = length - SFI_HEADER_SIZE;
    let wake = slice.starts_with(b"WAKE");
    if !entries.is_multiple_of(entry_size) || wake && entries != entry_size {
        return Err(43);
    }
    let table = &slice[..length];
    if sum8(table) != 0 {
        return Err(41);
    }
    Ok((table, entry_size))
}

/// The entry size of a kind, and the oldest revision that is read.
#[inline(always)]
fn sfi_kind(signature: &[u8]) -> Option<(usize, u8)> {
    match signature {
        b"SYST" | b"APIC" => Some((8, 1)),
        b"CPUS" => Some((4, 1)),
        b"MMAP" => Some((36, 1)),
        b"FREQ" | b"MRTC" => Some((12, 1)),
        b"DEVS" => Some((25, 1)),
        b"GPIO" => Some((34, 1)),
        b"MTMR" => Some((16, 2)),
        b"WAKE" => Some((8, 2)),
        _ => None,
    }
}

#[inline(never)]
pub fn log_write(frame: &[u8], record: &mut [u8]) -> u32 {
    if record.len() != RECORD_SIZE {
        return 50;
    }
    if frame.len() > 256 {
        return 52;
    }
    let end = LOG_HEADER_SIZE + frame.len();
    record[..2].copy_from_slice(&(frame.len() as u16).to_le_bytes());
    record[2..LOG_HEADER_SIZE].fill(0);
    record[LOG_HEADER_SIZE..end].copy_from_slice(frame);
    record[end..].fill(0);
    0
}

#[inline(never)]
pub fn log_read(record: &[u8], frame_len: &mut usize) -> u32 {
    match frame_in(record) {
        Ok(frame) => {
            *frame_len = frame.len();
            0
        }
        Err(refusal) => refusal,
    }
}

/// The frame of a record that passes.
#[inline(always)]
fn frame_in(record: &[u8]) -> Result<&[u8], u32> {
    if record.len() != RECORD_SIZE {
        return Err(50);
    }
    let length = usize::from(u16::from_le_bytes([record[0], record[1]]));
    if length > 256 {
        return Err(52);
    }
    if record[2] != 0 || record[3] != 0 {
        return Err(51);
    }
    let (frame, rest) = record[LOG_HEADER_SIZE..].split_at(length);
    if rest.iter().any(|&byte| byte != 0) {
        return Err(53);
    }
    Ok(frame)
}

#[inline(never)]
pub fn replay_record(
    state: &mut [u64; 8],
    record: &[u8],
    us: u32,
    buffer: &mut [u8; 4096],
    words: &mut [u32; 5],
) -> u32 {
    play(state, record, us, buffer, words)
}

#[inline(always)]
fn play(
    state: &mut [u64; 8],
    record: &[u8],
    us: u32,
    buffer: &mut [u8; 4096],
    words: &mut [u32; 5],
) -> u32 {
    match frame_in(record) {
        Ok(frame) => run(state, frame, us, buffer, words),
        Err(refusal) => refusal,
    }
}

#[inline(never)]
pub fn replay_chunk(
    player: &mut [u64; 9],
    chunk: &[u8],
    us: u32,
    buffer: &mut [u8; 4096],
    mut out: &mut [u8],
    read: &mut usize,
) -> usize {
    let room = out.len();
    let [state @ .., mut number] = *player;
    let (mut state, mut words) = (written_anew(state), [0; 5]);
    *read = 0;
    for record in chunk.chunks(RECORD_SIZE) {
        if out.len() < LINE_MAX || number == u64::MAX {
            break;
        }
        let answer = play(&mut state, record, us, buffer, &mut words);
        write_line(&mut out, number, answer, &words).expect("there is room for a line");
        *read += record.len();
        number += 1;
    }
    if *read > 0 {
        player[..8].copy_from_slice(&state);
        player[8] = number;
    }
    room - out.len()
}

/// The numbers of the state that a block stands for; where it stands for none, of one that no
/// buffer is consistent with.
#[inline(always)]
fn written_anew(state: [u64; 8]) -> [u64; 8] {
    let [kind, sequence, id, sender, status, total, ..] = state;
    let narrow = sequence >> 8 == 0 && (id | sender | status | total) >> 32 == 0;
    match kind {
        0 => [0; 8],
        1 if narrow => state,
        _ => [1, 0, 0, 0, 0, 0, 0, 0],
    }
}

/// The line of a record, from what [`replay_record`] answers.
#[inline(always)]
pub fn write_line(
    out: &mut impl Write,
    number: u64,
    answer: u32,
    [_, id, _, _, total]: &[u32; 5],
) -> io::Result<()> {
    match answer {
        0 => writeln!(out, "{number} more"),
        100 => writeln!(out, "{number} delivered {id} {total}"),
        refusal => writeln!(out, "{number} {refusal}"),
    }
}

fn word_at(bytes: &[u8], at: usize) -> u32 {
    u32::from_le_bytes([bytes[at], bytes[at + 1], bytes[at + 2], bytes[at + 3]])
}
