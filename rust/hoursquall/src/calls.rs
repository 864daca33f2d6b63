//! The C functions with slices and references for pointers, which makes them safe to call. What
//! each answers is in `include/hoursquall.h`; the crate's other functions say it in Rust's types.
//! They are inlined, so that what is timed is the C function.

use crate::raw;

#[inline(always)]
pub fn sum8(bytes: &[u8]) -> u8 {
    // SAFETY: the pointer and the length are those of one slice.
    unsafe { raw::hs_sum8(bytes.as_ptr(), bytes.len()) }
}

#[inline(always)]
pub fn sum32(bytes: &[u8]) -> u32 {
    // SAFETY: the pointer and the length are those of one slice.
    unsafe { raw::hs_sum32(bytes.as_ptr(), bytes.len()) }
}

#[inline(always)]
pub fn parse(frame: &[u8], us: u32, header: &mut [u32; 7]) -> u32 {
    // SAFETY: the pointer and the length are those of one slice; `header` is borrowed exclusively.
    unsafe { raw::hs_frame_parse(frame.as_ptr(), frame.len(), us, header) }
}

#[inline(always)]
pub fn count(length: usize, piece_size: usize, frames: &mut usize) -> u32 {
    // SAFETY: the pointer is that of one number.
    unsafe { raw::hs_frame_count(length, piece_size, frames) }
}

#[inline(always)]
#[allow(clippy::too_many_arguments)] // those of the C function
pub fn write(
    sequence: u8,
    id: u32,
    sender: u32,
    status: u32,
    receiver: u32,
    message: &[u8],
    piece_size: usize,
    index: usize,
    out: &mut [u8],
    frame_len: &mut usize,
) -> u32 {
    // SAFETY: each pointer and length are those of one slice; what is written is borrowed
    // exclusively.
    unsafe {
        raw::hs_frame_write(
            sequence,
            id,
            sender,
            status,
            receiver,
            message.as_ptr(),
            message.len(),
            piece_size,
            index,
            out.as_mut_ptr(),
            out.len(),
            frame_len,
        )
    }
}

#[inline(always)]
pub fn step(
    state: &mut [u64; 8],
    frame: &[u8],
    us: u32,
    buffer: &mut [u8],
    words: &mut [u32; 5],
) -> u32 {
    // SAFETY: each pointer and length are those of one slice; what is written is borrowed
    // exclusively.
    unsafe {
        raw::hs_reassembly_step(
            state,
            frame.as_ptr(),
            frame.len(),
            us,
            buffer.as_mut_ptr(),
            buffer.len(),
            words,
        )
    }
}

#[inline(always)]
pub fn post(ring: &mut [u8], positions: &mut [usize; 2], id: u32, data: &[u8]) -> u32 {
    // SAFETY: each pointer and length are those of one slice; what is written is borrowed
    // exclusively.
    unsafe {
        raw::hs_notice_post(
            ring.as_mut_ptr(),
            ring.len(),
            positions,
            id,
            data.as_ptr(),
            data.len(),
        )
    }
}

#[inline(always)]
pub fn take(
    ring: &[u8],
    positions: &mut [usize; 2],
    out: &mut [u8],
    id: &mut u32,
    data_len: &mut usize,
) -> u32 {
    // SAFETY: each pointer and length are those of one slice; what is written is borrowed
    // exclusively.
    unsafe {
        raw::hs_notice_take(
            ring.as_ptr(),
            ring.len(),
            positions,
            out.as_mut_ptr(),
            out.len(),
            id,
            data_len,
        )
    }
}

#[inline(always)]
pub fn table(region: &[u8], base: u64, address: u64, part: &mut [usize; 2]) -> u32 {
    // SAFETY: the pointer and the length are those of one slice; `part` is borrowed exclusively.
    unsafe { raw::hs_ubios_table(region.as_ptr(), region.len(), base, address, part) }
}

#[inline(always)]
pub fn root(region: &[u8], base: u64, address: u64, root: &mut [usize; 3]) -> u32 {
    // SAFETY: the pointer and the length are those of one slice; `root` is borrowed exclusively.
    unsafe { raw::hs_ubios_root(region.as_ptr(), region.len(), base, address, root) }
}

#[inline(always)]
pub fn find(region: &[u8], base: u64, root: u64, name: &[u8], body: &mut [usize; 3]) -> u32 {
    // SAFETY: each pointer and length are those of one slice; `body` is borrowed exclusively.
    unsafe {
        raw::hs_ubios_find(
            region.as_ptr(),
            region.len(),
            base,
            root,
            name.as_ptr(),
            name.len(),
            body,
        )
    }
}

#[inline(always)]
pub fn sfi_check(table: &[u8], signature: &mut u32, length: &mut usize) -> u32 {
    // SAFETY: the pointer and `table.len()` are those of one slice; what is written is borrowed
    // exclusively.
    unsafe { raw::hs_sfi_check(table.as_ptr(), table.len(), signature, length) }
}

#[inline(always)]
pub fn sfi_entry(table: &[u8], k: usize, offset: &mut usize) -> u32 {
    // SAFETY: the pointer and the length are those of one slice; `offset` is borrowed exclusively.
    unsafe { raw::hs_sfi_entry(table.as_ptr(), table.len(), k, offset) }
}

#[inline(always)]
pub fn find_syst(memory: &[u8], offset: &mut usize) -> u32 {
    // SAFETY: the pointer and the length are those of one slice; `offset` is borrowed exclusively.
    unsafe { raw::hs_sfi_find_syst(memory.as_ptr(), memory.len(), offset) }
}

#[inline(always)]
pub fn sfi_choose(signature: u32, board: &[u8], built_in: &[u8], length: &mut usize) -> u32 {
    // SAFETY: each pointer and length are those of one slice; `length` is borrowed exclusively.
    unsafe {
        raw::hs_sfi_choose(
            signature,
            board.as_ptr(),
            board.len(),
            built_in.as_ptr(),
            built_in.len(),
            length,
        )
    }
}

#[inline(always)]
pub fn log_write(frame: &[u8], record: &mut [u8]) -> u32 {
    // SAFETY: each pointer and length are those of one slice; `record` is borrowed exclusively.
    unsafe {
        raw::hs_log_write(
            frame.as_ptr(),
            frame.len(),
            record.as_mut_ptr(),
            record.len(),
        )
    }
}

#[inline(always)]
pub fn log_read(record: &[u8], frame_len: &mut usize) -> u32 {
    // SAFETY: the pointer and the length are those of one slice; `frame_len` is borrowed
    // exclusively.
    unsafe { raw::hs_log_read(record.as_ptr(), record.len(), frame_len) }
}

#[inline(always)]
pub fn replay_record(
    state: &mut [u64; 8],
    record: &[u8],
    us: u32,
    buffer: &mut [u8; 4096],
    words: &mut [u32; 5],
) -> u32 {
    // SAFETY: the pointer and the length are those of one slice; what is written is borrowed
    // exclusively.
    unsafe { raw::hs_replay_record(state, record.as_ptr(), record.len(), us, buffer, words) }
}

#[inline(always)]
pub fn replay_chunk(
    player: &mut [u64; 9],
    chunk: &[u8],
    us: u32,
    buffer: &mut [u8; 4096],
    out: &mut [u8],
    read: &mut usize,
) -> usize {
    // SAFETY: each pointer and length are those of one slice; what is written is borrowed
    // exclusively.
    unsafe {
        raw::hs_replay_chunk(
            player,
            chunk.as_ptr(),
            chunk.len(),
            us,
            buffer,
            out.as_mut_ptr(),
            out.len(),
            read,
        )
    }
}
