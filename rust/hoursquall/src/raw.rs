//! The C functions as `include/hoursquall.h` declares them. That header says what each answers
//! and what a caller owes; the crate's other functions owe it for you.

extern "C" {
    pub fn hs_sum8(s: *const u8, s_len: usize) -> u8;

    pub fn hs_sum32(s: *const u8, s_len: usize) -> u32;

    pub fn hs_frame_parse(
        frame: *const u8,
        frame_len: usize,
        us: u32,
        header: *mut [u32; 7],
    ) -> u32;

    pub fn hs_frame_count(length: usize, piece_size: usize, frames: *mut usize) -> u32;

    pub fn hs_frame_write(
        sequence: u8,
        id: u32,
        sender: u32,
        status: u32,
        receiver: u32,
        message: *const u8,
        message_len: usize,
        piece_size: usize,
        index: usize,
        out: *mut u8,
        out_len: usize,
        frame_len: *mut usize,
    ) -> u32;

    pub fn hs_reassembly_step(
        state: *mut [u64; 8],
        frame: *const u8,
        frame_len: usize,
        us: u32,
        buffer: *mut u8,
        buffer_len: usize,
        words: *mut [u32; 5],
    ) -> u32;

    pub fn hs_notice_post(
        ring: *mut u8,
        ring_len: usize,
        positions: *mut [usize; 2],
        id: u32,
        data: *const u8,
        data_len: usize,
    ) -> u32;

    pub fn hs_notice_take(
        ring: *const u8,
        ring_len: usize,
        positions: *mut [usize; 2],
        out: *mut u8,
        out_len: usize,
        id: *mut u32,
        data_len: *mut usize,
    ) -> u32;

    pub fn hs_ubios_table(
        region: *const u8,
        region_len: usize,
        base: u64,
        address: u64,
        part: *mut [usize; 2],
    ) -> u32;

    pub fn hs_ubios_root(
        region: *const u8,
        region_len: usize,
        base: u64,
        address: u64,
        root: *mut [usize; 3],
    ) -> u32;

    pub fn hs_ubios_find(
        region: *const u8,
        region_len: usize,
        base: u64,
        root: u64,
        name: *const u8,
        name_len: usize,
        body: *mut [usize; 3],
    ) -> u32;

    pub fn hs_sfi_check(
        table: *const u8,
        table_len: usize,
        signature: *mut u32,
        length: *mut usize,
    ) -> u32;

    pub fn hs_sfi_entry(table: *const u8, table_len: usize, k: usize, offset: *mut usize) -> u32;

    pub fn hs_sfi_find_syst(memory: *const u8, memory_len: usize, offset: *mut usize) -> u32;

    pub fn hs_sfi_choose(
        signature: u32,
        board: *const u8,
        board_len: usize,
        built_in: *const u8,
        built_in_len: usize,
        length: *mut usize,
    ) -> u32;

    pub fn hs_log_read(record: *const u8, record_len: usize, frame_len: *mut usize) -> u32;

    pub fn hs_log_write(
        frame: *const u8,
        frame_len: usize,
        record: *mut u8,
        record_len: usize,
    ) -> u32;

    pub fn hs_replay_record(
        state: *mut [u64; 8],
        record: *const u8,
        record_len: usize,
        us: u32,
        buffer: *mut [u8; 4096],
        words: *mut [u32; 5],
    ) -> u32;

    pub fn hs_replay_chunk(
        player: *mut [u64; 9],
        chunk: *const u8,
        chunk_len: usize,
        us: u32,
        buffer: *mut [u8; 4096],
        out: *mut u8,
        out_len: usize,
        read: *mut usize,
    ) -> usize;
}
