//! SFI tables: their checks and entries, the search for SYST in memory, and the choice between
//! the board's table and the built-in one.
//!
//! ```
//! use hoursquall::sfi::{self, Source};
//! use hoursquall::sum8;
//!
//! // A table that passes: the checksum makes its bytes sum to 0.
//! let cpus = |entries: &[u32]| {
//!     let mut bytes = vec![0; sfi::HEADER_SIZE];
//!     bytes[..4].copy_from_slice(&sfi::CPUS.to_le_bytes());
//!     bytes.extend(entries.iter().flat_map(|entry| entry.to_le_bytes()));
//!     let length = bytes.len() as u32;
//!     bytes[4..8].copy_from_slice(&length.to_le_bytes());
//!     bytes[8] = 1;
//!     bytes[9] = sum8(&bytes).wrapping_neg();
//!     bytes
//! };
//!
//! let (board, built_in) = (cpus(&[0, 2, 4]), cpus(&[0]));
//! assert_eq!(sfi::check(&board)?.length, 24 + 3 * 4);
//! assert_eq!(sfi::entry(&board, 2)?, 24 + 2 * 4);
//! assert_eq!(sfi::entry(&board, 3), Err(45));
//! assert_eq!(sfi::choose(sfi::CPUS, &board, &built_in)?.source, Source::Board);
//! assert_eq!(sfi::chosen(sfi::CPUS, &[], &built_in), built_in);
//! assert_eq!(sfi::choose(sfi::APIC, &board, &built_in), Err(48));
//! # Ok::<(), hoursquall::Refusal>(())
//! ```

use crate::{accepted, calls, Refusal};

/// Bytes of a table's header.
pub const HEADER_SIZE: usize = 24;
/// Bytes that a table has at most.
pub const TABLE_MAX: usize = 65_536;
/// Bytes of the memory in which SYST is looked for, 0xE0000 to 0xFFFFF.
pub const MEMORY_SIZE: usize = 131_072;

// A signature is the little-endian word of its four letters.

/// Signature of the table that leads to the others.
pub const SYST: u32 = u32::from_le_bytes(*b"SYST");
/// Signature of the table of processors.
pub const CPUS: u32 = u32::from_le_bytes(*b"CPUS");
/// Signature of the table of interrupt controllers.
pub const APIC: u32 = u32::from_le_bytes(*b"APIC");
/// Signature of the memory map.
pub const MMAP: u32 = u32::from_le_bytes(*b"MMAP");
/// Signature of the table of processor frequencies.
pub const FREQ: u32 = u32::from_le_bytes(*b"FREQ");
/// Signature of the table of real-time clocks.
pub const MRTC: u32 = u32::from_le_bytes(*b"MRTC");
/// Signature of the table of devices.
pub const DEVS: u32 = u32::from_le_bytes(*b"DEVS");
/// Signature of the table of pins.
pub const GPIO: u32 = u32::from_le_bytes(*b"GPIO");
/// Signature of the table of timers.
pub const MTMR: u32 = u32::from_le_bytes(*b"MTMR");
/// Signature of the wake vector's table.
pub const WAKE: u32 = u32::from_le_bytes(*b"WAKE");

/// A table that passes its checks.
#[derive(Clone, Copy, Debug, PartialEq, Eq)]
pub struct Table {
    /// The kind of the table, one of this module's signatures.
    pub signature: u32,
    /// Bytes of the table, the header included.
    pub length: usize,
}

/// Where the entries come from.
#[derive(Clone, Copy, Debug, PartialEq, Eq)]
pub enum Source {
    /// The board's table.
    Board,
    /// The built-in table.
    BuiltIn,
}

/// The table that is chosen.
#[derive(Clone, Copy, Debug, PartialEq, Eq)]
pub struct Choice {
    /// Which of the two it is.
    pub source: Source,
    /// Bytes of the table, the header included.
    pub length: usize,
}

/// Checks the table at the start of a slice; bytes behind it don't count. Refusals, in order: 40,
/// 42, 44, 43, 41.
pub fn check(table: &[u8]) -> Result<Table, Refusal> {
    let (mut signature, mut length) = (0, 0);
    let answer = calls::sfi_check(table, &mut signature, &mut length);
    accepted(answer).map(|()| Table { signature, length })
}

/// The offset of a table's entry `k`, counted from 0. Refusals, in order: 40, 42, 44, 43, 41, 45.
pub fn entry(table: &[u8], k: usize) -> Result<usize, Refusal> {
    let mut offset = 0;
    let answer = calls::sfi_entry(table, k, &mut offset);
    accepted(answer).map(|()| offset)
}

/// Looks for SYST at every 16th byte of the memory and answers the lowest offset at which it
/// passes inside one page of 4,096 bytes. Refusals, in order: 46, 47.
pub fn find_syst(memory: &[u8]) -> Result<usize, Refusal> {
    let mut offset = 0;
    let answer = calls::find_syst(memory, &mut offset);
    accepted(answer).map(|()| offset)
}

/// Chooses the board's table if it passes with that signature, else the built-in one if it does.
/// Refusals, in order: 42, 48.
pub fn choose(signature: u32, board: &[u8], built_in: &[u8]) -> Result<Choice, Refusal> {
    let mut length = 0;
    let answer = calls::sfi_choose(signature, board, built_in, &mut length);
    source(answer).map(|source| Choice { source, length })
}

/// The table that `choose` chooses, or no bytes where it refuses.
pub fn chosen<'a>(signature: u32, board: &'a [u8], built_in: &'a [u8]) -> &'a [u8] {
    let Ok(Choice { source, length }) = choose(signature, board, built_in) else {
        return &[];
    };
    match source {
        Source::Board => &board[..length],
        Source::BuiltIn => &built_in[..length],
    }
}

/// The library answers 101 for the board's table, 102 for the built-in one, or the number of a
/// refusal.
fn source(answer: u32) -> Result<Source, Refusal> {
    match answer {
        101 => Ok(Source::Board),
        102 => Ok(Source::BuiltIn),
        refusal => Err(refusal),
    }
}
