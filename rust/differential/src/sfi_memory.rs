//! Memory in which SYST is looked for.

use crate::random::Random;
use crate::sfi_tables::{seal, CHECKSUM, LENGTH, REVISION, SYST};
use crate::tables::{put, put_word};
use hoursquall::sfi::{HEADER_SIZE, MEMORY_SIZE, TABLE_MAX};

/// A hit stays inside one page.
pub const PAGE: usize = 4096;
/// The distance of two places at which SYST is looked for.
pub const STEP: usize = 16;

/// Whether so many bytes from an offset on are in one page.
pub fn in_one_page(offset: usize, length: usize) -> bool {
    offset % PAGE + length <= PAGE
}

/// A place at which SYST is looked for and may be, with no entries.
pub fn any_place(random: &mut Random) -> usize {
    let page = random.within(0..=MEMORY_SIZE / PAGE - 1);
    let last = (PAGE - HEADER_SIZE) / STEP;
    PAGE * page + STEP * random.pick_or_within(&[0, 1, last], 0..=last)
}

/// Memory without a hit.
pub fn no_hit(random: &mut Random) -> Vec<u8> {
    match random.within(0..=3) {
        0 => vec![0; MEMORY_SIZE],
        1 => vec![0xFF; MEMORY_SIZE],
        2 => random.bytes(MEMORY_SIZE),
        _ => {
            let fault = random.pick(&[40, 44, 43, 41]);
            false_signatures(random, fault)
        }
    }
}

/// Memory with SYST's signature at every place, and a header there that has just this fault. A
/// header's last bytes are the first of the next one.
pub fn false_signatures(random: &mut Random, fault: u32) -> Vec<u8> {
    let mut lead = random.bytes(STEP);
    put(&mut lead, 0, &SYST.signature);
    let length = match fault {
        40 => random.pick(&[0, HEADER_SIZE - 1, TABLE_MAX + 1, TABLE_MAX + HEADER_SIZE]),
        43 => HEADER_SIZE + 1,
        _ => HEADER_SIZE,
    };
    put_word(&mut lead, LENGTH, length);
    lead[REVISION] = match fault {
        44 => SYST.revision - 1,
        _ => SYST.any_revision(random),
    };
    let mut table = lead.repeat(2);
    table.truncate(HEADER_SIZE + 1);
    seal(&mut table);
    lead[CHECKSUM] = match fault {
        41 => table[CHECKSUM].wrapping_add(random.within(1..=255) as u8),
        _ => table[CHECKSUM],
    };
    lead.repeat(MEMORY_SIZE / STEP)
}

/// Makes a SYST of that Length of what stands at an offset: sets only the signature, Length,
/// Revision and Checksum. Among false signatures no other header becomes right by it, if the Length
/// is the header's.
pub fn lay_syst(memory: &mut [u8], offset: usize, length: usize) {
    lay_syst_of(memory, offset, length, SYST.revision);
}

/// The same of that Revision.
pub fn lay_syst_of(memory: &mut [u8], offset: usize, length: usize, revision: u8) {
    let table = &mut memory[offset..];
    put(table, 0, &SYST.signature);
    put_word(table, LENGTH, length);
    table[REVISION] = revision;
    seal(table);
}
