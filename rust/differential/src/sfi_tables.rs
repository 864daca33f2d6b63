//! SFI tables that pass, and the faults that they may have.

use crate::faults::Faults;
use crate::random::Random;
use crate::tables::{put, put_word, word};
use hoursquall::sfi::{HEADER_SIZE, TABLE_MAX};
use reference::sum::sum8;

/// Offsets in a table.
pub const LENGTH: usize = 4;
pub const REVISION: usize = 8;
pub const CHECKSUM: usize = 9;

/// The refusals of a table's check, in their order.
pub const ORDER: [u32; 5] = [40, 42, 44, 43, 41];

/// What document 01 lists of a kind of tables.
#[derive(Debug, PartialEq, Eq)]
pub struct Kind {
    pub signature: [u8; 4],
    pub entry_size: usize,
    /// The oldest that is read.
    pub revision: u8,
}

pub const SYST: Kind = kind(b"SYST", 8, 1);
pub const CPUS: Kind = kind(b"CPUS", 4, 1);
pub const MMAP: Kind = kind(b"MMAP", 36, 1);
pub const FREQ: Kind = kind(b"FREQ", 12, 1);
pub const MTMR: Kind = kind(b"MTMR", 16, 2);
pub const WAKE: Kind = kind(b"WAKE", 8, 2);

/// The list is not the reference's, so that the two are compared.
pub const KINDS: [Kind; 10] = [
    SYST,
    CPUS,
    kind(b"APIC", 8, 1),
    MMAP,
    FREQ,
    kind(b"MRTC", 12, 1),
    kind(b"DEVS", 25, 1),
    kind(b"GPIO", 34, 1),
    MTMR,
    WAKE,
];

const fn kind(signature: &[u8; 4], entry_size: usize, revision: u8) -> Kind {
    Kind {
        signature: *signature,
        entry_size,
        revision,
    }
}

impl Kind {
    /// The signature as the library is handed it.
    pub fn word(&self) -> u32 {
        u32::from_le_bytes(self.signature)
    }

    /// The Length of a table with so many entries.
    pub fn length(&self, entries: usize) -> usize {
        HEADER_SIZE + entries * self.entry_size
    }

    /// Whether a Length that is not under the header's is that of a table of this kind.
    pub fn has_length(&self, length: usize) -> bool {
        match self {
            &WAKE => length == 32,
            _ => (length - HEADER_SIZE).is_multiple_of(self.entry_size),
        }
    }

    /// A Revision from the listed one on.
    pub fn any_revision(&self, random: &mut Random) -> u8 {
        let any = random.within(self.revision as usize..=255) as u8;
        random.pick(&[self.revision, self.revision, self.revision + 1, 255, any])
    }

    fn older_revision(&self, random: &mut Random) -> u8 {
        random.within(0..=self.revision as usize - 1) as u8
    }

    /// Numbers of entries, none to as many as there can be.
    pub fn counts(&self) -> Vec<usize> {
        let most = (TABLE_MAX - HEADER_SIZE) / self.entry_size;
        match self {
            &WAKE => vec![1],
            _ => vec![0, 1, 2, 3, 7, 100, most - 1, most],
        }
    }

    /// A number of entries that a table of this kind may have, mostly a small one.
    pub fn any_count(&self, random: &mut Random) -> usize {
        match self {
            &WAKE => 1,
            _ if random.within(0..=99) == 0 => random.within(0..=200),
            _ => random.pick_or_within(&[0, 1, 2], 0..=6),
        }
    }
}

pub fn is_known(signature: [u8; 4]) -> bool {
    KINDS.iter().any(|kind| kind.signature == signature)
}

/// A table that passes.
pub fn table(random: &mut Random, kind: &Kind, entries: usize) -> Vec<u8> {
    of_length(random, kind, kind.length(entries))
}

/// The same with any number of entries, and any bytes behind it.
pub fn any_table(random: &mut Random, kind: &Kind) -> Vec<u8> {
    let entries = kind.any_count(random);
    let mut table = table(random, kind, entries);
    extend(random, &mut table);
    table
}

/// A table that passes but for its Length. It has at least the header.
pub fn of_length(random: &mut Random, kind: &Kind, length: usize) -> Vec<u8> {
    let mut table = random.bytes(length.max(HEADER_SIZE));
    put(&mut table, 0, &kind.signature);
    put_word(&mut table, LENGTH, length);
    table[REVISION] = kind.any_revision(random);
    seal(&mut table);
    table
}

/// Adds bytes behind a table, which don't count.
pub fn extend(random: &mut Random, table: &mut Vec<u8>) {
    let behind = random.pick_or_within(&[0, 0, 1, 24], 0..=40);
    table.extend(random.bytes(behind));
}

/// Sets the checksum so that Length bytes sum to 0. Bytes may follow the table; if Length is no
/// table's, as many are summed as there can be.
pub fn seal(table: &mut [u8]) {
    let length = summed(table);
    table[CHECKSUM] = 0;
    table[CHECKSUM] = sum8(&table[..length]).wrapping_neg();
}

fn summed(table: &[u8]) -> usize {
    word(table, LENGTH).max(HEADER_SIZE).min(table.len())
}

/// A table with these faults, wherever it stands: what follows it changes nothing.
pub fn spoilt(random: &mut Random, kind: &Kind, faults: Faults) -> Vec<u8> {
    let revision = match faults.has(44) {
        true => kind.older_revision(random),
        false => kind.any_revision(random),
    };
    spoilt_of(random, kind, revision, faults)
}

/// The same of that Revision, whatever the faults say of it.
pub fn spoilt_of(random: &mut Random, kind: &Kind, revision: u8, faults: Faults) -> Vec<u8> {
    let length = if faults.has(43) {
        unfit_length(random, kind)
    } else {
        kind.length(kind.any_count(random))
    };
    let mut table = of_length(random, kind, length);
    if faults.has(42) {
        put(&mut table, 0, &unknown(random));
    }
    table[REVISION] = revision;
    if faults.has(40) {
        put_word(&mut table, LENGTH, illegal_length(random, length));
    }
    seal(&mut table);
    if faults.has(41) {
        spoil_sum(random, &mut table);
    }
    table
}

/// A table with these faults and bytes behind it, or in a slice that ends before the table does.
pub fn faulty(random: &mut Random, kind: &Kind, faults: Faults) -> Vec<u8> {
    if faults.has(40) && random.bool() {
        let mut table = spoilt(random, kind, faults.without(40));
        let most = table.len() - 1;
        table.truncate(random.pick_or_within(&[0, 23, most], 0..=most));
        return table;
    }
    let mut table = spoilt(random, kind, faults);
    extend(random, &mut table);
    table
}

/// A Length that leaves a part of an entry, or that gives WAKE other than one entry.
fn unfit_length(random: &mut Random, kind: &Kind) -> usize {
    if *kind == WAKE {
        let any = random.within(33..=100);
        return random.pick(&[24, 25, 31, 33, 40, 48, 56, any]);
    }
    let most = kind.entry_size - 1;
    let part = random.pick_or_within(&[1, most], 1..=most);
    kind.length(kind.any_count(random)) + part
}

/// A Length under the header's or over the limit, often one that is legal in fewer bits.
fn illegal_length(random: &mut Random, length: usize) -> usize {
    let below = random.within(0..=HEADER_SIZE - 1);
    let wide = length + (1 << random.within(16..=31));
    let most = u32::MAX as usize;
    random.pick(&[0, below, HEADER_SIZE - 1, TABLE_MAX + 1, wide, wide, most])
}

/// A signature that is not listed, often close to one that is.
pub fn unknown(random: &mut Random) -> [u8; 4] {
    let mut signature = KINDS[random.within(0..=KINDS.len() - 1)].signature;
    match random.within(0..=5) {
        0 => signature.make_ascii_lowercase(),
        1 => signature.reverse(),
        2 => signature = random.pick(&[*b"OEM0", *b"XSDT", *b"IDLE", [0; 4], [0xFF; 4]]),
        3 => signature = random.u32().to_le_bytes(),
        _ => signature[random.within(0..=3)] ^= 1 << random.within(0..=7),
    }
    assert!(!is_known(signature), "{signature:02x?}");
    signature
}

/// Changes one byte of the sum that no other check reads.
fn spoil_sum(random: &mut Random, table: &mut [u8]) {
    let last = summed(table) - 1;
    let at = random.pick_or_within(&[CHECKSUM, last], CHECKSUM..=last);
    let bit = 1 << random.within(0..=7);
    let any = random.within(1..=255) as u8;
    table[at] = table[at].wrapping_add(random.pick(&[1, bit, any, 255]));
}
