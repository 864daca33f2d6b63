//! UBIOS tables and roots that pass, and the faults that they may have.

use crate::faults::Faults;
use crate::random::Random;
use hoursquall::{NAME_MAX, ROOT_HEADER_SIZE, SLOTS_MAX, TABLE_HEADER_SIZE, TABLE_MAX};
use reference::sum::sum32;

pub const ROOT_NAME: &[u8] = b"root_table";

/// Offsets in a table, and in the root.
pub const TOTAL: usize = 16;
pub const VERSION: usize = 20;
pub const REMAINING: usize = 24;
pub const CHECKSUM: usize = 28;
pub const COUNT: usize = 32;

/// A table that passes. Its reserved bytes, and as many bytes as remain behind its used part, are
/// any.
pub fn table(random: &mut Random, name: &[u8], body: &[u8], remaining: usize) -> Vec<u8> {
    let mut table = random.bytes(TABLE_HEADER_SIZE);
    table.extend(body);
    table.extend(random.bytes(remaining));
    let total = table.len();
    put(&mut table, 0, &name_field(random, name));
    put_word(&mut table, TOTAL, total);
    table[VERSION] = 1;
    put_word(&mut table, REMAINING, remaining);
    seal(&mut table);
    table
}

/// A root that passes, with any bytes behind its slots in the used part, and behind that.
pub fn root(random: &mut Random, slots: &[u64], tail: usize, remaining: usize) -> Vec<u8> {
    let mut body = random.bytes(ROOT_HEADER_SIZE - TABLE_HEADER_SIZE);
    put(&mut body, 0, &(slots.len() as u16).to_le_bytes());
    body.extend(slots.iter().flat_map(|slot| slot.to_le_bytes()));
    body.extend(random.bytes(tail));
    table(random, ROOT_NAME, &body, remaining)
}

/// The sixteen bytes of a name. Those behind its first zero don't count, and are any.
pub fn name_field(random: &mut Random, name: &[u8]) -> [u8; NAME_MAX] {
    let mut field = [0; NAME_MAX];
    put(&mut field, 0, name);
    if name.len() < NAME_MAX && random.bool() {
        let behind = random.bytes(NAME_MAX - name.len() - 1);
        put(&mut field, name.len() + 1, &behind);
    }
    field
}

/// A name of this length.
pub fn name(random: &mut Random, length: usize) -> Vec<u8> {
    (0..length).map(|_| random.within(1..=255) as u8).collect()
}

pub fn put(bytes: &mut [u8], at: usize, part: &[u8]) {
    bytes[at..at + part.len()].copy_from_slice(part);
}

pub fn put_word(bytes: &mut [u8], at: usize, word: usize) {
    put(bytes, at, &(word as u32).to_le_bytes());
}

pub fn word(bytes: &[u8], at: usize) -> usize {
    u32::from_le_bytes([bytes[at], bytes[at + 1], bytes[at + 2], bytes[at + 3]]) as usize
}

/// Sets the checksum so that the used part sums to 0. Bytes may follow the table; if its numbers
/// are no table's, as many are summed as there can be.
pub fn seal(table: &mut [u8]) {
    let used = used(table);
    put_word(table, CHECKSUM, 0);
    let checksum = sum32(&table[..used]).wrapping_neg();
    put_word(table, CHECKSUM, checksum as usize);
}

fn used(table: &[u8]) -> usize {
    let used = word(table, TOTAL).saturating_sub(word(table, REMAINING));
    used.clamp(TABLE_HEADER_SIZE, table.len())
}

/// The refusals of the root's check, in their order; those of a table's are the first five.
pub const ORDER: [u32; 7] = [31, 30, 32, 33, 34, 35, 36];

/// Gives a passing table those faults that stand in its bytes. What follows the table in its
/// region follows it here.
pub fn spoil(random: &mut Random, table: &mut [u8], header_size: usize, faults: Faults) {
    if faults.has(35) {
        let wrong = wrong_root_name(random);
        put(table, 0, &name_field(random, &wrong));
    }
    if faults.has(36) {
        let count = wrong_count(random, used(table));
        put(table, COUNT, &count.to_le_bytes());
    }
    if faults.has(33) {
        table[VERSION] = wrong_version(random);
    }
    if faults.has(32) {
        spoil_sizes(random, table, header_size);
    }
    seal(table);
    if faults.has(34) {
        let sum = word(table, CHECKSUM) + wrong_sum(random);
        put_word(table, CHECKSUM, sum);
    }
}

/// A Total Size under the header, over the limit or past the region, or a Remaining Size over what
/// the header leaves; often one that is legal in fewer bits, or for a table that is no root.
fn spoil_sizes(random: &mut Random, table: &mut [u8], header_size: usize) {
    let total = word(table, TOTAL);
    let (rest, room) = (total - header_size, table.len());
    let below = random.within(0..=header_size - 1);
    match random.within(0..=3) {
        0 => put_word(table, TOTAL, random.pick(&[header_size - 1, below, 0])),
        1 => {
            let past = random.within(room + 1..=TABLE_MAX);
            let wide = random.pick(&[TABLE_MAX + 1, (1 << 16) + total, (1 << 31) + total]);
            let most = u32::MAX as usize;
            put_word(table, TOTAL, random.pick(&[room + 1, past, wide, most]));
        }
        2 => {
            let header = random.within(rest + 1..=total);
            put_word(table, REMAINING, random.pick(&[rest + 1, header, total]));
        }
        _ => {
            let fits = random.within(0..=rest);
            let wide = random.pick(&[total + 1, (1 << 16) + fits, (1 << 31) + fits]);
            let most = u32::MAX as usize;
            put_word(table, REMAINING, random.pick(&[wide, wide, most]));
        }
    }
}

fn wrong_version(random: &mut Random) -> u8 {
    let any = random.within(2..=255) as u8;
    random.pick(&[0, 0, 2, 3, 0x10, 0x11, 0x81, 0xFF, any])
}

/// What is added to the checksum.
fn wrong_sum(random: &mut Random) -> usize {
    let bit = 1 << random.within(0..=31);
    let any = random.within(1..=u32::MAX as usize);
    random.pick(&[1, bit, any, u32::MAX as usize])
}

/// A name that differs from the root's in one byte or in its length.
fn wrong_root_name(random: &mut Random) -> Vec<u8> {
    let mut name = ROOT_NAME.to_vec();
    match random.within(0..=3) {
        0 => name.truncate(random.pick_or_within(&[0, 9], 0..=9)),
        1 => name.push(random.within(1..=255) as u8),
        2 => name.resize(NAME_MAX, b'_'),
        _ => name[random.within(0..=9)] ^= 1 << random.within(0..=6),
    }
    name
}

/// A Count over the limit, or over what the used part has room for.
fn wrong_count(random: &mut Random, used: usize) -> u16 {
    let fit = (used - ROOT_HEADER_SIZE) / 8;
    let over = (SLOTS_MAX + 1) as u16;
    let any = random.within(SLOTS_MAX + 1..=65_535) as u16;
    let unfit = random.within(fit + 1..=fit.max(SLOTS_MAX) + 1) as u16;
    let wide = (1 << random.within(8..=15)) + random.within(0..=fit.min(SLOTS_MAX)) as u16;
    random.pick(&[fit as u16 + 1, unfit, over, any, wide])
}

/// One table in a region.
pub struct Lone {
    pub bytes: Vec<u8>,
    pub base: u64,
    pub address: u64,
}

impl Lone {
    /// A passing table, or root if the header is a root's, with these faults.
    pub fn new(random: &mut Random, table: &[u8], header_size: usize, faults: Faults) -> Lone {
        let lead = random.pick_or_within(&[0, 8], 0..=20);
        let behind = random.pick_or_within(&[0, 1], 0..=20);
        let off = if faults.has(31) {
            random.within(1..=7)
        } else {
            0
        };
        let mut bytes = random.bytes(lead);
        bytes.extend(table);
        bytes.extend(random.bytes(behind));
        let address = address(random, &mut bytes, lead, off);
        spoil(random, &mut bytes[lead..], header_size, faults);
        let base = address - lead as u64;
        let mut lone = Lone {
            bytes,
            base,
            address,
        };
        if faults.has(30) {
            lone.move_out(random, lead, header_size);
        }
        lone
    }

    /// Cuts the region inside the header, or lets the address lead out of it, or moves all to where
    /// the region runs past the end of the address space.
    fn move_out(&mut self, random: &mut Random, lead: usize, header_size: usize) {
        let rest = self.bytes.len() - lead;
        let far = random.pick(&[1 << 16, 1 << 32, 1 << 48, 1 << 63]);
        let steps = random.pick_or_within(&[1, 2], 1..=9);
        match random.within(0..=4) {
            0 => {
                let left = random.pick_or_within(&[0, header_size - 1], 0..=header_size - 1);
                self.bytes.truncate(lead + left);
            }
            1 => {
                let last = (rest - header_size) / 8 + steps;
                self.address = self.address.wrapping_add(8 * last as u64);
            }
            2 => {
                let first = lead / 8 + steps;
                self.address = self.address.wrapping_sub(8 * first as u64);
            }
            3 => self.address = self.address.wrapping_add(far),
            _ => {
                let off = self.address % 8;
                let most = (rest + off as usize - 1) / 8;
                let below = random.pick_or_within(&[1, most], 1..=most) as u64;
                self.address = (8 * below).wrapping_neg() + off;
                self.base = self.address - lead as u64;
            }
        }
    }
}

/// An address for the table at `lead`, which is `off` bytes behind a multiple of 8: as low as may
/// be, or anywhere, or such that the region ends with the address space or a few bytes before.
pub fn address(random: &mut Random, bytes: &mut Vec<u8>, lead: usize, off: usize) -> u64 {
    let low = lead.next_multiple_of(8) + off;
    match random.within(0..=5) {
        0 => low as u64,
        1..=2 => (low + 8 * random.within(0..=1000)) as u64,
        3 => low as u64 + (random.u64() >> random.within(1..=50)) / 8 * 8,
        _ => {
            let missing = random.pick(&[0, 0, 1, 8, 9]);
            high_address(random, bytes, lead, off, missing)
        }
    }
}

/// The same such that the region ends that many bytes before the end of the address space. It is
/// filled up for that.
fn high_address(
    random: &mut Random,
    bytes: &mut Vec<u8>,
    lead: usize,
    off: usize,
    missing: usize,
) -> u64 {
    while !(bytes.len() - lead + missing + off).is_multiple_of(8) {
        bytes.push(random.u8());
    }
    ((bytes.len() - lead + missing) as u64).wrapping_neg()
}
