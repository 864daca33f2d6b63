//! UBIOS tables: the check of a table, the check of the root, and the look-up by name.

use crate::frame::Refusal;
use crate::sum::sum32;

const TABLE_HEADER_SIZE: usize = 32;
const ROOT_HEADER_SIZE: usize = 40;
const TABLE_MAX: usize = 65_536;
const NAME_SIZE: usize = 16;
const ROOT_NAME: &[u8] = b"root_table";
const SLOT_SIZE: usize = 8;
const SLOTS_MAX: usize = 128;

/// Memory is a lent region with the address of its first byte.
#[derive(Clone, Copy, Debug)]
pub struct Region<'a> {
    pub bytes: &'a [u8],
    pub base: u64,
}

/// A table that passes its checks.
#[derive(Clone, Copy, Debug, PartialEq, Eq)]
pub struct Table {
    /// Its first byte's place in the region.
    pub offset: usize,
    /// The length of its used part.
    pub used: usize,
}

/// A root that passes its checks.
#[derive(Clone, Copy, Debug, PartialEq, Eq)]
pub struct Root {
    /// Its first byte's place in the region.
    pub offset: usize,
    /// The length of its used part.
    pub used: usize,
    /// How many slots it has, with the gaps.
    pub count: usize,
}

/// The body of the table that was looked for.
#[derive(Clone, Copy, Debug, PartialEq, Eq)]
pub struct Body {
    /// The slot that leads to the table, counted from 0.
    pub slot: usize,
    /// The body's place in the region.
    pub offset: usize,
    pub length: usize,
}

/// Checks the table at an address.
pub fn check_table(region: Region, address: u64) -> Result<Table, Refusal> {
    check(region, address, TABLE_HEADER_SIZE)
}

/// Checks the root at an address.
pub fn check_root(region: Region, address: u64) -> Result<Root, Refusal> {
    let Table { offset, used } = check(region, address, ROOT_HEADER_SIZE)?;
    let root = &region.bytes[offset..offset + used];
    if name(root) != ROOT_NAME {
        return Err(35);
    }
    let count = usize::from(u16::from_le_bytes([root[32], root[33]]));
    if count > SLOTS_MAX || ROOT_HEADER_SIZE + SLOT_SIZE * count > used {
        return Err(36);
    }
    Ok(Root {
        offset,
        used,
        count,
    })
}

/// Looks for the one table of that name that a slot of the root leads to.
pub fn find(region: Region, root: u64, sought: &[u8]) -> Result<Body, Refusal> {
    if sought.is_empty() || sought.len() > NAME_SIZE || sought.contains(&0) {
        return Err(39);
    }
    let root = check_root(region, root)?;
    let bodies: Vec<Body> = (0..root.count)
        .filter_map(|slot| body_of(region, &root, slot, sought))
        .collect();
    match bodies[..] {
        [] => Err(37),
        [body] => Ok(body),
        _ => Err(38),
    }
}

/// The checks that a table and the root share; they differ in the size of the header.
fn check(region: Region, address: u64, header_size: usize) -> Result<Table, Refusal> {
    if !address.is_multiple_of(8) {
        return Err(31);
    }
    let offset = header_offset(region, address, header_size).ok_or(30u32)?;
    let table = &region.bytes[offset..];
    let total = word(table, 16) as usize;
    if total < header_size || total > TABLE_MAX || total > table.len() {
        return Err(32);
    }
    let remaining = word(table, 24) as usize;
    if remaining > total - header_size {
        return Err(32);
    }
    let version = table[20];
    if version != 1 {
        return Err(33);
    }
    let used = total - remaining;
    if sum32(&table[..used]) != 0 {
        return Err(34);
    }
    Ok(Table { offset, used })
}

/// Where a header is in the region, if all of it is. Addresses are added up exactly.
fn header_offset(region: Region, address: u64, header_size: usize) -> Option<usize> {
    let (first, address) = (u128::from(region.base), u128::from(address));
    let end = first + region.bytes.len() as u128;
    let legal = end <= 1 << 64;
    let inside = first <= address && address + header_size as u128 <= end;
    (legal && inside).then(|| (address - first) as usize)
}

/// The body of the table that a slot leads to, if it leads to a passing one of that name.
fn body_of(region: Region, root: &Root, slot: usize, sought: &[u8]) -> Option<Body> {
    let at = root.offset + ROOT_HEADER_SIZE + SLOT_SIZE * slot;
    let address = address(region.bytes, at);
    if address == 0 {
        return None;
    }
    let Table { offset, used } = check_table(region, address).ok()?;
    let body = Body {
        slot,
        offset: offset + TABLE_HEADER_SIZE,
        length: used - TABLE_HEADER_SIZE,
    };
    (name(&region.bytes[offset..]) == sought).then_some(body)
}

/// A table's name: the bytes before the first zero, or all sixteen.
fn name(table: &[u8]) -> &[u8] {
    let field = &table[..NAME_SIZE];
    let end = field.iter().position(|&byte| byte == 0);
    &field[..end.unwrap_or(NAME_SIZE)]
}

/// The little-endian four-byte word at an offset.
fn word(bytes: &[u8], at: usize) -> u32 {
    u32::from_le_bytes([bytes[at], bytes[at + 1], bytes[at + 2], bytes[at + 3]])
}

/// The little-endian address at an offset.
fn address(bytes: &[u8], at: usize) -> u64 {
    u64::from(word(bytes, at)) | u64::from(word(bytes, at + 4)) << 32
}

#[cfg(test)]
mod tests {
    use super::*;

    const BASE: u64 = 0x1000;

    /// A table with the checksum that it needs.
    fn table(name: &[u8], body: &[u8]) -> Vec<u8> {
        let mut table = vec![0; TABLE_HEADER_SIZE];
        table[..name.len()].copy_from_slice(name);
        table.extend(body);
        let total = table.len() as u32;
        table[16..20].copy_from_slice(&total.to_le_bytes());
        table[20] = 1;
        sealed(table)
    }

    /// The table with its checksum set anew, if all of it is used.
    fn sealed(mut table: Vec<u8>) -> Vec<u8> {
        table[28..32].fill(0);
        let checksum = sum32(&table).wrapping_neg();
        table[28..32].copy_from_slice(&checksum.to_le_bytes());
        table
    }

    fn root(slots: &[u64]) -> Vec<u8> {
        let mut body = vec![slots.len() as u8, 0, 0, 0, 0, 0, 0, 0];
        body.extend(slots.iter().flat_map(|slot| slot.to_le_bytes()));
        table(ROOT_NAME, &body)
    }

    fn at_base(bytes: &[u8]) -> Region<'_> {
        Region { bytes, base: BASE }
    }

    fn changed(table: &[u8], at: usize, byte: u8) -> Vec<u8> {
        let mut table = table.to_vec();
        table[at] = byte;
        table
    }

    /// The specification's own number.
    #[test]
    fn shortest_root() {
        let root = root(&[]);
        assert_eq!(root[28..32], 0x292E_B69A_u32.to_le_bytes());
        let passing = Root {
            offset: 0,
            used: 40,
            count: 0,
        };
        assert_eq!(check_root(at_base(&root), BASE), Ok(passing));
    }

    #[test]
    fn each_fault_of_a_table() {
        let table = table(b"clock", &[1, 2, 3]);
        let check = |bytes: &[u8]| check_table(at_base(bytes), BASE).err();
        assert_eq!(check(&table), None);
        assert_eq!(check(&table[..31]), Some(30));
        assert_eq!(check(&table[..34]), Some(32));
        assert_eq!(check(&changed(&table, 16, 31)), Some(32));
        assert_eq!(check(&changed(&table, 24, 4)), Some(32));
        assert_eq!(check(&changed(&table, 24, 3)), Some(34));
        assert_eq!(check(&changed(&table, 20, 2)), Some(33));
        assert_eq!(check(&changed(&table, 34, 4)), Some(34));
        assert_eq!(check_table(at_base(&table), BASE + 4), Err(31));
        assert_eq!(check_table(at_base(&table), BASE - 8), Err(30));
        assert_eq!(check_table(at_base(&table), BASE + 8), Err(30));
    }

    #[test]
    fn each_fault_of_a_root() {
        let root = root(&[0]);
        let check = |bytes: &[u8]| check_root(at_base(bytes), BASE).err();
        assert_eq!(check(&root), None);
        assert_eq!(check(&root[..39]), Some(30));
        assert_eq!(check(&changed(&root, 16, 39)), Some(32));
        assert_eq!(check(&changed(&root, 24, 9)), Some(32));
        assert_eq!(check(&sealed(changed(&root, 0, b'R'))), Some(35));
        assert_eq!(check(&sealed(changed(&root, 10, b's'))), Some(35));
        assert_eq!(check(&sealed(changed(&root, 11, b's'))), None);
        assert_eq!(check(&sealed(changed(&root, 32, 2))), Some(36));
        assert_eq!(check(&self::root(&[0; 128])), None);
        assert_eq!(check(&self::root(&[0; 129])), Some(36));
    }

    #[test]
    fn end_of_the_address_space() {
        let table = table(b"clock", &[]);
        let [last, past] = [31, 30].map(|below| u64::MAX - below);
        let check = |base, address| {
            let bytes = &table[..];
            check_table(Region { bytes, base }, address).err()
        };
        assert_eq!(check(last, last), None);
        assert_eq!(check(past, past), Some(31));
        assert_eq!(check(past, last), Some(30));
        assert_eq!(check(past, 0), Some(30));
    }

    #[test]
    fn look_up() {
        // Two gaps, a slot that leads outside, the root itself, and two tables of one name.
        let slots = [0, BASE + 0x60, 0, 8, BASE, BASE + 0x88, BASE + 0x88];
        let mut bytes = root(&slots);
        assert_eq!(bytes.len(), 0x60);
        bytes.extend(table(b"clock", b"12:30:00"));
        bytes.extend(table(b"twice", b""));
        let find = |name: &[u8]| find(at_base(&bytes), BASE, name);
        let clock = Body {
            slot: 1,
            offset: 0x80,
            length: 8,
        };
        assert_eq!(find(b"clock"), Ok(clock));
        assert_eq!(find(ROOT_NAME).map(|body| body.slot), Ok(4));
        assert_eq!(find(b"twice"), Err(38));
        assert_eq!(find(b"clocks"), Err(37));
        assert_eq!(find(b""), Err(39));
        assert_eq!(find(b"clock\0"), Err(39));
        assert_eq!(find(b"seventeen letters"), Err(39));
    }
}
