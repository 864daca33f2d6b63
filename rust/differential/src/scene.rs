//! Memory with a UBIOS root in it, and all that its slots may lead to.

use crate::faults::Faults;
use crate::random::Random;
use crate::tables::{
    address, name, put, put_word, root, seal, spoil, table, word, COUNT, ORDER, REMAINING,
    ROOT_NAME,
};
use hoursquall::{NAME_MAX, ROOT_HEADER_SIZE, TABLE_HEADER_SIZE};

/// Memory with a root and tables in it.
#[derive(Clone)]
pub struct Scene {
    pub bytes: Vec<u8>,
    pub base: u64,
    /// The root's address.
    pub root: u64,
    /// The addresses of all other tables, among them some that have a fault.
    pub tables: Vec<u64>,
    /// Names of tables, and names close to them.
    pub names: Vec<Vec<u8>>,
}

/// How much a scene has of everything.
#[derive(Clone, Copy)]
pub struct Extent {
    pub tables: usize,
    pub slots: usize,
    /// How many more slots the root has room for.
    pub room: usize,
}

impl Scene {
    /// A scene whose root passes, and whose slots are anything.
    pub fn new(random: &mut Random, extent: Extent) -> Scene {
        let names = names(random);
        let lead = random.pick_or_within(&[0, 8], 0..=12);
        let mut bytes = random.bytes(lead);
        let before = random.within(0..=extent.tables);
        let mut offsets = lay_tables(random, &mut bytes, lead, &names, before);
        let root = root_with_room(random, extent);
        let root = lay(random, &mut bytes, lead, &root, 0);
        let behind = extent.tables - before;
        offsets.extend(lay_tables(random, &mut bytes, lead, &names, behind));
        let behind = random.pick(&[0, 0, 1, 4, 9, 40]);
        bytes.extend(random.bytes(behind));
        let base = address(random, &mut bytes, lead, 0) - lead as u64;
        let mut scene = Scene {
            bytes,
            base,
            root: base + root as u64,
            tables: offsets.iter().map(|&at| base + at as u64).collect(),
            names,
        };
        let slots: Vec<u64> = (0..extent.slots).map(|_| scene.slot(random)).collect();
        scene.set_slots(&slots);
        scene
    }

    /// A root without slots at `base`, a multiple of 8, with room for that many, and these tables
    /// behind it. All of it is a multiple of 8 bytes long.
    pub fn laid(random: &mut Random, base: u64, room: usize, tables: &[&[u8]]) -> Scene {
        let mut bytes = root(random, &[], 0, 8 * room);
        let mut addresses = Vec::new();
        for table in tables {
            addresses.push(base + bytes.len() as u64);
            bytes.extend(*table);
            bytes.resize(bytes.len().next_multiple_of(8), 0xA5);
        }
        Scene {
            bytes,
            base,
            root: base,
            tables: addresses,
            names: Vec::new(),
        }
    }

    /// The bytes from an address on.
    pub fn at(&mut self, address: u64) -> &mut [u8] {
        &mut self.bytes[(address - self.base) as usize..]
    }

    /// The root's slots.
    pub fn slots(&self) -> Vec<u64> {
        let root = &self.bytes[(self.root - self.base) as usize..];
        let count = usize::from(u16::from_le_bytes([root[COUNT], root[COUNT + 1]]));
        let slots = root[ROOT_HEADER_SIZE..].chunks_exact(8).take(count);
        slots
            .map(|slot| u64::from_le_bytes(slot.try_into().expect("it has eight bytes")))
            .collect()
    }

    /// Gives the root other slots. If there are more, they take room of what remains.
    pub fn set_slots(&mut self, slots: &[u64]) {
        let before = self.slots().len();
        let root = self.at(self.root);
        let remaining = word(root, REMAINING) + 8 * before - 8 * slots.len();
        put_word(root, REMAINING, remaining);
        put(root, COUNT, &(slots.len() as u16).to_le_bytes());
        for (place, slot) in slots.iter().enumerate() {
            put(root, ROOT_HEADER_SIZE + 8 * place, &slot.to_le_bytes());
        }
        seal(root);
    }

    fn slot(&self, random: &mut Random) -> u64 {
        match random.within(0..=15) {
            0..=2 => 0,
            3 => self.root,
            4 => self.elsewhere(random),
            _ if self.tables.is_empty() => 0,
            _ => random.pick(&self.tables),
        }
    }

    /// An address at which there is mostly no table; often one that leads to a table, or into the
    /// region, if sums of addresses are cut or wrap.
    pub fn elsewhere(&self, random: &mut Random) -> u64 {
        let table = random.pick(&[&[self.root], &self.tables[..]].concat());
        let end = self.base.wrapping_add(self.bytes.len() as u64);
        let few = random.within(0..=5) as u64;
        let any = random.u64();
        random.pick(&[
            table.wrapping_add(few + 1),
            table.wrapping_add(8),
            table.wrapping_sub(8),
            table.wrapping_add(1 << 16),
            table.wrapping_add(1 << 32),
            table.wrapping_add(1 << 63),
            (self.base / 8 * 8).wrapping_sub(8 * few),
            (end / 8 * 8).wrapping_sub(8 * few),
            (8 * few).wrapping_neg(),
            8 * few,
            any / 8 * 8,
            any,
        ])
    }

    /// A name to look for: mostly that of a table, else one that is close to it, or that no table
    /// can have.
    pub fn sought(&self, random: &mut Random) -> Vec<u8> {
        let mut name = self.names[random.pick(&[0, 0, 0, 1, 1, 2, 3])].clone();
        match random.within(0..=19) {
            0 => name.push(random.within(1..=255) as u8),
            1 => drop(name.pop()),
            2 => name.push(0),
            3 => name.insert(0, 0),
            4 => name.resize(random.pick(&[NAME_MAX, NAME_MAX + 1, 40]), b'x'),
            5 => name = self::name(random, NAME_MAX + 1),
            _ => (),
        }
        name
    }
}

/// A root whose slots are gaps.
fn root_with_room(random: &mut Random, extent: Extent) -> Vec<u8> {
    let slots = vec![0; extent.slots];
    let tail = random.pick(&[0, 0, 1, 5, 8]);
    let remaining = 8 * extent.room + random.pick(&[0, 0, 3, 8]);
    root(random, &slots, tail, remaining)
}

/// Few names, so that several tables have the same; some differ in one byte or in length.
fn names(random: &mut Random) -> Vec<Vec<u8>> {
    let length = random.pick_or_within(&[1, 2, 15, 16], 1..=NAME_MAX);
    let first = name(random, length);
    let mut other = first.clone();
    match random.within(0..=3) {
        0 if length < NAME_MAX => other.push(random.within(1..=255) as u8),
        1 if length > 1 => drop(other.pop()),
        2 => other[0] ^= if other[0] == 1 { 2 } else { 1 },
        _ => {
            let last = &mut other[length - 1];
            *last = last.wrapping_add(1).max(1);
        }
    }
    let third = name(random, length);
    vec![first, other, third, ROOT_NAME.to_vec()]
}

/// A table of a scene, mostly a passing one. Seldom its name is empty.
fn scene_table(random: &mut Random, names: &[Vec<u8>]) -> Vec<u8> {
    let name = match random.within(0..=15) {
        0 => &[][..],
        1 => &names[3],
        2..=7 => &names[0],
        8..=11 => &names[1],
        _ => &names[2],
    };
    let length = random.pick_or_within(&[0, 1, 4, 8], 0..=24);
    let body = random.bytes(length);
    let remaining = random.pick(&[0, 0, 0, 1, 2, 3, 4, 8, 17]);
    let mut table = table(random, name, &body, remaining);
    if random.within(0..=3) == 0 {
        // One of 32, 33 and 34, or several.
        let set = random.pick(&[4, 8, 16, 4, 8, 16, 12, 24, 20]);
        let faults = Faults::new(&ORDER, set);
        spoil(random, &mut table, TABLE_HEADER_SIZE, faults);
    }
    table
}

/// Lays some tables behind all others, few of them off a multiple of 8, and answers their offsets.
fn lay_tables(
    random: &mut Random,
    bytes: &mut Vec<u8>,
    lead: usize,
    names: &[Vec<u8>],
    count: usize,
) -> Vec<usize> {
    let mut offsets = Vec::new();
    for _ in 0..count {
        let table = scene_table(random, names);
        let off = random.within(1..=7);
        let off = random.pick(&[0, 0, 0, 0, 0, 0, 0, off]);
        offsets.push(lay(random, bytes, lead, &table, off));
    }
    offsets
}

/// Lays a table behind all others, some multiple of 8 and `off` bytes behind `lead`, and answers
/// its offset.
fn lay(random: &mut Random, bytes: &mut Vec<u8>, lead: usize, table: &[u8], off: usize) -> usize {
    let behind = (bytes.len() - lead).next_multiple_of(8) + 8 * random.pick(&[0, 0, 0, 1, 2]);
    let offset = lead + behind + off;
    bytes.extend(random.bytes(offset - bytes.len()));
    bytes.extend(table);
    offset
}
