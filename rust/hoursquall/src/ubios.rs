//! UBIOS tables in memory, and the root that leads to them.

use crate::{accepted, calls, Refusal};

/// Memory: bytes, and the address of the first of them.
///
/// ```
/// use hoursquall::{sum32, Body, Refusal, Region};
///
/// // A table that passes: the checksum makes its words sum to 0.
/// let table = |name: &[u8], body: &[u8]| {
///     let mut bytes = vec![0; 32];
///     bytes[..name.len()].copy_from_slice(name);
///     bytes.extend(body);
///     let total = bytes.len() as u32;
///     bytes[16..20].copy_from_slice(&total.to_le_bytes());
///     bytes[20] = 1;
///     let checksum = sum32(&bytes).wrapping_neg();
///     bytes[28..32].copy_from_slice(&checksum.to_le_bytes());
///     bytes
/// };
///
/// // Two slots: a gap, and the address of the table that stands behind the root.
/// let count = [2, 0, 0, 0, 0, 0, 0, 0];
/// let slots = [0, 0x1038].map(u64::to_le_bytes);
/// let root = table(b"root_table", &[count, slots[0], slots[1]].concat());
/// let bytes = [root, table(b"clock", b"12:30")].concat();
///
/// let region = Region { bytes: &bytes, base: 0x1000 };
/// assert_eq!(region.check_root(0x1000)?.count, 2);
/// assert_eq!(region.check_table(0x1038)?.used, 32 + 5);
/// let Body { slot, offset, length } = region.find(0x1000, b"clock")?;
/// assert_eq!((slot, &bytes[offset..offset + length]), (1, &b"12:30"[..]));
/// assert_eq!(region.find(0x1000, b"calendar"), Err(37));
/// # Ok::<(), Refusal>(())
/// ```
#[derive(Clone, Copy, Debug, PartialEq, Eq)]
pub struct Region<'a> {
    /// What the memory holds.
    pub bytes: &'a [u8],
    /// The address of its first byte.
    pub base: u64,
}

/// A table that passes its checks.
#[derive(Clone, Copy, Debug, PartialEq, Eq)]
pub struct Table {
    /// Where it starts in the region.
    pub offset: usize,
    /// Bytes of its used part, the header included.
    pub used: usize,
}

/// A root that passes its checks.
#[derive(Clone, Copy, Debug, PartialEq, Eq)]
pub struct Root {
    /// Where it starts in the region.
    pub offset: usize,
    /// Bytes of its used part, the header and the slots included.
    pub used: usize,
    /// How many slots it has, gaps included.
    pub count: usize,
}

/// The body of a table that was found.
#[derive(Clone, Copy, Debug, PartialEq, Eq)]
pub struct Body {
    /// The slot that leads to the table, counted from 0, gaps included.
    pub slot: usize,
    /// Where the body starts in the region.
    pub offset: usize,
    /// Bytes of the body.
    pub length: usize,
}

impl Region<'_> {
    /// Checks the table at an address. Refusals, in order: 31, 30, 32, 33, 34.
    pub fn check_table(&self, address: u64) -> Result<Table, Refusal> {
        let mut part = [0; 2];
        let answer = calls::table(self.bytes, self.base, address, &mut part);
        let [offset, used] = part;
        accepted(answer).map(|()| Table { offset, used })
    }

    /// Checks the root at an address. Refusals, in order: 31, 30, 32 to 36.
    pub fn check_root(&self, address: u64) -> Result<Root, Refusal> {
        let mut root = [0; 3];
        let answer = calls::root(self.bytes, self.base, address, &mut root);
        let [offset, used, count] = root;
        accepted(answer).map(|()| Root {
            offset,
            used,
            count,
        })
    }

    /// Looks for the table of a name that a slot of the root at an address leads to. A slot whose
    /// table fails its checks counts as none. Refusals, in order: 39, 31, 30, 32 to 36, 38, 37.
    pub fn find(&self, root: u64, name: &[u8]) -> Result<Body, Refusal> {
        let mut body = [0; 3];
        let answer = calls::find(self.bytes, self.base, root, name, &mut body);
        let [slot, offset, length] = body;
        accepted(answer).map(|()| Body {
            slot,
            offset,
            length,
        })
    }
}
