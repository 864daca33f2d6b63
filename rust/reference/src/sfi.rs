//! SFI tables: the check of a table, the place of an entry, the search for SYST, and the choice
//! between two tables.

use crate::frame::Refusal;
use crate::sum::sum8;

const HEADER_SIZE: usize = 24;
const TABLE_MAX: usize = 65_536;
const MEMORY_SIZE: usize = 131_072;
const PAGE_SIZE: usize = 4096;

/// The four letters at a table's start.
pub type Signature = [u8; 4];

/// What is listed of a kind of tables.
#[derive(Clone, Copy, Debug, PartialEq, Eq)]
pub struct Kind {
    pub signature: Signature,
    pub entry_size: usize,
    /// The oldest that is read.
    pub revision: u8,
}

const KINDS: [Kind; 10] = [
    kind(b"SYST", 8, 1),
    kind(b"CPUS", 4, 1),
    kind(b"APIC", 8, 1),
    kind(b"MMAP", 36, 1),
    kind(b"FREQ", 12, 1),
    kind(b"MRTC", 12, 1),
    kind(b"DEVS", 25, 1),
    kind(b"GPIO", 34, 1),
    kind(b"MTMR", 16, 2),
    kind(b"WAKE", 8, 2),
];

const fn kind(signature: &Signature, entry_size: usize, revision: u8) -> Kind {
    Kind {
        signature: *signature,
        entry_size,
        revision,
    }
}

/// A table that passes its checks.
#[derive(Clone, Copy, Debug, PartialEq, Eq)]
pub struct Table {
    pub kind: Kind,
    pub length: usize,
}

/// Which of the two tables is chosen.
#[derive(Clone, Copy, Debug, PartialEq, Eq)]
pub enum Source {
    Board,
    BuiltIn,
}

/// Checks the table at the start of a slice.
pub fn check(slice: &[u8]) -> Result<Table, Refusal> {
    if slice.len() < HEADER_SIZE {
        return Err(40);
    }
    let length = u32::from_le_bytes([slice[4], slice[5], slice[6], slice[7]]) as usize;
    if !(HEADER_SIZE..=TABLE_MAX).contains(&length) || length > slice.len() {
        return Err(40);
    }
    let signature = [slice[0], slice[1], slice[2], slice[3]];
    let kind = listed(signature).ok_or(42u32)?;
    let revision = slice[8];
    if revision < kind.revision {
        return Err(44);
    }
    if !(length - HEADER_SIZE).is_multiple_of(kind.entry_size) {
        return Err(43);
    }
    if signature == *b"WAKE" && length != 32 {
        return Err(43);
    }
    if sum8(&slice[..length]) != 0 {
        return Err(41);
    }
    Ok(Table { kind, length })
}

/// The offset of a table's entry `k`, counted from 0.
pub fn entry(slice: &[u8], k: usize) -> Result<usize, Refusal> {
    let Table { kind, length } = check(slice)?;
    let entries = (length - HEADER_SIZE) / kind.entry_size;
    if k >= entries {
        return Err(45);
    }
    Ok(HEADER_SIZE + k * kind.entry_size)
}

/// Looks for SYST at every 16th byte of the memory, lowest first.
pub fn find_syst(memory: &[u8]) -> Result<usize, Refusal> {
    if memory.len() != MEMORY_SIZE {
        return Err(46);
    }
    let mut places = (0..MEMORY_SIZE).step_by(16);
    places.find(|&offset| is_hit(memory, offset)).ok_or(47)
}

/// Whether the table at an offset passes as SYST, and its last byte is in the page of its first.
fn is_hit(memory: &[u8], offset: usize) -> bool {
    let Some(length) = passing_length(&memory[offset..], *b"SYST") else {
        return false;
    };
    let last = offset + length - 1;
    offset / PAGE_SIZE == last / PAGE_SIZE
}

/// Says which of two tables the entries come from, and the Length of that one.
pub fn choose(
    signature: Signature,
    board: &[u8],
    built_in: &[u8],
) -> Result<(Source, usize), Refusal> {
    if listed(signature).is_none() {
        return Err(42);
    }
    if let Some(length) = passing_length(board, signature) {
        return Ok((Source::Board, length));
    }
    if let Some(length) = passing_length(built_in, signature) {
        return Ok((Source::BuiltIn, length));
    }
    Err(48)
}

/// The chosen table itself, or no bytes where the choice is refused.
pub fn chosen<'a>(signature: Signature, board: &'a [u8], built_in: &'a [u8]) -> &'a [u8] {
    match choose(signature, board, built_in) {
        Ok((Source::Board, length)) => &board[..length],
        Ok((Source::BuiltIn, length)) => &built_in[..length],
        Err(_) => &[],
    }
}

/// The Length of the table at the start of a slice, if it passes with that signature.
fn passing_length(slice: &[u8], signature: Signature) -> Option<usize> {
    let Table { kind, length } = check(slice).ok()?;
    (kind.signature == signature).then_some(length)
}

/// What is listed of the kind with that signature.
fn listed(signature: Signature) -> Option<Kind> {
    KINDS.into_iter().find(|kind| kind.signature == signature)
}

#[cfg(test)]
mod tests {
    use super::*;

    /// A table with the checksum that it needs. The entries, and all that no check reads, are 0.
    fn table(signature: &Signature, revision: u8, length: usize) -> Vec<u8> {
        let mut table = vec![0; length];
        table[..4].copy_from_slice(signature);
        table[4..8].copy_from_slice(&(length as u32).to_le_bytes());
        table[8] = revision;
        sealed(table)
    }

    /// The table with its checksum set anew, if all of the slice is the table.
    fn sealed(mut table: Vec<u8>) -> Vec<u8> {
        table[9] = 0;
        table[9] = sum8(&table).wrapping_neg();
        table
    }

    fn changed(table: &[u8], at: usize, byte: u8) -> Vec<u8> {
        let mut table = table.to_vec();
        table[at] = byte;
        table
    }

    /// Memory with a table at each of these offsets, and zeros elsewhere.
    fn memory(tables: &[(usize, Vec<u8>)]) -> Vec<u8> {
        let mut memory = vec![0; MEMORY_SIZE];
        for (offset, table) in tables {
            memory[*offset..offset + table.len()].copy_from_slice(table);
        }
        memory
    }

    /// The specification's own number.
    #[test]
    fn shortest_cpus() {
        let table = table(b"CPUS", 1, 28);
        assert_eq!(table[9], 0xA8);
        let kind = kind(b"CPUS", 4, 1);
        assert_eq!(check(&table), Ok(Table { kind, length: 28 }));
    }

    #[test]
    fn each_fault_of_a_table() {
        let table = table(b"FREQ", 1, 36);
        let check = |bytes: &[u8]| check(bytes).err();
        assert_eq!(check(&table), None);
        assert_eq!(check(&table[..23]), Some(40));
        assert_eq!(check(&table[..35]), Some(40));
        assert_eq!(check(&changed(&table, 4, 23)), Some(40));
        assert_eq!(check(&changed(&table, 4, 37)), Some(40));
        assert_eq!(check(&sealed(changed(&table, 0, b'f'))), Some(42));
        assert_eq!(check(&sealed(changed(&table, 8, 0))), Some(44));
        assert_eq!(check(&sealed(changed(&table, 4, 35))), Some(43));
        assert_eq!(check(&changed(&table, 35, 1)), Some(41));
        assert_eq!(check(&[&table[..], &[1, 2, 3]].concat()), None);
    }

    /// "Larger revision numbers are backward compatible to lower revision numbers": each Revision of
    /// each kind, alone and with another fault.
    #[test]
    fn revisions() {
        for kind in KINDS {
            for revision in 0..=255 {
                let length = HEADER_SIZE + kind.entry_size;
                let table = table(&kind.signature, revision, length);
                let check = |bytes: &[u8]| check(bytes).err();
                let older = (revision < kind.revision).then_some(44);
                assert_eq!(check(&table), older);
                assert_eq!(check(&table[..length - 1]), Some(40));
                assert_eq!(check(&sealed(changed(&table, 0, b'?'))), Some(42));
                let uneven = sealed(changed(&table, 4, length as u8 - 1));
                assert_eq!(check(&uneven), older.or(Some(43)));
                let unsealed = changed(&table, 10, 1);
                assert_eq!(check(&unsealed), older.or(Some(41)));
            }
        }
        assert_eq!(check(&table(b"FREQ", 2, 24 + 16)), Err(43));
        let tables = [(16, table(b"SYST", 0, 24)), (64, table(b"SYST", 2, 24))];
        assert_eq!(find_syst(&memory(&tables)), Ok(64));
        let (board, built_in) = (table(b"APIC", 2, 32), table(b"APIC", 1, 40));
        assert_eq!(choose(*b"APIC", &board, &built_in), Ok((Source::Board, 32)));
    }

    #[test]
    fn longest_tables() {
        assert!(check(&table(b"SYST", 1, 65_536)).is_ok());
        assert_eq!(check(&table(b"SYST", 1, 65_544)), Err(40));
        assert!(check(&table(b"DEVS", 1, 65_524)).is_ok());
        assert_eq!(check(&table(b"DEVS", 1, 65_549)), Err(40));
    }

    #[test]
    fn wake_has_one_entry() {
        assert_eq!(check(&table(b"WAKE", 2, 24)), Err(43));
        assert_eq!(entry(&table(b"WAKE", 2, 32), 0), Ok(24));
        assert_eq!(check(&table(b"WAKE", 2, 40)), Err(43));
    }

    #[test]
    fn mmap_is_packed() {
        let packed = table(b"MMAP", 1, 24 + 2 * 36);
        assert_eq!(entry(&packed, 1), Ok(60));
        assert_eq!(entry(&packed, 2), Err(45));
        assert_eq!(entry(&packed, usize::MAX), Err(45));
        assert_eq!(check(&table(b"MMAP", 1, 24 + 2 * 40)), Err(43));
    }

    #[test]
    fn search() {
        let syst = |length| table(b"SYST", 1, length);
        assert_eq!(find_syst(&memory(&[])), Err(47));
        assert_eq!(find_syst(&memory(&[])[1..]), Err(46));
        assert_eq!(find_syst(&memory(&[(0, syst(24))])), Ok(0));
        assert_eq!(find_syst(&memory(&[(8, syst(24))])), Err(47));
        assert_eq!(find_syst(&memory(&[(131_040, syst(32))])), Ok(131_040));
        assert_eq!(find_syst(&memory(&[(4064, syst(32))])), Ok(4064));
        assert_eq!(find_syst(&memory(&[(4064, syst(40))])), Err(47));
        let failing = changed(&syst(32), 31, 1);
        let tables = [(16, failing), (64, syst(32)), (96, syst(24))];
        assert_eq!(find_syst(&memory(&tables)), Ok(64));
    }

    #[test]
    fn choice() {
        let (board, built_in) = (table(b"APIC", 1, 32), table(b"APIC", 1, 40));
        let failing = changed(&board, 31, 1);
        let other = table(b"SYST", 1, 32);
        let apic = |board, built_in| choose(*b"APIC", board, built_in);
        assert_eq!(apic(&board, &built_in), Ok((Source::Board, 32)));
        assert_eq!(apic(&failing, &built_in), Ok((Source::BuiltIn, 40)));
        assert_eq!(apic(&other, &built_in), Ok((Source::BuiltIn, 40)));
        assert_eq!(apic(&[], &failing), Err(48));
        assert_eq!(choose(*b"CIPA", &board, &built_in), Err(42));
        let longer = [&board[..], &[1, 2, 3]].concat();
        assert_eq!(chosen(*b"APIC", &longer, &built_in), board);
        assert_eq!(chosen(*b"APIC", &other, &built_in), built_in);
        assert_eq!(chosen(*b"APIC", &other, &failing), []);
    }
}
