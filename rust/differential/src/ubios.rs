//! The UBIOS calls of both implementations, on one region.

use crate::assert_each;
use crate::memory::Memory;
use crate::random::Random;
use hoursquall::{raw, Refusal};
use reference::ubios::{self, Body, Region, Root, Table};
use std::fmt::Arguments;

/// One more than the highest answer.
const ANSWERS: usize = 40;

/// How often each answer was given, so that a test that misses one fails.
pub struct Seen {
    tables: [usize; ANSWERS],
    roots: [usize; ANSWERS],
    finds: [usize; ANSWERS],
}

impl Seen {
    pub fn new() -> Seen {
        Seen {
            tables: [0; ANSWERS],
            roots: [0; ANSWERS],
            finds: [0; ANSWERS],
        }
    }

    /// Each of these answers was given to table checks often enough.
    pub fn assert_tables(&self, what: &str, answers: &[usize], least: usize) {
        assert_each(
            &format!("{what}, table checks"),
            &self.tables,
            answers,
            least,
        );
    }

    /// The same of root checks.
    pub fn assert_roots(&self, what: &str, answers: &[usize], least: usize) {
        assert_each(&format!("{what}, root checks"), &self.roots, answers, least);
    }

    /// The same of look-ups.
    pub fn assert_finds(&self, what: &str, answers: &[usize], least: usize) {
        assert_each(&format!("{what}, look-ups"), &self.finds, answers, least);
    }
}

impl Default for Seen {
    fn default() -> Seen {
        Seen::new()
    }
}

/// Both implementations, and the safe wrapper besides. Each call, and all that it was lent, is
/// compared.
pub struct Machine<'a> {
    region: Memory<u8>,
    region_before: Memory<u8>,
    base: u64,
    /// What the lent numbers are before each call.
    numbers: [usize; 3],
    seen: &'a mut Seen,
}

impl<'a> Machine<'a> {
    pub fn new(random: &mut Random, bytes: &[u8], base: u64, seen: &'a mut Seen) -> Machine<'a> {
        let region = Memory::new(bytes, random.u8());
        Machine {
            region_before: region.clone(),
            region,
            base,
            numbers: [0; 3].map(|_| random.usize()),
            seen,
        }
    }

    /// Checks the table at an address.
    pub fn check_table(&mut self, address: u64) -> Result<Table, Refusal> {
        let base = self.base;
        let expected = ubios::check_table(self.for_reference(), address);
        let wrapped = self.for_wrapper().check_table(address);
        self.compare(
            expected.map(|Table { offset, used }| [offset, used]),
            wrapped.map(|table| [table.offset, table.used]),
            // SAFETY: the pointer and the length are those of one slice, and what is written is
            // borrowed exclusively.
            |bytes, part| unsafe {
                raw::hs_ubios_table(bytes.as_ptr(), bytes.len(), base, address, part)
            },
            format_args!("check of the table at {address:#x}"),
        );
        self.seen.tables[number(&expected)] += 1;
        expected
    }

    /// Checks the root at an address.
    pub fn check_root(&mut self, address: u64) -> Result<Root, Refusal> {
        let base = self.base;
        let expected = ubios::check_root(self.for_reference(), address);
        let wrapped = self.for_wrapper().check_root(address);
        self.compare(
            expected.map(|root| [root.offset, root.used, root.count]),
            wrapped.map(|root| [root.offset, root.used, root.count]),
            // SAFETY: the pointer and the length are those of one slice, and what is written is
            // borrowed exclusively.
            |bytes, root| unsafe {
                raw::hs_ubios_root(bytes.as_ptr(), bytes.len(), base, address, root)
            },
            format_args!("check of the root at {address:#x}"),
        );
        self.seen.roots[number(&expected)] += 1;
        expected
    }

    /// Looks for a name.
    pub fn find(&mut self, root: u64, sought: &[u8]) -> Result<Body, Refusal> {
        let base = self.base;
        let mut name = Memory::new(sought, 0xA5);
        let name_before = name.clone();
        let expected = ubios::find(self.for_reference(), root, sought);
        let wrapped = self.for_wrapper().find(root, sought);
        self.compare(
            expected.map(|body| [body.slot, body.offset, body.length]),
            wrapped.map(|body| [body.slot, body.offset, body.length]),
            |bytes, body| {
                let (start, length) = (bytes.as_ptr(), bytes.len());
                let name = name.lent();
                // SAFETY: each pointer and length are those of one slice, and what is written is
                // borrowed exclusively.
                unsafe {
                    raw::hs_ubios_find(start, length, base, root, name.as_ptr(), name.len(), body)
                }
            },
            format_args!("look-up of {sought:02x?} by the root at {root:#x}"),
        );
        assert_eq!(name, name_before, "the name {sought:02x?}");
        self.seen.finds[number(&expected)] += 1;
        expected
    }

    /// Compares a call of the library with what is expected of its answer and of all it was lent.
    fn compare<const N: usize>(
        &mut self,
        expected: Result<[usize; N], Refusal>,
        wrapped: Result<[usize; N], Refusal>,
        library: impl FnOnce(&[u8], &mut [usize; N]) -> u32,
        call: Arguments,
    ) {
        let mut numbers = Memory::new(&self.numbers[..N], !self.numbers[0]);
        let mut numbers_after = numbers.clone();
        if let Ok(expected) = &expected {
            numbers_after.lent().copy_from_slice(expected);
        }
        let lent = numbers.lent().try_into().expect("that many are lent");

        let answer = library(self.region.lent(), lent);

        let (base, length) = (self.base, self.region.lent().len());
        let input = format_args!("{call}, region of {length} bytes at {base:#x}");
        assert_eq!(answer, expected.err().unwrap_or(0), "{input}");
        assert_eq!(numbers, numbers_after, "{input}");
        assert_eq!(wrapped, expected, "{input}");
        let unchanged = self.region == self.region_before;
        assert!(unchanged, "the region after {input}");
    }

    fn for_reference(&mut self) -> Region<'_> {
        Region {
            base: self.base,
            bytes: self.region.lent(),
        }
    }

    fn for_wrapper(&mut self) -> hoursquall::Region<'_> {
        hoursquall::Region {
            base: self.base,
            bytes: self.region.lent(),
        }
    }
}

/// What the C function answers.
fn number<T>(answer: &Result<T, Refusal>) -> usize {
    match answer {
        Ok(_) => 0,
        Err(refusal) => *refusal as usize,
    }
}
