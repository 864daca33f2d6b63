//! The SFI calls of both implementations, on the same bytes.

use crate::assert_each;
use crate::memory::{Lent, Shown};
use crate::random::Random;
use hoursquall::sfi::Choice;
use hoursquall::{raw, Refusal};
use reference::sfi::{self, Source, Table};
use std::fmt::Arguments;

/// One more than the highest answer.
const ANSWERS: usize = 103;

/// Both implementations, and the safe wrapper besides. Each call, and all that it was lent, is
/// compared. How often each answer was given is counted, so that a test that misses one fails.
pub struct Machine {
    /// For what the lent numbers are before a call, and what stands around all that is lent.
    random: Random,
    checks: [usize; ANSWERS],
    entries: [usize; ANSWERS],
    searches: [usize; ANSWERS],
    choices: [usize; ANSWERS],
}

impl Machine {
    pub fn new(random: &mut Random) -> Machine {
        Machine {
            random: Random::new(random.u64()),
            checks: [0; ANSWERS],
            entries: [0; ANSWERS],
            searches: [0; ANSWERS],
            choices: [0; ANSWERS],
        }
    }

    /// Checks a table.
    pub fn check(&mut self, slice: &[u8]) -> Result<Table, Refusal> {
        let expected = sfi::check(slice);
        let signature = expected.map(|table| u32::from_le_bytes(table.kind.signature));
        let length = expected.map(|table| table.length);
        let mut table = self.bytes(slice);
        let mut lent_signature = Lent::number(self.random.u32(), signature.ok());
        let mut lent_length = Lent::number(self.random.usize(), length.ok());

        let (start, table_len) = table.slice();
        let (to_signature, to_length) = (lent_signature.pointer(), lent_length.pointer());
        // SAFETY: the pointer and the length are those of one slice, and what is written is lent
        // for that alone.
        let answer = unsafe { raw::hs_sfi_check(start, table_len, to_signature, to_length) };

        let call = format_args!("check of {}", Shown(slice));
        assert_eq!(answer, expected.err().unwrap_or(0), "{call}");
        lent_signature.assert_number(call);
        lent_length.assert_number(call);
        table.assert_bytes(call);
        let wrapped = hoursquall::sfi::check(slice);
        assert_eq!(wrapped.map(|table| table.signature), signature, "{call}");
        assert_eq!(wrapped.map(|table| table.length), length, "{call}");
        self.checks[answer as usize] += 1;
        expected
    }

    /// Asks for a table's entry.
    pub fn entry(&mut self, slice: &[u8], k: usize) -> Result<usize, Refusal> {
        let expected = sfi::entry(slice, k);
        let mut table = self.bytes(slice);
        let mut offset = Lent::number(self.random.usize(), expected.ok());

        let (start, length) = table.slice();
        // SAFETY: the pointer and the length are those of one slice, and `offset` is lent for this
        // alone.
        let answer = unsafe { raw::hs_sfi_entry(start, length, k, offset.pointer()) };

        let call = format_args!("entry {k} of {}", Shown(slice));
        assert_eq!(answer, expected.err().unwrap_or(0), "{call}");
        offset.assert_number(call);
        table.assert_bytes(call);
        assert_eq!(hoursquall::sfi::entry(slice, k), expected, "{call}");
        self.entries[answer as usize] += 1;
        expected
    }

    /// Looks for SYST.
    pub fn find_syst(&mut self, slice: &[u8]) -> Result<usize, Refusal> {
        let expected = sfi::find_syst(slice);
        let mut memory = self.bytes(slice);
        let mut offset = Lent::number(self.random.usize(), expected.ok());

        let (start, length) = memory.slice();
        // SAFETY: the pointer and the length are those of one slice, and `offset` is lent for this
        // alone.
        let answer = unsafe { raw::hs_sfi_find_syst(start, length, offset.pointer()) };

        let call = format_args!("search in {}", Shown(slice));
        assert_eq!(answer, expected.err().unwrap_or(0), "{call}");
        offset.assert_number(call);
        memory.assert_bytes(call);
        assert_eq!(hoursquall::sfi::find_syst(slice), expected, "{call}");
        self.searches[answer as usize] += 1;
        expected
    }

    /// Chooses between two tables.
    pub fn choose(
        &mut self,
        signature: u32,
        board: &[u8],
        built_in: &[u8],
    ) -> Result<(Source, usize), Refusal> {
        let expected = sfi::choose(signature.to_le_bytes(), board, built_in);
        let (mut lent_board, mut lent_built_in) = (self.bytes(board), self.bytes(built_in));
        let chosen_length = expected.ok().map(|(_, length)| length);
        let mut length = Lent::number(self.random.usize(), chosen_length);

        let answer = raw_choose(signature, &mut lent_board, &mut lent_built_in, &mut length);

        let (shown_board, shown_built_in) = (Shown(board), Shown(built_in));
        let call = format_args!("choice of {signature:#x}: {shown_board} or {shown_built_in}");
        assert_eq!(answer, choice_number(expected), "{call}");
        length.assert_number(call);
        lent_board.assert_bytes(call);
        lent_built_in.assert_bytes(call);
        let wrapped = hoursquall::sfi::choose(signature, board, built_in).map(choice);
        assert_eq!(wrapped, expected, "{call}");
        compare_chosen(signature, board, built_in, call);
        self.choices[answer as usize] += 1;
        expected
    }

    /// Each of these answers was given to checks often enough.
    pub fn assert_checks(&self, what: &str, answers: &[usize], least: usize) {
        assert_each(&format!("{what}, checks"), &self.checks, answers, least);
    }

    /// The same of entries.
    pub fn assert_entries(&self, what: &str, answers: &[usize], least: usize) {
        assert_each(&format!("{what}, entries"), &self.entries, answers, least);
    }

    /// The same of searches.
    pub fn assert_searches(&self, what: &str, answers: &[usize], least: usize) {
        assert_each(&format!("{what}, searches"), &self.searches, answers, least);
    }

    /// The same of choices.
    pub fn assert_choices(&self, what: &str, answers: &[usize], least: usize) {
        assert_each(&format!("{what}, choices"), &self.choices, answers, least);
    }

    /// Bytes that no call may change.
    fn bytes(&mut self, bytes: &[u8]) -> Lent<u8> {
        Lent::new(bytes, bytes, self.random.u8())
    }
}

/// The C function's answer.
fn raw_choose(
    signature: u32,
    board: &mut Lent<u8>,
    built_in: &mut Lent<u8>,
    length: &mut Lent<usize>,
) -> u32 {
    let (board, board_len) = board.slice();
    let (built_in, built_in_len) = built_in.slice();
    let length = length.pointer();
    // SAFETY: each pointer and length are those of one slice, and what is written is lent for that
    // alone.
    unsafe { raw::hs_sfi_choose(signature, board, board_len, built_in, built_in_len, length) }
}

/// What the C function is to answer.
fn choice_number(choice: Result<(Source, usize), Refusal>) -> u32 {
    match choice {
        Ok((Source::Board, _)) => 101,
        Ok((Source::BuiltIn, _)) => 102,
        Err(refusal) => refusal,
    }
}

/// The wrapper's choice as the reference has it.
fn choice(Choice { source, length }: Choice) -> (Source, usize) {
    match source {
        hoursquall::sfi::Source::Board => (Source::Board, length),
        hoursquall::sfi::Source::BuiltIn => (Source::BuiltIn, length),
    }
}

/// Compares the chosen parts, and not only their bytes: both are of the same lent slice.
fn compare_chosen(signature: u32, board: &[u8], built_in: &[u8], call: Arguments) {
    let expected = sfi::chosen(signature.to_le_bytes(), board, built_in);
    let chosen = hoursquall::sfi::chosen(signature, board, built_in);
    assert_eq!(chosen, expected, "{call}");
    let same = chosen.is_empty() || chosen.as_ptr() == expected.as_ptr();
    assert!(same, "the part after {call}");
}
