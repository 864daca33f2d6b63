//! The check of SFI tables, the place of an entry, the search for SYST and the choice between two
//! tables, against the reference.

use differential::cases;
use differential::faults::Faults;
use differential::random::Random;
use differential::sfi::Machine;
use differential::sfi_memory::{
    any_place, false_signatures, in_one_page, lay_syst, lay_syst_of, no_hit, PAGE, STEP,
};
use differential::sfi_tables::{
    any_table, extend, faulty, is_known, of_length, seal, spoilt, spoilt_of, table, unknown, Kind,
    CHECKSUM, KINDS, LENGTH, MMAP, ORDER, REVISION, SYST, WAKE,
};
use differential::tables::{put, put_word, word};
use hoursquall::sfi::{HEADER_SIZE, MEMORY_SIZE, TABLE_MAX};
use reference::sfi::Source;

const CHECK_ANSWERS: [usize; 6] = [0, 40, 41, 42, 43, 44];
const ENTRY_ANSWERS: [usize; 7] = [0, 40, 41, 42, 43, 44, 45];
const CHOICE_ANSWERS: [usize; 4] = [101, 102, 42, 48];

fn any_kind(random: &mut Random) -> &'static Kind {
    &KINDS[random.within(0..=KINDS.len() - 1)]
}

/// Every set of faults of a table of every kind, so that each shows alone, and the order of the
/// refusals.
#[test]
fn faults_of_tables() {
    let mut random = Random::new(110);
    let mut machine = Machine::new(&mut random);
    for case in 0..cases(96_000) {
        let faults = Faults::new(&ORDER, case % 32);
        let kind = &KINDS[case / 32 % KINDS.len()];
        let table = faulty(&mut random, kind, faults);
        let k = random.pick(&[0, 0, 1, 2, usize::MAX]);
        assert_refused(&mut machine, &table, k, faults);
    }
    machine.assert_checks("SFI, faults of tables", &CHECK_ANSWERS, 1000);
    machine.assert_entries("SFI, faults of tables", &ENTRY_ANSWERS, 1000);
}

/// The check and the entry `k` are refused with the first of the faults, if there is one; the entry
/// may also not be there.
fn assert_refused(machine: &mut Machine, table: &[u8], k: usize, faults: Faults) {
    let check = machine.check(table).err();
    assert_eq!(check, faults.first(), "{table:02x?}");
    let entry = machine.entry(table, k).err();
    let entry = entry.filter(|&refusal| refusal != 45);
    assert_eq!(entry, faults.first(), "{table:02x?}, entry {k}");
}

/// Each kind with no entry, with one, with many, and with as many as there can be; one more is too
/// many. Some of the entries, and places where there is none.
#[test]
fn each_kind_and_its_entries() {
    let mut random = Random::new(111);
    let mut machine = Machine::new(&mut random);
    for kind in &KINDS {
        for count in kind.counts() {
            let mut table = table(&mut random, kind, count);
            extend(&mut random, &mut table);
            let passing = machine.check(&table).expect("it passes");
            assert_eq!(passing.kind.signature, kind.signature);
            assert_eq!(passing.length, kind.length(count));
            for k in some_entries(kind, count) {
                let offset = (k < count).then(|| 24 + k * kind.entry_size);
                assert_eq!(machine.entry(&table, k), offset.ok_or(45));
            }
        }
        let most = (TABLE_MAX - HEADER_SIZE) / kind.entry_size;
        let table = table(&mut random, kind, most + 1);
        assert_eq!(machine.check(&table).err(), Some(40));
        assert_eq!(machine.entry(&table, 0), Err(40));
    }
    machine.assert_checks("SFI, each kind", &[0, 40], 10);
    machine.assert_entries("SFI, each kind", &[0, 45], 100);
}

/// The first and the last entries, and places behind them: also such that their offset is that of
/// an entry, if numbers wrap.
fn some_entries(kind: &Kind, count: usize) -> Vec<usize> {
    let last = count.saturating_sub(1);
    let high = usize::MAX / kind.entry_size;
    let mut entries = vec![0, 1, last.saturating_sub(1), last, count, count + 1];
    entries.extend([high - 1, high, high + 1, usize::MAX - 1, usize::MAX]);
    entries.extend((16..usize::BITS).map(|bit| last + (1 << bit)));
    entries
}

/// What a Length gets in a slice of some length, if all else is right.
fn refusal_of(kind: &Kind, length: usize, slice_length: usize) -> Option<u32> {
    if !(24..=slice_length.min(65_536)).contains(&length) {
        return Some(40);
    }
    (!kind.has_length(length)).then_some(43)
}

/// Each Length up to a few entries, in slices that end before it, with it and behind it.
#[test]
fn each_length() {
    let mut random = Random::new(112);
    let mut machine = Machine::new(&mut random);
    for kind in &KINDS {
        for length in 0..=HEADER_SIZE + 4 * kind.entry_size + 1 {
            let mut slice = of_length(&mut random, kind, length);
            slice.extend(random.bytes(3));
            for slice_length in [length.saturating_sub(1), length, slice.len()] {
                let refusal = refusal_of(kind, length, slice_length);
                let answer = machine.check(&slice[..slice_length]);
                assert_eq!(answer.err(), refusal, "{kind:?}, {length}");
            }
        }
    }
    machine.assert_checks("SFI, each Length", &[0, 40, 43], 70);
}

/// Lengths around each limit, in slices around each limit. Whatever Length says, as many bytes as
/// can be are summed right.
#[test]
fn limits_of_length() {
    let mut random = Random::new(113);
    let mut machine = Machine::new(&mut random);
    let small = [0, 1, 22, 23, 24, 25, 31, 32, 33, 40];
    let large = [65_512, 65_520, 65_524, 65_535, 65_536, 65_537, 65_544];
    let wide = [65_536 + 24, 1 << 24, (1 << 31) + 32, u32::MAX as usize];
    for kind in &KINDS {
        for length in small.into_iter().chain(large).chain(wide) {
            let close = length.clamp(HEADER_SIZE, TABLE_MAX + 24);
            for slice_length in [24, 32, close, close + 1, TABLE_MAX, TABLE_MAX + 24] {
                let mut slice = of_length(&mut random, kind, slice_length);
                put_word(&mut slice, LENGTH, length);
                seal(&mut slice);
                let refusal = refusal_of(kind, length, slice_length);
                assert_eq!(machine.check(&slice).err(), refusal, "{kind:?}, {length}");
            }
        }
    }
    machine.assert_checks("SFI, limits of Length", &[0, 40, 43], 100);
}

/// Every slice that is no longer than two headers: zeros, and headers with each of some Lengths.
#[test]
fn all_short_slices() {
    let mut random = Random::new(114);
    let mut machine = Machine::new(&mut random);
    for slice_length in 0..=2 * HEADER_SIZE {
        let zeros = vec![0; slice_length];
        assert_eq!(machine.check(&zeros).err(), Some(40));
        assert_eq!(machine.entry(&zeros, 0), Err(40));
        for kind in &KINDS {
            for length in [24, 28, 32, 48, slice_length, slice_length + 1] {
                let mut slice = of_length(&mut random, kind, length);
                slice.resize(slice.len().max(slice_length), 0xA5);
                slice.truncate(slice_length);
                let refusal = refusal_of(kind, length, slice_length);
                assert_eq!(machine.check(&slice).err(), refusal, "{kind:?}, {length}");
                let _ = machine.entry(&slice, 0);
            }
        }
    }
    machine.assert_checks("SFI, short slices", &[0, 40, 43], 100);
    machine.assert_entries("SFI, short slices", &[0, 40, 43, 45], 100);
}

/// Each Revision of each kind, alone and with each set of other faults: 44 is due below the listed
/// one.
#[test]
fn each_revision() {
    let mut random = Random::new(115);
    let mut machine = Machine::new(&mut random);
    for kind in &KINDS {
        for revision in 0..=255 {
            for set in 0..32 {
                let faults = Faults::new(&ORDER, set);
                if faults.has(44) != (revision < kind.revision) {
                    continue;
                }
                let mut table = spoilt_of(&mut random, kind, revision, faults);
                extend(&mut random, &mut table);
                assert_refused(&mut machine, &table, 0, faults);
            }
        }
    }
    machine.assert_checks("SFI, each Revision", &CHECK_ANSWERS, 40);
    machine.assert_entries("SFI, each Revision", &ENTRY_ANSWERS, 40);
}

/// Each Revision of SYST, before a hit.
#[test]
fn each_revision_of_syst() {
    let mut random = Random::new(136);
    let mut machine = Machine::new(&mut random);
    for revision in 0..=255 {
        let mut memory = no_hit(&mut random);
        lay_syst_of(&mut memory, 64, 24, revision);
        lay_syst(&mut memory, 128, 24);
        let lowest = if revision < SYST.revision { 128 } else { 64 };
        assert_eq!(machine.find_syst(&memory), Ok(lowest), "{revision}");
    }
    machine.assert_searches("SFI, each Revision of SYST", &[0], 256);
}

/// Each Revision of the board's table, and of the built-in one.
#[test]
fn each_revision_chosen() {
    let mut random = Random::new(137);
    let mut machine = Machine::new(&mut random);
    let none = Faults::new(&ORDER, 0);
    let board = |table: &Vec<u8>| Ok((Source::Board, table.len()));
    let built_in = |table: &Vec<u8>| Ok((Source::BuiltIn, table.len()));
    for kind in &KINDS {
        for revision in 0..=255 {
            let offer = spoilt_of(&mut random, kind, revision, none);
            let listed = spoilt_of(&mut random, kind, kind.revision, none);
            let mut choose = |board, built_in| machine.choose(kind.word(), board, built_in);
            let passes = revision >= kind.revision;
            let expected = if passes {
                board(&offer)
            } else {
                built_in(&listed)
            };
            assert_eq!(choose(&offer, &listed), expected, "{kind:?}, {revision}");
            let expected = if passes { built_in(&offer) } else { Err(48) };
            assert_eq!(choose(&[], &offer), expected, "{kind:?}, {revision}");
            assert_eq!(choose(&listed, &offer), board(&listed));
        }
    }
    machine.assert_choices("SFI, each Revision chosen", &[101, 102, 48], 12);
}

/// Each letter of each signature as any other byte, and signatures from further away.
#[test]
fn signatures() {
    let mut random = Random::new(116);
    let mut machine = Machine::new(&mut random);
    for kind in &KINDS {
        for case in 0..4 * 256 {
            let mut table = any_table(&mut random, kind);
            table[case % 4] = (case / 4) as u8;
            check_signature(&mut machine, kind, table);
        }
        for _ in 0..cases(1_000) {
            let mut table = any_table(&mut random, kind);
            put(&mut table, 0, &unknown(&mut random));
            check_signature(&mut machine, kind, table);
        }
    }
    machine.assert_checks("SFI, signatures", &[0, 42], 40);
}

/// A table of a kind passes with that kind's signature, and with no other that is not listed.
fn check_signature(machine: &mut Machine, kind: &Kind, mut table: Vec<u8>) {
    seal(&mut table);
    let signature = [table[0], table[1], table[2], table[3]];
    assert_eq!(is_known(signature), signature == kind.signature);
    let refusal = (!is_known(signature)).then_some(42);
    assert_eq!(machine.check(&table).err(), refusal, "{signature:02x?}");
}

/// A table under each signature: the entry size and the oldest revision are those of the signature.
#[test]
fn each_kind_as_another() {
    let mut random = Random::new(117);
    let mut machine = Machine::new(&mut random);
    for kind in &KINDS {
        for other in &KINDS {
            for count in kind.counts() {
                let mut table = table(&mut random, kind, count);
                put(&mut table, 0, &other.signature);
                table[REVISION] = kind.revision;
                seal(&mut table);
                let expected = match kind.revision < other.revision {
                    true => Some(44),
                    false if other.has_length(table.len()) => None,
                    false => Some(43),
                };
                assert_eq!(machine.check(&table).err(), expected, "{kind:?}, {other:?}");
            }
        }
    }
    machine.assert_checks("SFI, kinds as others", &[0, 43, 44], 50);
}

/// Each Checksum: just one passes. And each byte that no other check reads, changed in any way; a
/// change behind the table changes nothing.
#[test]
fn sums() {
    let mut random = Random::new(118);
    let mut machine = Machine::new(&mut random);
    for kind in &KINDS {
        let mut slice = table(&mut random, kind, 1);
        let length = slice.len();
        slice.extend(random.bytes(20));
        for change in 0..=255u8 {
            for at in CHECKSUM..slice.len() {
                let mut slice = slice.clone();
                slice[at] = slice[at].wrapping_add(change);
                let refusal = (change != 0 && at < length).then_some(41);
                assert_eq!(machine.check(&slice).err(), refusal, "{kind:?}, {at}");
            }
        }
    }
    machine.assert_checks("SFI, sums", &[0, 41], 10_000);
}

/// The last byte of long tables counts, the byte behind it doesn't.
#[test]
fn sums_of_long_tables() {
    let mut random = Random::new(119);
    let mut machine = Machine::new(&mut random);
    for kind in &KINDS {
        for count in kind.counts() {
            let mut slice = table(&mut random, kind, count);
            let length = slice.len();
            slice.extend(random.bytes(2));
            for (at, refusal) in [(length - 1, Some(41)), (length, None)] {
                let mut slice = slice.clone();
                slice[at] ^= 1 << random.within(0..=7);
                assert_eq!(machine.check(&slice).err(), refusal, "{kind:?}, {at}");
            }
        }
    }
    machine.assert_checks("SFI, sums of long tables", &[0, 41], 70);
}

/// Entries of 36 bytes pass; those of a padded record, 40 bytes, do only where the two agree.
#[test]
fn mmap_entries() {
    let mut random = Random::new(120);
    let mut machine = Machine::new(&mut random);
    for entries in 1..=cases(100).min(1_600) {
        let packed = table(&mut random, &MMAP, entries);
        assert_eq!(machine.check(&packed).err(), None);
        let last = 24 + 36 * (entries - 1);
        assert_eq!(machine.entry(&packed, entries - 1), Ok(last));
        assert_eq!(machine.entry(&packed, entries), Err(45));
        let padded = of_length(&mut random, &MMAP, 24 + 40 * entries);
        let refusal = (!entries.is_multiple_of(9)).then_some(43);
        assert_eq!(machine.check(&padded).err(), refusal, "{entries}");
        let _ = machine.entry(&padded, entries);
    }
    machine.assert_checks("SFI, MMAP", &[0, 43], 80);
    machine.assert_entries("SFI, MMAP", &[0, 43, 45], 10);
}

/// WAKE has exactly one entry.
#[test]
fn wake_entries() {
    let mut random = Random::new(121);
    let mut machine = Machine::new(&mut random);
    for length in HEADER_SIZE..=200 {
        let refusal = (length != 32).then_some(43);
        let mut slice = of_length(&mut random, &WAKE, length);
        extend(&mut random, &mut slice);
        assert_eq!(machine.check(&slice).err(), refusal, "{length}");
        assert_eq!(machine.entry(&slice, 0), refusal.map_or(Ok(24), Err));
        assert_eq!(machine.entry(&slice, 1), Err(refusal.unwrap_or(45)));
    }
    machine.assert_checks("SFI, WAKE", &[43], 100);
}

/// Fields that know nothing of each other, each often legal.
#[test]
fn loose_fields() {
    let mut random = Random::new(122);
    let mut machine = Machine::new(&mut random);
    for _ in 0..cases(60_000) {
        let slice = loose_slice(&mut random);
        let _ = machine.check(&slice);
        let k = random.pick_or_within(&[0, 1, usize::MAX], 0..=20);
        let _ = machine.entry(&slice, k);
        let (board, built_in) = (&slice, loose_slice(&mut random));
        let signature = any_kind(&mut random).word();
        let _ = machine.choose(signature, board, &built_in);
    }
    machine.assert_checks("SFI, loose fields", &CHECK_ANSWERS, 1000);
    machine.assert_entries("SFI, loose fields", &ENTRY_ANSWERS, 1000);
    machine.assert_choices("SFI, loose fields", &[101, 102, 48], 500);
}

fn loose_slice(random: &mut Random) -> Vec<u8> {
    let length = random.pick_or_within(&[24, 32, 60, 96], 0..=120);
    let mut slice = random.bytes(length);
    if length >= HEADER_SIZE {
        loosen(random, &mut slice);
    }
    slice
}

/// Sets each field of a header to one that may be right for some kind and some slice.
fn loosen(random: &mut Random, slice: &mut [u8]) {
    let kind = any_kind(random);
    let signature = match random.within(0..=9) {
        0 => unknown(random),
        _ => kind.signature,
    };
    put(slice, 0, &signature);
    let any = random.within(0..=slice.len() + 1);
    let fit = kind.length(kind.any_count(random));
    let word = random.u32() as usize;
    let length = random.pick(&[fit, fit, fit, slice.len(), any, 24, 32, word]);
    put_word(slice, LENGTH, length);
    slice[REVISION] = random.pick(&[0, 0, 0, 1, 1, 2, kind.revision, 255]);
    if random.within(0..=3) > 0 {
        seal(slice);
    }
}

/// Bytes that know nothing of anything.
#[test]
fn garbage() {
    let mut random = Random::new(123);
    let mut machine = Machine::new(&mut random);
    for _ in 0..cases(30_000) {
        let length = random.within(0..=120);
        let mut slice = random.bytes(length);
        if length >= HEADER_SIZE && random.bool() {
            put_word(&mut slice, LENGTH, random.within(0..=length));
        }
        let _ = machine.check(&slice);
        let _ = machine.entry(&slice, random.within(0..=20));
        let _ = machine.choose(random.u32(), &slice, &slice);
    }
    machine.assert_checks("SFI, garbage", &[40, 42], 1000);
    machine.assert_entries("SFI, garbage", &[40, 42], 1000);
    machine.assert_choices("SFI, garbage", &[42], 1000);
}

/// A table that the choice of a kind is lent, and its Length if it is to pass with that signature.
fn any_offer(random: &mut Random, kind: &Kind) -> (Vec<u8>, Option<usize>) {
    let other = any_kind(random);
    match random.within(0..=7) {
        0 => (Vec::new(), None),
        1 if other != kind => (any_table(random, other), None),
        1..=3 => {
            let faults = Faults::new(&ORDER, random.within(1..=31));
            (faulty(random, kind, faults), None)
        }
        _ => {
            let table = any_table(random, kind);
            let length = word(&table, LENGTH);
            (table, Some(length))
        }
    }
}

/// Two tables, each of the kind asked for, of another, failing or empty.
#[test]
fn choices() {
    let mut random = Random::new(124);
    let mut machine = Machine::new(&mut random);
    for _ in 0..cases(60_000) {
        let kind = any_kind(&mut random);
        let (board, board_length) = any_offer(&mut random, kind);
        let (built_in, built_in_length) = any_offer(&mut random, kind);
        let expected = match (board_length, built_in_length) {
            (Some(length), _) => Ok((Source::Board, length)),
            (None, Some(length)) => Ok((Source::BuiltIn, length)),
            (None, None) => Err(48),
        };
        let chosen = machine.choose(kind.word(), &board, &built_in);
        assert_eq!(chosen, expected, "{kind:?}");
        let unknown = u32::from_le_bytes(unknown(&mut random));
        let refused = machine.choose(unknown, &board, &built_in);
        assert_eq!(refused, Err(42), "{unknown:#x}");
    }
    machine.assert_choices("SFI, two tables", &CHOICE_ANSWERS, 5000);
}

/// Every kind asked for where the two tables are of any two kinds.
#[test]
fn choices_among_kinds() {
    let mut random = Random::new(125);
    let mut machine = Machine::new(&mut random);
    for board_kind in &KINDS {
        for built_in_kind in &KINDS {
            let board = any_table(&mut random, board_kind);
            let built_in = any_table(&mut random, built_in_kind);
            for kind in &KINDS {
                let expected = if kind == board_kind {
                    Ok(Source::Board)
                } else if kind == built_in_kind {
                    Ok(Source::BuiltIn)
                } else {
                    Err(48)
                };
                let chosen = machine.choose(kind.word(), &board, &built_in);
                assert_eq!(chosen.map(|(source, _)| source), expected, "{kind:?}");
                let swapped = kind.word().swap_bytes();
                assert_eq!(machine.choose(swapped, &board, &built_in), Err(42));
            }
        }
    }
    machine.assert_choices("SFI, two kinds", &CHOICE_ANSWERS, 90);
}

/// Tables as long as may be, chosen, or passed over for their last byte.
#[test]
fn choices_of_long_tables() {
    let mut random = Random::new(126);
    let mut machine = Machine::new(&mut random);
    for kind in &KINDS {
        for count in kind.counts() {
            let [board, built_in] = [0; 2].map(|_| table(&mut random, kind, count));
            let length = board.len();
            let mut failing = board.clone();
            failing[length - 1] ^= 1;
            let mut choose = |board, built_in| machine.choose(kind.word(), board, built_in);
            assert_eq!(choose(&board, &built_in), Ok((Source::Board, length)));
            assert_eq!(choose(&failing, &built_in), Ok((Source::BuiltIn, length)));
            assert_eq!(choose(&failing, &failing), Err(48));
        }
    }
    machine.assert_choices("SFI, two long tables", &[101, 102, 48], 70);
}

/// Memory that is not 0xE0000 to 0xFFFFF, with a hit at its start.
#[test]
fn memory_of_another_length() {
    let mut random = Random::new(127);
    let mut machine = Machine::new(&mut random);
    let short = [0, 1, 15, 16, 23, 24, 32, 4096, 65_536];
    let close = [131_056, 131_071, 131_073, 131_088, 135_168, 262_144];
    for length in short.into_iter().chain(close) {
        for _ in 0..4 {
            let mut memory = no_hit(&mut random).repeat(2);
            lay_syst(&mut memory, 0, 24);
            assert_eq!(machine.find_syst(&memory[..length]), Err(46), "{length}");
        }
    }
    machine.assert_searches("SFI, memory of another length", &[46], 60);
}

/// Places in all pages: all those of the first and the last page, and the first and last ones of
/// the others.
fn places() -> impl Iterator<Item = usize> {
    (0..MEMORY_SIZE).step_by(STEP).filter(|offset| {
        let (page, place) = (offset / PAGE, offset % PAGE);
        let middle = (2 * STEP..PAGE - 3 * STEP).contains(&place);
        page == 0 || page == MEMORY_SIZE / PAGE - 1 || !middle
    })
}

/// A hit at each of those places. The last place of a page has no room for a header.
#[test]
fn a_hit_at_each_place() {
    let mut random = Random::new(128);
    let mut machine = Machine::new(&mut random);
    for offset in places() {
        let mut memory = no_hit(&mut random);
        lay_syst(&mut memory, offset, 24);
        let hit = in_one_page(offset, 24).then_some(offset);
        assert_eq!(machine.find_syst(&memory), hit.ok_or(47), "{offset}");
    }
    machine.assert_searches("SFI, a hit at each place", &[0, 47], 30);
}

/// Lengths that end before a page does, with it, and behind it.
#[test]
fn hits_at_the_end_of_a_page() {
    let mut random = Random::new(129);
    let mut machine = Machine::new(&mut random);
    for page in [0, 1, 15, 30, 31] {
        for offset in (PAGE * page + PAGE - 128..PAGE * (page + 1)).step_by(STEP) {
            for length in (24..=144).step_by(8) {
                let mut memory = random.bytes(MEMORY_SIZE);
                lay_syst(&mut memory, offset, length);
                let hit = in_one_page(offset, length).then_some(offset);
                assert_eq!(machine.find_syst(&memory), hit.ok_or(47), "{offset}");
            }
        }
    }
    machine.assert_searches("SFI, the end of a page", &[0, 47], 200);
}

/// Tables of a page, and longer ones, which pass but are no hits; a later one is.
#[test]
fn long_hits() {
    let mut random = Random::new(130);
    let mut machine = Machine::new(&mut random);
    for page in [0, 1, 14, 15] {
        for place in [0, 16, 32, 2048] {
            let offset = PAGE * page + place;
            let rest = PAGE - place;
            for length in [rest - 8, rest, rest + 8, 2 * PAGE, 65_528, 65_536] {
                let mut memory = random.bytes(MEMORY_SIZE);
                lay_syst(&mut memory, offset, length);
                assert_eq!(machine.check(&memory[offset..]).err(), None);
                let hit = (length <= rest).then_some(offset);
                assert_eq!(machine.find_syst(&memory), hit.ok_or(47), "{offset}");
                let last = MEMORY_SIZE - 2 * STEP;
                lay_syst(&mut memory, last, 32);
                assert_eq!(machine.find_syst(&memory), Ok(hit.unwrap_or(last)));
            }
        }
    }
    machine.assert_searches("SFI, long hits", &[0, 47], 30);
}

/// SYST between two places is none, and the next one is found.
#[test]
fn syst_between_two_places() {
    let mut random = Random::new(131);
    let mut machine = Machine::new(&mut random);
    for case in 0..cases(150) {
        let off = 1 + case % (STEP - 1);
        let offset = any_place(&mut random) / PAGE * PAGE + STEP * random.within(0..=200);
        let mut memory = random.bytes(MEMORY_SIZE);
        lay_syst(&mut memory, offset + off, 24);
        assert_eq!(machine.check(&memory[offset + off..]).err(), None);
        assert_eq!(machine.find_syst(&memory), Err(47), "{offset}, {off}");
        lay_syst(&mut memory, offset + 48, 24);
        assert_eq!(machine.find_syst(&memory), Ok(offset + 48), "{off}");
    }
    machine.assert_searches("SFI, between two places", &[0, 47], 150);
}

/// Of several hits the lowest is found, whatever memory they stand in.
#[test]
fn several_hits() {
    let mut random = Random::new(132);
    let mut machine = Machine::new(&mut random);
    for _ in 0..cases(400) {
        let mut memory = no_hit(&mut random);
        assert_eq!(machine.find_syst(&memory), Err(47));
        let mut lowest = MEMORY_SIZE;
        for _ in 0..random.within(1..=4) {
            let offset = any_place(&mut random);
            // Two places apart, so that none is written over.
            if offset.abs_diff(lowest) > STEP {
                lay_syst(&mut memory, offset, 24);
                lowest = lowest.min(offset);
            }
        }
        assert_eq!(machine.find_syst(&memory), Ok(lowest));
    }
    machine.assert_searches("SFI, several hits", &[0, 47], 400);
}

/// A header at every place that fails by one check alone, and a hit among them.
#[test]
fn false_signatures_everywhere() {
    let mut random = Random::new(133);
    let mut machine = Machine::new(&mut random);
    for case in 0..cases(200) {
        let fault = [40, 44, 43, 41][case % 4];
        let mut memory = false_signatures(&mut random, fault);
        let refusal = machine.check(&memory).err();
        assert_eq!(refusal, Some(fault));
        assert_eq!(machine.find_syst(&memory), Err(47), "{fault}");
        let offset = any_place(&mut random);
        lay_syst(&mut memory, offset, 24);
        assert_eq!(machine.find_syst(&memory), Ok(offset), "{fault}");
    }
    machine.assert_searches("SFI, false signatures", &[0, 47], 200);
}

/// A failing SYST, with any faults, or a passing table of another kind, before a hit.
#[test]
fn failing_candidates_before_a_hit() {
    let mut random = Random::new(134);
    let mut machine = Machine::new(&mut random);
    for case in 0..cases(400) {
        let faults = Faults::new(&ORDER, case % 32);
        let failing = match faults.first() {
            Some(_) => spoilt(&mut random, &SYST, faults),
            None => table(&mut random, &KINDS[1 + case / 32 % 9], 1),
        };
        let place = any_place(&mut random) / PAGE * PAGE;
        let mut memory = random.bytes(MEMORY_SIZE);
        put(&mut memory, place, &failing);
        assert_eq!(machine.check(&memory[place..]).err(), faults.first());
        assert_eq!(machine.find_syst(&memory), Err(47), "{faults:?}");
        let offset = place + failing.len().next_multiple_of(STEP);
        lay_syst(&mut memory, offset, 24);
        assert_eq!(machine.find_syst(&memory), Ok(offset), "{faults:?}");
    }
    machine.assert_searches("SFI, failing candidates", &[0, 47], 400);
}

/// Headers at many places, whose fields know nothing of each other.
#[test]
fn loose_candidates() {
    let mut random = Random::new(135);
    let mut machine = Machine::new(&mut random);
    for _ in 0..cases(300) {
        let mut memory = random.bytes(MEMORY_SIZE);
        for _ in 0..random.within(0..=60) {
            let at = STEP * random.within(0..=MEMORY_SIZE / STEP - 2);
            let candidate = &mut memory[at..];
            loosen(&mut random, candidate);
            if random.bool() {
                put(candidate, 0, &SYST.signature);
                put_word(candidate, LENGTH, random.pick(&[24, 32, 4096, 8 * 400]));
                seal(candidate);
            }
        }
        let _ = machine.find_syst(&memory);
    }
    machine.assert_searches("SFI, loose candidates", &[0, 47], 20);
}
