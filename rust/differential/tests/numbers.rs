//! The specification's own numbers for frames, reassembly, notices, UBIOS and SFI tables and sums,
//! on the library and on the reference.

use differential::frames::{library_frames, reference_frames, Frames};
use differential::notice;
use differential::random::Random;
use differential::reassembly::Machine;
use differential::sfi;
use differential::ubios::{self, Seen};
use hoursquall::{Envelope, Verdict};
use reference::notice::Positions;
use reference::ubios::Root;

/// What is checked, of either implementation.
struct Implementation {
    name: &'static str,
    count: fn(usize, usize) -> Result<usize, u32>,
    frames: fn(&Envelope, &[u8], usize) -> Frames,
    sum8: fn(&[u8]) -> u8,
    sum32: fn(&[u8]) -> u32,
}

const BOTH: [Implementation; 2] = [
    Implementation {
        name: "library",
        count: hoursquall::count,
        frames: library_frames,
        sum8: hoursquall::sum8,
        sum32: hoursquall::sum32,
    },
    Implementation {
        name: "reference",
        count: reference::frame::count,
        frames: reference_frames,
        sum8: reference::sum::sum8,
        sum32: reference::sum::sum32,
    },
];

const ENVELOPE: Envelope = Envelope {
    sequence: 0,
    id: 0x0102_0304,
    sender: 10,
    receiver: 11,
    status: 0xFFFF_FFFF,
};

#[test]
fn five_bytes_in_pieces_of_two() {
    let first = [
        0x11, 0x00, 0x00, 0x00, 0x04, 0x03, 0x02, 0x01, 0x0A, 0x00, 0x00, 0x00, 0x0B, 0x00, 0x00,
        0x00, 0xFF, 0xFF, 0xFF, 0xFF, 0x05, 0x00, 0x00, 0x00, 0x01, 0x02,
    ];
    for Implementation { name, frames, .. } in BOTH {
        let frames = frames(&ENVELOPE, &[1, 2, 3, 4, 5], 2).expect(name);
        let lengths: Vec<usize> = frames.iter().map(Vec::len).collect();
        assert_eq!(lengths, [26, 26, 25], "{name}");
        assert_eq!(frames[0], first, "{name}");
    }
}

/// The machine compares the two implementations, so one verdict is that of both.
#[test]
fn second_frame_lost() {
    for Implementation { name, frames, .. } in BOTH {
        let frames = frames(&ENVELOPE, &[1, 2, 3, 4, 5], 2).expect(name);
        let mut machine = Machine::new(&mut Random::new(70), 11, [0; 8], &[0; 5]);
        assert_eq!(machine.step(&frames[0]), Verdict::More, "{name}");
        assert_eq!(machine.step(&frames[2]), Verdict::Refused(6), "{name}");
    }
}

#[test]
fn longest_message() {
    for implementation in BOTH {
        let name = implementation.name;
        assert_eq!((implementation.count)(4096, 232), Ok(18), "{name}");
        let frames = (implementation.frames)(&ENVELOPE, &[0xA5; 4096], 232).expect(name);
        assert_eq!(frames.len(), 18, "{name}");
        assert_eq!(frames[17].len(), 24 + 152, "{name}");
    }
}

#[test]
fn message_too_long() {
    for implementation in BOTH {
        let name = implementation.name;
        assert_eq!((implementation.count)(4097, 232), Err(10), "{name}");
        let frames = (implementation.frames)(&ENVELOPE, &[0xA5; 4097], 232);
        assert_eq!(frames, Err(10), "{name}");
    }
}

/// This machine, too, compares the two implementations.
#[test]
fn ring_of_sixteen() {
    let empty = Positions { read: 0, write: 0 };
    let mut machine = notice::Machine::new(&mut Random::new(71), &[0xA5; 16], empty);
    assert_eq!(machine.post(1, &[9; 8]), Err(25));
    assert_eq!(machine.post(1, &[9; 7]), Ok(()));
    assert_eq!(machine.positions(), Positions { read: 0, write: 15 });
    assert_eq!(machine.take(&[0; 7]).map(|notice| notice.id), Ok(1));
    assert_eq!(machine.post(0x0403_0201, &[5, 6]), Ok(()));
    assert_eq!(machine.ring()[15], 1);
    assert_eq!(machine.ring()[..9], [2, 3, 4, 2, 0, 0, 0, 5, 6]);
    assert_eq!(machine.positions(), Positions { read: 15, write: 9 });
}

/// Total Size 40, Version 1, all else 0: the checksum that makes it pass, and no other does.
#[test]
fn shortest_root() {
    let mut root = [0; 40];
    root[..10].copy_from_slice(b"root_table");
    root[16] = 40;
    root[20] = 1;
    for Implementation { name, sum32, .. } in BOTH {
        assert_eq!(sum32(&root).wrapping_neg(), 0x292E_B69A, "{name}");
    }
    let passing = Root {
        offset: 0,
        used: 40,
        count: 0,
    };
    assert_eq!(checked(root, 0x292E_B69A), Ok(passing));
    assert_eq!(checked(root, 0x292E_B699), Err(34));
    assert_eq!(checked(root, 0x292E_B69B), Err(34));
    assert_eq!(checked(root, 0), Err(34));
}

/// The root with that checksum, checked by a machine that compares the two implementations.
fn checked(mut root: [u8; 40], checksum: u32) -> Result<Root, u32> {
    root[28..32].copy_from_slice(&checksum.to_le_bytes());
    let mut seen = Seen::new();
    let mut machine = ubios::Machine::new(&mut Random::new(72), &root, 0x1000, &mut seen);
    machine.check_root(0x1000)
}

#[test]
fn short_last_word() {
    for Implementation { name, sum32, .. } in BOTH {
        assert_eq!(sum32(&[0x01, 0x00, 0x00, 0x00, 0xFF]), 0x100, "{name}");
    }
}

/// An SFI table of this Length with the checksum that it needs, all else 0.
fn sfi_table(signature: &[u8; 4], revision: u8, length: usize) -> Vec<u8> {
    let mut table = vec![0; length];
    table[..4].copy_from_slice(signature);
    table[4..8].copy_from_slice(&(length as u32).to_le_bytes());
    table[8] = revision;
    table[9] = reference::sum::sum8(&table).wrapping_neg();
    table
}

/// Length 28, Revision 1, the rest 0: the checksum that makes it pass, and no other does. This
/// machine, and those below, compare the two implementations.
#[test]
fn cpus_of_one_entry() {
    let mut table = sfi_table(b"CPUS", 1, 28);
    table[9] = 0;
    for Implementation { name, sum8, .. } in BOTH {
        assert_eq!(sum8(&table).wrapping_neg(), 0xA8, "{name}");
    }
    let mut machine = sfi::Machine::new(&mut Random::new(73));
    for checksum in 0..=255 {
        table[9] = checksum;
        let passing = machine.check(&table).map(|table| table.length);
        let expected = if checksum == 0xA8 { Ok(28) } else { Err(41) };
        assert_eq!(passing, expected, "{checksum:#x}");
    }
}

#[test]
fn syst_at_the_end_of_a_page() {
    let mut machine = sfi::Machine::new(&mut Random::new(74));
    for (length, found) in [(32, Ok(4064)), (40, Err(47))] {
        let mut memory = vec![0; 0xF_FFFF - 0xE_0000 + 1];
        memory[4064..4064 + length].copy_from_slice(&sfi_table(b"SYST", 1, length));
        assert_eq!(machine.find_syst(&memory), found, "{length}");
    }
}

/// The entry size of each kind, and the oldest revision that is read: two entries, but for WAKE, and
/// the second one's place.
#[test]
fn kinds_of_sfi_tables() {
    let mut machine = sfi::Machine::new(&mut Random::new(75));
    let first = [
        (b"SYST", 8),
        (b"CPUS", 4),
        (b"APIC", 8),
        (b"MMAP", 4 + 4 * 8),
    ];
    let rest = [(b"FREQ", 12), (b"MRTC", 12), (b"DEVS", 25), (b"GPIO", 34)];
    let ones = first.into_iter().chain(rest).map(|kind| (kind, 1));
    for ((signature, size), revision) in ones.chain([((b"MTMR", 16), 2)]) {
        let table = sfi_table(signature, revision, 24 + 2 * size);
        assert_eq!(machine.entry(&table, 0), Ok(24), "{signature:?}");
        assert_eq!(machine.entry(&table, 1), Ok(24 + size), "{signature:?}");
        assert_eq!(machine.entry(&table, 2), Err(45), "{signature:?}");
        let older = sfi_table(signature, revision - 1, 24 + 2 * size);
        assert_eq!(machine.entry(&older, 0), Err(44), "{signature:?}");
        for newer in [revision + 1, 255] {
            let table = sfi_table(signature, newer, 24 + 2 * size);
            assert_eq!(machine.entry(&table, 1), Ok(24 + size), "{signature:?}");
        }
    }
    assert_eq!(machine.entry(&sfi_table(b"WAKE", 2, 32), 0), Ok(24));
    assert_eq!(machine.entry(&sfi_table(b"WAKE", 2, 32), 1), Err(45));
    assert_eq!(machine.entry(&sfi_table(b"WAKE", 1, 32), 0), Err(44));
    assert_eq!(machine.entry(&sfi_table(b"WAKE", 3, 32), 0), Ok(24));
    assert_eq!(machine.entry(&sfi_table(b"WAKE", 2, 40), 0), Err(43));
}
