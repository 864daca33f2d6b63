//! The notice ring against the reference, in lists of posts and takes, and against a queue.

use differential::notice::Machine;
use differential::random::Random;
use differential::{cases, report};
use hoursquall::{NOTICE_HEADER_SIZE, NOTICE_MAX, RING_MAX};
use reference::notice::{waiting, Notice, Positions, Queue};

/// Split of a notice that doesn't run past the ring's last byte.
const WHOLE: usize = 0;
/// Split of a notice with data on both sides; smaller ones stand around its header's bytes.
const IN_DATA: usize = 9;

/// How often each answer was seen, so that a test that misses one fails.
struct Seen {
    refusals: [usize; 26],
    /// By how many bytes stood before the ring's first byte, up to `IN_DATA`.
    posts: [usize; IN_DATA + 1],
    takes: [usize; IN_DATA + 1],
}

impl Seen {
    fn new() -> Seen {
        Seen {
            refusals: [0; 26],
            posts: [0; IN_DATA + 1],
            takes: [0; IN_DATA + 1],
        }
    }

    /// Each of these refusals, and each split of a post and of a take, was seen often enough.
    fn assert_all(&self, what: &str, refusals: &[usize], least: usize) {
        for &refusal in refusals {
            let seen = self.refusals[refusal];
            assert!(seen >= least, "{what}: refusal {refusal}: {seen}");
            report(&format!("{what}, refusal {refusal}"), seen);
        }
        for (split, (&posts, &takes)) in self.posts.iter().zip(&self.takes).enumerate() {
            assert!(posts >= least, "{what}: posts with split {split}: {posts}");
            assert!(takes >= least, "{what}: takes with split {split}: {takes}");
        }
        report(&format!("{what}, posts"), self.posts.iter().sum());
        report(&format!("{what}, takes"), self.takes.iter().sum());
    }
}

/// How many bytes of a notice stand before the ring's first byte.
fn split(capacity: usize, at: usize, data: usize) -> usize {
    let before = capacity - at;
    if before >= NOTICE_HEADER_SIZE + data {
        return WHOLE;
    }
    before.min(IN_DATA)
}

/// A machine, and what was seen of it.
struct Ring<'a> {
    machine: Machine,
    seen: &'a mut Seen,
}

impl<'a> Ring<'a> {
    fn new(
        random: &mut Random,
        capacity: usize,
        positions: Positions,
        seen: &'a mut Seen,
    ) -> Ring<'a> {
        let ring = random.bytes(capacity);
        let machine = Machine::new(random, &ring, positions);
        Ring { machine, seen }
    }

    fn post(&mut self, id: u32, data: &[u8]) -> Result<(), u32> {
        let at = self.machine.positions().write;
        let answer = self.machine.post(id, data);
        match answer {
            Ok(()) => self.seen.posts[split(self.machine.capacity(), at, data.len())] += 1,
            Err(refusal) => self.seen.refusals[refusal as usize] += 1,
        }
        answer
    }

    fn take(&mut self, out: &[u8]) -> Result<Notice, u32> {
        let at = self.machine.positions().read;
        let answer = self.machine.take(out);
        match &answer {
            Ok(notice) => {
                let split = split(self.machine.capacity(), at, notice.data.len());
                self.seen.takes[split] += 1;
            }
            Err(refusal) => self.seen.refusals[*refusal as usize] += 1,
        }
        answer
    }
}

/// A legal capacity, mostly a small one.
fn capacity(random: &mut Random) -> usize {
    match random.within(0..=999) {
        0 => RING_MAX,
        1..=9 => random.pick(&[1024, 1032, 1040, 1048, 2080]),
        10..=99 => 8 * random.within(2..=64),
        _ => 8 * random.within(2..=8),
    }
}

/// How long the data of a post is, if this much room is left: often such that it just fits, or
/// just doesn't.
fn data_length(random: &mut Random, room: usize) -> usize {
    let fits = room.saturating_sub(NOTICE_HEADER_SIZE);
    match random.within(0..=15) {
        0 => NOTICE_MAX,
        1 => random.pick(&[NOTICE_MAX + 1, NOTICE_MAX + 1, 1300]),
        2..=3 => fits,
        4 => fits + 1,
        5..=6 => random.pick(&[0, 1]),
        7..=10 => random.within(0..=fits.min(NOTICE_MAX)),
        _ => random.within(0..=fits.min(12)),
    }
}

/// How long the output of a take is, if the notice has this much data.
fn out_length(random: &mut Random, data: usize) -> usize {
    match random.within(0..=7) {
        0 => data.saturating_sub(1),
        1 => random.within(0..=data),
        2..=4 => data,
        5 => data + 1,
        6 => data + random.within(0..=40),
        _ => random.pick(&[data, data, NOTICE_MAX, NOTICE_MAX + 1]),
    }
}

/// Whether the next operation of a list is a post; lists differ in how many are.
fn posts(random: &mut Random, quarters: usize) -> bool {
    random.within(0..=3) < quarters
}

/// One list on a ring that is empty at first, anywhere, and what a queue answers to it.
fn check_list(random: &mut Random, seen: &mut Seen) -> usize {
    let capacity = capacity(random);
    let start = random.pick_or_within(&[0, capacity - 1], 0..=capacity - 1);
    let empty = Positions {
        read: start,
        write: start,
    };
    let mut ring = Ring::new(random, capacity, empty, seen);
    let mut queue = Queue::new(capacity);
    let quarters = random.within(1..=3);
    let operations = random.within(1..=24);
    for _ in 0..operations {
        if posts(random, quarters) {
            let length = data_length(random, queue.room());
            let (id, data) = (random.word(), random.bytes(length));
            assert_eq!(ring.post(id, &data), queue.post(id, &data));
        } else {
            let first = queue.first().map_or(0, |notice| notice.data.len());
            let length = out_length(random, first);
            let out = random.bytes(length);
            assert_eq!(ring.take(&out), queue.take(length));
        }
        let Positions { read, write } = ring.machine.positions();
        assert!(read < capacity && write < capacity);
    }
    operations
}

#[test]
fn lists_from_an_empty_ring() {
    let mut random = Random::new(80);
    let mut seen = Seen::new();
    let count = cases(100_000);
    let operations: usize = (0..count).map(|_| check_list(&mut random, &mut seen)).sum();
    seen.assert_all("notices, from empty", &[21, 23, 24, 25], 1000);
    assert_eq!(seen.refusals[20] + seen.refusals[22], 0);
    report("notices, from empty, lists", count);
    report("notices, from empty, operations", operations);
}

/// Any capacity, often one at a limit of the legal ones. Long rings are rare: they take long.
fn any_capacity(random: &mut Random) -> usize {
    match random.within(0..=499) {
        0 => random.pick(&[RING_MAX - 8, RING_MAX, RING_MAX + 1, RING_MAX + 8, 131_072]),
        1..=20 => random.pick(&[0, 1, 7, 8, 9, 12, 15]),
        21..=40 => random.pick(&[17, 18, 20, 22, 23, 25, 28, 31, 33, 1044]),
        41..=80 => random.pick(&[1032, 1040, 1048, 2080]),
        _ => 8 * random.within(2..=8),
    }
}

/// Any position, mostly below the capacity, often at its limits or where fewer bits would be.
fn any_position(random: &mut Random, capacity: usize) -> usize {
    let below = random.within(0..=capacity.max(1) - 1);
    match random.within(0..=15) {
        0 => random.pick(&[
            capacity,
            capacity + 1,
            capacity + 8,
            (1 << 16) + below,
            (1 << 32) + below,
            (1 << 63) + below,
            usize::MAX,
        ]),
        1 => capacity.max(1) - 1,
        2 => 0,
        _ => below,
    }
}

/// Any positions, often close to each other.
fn any_positions(random: &mut Random, capacity: usize) -> Positions {
    let read = any_position(random, capacity);
    let near = read.wrapping_add(random.within(0..=24)) % capacity.max(1);
    let any = any_position(random, capacity);
    let write = random.pick(&[near, any, any]);
    Positions { read, write }
}

/// Bytes that wait, if the ring is a legal one, and else any number.
fn bytes_waiting(machine: &mut Machine) -> usize {
    let (capacity, positions) = (machine.capacity(), machine.positions());
    if positions.read < capacity && positions.write < capacity {
        return waiting(capacity, &positions);
    }
    capacity / 2
}

/// Data Lengths at the limits of what waits and of a notice, and where fewer bits would be legal.
fn any_data_length(random: &mut Random, waiting: usize) -> u32 {
    let most = waiting.saturating_sub(NOTICE_HEADER_SIZE) as u32;
    let any = random.u32();
    let below = random.within(0..=most as usize) as u32;
    random.pick(&[
        most,
        most,
        most + 1,
        below,
        below,
        below,
        waiting as u32,
        NOTICE_MAX as u32,
        NOTICE_MAX as u32 + 1,
        (1 << 8) + below,
        (1 << 16) + below,
        (1 << 31) + below,
        u32::MAX,
        u32::MAX - 7,
        any,
    ])
}

/// The data length that stands at the read position.
fn length_at_read(machine: &mut Machine) -> usize {
    let (capacity, read) = (machine.capacity(), machine.positions().read);
    let ring = machine.ring();
    let byte = |place: usize| ring[(read % capacity + 4 + place) % capacity];
    let length = u32::from_le_bytes([byte(0), byte(1), byte(2), byte(3)]);
    length.min(NOTICE_MAX as u32 + 10) as usize
}

/// Writes over a header or any byte, or moves the positions.
fn damage(random: &mut Random, machine: &mut Machine) {
    let (capacity, read) = (machine.capacity(), machine.positions().read);
    let waiting = bytes_waiting(machine);
    match random.within(0..=7) {
        0 => machine.set_positions(any_positions(random, capacity)),
        1 if capacity > 0 => machine.damage(random.within(0..=capacity - 1), &[random.u8()]),
        _ if capacity > 0 => {
            let length = any_data_length(random, waiting).to_le_bytes();
            machine.damage(read % capacity + 4, &length);
        }
        _ => (),
    }
}

/// One list on any ring, which is damaged between the operations.
fn check_damaged_list(random: &mut Random, seen: &mut Seen) -> usize {
    let capacity = any_capacity(random);
    let positions = any_positions(random, capacity);
    let mut ring = Ring::new(random, capacity, positions, seen);
    let quarters = random.within(1..=2);
    let operations = random.within(1..=16);
    for _ in 0..operations {
        if random.within(0..=3) > 0 {
            damage(random, &mut ring.machine);
        }
        if posts(random, quarters) {
            let room = capacity.saturating_sub(1 + bytes_waiting(&mut ring.machine));
            let length = data_length(random, room);
            let (id, data) = (random.word(), random.bytes(length));
            let _ = ring.post(id, &data);
        } else {
            let there = match capacity {
                0 => 0,
                _ => length_at_read(&mut ring.machine),
            };
            let length = out_length(random, there);
            let out = random.bytes(length);
            let _ = ring.take(&out);
        }
    }
    operations
}

#[test]
fn lists_on_damaged_rings() {
    let mut random = Random::new(81);
    let mut seen = Seen::new();
    let count = cases(100_000);
    let operations: usize = (0..count)
        .map(|_| check_damaged_list(&mut random, &mut seen))
        .sum();
    seen.assert_all("notices, damaged", &[20, 21, 22, 23, 24, 25], 1000);
    report("notices, damaged, lists", count);
    report("notices, damaged, operations", operations);
}

/// A post and a take of every length from every position, into outputs that are too short by one
/// and long enough: each split there is, in small rings.
#[test]
fn all_splits() {
    let mut random = Random::new(82);
    let mut seen = Seen::new();
    let mut compared = 0;
    for capacity in [16, 24, 32, 40] {
        for start in 0..capacity {
            for length in 0..=capacity - NOTICE_HEADER_SIZE {
                check_split(&mut random, &mut seen, [capacity, start, length]);
                compared += 1;
            }
        }
    }
    seen.assert_all("notices, all splits", &[21, 23, 25], 10);
    report("notices, all splits", compared);
}

/// The longest notices at every split, in the shortest rings that have room for them.
#[test]
fn all_splits_of_long_notices() {
    let mut random = Random::new(83);
    let mut seen = Seen::new();
    let mut compared = 0;
    for capacity in [1032, 1040] {
        for start in 0..capacity {
            for length in [NOTICE_MAX - 1, NOTICE_MAX, NOTICE_MAX + 1] {
                check_split(&mut random, &mut seen, [capacity, start, length]);
                compared += 1;
            }
        }
    }
    seen.assert_all("notices, long splits", &[21, 23, 24, 25], 2);
    report("notices, all splits of long notices", compared);
}

fn check_split(random: &mut Random, seen: &mut Seen, [capacity, start, length]: [usize; 3]) {
    let empty = Positions {
        read: start,
        write: start,
    };
    let mut ring = Ring::new(random, capacity, empty, seen);
    let (id, data) = (random.word(), random.bytes(length));
    let fits = length <= NOTICE_MAX && NOTICE_HEADER_SIZE + length < capacity;
    assert_eq!(ring.post(id, &data).is_ok(), fits);
    if fits && length > 0 {
        assert_eq!(ring.take(&vec![0xA5; length - 1]), Err(23));
    }
    let taken = ring.take(&vec![0xA5; length]).ok();
    let expected = fits.then_some((id, data));
    assert_eq!(taken.map(|notice| (notice.id, notice.data)), expected);
    assert_eq!(ring.take(&[]), Err(21));
}

/// Every capacity and both positions around each limit, with a post and a take that a legal ring
/// would accept, and with data that is too long besides.
#[test]
fn limits_of_the_ring() {
    let mut random = Random::new(84);
    let mut seen = Seen::new();
    let mut compared = 0;
    let capacities = (0..=34).chain([65_528, 65_535, 65_536, 65_537, 65_544]);
    for capacity in capacities {
        for read in limits_of_position(capacity) {
            for write in limits_of_position(capacity) {
                let positions = Positions { read, write };
                let mut ring = Ring::new(&mut random, capacity, positions, &mut seen);
                let _ = ring.post(7, &[1; NOTICE_MAX + 1]);
                let _ = ring.post(7, &[]);
                let _ = ring.take(&[0xA5; NOTICE_MAX]);
                compared += 3;
            }
        }
    }
    report("notices, limits of the ring", compared);
}

fn limits_of_position(capacity: usize) -> [usize; 7] {
    [
        0,
        capacity / 2,
        capacity.saturating_sub(1),
        capacity,
        capacity + 1,
        (1 << 32) + capacity / 2,
        usize::MAX,
    ]
}
