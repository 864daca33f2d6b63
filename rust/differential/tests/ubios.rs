//! The checks of UBIOS tables and roots, and the look-up by name, against the reference.

use differential::faults::Faults;
use differential::random::Random;
use differential::scene::{Extent, Scene};
use differential::tables::{
    self, name_field, put, put_word, seal, word, Lone, COUNT, ORDER, REMAINING, ROOT_NAME, TOTAL,
    VERSION,
};
use differential::ubios::{Machine, Seen};
use differential::{cases, report};
use hoursquall::{NAME_MAX, ROOT_HEADER_SIZE, SLOTS_MAX, TABLE_HEADER_SIZE, TABLE_MAX};
use reference::ubios::{Body, Root};

const TABLE_ANSWERS: [usize; 6] = [0, 30, 31, 32, 33, 34];
const ROOT_ANSWERS: [usize; 8] = [0, 30, 31, 32, 33, 34, 35, 36];
const FIND_ANSWERS: [usize; 11] = [0, 30, 31, 32, 33, 34, 35, 36, 37, 38, 39];

/// A passing table with a name and a body of any length.
fn any_table(random: &mut Random) -> Vec<u8> {
    let length = random.pick_or_within(&[0, 1, 15, 16], 0..=NAME_MAX);
    let name = tables::name(random, length);
    let length = random.pick_or_within(&[0, 1, 2, 3, 4, 8], 0..=60);
    let body = random.bytes(length);
    let remaining = random.pick_or_within(&[0, 1, 4], 0..=20);
    tables::table(random, &name, &body, remaining)
}

/// A passing root whose slots are gaps, or any addresses.
fn any_root(random: &mut Random) -> Vec<u8> {
    let count = match random.within(0..=99) {
        0 => random.pick(&[SLOTS_MAX - 1, SLOTS_MAX]),
        _ => random.within(0..=6),
    };
    let slots: Vec<u64> = (0..count)
        .map(|_| random.u64() >> random.pick(&[0, 32, 50, 56]))
        .collect();
    let tail = random.pick(&[0, 0, 1, 7, 8, 13]);
    let remaining = random.pick_or_within(&[0, 1, 8], 0..=20);
    tables::root(random, &slots, tail, remaining)
}

/// A name that a table may have.
fn any_name(random: &mut Random) -> Vec<u8> {
    if random.bool() {
        return ROOT_NAME.to_vec();
    }
    let length = random.within(1..=NAME_MAX);
    tables::name(random, length)
}

/// A name that no table may have.
fn bad_name(random: &mut Random) -> Vec<u8> {
    let mut name = any_name(random);
    match random.within(0..=3) {
        0 => name.clear(),
        1 => name.push(0),
        2 => {
            let at = random.within(0..=name.len() - 1);
            name[at] = 0;
        }
        _ => name.resize(random.pick(&[17, 17, 18, 32, 272]), b'x'),
    }
    name
}

/// Every set of faults of a table, so that each shows alone, and the order of the refusals.
#[test]
fn faults_of_tables() {
    let mut random = Random::new(90);
    let mut seen = Seen::new();
    for case in 0..cases(96_000) {
        let faults = Faults::new(&ORDER, case % 32);
        let table = any_table(&mut random);
        let lone = Lone::new(&mut random, &table, TABLE_HEADER_SIZE, faults);
        let mut machine = Machine::new(&mut random, &lone.bytes, lone.base, &mut seen);
        let answer = machine.check_table(lone.address);
        assert_eq!(answer.err(), faults.first(), "{faults:?}");
    }
    seen.assert_tables("UBIOS, faults of tables", &TABLE_ANSWERS, 1000);
}

/// Every set of faults of a root, and names besides that may be looked for or not.
#[test]
fn faults_of_roots() {
    let mut random = Random::new(91);
    let mut seen = Seen::new();
    for case in 0..cases(96_000) {
        let faults = Faults::new(&ORDER, case % 128);
        let root = any_root(&mut random);
        let lone = Lone::new(&mut random, &root, ROOT_HEADER_SIZE, faults);
        let mut machine = Machine::new(&mut random, &lone.bytes, lone.base, &mut seen);
        let answer = machine.check_root(lone.address);
        assert_eq!(answer.err(), faults.first(), "{faults:?}");
        let answer = machine.find(lone.address, b"no such table");
        assert_eq!(answer.err(), faults.first().or(Some(37)), "{faults:?}");
        let answer = machine.find(lone.address, &bad_name(&mut random));
        assert_eq!(answer, Err(39), "{faults:?}");
    }
    seen.assert_roots("UBIOS, faults of roots", &ROOT_ANSWERS, 700);
    let answers = [30, 31, 32, 33, 34, 35, 36, 37, 39];
    seen.assert_finds("UBIOS, faults of roots", &answers, 700);
}

/// How much a scene has, mostly little of it.
fn any_extent(random: &mut Random) -> Extent {
    let (tables, slots) = match random.within(0..=199) {
        0 => (random.within(0..=40), random.pick(&[127, SLOTS_MAX])),
        1..=9 => (0, random.within(0..=4)),
        10..=19 => (random.within(1..=4), 0),
        _ => (random.within(1..=5), random.within(1..=8)),
    };
    Extent {
        tables,
        slots,
        room: random.pick(&[0, 0, 1, 3]),
    }
}

/// Looks for some names of a scene, and checks its root and some tables.
fn check_scene(random: &mut Random, scene: &Scene, seen: &mut Seen) {
    let mut machine = Machine::new(random, &scene.bytes, scene.base, seen);
    let _ = machine.check_root(scene.root);
    for _ in 0..4 {
        let _ = machine.find(scene.root, &scene.sought(random));
    }
    for slot in scene.slots().into_iter().take(3) {
        let _ = machine.check_table(slot);
    }
    let _ = machine.check_root(scene.elsewhere(random));
}

/// Roots that pass, and slots that lead to passing and failing tables, some twice, to the root
/// itself, elsewhere and nowhere.
#[test]
fn look_ups() {
    let mut random = Random::new(92);
    let mut seen = Seen::new();
    for _ in 0..cases(40_000) {
        let extent = any_extent(&mut random);
        let scene = Scene::new(&mut random, extent);
        check_scene(&mut random, &scene, &mut seen);
    }
    seen.assert_finds("UBIOS, scenes", &[0, 37, 38, 39], 10_000);
    seen.assert_tables("UBIOS, scenes", &TABLE_ANSWERS, 1000);
}

/// Writes over bytes of a scene, or changes its addresses, once or several times.
fn damage(random: &mut Random, scene: &mut Scene) {
    for _ in 0..random.pick(&[1, 1, 2, 3]) {
        match random.within(0..=9) {
            0 => scene.root = scene.elsewhere(random),
            1 => {
                let by = random.pick(&[1, 4, 8, 16, 1 << 32]);
                scene.base = scene.base.wrapping_add(by);
            }
            2 => scene.base = (random.within(0..=400) as u64).wrapping_neg(),
            3 => {
                let length = random.within(0..=scene.bytes.len());
                scene.bytes.truncate(length);
            }
            4 => damage_byte(random, scene),
            _ => damage_number(random, scene),
        }
    }
}

fn damage_byte(random: &mut Random, scene: &mut Scene) {
    if scene.bytes.is_empty() {
        return;
    }
    let at = random.within(0..=scene.bytes.len() - 1);
    scene.bytes[at] ^= 1 << random.within(0..=7);
}

/// Writes over a number of the root or of a table; mostly the sum is right afterwards.
fn damage_number(random: &mut Random, scene: &mut Scene) {
    let address = random.pick(&[&[scene.root; 4], &scene.tables[..]].concat());
    let offset = address.wrapping_sub(scene.base) as usize;
    let table = scene.bytes.get_mut(offset..).unwrap_or(&mut []);
    if table.len() < ROOT_HEADER_SIZE {
        return;
    }
    let total = word(table, TOTAL);
    let rest = total.wrapping_sub(TABLE_HEADER_SIZE);
    let limit = random.pick(&[0, 32, 40, total, rest, table.len(), TABLE_MAX]);
    let number = limit.wrapping_add(random.pick(&[0, 0, 1, usize::MAX]));
    match random.within(0..=5) {
        0 => put_word(table, TOTAL, number),
        1 => put_word(table, REMAINING, number),
        2 => table[VERSION] = random.pick(&[0, 1, 2]),
        3 => put(table, COUNT, &(number as u16).to_le_bytes()),
        4 => {
            let name = any_name(random);
            put(table, 0, &name_field(random, &name));
        }
        _ => table[COUNT] ^= 1 << random.within(0..=7),
    }
    if random.within(0..=3) > 0 {
        seal(table);
    }
}

#[test]
fn damaged_scenes() {
    let mut random = Random::new(93);
    let mut seen = Seen::new();
    for _ in 0..cases(40_000) {
        let extent = any_extent(&mut random);
        let mut scene = Scene::new(&mut random, extent);
        let slots = scene.slots();
        damage(&mut random, &mut scene);
        let mut machine = Machine::new(&mut random, &scene.bytes, scene.base, &mut seen);
        let _ = machine.check_root(scene.root);
        let _ = machine.check_table(scene.root);
        for _ in 0..3 {
            let _ = machine.find(scene.root, &scene.sought(&mut random));
        }
        for slot in slots.into_iter().take(2) {
            let _ = machine.check_table(slot);
        }
    }
    seen.assert_tables("UBIOS, damaged", &TABLE_ANSWERS, 1000);
    seen.assert_roots("UBIOS, damaged", &ROOT_ANSWERS, 500);
    seen.assert_finds("UBIOS, damaged", &FIND_ANSWERS, 1000);
}

/// A gap at any place among the slots changes nothing but the numbers of the slots behind it.
#[test]
fn a_gap_changes_only_the_slot() {
    let mut random = Random::new(94);
    let mut seen = Seen::new();
    for _ in 0..cases(5_000) {
        let extent = Extent {
            room: 1,
            ..any_extent(&mut random)
        };
        if extent.slots < SLOTS_MAX {
            let scene = Scene::new(&mut random, extent);
            check_gaps(&mut random, &scene, &mut seen);
        }
    }
    seen.assert_finds("UBIOS, gaps", &[0, 37, 38], 1000);
}

/// Not for the root's own name: a slot may lead to the root, which grows.
fn check_gaps(random: &mut Random, scene: &Scene, seen: &mut Seen) {
    let slots = scene.slots();
    let names = scene.names.iter().filter(|name| *name != ROOT_NAME);
    for name in names {
        let mut machine = Machine::new(random, &scene.bytes, scene.base, seen);
        let before = machine.find(scene.root, name);
        for place in 0..=slots.len() {
            let mut slots = slots.clone();
            slots.insert(place, 0);
            let mut scene = scene.clone();
            scene.set_slots(&slots);
            let mut machine = Machine::new(random, &scene.bytes, scene.base, seen);
            let after = machine.find(scene.root, name);
            assert_eq!(after, before.map(|body| with_gap(body, place)));
        }
    }
}

/// What was found, if a gap is put in at a place.
fn with_gap(body: Body, place: usize) -> Body {
    let behind = body.slot >= place;
    Body {
        slot: body.slot + usize::from(behind),
        ..body
    }
}

const BASE: u64 = 0x1000;

/// Any number of gaps before the one slot that leads to a table, and behind it.
#[test]
fn a_table_behind_gaps_is_found() {
    let mut random = Random::new(95);
    let mut seen = Seen::new();
    let table = tables::table(&mut random, b"sought", b"its body", 3);
    for slot in 0..SLOTS_MAX {
        for count in slot + 1..=SLOTS_MAX {
            let mut scene = Scene::laid(&mut random, BASE, count, &[&table]);
            let mut slots = vec![0; count];
            slots[slot] = scene.tables[0];
            scene.set_slots(&slots);
            let body = Body {
                slot,
                offset: ROOT_HEADER_SIZE + 8 * count + TABLE_HEADER_SIZE,
                length: 8,
            };
            let mut machine = Machine::new(&mut random, &scene.bytes, scene.base, &mut seen);
            assert_eq!(machine.find(scene.root, b"sought"), Ok(body));
        }
    }
    seen.assert_finds("UBIOS, behind gaps", &[0], 8000);
}

/// One table by the same address in two slots, and two tables of one name of which one fails.
#[test]
fn two_slots_of_one_name() {
    let mut random = Random::new(96);
    let mut seen = Seen::new();
    let passing = tables::table(&mut random, b"twin", b"first", 0);
    let mut failing = tables::table(&mut random, b"twin", b"second", 0);
    failing[VERSION] = 2;
    seal(&mut failing);
    let other = tables::table(&mut random, b"twin", b"third", 1);
    let mut scene = Scene::laid(&mut random, BASE, 4, &[&passing, &failing, &other]);
    let (root, passing) = (scene.root, scene.tables[0]);
    let (failing, other) = (scene.tables[1], scene.tables[2]);
    let mut find = |slots: &[u64], name: &[u8]| {
        scene.set_slots(slots);
        let mut machine = Machine::new(&mut random, &scene.bytes, scene.base, &mut seen);
        machine.find(root, name).map(|body| body.slot)
    };
    assert_eq!(find(&[passing, failing], b"twin"), Ok(0));
    assert_eq!(find(&[failing, 0, passing], b"twin"), Ok(2));
    assert_eq!(find(&[passing, other], b"twin"), Err(38));
    assert_eq!(find(&[passing, passing], b"twin"), Err(38));
    assert_eq!(find(&[passing, 0, 0, passing], b"twin"), Err(38));
    assert_eq!(find(&[failing, failing], b"twin"), Err(37));
    assert_eq!(find(&[passing, 0, root], ROOT_NAME), Ok(2));
    assert_eq!(find(&[root, root], ROOT_NAME), Err(38));
    assert_eq!(find(&[root], b"twin"), Err(37));
    seen.assert_finds("UBIOS, two slots of one name", &[0, 37, 38], 2);
}

/// A slot whose table has any of the faults 32, 33 and 34 counts as none.
#[test]
fn failing_tables_count_as_none() {
    let mut random = Random::new(105);
    let mut seen = Seen::new();
    for case in 0..cases(7_000) {
        let faults = Faults::new(&ORDER, 4 * (1 + case % 7));
        let table = tables::table(&mut random, b"name", b"its body", 1);
        let mut scene = Scene::laid(&mut random, BASE, 2, &[&table, &table]);
        let (passing, failing) = (scene.tables[0], scene.tables[1]);
        let failing_table = scene.at(failing);
        tables::spoil(&mut random, failing_table, TABLE_HEADER_SIZE, faults);
        for (slots, expected) in [
            ([failing, failing], Err(37)),
            ([failing, passing], Ok(1)),
            ([passing, failing], Ok(0)),
            ([passing, passing], Err(38)),
        ] {
            scene.set_slots(&slots);
            let mut machine = Machine::new(&mut random, &scene.bytes, BASE, &mut seen);
            let found = machine.find(BASE, b"name").map(|body| body.slot);
            assert_eq!(found, expected, "{faults:?}");
        }
    }
    seen.assert_finds("UBIOS, failing tables", &[0, 37, 38], 1000);
}

/// A table and a root may be at address 0, but a slot of 0 is a gap even so.
#[test]
fn address_zero() {
    let mut random = Random::new(97);
    let mut seen = Seen::new();
    let table = tables::table(&mut random, b"zero", b"its body", 0);
    let root = tables::root(&mut random, &[0, 104, 0], 0, 0);
    let bytes = [&table[..], &root, &table].concat();
    let mut machine = Machine::new(&mut random, &bytes, 0, &mut seen);
    assert_eq!(machine.check_table(0).map(|table| table.used), Ok(40));
    assert_eq!(machine.find(40, b"zero").map(|body| body.slot), Ok(1));
    let mut machine = Machine::new(&mut random, &bytes[40..], 0, &mut seen);
    let passing = Root {
        offset: 0,
        used: 64,
        count: 3,
    };
    assert_eq!(machine.check_root(0), Ok(passing));
    assert_eq!(machine.find(0, ROOT_NAME), Err(37));
    report("UBIOS, address zero", 4);
}

/// A region that ends before, with and past the end of the address space, and slots that lead into
/// it if addresses wrap.
#[test]
fn end_of_the_address_space() {
    let mut random = Random::new(98);
    let mut seen = Seen::new();
    let table = tables::table(&mut random, b"last", b"its body", 8);
    let length = Scene::laid(&mut random, 0, 6, &[&table]).bytes.len();
    for missing in [0, 8, 16, 24] {
        for behind in 0..=40 {
            let base = ((length + missing) as u64).wrapping_neg();
            let mut scene = Scene::laid(&mut random, base, 6, &[&table]);
            let last = scene.tables[0];
            let wrapping = [8, length as u64, u64::MAX - 7, base - 8];
            scene.set_slots(&[&wrapping[..], &[last, 0]].concat());
            scene.bytes.extend(random.bytes(behind));
            let refusal = (behind > missing).then_some(30);
            let mut machine = Machine::new(&mut random, &scene.bytes, base, &mut seen);
            assert_eq!(machine.check_root(base).err(), refusal);
            assert_eq!(machine.check_table(last).err(), refusal);
            assert_eq!(machine.check_table(last + 1), Err(31));
            let found = machine.find(base, b"last").map(|body| body.slot);
            assert_eq!(found, refusal.map_or(Ok(4), Err));
            for address in wrapping {
                assert_eq!(machine.check_table(address), Err(30));
                assert_eq!(machine.check_root(address), Err(30));
            }
        }
    }
    seen.assert_tables("UBIOS, end of addresses", &[0, 30, 31], 10);
    seen.assert_roots("UBIOS, end of addresses", &[0, 30], 10);
    seen.assert_finds("UBIOS, end of addresses", &[0, 30], 10);
}

/// Every region up to a few bytes more than the root's header, and every address in and around it.
#[test]
fn all_short_regions() {
    let mut random = Random::new(99);
    let mut seen = Seen::new();
    for length in 0..=48 {
        for total in [32, 39, 40, 48, length] {
            for lead in [0, 3, 8] {
                let mut bytes = random.bytes(lead);
                bytes.extend(root_of(&mut random, total));
                bytes.resize(length, 0xA5);
                check_short_region(&mut random, &bytes, lead, &mut seen);
            }
        }
    }
    seen.assert_tables("UBIOS, short regions", &[0, 30, 31, 32], 50);
    seen.assert_roots("UBIOS, short regions", &[0, 30, 31, 32], 50);
    seen.assert_finds("UBIOS, short regions", &[30, 31, 32, 37], 50);
}

/// A root without slots that has this Total Size, if there can be one.
fn root_of(random: &mut Random, total: usize) -> Vec<u8> {
    let body = vec![0; total.saturating_sub(TABLE_HEADER_SIZE)];
    let mut root = tables::table(random, ROOT_NAME, &body, 0);
    put_word(&mut root, TOTAL, total);
    seal(&mut root);
    root
}

fn check_short_region(random: &mut Random, bytes: &[u8], lead: usize, seen: &mut Seen) {
    let low = (lead.next_multiple_of(8) - lead) as u64;
    let high = (bytes.len() as u64).wrapping_neg();
    for base in [low, BASE + low, high, high.wrapping_add(1)] {
        let mut machine = Machine::new(random, bytes, base, seen);
        for place in 0..=bytes.len() as u64 + 20 {
            let address = base.wrapping_add(place).wrapping_sub(10);
            let _ = machine.check_table(address);
            let _ = machine.check_root(address);
            let _ = machine.find(address, ROOT_NAME);
        }
    }
}

/// Each Total Size around a limit, in regions around that size, with each Remaining Size around
/// its limits.
#[test]
fn limits_of_sizes() {
    let mut random = Random::new(100);
    let mut seen = Seen::new();
    let small = [0, 1, 31, 32, 33, 39, 40, 41, 47, 48, 80];
    let large = [65_535, 65_536, 65_537, 65_544, 1 << 31, u32::MAX as usize];
    for total in small.into_iter().chain(large) {
        let close = total.min(TABLE_MAX + 16);
        for length in [40, 80, close.saturating_sub(1), close, close + 1] {
            for remaining in limits_of_remaining(total) {
                let mut bytes = root_of(&mut random, length.max(TABLE_HEADER_SIZE));
                put_word(&mut bytes, TOTAL, total);
                put_word(&mut bytes, REMAINING, remaining);
                seal(&mut bytes);
                bytes.truncate(length);
                let mut machine = Machine::new(&mut random, &bytes, BASE, &mut seen);
                let _ = machine.check_table(BASE);
                let _ = machine.check_root(BASE);
            }
        }
    }
    seen.assert_tables("UBIOS, limits of sizes", &[0, 30, 32], 20);
    seen.assert_roots("UBIOS, limits of sizes", &[0, 30, 32], 20);
}

fn limits_of_remaining(total: usize) -> [usize; 12] {
    let [table, root] = [TABLE_HEADER_SIZE, ROOT_HEADER_SIZE].map(|size| total.wrapping_sub(size));
    [
        0,
        1,
        root.wrapping_sub(1),
        root,
        root.wrapping_add(1),
        table.wrapping_sub(1),
        table,
        table.wrapping_add(1),
        total,
        total.wrapping_add(1),
        1 << 31,
        u32::MAX as usize,
    ]
}

/// Tables that are as long as may be, or just too long.
#[test]
fn long_tables() {
    let mut random = Random::new(101);
    let mut seen = Seen::new();
    for total in TABLE_MAX - 5..=TABLE_MAX + 3 {
        for remaining in [0, 1, 2, 3, 4, 60_000, total - TABLE_HEADER_SIZE] {
            let body = random.bytes(total - TABLE_HEADER_SIZE - remaining);
            let table = tables::table(&mut random, b"long", &body, remaining);
            let mut scene = Scene::laid(&mut random, BASE, 1, &[&table]);
            let address = scene.tables[0];
            scene.set_slots(&[address]);
            let mut machine = Machine::new(&mut random, &scene.bytes, BASE, &mut seen);
            let found = machine.find(BASE, b"long").map(|body| body.length);
            let passes = total <= TABLE_MAX;
            assert_eq!(found, if passes { Ok(body.len()) } else { Err(37) });
            assert_eq!(machine.check_table(address).is_ok(), passes);
        }
    }
    seen.assert_finds("UBIOS, long tables", &[0, 37], 20);
    seen.assert_tables("UBIOS, long tables", &[0, 32], 20);
}

/// Each Count around its limits, in used parts that are just too short and long enough.
#[test]
fn limits_of_count() {
    let mut random = Random::new(102);
    let mut seen = Seen::new();
    for count in [0, 1, 2, 127, 128, 129, 130, 255, 256, 257, 512, 4096] {
        for used in 31 + 8 * count..=49 + 8 * count {
            let scene = scene_of_count(&mut random, count, used);
            let mut machine = Machine::new(&mut random, &scene.bytes, BASE, &mut seen);
            let _ = machine.check_root(BASE);
            let _ = machine.find(BASE, b"last");
        }
    }
    seen.assert_roots("UBIOS, limits of Count", &[0, 32, 36], 9);
    seen.assert_finds("UBIOS, limits of Count", &[0, 32, 36, 37], 9);
}

/// A root with that Count and a used part of that length. The last slot leads to a table.
fn scene_of_count(random: &mut Random, count: usize, used: usize) -> Scene {
    let table = tables::table(random, b"last", b"", 0);
    let mut scene = Scene::laid(random, BASE, count + 2, &[&table]);
    let last = scene.tables[0];
    let root = scene.at(BASE);
    put_word(root, REMAINING, word(root, TOTAL) - used);
    put(root, COUNT, &(count as u16).to_le_bytes());
    let slots = &mut root[ROOT_HEADER_SIZE..][..8 * count];
    slots.fill(0);
    if count > 0 {
        put(slots, 8 * (count - 1), &last.to_le_bytes());
    }
    seal(root);
    scene
}

/// Names of every length in the table, and sought names that begin alike, of every length that is
/// legal or just not.
#[test]
fn limits_of_names() {
    let mut random = Random::new(103);
    let mut seen = Seen::new();
    for length in 0..=NAME_MAX {
        for _ in 0..cases(20) {
            let name = tables::name(&mut random, length);
            let table = tables::table(&mut random, &name, b"its body", 0);
            let mut scene = Scene::laid(&mut random, BASE, 2, &[&table]);
            let address = scene.tables[0];
            scene.set_slots(&[0, address]);
            let mut machine = Machine::new(&mut random, &scene.bytes, BASE, &mut seen);
            check_names(&mut random, &mut machine, &name);
            // The whole field: the name, its zero and what stands behind.
            let field = &table[..NAME_MAX];
            let whole = machine.find(BASE, field).map(|body| body.slot);
            assert_eq!(whole, if length == NAME_MAX { Ok(1) } else { Err(39) });
        }
    }
    seen.assert_finds("UBIOS, limits of names", &[0, 37, 39], 300);
}

/// Looks for names that begin like this one, and for this one with a byte changed.
fn check_names(random: &mut Random, machine: &mut Machine, name: &[u8]) {
    let longer = [name, &tables::name(random, 2 * NAME_MAX)].concat();
    for length in 0..=NAME_MAX + 2 {
        let sought = &longer[..length];
        let expected = match length {
            0 | 17.. => Err(39),
            _ if length == name.len() => Ok(1),
            _ => Err(37),
        };
        assert_eq!(machine.find(BASE, sought).map(|body| body.slot), expected);
    }
    for at in 0..name.len() {
        let mut sought = name.to_vec();
        sought[at] = random.within(0..=255) as u8;
        let _ = machine.find(BASE, &sought);
        sought[at] = 0;
        assert_eq!(machine.find(BASE, &sought), Err(39));
    }
}

/// Bytes and numbers that know nothing of each other.
#[test]
fn garbage() {
    let mut random = Random::new(104);
    let mut seen = Seen::new();
    for _ in 0..cases(30_000) {
        let length = random.within(0..=120);
        let bytes = random.bytes(length);
        let base = random.u64() >> random.within(0..=63);
        let inside = base.wrapping_add(random.within(0..=length) as u64);
        let mut machine = Machine::new(&mut random, &bytes, base, &mut seen);
        for address in [inside, inside / 8 * 8, random.u64()] {
            let length = random.within(0..=20);
            let _ = machine.check_table(address);
            let _ = machine.check_root(address);
            let _ = machine.find(address, &random.bytes(length));
        }
    }
    seen.assert_tables("UBIOS, garbage", &[30, 31, 32], 1000);
    seen.assert_roots("UBIOS, garbage", &[30, 31, 32], 1000);
    seen.assert_finds("UBIOS, garbage", &[30, 31, 32, 39], 1000);
}
