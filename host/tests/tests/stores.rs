//! Stores that no call has left: any bytes, and counts that say too much. They lie between guard pages, so that a step over an end stops the process, and so does
//! a write where a call only reads. The calls return, and answer by what the store shows.

use cases::{damaged, draw, Kind, Random, Sheet, Slip, FORBIDDEN, MANDATORY};
use tests::{bytes_of, hex, put_on, shelf_of, store_in, store_in_mut, with_close_limit, Guarded, Tally, REFUSED};
use ways::{numbers, Slot, Store, SLIP_BYTES, WORK_BYTES};

const JUNK: u8 = 0xa5;

/// Counts at every bound and one over, and such that three times as much, or the sum of two, runs over 32 bits.
const EXTREME: [u32; 18] = [0, 1, 2, 3, 8, 23, 24, 25, 63, 64, 65, 511, 512, 513, 0x5555_5556, 0x8000_0000, u32::MAX - 1, u32::MAX];

/// A store of any numbers.
fn any_numbers(random: &mut Random) -> Box<Store> {
    let mut store = Store::zeroed();
    let repeated = random.pick(&[None, None, Some(u32::MAX), Some(0x8000_0000), Some(1)]);
    let mut number = || repeated.unwrap_or(random.bits() as u32);
    let Store { count, nodes, arcs, source, target, legs, services, slots } = &mut *store;
    [count, nodes, arcs, source, target].into_iter().chain(legs).chain(services).for_each(|field| *field = number());
    for Slot { first, limit, goals, reasons, items } in slots {
        [first, limit, goals, reasons].into_iter().chain(items).for_each(|field| *field = number());
    }
    store
}

/// Gives the store the map of the sheet, its service minutes, start and finish too. Where that has all the legs that there can be, a greater count shows the same.
fn fix_map(store: &mut Store, sheet: &Sheet, random: &mut Random) {
    (store.nodes, store.source, store.target) = (sheet.nodes, sheet.source, sheet.target);
    store.legs[..3 * sheet.arcs.len()].copy_from_slice(sheet.in_old_form().arcs.as_flattened());
    store.services[..sheet.nodes as usize].copy_from_slice(&sheet.service_list());
    store.arcs = sheet.arcs.len() as u32;
    if store.arcs == 512 {
        store.arcs = random.pick(&[512, 513, 0x5555_5556, u32::MAX]);
    }
}

/// A store for the sheet's map with any number of slips, the lists of which may be of any length, in any order and with items twice. In some stores most goals
/// are mandatory and most reasons forbidden, so that slips apply.
fn any_slips(sheet: &Sheet, random: &mut Random) -> Box<Store> {
    let mut store = Store::zeroed();
    store.count = random.pick(&EXTREME);
    fix_map(&mut store, sheet, random);
    let fitting = random.pick(&[0, 50, 98]);
    store.slots.iter_mut().for_each(|slot| *slot = any_slip(sheet, fitting, random));
    store
}

/// Of a hundred items so many have the mark that they should have.
fn any_slip(sheet: &Sheet, fitting: usize, random: &mut Random) -> Slot {
    let count = |random: &mut Random| if random.chance(1, 6) { random.pick(&EXTREME) } else { random.between(1, 4) as u32 };
    let (goals, reasons) = (if random.chance(1, 2) { 0 } else { count(random) }, count(random));
    let marked = |mark: u32| (0..sheet.marks.len()).filter(|&item| sheet.marks[item] == mark).map(|item| item as u32).collect::<Vec<u32>>();
    let (mandatory, forbidden) = (marked(MANDATORY), marked(FORBIDDEN));
    let items = std::array::from_fn(|at| {
        let list = if at < goals as usize { &mandatory } else { &forbidden };
        let any = random.below(sheet.marks.len() + 2) as u32;
        if !list.is_empty() && random.chance(fitting, 100) {
            random.pick(list)
        } else {
            any
        }
    });
    let limit = random.pick(&[sheet.limit, sheet.limit, sheet.limit + 1, sheet.limit.saturating_sub(1), 0, u32::MAX]);
    Slot { first: random.pick(&[0, 1, 2, 3, 4, 5, u32::MAX]), limit, goals, reasons, items }
}

/// One number of the store exchanged for another.
fn spoil(store: &mut Store, random: &mut Random) {
    let odd = random.pick(&EXTREME);
    let slot = random.below(store.slots.len());
    match random.below(8) {
        0 => store.count = odd,
        1 => store.arcs = odd,
        2 => store.legs[random.below(1_536)] ^= 1,
        3 => store.slots[slot].goals = odd,
        4 => store.slots[slot].reasons = odd,
        5 => store.services[random.below(64)] ^= 1,
        6 => store.nodes = odd,
        _ => store.target = odd,
    }
}

/// Asks, with all that is only read in pages that cannot be written.
fn try_ask(store: &Store, sheet: &[u8], at_end: bool, tally: &mut Tally) {
    let lent_store = Guarded::new(bytes_of(store), at_end).read_only();
    let lent_sheet = Guarded::new(sheet, at_end).read_only();
    let mut lent_slip = Guarded::new(&[JUNK; SLIP_BYTES], at_end);
    let mut slip = [JUNK; SLIP_BYTES];
    let expected = shelf_of(store).ask(sheet, &mut slip);
    let number = numbers::store_ask(store_in(lent_store.bytes()), lent_sheet.bytes(), lent_slip.bytes_mut());
    assert_eq!(number, expected, "{}\n{store:?}", hex(sheet));
    assert!(lent_slip.bytes() == slip, "{}\n{store:?}", hex(sheet));
    tally.note_ask(number);
}

fn try_put(store: &Store, sheet: &[u8], slip: &[u8], at_end: bool, tally: &mut Tally) {
    let mut lent_store = Guarded::new(bytes_of(store), at_end);
    let (lent_sheet, lent_slip) = (Guarded::new(sheet, at_end).read_only(), Guarded::new(slip, at_end).read_only());
    let mut lent_work = Guarded::new(&vec![JUNK; WORK_BYTES], at_end);
    let (mut shelf, mut work) = (shelf_of(store), vec![JUNK; WORK_BYTES]);
    let count = shelf.slips.len();
    let (expected, is_changed) = put_on(&mut shelf, sheet, &mut work, slip);
    let number = numbers::store_put(store_in_mut(lent_store.bytes_mut()), lent_sheet.bytes(), lent_work.bytes_mut(), lent_slip.bytes());
    assert_eq!(number, expected, "{} {}\n{store:?}", hex(sheet), hex(slip));
    assert!(lent_work.bytes() == work, "{} {}", hex(sheet), hex(slip));
    assert!(is_changed || lent_store.bytes() == bytes_of(store), "{} {}\n{store:?}", hex(sheet), hex(slip));
    assert_eq!(shelf_of(store_in(lent_store.bytes())), shelf, "{} {}\n{store:?}", hex(sheet), hex(slip));
    tally.note_put(number, is_changed.then(|| count + 1 - shelf.slips.len()));
}

/// The slip that the pass writes for the sheet, where it refuses the route; otherwise one with all that is shut as its reasons.
fn slip_for(sheet: &Sheet) -> Slip {
    let mut slip = vec![0; SLIP_BYTES];
    let number = reference::pass(&sheet.bytes(), &mut vec![0; WORK_BYTES], &mut slip);
    let written = (number < REFUSED).then(|| Slip::written(&slip[..number as usize])).flatten();
    let reasons = (0..sheet.marks.len() as u32).filter(|&item| sheet.marks[item as usize] == FORBIDDEN).collect();
    written.unwrap_or(Slip { first: 1, goals: vec![], reasons })
}

fn try_stores(kinds: &[Kind], cases: usize, make: fn(&Sheet, &mut Random) -> Box<Store>) -> Tally {
    let (mut random, mut tally) = (Random::new(cases as u64), Tally::default());
    for case in 0..cases {
        let drawn = draw(random.pick(kinds), &mut random);
        let sheet = with_close_limit(drawn, &mut random);
        let store = make(&sheet, &mut random);
        let bytes = if random.chance(1, 6) { damaged(&sheet, &mut random) } else { sheet.bytes() };
        let mut slip = slip_for(&sheet).bytes();
        if random.chance(1, 6) {
            slip.truncate(random.below(slip.len()));
        }
        try_ask(&store, &bytes, case % 2 == 0, &mut tally);
        try_put(&store, &bytes, &slip, case % 2 == 0, &mut tally);
    }
    println!("{cases} stores: {tally:?}");
    tally
}

#[test]
fn any_bytes() {
    let tally = try_stores(&[Kind::Tiny, Kind::Small, Kind::Full], 4_000, |sheet, random| {
        let mut store = any_numbers(random);
        if random.chance(1, 2) {
            fix_map(&mut store, sheet, random);
        }
        store
    });
    assert!([&tally.asks[..], &tally.puts[..]].iter().all(|drawn| drawn[0] > 100 && drawn[22] > 500), "{tally:?}");
}

#[test]
fn any_slips_for_the_map() {
    let tally = try_stores(&[Kind::Tiny, Kind::Small, Kind::Closed, Kind::Driven], 6_000, any_slips);
    assert!(tally.found > 500 && tally.covered > 100 && tally.removed > 500 && tally.puts[23] > 100, "{tally:?}");
}

#[test]
fn any_slips_for_the_largest_map() {
    let tally = try_stores(&[Kind::Full], 600, any_slips);
    assert!(tally.found > 20 && tally.covered > 20 && tally.puts[23] > 20, "{tally:?}");
}

#[test]
fn a_number_exchanged() {
    let tally = try_stores(&[Kind::Tiny, Kind::Small, Kind::Driven], 4_000, |sheet, random| {
        let mut store = any_slips(sheet, random);
        store.count = random.pick(&[1, 2, 63, 64]);
        (0..random.between(1, 3)).for_each(|_| spoil(&mut store, random));
        store
    });
    assert!(tally.found > 100 && tally.asks[22] > 100 && tally.puts[22] > 100, "{tally:?}");
}

/// Whatever it held, all of it is zero, and nothing around it was touched.
#[test]
fn made_empty() {
    let mut random = Random::new(1);
    for at_end in [true, false] {
        let mut lent = Guarded::new(bytes_of(&any_numbers(&mut random)), at_end);
        numbers::store_empty(store_in_mut(lent.bytes_mut()));
        assert!(lent.bytes().iter().all(|&byte| byte == 0));
    }
}
