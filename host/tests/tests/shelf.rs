//! The shelf beside the reference's (requests 2.6 and 2.7): the examples, full shelves, and weeks of puts and asks on one store. After each call what the shelf
//! holds is compared slip by slip, and every byte of what was lent and around it.

use cases::{crowd, draw, sheet_b, shelf_examples, Example, Habit, Kind, Random, Sheet, Slip, Step, Turn, Week, FORBIDDEN, OPEN};
use tests::{bytes_of, with_close_limit, ShelfDesk, Tally, REFUSED};
use ways::{numbers, Refused, Store, SLIP_BYTES, STORE_SLIPS, WORK_BYTES};

#[test]
fn the_examples() {
    for seed in 0..20 {
        let mut desk = ShelfDesk::new(seed);
        for Example { steps, held } in shelf_examples() {
            desk.begin();
            steps.into_iter().for_each(|step| try_step(&mut desk, step));
            let held: Vec<(Vec<u8>, u64)> = held.into_iter().map(|(slip, limit)| (slip.to_vec(), limit.into())).collect();
            assert_eq!(desk.shelf().held(), held);
        }
    }
}

fn try_step(desk: &mut ShelfDesk, step: Step) {
    match step {
        Step::Put(sheet, slip, refusal) => assert_eq!(desk.put(&sheet, WORK_BYTES, slip), refusal, "{sheet:?} {slip:?}"),
        Step::Ask(sheet, found) => assert_eq!(desk.ask(&sheet, SLIP_BYTES), found.map(<[u8]>::to_vec), "{sheet:?}"),
    }
}

/// Work and slip around the lengths that are needed, on an empty shelf and on one with a slip, with good sheets and bad ones.
#[test]
fn lent_lengths() {
    let mut desk = ShelfDesk::new(1);
    let good = sheet_b().with_mark(1, FORBIDDEN).bytes();
    let sheets: [&[u8]; 4] = [&good[..20], &[], &[0x80, 0], &good];
    for sheet in sheets.into_iter().chain(sheets) {
        for work in [0, 1, 4, 16_384, 65_532, 65_535, 65_536, 65_537, 65_539, 65_540, 70_000] {
            for slip in [&[][..], &[1, 0], &[1, 0, 1, 9], &[1, 0, 0], &[4, 1, 2, 0], &[1, 0, 1, 1]] {
                assert_eq!(desk.put(sheet, work, slip) == 1, work < WORK_BYTES);
            }
        }
        for room in [0, 1, 3, 51, 1_199, 1_200, 1_201, 2_000] {
            assert_eq!(desk.ask(sheet, room) == Err(2), room < SLIP_BYTES);
        }
    }
    assert_eq!(desk.shelf().slips.len(), 1);
}

/// A full shelf takes no newcomer. One that is covered changes nothing there, as anywhere; one that covers some of its slips has room, and leaves room.
#[test]
fn full_shelves() {
    let maps = [(sheet_b(), 5), (draw(Kind::Full, &mut Random::new(1)), 24)];
    for (map, reasons) in maps {
        let (sheet, slips) = crowd(&map, reasons);
        let (mut desk, bytes) = (ShelfDesk::new(2), sheet.bytes());
        let mut put = |slip: &Slip| (desk.put(&bytes, WORK_BYTES, &slip.bytes()), desk.shelf().slips.len());
        for (i, slip) in slips.iter().enumerate() {
            assert_eq!(put(slip), if i < STORE_SLIPS { (0, i + 1) } else { (23, STORE_SLIPS) });
        }
        slips[..STORE_SLIPS].iter().for_each(|slip| assert_eq!(put(slip), (0, STORE_SLIPS)));
        let common = slips[0].reasons.iter().copied().filter(|item| slips[1].reasons.contains(item)).collect();
        let (refusal, left) = put(&Slip { reasons: common, ..slips[0].clone() });
        assert!(refusal == 0 && left < STORE_SLIPS);
        // refused before, and the smaller one does not cover it
        assert_eq!(put(&slips[69]), (0, left + 1));
        assert!(desk.tally.removed > 1);
    }
}

/// Zeroed memory, a store that was made empty, and one with a count of 0: the same calls give the same answers, and leave the same shelf.
#[test]
fn empty_stores() {
    let mut random = Random::new(3);
    let mut made = Store::zeroed();
    let any = |numbers: &mut [u32], random: &mut Random| numbers.iter_mut().for_each(|number| *number = random.bits() as u32);
    any(&mut made.legs, &mut random);
    any(&mut made.services, &mut random);
    made.slots.iter_mut().for_each(|slot| any(&mut slot.items, &mut random));
    made.count = u32::MAX;
    made.empty();
    assert_eq!(bytes_of(&made), vec![0; 13_588]);
    assert!(made == Store::zeroed());
    let mut counted = Store::zeroed();
    any(&mut counted.legs, &mut random);
    any(&mut counted.services, &mut random);
    let (mut work, mut slip) = (vec![0; WORK_BYTES], vec![0; SLIP_BYTES]);
    let closed = sheet_b().with_mark(1, FORBIDDEN);
    for mut store in [Store::zeroed(), made, counted] {
        assert_eq!(store.ask(&closed.bytes(), &mut slip), Ok(None));
        assert_eq!(store.put(&closed.bytes(), &mut work, &[1, 0, 0]), Err(Refused(20)));
        assert_eq!(store.put(&closed.bytes(), &mut work, &[1, 0, 1, 1]), Ok(()));
        assert_eq!(store.ask(&closed.bytes(), &mut slip), Ok(Some(4)));
        assert_eq!(slip[..4], [1, 0, 1, 1]);
        let shown = tests::shelf_of(&store);
        assert_eq!(shown.slips.len(), 1);
        store.empty();
        assert!(store == Store::zeroed());
    }
}

/// A map, with a limit near a length on it.
fn map(kind: Kind, random: &mut Random) -> Sheet {
    let drawn = draw(kind, random);
    with_close_limit(drawn.with_marks(0..drawn.marks.len(), OPEN), random)
}

/// Each week has a store of its own; a turn is a put or an ask. Gives what came up.
fn try_weeks(seed: u64, habit: Habit, kinds: &[Kind], weeks: usize, turns: [usize; 2]) -> Tally {
    let (mut desk, mut random) = (ShelfDesk::new(seed), Random::new(seed));
    let (mut work, mut slip) = (vec![0; WORK_BYTES], vec![0; SLIP_BYTES]);
    let mut pass = |sheet: &Sheet| {
        let number = numbers::pass(&sheet.bytes(), &mut work, &mut slip);
        (number < REFUSED).then(|| Slip::written(&slip[..number as usize])).flatten()
    };
    for _ in 0..weeks {
        let kind = random.pick(kinds);
        let week = Week::new(&map(kind, &mut random), habit, &mut random);
        desk.begin();
        for _ in 0..random.between(turns[0], turns[1]) {
            match week.turn(&mut pass, &mut random) {
                Turn::Put(sheet, slip) => {
                    let work = desk.any_work();
                    desk.put(&sheet, work, &slip);
                }
                Turn::Ask(sheet) => {
                    let room = desk.any_room();
                    desk.ask(&sheet, room).ok();
                }
            }
        }
    }
    println!("{habit:?} {kinds:?}: {weeks} weeks, {:?}", desk.tally);
    desk.tally
}

/// Every refusal came up but those that are rare in such weeks, and slips were found, covered and removed.
fn all_came_up(tally: &Tally, rare: &[usize]) {
    let draws = |drawn: &[usize], refusals: &[usize]| refusals.iter().all(|refusal| drawn[*refusal] > 0 || rare.contains(refusal));
    let sheet: Vec<usize> = (3..=13).collect();
    assert!(draws(&tally.puts, &[&[0, 1, 17, 18, 20, 22, 23], &sheet[..]].concat()), "a refusal of put is missing: {tally:?}");
    assert!(draws(&tally.asks, &[&[0, 2, 22], &sheet[..]].concat()), "a refusal of ask is missing: {tally:?}");
    assert!(tally.found > 1_000 && tally.covered > 1_000 && tally.removed > 500, "{tally:?}");
}

#[test]
fn weeks_on_small_maps() {
    let tally = try_weeks(11, Habit::Daily, &[Kind::Tiny, Kind::Small, Kind::Zero], 15_000, [1, 80]);
    all_came_up(&tally, &[23]);
}

#[test]
fn long_weeks() {
    let tally = try_weeks(12, Habit::Daily, &[Kind::Small, Kind::Driven, Kind::Required, Kind::Closed], 1_500, [100, 200]);
    all_came_up(&tally, &[23]);
}

#[test]
fn weeks_on_large_maps() {
    let tally = try_weeks(13, Habit::Daily, &[Kind::Full, Kind::Long, Kind::Closed, Kind::Parallel, Kind::Required], 2_000, [1, 40]);
    all_came_up(&tally, &[8, 23]);
}

#[test]
fn crowded_weeks() {
    let tally = try_weeks(14, Habit::Crowded, &[Kind::Small, Kind::Zero, Kind::Driven], 2_500, [100, 200]);
    all_came_up(&tally, &[]);
    assert!(tally.puts[23] > 10_000, "full shelves are rare: {tally:?}");
}
