//! The shelf of the reference: the examples of requests 2.6 and 2.7, and weeks of puts and asks against the requests taken at their word. What is promised of a
//! shelf that calls have reached is tried as well.

use cases::{crowd, draw, sheet_b, shelf_examples, Example, Habit, Kind, Random, Sheet, Slip, Step, Turn, Week, OPEN};
use reference::{check, pass, Shelf, SLIP_BYTES, WORK_BYTES};

const REFUSED: u32 = 65_536;

/// A slip that was put, and its sheet's limit.
type Kept = (Slip, u64);

/// The shelf as the request has it: slips in the order of puts, and the map, source and target of the first.
#[derive(Default)]
struct Plain {
    map: Option<reference::Sheet>,
    kept: Vec<Kept>,
}

fn all_in(some: &[u32], others: &[u32]) -> bool {
    some.iter().all(|item| others.contains(item))
}

fn covers((one, limit): &Kept, (other, other_limit): &Kept) -> bool {
    all_in(&one.goals, &other.goals) && all_in(&one.reasons, &other.reasons) && limit >= other_limit
}

fn applies((slip, limit): &Kept, sheet: &reference::Sheet) -> bool {
    let is_shut = |&item: &u32| sheet.marks[item as usize] == 2;
    let is_must_or_counted = |&item: &u32| sheet.marks[item as usize] == 1 || sheet.required_items.contains(&(item as usize));
    slip.reasons.iter().all(is_shut) && slip.goals.iter().all(is_must_or_counted) && sheet.limit <= *limit
}

impl Plain {
    fn is_other(&self, sheet: &reference::Sheet) -> bool {
        let base = |sheet: &reference::Sheet| (sheet.nodes, sheet.arcs.clone(), sheet.services.clone(), sheet.source, sheet.target);
        self.map.as_ref().is_some_and(|map| base(map) != base(sheet))
    }

    /// The refusal, 0 where the put finishes; check judges the sheet and the slip.
    fn put(&mut self, bytes: &[u8], slip: &[u8]) -> u32 {
        let answer = check(bytes, &mut vec![0; WORK_BYTES], slip);
        if answer >= REFUSED {
            return answer / REFUSED;
        }
        let sheet = reference::Sheet::read(bytes).expect("check took it");
        let new = (Slip::written(slip).expect("check took it"), sheet.limit);
        if answer == 0 || new.0.first == 4 || new.0.goals.len() + new.0.reasons.len() > 24 {
            return 20;
        }
        if self.is_other(&sheet) {
            return 22;
        }
        if self.kept.iter().any(|kept| covers(kept, &new)) {
            return 0;
        }
        let mut left: Vec<Kept> = self.kept.iter().filter(|kept| !covers(&new, kept)).cloned().collect();
        if left.len() >= 64 {
            return 23;
        }
        left.push(new);
        self.kept = left;
        self.map.get_or_insert(sheet);
        0
    }

    /// The bytes of the slip that is handed back, none where none applies; or the refusal.
    fn ask(&self, bytes: &[u8]) -> Result<Vec<u8>, u32> {
        let sheet = reference::Sheet::read(bytes)?;
        if self.is_other(&sheet) {
            return Err(22);
        }
        Ok(self.kept.iter().find(|kept| applies(kept, &sheet)).map_or(vec![], |(slip, _)| slip.bytes()))
    }
}

fn put(shelf: &mut Shelf, sheet: &[u8], slip: &[u8]) -> u32 {
    let number = shelf.put(sheet, &mut vec![0; WORK_BYTES], slip);
    assert_eq!(number % REFUSED, 0);
    number / REFUSED
}

fn ask(shelf: &Shelf, sheet: &[u8]) -> Result<Vec<u8>, u32> {
    let mut slip = vec![0xee; SLIP_BYTES];
    let number = shelf.ask(sheet, &mut slip);
    let length = (number % REFUSED) as usize;
    assert!(slip[length..].iter().all(|&byte| byte == 0xee), "bytes behind the slip");
    if number < REFUSED {
        Ok(slip[..length].to_vec())
    } else {
        Err(number / REFUSED)
    }
}

fn pass_slip(sheet: &Sheet) -> Option<Slip> {
    let mut slip = vec![0; SLIP_BYTES];
    let length = pass(&sheet.bytes(), &mut vec![0; WORK_BYTES], &mut slip);
    (length < REFUSED).then(|| Slip::written(&slip[..length as usize])).flatten()
}

#[test]
fn the_examples() {
    for Example { steps, held } in shelf_examples() {
        let mut shelf = Shelf::default();
        for step in steps {
            match step {
                Step::Put(sheet, slip, refusal) => assert_eq!(put(&mut shelf, &sheet, slip), refusal, "{sheet:?} {slip:?}"),
                Step::Ask(sheet, found) => assert_eq!(ask(&shelf, &sheet), found.map(<[u8]>::to_vec), "{sheet:?}"),
            }
        }
        let held: Vec<(Vec<u8>, u64)> = held.into_iter().map(|(slip, limit)| (slip.to_vec(), limit.into())).collect();
        assert_eq!(shelf.held(), held);
    }
}

/// 64 slips, and no more; one that covers some of them has room, and leaves room.
#[test]
fn a_full_shelf() {
    let (sheet, slips) = crowd(&sheet_b(), 5);
    let bytes = sheet.bytes();
    let mut shelf = Shelf::default();
    for (i, slip) in slips.iter().enumerate() {
        assert_eq!(put(&mut shelf, &bytes, &slip.bytes()), if i < 64 { 0 } else { 23 });
    }
    let with_last: Vec<u32> = slips[63].reasons.iter().copied().filter(|item| slips[0].reasons.contains(item)).collect();
    let smaller = Slip { reasons: with_last, ..slips[0].clone() };
    assert_eq!(put(&mut shelf, &bytes, &smaller.bytes()), 0);
    assert!(shelf.slips.len() < 64);
    assert_eq!(shelf.held().last(), Some(&(smaller.bytes(), 8)));
}

/// What came up in weeks.
#[derive(Debug, Default)]
struct Counts {
    puts: [usize; 24],
    asks: [usize; 24],
    found: usize,
    covered: usize,
    removed: usize,
}

/// A shelf beside the plain one, with the sheets that it has answered.
#[derive(Default)]
struct Trial {
    shelf: Shelf,
    plain: Plain,
    answered: Vec<Vec<u8>>,
}

impl Trial {
    fn put(&mut self, sheet: &[u8], slip: &[u8], counts: &mut Counts) {
        let before = self.shelf.clone();
        let refusal = put(&mut self.shelf, sheet, slip);
        assert_eq!(refusal, self.plain.put(sheet, slip), "{sheet:?} {slip:?}");
        assert!(refusal == 0 || self.shelf == before, "a refused put changed the shelf");
        counts.puts[refusal as usize] += 1;
        if refusal == 0 {
            let is_same = self.shelf == before;
            counts.covered += usize::from(is_same);
            counts.removed += if is_same { 0 } else { before.slips.len() + 1 - self.shelf.slips.len() };
        }
    }

    fn ask(&mut self, sheet: &[u8], counts: &mut Counts) {
        let found = ask(&self.shelf, sheet);
        assert_eq!(found, self.plain.ask(sheet), "{sheet:?}");
        counts.asks[*found.as_ref().err().unwrap_or(&0) as usize] += 1;
        if found.is_ok_and(|slip| !slip.is_empty()) {
            counts.found += 1;
            self.answered.push(sheet.to_vec());
            let mut slip = vec![0; SLIP_BYTES];
            assert!(pass(sheet, &mut vec![0; WORK_BYTES], &mut slip) < REFUSED && (1..=3).contains(&slip[0]), "{sheet:?}");
        }
    }

    /// What the shelf holds is what was put, none of it covers another, and no sheet that was answered is without an answer.
    fn end(&self) {
        let kept: Vec<(Vec<u8>, u64)> = self.plain.kept.iter().map(|(slip, limit)| (slip.bytes(), *limit)).collect();
        assert_eq!(self.shelf.held(), kept);
        assert!(kept.len() <= 64);
        for (i, one) in self.plain.kept.iter().enumerate() {
            let others = self.plain.kept.iter().enumerate().filter(|(j, _)| *j != i);
            assert!(others.into_iter().all(|(_, other)| !covers(one, other)), "{one:?}");
        }
        assert!(self.answered.iter().all(|sheet| ask(&self.shelf, sheet).is_ok_and(|slip| !slip.is_empty())));
    }
}

/// A map on which the shortest walk takes just the limit, if there is one.
fn map(kind: Kind, random: &mut Random) -> Sheet {
    let drawn = draw(kind, random);
    let sheet = drawn.with_marks(0..drawn.marks.len(), OPEN);
    let least = reference::least(&reference::Sheet::read(&sheet.bytes()).expect("a good sheet"), &[]);
    sheet.with_limit(least.map_or(drawn.limit, |least| least.min(1_000_000) as u32))
}

fn try_weeks(habit: Habit, kinds: &[Kind], weeks: usize, most: usize) -> Counts {
    let (mut random, mut counts) = (Random::new(habit as u64), Counts::default());
    for _ in 0..weeks {
        let kind = random.pick(kinds);
        let week = Week::new(&map(kind, &mut random), habit, &mut random);
        let mut trial = Trial::default();
        for _ in 0..random.between(most / 10, most) {
            match week.turn(&mut pass_slip, &mut random) {
                Turn::Put(sheet, slip) => trial.put(&sheet, &slip, &mut counts),
                Turn::Ask(sheet) => trial.ask(&sheet, &mut counts),
            }
        }
        trial.end();
    }
    println!("{habit:?}: {weeks} weeks, {counts:?}");
    assert!(counts.found > weeks && counts.covered > weeks && counts.removed > weeks / 2, "{counts:?}");
    counts
}

#[test]
fn daily_weeks() {
    let counts = try_weeks(Habit::Daily, &[Kind::Tiny, Kind::Small, Kind::Zero, Kind::Driven], 3_000, 100);
    assert!([0, 3, 12, 17, 18, 20, 22].iter().all(|&refusal: &usize| counts.puts[refusal] > 10));
    assert!([0, 3, 12, 22].iter().all(|&refusal: &usize| counts.asks[refusal] > 10));
}

#[test]
fn crowded_weeks() {
    let counts = try_weeks(Habit::Crowded, &[Kind::Small, Kind::Parallel], 500, 200);
    assert!(counts.puts[23] > 500);
}
