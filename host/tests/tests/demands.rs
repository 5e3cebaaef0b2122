//! The demands on the library alone, with no reference to lean on: what its own functions say must agree with each other.

use cases::{draw, Kind, Random, Sheet, Slip, FORBIDDEN, MANDATORY, OPEN};
use ways::{check, pass, reason, Refused, SLIP_BYTES, WORK_BYTES};

const SHEETS: usize = 6_000;

/// Lent memory, used again for each call.
struct Calls {
    work: Vec<u8>,
    slip: Vec<u8>,
}

impl Calls {
    fn new() -> Calls {
        Calls { work: vec![0; WORK_BYTES], slip: vec![0; SLIP_BYTES] }
    }

    fn pass(&mut self, sheet: &Sheet) -> Result<Vec<u8>, Refused> {
        let length = pass(&sheet.bytes(), &mut self.work, &mut self.slip)?;
        Ok(self.slip[..length].to_vec())
    }

    fn reason(&mut self, sheet: &Sheet, item: usize) -> Result<Vec<u8>, Refused> {
        let length = reason(&sheet.bytes(), &mut self.work, &mut self.slip, item as u32)?;
        Ok(self.slip[..length].to_vec())
    }

    fn check(&mut self, sheet: &Sheet, slip: &Slip) -> bool {
        check(&sheet.bytes(), &mut self.work, &slip.bytes()).expect("a well formed slip")
    }
}

fn draw_any(random: &mut Random) -> Sheet {
    let kind = random.pick(&[Kind::Tiny, Kind::Small, Kind::Zero, Kind::Closed, Kind::Required, Kind::Driven]);
    draw(kind, random)
}

/// Each slip that is written with its sheet: of a refused round, and of struck items.
fn slips(calls: &mut Calls, sheet: &Sheet, random: &mut Random) -> Vec<Slip> {
    let Ok(bytes) = calls.pass(sheet) else {
        return vec![];
    };
    if let Some(refused) = Slip::written(&bytes) {
        return vec![refused];
    }
    let struck: Vec<usize> = (0..sheet.marks.len()).filter(|&item| sheet.marks[item] == OPEN && bytes[item + 1] == 2).collect();
    let asked = (0..struck.len().min(2)).map(|_| random.pick(&struck)).collect::<Vec<_>>();
    asked.into_iter().map(|item| Slip::written(&calls.reason(sheet, item).expect("struck")).expect("a 4")).collect()
}

/// Check says yes to each slip written, and no once any listed closure is left out: opening that one lets some walk through.
#[test]
fn lists_do_it_and_none_can_be_dropped() {
    let (mut calls, mut random) = (Calls::new(), Random::new(1));
    let mut dropped = 0;
    for _ in 0..SHEETS {
        let sheet = draw_any(&mut random);
        for slip in slips(&mut calls, &sheet, &mut random) {
            assert!(calls.check(&sheet, &slip), "{sheet:?} {slip:?}");
            for at in 0..slip.reasons.len() {
                let mut fewer = slip.clone();
                fewer.reasons.remove(at);
                assert!(!calls.check(&sheet, &fewer), "{sheet:?} {slip:?} without {}", slip.reasons[at]);
                dropped += 1;
            }
        }
    }
    println!("{dropped} listed closures left out");
    assert!(dropped > SHEETS);
}

/// A later sheet with the same map, service minutes, source and target, every listed closure forbidden and no greater limit, whatever else it marks. For a refused
/// round everything named is demanded there, though a node need not be required: it may end a mandatory arc.
fn later(sheet: &Sheet, slip: &Slip, random: &mut Random) -> Sheet {
    let smaller = random.between(0, sheet.limit as usize) as u32;
    let mut later = sheet.with_limit(random.pick(&[sheet.limit, sheet.limit, smaller]));
    let (forbidden, demanded) = random.pick(&[(0, 0), (10, 2), (40, 0)]);
    for mark in &mut later.marks {
        *mark = if random.chance(forbidden, 100) {
            FORBIDDEN
        } else if random.chance(demanded, 100) {
            MANDATORY
        } else {
            OPEN
        };
    }
    let at_goal = later.arcs.iter().position(|arc| slip.goals.contains(&arc[0]) || slip.goals.contains(&arc[1]));
    if let Some(arc) = at_goal.filter(|_| random.chance(1, 3)) {
        later.marks[later.nodes as usize + arc] = MANDATORY;
    }
    slip.reasons.iter().for_each(|&item| later.marks[item as usize] = FORBIDDEN);
    if slip.first != 4 {
        slip.goals.iter().for_each(|&item| later.marks[item as usize] = MANDATORY);
    }
    later
}

/// The lists hold on later sheets: the round is refused there too, or the struck item ends shut.
#[test]
fn lists_hold_on_later_sheets() {
    let (mut calls, mut random) = (Calls::new(), Random::new(2));
    // of the old form and of the new one
    let mut held = [[0; 4]; 2];
    for _ in 0..SHEETS {
        let sheet = draw_any(&mut random);
        for slip in slips(&mut calls, &sheet, &mut random) {
            for _ in 0..3 {
                let later = later(&sheet, &slip, &mut random);
                let Ok(bytes) = calls.pass(&later) else {
                    continue;
                };
                let ends_shut = slip.first == 4 && bytes[0] == 0 && bytes[1 + slip.goals[0] as usize] == 2;
                assert!(bytes[0] > 0 || ends_shut, "{sheet:?} {slip:?} {later:?}");
                held[usize::from(later.is_new_form())][slip.first as usize - 1] += 1;
            }
        }
    }
    println!("later sheets by first number {held:?}");
    assert!(held.as_flattened().iter().all(|&count| count > 50));
}

/// A sheet with the marks that the pass left gets the same slip again.
#[test]
fn the_pass_on_its_own_answer() {
    let (mut calls, mut random) = (Calls::new(), Random::new(3));
    let mut again = [0; 2];
    for _ in 0..SHEETS {
        let sheet = draw_any(&mut random);
        let Ok(slip) = calls.pass(&sheet) else {
            continue;
        };
        if slip[0] == 0 {
            let marks = slip[1..].iter().map(|&mark| u32::from(mark)).collect();
            assert_eq!(calls.pass(&Sheet { marks, ..sheet.clone() }), Ok(slip), "{sheet:?}");
            again[usize::from(sheet.is_new_form())] += 1;
        }
    }
    assert!(again.iter().all(|&count| count > SHEETS / 40), "{again:?}");
}

/// Service minutes count as minutes of the arcs that come to the node: the sheet of the old form that has them so gets the same slips.
#[test]
fn the_same_lengths_in_both_forms() {
    let (mut calls, mut random) = (Calls::new(), Random::new(4));
    let mut tried = [0; 4];
    for _ in 0..SHEETS {
        let sheet = draw_any(&mut random);
        let old = sheet.in_old_form();
        if !sheet.is_new_form() || old.arcs.iter().any(|arc| arc[2] > 65_535) {
            continue;
        }
        let passed = calls.pass(&sheet);
        assert_eq!(calls.pass(&old), passed, "{sheet:?}");
        for slip in slips(&mut calls, &sheet, &mut random) {
            assert!(calls.check(&old, &slip), "{sheet:?} {slip:?}");
            if slip.first == 4 {
                assert_eq!(calls.reason(&old, slip.goals[0] as usize), Ok(slip.bytes()), "{sheet:?}");
            }
        }
        passed.into_iter().for_each(|slip| tried[usize::from(slip[0])] += 1);
    }
    println!("sheets by verdict {tried:?}");
    assert!(tried.iter().all(|&count| count > 50));
}
