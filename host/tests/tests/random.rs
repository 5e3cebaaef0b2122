//! Library and reference side by side on random sheets, one test for each kind of sheet.
//!
//! A sheet is one case. Its limit is as drawn, or the least length through some goals, or one below. Each case calls pass, reason for struck and other items, check on
//! slips that were written, altered or made up, and all three on damaged bytes.

use cases::{alterations, damaged, draw, Kind, Random, Sheet, Slip, FORBIDDEN, MANDATORY, OPEN};
use tests::{items_to_ask, with_close_limit, Desk};

/// Every verdict comes up more often than this in each kind and each form.
const PLENTY: usize = 50;

/// Slips that differ in nothing but what they claim: items with the right mark, and forbidden ones as reasons. Of the mandatory items, not all may be goals of a 3.
fn made_up(sheet: &Sheet, random: &mut Random) -> Slip {
    let items = sheet.marks.len() as u32;
    let first = random.between(1, 4) as u32;
    let percent = random.pick(&[0, 30, 90, 100]);
    let reasons = (0..items).filter(|&item| sheet.marks[item as usize] == FORBIDDEN && random.chance(percent, 100)).collect();
    let marked = |mark| (0..items).filter(|&item| sheet.marks[item as usize] == mark).collect::<Vec<u32>>();
    let one = |list: Vec<u32>, random: &mut Random| if list.is_empty() { vec![0] } else { vec![random.pick(&list)] };
    let goals = match first {
        1 => vec![],
        2 => one(marked(MANDATORY), random),
        3 => {
            let items = if random.chance(2, 3) { required_items(sheet) } else { marked(MANDATORY) };
            items.into_iter().filter(|_| random.chance(3, 4)).collect()
        }
        _ => one(marked(OPEN), random),
    };
    Slip { first, goals, reasons }
}

fn required_items(sheet: &Sheet) -> Vec<u32> {
    let read = reference::Sheet::read(&sheet.bytes());
    read.map_or(vec![], |read| read.required_items.into_iter().map(|item| item as u32).collect())
}

fn try_checks(desk: &mut Desk, sheet: &Sheet, bytes: &[u8], slip: &[u8], random: &mut Random) {
    if let Some(written) = Slip::written(slip) {
        assert_eq!(desk.check(bytes, slip), 1, "a written slip");
        let altered = alterations(&written, sheet, random);
        for _ in 0..3 {
            desk.check(bytes, &altered[random.below(altered.len())]);
        }
    }
    desk.check(bytes, &made_up(sheet, random).bytes());
}

fn try_damaged(desk: &mut Desk, sheet: &Sheet, random: &mut Random) {
    let bytes = damaged(sheet, random);
    desk.pass(&bytes);
    desk.reason(&bytes, random.below(sheet.marks.len() + 1) as u32);
    desk.check(&bytes, &made_up(sheet, random).bytes());
}

fn try_sheets(kind: Kind, cases: usize) {
    let mut desk = Desk::new(kind as u64);
    let mut random = Random::new(1_000 + kind as u64);
    // of the old form and of the new one
    let mut verdicts = [[0; 4]; 2];
    for _ in 0..cases {
        let drawn = draw(kind, &mut random);
        let sheet = with_close_limit(drawn, &mut random);
        let bytes = sheet.bytes();
        if let Some(slip) = desk.pass(&bytes) {
            verdicts[usize::from(sheet.is_new_form())][usize::from(slip[0])] += 1;
            try_checks(&mut desk, &sheet, &bytes, &slip, &mut random);
            for item in items_to_ask(&sheet, &slip, &mut random) {
                if let Some(slip) = desk.reason(&bytes, item) {
                    try_checks(&mut desk, &sheet, &bytes, &slip, &mut random);
                }
            }
        }
        try_damaged(&mut desk, &sheet, &mut random);
    }
    println!("{kind:?}: {cases} sheets, by verdict {verdicts:?}; calls of pass, reason, check {:?}; by refusal {:?}", desk.calls, desk.drawn);
    assert!(verdicts.as_flattened().iter().all(|&count| count > PLENTY), "a verdict is rare: {verdicts:?}");
}

#[test]
fn tiny_sheets() {
    try_sheets(Kind::Tiny, 40_000);
}

#[test]
fn small_sheets() {
    try_sheets(Kind::Small, 24_000);
}

#[test]
fn full_sheets() {
    try_sheets(Kind::Full, 4_000);
}

#[test]
fn arcs_of_no_minutes() {
    try_sheets(Kind::Zero, 20_000);
}

#[test]
fn parallel_arcs() {
    try_sheets(Kind::Parallel, 8_000);
}

#[test]
fn long_ways() {
    try_sheets(Kind::Long, 6_000);
}

#[test]
fn many_closures() {
    try_sheets(Kind::Closed, 8_000);
}

#[test]
fn many_required() {
    try_sheets(Kind::Required, 10_000);
}

#[test]
fn many_mandatory_arcs() {
    try_sheets(Kind::Driven, 12_000);
}
