//! Which refusals each function gives, and that it gives no other; none for a walk that is too long to count (request 2.5).

use cases::{alterations, crowd, damaged, draw, sheet_b, spoiled, Draft, Random, Sheet, Slip, KINDS, MANDATORY, OPEN};
use std::collections::BTreeSet;
use tests::REFUSED;
use ways::{numbers, Store, SHEET_BYTES, SLIP_BYTES, WORK_BYTES};

const SHEETS: usize = 1_000;

/// The refusals that each function gave, 0 where it finished.
#[derive(Default)]
struct Given {
    pass: BTreeSet<u32>,
    reason: BTreeSet<u32>,
    check: BTreeSet<u32>,
    write: BTreeSet<u32>,
    put: BTreeSet<u32>,
    ask: BTreeSet<u32>,
}

struct Calls {
    random: Random,
    work: Vec<u8>,
    slip: Vec<u8>,
    sheet: Vec<u8>,
    store: Box<Store>,
    given: Given,
}

impl Calls {
    fn new() -> Calls {
        let (work, slip, sheet) = (vec![0; WORK_BYTES], vec![0; SLIP_BYTES], vec![0; SHEET_BYTES]);
        Calls { random: Random::new(1), work, slip, sheet, store: Store::zeroed(), given: Given::default() }
    }

    /// Mostly all of a slice, now and then less.
    fn room(&mut self, length: usize) -> usize {
        if self.random.chance(1, 20) {
            self.random.below(length)
        } else {
            length
        }
    }

    /// The functions that read a sheet, check and put with slips for it in every shape.
    fn read(&mut self, sheet: &Sheet, bytes: &[u8]) {
        let (work, room) = (self.room(WORK_BYTES), self.room(SLIP_BYTES));
        let passed = numbers::pass(bytes, &mut self.work[..work], &mut self.slip[..room]);
        self.given.pass.insert(passed / REFUSED);
        let written = (0 < passed && passed < REFUSED).then(|| Slip::written(&self.slip[..passed as usize])).flatten();
        for _ in 0..3 {
            let item = self.random.below(sheet.marks.len() + 1) as u32;
            let answer = numbers::reason(bytes, &mut self.work[..work], &mut self.slip[..room], item);
            self.given.reason.insert(answer / REFUSED);
        }
        let slip = written.unwrap_or(Slip { first: 1, goals: vec![], reasons: vec![] });
        let altered = alterations(&slip, sheet, &mut self.random);
        for slip in [&slip.bytes(), &altered[self.random.below(altered.len())], &altered[self.random.below(altered.len())]] {
            let answer = numbers::check(bytes, &mut self.work[..work], slip);
            self.given.check.insert(answer / REFUSED);
            self.keep(bytes, work, slip, room);
        }
    }

    /// Puts and asks, on a shelf that may have another map on it from before.
    fn keep(&mut self, bytes: &[u8], work: usize, slip: &[u8], room: usize) {
        if self.random.chance(1, 3) {
            self.store.empty();
        }
        let answer = numbers::store_put(&mut self.store, bytes, &mut self.work[..work], slip);
        self.given.put.insert(answer / REFUSED);
        let answer = numbers::store_ask(&self.store, bytes, &mut self.slip[..room]);
        self.given.ask.insert(answer / REFUSED);
    }

    fn write(&mut self, draft: &Draft) {
        let room = self.room(SHEET_BYTES);
        let answer = numbers::write(draft.header, &draft.arcs, &draft.marks, &draft.services, &mut self.sheet[..room]);
        self.given.write.insert(answer / REFUSED);
    }
}

/// The sheet with the longest arcs and the longest services that there are; eight arcs or all are mandatory, and nothing else is.
fn slow(sheet: &Sheet, random: &mut Random) -> Sheet {
    let mut slow = sheet.clone();
    slow.arcs.iter_mut().for_each(|arc| arc[2] = 65_535);
    slow.services.fill(600);
    slow.marks.iter_mut().filter(|mark| **mark == MANDATORY).for_each(|mark| *mark = OPEN);
    let (nodes, arcs) = (slow.nodes as usize, slow.arcs.len());
    let first = random.below(arcs.max(1));
    let driven: Vec<usize> = (0..arcs.min(8)).map(|i| nodes + (first + i) % arcs).collect();
    slow.with_marks(driven, MANDATORY).with_limit(1_000_000)
}

#[test]
fn every_refusal_and_no_other() {
    let (mut calls, mut random) = (Calls::new(), Random::new(2));
    for kind in KINDS {
        for _ in 0..SHEETS {
            let drawn = draw(kind, &mut random);
            for sheet in [slow(&drawn, &mut random), drawn] {
                calls.read(&sheet, &sheet.bytes());
                calls.read(&sheet, &damaged(&sheet, &mut random));
                let draft = Draft::of(&sheet);
                calls.write(&draft);
                calls.write(&spoiled(&draft, &mut random));
            }
        }
    }
    let (sheet, slips) = crowd(&sheet_b(), 5);
    calls.store.empty();
    for slip in slips {
        let answer = numbers::store_put(&mut calls.store, &sheet.bytes(), &mut calls.work, &slip.bytes());
        calls.given.put.insert(answer / REFUSED);
    }
    let of = |ranges: &[std::ops::RangeInclusive<u32>]| ranges.iter().cloned().flatten().collect::<BTreeSet<u32>>();
    assert_eq!(calls.given.pass, of(&[0..=13]));
    assert_eq!(calls.given.reason, of(&[0..=13, 15..=16]));
    assert_eq!(calls.given.check, of(&[0..=1, 3..=13, 17..=18]));
    assert_eq!(calls.given.write, of(&[0..=0, 3..=3, 5..=11, 13..=13, 19..=19]));
    assert_eq!(calls.given.put, of(&[0..=1, 3..=13, 17..=18, 20..=20, 22..=23]));
    assert_eq!(calls.given.ask, of(&[0..=0, 2..=13, 22..=22]));
}
