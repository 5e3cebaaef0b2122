//! Slips that are altered in every way.

use crate::random::Random;
use crate::written::{number, numbers, numbers_in, Sheet, MANDATORY};

/// The numbers of a slip with first number 1 to 4. They need not keep to the rules.
#[derive(Clone, Debug)]
pub struct Slip {
    pub first: u32,
    pub goals: Vec<u32>,
    pub reasons: Vec<u32>,
}

impl Slip {
    /// The slip in bytes that pass or reason wrote; none for a verdict 0, whose slip has marks.
    pub fn written(bytes: &[u8]) -> Option<Slip> {
        let all = numbers_in(bytes);
        if all[0] == 0 {
            return None;
        }
        let (goals, rest) = all[2..].split_at(all[1] as usize);
        Some(Slip { first: all[0], goals: goals.to_vec(), reasons: rest[1..].to_vec() })
    }

    pub fn numbers(&self) -> Vec<u32> {
        let counted = |list: &[u32]| [&[list.len() as u32], list].concat();
        [vec![self.first], counted(&self.goals), counted(&self.reasons)].concat()
    }

    pub fn bytes(&self) -> Vec<u8> {
        numbers(&self.numbers())
    }

    fn with_goals(&self, goals: Vec<u32>) -> Slip {
        Slip { goals, ..self.clone() }
    }

    fn with_reasons(&self, reasons: Vec<u32>) -> Slip {
        Slip { reasons, ..self.clone() }
    }
}

/// The slip's bytes with one thing changed, in every way: each entry left out, doubled, moved or exchanged, items put in, other goals of a 3, another first number,
/// wrong counts, bad writing, a wrong end. Of long lists some entries are tried.
pub fn alterations(slip: &Slip, sheet: &Sheet, random: &mut Random) -> Vec<Vec<u8>> {
    let items = sheet.marks.len() as u32;
    let mut all: Vec<Vec<u8>> = vec![vec![]];
    all.extend((0..=5).map(|first| Slip { first, ..slip.clone() }.bytes()));
    all.extend(lists(&slip.goals, items, random).into_iter().map(|goals| slip.with_goals(goals).bytes()));
    all.extend(lists(&slip.reasons, items, random).into_iter().map(|reasons| slip.with_reasons(reasons).bytes()));
    all.extend(goals_of_a_3(&slip.goals, sheet, random).into_iter().map(|goals| Slip { first: 3, ..slip.with_goals(goals) }.bytes()));
    all.push(Slip { goals: slip.reasons.clone(), reasons: slip.goals.clone(), ..*slip }.bytes());
    all.extend(wrong_counts(slip));
    all.extend(bad_writing(slip, random));
    all
}

/// Items that are counted or nearly so, each alone, beside the goals and instead of one: the mandatory items, the ends of mandatory arcs, source and target, and some
/// that may have any mark.
fn goals_of_a_3(goals: &[u32], sheet: &Sheet, random: &mut Random) -> Vec<Vec<u32>> {
    let nodes = sheet.nodes as usize;
    let is_mandatory = |item: &usize| sheet.marks[*item] == MANDATORY;
    let mut items: Vec<u32> = (0..sheet.marks.len()).filter(is_mandatory).map(|item| item as u32).collect();
    items.extend((nodes..sheet.marks.len()).filter(is_mandatory).flat_map(|item| sheet.arcs[item - nodes][..2].to_vec()));
    items.extend([sheet.source, sheet.target, random.below(nodes) as u32, random.below(sheet.marks.len()) as u32]);
    let mut all = vec![];
    for item in items {
        let at = random.below(goals.len() + 1);
        let (front, back) = (&goals[..at], goals.get(at + 1..).unwrap_or(&[]));
        all.extend([vec![item], ascending([goals, &[item]].concat()), ascending([front, &[item], back].concat())]);
    }
    all
}

/// Each entry once, going up.
pub fn ascending(mut list: Vec<u32>) -> Vec<u32> {
    list.sort();
    list.dedup();
    list
}

/// Positions of a list: all, or some of a long one.
fn places(length: usize, random: &mut Random) -> Vec<usize> {
    const MOST: usize = 10;
    if length <= MOST {
        return (0..length).collect();
    }
    (0..MOST).map(|_| random.below(length)).collect()
}

fn lists(list: &[u32], items: u32, random: &mut Random) -> Vec<Vec<u32>> {
    let mut all = vec![vec![], vec![0; 9], (0..8).collect(), (0..9).collect()];
    for at in places(list.len(), random) {
        let (front, back) = (&list[..at], &list[at + 1..]);
        let other = random.below(items as usize) as u32;
        all.push([front, back].concat());
        all.push([front, &[list[at], list[at]], back].concat());
        all.push([front, back, &[list[at]]].concat());
        all.push([&[list[at]], front, back].concat());
        all.push([front, &[other], back].concat());
    }
    for item in [0, items - 1, items, items + 1, 16_384, 268_435_455, random.below(items as usize) as u32] {
        all.push([list, &[item]].concat());
        let mut sorted = all[all.len() - 1].clone();
        sorted.sort();
        all.push(sorted);
    }
    all
}

fn wrong_counts(slip: &Slip) -> Vec<Vec<u8>> {
    let good = slip.numbers();
    let mut all = vec![];
    for at in [1, 2 + slip.goals.len()] {
        for count in [good[at].wrapping_sub(1), good[at] + 1, 0, 127, 128, 268_435_455] {
            if count < 1 << 28 {
                let mut wrong = good.clone();
                wrong[at] = count;
                all.push(numbers(&wrong));
            }
        }
    }
    all
}

fn bad_writing(slip: &Slip, random: &mut Random) -> Vec<Vec<u8>> {
    let good: Vec<Vec<u8>> = slip.numbers().into_iter().map(number).collect();
    let bytes = good.concat();
    let mut all: Vec<Vec<u8>> = places(bytes.len(), random).into_iter().map(|end| bytes[..end].to_vec()).collect();
    all.extend([0, 1, 0x80, 0xff].map(|byte| [&bytes[..], &[byte]].concat()));
    let bad: [&[u8]; 4] = [&[0x80, 0], &[0x81, 0x80, 0], &[0x80, 0x80, 0x80, 0x80, 1], &[0xff, 0xff, 0xff, 0x7f]];
    for at in places(good.len(), random) {
        for written in bad {
            let mut wrong = good.clone();
            wrong[at] = written.to_vec();
            all.push(wrong.concat());
        }
        let mut longer = good.clone();
        let last = longer[at].len() - 1;
        longer[at][last] |= 0x80;
        longer[at].push(0);
        all.push(longer.concat());
    }
    all
}
