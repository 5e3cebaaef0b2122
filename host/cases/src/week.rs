//! Puts and asks on one shelf, as a planner makes them in a week.

use crate::altered::{alterations, ascending, Slip};
use crate::draw::damaged;
use crate::random::Random;
use crate::written::{Sheet, FORBIDDEN, MANDATORY, OPEN};

/// One call: the bytes of a sheet, and of the slip that is put.
#[derive(Clone, Debug)]
pub enum Turn {
    Put(Vec<u8>, Vec<u8>),
    Ask(Vec<u8>),
}

/// What is special about a week.
#[derive(Clone, Copy, Debug, PartialEq, Eq)]
pub enum Habit {
    /// the slips that the pass writes, and such as differ from them a little
    Daily,
    /// The source is shut, and so is what else may be listed, so that each list with the source is a reason: the shelf fills up.
    Crowded,
}

/// The slip that the pass writes for a sheet whose route is refused.
pub type Pass<'a> = &'a mut dyn FnMut(&Sheet) -> Option<Slip>;

/// A map with limits for its sheets.
pub struct Week {
    map: Sheet,
    habit: Habit,
    limits: [u32; 4],
}

/// How many items stand in the lists of a crowded week, besides the source, and how many of them in most lists: there are 924 of these.
const LISTED: usize = 12;
const IN_MOST: usize = 6;

impl Week {
    /// The map of a sheet, with its limit and others near it.
    pub fn new(sheet: &Sheet, habit: Habit, random: &mut Random) -> Week {
        let limit = sheet.limit;
        let near = random.between(limit as usize / 2, limit as usize + 3).min(1_000_000) as u32;
        Week { map: sheet.clone(), habit, limits: [limit, limit, limit.saturating_sub(1), near] }
    }

    /// Now and then the map is another or the bytes are damaged. Where the route stands there is mostly nothing to put, so the shelf is asked.
    pub fn turn(&self, pass: Pass, random: &mut Random) -> Turn {
        let (puts, varied) = if self.habit == Habit::Crowded { (80, 10) } else { (40, 45) };
        let is_put = random.chance(puts, 100);
        let mut sheet = self.sheet(random);
        if is_put && self.habit == Habit::Crowded {
            others(&sheet).into_iter().for_each(|item| sheet.marks[item as usize] = FORBIDDEN);
        }
        if random.chance(1, 30) {
            sheet = other_map(&sheet, random);
        }
        let slip = if is_put { self.slip(&sheet, pass, random) } else { None };
        let bytes = if random.chance(1, 30) { damaged(&sheet, random) } else { sheet.bytes() };
        match slip {
            Some(slip) if random.chance(varied, 100) => Turn::Put(bytes, variant(&slip, &sheet, random)),
            Some(slip) => Turn::Put(bytes, slip.bytes()),
            None => Turn::Ask(bytes),
        }
    }

    /// The map with other marks and another limit.
    fn sheet(&self, random: &mut Random) -> Sheet {
        let percent = match self.habit {
            Habit::Daily => random.pick(&[0, 10, 30, 60, 100]),
            Habit::Crowded => random.pick(&[70, 90, 100]),
        };
        let mut sheet = self.map.with_limit(random.pick(&self.limits));
        for mark in &mut sheet.marks {
            *mark = if random.chance(percent, 100) { FORBIDDEN } else { OPEN };
        }
        let few = random.pick(&[0, 0, 1, 2, 3]);
        for _ in 0..if random.chance(1, 40) { 14 } else { few } {
            let item = random.below(sheet.marks.len());
            sheet.marks[item] = MANDATORY;
        }
        if self.habit == Habit::Crowded {
            sheet.marks[sheet.source as usize] = FORBIDDEN;
        }
        sheet
    }

    /// What the pass writes in a crowded week has few reasons and covers most of the shelf.
    fn slip(&self, sheet: &Sheet, pass: Pass, random: &mut Random) -> Option<Slip> {
        if self.habit == Habit::Crowded && random.chance(199, 200) {
            return Some(listed(sheet, random));
        }
        let written = pass(sheet);
        if written.is_none() && random.chance(1, 20) {
            return Some(Slip { first: 1, goals: vec![], reasons: marked(sheet, FORBIDDEN) });
        }
        written
    }
}

fn marked(sheet: &Sheet, mark: u32) -> Vec<u32> {
    (0..sheet.marks.len() as u32).filter(|&item| sheet.marks[item as usize] == mark).collect()
}

/// The items of a crowded week that stand in lists, besides the source.
fn others(sheet: &Sheet) -> Vec<u32> {
    (0..sheet.marks.len() as u32).filter(|&item| item != sheet.source).take(LISTED).collect()
}

/// The source and some of the others, and goals where there are mandatory items.
fn listed(sheet: &Sheet, random: &mut Random) -> Slip {
    let mut others = others(sheet);
    let other_count = random.pick(&[IN_MOST - 2, IN_MOST - 1, IN_MOST + 1]);
    let count = if random.chance(1, 12) { other_count } else { IN_MOST };
    while others.len() > count {
        others.swap_remove(random.below(others.len()));
    }
    let goals = if random.chance(1, 3) { marked(sheet, MANDATORY) } else { vec![] };
    let first = [1, random.pick(&[2, 3]), 3][goals.len().min(2)];
    Slip { first, goals, reasons: ascending([others, vec![sheet.source]].concat()) }
}

/// The bytes of a slip with more reasons, with another first number, with fewer goals or reasons, or with a fault.
fn variant(slip: &Slip, sheet: &Sheet, random: &mut Random) -> Vec<u8> {
    match random.below(9) {
        0..=4 => widened(slip, sheet, random).bytes(),
        5 => Slip { first: random.pick(&[2, 3, 4]), ..slip.clone() }.bytes(),
        6 => Slip { first: 3, goals: without_one(&slip.goals, random), reasons: slip.reasons.clone() }.bytes(),
        7 => Slip { reasons: without_one(&slip.reasons, random), ..slip.clone() }.bytes(),
        _ => {
            let altered = alterations(slip, sheet, random);
            altered[random.below(altered.len())].clone()
        }
    }
}

/// Shut items listed as well: one or a few, or so many that the slip has 24 entries or one more.
fn widened(slip: &Slip, sheet: &Sheet, random: &mut Random) -> Slip {
    let shut = marked(sheet, FORBIDDEN);
    let few = random.between(1, 3);
    let entries = random.pick(&[slip.goals.len() + slip.reasons.len() + few, slip.goals.len() + slip.reasons.len() + few, 24, 25]);
    let mut reasons = slip.reasons.clone();
    for _ in 0..2 * entries {
        if !shut.is_empty() && slip.goals.len() + reasons.len() < entries {
            reasons = ascending([&reasons[..], &[random.pick(&shut)]].concat());
        }
    }
    Slip { reasons, ..slip.clone() }
}

fn without_one(list: &[u32], random: &mut Random) -> Vec<u32> {
    let mut rest = list.to_vec();
    if !rest.is_empty() {
        rest.remove(random.below(list.len()));
    }
    rest
}

/// A map that differs in one thing: an arc's minutes or end, the arcs' order, an arc less or twice, the ends of the walk, a node more, service minutes.
fn other_map(sheet: &Sheet, random: &mut Random) -> Sheet {
    let mut other = sheet.clone();
    let (nodes, arcs) = (sheet.nodes as usize, sheet.arcs.len());
    let arc = random.below(arcs.max(1));
    match random.below(12) {
        0 | 1 if arcs > 0 => other.arcs[arc][2] ^= 1,
        2 if arcs > 0 => other.arcs[arc].swap(0, 1),
        3 if arcs > 0 => other.arcs.swap(arc, random.below(arcs)),
        4 if arcs > 0 => drop((other.arcs.remove(arc), other.marks.remove(nodes + arc))),
        5 if 0 < arcs && arcs < 512 => {
            other.arcs.push(sheet.arcs[arc]);
            other.marks.push(sheet.marks[nodes + arc]);
        }
        6 if nodes < 64 => {
            other.nodes += 1;
            other.marks.insert(nodes, OPEN);
            other.services.extend(sheet.is_new_form().then_some(0));
        }
        7 => other.services = other_services(sheet, random),
        8..=10 => return with_same_lengths(sheet, random),
        _ => (other.source, other.target) = (sheet.target, sheet.source),
    }
    other
}

/// Service minutes that differ at one node. Where no other node has any, this one has some.
fn other_services(sheet: &Sheet, random: &mut Random) -> Vec<u32> {
    let mut services = sheet.service_list();
    let at = random.below(services.len());
    let fewest = u32::from(services.iter().enumerate().all(|(node, &minutes)| node == at || minutes == 0));
    services[at] = if services[at] == fewest { random.pick(&[fewest + 1, 600]) } else { fewest };
    services
}

/// Another map on which each walk takes as long: minutes of the arcs that come to a node are its service minutes, or where there are none to take, all service
/// minutes are minutes of arcs.
fn with_same_lengths(sheet: &Sheet, random: &mut Random) -> Sheet {
    let node = random.below(sheet.nodes as usize) as u32;
    let comes = |arc: &[u32; 3]| arc[1] == node;
    let least = sheet.arcs.iter().filter(|arc| comes(arc)).map(|arc| arc[2]).min().unwrap_or(0);
    let most = least.min(600 - sheet.service(node));
    if most == 0 {
        return sheet.in_old_form();
    }
    let moved = random.between(1, most as usize) as u32;
    let mut other = sheet.with_services(&sheet.service_list());
    other.services[node as usize] += moved;
    other.arcs.iter_mut().filter(|arc| comes(arc)).for_each(|arc| arc[2] -= moved);
    other
}
