//! The reference on small sheets against document 01 and requests 2.3, 2.4 and 2.7 taken at their word: every walk is tried.

mod by_definition;

use by_definition::{forbidden, required_items, Trial};
use cases::{Random, Sheet, FORBIDDEN, MANDATORY};
use std::collections::HashMap;

const SHEETS: usize = 100_000;

/// Tries walks arc by arc.
struct Search<'a> {
    sheet: &'a Sheet,
    closed: &'a [bool],
    goals: &'a [usize],
    /// the most minutes that a walk had left at a node with these goals met: with no more of them, all that can follow was tried
    tried: HashMap<(usize, u32), u32>,
}

impl Search<'_> {
    /// The goal that an item is, as a set, or none.
    fn met_by(&self, item: usize) -> u32 {
        self.goals.iter().position(|&goal| goal == item).map_or(0, |goal| 1 << goal)
    }

    /// The walk touches the node, not at its start: that takes the node's service minutes, if they are left.
    fn touches(&mut self, node: u32, met: u32, minutes: u32) -> bool {
        minutes.checked_sub(self.sheet.service(node)).is_some_and(|left| self.goes_on(node as usize, met, left))
    }

    /// Some walk that is at the node with these goals met goes on to the target within the minutes that are left, so that all goals are met.
    fn goes_on(&mut self, node: usize, met: u32, minutes: u32) -> bool {
        let met = met | self.met_by(node);
        if self.closed[node] || self.tried.get(&(node, met)).is_some_and(|&left| left >= minutes) {
            return false;
        }
        self.tried.insert((node, met), minutes);
        let ends = node == self.sheet.target as usize && met.count_ones() as usize == self.goals.len();
        ends || (0..self.sheet.arcs.len()).any(|arc| {
            let [tail, head, weight] = self.sheet.arcs[arc];
            let item = self.sheet.nodes as usize + arc;
            let leaves = tail as usize == node && weight <= minutes && !self.closed[item];
            leaves && self.touches(head, met | self.met_by(item), minutes - weight)
        })
    }
}

/// Some walk clear of the closed items meets the goals within the limit.
fn fits(sheet: &Sheet, closed: &[bool], goals: &[usize]) -> bool {
    let mut search = Search { sheet, closed, goals, tried: HashMap::new() };
    search.goes_on(sheet.source as usize, 0, sheet.limit)
}

/// The number of arcs of a fan that are drawn freely. They stand in front.
const FREE: usize = 4;

/// Half of the sheets are fans: they have an arc from the source to every node and one from it to the target, so that each node is near, and all of them together
/// are not.
fn draw_arcs(nodes: usize, source: usize, target: usize, fan: bool, random: &mut Random) -> Vec<[u32; 3]> {
    let most = random.pick(&[0, 1, 5]);
    let mut ends: Vec<(usize, usize)> = (0..random.between(0, 7)).map(|_| (random.below(nodes), random.below(nodes))).collect();
    if fan {
        ends.truncate(FREE);
        ends.extend((0..nodes).flat_map(|node| [(source, node), (node, target)]));
    }
    let arcs = ends.into_iter().filter(|(tail, head)| tail != head);
    arcs.map(|(tail, head)| [tail as u32, head as u32, random.between(0, most) as u32]).collect()
}

/// Not all 0.
fn draw_services(nodes: usize, random: &mut Random) -> Vec<u32> {
    let most = random.pick(&[0, 1, 3]);
    let mut services: Vec<u32> = (0..nodes).map(|_| random.between(0, most) as u32).collect();
    services[random.below(nodes)] = random.pick(&[1, 2, 5]);
    services
}

fn draw(random: &mut Random) -> Sheet {
    let nodes = random.between(2, 5);
    let source = random.below(nodes);
    let target = (source + random.between(1, nodes - 1)) % nodes;
    let fan = random.chance(1, 2);
    let arcs = draw_arcs(nodes, source, target, fan, random);
    let mut sheet = Sheet::new(nodes as u32, source as u32, target as u32, random.below(14) as u32, &arcs);
    let closed = if fan { random.pick(&[0, 5, 15]) } else { random.pick(&[0, 10, 40, 70]) };
    let demanded_nodes = random.pick(&[0, 20, 60]);
    let demanded_arcs = random.pick(&[0, 0, 20, 60]);
    if random.chance(1, 2) {
        sheet.services = draw_services(nodes, random);
    }
    for item in 0..sheet.marks.len() {
        let demanded = if item < nodes { demanded_nodes } else { demanded_arcs };
        let is_free = fan && (nodes..nodes + FREE).contains(&item);
        if random.chance(if is_free { 60 } else { closed }, 100) {
            sheet.marks[item] = FORBIDDEN;
        } else if random.chance(demanded, 100) {
            sheet.marks[item] = MANDATORY;
        }
    }
    sheet
}

/// Check on a slip of random content. The goals of a 3 are mandatory items, most of them required, or any.
fn try_check(trial: &mut Trial, sheet: &Sheet, random: &mut Random) -> bool {
    let listed: Vec<usize> = (0..sheet.marks.len()).filter(|_| random.chance(1, 3)).filter(|&item| sheet.marks[item] == FORBIDDEN).collect();
    let first = random.between(1, 4) as u32;
    let goals: Vec<usize> = match first {
        1 => vec![],
        3 => {
            let any = random.chance(1, 4);
            (0..sheet.marks.len()).filter(|&item| (any || sheet.marks[item] == MANDATORY) && random.chance(2, 3)).take(8).collect()
        }
        _ => vec![random.below(sheet.marks.len())],
    };
    let is_empty_third = first == 3 && goals.is_empty();
    !is_empty_third && trial.check(sheet, first, &goals, &listed)
}

/// To meet the required items is to meet all mandatory ones.
#[test]
fn required_for_all_mandatory() {
    let mut random = Random::new(2);
    for _ in 0..SHEETS {
        let sheet = draw(&mut random);
        let closed = forbidden(&sheet);
        let mandatory: Vec<usize> = (0..sheet.marks.len()).filter(|&item| sheet.marks[item] == MANDATORY).collect();
        assert_eq!(fits(&sheet, &closed, &required_items(&sheet)), fits(&sheet, &closed, &mandatory), "{sheet:?}");
    }
}

#[test]
fn small_sheets_by_every_walk() {
    let mut random = Random::new(1);
    let mut trial = Trial::new(fits);
    let mut yes = 0;
    for _ in 0..SHEETS {
        let sheet = draw(&mut random);
        let Some(passed) = trial.pass(&sheet) else {
            continue;
        };
        for item in 0..sheet.marks.len() {
            trial.reason(&sheet, &passed, item);
        }
        yes += usize::from(try_check(&mut trial, &sheet, &mut random));
    }
    println!("{SHEETS} sheets: {:?}, checks with yes {yes}", trial.counts);
    assert!(trial.counts.verdicts.iter().all(|&count| count > SHEETS / 100), "a verdict is rare");
    assert!(trial.counts.with_reasons[1..].iter().all(|&count| count > SHEETS / 500), "reasons are rare");
    assert!(trial.counts.with_arcs > SHEETS / 100, "arcs as goals are rare");
    assert!(trial.counts.by_service > SHEETS / 20, "service minutes seldom matter");
    assert!(trial.counts.over > SHEETS / 100 && trial.counts.with_choice > SHEETS / 100, "items over the limit, or with a choice of closures, are rare");
}
