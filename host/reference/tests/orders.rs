//! The reference on sheets of every size against plain methods that do no bookkeeping: Floyd and Warshall's lengths between all nodes, made anew for every
//! question, and every order of the goals.

mod by_definition;

use by_definition::Trial;
use cases::{draw, Kind, Random, Sheet, Slip, OPEN};

const MISSING: u64 = u64::MAX / 4;

type Table = Vec<Vec<u64>>;

/// The lengths from each node to each, clear of the closed items. Each counts every touch but the first.
fn lengths(sheet: &Sheet, closed: &[bool]) -> Table {
    let nodes = sheet.nodes as usize;
    let mut table = vec![vec![MISSING; nodes]; nodes];
    (0..nodes).filter(|&node| !closed[node]).for_each(|node| table[node][node] = 0);
    for (arc, &[tail, head, minutes]) in sheet.arcs.iter().enumerate() {
        let length = u64::from(minutes + sheet.service(head));
        let (tail, head) = (tail as usize, head as usize);
        if !closed[tail] && !closed[head] && !closed[nodes + arc] {
            table[tail][head] = table[tail][head].min(length);
        }
    }
    for over in 0..nodes {
        let onward = table[over].clone();
        for row in &mut table {
            let first = row[over];
            if first < MISSING {
                row.iter_mut().zip(&onward).for_each(|(length, second)| *length = (*length).min(first + second));
            }
        }
    }
    table
}

/// Some order of the goals that are left, from a node on, ends at the target within the minutes that are left.
fn some_order(sheet: &Sheet, table: &Table, node: usize, minutes: u64, goals: &mut Vec<usize>) -> bool {
    if table[node][sheet.target as usize] > minutes {
        return false;
    }
    if goals.is_empty() {
        return true;
    }
    for at in 0..goals.len() {
        let goal = goals.swap_remove(at);
        let (entry, exit, own) = stretch(sheet, goal);
        let length = table[node][entry] + own;
        let found = length <= minutes && some_order(sheet, table, exit, minutes - length, goals);
        goals.push(goal);
        let last = goals.len() - 1;
        goals.swap(at, last);
        if found {
            return true;
        }
    }
    false
}

/// Where a goal is entered and left, and its own minutes, the touch where it is left among them.
fn stretch(sheet: &Sheet, goal: usize) -> (usize, usize, u64) {
    let Some(arc) = goal.checked_sub(sheet.nodes as usize) else {
        return (goal, goal, 0);
    };
    let [tail, head, minutes] = sheet.arcs[arc];
    (tail as usize, head as usize, u64::from(minutes + sheet.service(head)))
}

fn fits(sheet: &Sheet, closed: &[bool], goals: &[usize]) -> bool {
    let table = lengths(sheet, closed);
    let is_clear = goals.iter().all(|&goal| !closed[goal]);
    is_clear && some_order(sheet, &table, sheet.source as usize, sheet.limit.into(), &mut goals.to_vec())
}

/// A limit at, or one below, the least length through the required items, so that verdict 3 comes up; or as drawn.
fn with_close_limit(sheet: Sheet, random: &mut Random) -> Sheet {
    let Ok(read) = reference::Sheet::read(&sheet.bytes()) else {
        return sheet;
    };
    match reference::least(&read, &read.required_items) {
        Some(length) if random.chance(3, 4) => sheet.with_limit(length.saturating_sub(random.below(2) as u64).min(1_000_000) as u32),
        _ => sheet,
    }
}

/// Yes to the list of the pass, and no once a closure is left out of it.
fn try_checks(trial: &mut Trial, sheet: &Sheet, slip: Slip, random: &mut Random) {
    let items = |list: Vec<u32>| list.into_iter().map(|item| item as usize).collect::<Vec<usize>>();
    let (goals, mut listed) = (items(slip.goals), items(slip.reasons));
    assert!(trial.check(sheet, slip.first, &goals, &listed), "{sheet:?}");
    if !listed.is_empty() {
        listed.remove(random.below(listed.len()));
        assert!(!trial.check(sheet, slip.first, &goals, &listed), "{sheet:?}");
    }
}

fn try_sheets(kind: Kind, sheets: usize) {
    let mut random = Random::new(kind as u64);
    let mut trial = Trial::new(fits);
    for _ in 0..sheets {
        let drawn = draw(kind, &mut random);
        let sheet = with_close_limit(drawn, &mut random);
        let Some(passed) = trial.pass(&sheet) else {
            continue;
        };
        let struck: Vec<usize> = (0..sheet.marks.len()).filter(|&item| passed[0] == 0 && sheet.marks[item] == OPEN && passed[item + 1] == 2).collect();
        if !struck.is_empty() {
            trial.reason(&sheet, &passed, random.pick(&struck));
        }
        if let Some(slip) = Slip::written(&passed) {
            try_checks(&mut trial, &sheet, slip, &mut random);
        }
    }
    println!("{kind:?}: {:?}", trial.counts);
    assert!(trial.counts.verdicts.iter().all(|&count| count > 0), "a verdict is missing");
    assert!(trial.counts.by_service > sheets / 20, "service minutes seldom matter");
    assert!(trial.counts.over > 0 && trial.counts.with_choice > 0, "no item over the limit, or none with a choice of closures");
}

#[test]
fn small_sheets() {
    try_sheets(Kind::Small, 4_000);
}

#[test]
fn full_sheets() {
    try_sheets(Kind::Full, 40);
}

#[test]
fn many_closures() {
    try_sheets(Kind::Closed, 150);
}

#[test]
fn many_required() {
    try_sheets(Kind::Required, 200);
}

#[test]
fn many_mandatory_arcs() {
    try_sheets(Kind::Driven, 300);
}
