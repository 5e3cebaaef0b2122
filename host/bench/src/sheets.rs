//! The standard sheets.

use crate::shelves::Kept;
use cases::{longest, sheet_b, Draft, Random, Sheet, Slip, FORBIDDEN, MANDATORY, OPEN};
use reference::{least, SLIP_BYTES, WORK_BYTES};

pub enum Operation {
    Pass,
    Reason(u32),
    Check(Vec<u8>),
    Write(Draft),
    /// the shelf beforehand, and the slip
    Put(Kept, Vec<u8>),
    Ask(Kept),
}

impl Operation {
    pub fn name(&self) -> &'static str {
        match self {
            Operation::Pass => "pass",
            Operation::Reason(_) => "reason",
            Operation::Check(_) => "check",
            Operation::Write(_) => "write",
            Operation::Put(..) => "put",
            Operation::Ask(_) => "ask",
        }
    }
}

pub struct Standard {
    pub name: String,
    pub sheet: Vec<u8>,
    pub operation: Operation,
    /// The refusal number that it draws, 0 where the call finishes.
    pub refusal: u32,
}

/// A call, the one that it is timed beside, and what it may take at most in terms of that one.
pub struct Beside {
    pub call: Standard,
    pub other: Standard,
    pub most: f64,
}

pub const NODES: usize = 64;
const ARCS: usize = 512;

/// 64 nodes and 512 arcs, all open. A ring comes first, so that every node can be reached.
pub fn full(seed: u64) -> Sheet {
    let mut random = Random::new(seed);
    let arcs: Vec<[u32; 3]> = (0..ARCS)
        .map(|arc| {
            let tail = if arc < NODES { arc } else { random.below(NODES) };
            let step = if arc < NODES { 1 } else { random.between(1, NODES - 1) };
            [tail as u32, ((tail + step) % NODES) as u32, random.between(1, 100) as u32]
        })
        .collect();
    Sheet::new(NODES as u32, 0, NODES as u32 - 1, 0, &arcs)
}

/// A bakery's everyday sheet: 12 nodes, 40 arcs, three of the nodes mandatory, two arcs forbidden, and time to spare.
fn everyday() -> Sheet {
    let mut random = Random::new(3);
    let arcs: Vec<[u32; 3]> = (0..40)
        .map(|arc| {
            let tail = if arc < 12 { arc } else { random.below(12) };
            let step = if arc < 12 { 1 } else { random.between(1, 11) };
            [tail as u32, ((tail + step) % 12) as u32, random.between(2, 25) as u32]
        })
        .collect();
    let sheet = Sheet::new(12, 0, 11, 0, &arcs).with_marks([2, 5, 8], MANDATORY).with_marks([12 + 20, 12 + 30], FORBIDDEN);
    sheet.with_limit(least_length(&sheet) * 5 / 4)
}

/// Eight mandatory nodes.
pub fn demanding(sheet: &Sheet) -> Sheet {
    sheet.with_marks((0..8).map(|i| 3 + 7 * i), MANDATORY)
}

/// Eight mandatory arcs: those of the ring out of the same nodes.
fn driven(sheet: &Sheet) -> Sheet {
    sheet.with_marks((0..8).map(|i| NODES + 3 + 7 * i), MANDATORY)
}

/// Every second arc behind the ring forbidden, `count` of them.
pub fn half_closed(sheet: &Sheet, count: usize) -> Sheet {
    sheet.with_marks((NODES + NODES..NODES + ARCS).step_by(2).take(count), FORBIDDEN)
}

/// The 60 arcs behind the ring that take the fewest minutes forbidden.
fn quickest_closed(sheet: &Sheet) -> Sheet {
    let mut arcs: Vec<usize> = (NODES..ARCS).collect();
    arcs.sort_by_key(|&arc| sheet.arcs[arc][2]);
    sheet.with_marks(arcs.iter().take(60).map(|arc| NODES + arc), FORBIDDEN)
}

/// A chain of 64 nodes from source to target, a minute from each to the next, and 449 short cuts that take three times as long as the chain, all open.
/// The nodes are numbered along the chain or, if `against`, from its end.
fn chain(seed: u64, against: bool) -> Sheet {
    let mut random = Random::new(seed);
    let number = |place: usize| (if against { NODES - 1 - place } else { place }) as u32;
    let arcs: Vec<[u32; 3]> = (0..ARCS)
        .map(|arc| {
            let tail = if arc < NODES - 1 { arc } else { random.below(NODES - 1) };
            let step = if arc < NODES - 1 { 1 } else { random.between(1, NODES - 1 - tail) };
            let minutes = if arc < NODES - 1 { 1 } else { 3 * step };
            [number(tail), number(tail + step), minutes as u32]
        })
        .collect();
    Sheet::new(NODES as u32, number(0), number(NODES - 1), 3 * NODES as u32, &arcs)
}

pub fn all_closed(sheet: &Sheet) -> Sheet {
    Sheet { marks: vec![FORBIDDEN; sheet.marks.len()], ..sheet.clone() }
}

/// The least length through all required items, or with none of them from source to target.
pub fn least_length(sheet: &Sheet) -> u32 {
    let read = reference::Sheet::read(&sheet.bytes()).expect("a good sheet");
    least(&read, &read.required_items).expect("the ring is open") as u32
}

pub fn pass_slip(sheet: &Sheet) -> Vec<u8> {
    let mut slip = vec![0; SLIP_BYTES];
    let length = reference::pass(&sheet.bytes(), &mut vec![0; WORK_BYTES], &mut slip);
    slip.truncate(length as usize);
    slip
}

fn verdict(sheet: &Sheet) -> u8 {
    pass_slip(sheet)[0]
}

fn closures(sheet: &Sheet) -> usize {
    sheet.marks.iter().filter(|&&mark| mark == FORBIDDEN).count()
}

/// The first item that the pass strikes.
fn struck(sheet: &Sheet) -> u32 {
    let slip = pass_slip(sheet);
    let item = (0..sheet.marks.len()).find(|&item| sheet.marks[item] == OPEN && slip[item + 1] == 2);
    item.expect("an item is struck") as u32
}

pub fn pass(name: &str, sheet: &Sheet, expected: u8) -> Standard {
    assert_eq!(verdict(sheet), expected, "{name}");
    let name = match (closures(sheet), Slip::written(&pass_slip(sheet))) {
        (closed, Some(slip)) => format!("{name}, {closed} closures: verdict {expected}, {} reasons", slip.reasons.len()),
        _ => format!("{name}: verdict {expected}"),
    };
    Standard { name, sheet: sheet.bytes(), operation: Operation::Pass, refusal: 0 }
}

fn refused(name: &str, sheet: Vec<u8>, refusal: u32) -> Standard {
    Standard { name: format!("{name}: refused {refusal}"), sheet, operation: Operation::Pass, refusal }
}

fn reason(name: &str, sheet: &Sheet) -> Standard {
    let item = struck(sheet);
    Standard { name: format!("{name}, {} closures: item {item}", closures(sheet)), sheet: sheet.bytes(), operation: Operation::Reason(item), refusal: 0 }
}

pub fn check(name: &str, sheet: &Sheet, slip: Vec<u8>) -> Standard {
    Standard { name: name.to_string(), sheet: sheet.bytes(), operation: Operation::Check(slip), refusal: 0 }
}

/// The sheet is what comes out.
fn write(name: &str, sheet: &Sheet) -> Standard {
    let bytes = sheet.bytes();
    Standard { name: format!("{name}, {} bytes", bytes.len()), sheet: bytes, operation: Operation::Write(Draft::of(sheet)), refusal: 0 }
}

/// Eight required and 224 closures, some of which are to blame.
pub fn blamed(sheet: &Sheet) -> Sheet {
    let eight = demanding(sheet);
    let closed = half_closed(&eight, 224);
    closed.with_limit((least_length(&eight) + least_length(&closed)) / 2)
}

pub fn standard() -> Vec<Standard> {
    let plain = full(1);
    let free = plain.with_limit(least_length(&plain) * 2);
    let eight = demanding(&plain);
    let eight_fit = eight.with_limit(least_length(&eight));
    let open_length = least_length(&eight);
    let blamed = blamed(&plain);
    let too_long = blamed.with_limit(open_length - 1);
    let all = all_closed(&plain).with_limit(least_length(&plain));
    let arcs = driven(&plain);
    let arcs_fit = arcs.with_limit(least_length(&arcs));
    let arcs_closed = half_closed(&arcs, 224);
    let arcs_blamed = arcs_closed.with_limit((least_length(&arcs) + least_length(&arcs_closed)) / 2);
    let few = quickest_closed(&eight);
    let few_blamed = few.with_limit((open_length + least_length(&few)) / 2);
    let few_too_long = few.with_limit(open_length - 1);
    let partly = half_closed(&plain, 224);
    let partly = partly.with_limit(least_length(&partly) * 3 / 2);
    let tight = half_closed(&plain, 200);
    let tight = tight.with_limit(least_length(&tight));
    let b = sheet_b();
    vec![
        refused("an empty sheet", vec![], 3),
        pass("B", &b, 0),
        pass("an everyday sheet: 12 nodes, 40 arcs, three required, two closures", &everyday(), 0),
        pass("64 nodes, 512 arcs, none required", &free, 0),
        pass("64 nodes, 512 arcs, eight required", &eight_fit, 0),
        pass("the same, a minute too long", &eight.with_limit(open_length - 1), 3),
        pass("64 nodes, 512 arcs, eight required", &blamed, 3),
        pass("the same, too long with all open", &too_long, 3),
        pass("64 nodes, 512 arcs, eight required", &few_blamed, 3),
        pass("the same, too long with all open", &few_too_long, 3),
        pass("64 nodes, 512 arcs, eight arcs required", &arcs_fit, 0),
        pass("64 nodes, 512 arcs, eight arcs required", &arcs_blamed, 3),
        pass("64 nodes, 512 arcs", &all, 1),
        pass("a chain of 64 nodes, 512 arcs, numbered along it", &chain(2, false), 0),
        pass("the same, numbered against it", &chain(2, true), 0),
        reason("B", &b),
        reason("64 nodes, 512 arcs", &partly),
        reason("64 nodes, 512 arcs, no walk to spare", &tight),
        check("B within 7: verdict 1, no reasons", &b.with_limit(7), vec![1, 0, 0]),
        check("the slip of verdict 1 above", &all, pass_slip(&all)),
        check("the slip of the first verdict 3 above", &blamed, pass_slip(&blamed)),
        write("B", &b),
        write("64 nodes, 512 arcs of 65,535 minutes", &longest().with_services(&[])),
        write("the same with service minutes", &longest()),
    ]
}
