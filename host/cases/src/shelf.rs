//! The examples of request 2.6, such with service minutes (request 2.7), and slips that fill a shelf.

use crate::altered::{ascending, Slip};
use crate::written::{sheet_b, Sheet, FORBIDDEN, MANDATORY};

/// A call on a shelf.
pub enum Step {
    /// sheet and slip, and the refusal, 0 where the put finishes
    Put(Vec<u8>, &'static [u8], u32),
    /// a sheet, and the slip that is handed back, without a byte where none applies, or the refusal
    Ask(Vec<u8>, Result<&'static [u8], u32>),
}

/// Calls on a shelf that is empty at first, and the slips and limits that it holds in the end.
pub struct Example {
    pub steps: Vec<Step>,
    pub held: Vec<(&'static [u8], u32)>,
}

fn put(sheet: &Sheet, slip: &'static [u8], refusal: u32) -> Step {
    Step::Put(sheet.bytes(), slip, refusal)
}

fn ask(sheet: &Sheet, found: &'static [u8]) -> Step {
    Step::Ask(sheet.bytes(), Ok(found))
}

const NONE: &[u8] = &[];
const ONE_SHUT: &[u8] = &[1, 0, 1, 1];
const OTHER_SHUT: &[u8] = &[1, 0, 1, 5];
const BOTH_SHUT: &[u8] = &[1, 0, 2, 1, 5];
const BOTH_UNMET: &[u8] = &[3, 2, 1, 2, 1, 8];

/// B with one item forbidden, and with two.
fn closed_b() -> [Sheet; 2] {
    let one = sheet_b().with_mark(1, FORBIDDEN);
    [one.clone(), one.with_mark(5, FORBIDDEN)]
}

/// Two nodes and an arc between them, which is mandatory and takes longer than the limit.
fn driven_too_long() -> Sheet {
    Sheet::new(2, 0, 1, 0, &[[0, 1, 1]]).with_mark(2, MANDATORY)
}

pub fn shelf_examples() -> Vec<Example> {
    vec![found_again(), covered(), earliest_put(), no_put(), other_map(), other_services(), same_services(), alike(), order_of_refusals()]
}

fn found_again() -> Example {
    let (b, [one, _]) = (sheet_b(), closed_b());
    let steps = vec![
        ask(&one, NONE),
        put(&one, ONE_SHUT, 0),
        ask(&one, ONE_SHUT),
        ask(&one.with_limit(7), ONE_SHUT),
        ask(&one.with_mark(4, FORBIDDEN), ONE_SHUT),
        ask(&b, NONE),
        ask(&one.with_limit(9), NONE),
        ask(&b.with_mark(1, MANDATORY), NONE),
    ];
    Example { steps, held: vec![(ONE_SHUT, 8)] }
}

fn covered() -> Example {
    let [_, both] = closed_b();
    let steps = vec![put(&both, BOTH_SHUT, 0), put(&both, OTHER_SHUT, 0), put(&both, BOTH_SHUT, 0)];
    Example { steps, held: vec![(OTHER_SHUT, 8)] }
}

/// The pass on the sheet that is asked about writes the other slip.
fn earliest_put() -> Example {
    let [_, both] = closed_b();
    let mandatory = sheet_b().with_marks([1, 2], MANDATORY).with_mark(8, FORBIDDEN);
    let steps = vec![
        put(&both, BOTH_SHUT, 0),
        put(&mandatory.with_limit(14), BOTH_UNMET, 0),
        put(&both, OTHER_SHUT, 0),
        ask(&mandatory.with_mark(5, FORBIDDEN), BOTH_UNMET),
    ];
    Example { steps, held: vec![(BOTH_UNMET, 14), (OTHER_SHUT, 8)] }
}

/// A list that is no reason, and an item that is struck off.
fn no_put() -> Example {
    let [one, _] = closed_b();
    Example { steps: vec![put(&one, &[1, 0, 0], 20), put(&sheet_b(), &[4, 1, 2, 0], 20)], held: vec![] }
}

/// 22 comes behind 20 and before a newcomer is covered. An empty shelf is for every map, also where a put was refused on it.
fn other_map() -> Example {
    let (other, [one, _]) = (driven_too_long(), closed_b());
    let back = Sheet { source: 3, target: 0, ..one.clone() };
    let steps = vec![
        put(&other, &[2, 1, 0, 0], 20),
        put(&one, ONE_SHUT, 0),
        put(&other, &[2, 1, 2, 0], 22),
        put(&other, &[2, 1, 0, 0], 20),
        put(&back, ONE_SHUT, 22),
        Step::Ask(other.bytes(), Err(22)),
        Step::Ask(back.bytes(), Err(22)),
    ];
    Example { steps, held: vec![(ONE_SHUT, 8)] }
}

/// B with an item forbidden, on which two minutes of the way to node 1 are service minutes there: each walk takes as long.
fn served_closed_b() -> Sheet {
    let [mut one, _] = closed_b();
    one.arcs[0][2] -= 2;
    one.with_services(&[0, 2, 0, 0])
}

/// Minutes and service minutes are compared, not their sums.
fn other_services() -> Example {
    let [one, _] = closed_b();
    let served = one.with_services(&[0, 2, 0, 0]);
    let steps = vec![
        put(&one, ONE_SHUT, 0),
        put(&served, &[1, 0, 0], 22),
        put(&served_closed_b(), ONE_SHUT, 22),
        Step::Ask(served.bytes(), Err(22)),
        Step::Ask(served_closed_b().bytes(), Err(22)),
        Step::Ask(one.with_services(&[0; 4]).bytes(), Err(11)),
        ask(&one, ONE_SHUT),
    ];
    Example { steps, held: vec![(ONE_SHUT, 8)] }
}

fn same_services() -> Example {
    let ([one, _], served) = (closed_b(), served_closed_b());
    let steps = vec![
        put(&served, ONE_SHUT, 0),
        ask(&served, ONE_SHUT),
        ask(&served.with_limit(7).with_mark(4, FORBIDDEN), ONE_SHUT),
        ask(&served.with_limit(9), NONE),
        put(&one, ONE_SHUT, 22),
        Step::Ask(one.bytes(), Err(22)),
        Step::Ask(served.with_services(&[0, 2, 0, 1]).bytes(), Err(22)),
        Step::Ask(served.with_services(&[1, 2, 0, 0]).bytes(), Err(22)),
        Step::Ask(served.with_services(&[0, 2, 0]).bytes(), Err(3)),
    ];
    Example { steps, held: vec![(ONE_SHUT, 8)] }
}

/// The first number plays no part in covering.
fn alike() -> Example {
    let other = driven_too_long();
    Example { steps: vec![put(&other, &[2, 1, 2, 0], 0), put(&other, &[3, 1, 2, 0], 0)], held: vec![(&[2, 1, 2, 0], 0)] }
}

/// The sheet's refusals, then 17, 18, 20. They come on an empty shelf too.
fn order_of_refusals() -> Example {
    let [one, _] = closed_b();
    let bytes = one.bytes();
    let cut = bytes[..bytes.len() - 1].to_vec();
    let steps = vec![
        Step::Ask(cut.clone(), Err(3)),
        Step::Put(cut, &[0], 3),
        Step::Put(bytes.clone(), &[0, 1, 2, 0, 1, 0, 0, 2, 2, 2], 17),
        Step::Put(bytes.clone(), &[1, 0, 1, 9], 18),
        Step::Put(bytes, &[1, 0, 1, 5], 20),
    ];
    Example { steps, held: vec![] }
}

/// The sheet with everything forbidden, and 70 slips for it of so many reasons each, at least 5, of which none covers another: the source, four of the next eight
/// items, and the same items behind these.
pub fn crowd(sheet: &Sheet, reasons: usize) -> (Sheet, Vec<Slip>) {
    let others: Vec<u32> = (0..sheet.marks.len() as u32).filter(|&item| item != sheet.source).take(reasons + 3).collect();
    let (eight, same) = others.split_at(8);
    let slip = |set: u32| {
        let four = (0..8).filter(|i| set >> i & 1 == 1).map(|i| eight[i]);
        let reasons = four.chain(same.iter().copied()).chain([sheet.source]).collect();
        Slip { first: 1, goals: vec![], reasons: ascending(reasons) }
    };
    let slips = (0..256u32).filter(|set| set.count_ones() == 4).map(slip).collect();
    (sheet.with_marks(0..sheet.marks.len(), FORBIDDEN), slips)
}
