//! The rows for the shelf, each with the call that it is timed beside (request 2.6, the 'Speed').

use crate::sheets::{all_closed, blamed, check, full, half_closed, least_length, pass, pass_slip, Beside, Operation, Standard};
use cases::{Random, Sheet, Slip, FORBIDDEN, OPEN};
use reference::Shelf;
use ways::{Store, STORE_ITEMS, STORE_SLIPS, WORK_BYTES};

/// A shelf as the library has it, and as the reference has it.
pub struct Kept {
    pub store: Box<Store>,
    pub shelf: Shelf,
}

impl Kept {
    fn put(&mut self, sheet: &Sheet, slip: &Slip) {
        let (bytes, slip, mut work) = (sheet.bytes(), slip.bytes(), vec![0; WORK_BYTES]);
        self.store.put(&bytes, &mut work, &slip).expect("a slip that can be put");
        assert_eq!(self.shelf.put(&bytes, &mut work, &slip), 0);
        assert_eq!(self.store.count as usize, self.shelf.slips.len());
    }
}

fn own_slip(sheet: &Sheet) -> Slip {
    Slip::written(&pass_slip(sheet)).expect("a refused route")
}

/// So many slips for the map of a refused sheet that do not apply to it, of 24 entries each: they blame its last arc too, which is open, and lack one of the
/// reasons that the pass gives. So none of them covers the slip of the pass or is covered by it.
fn others(sheet: &Sheet, count: usize) -> Kept {
    let mut kept = Kept { store: Store::zeroed(), shelf: Shelf::default() };
    let (own, mut random) = (own_slip(sheet), Random::new(5));
    while kept.shelf.slips.len() < count {
        let last = sheet.marks.len() - 1;
        let mut other = sheet.with_mark(last, FORBIDDEN);
        let opened: Vec<usize> = (0..last).filter(|&item| other.marks[item] == FORBIDDEN && random.chance(1, 10)).collect();
        other = other.with_marks(opened.into_iter().chain([random.pick(&own.reasons) as usize]), OPEN);
        if let Some(slip) = Slip::written(&pass_slip(&other)) {
            kept.put(&other, &widened(slip, &other, &mut random));
        }
    }
    kept
}

/// The slip with the last arc as a reason too, and other closures until it has 24 entries.
fn widened(slip: Slip, sheet: &Sheet, random: &mut Random) -> Slip {
    let last = sheet.marks.len() as u32 - 1;
    let closed: Vec<u32> = (0..last).filter(|&item| sheet.marks[item as usize] == FORBIDDEN).collect();
    let mut reasons = [slip.reasons, vec![last]].concat();
    while slip.goals.len() + reasons.len() < STORE_ITEMS {
        reasons.push(random.pick(&closed));
        reasons.sort();
        reasons.dedup();
    }
    Slip { reasons, ..slip }
}

/// The others, and last the slip that the pass writes.
fn with_own(sheet: &Sheet) -> Kept {
    let mut kept = others(sheet, STORE_SLIPS - 1);
    kept.put(sheet, &own_slip(sheet));
    assert_eq!(kept.shelf.slips.len(), STORE_SLIPS);
    kept
}

fn ask(name: &str, sheet: &Sheet, verdict: u8, kept: Kept, most: f64) -> Beside {
    let call = Standard { name: name.to_string(), sheet: sheet.bytes(), operation: Operation::Ask(kept), refusal: 0 };
    Beside { call, other: pass("the same sheet", sheet, verdict), most }
}

pub fn shelf_rows() -> Vec<Beside> {
    let plain = full(1);
    let standing = half_closed(&plain, 224);
    let standing = standing.with_limit(2 * least_length(&standing));
    let all_but_one = all_closed(&plain).with_limit(least_length(&plain)).with_mark(plain.marks.len() - 1, OPEN);
    let blamed = blamed(&plain);
    let slip = pass_slip(&blamed);
    let name = "the slip of the first verdict 3 above on a shelf of 63".to_string();
    let put = Standard { name, sheet: blamed.bytes(), operation: Operation::Put(others(&blamed, STORE_SLIPS - 1), slip.clone()), refusal: 0 };
    vec![
        ask("64 nodes, 512 arcs, none required, 224 closures: none of 64 slips applies", &standing, 0, others(&blamed, STORE_SLIPS), 1.0),
        ask("64 nodes, 512 arcs, none required, 575 closures: the last of 64 slips applies", &all_but_one, 1, with_own(&all_but_one), 1.0),
        ask("the sheet of the first verdict 3 above: none of 64 slips applies", &blamed, 3, others(&blamed, STORE_SLIPS), 0.05),
        ask("the same: the last of 64 slips applies", &blamed, 3, with_own(&blamed), 0.05),
        Beside { call: put, other: check("the same slip", &blamed, slip), most: 1.6 },
    ]
}
