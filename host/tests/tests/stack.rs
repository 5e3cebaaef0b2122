//! The stack that a call needs: every operation on the largest sheets, in a thread with room to spare, to see what it takes, and then in one whose stack has just
//! the bytes that `ways.h` states for it.

use cases::{crowd, longest, Draft, Random, Sheet, Slip, FORBIDDEN, MANDATORY, OPEN};
use tests::{defined, stack_used, REFUSED};
use ways::{numbers, Store, SHEET_BYTES, SLIP_BYTES, STORE_ITEMS, STORE_SLIPS, WORK_BYTES};

const NODES: usize = 64;
const ARCS: usize = 512;

/// Far more than a call needs.
const TO_SPARE: usize = 1 << 20;

/// The ends of a ring, and then of arcs anywhere.
fn ends() -> Vec<(usize, usize)> {
    let mut random = Random::new(1);
    (0..ARCS)
        .map(|arc| {
            let (tail, step) = if arc < NODES { (arc, 1) } else { (random.below(NODES), random.between(1, NODES - 1)) };
            (tail, (tail + step) % NODES)
        })
        .collect()
}

/// 64 nodes and 512 arcs with 1 to `most` minutes, all open.
fn full(most: usize) -> Sheet {
    let mut random = Random::new(2);
    let arcs: Vec<[u32; 3]> = ends().into_iter().map(|(tail, head)| [tail as u32, head as u32, random.between(1, most) as u32]).collect();
    Sheet::new(NODES as u32, 0, NODES as u32 - 1, 0, &arcs)
}

/// Eight mandatory nodes.
fn demanding(sheet: &Sheet) -> Sheet {
    sheet.with_marks((0..8).map(|i| 3 + 7 * i), MANDATORY)
}

/// Eight mandatory arcs of the ring, out of those nodes.
fn driven(sheet: &Sheet) -> Sheet {
    sheet.with_marks((0..8).map(|i| NODES + 3 + 7 * i), MANDATORY)
}

/// Every second arc behind the ring forbidden.
fn half_closed(sheet: &Sheet) -> Sheet {
    sheet.with_marks((2 * NODES..NODES + ARCS).step_by(2), FORBIDDEN)
}

/// The least length through all required items, or with none of them from source to target.
fn least(sheet: &Sheet) -> u32 {
    let read = reference::Sheet::read(&sheet.bytes()).expect("a good sheet");
    reference::least(&read, &read.required_items).expect("a walk") as u32
}

/// Sheets with the first number of the slip that the pass writes for them, in both forms.
fn sheets() -> Vec<(Sheet, u8)> {
    let old = full(100);
    let services: Vec<u32> = (0..NODES as u32).map(|node| node * 7 % 601).collect();
    let new = old.with_services(&services);
    let longest = [longest(), longest().with_services(&[])]
        .into_iter()
        .flat_map(|longest| [(longest.clone(), 0), (demanding(&longest).with_limit(1_000_000), 2), (longest.with_marks(NODES..NODES + ARCS, FORBIDDEN), 1)]);
    [old, new].iter().flat_map(sheets_of).chain(longest).collect()
}

/// Sheets with the map of one.
fn sheets_of(plain: &Sheet) -> Vec<(Sheet, u8)> {
    let eight = demanding(plain);
    let closed = half_closed(&eight);
    let between = (least(&eight) + least(&closed)) / 2;
    let arcs = driven(plain);
    let arcs_closed = half_closed(&arcs);
    let last_mandatory = NODES + ARCS - 1;
    let tight = half_closed(plain);
    vec![
        (eight.with_limit(least(&eight)), 0),
        (closed.with_limit(least(&closed)), 0),
        (tight.with_limit(least(&tight)), 0),
        (plain.with_marks(0..NODES + ARCS, FORBIDDEN).with_limit(least(plain)), 1),
        (closed.with_limit(least(&half_closed(plain)) - 1), 1),
        (plain.with_mark(last_mandatory, MANDATORY).with_limit(least(plain)), 2),
        (closed.with_limit(between), 3),
        (closed.with_limit(least(&eight) - 1), 3),
        (arcs.with_limit(least(&arcs)), 0),
        (arcs_closed.with_limit((least(&arcs) + least(&arcs_closed)) / 2), 3),
        (arcs_closed.with_limit(least(&arcs) - 1), 3),
    ]
}

/// The calls in the order in which they are counted.
#[derive(Clone, Copy)]
enum Operation {
    Pass,
    Reason,
    Check,
    Write,
    Put,
    Ask,
}

const NAMES: [&str; 6] = ["pass", "reason", "check", "write", "put", "ask"];

/// What the header states for each.
fn stated() -> [usize; 6] {
    let mut bytes = [defined("WAYS_STACK_BYTES"); 6];
    bytes[Operation::Put as usize] = defined("WAYS_STORE_STACK_BYTES");
    bytes
}

/// What the calls are lent, and by operation the size of the threads' stacks, the most that was used of them and the calls made.
struct Calls {
    work: Vec<u8>,
    slip: Vec<u8>,
    stack: [usize; 6],
    most: [usize; 6],
    made: [usize; 6],
}

impl Calls {
    fn new(stack: [usize; 6]) -> Calls {
        Calls { work: vec![0; WORK_BYTES], slip: vec![0; SLIP_BYTES], stack, most: [0; 6], made: [0; 6] }
    }

    /// Makes a call in a thread of its own, which has to finish, and gives its number.
    fn call(&mut self, operation: Operation, call: &mut dyn FnMut(&mut [u8], &mut [u8]) -> u32) -> u32 {
        let (work, slip) = (&mut self.work, &mut self.slip);
        let mut number = REFUSED;
        let used = stack_used(self.stack[operation as usize], &mut || number = call(work, slip));
        assert!(number < REFUSED, "{} refused {}", NAMES[operation as usize], number / REFUSED);
        self.most[operation as usize] = self.most[operation as usize].max(used);
        self.made[operation as usize] += 1;
        number
    }

    /// The slips that pass and reason write for a sheet, the first number of the first of them being this.
    fn slips(&mut self, sheet: &Sheet, first: u8) -> Vec<Vec<u8>> {
        let bytes = sheet.bytes();
        let length = self.call(Operation::Pass, &mut |work, slip| numbers::pass(&bytes, work, slip)) as usize;
        assert_eq!(self.slip[0], first);
        let mut written = vec![self.slip[..length].to_vec()];
        let struck = (0..sheet.marks.len()).filter(|&item| first == 0 && sheet.marks[item] == OPEN && written[0][item + 1] == 2).step_by(97);
        for item in struck.collect::<Vec<_>>() {
            let length = self.call(Operation::Reason, &mut |work, slip| numbers::reason(&bytes, work, slip, item as u32)) as usize;
            written.push(self.slip[..length].to_vec());
        }
        written
    }

    fn write(&mut self, sheet: &Sheet) {
        let (draft, mut again) = (Draft::of(sheet), vec![0; SHEET_BYTES]);
        let length = self.call(Operation::Write, &mut |_, _| numbers::write(draft.header, &draft.arcs, &draft.marks, &draft.services, &mut again)) as usize;
        assert_eq!(again[..length], sheet.bytes());
    }

    /// Puts a slip on an empty shelf and on one that has room for one more, and asks both.
    fn keep(&mut self, sheet: &Sheet, slip: &[u8]) {
        let bytes = sheet.bytes();
        for mut store in [Store::zeroed(), crowded(sheet)] {
            assert_eq!(self.call(Operation::Put, &mut |work, _| numbers::store_put(&mut store, &bytes, work, slip)), 0);
            assert!(self.call(Operation::Ask, &mut |_, slip| numbers::store_ask(&store, &bytes, slip)) > 0);
        }
    }

    /// Every operation on the largest sheets.
    fn make_all(&mut self) {
        for (sheet, first) in sheets() {
            self.write(&sheet);
            for slip in self.slips(&sheet, first) {
                let Some(Slip { first, goals, reasons }) = Slip::written(&slip) else { continue };
                assert_eq!(self.call(Operation::Check, &mut |work, _| numbers::check(&sheet.bytes(), work, &slip)), 1);
                if first < 4 && goals.len() + reasons.len() <= STORE_ITEMS {
                    self.keep(&sheet, &slip);
                }
            }
        }
        assert!(self.made.iter().all(|&calls| calls > 2), "{:?}", self.made);
    }
}

/// A shelf for the sheet's map with room for one more slip.
fn crowded(sheet: &Sheet) -> Box<Store> {
    let (closed, slips) = crowd(sheet, STORE_ITEMS);
    let (mut store, mut work) = (Store::zeroed(), vec![0; WORK_BYTES]);
    for slip in &slips[1..STORE_SLIPS] {
        store.put(&closed.bytes(), &mut work, &slip.bytes()).expect("a slip that can be put");
    }
    store
}

#[test]
fn the_largest_sheets() {
    let stated = stated();
    assert_eq!(longest().bytes().len(), defined("WAYS_SHEET_BYTES"));
    let mut calls = Calls::new([TO_SPARE; 6]);
    calls.make_all();
    let nothing = stack_used(TO_SPARE, &mut || {});
    let used: Vec<String> = (0..6).map(|i| format!("{} {} of {}", NAMES[i], calls.most[i] - nothing, stated[i])).collect();
    println!("stack: most used by {}, and {nothing} by the thread itself; calls {:?}", used.join(", "), calls.made);
    assert!(calls.most.iter().zip(stated).all(|(&most, bytes)| most <= bytes), "a call needs more stack than ways.h states: {used:?}");
    Calls::new(stated).make_all();
}

#[test]
fn readme_states_the_same() {
    for name in ["WAYS_STACK_BYTES", "WAYS_STORE_STACK_BYTES"] {
        let bytes = defined(name);
        let stated = format!("{},{:03} bytes (`{name}`)", bytes / 1_000, bytes % 1_000);
        assert!(include_str!("../../../README.md").contains(&stated), "README.md does not say {stated}");
    }
}
