//! Times each operation of the library on standard sheets, beside the reference: the same lent memory, turn by turn in one run, the median of many samples.
//!
//!     cargo run --release -p bench
//!
//! With `WAYS_BEFORE` set to the path of an earlier `libplanner.a`, that one takes its turns too, both loaded alike, and the last column is the present
//! library's time in terms of the earlier one's. Where that one cannot make the call, or answers otherwise, a row ends before its columns.
//!
//! A second table has calls on shelves beside other calls on the same sheets, the pass on sheets with service minutes beside that on sheets of the old form, and how
//! much of the others' time they may take.
//!
//! With `WAYS_PROGRAM` and `COST_PROGRAM` set to the paths of the programs, a third table has the times of these.

mod loaded;
mod processes;
mod served;
mod sheets;
mod shelves;

use cases::Draft;
use loaded::Loaded;
use reference::Shelf;
use served::served_rows;
use sheets::{standard, Beside, Operation, Standard};
use shelves::{shelf_rows, Kept};
use std::hint::black_box;
use std::path::Path;
use std::time::{Duration, Instant};
use ways::{Store, SHEET_BYTES, SLIP_BYTES, WORK_BYTES};

const WARM_UP: Duration = Duration::from_millis(100);
const SAMPLES: usize = 1_001;
/// A sample has as many calls as take about this long, so that the clock's own time does not count.
const SAMPLE: Duration = Duration::from_micros(30);

/// The memory that every call is lent.
struct Lent {
    work: Vec<u8>,
    slip: Vec<u8>,
    written: Vec<u8>,
    /// what is put on
    store: Box<Store>,
    shelf: Shelf,
}

impl Lent {
    fn new() -> Lent {
        Lent { work: vec![0; WORK_BYTES], slip: vec![0; SLIP_BYTES], written: vec![0; SHEET_BYTES], store: Store::zeroed(), shelf: Shelf::default() }
    }

    /// Lends a row's own shelf for its puts.
    fn lay_out(&mut self, operation: &Operation) {
        self.slip.fill(0);
        self.written.fill(0);
        if let Operation::Put(kept, _) = operation {
            self.store.clone_from(&kept.store);
            self.shelf.clone_from(&kept.shelf);
        }
    }

    /// Takes off again what was put last, so that the next put finds the shelf as it was.
    fn take_off(&mut self, kept: &Kept) {
        self.store.count = kept.store.count;
        self.shelf.slips.truncate(kept.shelf.slips.len());
    }
}

/// Who is timed.
enum Timed {
    Library,
    Reference,
    Loaded(Loaded),
}

impl Timed {
    fn can(&self, operation: &Operation) -> bool {
        match (self, operation) {
            (Timed::Loaded(loaded), Operation::Write(_)) => loaded.can_write(),
            (Timed::Loaded(loaded), Operation::Put(..) | Operation::Ask(_)) => loaded.can_keep(),
            _ => true,
        }
    }

    fn run(&self, standard: &Standard, lent: &mut Lent) -> u32 {
        if let Operation::Put(kept, _) = &standard.operation {
            lent.take_off(kept);
        }
        let (sheet, work, slip) = (&standard.sheet, &mut lent.work, &mut lent.slip);
        match (self, &standard.operation) {
            (Timed::Library, Operation::Pass) => ways::numbers::pass(sheet, work, slip),
            (Timed::Library, Operation::Reason(item)) => ways::numbers::reason(sheet, work, slip, *item),
            (Timed::Library, Operation::Check(slip)) => ways::numbers::check(sheet, work, slip),
            (Timed::Reference, Operation::Pass) => reference::pass(sheet, work, slip),
            (Timed::Reference, Operation::Reason(item)) => reference::reason(sheet, work, slip, *item),
            (Timed::Reference, Operation::Check(slip)) => reference::check(sheet, work, slip),
            (Timed::Loaded(loaded), Operation::Pass) => loaded.pass(sheet, work, slip),
            (Timed::Loaded(loaded), Operation::Reason(item)) => loaded.reason(sheet, work, slip, *item),
            (Timed::Loaded(loaded), Operation::Check(slip)) => loaded.check(sheet, work, slip),
            (Timed::Library, Operation::Write(draft)) => written(ways::numbers::write, draft, &mut lent.written),
            (Timed::Reference, Operation::Write(draft)) => written(reference::write_sheet, draft, &mut lent.written),
            (Timed::Loaded(loaded), Operation::Write(draft)) => loaded.write(draft, &mut lent.written),
            (Timed::Library, Operation::Put(_, slip)) => ways::numbers::store_put(&mut lent.store, sheet, work, slip),
            (Timed::Reference, Operation::Put(_, slip)) => lent.shelf.put(sheet, work, slip),
            (Timed::Loaded(loaded), Operation::Put(_, slip)) => loaded.put(&mut lent.store, sheet, work, slip),
            (Timed::Library, Operation::Ask(kept)) => ways::numbers::store_ask(&kept.store, sheet, slip),
            (Timed::Reference, Operation::Ask(kept)) => kept.shelf.ask(sheet, slip),
            (Timed::Loaded(loaded), Operation::Ask(kept)) => loaded.ask(&kept.store, sheet, slip),
        }
    }
}

fn written(write: impl Fn([u32; 5], &[u32], &[u8], &[u32], &mut [u8]) -> u32, draft: &Draft, sheet: &mut [u8]) -> u32 {
    write(draft.header, &draft.arcs, &draft.marks, &draft.services, sheet)
}

fn sample(timed: &Timed, standard: &Standard, lent: &mut Lent, calls: u32) -> f64 {
    let start = Instant::now();
    for _ in 0..calls {
        black_box(timed.run(black_box(standard), lent));
    }
    start.elapsed().as_secs_f64() * 1e6 / f64::from(calls)
}

/// Warms up, and says how many calls a sample is to have.
fn warm_up(timed: &Timed, standard: &Standard, lent: &mut Lent) -> u32 {
    let start = Instant::now();
    let mut calls = 0;
    while start.elapsed() < WARM_UP {
        black_box(timed.run(standard, lent));
        calls += 1;
    }
    (calls * SAMPLE.as_micros() as u32 / WARM_UP.as_micros() as u32).max(1)
}

fn median(mut samples: Vec<f64>) -> f64 {
    samples.sort_by(f64::total_cmp);
    samples[samples.len() / 2]
}

/// The number, slip and sheet of a call; none where it cannot be made.
fn answer(timed: &Timed, standard: &Standard, lent: &mut Lent) -> Option<(u32, Vec<u8>, Vec<u8>)> {
    lent.lay_out(&standard.operation);
    timed.can(&standard.operation).then(|| (timed.run(standard, lent), lent.slip.clone(), lent.written.clone()))
}

/// Those whose answers are alike, library and reference among them; a time for anything else would be worth nothing.
fn alike<'a>(all: &'a [Timed], standard: &Standard, lent: &mut Lent) -> &'a [Timed] {
    let answers: Vec<_> = all.iter().map(|timed| answer(timed, standard, lent)).collect();
    let count = answers.iter().take_while(|answer| **answer == answers[0]).count();
    assert!(count >= 2, "library and reference differ: {}", standard.name);
    assert!(answers[0].as_ref().is_some_and(|answer| answer.0 / 65_536 == standard.refusal), "{}", standard.name);
    &all[..count]
}

/// The medians of samples that so many take in turn.
fn medians(count: usize, turns: usize, mut sample: impl FnMut(usize) -> f64) -> Vec<f64> {
    let mut samples = vec![vec![]; count];
    for turn in 0..turns {
        for step in 0..count {
            // there and back again: a call is quicker or slower by what ran before it
            let at = if turn % 2 == 0 { step } else { count - 1 - step };
            samples[at].push(sample(at));
        }
    }
    samples.into_iter().map(median).collect()
}

/// The medians, in microseconds.
fn time(all: &[Timed], standard: &Standard, lent: &mut Lent) -> Vec<f64> {
    let calls: Vec<u32> = all.iter().map(|timed| warm_up(timed, standard, lent)).collect();
    medians(all.len(), SAMPLES, |at| sample(&all[at], standard, lent, calls[at]))
}

/// A time with one decimal, or with three where it is under a microsecond.
fn shown(micros: f64) -> String {
    let decimals = if micros < 1.0 { 3 } else { 1 };
    format!("{micros:.decimals$}")
}

/// A row of the first table.
fn row(all: &[Timed], standard: &Standard, lent: &mut Lent) {
    let times = time(alike(all, standard, lent), standard, lent);
    print!("| {} | {} | {} | {} | {:.2} |", standard.operation.name(), standard.name, shown(times[0]), shown(times[1]), times[0] / times[1]);
    if let Some(before) = times.get(2) {
        print!(" {} | {:.2} |", shown(*before), times[0] / before);
    }
    println!();
}

/// A row of the second table: two calls of one library, turn by turn.
fn beside_row(library: &Timed, Beside { call, other, most }: &Beside, lent: &mut Lent) {
    lent.lay_out(&call.operation);
    let both = [call, other];
    let calls = both.map(|standard| warm_up(library, standard, lent));
    let times = medians(2, SAMPLES, |at| sample(library, both[at], lent, calls[at]));
    let (name, other_name, ratio) = (call.operation.name(), other.operation.name(), times[0] / times[1]);
    println!("| {name} | {} | {} | {other_name} | {} | {ratio:.3} | {most} |", call.name, shown(times[0]), shown(times[1]));
}

fn main() {
    let mut lent = Lent::new();
    let mut all = vec![Timed::Library, Timed::Reference];
    let before = std::env::var_os("WAYS_BEFORE");
    if let Some(archive) = &before {
        all[0] = Timed::Loaded(Loaded::load("present", Path::new(ways::ARCHIVE)));
        all.push(Timed::Loaded(Loaded::load("before", Path::new(archive))));
    }
    let (head, rule) = if before.is_some() { (" before, µs | ratio |", "---:|---:|") } else { ("", "") };
    println!("| operation | sheet | library, µs | reference, µs | ratio |{head}");
    println!("|---|---|---:|---:|---:|{rule}");
    standard().iter().for_each(|standard| row(&all, standard, &mut lent));
    let beside_rows: Vec<Beside> = served_rows().into_iter().chain(shelf_rows()).collect();
    beside_rows.iter().for_each(|beside| row(&all, &beside.call, &mut lent));
    println!("\n| operation | sheet | library, µs | beside | library, µs | ratio | at most |");
    println!("|---|---|---:|---|---:|---:|---:|");
    beside_rows.iter().for_each(|beside| beside_row(&all[0], beside, &mut lent));
    processes::table();
}
