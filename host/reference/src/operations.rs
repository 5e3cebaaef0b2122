//! Pass, reason, check and the writer over lent bytes, as the planner calls them. Each gives 65,536 times the refusal number plus the length of what it wrote, or for
//! check plus 1 for yes.

use crate::graph::Graph;
use crate::number::{write, write_all, ENDS, GREATEST};
use crate::reasons::reasons;
use crate::sheet::{Sheet, FORBIDDEN, MANDATORY, NEW_FORM, OPEN};
use crate::slip::Slip;
use crate::tour::Lengths;

pub type Refusal = u32;

/// The work that a call needs, and zeroes unless it refuses 1 to 13.
pub const WORK_BYTES: usize = 65_536;
/// The slip that pass and reason need.
pub const SLIP_BYTES: usize = 1_200;
/// What a refusal number is multiplied by.
pub const LENGTHS: u32 = 65_536;

const WORK_SHORT: Refusal = 1;
const SLIP_SHORT: Refusal = 2;
const LAST_THAT_KEEPS_WORK: Refusal = 13;
const NO_ITEM: Refusal = 15;
const NOT_PRUNED: Refusal = 16;
const SLIP_ITEMS: Refusal = 18;
const SHEET_SHORT: Refusal = 19;

const NO_GOAL: usize = 1;
const ONE_GOAL: usize = 2;
const ALL_GOALS: usize = 3;
pub const PRUNED: usize = 4;

pub fn pass(sheet: &[u8], work: &mut [u8], slip: &mut [u8]) -> u32 {
    let lent = work_lent(work).and_then(|()| slip_lent(slip));
    let answer = lent.and_then(|()| Sheet::read(sheet)).map(|sheet| pass_on(&sheet, slip));
    outcome(answer, work)
}

pub fn reason(sheet: &[u8], work: &mut [u8], slip: &mut [u8], item: u32) -> u32 {
    let lent = work_lent(work).and_then(|()| slip_lent(slip));
    let answer = lent.and_then(|()| Sheet::read(sheet)).and_then(|sheet| reason_on(&sheet, slip, item as usize));
    outcome(answer, work)
}

pub fn check(sheet: &[u8], work: &mut [u8], slip: &[u8]) -> u32 {
    let answer = work_lent(work).and_then(|()| Sheet::read(sheet)).and_then(|sheet| check_on(&sheet, slip));
    outcome(answer.map(|(_, yes)| yes.into()), work)
}

/// Writes a sheet from the five numbers of its header, the arcs' numbers, the marks and the service minutes. Nothing is judged here but the lists' lengths: the numbers
/// are written, each cut to the greatest that can be, which is over every bound, and the reader judges what was written.
pub fn write_sheet(header: [u32; 5], arcs: &[u32], marks: &[u8], services: &[u32], sheet: &mut [u8]) -> u32 {
    match drafted(header, arcs, marks, services) {
        Err(refusal) => refusal * LENGTHS,
        Ok(bytes) if bytes.len() > sheet.len() => SHEET_SHORT * LENGTHS,
        Ok(bytes) => {
            sheet[..bytes.len()].copy_from_slice(&bytes);
            bytes.len() as u32
        }
    }
}

fn drafted(header: [u32; 5], arcs: &[u32], marks: &[u8], services: &[u32]) -> Result<Vec<u8>, Refusal> {
    let cut = |list: &[u32]| write_all(&list.iter().map(|&value| value.min(GREATEST)).collect::<Vec<_>>());
    // first in the new form, so that a node count of 1 is not read as the number which that form begins with
    let mut bytes = [write_all(&[NEW_FORM]), cut(&header)].concat();
    // a sheet has marks behind its header, so a good header ends too early
    match Sheet::read(&bytes) {
        Err(ENDS) => {}
        Err(refusal) => return Err(refusal),
        Ok(_) => unreachable!("a sheet without marks"),
    }
    let [nodes, arc_count, ..] = header.map(|number| number as usize);
    if arcs.len() != 3 * arc_count || marks.len() != nodes + arc_count || services.len() != nodes {
        return Err(ENDS);
    }
    bytes.extend(cut(arcs));
    bytes.extend(write_all(&marks.iter().map(|&mark| mark.into()).collect::<Vec<u32>>()));
    if services.iter().all(|&minutes| minutes == 0) {
        bytes.remove(0);
    } else {
        bytes.extend(cut(services));
    }
    Sheet::read(&bytes).map(|_| bytes)
}

pub fn work_lent(work: &[u8]) -> Result<(), Refusal> {
    if work.len() < WORK_BYTES {
        Err(WORK_SHORT)
    } else {
        Ok(())
    }
}

pub fn slip_lent(slip: &[u8]) -> Result<(), Refusal> {
    if slip.len() < SLIP_BYTES {
        Err(SLIP_SHORT)
    } else {
        Ok(())
    }
}

/// What a call with work gives and leaves in it.
pub fn outcome(answer: Result<usize, Refusal>, work: &mut [u8]) -> u32 {
    if !matches!(answer, Err(refusal) if refusal <= LAST_THAT_KEEPS_WORK) {
        work[..WORK_BYTES].fill(0);
    }
    one_number(answer)
}

pub fn one_number(answer: Result<usize, Refusal>) -> u32 {
    match answer {
        Ok(length) => length as u32,
        Err(refusal) => refusal * LENGTHS,
    }
}

/// A sheet with the open part of its graph and the lengths from source and to target.
struct Pass<'a> {
    sheet: &'a Sheet,
    graph: Graph,
    lengths: Lengths,
}

impl Pass<'_> {
    fn new(sheet: &Sheet) -> Pass<'_> {
        let graph = Graph::new(sheet, |item| sheet.marks[item] == FORBIDDEN);
        let lengths = Lengths::new(sheet, &graph);
        Pass { sheet, graph, lengths }
    }

    /// Some walk clear of the forbidden items meets the item within the limit (source document 002, propositions 1 and 2).
    fn fits(&self, item: usize) -> bool {
        self.sheet.marks[item] != FORBIDDEN && self.lengths.through_item(self.sheet, item) <= self.sheet.limit
    }

    /// The verdict and its goals. For verdict 3 the goals are in the lengths already.
    fn verdict(&mut self) -> (usize, Vec<usize>) {
        let sheet = self.sheet;
        if !self.fits(sheet.target) {
            return (NO_GOAL, Vec::new());
        }
        if let Some(item) = (0..sheet.items()).find(|&item| sheet.marks[item] == MANDATORY && !self.fits(item)) {
            return (ONE_GOAL, vec![item]);
        }
        if sheet.required_items.is_empty() {
            return (0, Vec::new());
        }
        self.lengths.add_goals(sheet, &self.graph, &sheet.required_items);
        if self.lengths.through_goals(&self.lengths.pairs()) > sheet.limit {
            return (ALL_GOALS, sheet.required_items.clone());
        }
        self.lengths.drop_goals();
        (0, Vec::new())
    }

    fn is_pruned(&self, item: usize) -> bool {
        self.sheet.marks[item] == OPEN && !self.fits(item)
    }

    /// The marks that a pass with verdict 0 leaves, at the front of `marks`.
    fn write_marks(&self, marks: &mut [u8]) {
        let sheet = self.sheet;
        let forced = sheet.ends_of_mandatory() | 1 << sheet.source | 1 << sheet.target;
        for (item, mark) in marks[..sheet.items()].iter_mut().enumerate() {
            let is_forced = item < sheet.nodes && forced >> item & 1 == 1;
            *mark = match sheet.marks[item] {
                OPEN if !self.fits(item) => FORBIDDEN,
                OPEN if is_forced => MANDATORY,
                mark => mark,
            };
        }
    }
}

fn pass_on(sheet: &Sheet, slip: &mut [u8]) -> usize {
    let mut pass = Pass::new(sheet);
    let (verdict, goals) = pass.verdict();
    if verdict == 0 {
        let at = write(0, slip);
        pass.write_marks(&mut slip[at..]);
        return at + sheet.items();
    }
    if verdict == ONE_GOAL {
        pass.lengths.add_goals(sheet, &pass.graph, &goals);
    }
    let reasons = reasons(sheet, &mut pass.graph, &mut pass.lengths);
    Slip { first: verdict, goals, reasons }.write(slip)
}

/// The closures that pruned an item, or 15 or 16.
pub fn reasons_for(sheet: &Sheet, item: usize) -> Result<Vec<usize>, Refusal> {
    if item >= sheet.items() {
        return Err(NO_ITEM);
    }
    let mut pass = Pass::new(sheet);
    if !pass.is_pruned(item) || pass.verdict().0 != 0 {
        return Err(NOT_PRUNED);
    }
    pass.lengths.add_goals(sheet, &pass.graph, &[item]);
    Ok(reasons(sheet, &mut pass.graph, &mut pass.lengths))
}

fn reason_on(sheet: &Sheet, slip: &mut [u8], item: usize) -> Result<usize, Refusal> {
    let reasons = reasons_for(sheet, item)?;
    Ok(Slip { first: PRUNED, goals: vec![item], reasons }.write(slip))
}

/// What the slip says and whether check says yes to it, or 17 or 18.
pub fn check_on(sheet: &Sheet, slip: &[u8]) -> Result<(Slip, bool), Refusal> {
    let slip = Slip::read(slip)?;
    if !is_well_formed(sheet, &slip) {
        return Err(SLIP_ITEMS);
    }
    let marked = slip.reasons.iter().all(|&item| sheet.marks[item] == FORBIDDEN) && slip.goals.iter().all(|&goal| is_goal(sheet, slip.first, goal));
    let yes = marked && is_reason(sheet, &slip);
    Ok((slip, yes))
}

fn is_well_formed(sheet: &Sheet, slip: &Slip) -> bool {
    let known = |list: &[usize]| list.iter().all(|&item| item < sheet.items());
    let ascending = |list: &[usize]| list.windows(2).all(|two| two[0] < two[1]);
    let goals = match slip.first {
        NO_GOAL => 0..=0,
        ALL_GOALS => 1..=8,
        _ => 1..=1,
    };
    known(&slip.goals) && known(&slip.reasons) && ascending(&slip.goals) && ascending(&slip.reasons) && goals.contains(&slip.goals.len())
}

fn is_goal(sheet: &Sheet, first: usize, goal: usize) -> bool {
    match first {
        ONE_GOAL => sheet.marks[goal] == MANDATORY,
        ALL_GOALS => sheet.required_items.contains(&goal),
        _ => sheet.marks[goal] == OPEN,
    }
}

/// No walk clear of the slip's reasons, all else open, meets its goals within the limit. Its goals are no forbidden arcs.
fn is_reason(sheet: &Sheet, slip: &Slip) -> bool {
    let mut closed = vec![false; sheet.items()];
    slip.reasons.iter().for_each(|&item| closed[item] = true);
    let graph = Graph::new(sheet, |item| closed[item]);
    let mut lengths = Lengths::new(sheet, &graph);
    lengths.add_goals(sheet, &graph, &slip.goals);
    lengths.through_goals(&lengths.pairs()) > sheet.limit
}
