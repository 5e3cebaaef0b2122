//! The shelf of reasons (requests 2.6 and 2.7): slips of refused routes with their sheets' limits, for one map, its service minutes, source and target.

use crate::operations::{check_on, one_number, outcome, slip_lent, work_lent, Refusal, PRUNED};
use crate::sheet::{Arc, Sheet, FORBIDDEN, MANDATORY};
use crate::slip::Slip;

const MOST_SLIPS: usize = 64;
/// goals and reasons together
const MOST_ITEMS: usize = 24;

const NOT_SHELVABLE: Refusal = 20;
const OTHER_MAP: Refusal = 22;
const SHELF_FULL: Refusal = 23;

/// What a shelf is for.
#[derive(Clone, Debug, PartialEq, Eq)]
pub struct Base {
    pub nodes: usize,
    pub arcs: Vec<Arc>,
    pub services: Vec<u32>,
    pub source: usize,
    pub target: usize,
}

impl Base {
    fn of(sheet: &Sheet) -> Base {
        let Sheet { nodes, source, target, .. } = *sheet;
        Base { nodes, arcs: sheet.arcs.clone(), services: sheet.services.clone(), source, target }
    }

    fn is_of(&self, sheet: &Sheet) -> bool {
        let is_same_walk = self.source == sheet.source && self.target == sheet.target;
        is_same_walk && self.nodes == sheet.nodes && self.arcs == sheet.arcs && self.services == sheet.services
    }
}

/// A slip with its sheet's limit.
#[derive(Clone, Debug, PartialEq, Eq)]
pub struct Shelved {
    pub slip: Slip,
    pub limit: u64,
    /// The slip's lists going up, each item once. A slip that was put has them so; one that is read out of any bytes need not.
    goals: Vec<usize>,
    reasons: Vec<usize>,
}

impl Shelved {
    pub fn new(slip: Slip, limit: u64) -> Shelved {
        Shelved { goals: ascending(&slip.goals), reasons: ascending(&slip.reasons), slip, limit }
    }

    fn covers(&self, other: &Shelved) -> bool {
        self.limit >= other.limit && is_subset(&self.goals, &other.goals) && is_subset(&self.reasons, &other.reasons)
    }

    /// Goals that are counted are mandatory too.
    fn applies(&self, sheet: &Sheet) -> bool {
        let all_marked = |items: &[usize], mark: u8| items.iter().all(|&item| sheet.marks.get(item) == Some(&mark));
        self.limit >= sheet.limit && all_marked(&self.slip.reasons, FORBIDDEN) && all_marked(&self.slip.goals, MANDATORY)
    }
}

fn ascending(items: &[usize]) -> Vec<usize> {
    let mut items = items.to_vec();
    items.sort();
    items.dedup();
    items
}

/// Each item of a list is one of the other's; both go up.
fn is_subset(items: &[usize], of: &[usize]) -> bool {
    let mut others = of.iter();
    items.iter().all(|item| others.find(|&other| other >= item) == Some(item))
}

/// The slips, earliest put first, and what they are for; nothing where there are none.
#[derive(Clone, Debug, Default, PartialEq, Eq)]
pub struct Shelf {
    pub base: Option<Base>,
    pub slips: Vec<Shelved>,
}

impl Shelf {
    pub fn put(&mut self, sheet: &[u8], work: &mut [u8], slip: &[u8]) -> u32 {
        let answer = work_lent(work).and_then(|()| Sheet::read(sheet)).and_then(|sheet| self.put_on(&sheet, slip));
        outcome(answer.map(|()| 0), work)
    }

    /// The length of the slip that applies and stands in front of `slip` then, or 0 where none does.
    pub fn ask(&self, sheet: &[u8], slip: &mut [u8]) -> u32 {
        let found = slip_lent(slip).and_then(|()| Sheet::read(sheet)).and_then(|sheet| self.ask_on(&sheet));
        one_number(found.map(|found| found.map_or(0, |found| found.slip.write(slip))))
    }

    /// The bytes of each slip, and its limit.
    pub fn held(&self) -> Vec<(Vec<u8>, u64)> {
        self.slips.iter().map(|shelved| (shelved.slip.bytes(), shelved.limit)).collect()
    }

    fn put_on(&mut self, sheet: &Sheet, slip: &[u8]) -> Result<(), Refusal> {
        let (slip, yes) = check_on(sheet, slip)?;
        if !yes || slip.first == PRUNED || slip.goals.len() + slip.reasons.len() > MOST_ITEMS {
            return Err(NOT_SHELVABLE);
        }
        self.is_for(sheet)?;
        self.enter(sheet, Shelved::new(slip, sheet.limit))
    }

    fn ask_on(&self, sheet: &Sheet) -> Result<Option<&Shelved>, Refusal> {
        self.is_for(sheet)?;
        Ok(self.slips.iter().find(|shelved| shelved.applies(sheet)))
    }

    /// An empty shelf is for every sheet.
    fn is_for(&self, sheet: &Sheet) -> Result<(), Refusal> {
        match &self.base {
            Some(base) if !base.is_of(sheet) => Err(OTHER_MAP),
            _ => Ok(()),
        }
    }

    fn enter(&mut self, sheet: &Sheet, new: Shelved) -> Result<(), Refusal> {
        if self.slips.iter().any(|shelved| shelved.covers(&new)) {
            return Ok(());
        }
        if self.slips.iter().filter(|shelved| !new.covers(shelved)).count() >= MOST_SLIPS {
            return Err(SHELF_FULL);
        }
        self.slips.retain(|shelved| !new.covers(shelved));
        self.slips.push(new);
        self.base.get_or_insert_with(|| Base::of(sheet));
        Ok(())
    }
}
