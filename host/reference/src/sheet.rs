//! The sheet in its two forms and its reader, refusals 3 to 13.

use crate::number::Reader;
use crate::operations::Refusal;

pub const OPEN: u8 = 0;
pub const MANDATORY: u8 = 1;
pub const FORBIDDEN: u8 = 2;

const MOST_NODES: u32 = 64;
const MOST_ARCS: u32 = 512;
const MOST_LIMIT: u32 = 1_000_000;
const MOST_MINUTES: u32 = 65_535;
const MOST_SERVICE: u32 = 600;
const MOST_REQUIRED: usize = 8;

/// What the new form begins with (request 2.7). It is no node count.
pub const NEW_FORM: u32 = 1;

const NODE_COUNT: Refusal = 5;
const ARC_COUNT: Refusal = 6;
const ENDS_OF_WALK: Refusal = 7;
const LIMIT: Refusal = 8;
const ARC_END: Refusal = 9;
const MINUTES: Refusal = 10;
const MARK: Refusal = 11;
const SERVICE: Refusal = 11;
const BYTES_REMAIN: Refusal = 12;
const TOO_MANY_REQUIRED: Refusal = 13;

#[derive(Clone, Copy, Debug, PartialEq, Eq)]
pub struct Arc {
    pub tail: u32,
    pub head: u32,
    pub minutes: u32,
}

/// What a sheet says. `marks` has the nodes' marks and then the arcs'.
#[derive(Clone, Debug)]
pub struct Sheet {
    pub nodes: usize,
    pub arcs: Vec<Arc>,
    pub source: usize,
    pub target: usize,
    pub limit: u64,
    pub marks: Vec<u8>,
    /// Of each node the minutes that every touch of it adds to a walk, but for the touch that the walk starts with; all 0 in the old form.
    pub services: Vec<u32>,
    /// ascending (request 2.3: counted things)
    pub required_items: Vec<usize>,
}

impl Sheet {
    /// The sheet, or the number of its first fault. Each number is judged as it is read.
    pub fn read(bytes: &[u8]) -> Result<Sheet, Refusal> {
        let mut reader = Reader { rest: bytes };
        let is_count = |n| (2..=MOST_NODES).contains(&n);
        let first = reader.judged(NODE_COUNT, |x| x == NEW_FORM || is_count(x))?;
        let nodes = if first == NEW_FORM { reader.judged(NODE_COUNT, is_count)? } else { first };
        let arc_count = reader.judged(ARC_COUNT, |m| m <= MOST_ARCS)?;
        let source = reader.judged(ENDS_OF_WALK, |s| s < nodes)?;
        let target = reader.judged(ENDS_OF_WALK, |t| t < nodes && t != source)?;
        let limit = reader.judged(LIMIT, |k| k <= MOST_LIMIT)?;
        let arcs = read_arcs(&mut reader, nodes, arc_count)?;
        let marks = read_marks(&mut reader, nodes + arc_count)?;
        let services = if first == NEW_FORM { read_services(&mut reader, nodes)? } else { vec![0; nodes as usize] };
        if !reader.rest.is_empty() {
            return Err(BYTES_REMAIN);
        }
        let required_items = required_items(nodes as usize, &arcs, &marks, 1 << source | 1 << target);
        if required_items.len() > MOST_REQUIRED {
            return Err(TOO_MANY_REQUIRED);
        }
        let (source, target) = (source as usize, target as usize);
        Ok(Sheet { nodes: nodes as usize, arcs, source, target, limit: limit.into(), marks, services, required_items })
    }

    pub fn items(&self) -> usize {
        self.nodes + self.arcs.len()
    }

    /// What it takes to drive an arc: its minutes, and the touch of its head.
    pub fn driven(&self, arc: usize) -> u64 {
        let Arc { head, minutes, .. } = self.arcs[arc];
        u64::from(minutes + self.services[head as usize])
    }

    /// The nodes that end a mandatory arc, a bit each. All mandatory arcs are required.
    pub fn ends_of_mandatory(&self) -> u64 {
        ends_of_arcs(self.nodes, &self.arcs, &self.required_items)
    }
}

fn read_arcs(reader: &mut Reader, nodes: u32, count: u32) -> Result<Vec<Arc>, Refusal> {
    let mut arcs = Vec::with_capacity(count as usize);
    for _ in 0..count {
        let tail = reader.judged(ARC_END, |x| x < nodes)?;
        let head = reader.judged(ARC_END, |x| x < nodes && x != tail)?;
        let minutes = reader.judged(MINUTES, |x| x <= MOST_MINUTES)?;
        arcs.push(Arc { tail, head, minutes });
    }
    Ok(arcs)
}

fn read_marks(reader: &mut Reader, count: u32) -> Result<Vec<u8>, Refusal> {
    let mut marks = Vec::with_capacity(count as usize);
    for _ in 0..count {
        marks.push(reader.judged(MARK, |x| x <= FORBIDDEN.into())? as u8);
    }
    Ok(marks)
}

/// Where all of them are 0 the last is refused: what such a sheet says has the old form.
fn read_services(reader: &mut Reader, nodes: u32) -> Result<Vec<u32>, Refusal> {
    let mut services = Vec::with_capacity(nodes as usize);
    for _ in 0..nodes {
        services.push(reader.judged(SERVICE, |x| x <= MOST_SERVICE)?);
    }
    if services.iter().all(|&minutes| minutes == 0) {
        return Err(SERVICE);
    }
    Ok(services)
}

/// The nodes that the arcs among the items end at, a bit each.
fn ends_of_arcs(nodes: usize, arcs: &[Arc], items: &[usize]) -> u64 {
    let among = items.iter().filter_map(|item| Some(arcs[item.checked_sub(nodes)?]));
    among.fold(0, |ends, arc| ends | 1 << arc.tail | 1 << arc.head)
}

/// The mandatory arcs, and the mandatory nodes that end neither the walk nor such an arc.
fn required_items(nodes: usize, arcs: &[Arc], marks: &[u8], ends_of_walk: u64) -> Vec<usize> {
    let mut items: Vec<usize> = (0..marks.len()).filter(|&item| marks[item] == MANDATORY).collect();
    let ends = ends_of_walk | ends_of_arcs(nodes, arcs, &items);
    items.retain(|&item| item >= nodes || ends >> item & 1 == 0);
    items
}
