//! The least length of a walk through several goals, from the lengths between pairs of them.

use crate::graph::{Graph, Row, MISSING};
use crate::sheet::{Arc, Sheet, FORBIDDEN};

const MOST_GOALS: usize = 8;
pub const MOST_POINTS: usize = MOST_GOALS + 1;

/// A goal as a stretch of a walk: it is entered at one node and left at another, and takes its own minutes, in which the touch of the entry is not counted. A node
/// is both, and takes none.
#[derive(Clone, Copy)]
pub struct Point {
    pub entry: usize,
    pub exit: usize,
    pub own: u64,
}

impl Point {
    fn of(sheet: &Sheet, item: usize) -> Point {
        if item < sheet.nodes {
            return Point { entry: item, exit: item, own: 0 };
        }
        let arc = item - sheet.nodes;
        let Arc { tail, head, .. } = sheet.arcs[arc];
        Point { entry: tail as usize, exit: head as usize, own: sheet.driven(arc) }
    }
}

/// The lengths to each point (first number) from each point (second).
pub type Pairs = [[u64; MOST_POINTS]; MOST_POINTS];

/// Rows from and to the points of a walk. Point 0 is what the walk leaves at its source and enters at its target; the goals follow.
pub struct Lengths {
    pub points: Vec<Point>,
    pub from: Vec<Row>,
    pub to: Vec<Row>,
}

impl Lengths {
    /// Without goals yet.
    pub fn new(sheet: &Sheet, graph: &Graph) -> Lengths {
        let ends = Point { entry: sheet.target, exit: sheet.source, own: 0 };
        Lengths { points: vec![ends], from: vec![graph.from(sheet.source)], to: vec![graph.to(sheet.target)] }
    }

    /// Adds goals, with the lengths from each. The caller sees to it that no goal is a closed arc.
    pub fn add_goals(&mut self, sheet: &Sheet, graph: &Graph, goals: &[usize]) {
        for &goal in goals {
            let point = Point::of(sheet, goal);
            self.points.push(point);
            self.from.push(graph.from(point.exit));
        }
    }

    pub fn drop_goals(&mut self) {
        self.points.truncate(1);
        self.from.truncate(1);
    }

    /// Adds the lengths to each goal.
    pub fn add_lengths_to_goals(&mut self, graph: &Graph) {
        for point in &self.points[self.to.len()..] {
            self.to.push(graph.to(point.entry));
        }
    }

    pub fn pairs(&self) -> Pairs {
        let mut pairs = [[MISSING; MOST_POINTS]; MOST_POINTS];
        for (to, point) in pairs.iter_mut().zip(&self.points) {
            for (length, row) in to.iter_mut().zip(&self.from) {
                *length = row[point.entry];
            }
        }
        pairs
    }

    /// The least length of a walk that meets one item. The caller sees to it that it is no closed arc.
    pub fn through_item(&self, sheet: &Sheet, item: usize) -> u64 {
        let Point { entry, exit, own } = Point::of(sheet, item);
        self.from[0][entry] + own + self.to[0][exit]
    }

    /// The least length of a walk that meets the goals, given the lengths between pairs.
    pub fn through_goals(&self, pairs: &Pairs) -> u64 {
        let goals = self.points.len() - 1;
        if goals == 0 {
            return pairs[0][0];
        }
        // by the set of goals met and the last of them, which the set includes: the least length from the source
        let mut table = [[MISSING; MOST_GOALS]; 1 << MOST_GOALS];
        for set in 1..1usize << goals {
            for last in (0..goals).filter(|last| set >> last & 1 == 1) {
                let before = set & !(1 << last);
                let start = if before == 0 { pairs[last + 1][0] } else { MISSING };
                let way = shortest(start, &table[before], &pairs[last + 1]);
                table[set][last] = (way + self.points[last + 1].own).min(MISSING);
            }
        }
        shortest(MISSING, &table[(1 << goals) - 1], &pairs[0])
    }
}

/// The least of `start` and what is reached over one of the goals.
fn shortest(start: u64, reached: &[u64; MOST_GOALS], onward: &[u64; MOST_POINTS]) -> u64 {
    let lengths = reached.iter().zip(&onward[1..]).map(|(a, b)| a + b);
    lengths.fold(start, u64::min)
}

/// The least length of a walk of the sheet that is clear of the forbidden items and meets the goals, or none.
pub fn least(sheet: &Sheet, goals: &[usize]) -> Option<u64> {
    if goals.iter().any(|&goal| sheet.marks[goal] == FORBIDDEN) {
        return None;
    }
    let graph = Graph::new(sheet, |item| sheet.marks[item] == FORBIDDEN);
    let mut lengths = Lengths::new(sheet, &graph);
    lengths.add_goals(sheet, &graph, goals);
    let length = lengths.through_goals(&lengths.pairs());
    (length < MISSING).then_some(length)
}
