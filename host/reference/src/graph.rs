//! The open part of a graph, and lengths from or to a node in it by Dijkstra's algorithm.

use crate::sheet::{Arc, Sheet};

const MOST_NODES: usize = 64;
const MOST_ARCS: usize = 512;

/// No walk. It exceeds every limit, and two of them added do not run over.
pub const MISSING: u64 = u64::MAX / 4;

/// For each node the length of a shortest walk from, or to, one node.
pub type Row = [u64; MOST_NODES];

const NO_LINK: u16 = u16::MAX;

#[derive(Clone, Copy)]
struct Link {
    minutes: u32,
    far: u16,
    next: u16,
}

/// For each node a list of the open arcs that leave it, or that come in. Their other end may be closed.
struct Links {
    first: [u16; MOST_NODES],
    links: [Link; MOST_ARCS],
}

impl Links {
    fn empty() -> Links {
        Links { first: [NO_LINK; MOST_NODES], links: [Link { minutes: 0, far: 0, next: NO_LINK }; MOST_ARCS] }
    }

    fn put(&mut self, arc: usize, near: u32, far: u32, minutes: u32) {
        let first = &mut self.first[near as usize];
        self.links[arc] = Link { minutes, far: far as u16, next: *first };
        *first = arc as u16;
    }

    /// The other end and the minutes of each open arc at a node.
    fn of(&self, node: usize) -> impl Iterator<Item = (usize, u64)> + '_ {
        let mut at = self.first[node];
        std::iter::from_fn(move || {
            let link = self.links.get(usize::from(at))?;
            at = link.next;
            Some((usize::from(link.far), u64::from(link.minutes)))
        })
    }

    /// Makes a row exact again after the nodes of `frontier`, a bit each, came nearer. The nearest one is done first: nothing can bring it nearer still. `touch` has
    /// the service minutes of the end that a walk comes to, given the near end and the far one.
    fn mend(&self, open: u64, row: &mut Row, mut frontier: u64, touch: impl Fn(usize, usize) -> u64) {
        while frontier != 0 {
            let near = nearest(row, frontier);
            frontier &= !(1 << near);
            let length = row[near];
            for (far, minutes) in self.of(near) {
                let over = length + minutes + touch(near, far);
                if over < row[far] && open >> far & 1 == 1 {
                    row[far] = over;
                    frontier |= 1 << far;
                }
            }
        }
    }

    /// What a row has for a closed node once it is open: the best of the nodes around it. Those that are closed have no length themselves.
    fn once_open(&self, node: usize, row: &Row, touch: impl Fn(usize, usize) -> u64) -> u64 {
        self.of(node).map(|(far, minutes)| row[far] + minutes + touch(node, far)).fold(MISSING, u64::min)
    }
}

fn nearest(row: &Row, mut set: u64) -> usize {
    let mut near = set.trailing_zeros() as usize;
    set &= set - 1;
    while set != 0 {
        let node = set.trailing_zeros() as usize;
        set &= set - 1;
        if row[node] < row[near] {
            near = node;
        }
    }
    near
}

/// The open part of a sheet's graph: the open nodes, a bit each, and the open arcs by tail and by head. A walk over an arc comes to its head, whichever end it is
/// looked up by; the service minutes of the head are added there, so that a row of lengths from a node counts every touch but that of the node itself, and a row of
/// lengths to a node every touch but that of the node where the length begins.
pub struct Graph {
    open: u64,
    services: Row,
    leaving: Links,
    coming: Links,
}

impl Graph {
    pub fn new(sheet: &Sheet, closed: impl Fn(usize) -> bool) -> Graph {
        let mut graph = Graph { open: 0, services: [0; MOST_NODES], leaving: Links::empty(), coming: Links::empty() };
        graph.services.iter_mut().zip(&sheet.services).for_each(|(service, &minutes)| *service = minutes.into());
        (0..sheet.nodes).filter(|&node| !closed(node)).for_each(|node| graph.open_node(node));
        (0..sheet.arcs.len()).filter(|arc| !closed(sheet.nodes + arc)).for_each(|arc| graph.open_arc(sheet, arc));
        graph
    }

    pub fn is_open(&self, node: usize) -> bool {
        self.open >> node & 1 == 1
    }

    pub fn open_node(&mut self, node: usize) {
        self.open |= 1 << node;
    }

    pub fn open_arc(&mut self, sheet: &Sheet, arc: usize) {
        let Arc { tail, head, minutes } = sheet.arcs[arc];
        self.leaving.put(arc, tail, head, minutes);
        self.coming.put(arc, head, tail, minutes);
    }

    /// The touch at the end of an arc that leaves the near node.
    fn far_head(&self) -> impl Fn(usize, usize) -> u64 + '_ {
        |_, head| self.services[head]
    }

    /// The touch at the end of an arc that comes in to the near node.
    fn near_head(&self) -> impl Fn(usize, usize) -> u64 + '_ {
        |head, _| self.services[head]
    }

    /// The lengths from a node; all missing where it is closed, since a walk touches its first node.
    pub fn from(&self, node: usize) -> Row {
        let mut row = [MISSING; MOST_NODES];
        if self.is_open(node) {
            self.nearer_from(&mut row, node, 0);
        }
        row
    }

    /// The lengths to a node; all missing where it is closed.
    pub fn to(&self, node: usize) -> Row {
        let mut row = [MISSING; MOST_NODES];
        if self.is_open(node) {
            self.nearer_to(&mut row, node, 0);
        }
        row
    }

    /// A row of lengths from somewhere, once `node` has the given length if that is shorter.
    pub fn nearer_from(&self, row: &mut Row, node: usize, length: u64) {
        if length < row[node] {
            row[node] = length;
            self.leaving.mend(self.open, row, 1 << node, self.far_head());
        }
    }

    /// A row of lengths to somewhere, once `node` has the given length if that is shorter.
    pub fn nearer_to(&self, row: &mut Row, node: usize, length: u64) {
        if length < row[node] {
            row[node] = length;
            self.coming.mend(self.open, row, 1 << node, self.near_head());
        }
    }

    /// What a row of lengths from `start` has for a closed node once it is open.
    pub fn opened_from(&self, node: usize, start: usize, row: &Row) -> u64 {
        if node == start {
            0
        } else {
            self.coming.once_open(node, row, self.near_head())
        }
    }

    /// What a row of lengths to `end` has for a closed node once it is open.
    pub fn opened_to(&self, node: usize, end: usize, row: &Row) -> u64 {
        if node == end {
            0
        } else {
            self.leaving.once_open(node, row, self.far_head())
        }
    }
}
