//! The list of reasons (document 01, 'Reasons').

use crate::graph::{Graph, MISSING};
use crate::sheet::{Sheet, FORBIDDEN};
use crate::tour::{Lengths, Pairs, MOST_POINTS};

/// The reasons for the goals of `lengths`, ascending. No walk may meet these goals within the limit at the start.
pub fn reasons(sheet: &Sheet, graph: &mut Graph, lengths: &mut Lengths) -> Vec<usize> {
    lengths.add_lengths_to_goals(graph);
    let mut pairs = lengths.pairs();
    let mut listed = Vec::new();
    for item in (0..sheet.items()).filter(|&item| sheet.marks[item] == FORBIDDEN) {
        let opening = Opening::of(sheet, graph, lengths, item);
        let (opened, shorter) = opening.pairs(&pairs, lengths.points.len());
        if shorter && lengths.through_goals(&opened) <= sheet.limit {
            listed.push(item);
        } else {
            pairs = opened;
            opening.keep(sheet, graph, lengths, item);
        }
    }
    listed
}

/// What opening an item gives: a stretch from `tail` to `head`, in whose minutes the touch of the tail is not counted. A node is a stretch of no minutes from itself to
/// itself.
struct Opening {
    tail: usize,
    head: usize,
    own: u64,
    /// from each point through the item
    into: [u64; MOST_POINTS],
    /// from the item's end to each point
    onward: [u64; MOST_POINTS],
}

impl Opening {
    fn of(sheet: &Sheet, graph: &Graph, lengths: &Lengths, item: usize) -> Opening {
        if item < sheet.nodes {
            Opening::of_node(graph, lengths, item)
        } else {
            Opening::of_arc(sheet, graph, lengths, item - sheet.nodes)
        }
    }

    fn of_node(graph: &Graph, lengths: &Lengths, node: usize) -> Opening {
        let mut opening = Opening { tail: node, head: node, own: 0, into: [MISSING; MOST_POINTS], onward: [MISSING; MOST_POINTS] };
        for (i, point) in lengths.points.iter().enumerate() {
            opening.into[i] = graph.opened_from(node, point.exit, &lengths.from[i]);
            opening.onward[i] = graph.opened_to(node, point.entry, &lengths.to[i]);
        }
        opening
    }

    /// A node that is closed when the arcs' turn comes stays closed. It has no length in any row, so an arc at it gives nothing.
    fn of_arc(sheet: &Sheet, graph: &Graph, lengths: &Lengths, arc: usize) -> Opening {
        let (tail, head) = (sheet.arcs[arc].tail as usize, sheet.arcs[arc].head as usize);
        let own = sheet.driven(arc);
        let mut opening = Opening { tail, head, own, into: [MISSING; MOST_POINTS], onward: [MISSING; MOST_POINTS] };
        if graph.is_open(tail) && graph.is_open(head) {
            for i in 0..lengths.points.len() {
                opening.into[i] = lengths.from[i][tail] + own;
                opening.onward[i] = lengths.to[i][head];
            }
        }
        opening
    }

    /// The lengths between pairs with the item open, and whether one is shorter than it was.
    fn pairs(&self, pairs: &Pairs, points: usize) -> (Pairs, bool) {
        let mut opened = *pairs;
        let mut shorter = false;
        for (to, onward) in opened.iter_mut().zip(&self.onward).take(points) {
            for (length, into) in to.iter_mut().zip(&self.into).take(points) {
                if into + onward < *length {
                    *length = into + onward;
                    shorter = true;
                }
            }
        }
        (opened, shorter)
    }

    /// Opens the item for good and mends the rows.
    fn keep(&self, sheet: &Sheet, graph: &mut Graph, lengths: &mut Lengths, item: usize) {
        match item.checked_sub(sheet.nodes) {
            None => graph.open_node(item),
            Some(arc) => graph.open_arc(sheet, arc),
        }
        for (row, &into) in lengths.from.iter_mut().zip(&self.into) {
            graph.nearer_from(row, self.head, into);
        }
        for (row, &onward) in lengths.to.iter_mut().zip(&self.onward) {
            graph.nearer_to(row, self.tail, onward + self.own);
        }
    }
}
