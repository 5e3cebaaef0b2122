//! The lines of document 01, 'The sheet B and what it gives', and those that requests 2.3, 2.4 and 2.7 add.

use crate::written::{sheet_b, Sheet, FORBIDDEN, MANDATORY};

/// A starred line: the sheet, the item that reason is asked for or none where pass is called, and the slip.
pub struct Line {
    pub sheet: Sheet,
    pub item: Option<u32>,
    pub slip: &'static [u8],
}

fn pass(sheet: Sheet, slip: &'static [u8]) -> Line {
    Line { sheet, item: None, slip }
}

fn reason(sheet: Sheet, item: u32, slip: &'static [u8]) -> Line {
    Line { sheet, item: Some(item), slip }
}

pub fn starred() -> Vec<Line> {
    let b = sheet_b();
    let both = b.with_mark(1, MANDATORY).with_mark(2, MANDATORY);
    let item_closed = b.with_limit(12).with_mark(4, FORBIDDEN);
    vec![
        pass(b.clone(), &[0, 1, 0, 2, 1, 0, 0, 2, 2, 2]),
        reason(b.clone(), 2, &[4, 1, 2, 0]),
        pass(b.with_limit(7), &[1, 0, 0]),
        pass(b.with_mark(2, MANDATORY), &[2, 1, 2, 0]),
        pass(item_closed.clone(), &[0, 1, 2, 0, 1, 2, 2, 0, 0, 2]),
        reason(item_closed, 1, &[4, 1, 1, 1, 4]),
        pass(both.with_limit(13), &[3, 2, 1, 2, 0]),
        pass(both.with_limit(14), &[0, 1, 1, 1, 1, 0, 0, 0, 0, 0]),
        pass(both.with_limit(14).with_mark(8, FORBIDDEN), &[3, 2, 1, 2, 1, 8]),
        pass(b.with_mark(1, FORBIDDEN), &[1, 0, 1, 1]),
        pass(b.with_mark(1, FORBIDDEN).with_mark(5, FORBIDDEN), &[1, 0, 1, 5]),
        pass(b.with_limit(13).with_mark(8, MANDATORY), &[2, 1, 8, 0]),
        pass(ramp(), &[3, 2, 1, 6, 0]),
    ]
}

/// B with a mandatory node and a mandatory arc. A walk over the node can touch both ends of the arc, and has no time to drive it.
fn ramp() -> Sheet {
    sheet_b().with_limit(14).with_marks([1, 6], MANDATORY)
}

/// Lines of request 2.3 that are not starred: arcs that one walk drives, and twins without and with a way back.
pub fn driven() -> Vec<Line> {
    let arcs = [[0, 1, 1], [0, 1, 1], [1, 0, 1]];
    vec![
        pass(sheet_b().with_limit(14).with_marks([4, 8], MANDATORY), &[0, 1, 1, 1, 1, 1, 0, 0, 0, 1]),
        pass(Sheet::new(2, 0, 1, 9, &arcs[..2]).with_marks([2, 3], MANDATORY), &[3, 2, 2, 3, 0]),
        pass(Sheet::new(2, 0, 1, 9, &arcs).with_marks([2, 3], MANDATORY), &[0, 1, 1, 1, 1, 0]),
    ]
}

/// B with two service minutes at node 1.
pub fn served_b() -> Sheet {
    sheet_b().with_services(&[0, 2, 0, 0])
}

/// Lines of request 2.7: service minutes make the walk longer, and count again where a walk passes its source, another node or its target a second time.
pub fn served() -> Vec<Line> {
    let b = served_b();
    let to_source = Sheet::new(3, 0, 1, 3, &[[0, 1, 0], [0, 2, 1], [2, 0, 1]]).with_mark(2, MANDATORY).with_services(&[2, 0, 0]);
    let twice = Sheet::new(4, 0, 3, 8, &[[0, 1, 1], [1, 2, 1], [2, 1, 1], [1, 3, 1]]).with_marks([1, 2], MANDATORY).with_services(&[0, 2, 0, 0]);
    let to_target = Sheet::new(3, 0, 1, 6, &[[0, 1, 1], [1, 2, 1], [2, 1, 1]]).with_mark(2, MANDATORY).with_services(&[0, 2, 0]);
    vec![
        pass(b.clone(), &[1, 0, 0]),
        pass(b.with_limit(10), &[0, 1, 0, 2, 1, 0, 0, 2, 2, 2]),
        reason(b.with_limit(10), 2, &[4, 1, 2, 0]),
        pass(to_source.clone(), &[2, 1, 2, 0]),
        pass(to_source.with_limit(4), &[0, 1, 1, 1, 0, 0, 0]),
        pass(twice.clone(), &[0, 1, 1, 1, 1, 0, 0, 0, 0]),
        pass(twice.with_limit(7), &[2, 1, 2, 0]),
        pass(to_target.clone(), &[2, 1, 2, 0]),
        pass(to_target.with_limit(7), &[0, 1, 1, 1, 0, 0, 0]),
    ]
}

/// Slips with first number 3, with the sheet, and whether check says yes. No walk meets the goals of those that name 1 and 6, so for them the goals' marks decide.
pub fn checks() -> Vec<(Sheet, &'static [u8], bool)> {
    let ramp = ramp();
    let marked_ends = ramp.with_marks([0, 2, 3], MANDATORY);
    vec![
        (ramp.clone(), &[3, 2, 1, 6, 0], true),
        (ramp.clone(), &[3, 2, 1, 2, 0], false),
        (ramp.clone(), &[3, 2, 1, 4, 0], false),
        (ramp.clone(), &[3, 1, 6, 0], false),
        (ramp.clone(), &[3, 3, 1, 4, 6, 0], false),
        (ramp, &[3, 3, 1, 2, 6, 0], false),
        (marked_ends.clone(), &[3, 2, 1, 6, 0], true),
        (marked_ends.clone(), &[3, 3, 0, 1, 6, 0], false),
        (marked_ends.clone(), &[3, 3, 1, 2, 6, 0], false),
        (marked_ends, &[3, 3, 1, 3, 6, 0], false),
    ]
}

/// Sheets with eight required items, each beside the same with one more: nodes and arcs, the walk's ends and the arcs' ends marked too, arcs from source to target
/// and out of the target.
pub fn eight_and_nine() -> Vec<[Sheet; 2]> {
    let arcs: Vec<[u32; 3]> = (0..15).map(|node| [node, node + 1, 1]).collect();
    let chain = Sheet::new(16, 0, 15, 30, &arcs);
    let nodes = chain.with_marks(1..9, MANDATORY);
    let arcs = chain.with_marks(16..24, MANDATORY);
    let mixed = chain.with_marks([10, 11, 12, 13, 17, 19, 21, 23], MANDATORY);
    let twins = |arc: [u32; 3]| Sheet::new(2, 0, 1, 99, &[arc; 9]).with_marks(2..10, MANDATORY);
    let with_ninth = [
        (nodes.with_marks([0, 15], MANDATORY), 9),
        (nodes.with_marks([9, 17], MANDATORY), 10),
        (nodes, 30),
        (arcs.with_marks(0..9, MANDATORY), 24),
        (arcs.with_marks(0..9, FORBIDDEN), 12),
        (arcs, 30),
        (mixed.with_marks(1..9, MANDATORY), 14),
        (mixed.with_marks(1..9, FORBIDDEN), 24),
        (twins([0, 1, 1]), 10),
        (twins([1, 0, 1]), 10),
    ];
    with_ninth.into_iter().map(|(eight, item)| [eight.clone(), eight.with_mark(item, MANDATORY)]).collect()
}

/// Eleven nodes and no arc, of which the first few after the source are mandatory.
pub fn with_required(count: u32) -> Sheet {
    Sheet { marks: (0..11).map(|node| u32::from((1..=count).contains(&node))).collect(), ..Sheet::new(11, 0, 10, 8, &[]) }
}

/// What the formats decide: the sheet's bytes, the slip's length, and the refusal, 0 where the pass finishes.
pub fn formats() -> Vec<(Vec<u8>, usize, u32)> {
    let b = sheet_b().bytes();
    let with_services = |services: &[u8]| [&[1], &b[..], services].concat();
    let zeros = with_services(&[0; 4]);
    let mut all = vec![
        (with_services(&[0, 2, 0, 0]), 1_200, 0),
        (with_services(&[0, 0, 0, 1]), 1_200, 0),
        (with_services(&[0xd8, 4, 0, 0, 0]), 1_200, 0),
        (with_services(&[0xd9, 4, 0, 0, 0]), 1_200, 11),
        (with_services(&[0, 0, 0, 0xd8, 4]), 1_200, 0),
        (with_services(&[0, 0, 0, 0xd9, 4]), 1_200, 11),
        (zeros[..zeros.len() - 1].to_vec(), 1_200, 3),
        ([&zeros[..zeros.len() - 1], &[0x80, 0]].concat(), 1_200, 4),
        ([&zeros[..], &[0]].concat(), 1_200, 11),
        (zeros, 1_200, 11),
        (with_services(&[0, 2, 0, 0, 0]), 1_200, 12),
        ([&b[..], &[0, 2, 0, 0]].concat(), 1_200, 12),
        (with_required(8).with_services(&[1; 11]).bytes(), 1_200, 0),
        (with_required(9).with_services(&[1; 11]).bytes(), 1_200, 13),
        (with_required(9).with_services(&[0; 11]).bytes(), 1_200, 11),
    ];
    let beginnings: [(&[u8], u32); 16] = [
        (&[0], 5),
        (&[1], 3),
        (&[2], 3),
        (&[64], 3),
        (&[65], 5),
        (&[0x81, 0], 4),
        (&[0x81], 3),
        (&[1, 0], 5),
        (&[1, 1], 5),
        (&[1, 2], 3),
        (&[1, 64], 3),
        (&[1, 65], 5),
        (&[1, 0x84, 0], 4),
        (&[1, 0x81, 0], 4),
        (&[1, 0x84], 3),
        (&[1, 1, 2], 5),
    ];
    all.extend(beginnings.map(|(bytes, refusal)| (bytes.to_vec(), 1_200, refusal)));
    all.extend([
        (vec![], 1_200, 3),
        ([&b[..], &[0]].concat(), 1_200, 12),
        ([&[0x80, 0], &b[1..]].concat(), 1_200, 4),
        ([&b[..4], &[0xc0, 0x84, 0x3d], &b[5..]].concat(), 1_200, 0),
        ([&b[..4], &[0xc1, 0x84, 0x3d], &b[5..]].concat(), 1_200, 8),
        ([&b[..7], &[0xff, 0xff, 0x03], &b[8..]].concat(), 1_200, 0),
        ([&b[..7], &[0x80, 0x80, 0x04], &b[8..]].concat(), 1_200, 10),
        (b, 1_199, 2),
        (with_required(8).bytes(), 1_200, 0),
        (with_required(9).bytes(), 1_200, 13),
        (Sheet::new(2, 0, 1, 99, &[[0, 1, 1]; 9]).with_marks(2..11, MANDATORY).bytes(), 1_200, 13),
    ]);
    all
}

/// What `cost` reads, and what it prints.
pub fn costs() -> Vec<(Vec<u8>, &'static str)> {
    let b = sheet_b();
    let bytes = b.bytes();
    vec![
        (b.asked_for(2), "-4\n"),
        (b.asked_for(8), "-6\n"),
        (b.with_limit(12).with_mark(4, FORBIDDEN).asked_for(1), "none\n8\n"),
        (b.with_limit(14).with_marks([5, 8], FORBIDDEN).asked_for(1), "none\n8\n14\n"),
        (b.with_mark(6, FORBIDDEN).asked_for(2), "-6\n"),
        (served_b().with_limit(10).asked_for(2), "-2\n"),
        (served_b().with_limit(12).with_mark(4, FORBIDDEN).asked_for(1), "none\n10\n"),
        (b.asked_for(1), "refused 16\n"),
        (b.asked_for(9), "refused 15\n"),
        ([b.asked_for(9), vec![0]].concat(), "refused 12\n"),
        (vec![], "refused 3\n"),
        ([vec![0x82, 0], bytes].concat(), "refused 4\n"),
        (vec![2], "refused 3\n"),
    ]
}
