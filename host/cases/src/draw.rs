//! Random sheets of several kinds.

use crate::random::Random;
use crate::written::{number, Sheet, FORBIDDEN, MANDATORY, OPEN};

/// What is special about a sheet.
#[derive(Clone, Copy, Debug, PartialEq, Eq)]
pub enum Kind {
    /// few nodes and arcs: many verdicts, short lists
    Tiny,
    /// up to 16 nodes
    Small,
    /// 64 nodes and 512 arcs
    Full,
    /// arcs of no minutes
    Zero,
    /// many arcs between the same few nodes
    Parallel,
    /// long ways with the greatest weights
    Long,
    /// nearly everything forbidden
    Closed,
    /// as many required items as are allowed, most of them nodes
    Required,
    /// mandatory arcs, eight and nine of them: twins, with ends in common, with ends that are marked too, from source to target, out of the target
    Driven,
}

pub const KINDS: [Kind; 9] = [Kind::Tiny, Kind::Small, Kind::Full, Kind::Zero, Kind::Parallel, Kind::Long, Kind::Closed, Kind::Required, Kind::Driven];

/// A sheet that keeps to every rule of document 01 and request 2.7, but that more than eight items may be required once in a while. Half of them have the new form.
pub fn draw(kind: Kind, random: &mut Random) -> Sheet {
    let (nodes, arc_count) = size(kind, random);
    let source = random.below(nodes);
    let target = (source + random.between(1, nodes - 1)) % nodes;
    let weights = most_minutes(kind, random);
    let arcs: Vec<[u32; 3]> = ends(kind, nodes, (source, target), arc_count, random)
        .into_iter()
        .map(|(tail, head)| [tail as u32, head as u32, random.between(0, weights) as u32])
        .collect();
    let limit = limit(kind, random);
    let mut sheet = Sheet::new(nodes as u32, source as u32, target as u32, limit, &arcs);
    forbid(kind, &mut sheet, random);
    demand(kind, &mut sheet, random);
    if random.chance(1, 2) {
        sheet.services = services(kind, nodes, random);
    }
    sheet
}

fn size(kind: Kind, random: &mut Random) -> (usize, usize) {
    match kind {
        Kind::Tiny => (random.between(2, 6), random.between(0, 16)),
        Kind::Small | Kind::Zero => (random.between(3, 16), random.between(4, 60)),
        Kind::Full => (64, 512),
        Kind::Parallel => (random.between(2, 6), random.between(20, 512)),
        Kind::Long => (random.between(8, 64), random.between(64, 512)),
        Kind::Closed => (random.between(4, 64), random.between(10, 512)),
        Kind::Required => (random.between(11, 64), random.between(40, 512)),
        Kind::Driven => {
            let (nodes, arcs) = random.pick(&[(6, 30), (16, 100), (64, 512)]);
            (random.between(2, nodes), random.between(9, arcs))
        }
    }
}

/// How the arcs of a sheet lie.
#[derive(Clone, Copy)]
enum Shape {
    /// anywhere
    Free,
    /// mostly from a node to the next by number: long ways
    Ring,
    /// mostly out of the source or into the target: each node is near, and all of them together are not
    Fan,
    /// mostly a twin of the arc before or one that goes on where that ends, or from source to target or out of the target
    Linked,
}

/// Tail and head of each arc.
fn ends(kind: Kind, nodes: usize, (source, target): (usize, usize), count: usize, random: &mut Random) -> Vec<(usize, usize)> {
    let shape = match kind {
        Kind::Long => Shape::Ring,
        Kind::Driven => random.pick(&[Shape::Free, Shape::Ring, Shape::Linked, Shape::Linked]),
        _ => random.pick(&[Shape::Free, Shape::Ring, Shape::Fan, Shape::Fan]),
    };
    let ordered = random.between(5, 10);
    let mut ends = vec![];
    while ends.len() < count {
        let (tail, head) = (random.below(nodes), random.below(nodes));
        let (tail, head) = match shape {
            Shape::Ring if random.chance(ordered, 10) => (tail, (tail + 1) % nodes),
            Shape::Fan if random.chance(ordered, 10) => random.pick(&[(source, head), (tail, target)]),
            Shape::Linked if random.chance(ordered, 10) => {
                let before = *ends.last().unwrap_or(&(source, target));
                random.pick(&[before, (before.1, head), (source, target), (target, head)])
            }
            _ => (tail, head),
        };
        if tail != head {
            ends.push((tail, head));
        }
    }
    ends
}

fn most_minutes(kind: Kind, random: &mut Random) -> usize {
    match kind {
        Kind::Zero => random.below(2),
        Kind::Long => 65_535,
        _ => random.pick(&[1, 3, 9, 127, 128, 1_000, 16_384, 65_535]),
    }
}

fn limit(kind: Kind, random: &mut Random) -> u32 {
    let most = match kind {
        Kind::Tiny | Kind::Zero => random.pick(&[0, 4, 20, 1_000]),
        Kind::Long => 1_000_000,
        _ => random.pick(&[10, 100, 1_000, 20_000, 200_000, 1_000_000]),
    };
    random.between(0, most) as u32
}

/// Service minutes of each node, or of a few; of one at least.
fn services(kind: Kind, nodes: usize, random: &mut Random) -> Vec<u32> {
    let most = match kind {
        Kind::Tiny | Kind::Zero => random.pick(&[1, 1, 3, 600]),
        _ => random.pick(&[1, 20, 127, 128, 600]),
    };
    let percent = random.pick(&[0, 30, 100]);
    let mut services: Vec<u32> = (0..nodes).map(|_| if random.chance(percent, 100) { random.between(0, most) as u32 } else { 0 }).collect();
    services[random.below(nodes)] = random.pick(&[1, most as u32]);
    services
}

fn forbid(kind: Kind, sheet: &mut Sheet, random: &mut Random) {
    let (of_nodes, of_arcs) = match kind {
        Kind::Closed => (random.pick(&[0, 0, 0, 50, 100]), random.pick(&[40, 60, 80, 95, 100])),
        _ => (random.pick(&[0, 0, 0, 3, 20]), random.pick(&[0, 5, 20, 50])),
    };
    for item in 0..sheet.marks.len() {
        let percent = if item < sheet.nodes as usize { of_nodes } else { of_arcs };
        if random.chance(percent, 100) {
            sheet.marks[item] = FORBIDDEN;
        }
    }
}

/// Makes items mandatory: nodes, and now and then arcs. Mostly open ones, some forbidden ones.
fn demand(kind: Kind, sheet: &mut Sheet, random: &mut Random) {
    let (nodes, arcs) = match kind {
        Kind::Required => random.pick(&[(8, 0), (8, 0), (6, 1), (4, 2), (0, 4), (9, 0)]),
        Kind::Full => random.pick(&[(0, 0), (1, 0), (8, 0), (4, 2), (2, 1)]),
        Kind::Driven => return demand_arcs(sheet, random),
        _ => random.pick(&[(0, 0), (1, 0), (2, 0), (4, 0), (5, 0), (0, 1), (1, 1), (2, 2)]),
    };
    let count = sheet.nodes as usize;
    for _ in 0..nodes {
        demand_one(sheet, random.below(count), random);
    }
    for _ in 0..arcs.min(sheet.arcs.len()) {
        demand_one(sheet, count + random.below(sheet.arcs.len()), random);
    }
}

/// Makes arcs in a row mandatory, some of their ends, and some other nodes.
fn demand_arcs(sheet: &mut Sheet, random: &mut Random) {
    let (arcs, others) = random.pick(&[(8, 0), (8, 0), (8, 1), (9, 0), (7, 1), (5, 3), (4, 4), (2, 2)]);
    let marked_ends = random.pick(&[0, 20, 100]);
    let count = sheet.nodes as usize;
    let first = random.below(sheet.arcs.len());
    for i in first..first + arcs {
        let arc = i % sheet.arcs.len();
        let [tail, head, _] = sheet.arcs[arc];
        sheet.marks[count + arc] = MANDATORY;
        for end in [tail, head] {
            if random.chance(marked_ends, 100) {
                demand_one(sheet, end as usize, random);
            }
        }
    }
    for _ in 0..others {
        demand_one(sheet, random.below(count), random);
    }
}

fn demand_one(sheet: &mut Sheet, item: usize, random: &mut Random) {
    if sheet.marks[item] == OPEN || random.chance(1, 10) {
        sheet.marks[item] = MANDATORY;
    }
}

/// A sheet's bytes with one fault or a few: a byte changed, left out or put in, the end cut off or something put behind it, a number made too great or badly
/// written, a form that is half the other one.
pub fn damaged(sheet: &Sheet, random: &mut Random) -> Vec<u8> {
    let mut numbers: Vec<Vec<u8>> = sheet.numbers().into_iter().map(number).collect();
    if random.chance(1, 2) {
        let at = random.below(numbers.len());
        let near_front = random.below(numbers.len().min(12));
        let near_end = numbers.len() - 1 - random.below(numbers.len().min(sheet.nodes as usize));
        numbers[random.pick(&[at, near_front, near_front, near_end])] = odd_number(random);
    }
    if random.chance(1, 6) {
        mix_forms(&mut numbers, sheet, random);
    }
    let mut bytes = numbers.concat();
    for _ in 0..random.below(3) {
        damage_bytes(&mut bytes, random);
    }
    bytes
}

/// The number of the new form put in front or left out, with the services as they were; all services 0, with or without it.
fn mix_forms(numbers: &mut Vec<Vec<u8>>, sheet: &Sheet, random: &mut Random) {
    let zeros = vec![number(0); sheet.nodes as usize];
    match random.below(3) {
        0 if sheet.is_new_form() => drop(numbers.remove(0)),
        1 if sheet.is_new_form() => {
            let end = numbers.len() - zeros.len();
            numbers.splice(end.., zeros);
        }
        2 => numbers.extend(zeros),
        _ => numbers.insert(0, number(1)),
    }
}

/// Numbers at and beyond the bounds that the reader knows, and numbers that are badly written.
fn odd_number(random: &mut Random) -> Vec<u8> {
    let values = [0, 1, 2, 3, 63, 64, 65, 127, 128, 511, 512, 513, 600, 601, 16_383, 16_384, 65_535, 65_536, 1_000_000, 1_000_001, 2_097_152, 268_435_455];
    let written: [&[u8]; 7] =
        [&[0x80, 0], &[0x81, 0x80, 0], &[0xff, 0xff, 0xff, 0xff], &[0x80, 0x80, 0x80, 0], &[0x80, 0x80, 0x80, 0x80, 1], &[0x80], &[0xff, 0x7f]];
    if random.chance(2, 3) {
        number(random.pick(&values))
    } else {
        random.pick(&written).to_vec()
    }
}

fn damage_bytes(bytes: &mut Vec<u8>, random: &mut Random) {
    let at = random.below(bytes.len() + 1);
    let any = random.bits() as u8;
    let byte = random.pick(&[0, 1, 2, 3, 0x3f, 0x40, 0x41, 0x7f, 0x80, 0xff, any]);
    match random.below(5) {
        0 if at < bytes.len() => bytes[at] = byte,
        1 if at < bytes.len() => drop(bytes.remove(at)),
        2 => bytes.insert(at, byte),
        3 => bytes.truncate(at),
        _ => bytes.push(byte),
    }
}
