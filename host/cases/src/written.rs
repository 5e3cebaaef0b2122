//! Sheets as numbers, and their bytes.

pub const OPEN: u32 = 0;
pub const MANDATORY: u32 = 1;
pub const FORBIDDEN: u32 = 2;

/// The numbers of a sheet. They need not keep to the rules: a faulty sheet is written as readily as a good one.
#[derive(Clone, Debug)]
pub struct Sheet {
    pub nodes: u32,
    pub source: u32,
    pub target: u32,
    pub limit: u32,
    /// tail, head, minutes
    pub arcs: Vec<[u32; 3]>,
    /// the nodes' marks, then the arcs'
    pub marks: Vec<u32>,
    /// the nodes' service minutes; none in the old form
    pub services: Vec<u32>,
}

impl Sheet {
    /// All items open, in the old form.
    pub fn new(nodes: u32, source: u32, target: u32, limit: u32, arcs: &[[u32; 3]]) -> Sheet {
        let marks = vec![OPEN; nodes as usize + arcs.len()];
        Sheet { nodes, source, target, limit, arcs: arcs.to_vec(), marks, services: vec![] }
    }

    pub fn with_limit(&self, limit: u32) -> Sheet {
        Sheet { limit, ..self.clone() }
    }

    pub fn with_mark(&self, item: usize, mark: u32) -> Sheet {
        self.with_marks([item], mark)
    }

    pub fn with_marks(&self, items: impl IntoIterator<Item = usize>, mark: u32) -> Sheet {
        let mut sheet = self.clone();
        items.into_iter().for_each(|item| sheet.marks[item] = mark);
        sheet
    }

    /// In the new form, or with no services in the old one.
    pub fn with_services(&self, services: &[u32]) -> Sheet {
        Sheet { services: services.to_vec(), ..self.clone() }
    }

    pub fn is_new_form(&self) -> bool {
        !self.services.is_empty()
    }

    /// The minutes that a walk takes for a touch of a node, unless it starts with it.
    pub fn service(&self, node: u32) -> u32 {
        self.services.get(node as usize).copied().unwrap_or(0)
    }

    pub fn service_list(&self) -> Vec<u32> {
        (0..self.nodes).map(|node| self.service(node)).collect()
    }

    /// The sheet of the old form on which every walk takes as long: the service minutes are added to those of the arcs that come to the node.
    pub fn in_old_form(&self) -> Sheet {
        let arcs = self.arcs.iter().map(|&[tail, head, minutes]| [tail, head, minutes + self.service(head)]).collect();
        Sheet { arcs, services: vec![], ..self.clone() }
    }

    pub fn header(&self) -> [u32; 5] {
        [self.nodes, self.arcs.len() as u32, self.source, self.target, self.limit]
    }

    pub fn numbers(&self) -> Vec<u32> {
        let content = [&self.header()[..], self.arcs.as_flattened(), &self.marks].concat();
        if self.is_new_form() {
            [&[1], &content[..], &self.services].concat()
        } else {
            content
        }
    }

    pub fn bytes(&self) -> Vec<u8> {
        numbers(&self.numbers())
    }

    /// What `cost` reads: the number of an item, and the sheet behind it.
    pub fn asked_for(&self, item: u32) -> Vec<u8> {
        [number(item), self.bytes()].concat()
    }
}

/// A number in groups of seven bits, in its shortest form.
pub fn number(mut value: u32) -> Vec<u8> {
    let mut bytes = Vec::new();
    while value >= 128 {
        bytes.push(value as u8 | 128);
        value >>= 7;
    }
    bytes.push(value as u8);
    bytes
}

pub fn numbers(values: &[u32]) -> Vec<u8> {
    values.iter().flat_map(|&value| number(value)).collect()
}

/// The numbers in bytes that are well written.
pub fn numbers_in(bytes: &[u8]) -> Vec<u32> {
    let (mut all, mut value, mut shift) = (vec![], 0, 0);
    for &byte in bytes {
        value |= u32::from(byte & 127) << shift;
        shift += 7;
        if byte < 128 {
            all.push(value);
            (value, shift) = (0, 0);
        }
    }
    all
}

/// The longest sheet that there is in the new form, and without its services in the old one.
pub fn longest() -> Sheet {
    let arcs: Vec<[u32; 3]> = (0..512).map(|arc| [arc % 64, (arc + 1) % 64, 65_535]).collect();
    Sheet::new(64, 0, 15, 1_000_000, &arcs).with_services(&[600; 64])
}

/// The sheet B of document 01.
pub fn sheet_b() -> Sheet {
    Sheet::new(4, 0, 3, 8, &[[0, 1, 4], [1, 3, 4], [0, 2, 3], [2, 3, 9], [1, 2, 1]])
}

/// Nodes in a row from the source 1 over 2, 3, .. to the target 0, and behind these arcs some from the target back to the source, all of them mandatory. Every walk
/// that drives them all goes along the row once more than there are of them, so that no walk has fewer than nodes × (1 + mandatory) − 1 arcs.
pub fn ring(nodes: u32, mandatory: usize, minutes: u32) -> Sheet {
    let along = (1..nodes).map(|tail| [tail, (tail + 1) % nodes, minutes]);
    let arcs: Vec<[u32; 3]> = along.chain(vec![[0, 1, minutes]; mandatory]).collect();
    let sheet = Sheet::new(nodes, 1, 0, 0, &arcs);
    let items = sheet.marks.len();
    sheet.with_marks(items - mandatory..items, MANDATORY)
}

/// A sheet of 64 nodes and 512 arcs, and a node on it that only forbidden arcs enter, 385 of them side by side. To open any one of them would do, so all are listed.
/// The other nodes lie in a ring with arcs both ways.
pub fn behind_closures() -> (Sheet, u32) {
    let (node, across, ring) = (63, 31, 0..63);
    let along = ring.flat_map(|tail| [[tail, (tail + 1) % 63, 10], [(tail + 1) % 63, tail, 10]]);
    let closures = (1..=385).map(|minutes| [across, node, minutes]);
    let arcs: Vec<[u32; 3]> = along.chain([[node, across, 10]]).chain(closures).collect();
    let sheet = Sheet::new(64, 0, 62, 1_100, &arcs);
    let items = sheet.marks.len();
    (sheet.with_marks(items - 385..items, FORBIDDEN), node)
}
