//! Drafts: the numbers that are to become a sheet, good and faulty in every way.

use crate::random::Random;
use crate::written::Sheet;

/// The five numbers of the header, the arcs' numbers, the marks and the service minutes. The lists may have any length.
#[derive(Clone, Debug, PartialEq, Eq)]
pub struct Draft {
    pub header: [u32; 5],
    pub arcs: Vec<u32>,
    pub marks: Vec<u8>,
    pub services: Vec<u32>,
}

impl Draft {
    pub fn of(sheet: &Sheet) -> Draft {
        Draft { header: sheet.header(), arcs: sheet.arcs.concat(), marks: sheet.marks.iter().map(|&mark| mark as u8).collect(), services: sheet.service_list() }
    }
}

/// Numbers at every bound and one over, and such as no sheet can hold.
const ODD: [u32; 22] =
    [0, 1, 2, 63, 64, 65, 127, 128, 511, 512, 513, 600, 601, 65_535, 65_536, 1_000_000, 1_000_001, (1 << 28) - 1, 1 << 28, 1 << 31, u32::MAX - 1, u32::MAX];

/// The draft with one fault or a few, or none that matters: a number exchanged for an odd one, the first or the last items mandatory, no service minutes, a list
/// shorter or longer.
pub fn spoiled(draft: &Draft, random: &mut Random) -> Draft {
    let mut spoiled = draft.clone();
    for _ in 0..random.between(1, 3) {
        spoil(&mut spoiled, random);
    }
    spoiled
}

fn spoil(draft: &mut Draft, random: &mut Random) {
    let odd = random.pick(&ODD);
    match random.below(11) {
        0 => draft.header[random.below(5)] = odd,
        1 | 2 if !draft.arcs.is_empty() => {
            let at = random.below(draft.arcs.len());
            let near = random.pick(&[odd, draft.header[0], draft.header[0].wrapping_sub(1), draft.arcs[at]]);
            draft.arcs[at] = near;
        }
        3 if !draft.marks.is_empty() => {
            let at = random.below(draft.marks.len());
            draft.marks[at] = random.pick(&[0, 1, 2, 3, 127, 128, 255]);
        }
        4 => draft.marks.iter_mut().take(random.between(8, 11)).for_each(|mark| *mark = 1),
        5 => draft.marks.iter_mut().rev().take(random.between(8, 11)).for_each(|mark| *mark = 1),
        6 if !draft.services.is_empty() => {
            let at = random.below(draft.services.len());
            draft.services[at] = random.pick(&[odd, 0, 1, 600, 601]);
        }
        7 => draft.services.fill(0),
        8 => lengthen_or_cut(&mut draft.arcs, random.pick(&[1, 2, 3]), random),
        9 => lengthen_or_cut(&mut draft.services, 1, random),
        _ => lengthen_or_cut(&mut draft.marks, 1, random),
    }
}

fn lengthen_or_cut<T: Copy + Default>(list: &mut Vec<T>, by: usize, random: &mut Random) {
    match random.below(4) {
        0 => list.clear(),
        1 => list.truncate(list.len().saturating_sub(by)),
        _ => list.extend(vec![T::default(); by]),
    }
}
