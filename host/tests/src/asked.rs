//! Sheets whose limit is close to a length, and the items to ask for on them.

use cases::{Random, Sheet, OPEN};

/// A limit as drawn, or the least length through some goals, or one below.
pub fn with_close_limit(sheet: Sheet, random: &mut Random) -> Sheet {
    let Ok(read) = reference::Sheet::read(&sheet.bytes()) else {
        return sheet;
    };
    let goals = match random.below(6) {
        0 => return sheet,
        1 => vec![],
        2 => vec![random.below(read.items())],
        _ => read.required_items.clone(),
    };
    let Some(least) = reference::least(&read, &goals) else {
        return sheet;
    };
    let limit = least.saturating_sub(random.below(2) as u64).min(1_000_000);
    sheet.with_limit(limit as u32)
}

/// Items to ask the reason for: struck ones, any, and some that are not there.
pub fn items_to_ask(sheet: &Sheet, slip: &[u8], random: &mut Random) -> Vec<u32> {
    let items = sheet.marks.len();
    let mut ask: Vec<u32> = [random.below(items), items - 1].map(|item| item as u32).to_vec();
    if random.chance(1, 8) {
        ask.extend([items as u32, items as u32 + 1, 65_536, u32::MAX]);
    }
    if slip[0] == 0 {
        let struck: Vec<usize> = (0..items).filter(|&item| sheet.marks[item] == OPEN && slip[item + 1] == 2).collect();
        for _ in 0..struck.len().min(3) {
            ask.push(random.pick(&struck) as u32);
        }
    }
    ask
}
