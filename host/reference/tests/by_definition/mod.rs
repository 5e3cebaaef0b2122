//! Pass, reason, check and what `cost` prints as document 01 and requests 2.3, 2.4 and 2.7 define them, each closure and each item tried anew, over any test whether
//! a walk fits.

use cases::{numbers, Sheet, Slip, FORBIDDEN, MANDATORY, OPEN};
use reference::{check, cost, pass, reason, SLIP_BYTES, WORK_BYTES};

const REFUSED: u32 = 65_536;
const MOST_REQUIRED: usize = 8;

/// Some walk of the sheet from source to target, clear of the closed items, meets the goals within the limit.
pub type Fits = fn(sheet: &Sheet, closed: &[bool], goals: &[usize]) -> bool;

pub fn forbidden(sheet: &Sheet) -> Vec<bool> {
    sheet.marks.iter().map(|&mark| mark == FORBIDDEN).collect()
}

fn is_end_of_mandatory(sheet: &Sheet, node: usize) -> bool {
    let mut arcs = sheet.arcs.iter().zip(&sheet.marks[sheet.nodes as usize..]);
    arcs.any(|(arc, &mark)| mark == MANDATORY && (arc[0] as usize == node || arc[1] as usize == node))
}

fn is_required(sheet: &Sheet, item: usize) -> bool {
    let is_end_of_walk = item == sheet.source as usize || item == sheet.target as usize;
    let is_arc = item >= sheet.nodes as usize;
    sheet.marks[item] == MANDATORY && (is_arc || !is_end_of_walk && !is_end_of_mandatory(sheet, item))
}

pub fn required_items(sheet: &Sheet) -> Vec<usize> {
    (0..sheet.marks.len()).filter(|&item| is_required(sheet, item)).collect()
}

fn verdict(sheet: &Sheet, fits: Fits) -> (u32, Vec<usize>) {
    let closed = forbidden(sheet);
    if !fits(sheet, &closed, &[]) {
        return (1, vec![]);
    }
    let unmet = (0..sheet.marks.len()).find(|&item| sheet.marks[item] == MANDATORY && !fits(sheet, &closed, &[item]));
    if let Some(item) = unmet {
        return (2, vec![item]);
    }
    let required = required_items(sheet);
    if !fits(sheet, &closed, &required) {
        return (3, required);
    }
    (0, vec![])
}

fn reasons(sheet: &Sheet, fits: Fits, goals: &[usize]) -> Vec<usize> {
    let mut closed = forbidden(sheet);
    let mut listed = vec![];
    for item in 0..closed.len() {
        if closed[item] {
            closed[item] = false;
            if fits(sheet, &closed, goals) {
                closed[item] = true;
                listed.push(item);
            }
        }
    }
    listed
}

fn slip(first: u32, goals: &[usize], reasons: &[usize]) -> Vec<u8> {
    let list = |items: &[usize]| items.iter().map(|&item| item as u32).collect();
    Slip { first, goals: list(goals), reasons: list(reasons) }.bytes()
}

fn new_mark(sheet: &Sheet, fits: Fits, item: usize) -> u32 {
    let ends = [sheet.source as usize, sheet.target as usize];
    let is_forced = item < sheet.nodes as usize && (ends.contains(&item) || is_end_of_mandatory(sheet, item));
    match sheet.marks[item] {
        OPEN if !fits(sheet, &forbidden(sheet), &[item]) => FORBIDDEN,
        OPEN if is_forced => MANDATORY,
        mark => mark,
    }
}

fn pass_slip(sheet: &Sheet, fits: Fits) -> Result<Vec<u8>, u32> {
    if required_items(sheet).len() > MOST_REQUIRED {
        return Err(13 * REFUSED);
    }
    let (verdict, goals) = verdict(sheet, fits);
    if verdict > 0 {
        return Ok(slip(verdict, &goals, &reasons(sheet, fits, &goals)));
    }
    let marks = (0..sheet.marks.len()).map(|item| new_mark(sheet, fits, item));
    Ok(numbers(&[0].into_iter().chain(marks).collect::<Vec<_>>()))
}

/// The closures listed for an item; none where the pass, which gave its slip, does not prune it.
fn reasons_for(sheet: &Sheet, fits: Fits, passed: &[u8], item: usize) -> Option<Vec<usize>> {
    let pruned = passed[0] == 0 && sheet.marks[item] == OPEN && passed[item + 1] == 2;
    pruned.then(|| reasons(sheet, fits, &[item]))
}

/// The least length of a walk clear of the closed items that meets an item: the least limit within which one fits. A shortest one drives no arc more than twice, once
/// before it meets the item and once behind.
fn least_through(sheet: &Sheet, fits: Fits, closed: &[bool], item: usize) -> Option<u32> {
    let fits_within = |limit| fits(&sheet.with_limit(limit), closed, &[item]);
    let (mut low, mut high) = (0, 2 * sheet.arcs.iter().map(|arc| arc[2] + sheet.service(arc[1])).sum::<u32>());
    if !fits_within(high) {
        return None;
    }
    while low < high {
        let middle = (low + high) / 2;
        if fits_within(middle) {
            high = middle;
        } else {
            low = middle + 1;
        }
    }
    Some(low)
}

fn cost_text(sheet: &Sheet, fits: Fits, item: usize, listed: &[usize]) -> String {
    let slack = least_through(sheet, fits, &forbidden(sheet), item).map(|length| i64::from(sheet.limit) - i64::from(length));
    let lengths = listed.iter().map(|&opened| {
        let closed: Vec<bool> = (0..sheet.marks.len()).map(|other| other != opened && listed.contains(&other)).collect();
        least_through(sheet, fits, &closed, item).map(i64::from)
    });
    let lines = [slack].into_iter().chain(lengths);
    lines.map(|number| number.map_or("none".to_string(), |number| number.to_string()) + "\n").collect()
}

/// What came up.
#[derive(Debug, Default)]
pub struct Counts {
    pub verdicts: [usize; 4],
    /// slips by first number that list a closure
    pub with_reasons: [usize; 5],
    /// slips of a verdict 3 that have an arc among their goals
    pub with_arcs: usize,
    pub pruned: usize,
    /// pruned items that some walk meets, too long
    pub over: usize,
    /// pruned items with two or more closures listed, each of which would do
    pub with_choice: usize,
    /// sheets with too many required items
    pub refused: usize,
    /// sheets with service minutes whose slip is another than without them
    pub by_service: usize,
}

/// The reference, held to the definitions.
pub struct Trial {
    fits: Fits,
    work: Vec<u8>,
    slip: Vec<u8>,
    pub counts: Counts,
}

impl Trial {
    pub fn new(fits: Fits) -> Trial {
        Trial { fits, work: vec![0; WORK_BYTES], slip: vec![0; SLIP_BYTES], counts: Counts::default() }
    }

    /// Tries pass, and gives its slip; none where it is refused.
    pub fn pass(&mut self, sheet: &Sheet) -> Option<Vec<u8>> {
        let number = pass(&sheet.bytes(), &mut self.work, &mut self.slip);
        let answer = self.finished(number);
        assert_eq!(answer, pass_slip(sheet, self.fits), "{sheet:?}");
        match &answer {
            Ok(passed) => {
                self.counts.verdicts[usize::from(passed[0])] += 1;
                self.counts.by_service += usize::from(sheet.is_new_form() && *passed != self.without_services(sheet));
                self.note(sheet, passed);
            }
            Err(_) => self.counts.refused += 1,
        }
        answer.ok()
    }

    /// Tries reason, and what `cost` prints, after the pass gave its slip.
    pub fn reason(&mut self, sheet: &Sheet, passed: &[u8], item: usize) {
        let number = reason(&sheet.bytes(), &mut self.work, &mut self.slip, item as u32);
        let answer = self.finished(number);
        let text = cost(&sheet.asked_for(item as u32));
        let listed = reasons_for(sheet, self.fits, passed, item);
        let expected = listed.as_ref().map(|listed| slip(4, &[item], listed)).ok_or(16 * REFUSED);
        assert_eq!(answer, expected, "{sheet:?} {item}");
        let expected = listed.map_or("refused 16\n".to_string(), |listed| cost_text(sheet, self.fits, item, &listed));
        assert_eq!(text, expected, "{sheet:?} {item}");
        if let Ok(slip) = answer {
            self.counts.pruned += 1;
            self.counts.over += usize::from(text.starts_with('-'));
            self.counts.with_choice += usize::from(text.lines().count() > 2);
            self.note(sheet, &slip);
        }
    }

    /// Tries check on a slip whose reasons are forbidden items and whose goals are well formed, and gives the answer.
    pub fn check(&mut self, sheet: &Sheet, first: u32, goals: &[usize], listed: &[usize]) -> bool {
        let is_goal = |goal: &usize| match first {
            2 => sheet.marks[*goal] == MANDATORY,
            3 => is_required(sheet, *goal),
            _ => sheet.marks[*goal] == OPEN,
        };
        let closed: Vec<bool> = (0..sheet.marks.len()).map(|item| listed.contains(&item)).collect();
        let expected = goals.iter().all(is_goal) && !(self.fits)(sheet, &closed, goals);
        let answer = check(&sheet.bytes(), &mut self.work, &slip(first, goals, listed));
        assert_eq!(answer, u32::from(expected), "{sheet:?} {first} {goals:?} {listed:?}");
        expected
    }

    fn without_services(&mut self, sheet: &Sheet) -> Vec<u8> {
        let number = pass(&sheet.with_services(&[]).bytes(), &mut self.work, &mut self.slip);
        self.finished(number).expect("a good sheet without them too")
    }

    fn finished(&self, number: u32) -> Result<Vec<u8>, u32> {
        if number < REFUSED {
            Ok(self.slip[..number as usize].to_vec())
        } else {
            Err(number)
        }
    }

    fn note(&mut self, sheet: &Sheet, bytes: &[u8]) {
        if let Some(slip) = Slip::written(bytes) {
            self.counts.with_reasons[slip.first as usize] += usize::from(!slip.reasons.is_empty());
            self.counts.with_arcs += usize::from(slip.first == 3 && slip.goals.iter().any(|&goal| goal >= sheet.nodes));
        }
    }
}
