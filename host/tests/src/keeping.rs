//! Puts and asks on one store, each held to the reference's shelf: the number, what the shelf holds, and every byte lent and around it.

use crate::lent::{LentSlip, Memory};
use crate::store::{shelf_of, StoreArea};
use crate::{hex, REFUSED};
use reference::Shelf;
use ways::{numbers, SLIP_BYTES, WORK_BYTES};

/// What came up.
#[derive(Debug, Default)]
pub struct Tally {
    /// how often each number was drawn as the refusal, by puts and by asks
    pub puts: [usize; 24],
    pub asks: [usize; 24],
    /// asks that found a slip
    pub found: usize,
    /// newcomers that were covered, and slips that were removed
    pub covered: usize,
    pub removed: usize,
}

impl Tally {
    /// Notes a put: the number, and how many slips were removed where the shelf changed.
    pub fn note_put(&mut self, number: u32, removed: Option<usize>) {
        self.puts[(number / REFUSED) as usize] += 1;
        self.covered += usize::from(number == 0 && removed.is_none());
        self.removed += removed.unwrap_or(0);
    }

    pub fn note_ask(&mut self, number: u32) {
        self.asks[(number / REFUSED) as usize] += 1;
        self.found += usize::from(0 < number && number < REFUSED);
    }
}

/// Puts on the reference's shelf, and gives the number and whether the shelf changed: a newcomer that is not covered comes last, and differs from the one that
/// was there.
pub fn put_on(shelf: &mut Shelf, sheet: &[u8], work: &mut [u8], slip: &[u8]) -> (u32, bool) {
    let last = shelf.slips.last().cloned();
    let number = shelf.put(sheet, work, slip);
    (number, shelf.slips.last() != last.as_ref())
}

/// A place to put and to ask from.
pub struct ShelfDesk {
    memory: Memory,
    area: StoreArea,
    before: StoreArea,
    shelf: Shelf,
    work: Vec<u8>,
    slip: Vec<u8>,
    pub tally: Tally,
}

impl ShelfDesk {
    /// With an empty shelf.
    pub fn new(seed: u64) -> ShelfDesk {
        let mut memory = Memory::new(seed);
        let area = StoreArea::any(&mut memory.random);
        let (work, slip) = (vec![0; WORK_BYTES], vec![0; SLIP_BYTES]);
        let mut desk = ShelfDesk { memory, before: area.clone(), area, shelf: Shelf::default(), work, slip, tally: Tally::default() };
        desk.begin();
        desk
    }

    /// Takes an empty shelf: one that was made so, one of zeros, or one with a count of 0 and any other numbers.
    pub fn begin(&mut self) {
        let random = &mut self.memory.random;
        self.area = StoreArea::any(random);
        self.before.clone_from(&self.area);
        let store = self.area.store_mut();
        match random.below(3) {
            0 => numbers::store_empty(store),
            1 => store.clone_from(&ways::Store::zeroed()),
            _ => store.count = 0,
        }
        assert!(self.area.is_same_around(&self.before));
        self.shelf = Shelf::default();
        assert_eq!(shelf_of(self.area.store()), self.shelf);
    }

    pub fn shelf(&self) -> &Shelf {
        &self.shelf
    }

    /// Work for a put: mostly enough, now and then too little.
    pub fn any_work(&mut self) -> usize {
        let enough = self.memory.work_length();
        self.mostly(enough, WORK_BYTES)
    }

    /// Room for the slip of an ask, likewise.
    pub fn any_room(&mut self) -> usize {
        let enough = self.memory.slip_length();
        self.mostly(enough, SLIP_BYTES)
    }

    fn mostly(&mut self, enough: usize, needed: usize) -> usize {
        if self.memory.random.chance(1, 100) {
            self.memory.random.below(needed)
        } else {
            enough
        }
    }

    /// The refusal, 0 where the put finishes.
    pub fn put(&mut self, sheet: &[u8], work: usize, slip: &[u8]) -> u32 {
        self.memory.lend(sheet, work, LentSlip::Given(slip));
        self.before.clone_from(&self.area);
        let Memory { tried, expected, .. } = &mut self.memory;
        let number = numbers::store_put(self.area.store_mut(), tried.sheet.lent(), tried.work.lent(), tried.slip.lent());
        let count = self.shelf.slips.len();
        let (right, is_changed) = put_on(&mut self.shelf, expected.sheet.lent(), expected.work.lent(), expected.slip.lent());
        self.hold("put", sheet, slip, [number, right], is_changed);
        self.tally.note_put(number, is_changed.then(|| count + 1 - self.shelf.slips.len()));
        number / REFUSED
    }

    /// The slip, without a byte where none applies, or the refusal. Where one applies, the pass refuses the route.
    pub fn ask(&mut self, sheet: &[u8], room: usize) -> Result<Vec<u8>, u32> {
        self.memory.lend(sheet, 0, LentSlip::Room(room));
        self.before.clone_from(&self.area);
        let Memory { tried, expected, .. } = &mut self.memory;
        let number = numbers::store_ask(self.area.store(), tried.sheet.lent(), tried.slip.lent());
        let right = self.shelf.ask(expected.sheet.lent(), expected.slip.lent());
        self.hold("ask", sheet, &[], [number, right], false);
        self.tally.note_ask(number);
        if number >= REFUSED {
            return Err(number / REFUSED);
        }
        if number > 0 {
            let passed = numbers::pass(sheet, &mut self.work, &mut self.slip);
            assert!(passed < REFUSED && (1..=3).contains(&self.slip[0]), "a slip applies, and the pass gave {passed:#x}\n{}", hex(sheet));
        }
        Ok(self.memory.tried.slip.lent()[..number as usize].to_vec())
    }

    /// Stops the test where the number is not the right one, or anything is not as the reference leaves it.
    fn hold(&self, call: &str, sheet: &[u8], slip: &[u8], [number, right]: [u32; 2], is_changed: bool) {
        let is_kept = if is_changed { self.area.is_same_around(&self.before) } else { self.area.is_same(&self.before) };
        let shown = shelf_of(self.area.store());
        assert!(
            number == right && self.memory.is_alike() && is_kept && shown == self.shelf,
            "{call} on the sheet\n{}\nwith the slip\n{}\ngave {number:#x}, not {right:#x}; {}; the rest of the store is {}; the shelf holds\n{:?}\nnot\n{:?}",
            hex(sheet),
            hex(slip),
            self.memory.differences(),
            if is_kept { "as it should be" } else { "changed" },
            shown.slips,
            self.shelf.slips
        );
    }
}
