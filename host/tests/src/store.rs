//! The library's store: what it shows, its bytes, and one with something to watch on both sides.

use crate::lent::MARGIN;
use cases::Random;
use reference::{Arc, Base, Shelf, Shelved, Slip};
use std::slice;
use ways::{Slot, Store, STORE_ITEMS, STORE_LEGS, STORE_SERVICES, STORE_SLIPS};

/// The numbers in a store.
const STORE_NUMBERS: usize = size_of::<Store>() / size_of::<u32>();

/// The shelf that a store shows, whatever its numbers are: no count is trusted, and a first number that no slip of a refused route has is 0.
pub fn shelf_of(store: &Store) -> Shelf {
    let slips: Vec<Shelved> = store.slots[..at_most(store.count, STORE_SLIPS)].iter().map(shelved_in).collect();
    Shelf { base: (!slips.is_empty()).then(|| base_of(store)), slips }
}

fn at_most(count: u32, most: usize) -> usize {
    most.min(count as usize)
}

/// The store has an arc's minutes with the service minutes of its head added. In a store of any bytes they may be more than the sum, or of no node: it then shows
/// minutes that no sheet has, or the sum.
fn base_of(store: &Store) -> Base {
    let services = store.services[..at_most(store.nodes, STORE_SERVICES)].to_vec();
    let numbers = &store.legs[..3 * at_most(store.arcs, STORE_LEGS / 3)];
    let minutes = |sum: u32, head: u32| sum.wrapping_sub(*services.get(head as usize).unwrap_or(&0));
    let arcs = numbers.chunks(3).map(|arc| Arc { tail: arc[0], head: arc[1], minutes: minutes(arc[2], arc[1]) }).collect();
    Base { nodes: store.nodes as usize, arcs, services, source: store.source as usize, target: store.target as usize }
}

fn shelved_in(slot: &Slot) -> Shelved {
    let (goals, rest) = slot.items.split_at(at_most(slot.goals, STORE_ITEMS));
    let reasons = &rest[..at_most(slot.reasons, rest.len())];
    let list = |items: &[u32]| items.iter().map(|&item| item as usize).collect();
    let first = if slot.first <= 3 { slot.first } else { 0 };
    Shelved::new(Slip { first: first as usize, goals: list(goals), reasons: list(reasons) }, slot.limit.into())
}

pub fn bytes_of(store: &Store) -> &[u8] {
    // numbers side by side, without a gap
    unsafe { slice::from_raw_parts((store as *const Store).cast(), size_of::<Store>()) }
}

/// The store that these bytes are.
pub fn store_in(bytes: &[u8]) -> &Store {
    let store: *const Store = bytes.as_ptr().cast();
    assert!(bytes.len() == size_of::<Store>() && store.is_aligned());
    unsafe { &*store }
}

pub fn store_in_mut(bytes: &mut [u8]) -> &mut Store {
    let store: *mut Store = bytes.as_mut_ptr().cast();
    assert!(bytes.len() == size_of::<Store>() && store.is_aligned());
    unsafe { &mut *store }
}

/// A store with numbers on both sides that no call may touch. It begins anywhere that is aligned to four bytes, as C may have it.
#[derive(Clone)]
pub struct StoreArea {
    numbers: Vec<u32>,
    start: usize,
}

impl StoreArea {
    /// Any numbers.
    pub fn any(random: &mut Random) -> StoreArea {
        let start = MARGIN + random.below(MARGIN);
        let numbers = (0..start + STORE_NUMBERS + MARGIN).map(|_| random.bits() as u32).collect();
        StoreArea { numbers, start }
    }

    pub fn store(&self) -> &Store {
        let numbers = &self.numbers[self.start..self.start + STORE_NUMBERS];
        unsafe { &*numbers.as_ptr().cast() }
    }

    pub fn store_mut(&mut self) -> &mut Store {
        let numbers = &mut self.numbers[self.start..self.start + STORE_NUMBERS];
        unsafe { &mut *numbers.as_mut_ptr().cast() }
    }

    pub fn is_same(&self, before: &StoreArea) -> bool {
        self.numbers == before.numbers
    }

    /// The numbers around the store are the same.
    pub fn is_same_around(&self, before: &StoreArea) -> bool {
        let end = self.start + STORE_NUMBERS;
        self.numbers[..self.start] == before.numbers[..self.start] && self.numbers[end..] == before.numbers[end..]
    }
}
