//! The functions of the proved library for Rust. `host/ways.h` has their contracts.

use std::fmt;

/// What the lent work must have.
pub const WORK_BYTES: usize = 65_536;
/// What the lent slip of pass, reason and ask must have.
pub const SLIP_BYTES: usize = 1_200;

/// The most bytes that a sheet has.
pub const SHEET_BYTES: usize = 3_273;

/// The most slips that a store holds.
pub const STORE_SLIPS: usize = 64;
/// The most goals and reasons together of a slip in a store.
pub const STORE_ITEMS: usize = 24;
/// The numbers of a store's map, three for each of 512 legs.
pub const STORE_LEGS: usize = 1_536;
/// The service minutes of a store's map, one number for each of 64 places.
pub const STORE_SERVICES: usize = 64;

/// The archive that this crate links, for programs in C that are to link the same.
pub const ARCHIVE: &str = env!("WAYS_LINKED_ARCHIVE");

/// The functions as C sees them: the one number that each returns.
pub mod numbers {
    use crate::Store;

    mod c {
        use crate::Store;

        extern "C" {
            pub fn ways_pass(sheet: *const u8, sheet_len: usize, work: *mut u8, work_len: usize, slip: *mut u8, slip_len: usize) -> u32;
            pub fn ways_reason(sheet: *const u8, sheet_len: usize, work: *mut u8, work_len: usize, slip: *mut u8, slip_len: usize, item: u32) -> u32;
            pub fn ways_check(sheet: *const u8, sheet_len: usize, work: *mut u8, work_len: usize, slip: *const u8, slip_len: usize) -> u32;
            pub fn ways_write(
                n: u32,
                m: u32,
                start: u32,
                finish: u32,
                limit: u32,
                legs: *const u32,
                legs_count: usize,
                marks: *const u8,
                marks_len: usize,
                services: *const u32,
                services_count: usize,
                sheet: *mut u8,
                sheet_len: usize,
            ) -> u32;
            pub fn ways_store_put(
                store: *mut Store,
                sheet: *const u8,
                sheet_len: usize,
                work: *mut u8,
                work_len: usize,
                slip: *const u8,
                slip_len: usize,
            ) -> u32;
            pub fn ways_store_ask(store: *const Store, sheet: *const u8, sheet_len: usize, slip: *mut u8, slip_len: usize) -> u32;
            pub fn ways_store_empty(store: *mut Store);
        }
    }

    // Sound for every slice and every store: the functions take any bytes and any lengths and stay inside what they are lent, and what Rust lends does not overlap
    // where one can be written. A store has numbers alone, so every value of its bytes is one.

    pub fn pass(sheet: &[u8], work: &mut [u8], slip: &mut [u8]) -> u32 {
        unsafe { c::ways_pass(sheet.as_ptr(), sheet.len(), work.as_mut_ptr(), work.len(), slip.as_mut_ptr(), slip.len()) }
    }

    pub fn reason(sheet: &[u8], work: &mut [u8], slip: &mut [u8], item: u32) -> u32 {
        unsafe { c::ways_reason(sheet.as_ptr(), sheet.len(), work.as_mut_ptr(), work.len(), slip.as_mut_ptr(), slip.len(), item) }
    }

    pub fn check(sheet: &[u8], work: &mut [u8], slip: &[u8]) -> u32 {
        unsafe { c::ways_check(sheet.as_ptr(), sheet.len(), work.as_mut_ptr(), work.len(), slip.as_ptr(), slip.len()) }
    }

    /// `header` has the five numbers that stand before the legs.
    pub fn write(header: [u32; 5], legs: &[u32], marks: &[u8], services: &[u32], sheet: &mut [u8]) -> u32 {
        let [n, m, start, finish, limit] = header;
        unsafe {
            c::ways_write(
                n,
                m,
                start,
                finish,
                limit,
                legs.as_ptr(),
                legs.len(),
                marks.as_ptr(),
                marks.len(),
                services.as_ptr(),
                services.len(),
                sheet.as_mut_ptr(),
                sheet.len(),
            )
        }
    }

    pub fn store_put(store: &mut Store, sheet: &[u8], work: &mut [u8], slip: &[u8]) -> u32 {
        unsafe { c::ways_store_put(store, sheet.as_ptr(), sheet.len(), work.as_mut_ptr(), work.len(), slip.as_ptr(), slip.len()) }
    }

    pub fn store_ask(store: &Store, sheet: &[u8], slip: &mut [u8]) -> u32 {
        unsafe { c::ways_store_ask(store, sheet.as_ptr(), sheet.len(), slip.as_mut_ptr(), slip.len()) }
    }

    pub fn store_empty(store: &mut Store) {
        unsafe { c::ways_store_empty(store) }
    }
}

/// A slip in a store. Treat it as closed.
#[repr(C)]
#[derive(Clone, Debug, PartialEq, Eq)]
pub struct Slot {
    pub first: u32,
    pub limit: u32,
    pub goals: u32,
    pub reasons: u32,
    /// the goals, then the reasons
    pub items: [u32; STORE_ITEMS],
}

/// A shelf of slips for one map, its service minutes, start and finish. Treat it as closed. It is large, so keep it where it is.
#[repr(C)]
#[derive(Clone, Debug, PartialEq, Eq)]
pub struct Store {
    pub count: u32,
    pub nodes: u32,
    pub arcs: u32,
    pub source: u32,
    pub target: u32,
    /// of each leg the tail, the head, and its minutes plus the service minutes of the head
    pub legs: [u32; STORE_LEGS],
    /// service minutes of each place
    pub services: [u32; STORE_SERVICES],
    /// in the order of puts
    pub slots: [Slot; STORE_SLIPS],
}

impl Store {
    /// An empty one: all of it is zero.
    pub fn zeroed() -> Box<Store> {
        // numbers alone, of which zero is one
        unsafe { Box::new_zeroed().assume_init() }
    }

    /// Puts a slip that check says yes to on the shelf, unless one there covers it.
    pub fn put(&mut self, sheet: &[u8], work: &mut [u8], slip: &[u8]) -> Result<(), Refused> {
        answer(numbers::store_put(self, sheet, work, slip)).map(|_| ())
    }

    /// Writes the earliest put slip that applies to the sheet, and gives its length; none where none applies.
    pub fn ask(&self, sheet: &[u8], slip: &mut [u8]) -> Result<Option<usize>, Refused> {
        answer(numbers::store_ask(self, sheet, slip)).map(|length| (length > 0).then_some(length))
    }

    pub fn empty(&mut self) {
        numbers::store_empty(self);
    }
}

/// A call was refused with this number, 1 to 13, 15 to 20, 22 or 23.
#[derive(Clone, Copy, Debug, PartialEq, Eq)]
pub struct Refused(pub u32);

impl fmt::Display for Refused {
    fn fmt(&self, f: &mut fmt::Formatter) -> fmt::Result {
        write!(f, "refused {}", self.0)
    }
}

impl std::error::Error for Refused {}

/// Judges a sheet, and gives the slip's length.
pub fn pass(sheet: &[u8], work: &mut [u8], slip: &mut [u8]) -> Result<usize, Refused> {
    answer(numbers::pass(sheet, work, slip))
}

/// Says why the pass strikes an item, and gives the slip's length.
pub fn reason(sheet: &[u8], work: &mut [u8], slip: &mut [u8], item: u32) -> Result<usize, Refused> {
    answer(numbers::reason(sheet, work, slip, item))
}

/// Judges a slip: yes or no.
pub fn check(sheet: &[u8], work: &mut [u8], slip: &[u8]) -> Result<bool, Refused> {
    answer(numbers::check(sheet, work, slip)).map(|yes| yes == 1)
}

/// The numbers that are to become a sheet.
#[derive(Clone, Copy, Debug)]
pub struct Draft<'a> {
    pub places: u32,
    pub start: u32,
    pub finish: u32,
    pub limit: u32,
    /// tail, head and minutes of each leg
    pub legs: &'a [[u32; 3]],
    /// of the places, then of the legs
    pub marks: &'a [u8],
    /// service minutes of each place
    pub services: &'a [u32],
}

/// Writes a draft as a sheet, in the old form where no place has service minutes, and gives the sheet's length.
pub fn write(draft: &Draft, sheet: &mut [u8]) -> Result<usize, Refused> {
    let legs = u32::try_from(draft.legs.len()).unwrap_or(u32::MAX);
    let header = [draft.places, legs, draft.start, draft.finish, draft.limit];
    answer(numbers::write(header, draft.legs.as_flattened(), draft.marks, draft.services, sheet))
}

fn answer(number: u32) -> Result<usize, Refused> {
    match number >> 16 {
        0 => Ok(number as usize),
        refusal => Err(Refused(refusal)),
    }
}
