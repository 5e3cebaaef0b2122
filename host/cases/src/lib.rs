//! Sheets to try: a small generator of random numbers, a writer of sheets and slips, makers of sheets of every kind and of puts and asks on a shelf, and the lines
//! of document 01 and requests 2.3 to 2.7. Nothing here reads or judges a sheet.

mod altered;
mod draft;
mod draw;
mod random;
mod shelf;
mod table;
mod week;
mod written;

pub use altered::{alterations, Slip};
pub use draft::{spoiled, Draft};
pub use draw::{damaged, draw, Kind, KINDS};
pub use random::Random;
pub use shelf::{crowd, shelf_examples, Example, Step};
pub use table::{checks, costs, driven, eight_and_nine, formats, served, served_b, starred, with_required, Line};
pub use week::{Habit, Turn, Week};
pub use written::{behind_closures, longest, number, numbers, numbers_in, ring, sheet_b, Sheet, FORBIDDEN, MANDATORY, OPEN};
