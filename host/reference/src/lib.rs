//! A second implementation of pass, reason, check, the writer, the shelf and the texts of the programs `ways` and `cost`, written from document 01 and requests 2.1,
//! 2.3, 2.4, 2.6 and 2.7, to hold the proved library and programs to. Points that these leave open are settled as docs/DECISIONS.md has them, so a fault there would be
//! in both.
//!
//! It shares no code with the library. What differs: the library holds lengths up to a cap alone, mostly the limit, and puts rows of them back where an opening is not kept. Here
//!
//! - lengths are whole 64-bit numbers that know no cap;
//! - a sheet keeps minutes and service minutes apart, and a length adds the service minutes where a walk comes to a node. The library's reader adds them to the arcs;
//! - the list of reasons never undoes anything. With the lengths *from* each goal and *to* each goal, the pairs that an opening would give follow from the lengths
//!   at the opened item: only an item that stays open is put into the graph, and the lengths are mended from there;
//! - the writer judges nothing: it writes the numbers and has the reader judge the bytes;
//! - the shelf is a list that grows, and not a struct with room for 64 slips; one list is looked for in another in order, both going up, and not entry by entry.
//!
//! What is alike: both find lengths by Dijkstra's algorithm over chains of arcs, the frontier being a set of nodes held in one 64-bit mark, and fill a table over sets of
//! goals and the goal reached last (Algorithm 1 of source document 002). The reference's own tests do without either: they try every walk of small sheets, and every
//! order of the goals on large ones.
//!
//! The words are those of docs/GLOSSARY.md: node, arc, source, target, open, mandatory, forbidden, required.

mod graph;
mod number;
mod operations;
mod reasons;
mod sheet;
mod shelf;
mod slip;
mod text;
mod tour;

pub use operations::{check, pass, reason, write_sheet, SLIP_BYTES, WORK_BYTES};
pub use sheet::{Arc, Sheet};
pub use shelf::{Base, Shelf, Shelved};
pub use slip::Slip;
pub use text::{cost, program};
pub use tour::least;
