//! What the tests share: lent memory with something to watch on both sides, and calls of library and reference, and runs of the programs, side by side.

mod asked;
mod desk;
mod guard;
mod keeping;
mod lent;
mod process;
mod stack;
mod store;
mod writing;

pub use asked::{items_to_ask, with_close_limit};
pub use desk::{Call, Desk};
pub use guard::Guarded;
pub use keeping::{put_on, ShelfDesk, Tally};
pub use process::Program;
pub use stack::stack_used;
pub use store::{bytes_of, shelf_of, store_in, store_in_mut};
pub use writing::WritingDesk;

use std::path::{Path, PathBuf};

/// What a refusal number is multiplied by.
pub const REFUSED: u32 = 65_536;

/// Bytes in hex, as a failed test prints them.
pub fn hex(bytes: &[u8]) -> String {
    bytes.iter().map(|byte| format!("{byte:02x}")).collect::<Vec<_>>().join(" ")
}

/// The files of `samples/` with an ending, in their order.
pub fn samples(ending: &str) -> Vec<PathBuf> {
    let folder = Path::new(env!("CARGO_MANIFEST_DIR")).join("../../samples");
    let files = std::fs::read_dir(folder).expect("the folder of samples").map(|file| file.expect("a file").path());
    let mut samples: Vec<PathBuf> = files.filter(|path| path.extension().is_some_and(|x| x == ending)).collect();
    samples.sort();
    samples
}

/// The number that `ways.h` defines under a name.
pub fn defined(name: &str) -> usize {
    let line = HEADER.lines().find_map(|line| line.strip_prefix("#define ")?.strip_prefix(name)?.strip_prefix(' '));
    let number = line.expect("a line that defines it").split([' ', 'u']).next().expect("its number");
    number.parse().expect("a plain number")
}

/// The text of `ways.h`.
pub const HEADER: &str = include_str!("../../ways.h");
