//! Calls of the writer, each held to the reference: the number, and every byte and number lent and around it.

use crate::{hex, REFUSED};
use cases::{Draft, Random};

/// On each side of what is lent, which no call may touch.
const MARGIN: usize = 64;
const JUNK: usize = 8_192;

/// A place to write from. The slice holds random bytes and begins anywhere.
pub struct WritingDesk {
    random: Random,
    junk: Vec<u8>,
    /// how often each number was drawn as the refusal
    pub drawn: [usize; 20],
}

/// What a call gave, and all memory afterwards.
#[derive(PartialEq, Eq)]
struct Left {
    number: u32,
    arcs: Vec<u32>,
    marks: Vec<u8>,
    services: Vec<u32>,
    sheet: Vec<u8>,
}

type Write = fn([u32; 5], &[u32], &[u8], &[u32], &mut [u8]) -> u32;

impl WritingDesk {
    pub fn new(seed: u64) -> WritingDesk {
        let mut random = Random::new(seed);
        let junk = (0..2 * JUNK).map(|_| random.bits() as u8).collect();
        WritingDesk { random, junk, drawn: [0; 20] }
    }

    /// Writes the draft into a slice of so many bytes, and stops the test where anything differs from what the reference leaves: the number, and where it finished
    /// the sheet.
    pub fn write(&mut self, draft: &Draft, room: usize) -> Result<Vec<u8>, u32> {
        let start = MARGIN + self.random.below(MARGIN);
        let offset = self.random.below(JUNK - room - 3 * MARGIN);
        let junk = &self.junk[offset..];
        let tried = call(ways::numbers::write, draft, junk, start, room);
        let expected = call(reference::write_sheet, draft, junk, start, room);
        assert!(
            tried == expected,
            "{draft:?} into {room} bytes gave {:#x}, not {:#x}, and left\n{}\nnot\n{}",
            tried.number,
            expected.number,
            hex(&tried.sheet),
            hex(&expected.sheet)
        );
        let (refusal, length) = (tried.number / REFUSED, (tried.number % REFUSED) as usize);
        self.drawn[refusal as usize] += 1;
        match refusal {
            0 => Ok(tried.sheet[start..start + length].to_vec()),
            refusal => Err(refusal),
        }
    }
}

fn call(write: Write, draft: &Draft, junk: &[u8], start: usize, room: usize) -> Left {
    let mut sheet = junk[..start + room + MARGIN].to_vec();
    let (arcs, marks, services) = (around(&draft.arcs, u32::MAX), around(&draft.marks, u8::MAX), around(&draft.services, u32::MAX));
    let number = write(draft.header, within(&arcs), within(&marks), within(&services), &mut sheet[start..start + room]);
    Left { number, arcs, marks, services, sheet }
}

fn around<T: Copy>(list: &[T], other: T) -> Vec<T> {
    [&[other; MARGIN][..], list, &[other; MARGIN]].concat()
}

/// What `around` was given.
fn within<T>(list: &[T]) -> &[T] {
    &list[MARGIN..list.len() - MARGIN]
}
