//! Slips: what they say, and their bytes.

use crate::number::{write, Reader};
use crate::operations::{Refusal, SLIP_BYTES};

const SLIP: Refusal = 17;

/// The slip of a refused route or of a pruned item.
#[derive(Clone, Debug, PartialEq, Eq)]
pub struct Slip {
    /// the verdict, or 4 for a pruned item
    pub first: usize,
    pub goals: Vec<usize>,
    pub reasons: Vec<usize>,
}

impl Slip {
    /// The slip that the bytes hold, or 17 for any fault in the writing.
    pub fn read(bytes: &[u8]) -> Result<Slip, Refusal> {
        let mut reader = Reader { rest: bytes };
        let first = reader.judged(SLIP, |x| (1..=4).contains(&x)).or(Err(SLIP))?;
        let goals = read_list(&mut reader).or(Err(SLIP))?;
        let reasons = read_list(&mut reader).or(Err(SLIP))?;
        if reader.rest.is_empty() {
            Ok(Slip { first: first as usize, goals, reasons })
        } else {
            Err(SLIP)
        }
    }

    /// Writes the slip at the front of `bytes` and gives its length.
    pub fn write(&self, bytes: &mut [u8]) -> usize {
        let mut at = write(self.first, bytes);
        for list in [&self.goals, &self.reasons] {
            at += write(list.len(), &mut bytes[at..]);
            for &item in list {
                at += write(item, &mut bytes[at..]);
            }
        }
        at
    }

    pub fn bytes(&self) -> Vec<u8> {
        let mut bytes = vec![0; SLIP_BYTES];
        let length = self.write(&mut bytes);
        bytes.truncate(length);
        bytes
    }
}

/// A count and as many numbers. The count is followed as written, so nothing is set aside for it beforehand.
fn read_list(reader: &mut Reader) -> Result<Vec<usize>, Refusal> {
    let count = reader.number()?;
    let mut list = Vec::new();
    for _ in 0..count {
        list.push(reader.number()? as usize);
    }
    Ok(list)
}
