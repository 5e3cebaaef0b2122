//! Numbers in groups of seven bits, lowest group first (document 01, 'Sheet and slip').

use crate::operations::Refusal;

const LONGEST: u32 = 4;
const FOLLOWS: u8 = 0x80;
const GROUP: u8 = 0x7f;

/// The greatest number that can be written.
pub const GREATEST: u32 = (1 << (7 * LONGEST)) - 1;

pub const ENDS: Refusal = 3;
pub const BADLY_WRITTEN: Refusal = 4;

/// What is left to read.
pub struct Reader<'a> {
    pub rest: &'a [u8],
}

impl Reader<'_> {
    /// The next number, or 3 or 4.
    #[inline]
    pub fn number(&mut self) -> Result<u32, Refusal> {
        let mut value = 0;
        for group in 0..LONGEST {
            let (&byte, rest) = self.rest.split_first().ok_or(ENDS)?;
            self.rest = rest;
            value |= u32::from(byte & GROUP) << (7 * group);
            if byte & FOLLOWS == 0 {
                let needless = byte == 0 && group > 0;
                return if needless { Err(BADLY_WRITTEN) } else { Ok(value) };
            }
        }
        Err(BADLY_WRITTEN)
    }

    /// The next number; `refusal` if it is not as it should be.
    #[inline]
    pub fn judged(&mut self, refusal: Refusal, fits: impl Fn(u32) -> bool) -> Result<u32, Refusal> {
        let value = self.number()?;
        if fits(value) {
            Ok(value)
        } else {
            Err(refusal)
        }
    }
}

/// Writes a number at the front of `bytes` and gives how many bytes it took.
pub fn write(mut value: usize, bytes: &mut [u8]) -> usize {
    let mut at = 0;
    while value >= usize::from(FOLLOWS) {
        bytes[at] = (value as u8 & GROUP) | FOLLOWS;
        value >>= 7;
        at += 1;
    }
    bytes[at] = value as u8;
    at + 1
}

/// The bytes of numbers in a row.
pub fn write_all(values: &[u32]) -> Vec<u8> {
    let mut bytes = Vec::new();
    for &value in values {
        let mut written = [0; LONGEST as usize];
        let length = write(value as usize, &mut written);
        bytes.extend(&written[..length]);
    }
    bytes
}
