//! Memory to lend, with something to watch on both sides: once for the library, and the same again for the reference.

use cases::Random;

/// Bytes on each side of what is lent, at least, which no call may touch.
pub const MARGIN: usize = 64;
const MOST_LENT: usize = 80_000;

/// Memory with a part that is lent.
#[derive(Default)]
pub struct Area {
    bytes: Vec<u8>,
    start: usize,
    end: usize,
}

impl Area {
    /// Takes the bytes of `from`, of which the part from `start` on is to be lent.
    fn fill(&mut self, from: &[u8], start: usize, lent: usize) {
        self.bytes.clear();
        self.bytes.extend_from_slice(&from[..start + lent + MARGIN]);
        (self.start, self.end) = (start, start + lent);
    }

    pub fn lent(&mut self) -> &mut [u8] {
        &mut self.bytes[self.start..self.end]
    }

    /// The first byte that is not as it should be: where it is, counted from what is lent, what it is and what it should be.
    fn difference(&self, expected: &Area) -> Option<(isize, u8, u8)> {
        let at = (0..self.bytes.len()).find(|&i| self.bytes[i] != expected.bytes[i]);
        at.map(|i| (i as isize - self.start as isize, self.bytes[i], expected.bytes[i]))
    }
}

#[derive(Default)]
pub struct Lent {
    pub sheet: Area,
    pub work: Area,
    pub slip: Area,
}

/// The slip that is lent: as many bytes to write into, or bytes to read.
#[derive(Clone, Copy, Debug)]
pub enum LentSlip<'a> {
    Room(usize),
    Given(&'a [u8]),
}

/// What the library and the reference are lent: random bytes, which begin anywhere, so that nothing can rest on zeros or on an even address.
pub struct Memory {
    pub random: Random,
    junk: Vec<u8>,
    pub tried: Lent,
    pub expected: Lent,
}

impl Memory {
    pub fn new(seed: u64) -> Memory {
        let mut random = Random::new(seed);
        let junk = (0..2 * MOST_LENT).map(|_| random.bits() as u8).collect();
        Memory { random, junk, tried: Lent::default(), expected: Lent::default() }
    }

    pub fn lend(&mut self, sheet: &[u8], work: usize, slip: LentSlip) {
        let starts: [usize; 3] = std::array::from_fn(|_| MARGIN + self.random.below(64));
        let offset = self.random.below(self.junk.len() - MOST_LENT - 3 * MARGIN);
        let junk = &self.junk[offset..];
        for lent in [&mut self.tried, &mut self.expected] {
            lent.sheet.fill(junk, starts[0], sheet.len());
            lent.sheet.lent().copy_from_slice(sheet);
            lent.work.fill(junk, starts[1], work);
            match slip {
                LentSlip::Room(length) => lent.slip.fill(junk, starts[2], length),
                LentSlip::Given(given) => {
                    lent.slip.fill(junk, starts[2], given.len());
                    lent.slip.lent().copy_from_slice(given);
                }
            }
        }
    }

    /// Both were left alike: all that was lent, and all around it.
    pub fn is_alike(&self) -> bool {
        let (tried, expected) = (&self.tried, &self.expected);
        tried.sheet.bytes == expected.sheet.bytes && tried.work.bytes == expected.work.bytes && tried.slip.bytes == expected.slip.bytes
    }

    /// Where they were not left alike, in words.
    pub fn differences(&self) -> String {
        let (tried, expected) = (&self.tried, &self.expected);
        format!(
            "first difference (byte, is, should be) in sheet {:?}, work {:?}, slip {:?}",
            tried.sheet.difference(&expected.sheet),
            tried.work.difference(&expected.work),
            tried.slip.difference(&expected.slip),
        )
    }

    /// Mostly just enough, now and then more.
    pub fn work_length(&mut self) -> usize {
        ways::WORK_BYTES + if self.random.chance(1, 4) { self.random.below(300) } else { 0 }
    }

    pub fn slip_length(&mut self) -> usize {
        ways::SLIP_BYTES + if self.random.chance(1, 4) { self.random.below(300) } else { 0 }
    }
}
