//! Calls of the library, each held to the reference: the number, and every byte lent and around it.

use crate::lent::{Lent, LentSlip, Memory};
use crate::{hex, REFUSED};

/// One of the three functions, with what only it takes.
#[derive(Clone, Copy, Debug)]
pub enum Call<'a> {
    /// the slip's length
    Pass(usize),
    /// the slip's length, the item
    Reason(usize, u32),
    /// the slip
    Check(&'a [u8]),
}

impl<'a> Call<'a> {
    fn slip(&self) -> LentSlip<'a> {
        match *self {
            Call::Pass(length) | Call::Reason(length, _) => LentSlip::Room(length),
            Call::Check(slip) => LentSlip::Given(slip),
        }
    }
}

/// A place to call from.
pub struct Desk {
    memory: Memory,
    /// calls so far of pass, reason, check
    pub calls: [usize; 3],
    /// how often each number was drawn as the refusal
    pub drawn: [usize; 19],
}

impl Desk {
    pub fn new(seed: u64) -> Desk {
        Desk { memory: Memory::new(seed), calls: [0; 3], drawn: [0; 19] }
    }

    /// Pass with enough lent: the slip, if the call finished.
    pub fn pass(&mut self, sheet: &[u8]) -> Option<Vec<u8>> {
        let slip = self.memory.slip_length();
        let work = self.memory.work_length();
        let number = self.call(Call::Pass(slip), sheet, work);
        self.slip(number)
    }

    /// Reason with enough lent: the slip, if the call finished.
    pub fn reason(&mut self, sheet: &[u8], item: u32) -> Option<Vec<u8>> {
        let slip = self.memory.slip_length();
        let work = self.memory.work_length();
        let number = self.call(Call::Reason(slip, item), sheet, work);
        self.slip(number)
    }

    /// Check with enough lent: the number.
    pub fn check(&mut self, sheet: &[u8], slip: &[u8]) -> u32 {
        let work = self.memory.work_length();
        self.call(Call::Check(slip), sheet, work)
    }

    /// Makes a call, and stops the test where anything differs from what the reference leaves.
    pub fn call(&mut self, call: Call, sheet: &[u8], work: usize) -> u32 {
        self.memory.lend(sheet, work, call.slip());
        let number = made(call, &mut self.memory.tried, ways::numbers::pass, ways::numbers::reason, ways::numbers::check);
        let expected = made(call, &mut self.memory.expected, reference::pass, reference::reason, reference::check);
        assert!(
            number == expected && self.memory.is_alike(),
            "{call:?} with {work} bytes of work on the sheet\n{}\ngave {number:#x}, not {expected:#x}; {}",
            hex(sheet),
            self.memory.differences()
        );
        self.calls[match call {
            Call::Pass(_) => 0,
            Call::Reason(..) => 1,
            Call::Check(_) => 2,
        }] += 1;
        self.drawn[(number / REFUSED) as usize] += 1;
        number
    }

    fn slip(&mut self, number: u32) -> Option<Vec<u8>> {
        (number < REFUSED).then(|| self.memory.tried.slip.lent()[..number as usize].to_vec())
    }
}

fn made(
    call: Call,
    lent: &mut Lent,
    pass: fn(&[u8], &mut [u8], &mut [u8]) -> u32,
    reason: fn(&[u8], &mut [u8], &mut [u8], u32) -> u32,
    check: fn(&[u8], &mut [u8], &[u8]) -> u32,
) -> u32 {
    let (sheet, work, slip) = (lent.sheet.lent(), lent.work.lent(), lent.slip.lent());
    match call {
        Call::Pass(_) => pass(sheet, work, slip),
        Call::Reason(_, item) => reason(sheet, work, slip, item),
        Call::Check(_) => check(sheet, work, slip),
    }
}
