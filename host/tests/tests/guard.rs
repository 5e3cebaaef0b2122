//! Calls with what is lent between guard pages: a read or write over an end stops the process, and so does a write into what is only to be read.

use cases::{damaged, draw, longest, served_b, sheet_b, Random, KINDS};
use tests::{hex, Guarded, REFUSED};
use ways::{SLIP_BYTES, WORK_BYTES};

const JUNK: u8 = 0xa5;

struct Lent {
    sheet: Guarded,
    work: Guarded,
    slip: Guarded,
}

/// Lends each slice at the end of its pages or at their start, as the bits of `sides` say.
fn lend(sheet: &[u8], work: usize, slip: &[u8], sides: usize) -> Lent {
    Lent {
        sheet: Guarded::new(sheet, sides & 1 == 0).read_only(),
        work: Guarded::new(&vec![JUNK; work], sides & 2 == 0),
        slip: Guarded::new(slip, sides & 4 == 0),
    }
}

fn try_pass(sheet: &[u8], work: usize, slip: usize, sides: usize) -> Option<Vec<u8>> {
    let mut lent = lend(sheet, work, &vec![JUNK; slip], sides);
    let (mut expected_work, mut expected_slip) = (vec![JUNK; work], vec![JUNK; slip]);
    let expected = reference::pass(sheet, &mut expected_work, &mut expected_slip);
    let number = ways::numbers::pass(lent.sheet.bytes(), lent.work.bytes_mut(), lent.slip.bytes_mut());
    assert_eq!(number, expected, "{}", hex(sheet));
    assert!(lent.work.bytes() == expected_work && lent.slip.bytes() == expected_slip, "{}", hex(sheet));
    (number < REFUSED).then(|| expected_slip[..number as usize].to_vec())
}

fn try_reason(sheet: &[u8], work: usize, slip: usize, item: u32, sides: usize) {
    let mut lent = lend(sheet, work, &vec![JUNK; slip], sides);
    let (mut expected_work, mut expected_slip) = (vec![JUNK; work], vec![JUNK; slip]);
    let expected = reference::reason(sheet, &mut expected_work, &mut expected_slip, item);
    let number = ways::numbers::reason(lent.sheet.bytes(), lent.work.bytes_mut(), lent.slip.bytes_mut(), item);
    assert_eq!(number, expected, "{} item {item}", hex(sheet));
    assert!(lent.work.bytes() == expected_work && lent.slip.bytes() == expected_slip, "{} item {item}", hex(sheet));
}

fn try_check(sheet: &[u8], work: usize, slip: &[u8], sides: usize) {
    let Lent { sheet: lent_sheet, work: mut lent_work, slip: lent_slip } = lend(sheet, work, slip, sides);
    let lent_slip = lent_slip.read_only();
    let mut expected_work = vec![JUNK; work];
    let expected = reference::check(sheet, &mut expected_work, slip);
    let number = ways::numbers::check(lent_sheet.bytes(), lent_work.bytes_mut(), lent_slip.bytes());
    assert_eq!(number, expected, "{} slip {}", hex(sheet), hex(slip));
    assert!(lent_work.bytes() == expected_work, "{} slip {}", hex(sheet), hex(slip));
}

fn try_all(sheet: &[u8], sides: usize, random: &mut Random) {
    let slip = try_pass(sheet, WORK_BYTES, SLIP_BYTES, sides).unwrap_or(vec![1, 0, 0]);
    try_reason(sheet, WORK_BYTES, SLIP_BYTES, random.below(40) as u32, sides);
    try_check(sheet, WORK_BYTES, &slip, sides);
    try_check(sheet, WORK_BYTES, &slip[..random.below(slip.len())], sides);
}

#[test]
fn sheets_of_every_kind() {
    const SHEETS: usize = 150;
    let mut random = Random::new(1);
    for kind in KINDS {
        for case in 0..SHEETS {
            let sheet = draw(kind, &mut random);
            try_all(&sheet.bytes(), case % 8, &mut random);
            try_all(&damaged(&sheet, &mut random), case % 8, &mut random);
        }
    }
}

#[test]
fn cut_off_at_every_byte() {
    let mut random = Random::new(2);
    for bytes in [sheet_b().bytes(), served_b().with_limit(10).bytes()] {
        for end in 0..=bytes.len() {
            for sides in 0..8 {
                try_all(&bytes[..end], sides, &mut random);
            }
        }
    }
}

/// The longest sheets of both forms, whole, a byte shorter, and a byte longer.
#[test]
fn the_longest_sheets() {
    let mut random = Random::new(3);
    for (sheet, length) in [(longest(), 3_273), (longest().with_services(&[]), 3_144)] {
        let bytes = [sheet.bytes(), vec![0]].concat();
        assert_eq!(bytes.len(), length + 1);
        for end in [length, length - 1, length + 1] {
            for sides in 0..8 {
                try_all(&bytes[..end], sides, &mut random);
                assert_eq!(try_pass(&bytes[..end], WORK_BYTES, SLIP_BYTES, sides).is_some(), end == length);
            }
        }
    }
}

#[test]
fn short_and_odd_lengths() {
    let sheet = sheet_b().bytes();
    for work in [0, 1, 3, 65_535, 65_536, 65_537, 65_539, 69_632] {
        for slip in [0, 1, 1_199, 1_200, 1_201, 4_096] {
            for sides in 0..8 {
                try_pass(&sheet, work, slip, sides);
                try_reason(&sheet, work, slip, 2, sides);
                try_check(&sheet, work, &vec![1; slip], sides);
            }
        }
    }
}
