//! The reference on the lines of document 01, 'The sheet B and what it gives', and on those of requests 2.3, 2.4 and 2.7.

use cases::{checks, costs, driven, eight_and_nine, formats, served, served_b, sheet_b, starred, Line, Sheet, FORBIDDEN, MANDATORY};
use reference::{check, cost, pass, program, reason, SLIP_BYTES, WORK_BYTES};

const REFUSED: u32 = 65_536;

fn pass_slip(sheet: &Sheet) -> Vec<u8> {
    let mut slip = vec![0xee; SLIP_BYTES];
    let length = pass(&sheet.bytes(), &mut vec![0; WORK_BYTES], &mut slip);
    assert!(length < REFUSED, "refused {}", length / REFUSED);
    slip[..length as usize].to_vec()
}

fn reason_slip(sheet: &Sheet, item: u32) -> Vec<u8> {
    let mut slip = vec![0xee; SLIP_BYTES];
    let length = reason(&sheet.bytes(), &mut vec![0; WORK_BYTES], &mut slip, item);
    assert!(length < REFUSED, "refused {}", length / REFUSED);
    slip[..length as usize].to_vec()
}

fn refusal(bytes: &[u8], slip: usize) -> u32 {
    pass(bytes, &mut vec![0; WORK_BYTES], &mut vec![0; slip]) / REFUSED
}

#[test]
fn the_table_of_b() {
    for Line { sheet, item, slip } in starred().into_iter().chain(driven()).chain(served()) {
        let written = match item {
            None => pass_slip(&sheet),
            Some(item) => reason_slip(&sheet, item),
        };
        assert_eq!(written, slip, "{sheet:?} {item:?}");
    }
}

#[test]
fn what_formats_decide() {
    for (bytes, slip, refused) in formats() {
        assert_eq!(refusal(&bytes, slip), refused, "{bytes:?}");
    }
}

#[test]
fn check_of_b() {
    let b = sheet_b().with_mark(1, FORBIDDEN).with_mark(5, FORBIDDEN);
    let judge = |slip: &[u8]| check(&b.bytes(), &mut vec![0; WORK_BYTES], slip);
    assert_eq!(judge(&[1, 0, 1, 5]), 1);
    assert_eq!(judge(&[1, 0, 2, 1, 5]), 1);
    assert_eq!(judge(&[1, 0, 0]), 0);
    assert_eq!(judge(&[1, 1, 0, 0]), 18 * REFUSED);
    assert_eq!(judge(&[0]), 17 * REFUSED);
}

#[test]
fn checks_of_a_3() {
    for (sheet, slip, yes) in checks() {
        assert_eq!(check(&sheet.bytes(), &mut vec![0; WORK_BYTES], slip), yes.into(), "{sheet:?} {slip:?}");
    }
}

#[test]
fn eight_and_nine_required() {
    for [eight, nine] in eight_and_nine() {
        assert_eq!(refusal(&eight.bytes(), SLIP_BYTES), 0, "{eight:?}");
        assert_eq!(refusal(&nine.bytes(), SLIP_BYTES), 13, "{nine:?}");
    }
}

#[test]
fn the_program() {
    let b = sheet_b();
    assert_eq!(program(&b.bytes()), "verdict 0\nstruck 2 6 7 8\n");
    assert_eq!(program(&b.with_limit(14).bytes()), "verdict 0\nstruck\n");
    assert_eq!(program(&b.with_limit(7).bytes()), "verdict 1\nneeds\nbecause\n");
    assert_eq!(program(&b.with_mark(1, FORBIDDEN).bytes()), "verdict 1\nneeds\nbecause 1\n");
    assert_eq!(program(&b.with_limit(14).with_marks([1, 6], MANDATORY).bytes()), "verdict 3\nneeds 1 6\nbecause\n");
    assert_eq!(program(&served_b().bytes()), "verdict 1\nneeds\nbecause\n");
    assert_eq!(program(&served_b().with_limit(10).bytes()), "verdict 0\nstruck 2 6 7 8\n");
    assert_eq!(program(&[]), "refused 3\n");
}

#[test]
fn what_a_closure_costs() {
    for (input, text) in costs() {
        assert_eq!(cost(&input), text, "{input:?}");
    }
}
