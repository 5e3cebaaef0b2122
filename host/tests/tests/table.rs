//! The library on the lines of document 01, 'The sheet B and what it gives', and on those of requests 2.3 and 2.7, byte by byte. Every call is held to the reference as
//! well.

use cases::{checks, driven, formats, served, served_b, sheet_b, starred, with_required, Line, FORBIDDEN, MANDATORY};
use tests::{Call, Desk, REFUSED};
use ways::{SLIP_BYTES, WORK_BYTES};

#[test]
fn the_table_of_b() {
    let mut desk = Desk::new(1);
    for Line { sheet, item, slip } in starred().into_iter().chain(driven()).chain(served()) {
        let written = match item {
            None => desk.pass(&sheet.bytes()),
            Some(item) => desk.reason(&sheet.bytes(), item),
        };
        assert_eq!(written.expect("a finished call"), slip, "{sheet:?} {item:?}");
    }
}

#[test]
fn the_bytes_of_b() {
    let hex = "04 05 00 03 08 00 01 04 01 03 04 00 02 03 02 03 09 01 02 01 00 00 00 00 00 00 00 00 00";
    assert_eq!(tests::hex(&sheet_b().bytes()), hex);
    assert_eq!(tests::hex(&served_b().bytes()), format!("01 {hex} 00 02 00 00"));
}

/// The sheets of request 2.7 on which a walk comes to its source again, and passes a place twice.
#[test]
fn the_bytes_of_request_2_7() {
    let lines: Vec<String> = served().iter().map(|line| tests::hex(&line.sheet.bytes())).collect();
    assert_eq!(lines[3], "01 03 03 00 01 03 00 01 00 00 02 01 02 00 01 00 00 01 00 00 00 02 00 00");
    assert_eq!(lines[5], "01 04 04 00 03 08 00 01 01 01 02 01 02 01 01 01 03 01 00 01 01 00 00 00 00 00 00 02 00 00");
}

#[test]
fn what_formats_decide() {
    let mut desk = Desk::new(2);
    for (bytes, slip, refused) in formats() {
        assert_eq!(desk.call(Call::Pass(slip), &bytes, WORK_BYTES) / REFUSED, refused, "{bytes:?}");
    }
}

#[test]
fn checks_of_a_3() {
    let mut desk = Desk::new(4);
    for (sheet, slip, yes) in checks() {
        assert_eq!(desk.check(&sheet.bytes(), slip), yes.into(), "{sheet:?} {slip:?}");
    }
    let bytes = sheet_b().with_limit(14).with_marks([1, 6], MANDATORY).bytes();
    for slip in [&[3, 0, 0][..], &[3, 1, 9, 0], &[3, 2, 6, 1, 0], &[3, 2, 6, 6, 0], &[3, 9, 0, 1, 2, 3, 4, 5, 6, 7, 8, 0]] {
        assert_eq!(desk.check(&bytes, slip), 18 * REFUSED, "{slip:?}");
    }
}

/// The points that document 01 and request 2.7 leave to docs/DECISIONS.md.
#[test]
fn decided_points() {
    let mut desk = Desk::new(3);
    let mut refusal = |bytes: &[u8]| desk.call(Call::Pass(SLIP_BYTES), bytes, WORK_BYTES) / REFUSED;
    assert_eq!(refusal(&[0xc1]), 3, "a number is read to its end before it is judged");
    assert_eq!(refusal(&[0x80, 0x80, 0x80]), 3);
    assert_eq!(refusal(&[0x80, 0x80, 0x80, 0]), 4);
    assert_eq!(refusal(&[0x80, 0x80, 0x80, 0x80]), 4);
    assert_eq!(refusal(&[0]), 5, "judged before the next is begun");
    assert_eq!(refusal(&[1]), 3, "the new form, which ends too early");
    assert_eq!(refusal(&[1, 1]), 5, "no place count behind it");
    assert_eq!(refusal(&[0x81, 0]), 4, "badly written before all else");
    assert_eq!(refusal(&[1, 0x84, 0]), 4);
    assert_eq!(refusal(&[4, 5, 4]), 7);
    assert_eq!(refusal(&[with_required(9).bytes(), vec![0]].concat()), 12, "12 before 13");
    assert_eq!(refusal(&[with_required(9).with_services(&[0; 11]).bytes(), vec![0]].concat()), 11, "no service before 12 and 13");
    let b = sheet_b();
    let bytes = b.with_limit(7).bytes();
    assert_eq!(desk.call(Call::Reason(SLIP_BYTES, 9), &bytes, WORK_BYTES) / REFUSED, 15, "15 before 16 where the round is refused");
    assert_eq!(desk.call(Call::Reason(SLIP_BYTES, 2), &bytes, WORK_BYTES) / REFUSED, 16);
    assert_eq!(desk.check(&bytes, &[1, 1, 0, 0]) / REFUSED, 18);
    assert_eq!(desk.check(&bytes, &[1, 1, 0]) / REFUSED, 17);
    let forbidden_end = b.with_limit(14).with_mark(8, MANDATORY).with_mark(2, FORBIDDEN);
    assert_eq!(desk.pass(&forbidden_end.bytes()).expect("good"), [2, 1, 8, 1, 2]);
}
