//! The program `ways` run as a process. WAYS_PROGRAM names it; with CI set it has to be there, without it the tests say that they did nothing.

use cases::{damaged, draw, longest, served_b, sheet_b, Random, Sheet, FORBIDDEN, KINDS, MANDATORY};
use tests::Program;

fn program() -> Option<Program> {
    Program::named("ways", reference::program, "sheet")
}

#[test]
fn what_document_01_and_request_2_7_print() {
    let Some(program) = program() else { return };
    let b = sheet_b();
    let print = |sheet: Sheet| program.printed(&[&sheet.bytes()]);
    assert_eq!(print(b.clone()), "verdict 0\nstruck 2 6 7 8\n");
    assert_eq!(print(b.with_limit(14)), "verdict 0\nstruck\n");
    assert_eq!(print(b.with_limit(7)), "verdict 1\nneeds\nbecause\n");
    assert_eq!(print(b.with_mark(2, MANDATORY)), "verdict 2\nneeds 2\nbecause\n");
    assert_eq!(print(b.with_mark(1, FORBIDDEN).with_mark(5, FORBIDDEN)), "verdict 1\nneeds\nbecause 5\n");
    let both = b.with_limit(14).with_mark(1, MANDATORY).with_mark(2, MANDATORY).with_mark(8, FORBIDDEN);
    assert_eq!(print(both), "verdict 3\nneeds 1 2\nbecause 8\n");
    assert_eq!(print(b.with_limit(14).with_marks([1, 6], MANDATORY)), "verdict 3\nneeds 1 6\nbecause\n");
    assert_eq!(print(served_b()), "verdict 1\nneeds\nbecause\n");
    assert_eq!(print(served_b().with_limit(10)), "verdict 0\nstruck 2 6 7 8\n");
    assert_eq!(print(b.with_services(&[0; 4])), "refused 11\n");
    assert_eq!(program.printed(&[]), "refused 3\n");
}

#[test]
fn sheets_of_every_kind() {
    let Some(program) = program() else { return };
    let mut random = Random::new(1);
    for kind in KINDS {
        for _ in 0..10 {
            let sheet = draw(kind, &mut random);
            program.try_input(&sheet.bytes());
            program.try_input(&damaged(&sheet, &mut random));
        }
    }
}

/// Around the longest sheet, and around and far beyond the 8,192 bytes that are read.
#[test]
fn long_inputs() {
    let Some(program) = program() else { return };
    for length in [3_144, 3_145, 3_273, 3_274, 4_096, 8_191, 8_192, 8_193, 20_000, 1_000_000] {
        for mut input in [sheet_b().bytes(), served_b().bytes()] {
            input.resize(length, 0);
            program.try_input(&input);
        }
    }
    for (sheet, length) in [(longest(), 3_273), (longest().with_services(&[]), 3_144)] {
        let bytes = sheet.bytes();
        assert_eq!(bytes.len(), length);
        assert!(program.try_input(&bytes).starts_with("verdict 0\n"));
        assert_eq!(program.try_input(&bytes[..length - 1]), "refused 3\n");
    }
    program.try_long_input();
}

/// A pipe may hand over its bytes bit by bit.
#[test]
fn input_in_pieces() {
    let Some(program) = program() else { return };
    for bytes in [sheet_b().bytes(), served_b().with_limit(10).bytes()] {
        for cut in [1, 5, 20, 28] {
            let (front, back) = bytes.split_at(cut);
            assert_eq!(program.printed(&[front, back]), "verdict 0\nstruck 2 6 7 8\n");
        }
        assert_eq!(program.printed(&[&bytes[..3], &bytes[3..9], &bytes[9..], &[0]]), "refused 12\n");
    }
}

#[test]
fn input_that_cannot_be_read() {
    let Some(program) = program() else { return };
    program.try_unreadable_input();
}

#[test]
fn output_that_cannot_be_written() {
    let Some(program) = program() else { return };
    program.try_unwritable_output();
}

#[test]
fn silent_on_standard_error() {
    let Some(program) = program() else { return };
    program.try_silence();
}

#[test]
fn the_samples() {
    let Some(program) = program() else { return };
    program.try_samples();
}
