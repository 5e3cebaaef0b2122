//! The planner in C: compiled with every warning an error, linked with the library, run, and its words compared. The header alone, in C and in C++, and its
//! numbers.

use std::path::Path;
use std::process::Command;
use tests::{defined, HEADER};

const STRICT: [&str; 4] = ["-pedantic", "-Wall", "-Wextra", "-Werror"];

fn folder() -> &'static Path {
    Path::new(concat!(env!("CARGO_MANIFEST_DIR"), "/.."))
}

#[test]
fn the_planner_in_c() {
    let program = Path::new(env!("CARGO_TARGET_TMPDIR")).join("planner");
    let mut compiler = Command::new("cc");
    compiler.args(["-std=c99", "-O2"]).args(STRICT).arg(folder().join("planner.c")).arg(ways::ARCHIVE).arg("-o").arg(&program);
    let made = compiler.status().expect("a C compiler, cc");
    assert!(made.success(), "planner.c does not compile and link");
    let output = Command::new(&program).output().expect("the planner starts");
    assert!(output.status.success(), "{}", output.status);
    let expected = std::fs::read_to_string(folder().join("planner.expected")).expect("the file of its words");
    assert_eq!(String::from_utf8_lossy(&output.stdout), expected);
}

fn try_header(compiler: &str, language: &str, standard: &str) {
    let taken = Command::new(compiler).args(STRICT).args(["-x", language, standard, "-fsyntax-only"]).arg(folder().join("ways.h")).status();
    assert!(taken.expect("a compiler").success(), "{compiler} {standard}");
}

#[test]
fn the_header_alone() {
    try_header("cc", "c", "-std=c99");
}

#[test]
fn the_header_alone_in_cpp() {
    if Command::new("g++").arg("--version").output().is_err() {
        println!("SKIPPED: there is no g++, so the header was not tried in C++");
        return;
    }
    try_header("g++", "c++", "-std=c++98");
    try_header("g++", "c++", "-std=c++17");
}

/// The numbers of the names in an enum of the header, in its order.
fn enumerated(beginning: &str) -> Vec<u32> {
    let numbers = HEADER.lines().filter_map(|line| line.trim_start().strip_prefix(beginning)?.split_once(" = "));
    numbers.map(|(_, number)| number.split([',', ' ']).next().expect("a number").parse().expect("a plain number")).collect()
}

#[test]
fn the_numbers_of_the_header() {
    assert_eq!(defined("WAYS_WORK_BYTES"), ways::WORK_BYTES);
    assert_eq!(defined("WAYS_SLIP_BYTES"), ways::SLIP_BYTES);
    assert_eq!(defined("WAYS_SHEET_BYTES"), ways::SHEET_BYTES);
    assert_eq!(defined("WAYS_STORE_SLIPS"), ways::STORE_SLIPS);
    assert_eq!(defined("WAYS_STORE_ITEMS"), ways::STORE_ITEMS);
    assert_eq!(enumerated("WAYS_MARK_"), [cases::OPEN, cases::MANDATORY, cases::FORBIDDEN]);
    assert_eq!(enumerated("WAYS_VERDICT_"), (0..=4).collect::<Vec<_>>());
    assert_eq!(enumerated("WAYS_REFUSED_"), (0..=13).chain(15..=20).chain(22..=23).collect::<Vec<_>>());
}

#[test]
fn the_version_of_the_changelog() {
    let version = defined("WAYS_VERSION");
    let newest = include_str!("../../../CHANGELOG.md").lines().find_map(|line| line.strip_prefix("## "));
    assert_eq!(newest, Some(format!("{}.{}", version / 100, version % 100).as_str()));
}

/// Name and count of each field of a struct in the header, in its order.
fn fields(name: &str) -> Vec<(&'static str, usize)> {
    let (_, rest) = HEADER.split_once(&format!("\nstruct {name} {{\n")).expect("the struct");
    let (lines, _) = rest.split_once("\n};").expect("its end");
    let field = |line: &'static str| {
        let (declared, _) = line.split_once(';').expect("a field");
        let name = declared.rsplit(' ').next().expect("its name");
        match name.trim_end_matches(']').split_once('[') {
            Some((name, count)) => (name, count.parse().unwrap_or_else(|_| defined(count))),
            None => (name, 1),
        }
    };
    lines.lines().map(field).collect()
}

#[test]
fn the_store_of_the_header() {
    assert_eq!(fields("ways_slot"), [("first", 1), ("limit", 1), ("goals", 1), ("reasons", 1), ("items", ways::STORE_ITEMS)]);
    let numbers = [("count", 1), ("nodes", 1), ("arcs", 1), ("source", 1), ("target", 1)];
    let lists = [("legs", ways::STORE_LEGS), ("services", ways::STORE_SERVICES), ("slots", ways::STORE_SLIPS)];
    assert_eq!(fields("ways_store"), [&numbers[..], &lists].concat());
    assert_eq!((size_of::<ways::Store>(), align_of::<ways::Store>()), (13_588, 4));
    assert!(HEADER.contains("13,588 bytes"));
}

#[test]
fn the_header_fits_a_hundred_columns() {
    assert_eq!(HEADER.lines().find(|line| line.chars().count() > 100), None);
}
