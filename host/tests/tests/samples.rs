//! The files of `samples/`: each sheet, and each item number with a sheet, has a text beside it with its bytes and with what is printed for it, and both are true. So
//! is what the texts say of the shelf, and what docs/FORMATS.md says of the samples, of the tool, and of a sheet made by hand.

use std::path::PathBuf;
use tests::{hex, samples, Desk, ShelfDesk};

const FORMATS: &str = include_str!("../../../docs/FORMATS.md");

struct Sample {
    path: PathBuf,
    bytes: Vec<u8>,
    /// the line of its text above what is printed
    heading: &'static str,
    printed: String,
}

fn with_ending(ending: &str, heading: &'static str, text: fn(&[u8]) -> String) -> Vec<Sample> {
    let paths = samples(ending).into_iter();
    let read = |path: PathBuf| {
        let bytes = std::fs::read(&path).expect("a sample");
        Sample { heading, printed: text(&bytes), path, bytes }
    };
    paths.map(read).collect()
}

fn sheets() -> Vec<Sample> {
    with_ending("sheet", "The program prints", reference::program)
}

fn costs() -> Vec<Sample> {
    with_ending("cost", "The tool prints", reference::cost)
}

/// The indented lines that a text begins with.
fn indented(text: &str) -> String {
    text.lines().map_while(|line| line.strip_prefix("    ")).map(|line| format!("{line}\n")).collect()
}

/// The indented lines below a line of the text.
fn below(text: &str, heading: &str) -> String {
    text.split_once(&format!("\n{heading}\n\n")).map_or(String::new(), |(_, rest)| indented(rest))
}

impl Sample {
    fn text(&self) -> String {
        std::fs::read_to_string(self.path.with_extension("txt")).expect("a text beside the sample")
    }

    /// The bytes below a line of the text, in hex.
    fn written(&self, heading: &str) -> String {
        below(&self.text(), heading).split_whitespace().collect::<Vec<_>>().join(" ")
    }
}

#[test]
fn samples_say_what_they_are() {
    let (sheets, costs) = (sheets(), costs());
    assert!(sheets.len() >= 5 && !costs.is_empty());
    for sample in sheets.into_iter().chain(costs) {
        assert_eq!(below(&sample.text(), sample.heading), sample.printed, "{}", sample.path.display());
        assert_eq!(sample.written("Bytes, in hex"), hex(&sample.bytes), "{}", sample.path.display());
    }
}

fn named(name: &str) -> Sample {
    sheets().into_iter().find(|sample| sample.path.file_stem().is_some_and(|stem| stem == name)).expect("the sample")
}

/// Without its first number and its service minutes, of which each is one byte, the sheet has the old form, and other items are struck.
#[test]
fn service_minutes_decide_a_sample() {
    let sample = named("unloading");
    let nodes = sample.bytes[1] as usize;
    let old = &sample.bytes[1..sample.bytes.len() - nodes];
    let printed = reference::program(old);
    assert_eq!(below(&sample.text(), "In the old form, without the minutes at the doors, it prints"), printed);
    assert!(printed.starts_with("verdict 0\n") && printed != sample.printed);
    Desk::new(4).pass(old).expect("a good sheet");
}

/// The slip of the morning's sheet is put, and the later sheet asked about.
#[test]
fn the_shelf_answers_a_sample() {
    let (morning, noon) = (named("harbour-morning"), named("harbour-noon"));
    let slip = Desk::new(3).pass(&morning.bytes).expect("a good sheet");
    assert_eq!(hex(&slip), morning.written("The slip that is put, in hex"));
    let mut desk = ShelfDesk::new(3);
    assert_eq!(desk.put(&morning.bytes, ways::WORK_BYTES, &slip), 0);
    let found = desk.ask(&noon.bytes, ways::SLIP_BYTES).expect("a good sheet");
    assert_eq!(hex(&found), noon.written("The shelf hands back, in hex"));
}

/// The library beside the reference, which says what is printed.
#[test]
fn the_library_on_samples() {
    let mut desk = Desk::new(1);
    for Sample { bytes, .. } in sheets() {
        desk.pass(&bytes);
    }
    for Sample { bytes, .. } in costs() {
        assert!(bytes[0] < 128, "an item number of one byte");
        desk.reason(&bytes[1..], bytes[0].into()).expect("a struck item");
    }
}

#[test]
fn formats_name_every_sample() {
    for Sample { path, printed, .. } in sheets().into_iter().chain(costs()) {
        let name = path.file_stem().expect("a name").to_string_lossy();
        let row = FORMATS.lines().find(|line| line.starts_with(&format!("| `{name}` |"))).expect("a row for the sample");
        let printed = printed.lines().map(|line| format!("`{line}`")).collect::<Vec<_>>().join(", ");
        assert!(row.ends_with(&format!("| {printed} |")), "{row}");
    }
}

#[test]
fn formats_ask_the_tool() {
    let b = named("b");
    let (_, text) = FORMATS.split_once("printf '\\2' | cat - samples/b.sheet | target/bin/cost\n\nprints\n\n").expect("the command");
    assert_eq!(indented(text), reference::cost(&[vec![2], b.bytes].concat()));
}

#[test]
fn formats_make_a_sheet_by_hand() {
    let (_, text) = FORMATS.split_once("<<'END'\n").expect("the sheet's lines");
    let (lines, text) = text.split_once("    END\n").expect("their end");
    let written = lines.lines().flat_map(|line| line.split('#').next().expect("a line").split_whitespace());
    let mut bytes: Vec<u8> = written.map(|byte| u8::from_str_radix(byte, 16).expect("a byte in hex")).collect();
    let mut printed = text.split("\nprints\n\n").skip(1).map(indented);
    let mut desk = Desk::new(2);
    desk.pass(&bytes);
    assert_eq!(printed.next(), Some(reference::program(&bytes)));
    let mark = bytes.len() - 3;
    assert_eq!(std::mem::take(&mut bytes[mark]), 2, "the mark of the closed road");
    desk.pass(&bytes);
    assert_eq!(printed.next(), Some(reference::program(&bytes)));
}
