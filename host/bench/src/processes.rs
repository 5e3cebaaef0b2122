//! Times of the programs `cost` and `ways` as processes, from start to end: `cost` on an item number and a sheet, `ways` on the same sheet.

use crate::{medians, shown};
use cases::{behind_closures, sheet_b, Sheet};
use std::env;
use std::ffi::OsString;
use std::io::{pipe, PipeReader, Write};
use std::process::{Command, Stdio};
use std::time::Instant;

const RUNS: usize = 201;

struct Run<'a> {
    program: &'a OsString,
    input: Vec<u8>,
}

impl Run<'_> {
    /// All of the input, ready to be read.
    fn piped(&self) -> PipeReader {
        let (reader, mut writer) = pipe().expect("a pipe");
        writer.write_all(&self.input).expect("a pipe that holds a sheet");
        reader
    }

    fn printed(&self) -> String {
        let output = Command::new(self.program).stdin(self.piped()).output().expect("the program starts");
        String::from_utf8(output.stdout).expect("plain text")
    }

    /// Microseconds.
    fn time(&self) -> f64 {
        let mut command = Command::new(self.program);
        command.stdin(self.piped()).stdout(Stdio::null());
        let start = Instant::now();
        let status = command.status().expect("the program starts");
        let time = start.elapsed().as_secs_f64() * 1e6;
        assert!(status.success(), "{status}");
        time
    }
}

fn row(programs: [&OsString; 2], name: &str, sheet: &Sheet, item: u32) {
    let runs = [Run { program: programs[0], input: sheet.asked_for(item) }, Run { program: programs[1], input: sheet.bytes() }];
    let text = reference::cost(&runs[0].input);
    assert_eq!(runs[0].printed(), text);
    assert_eq!(runs[1].printed(), reference::program(&runs[1].input));
    let times = medians(2, RUNS, |at| runs[at].time());
    let closures = text.lines().count() - 1;
    println!("| {name}, {closures} listed closures: item {item} | {} | {} | {:.2} |", shown(times[0]), shown(times[1]), times[0] / times[1]);
}

/// Prints the table, where the programs are named.
pub fn table() {
    let (Some(cost), Some(ways)) = (env::var_os("COST_PROGRAM"), env::var_os("WAYS_PROGRAM")) else {
        return eprintln!("COST_PROGRAM and WAYS_PROGRAM do not both name a program, so these were not timed");
    };
    println!("\n| sheet | cost, µs | ways, µs | ratio |");
    println!("|---|---:|---:|---:|");
    row([&cost, &ways], "B", &sheet_b(), 2);
    let (sheet, item) = behind_closures();
    row([&cost, &ways], "64 nodes, 512 arcs", &sheet, item);
}
