//! A program run as a process, beside the reference.

use crate::{hex, samples};
use std::env;
use std::fs::File;
use std::io::{pipe, Read, Write};
use std::path::PathBuf;
use std::process::{Command, Stdio};
use std::time::Duration;

/// The most bytes of standard input that a program takes.
const MOST_INPUT: usize = 8_192;

pub struct Program {
    name: &'static str,
    path: PathBuf,
    /// what the reference says that it prints
    text: fn(&[u8]) -> String,
    /// of the samples that it reads
    ending: &'static str,
}

impl Program {
    /// The program `name` that a variable names, such as WAYS_PROGRAM. With CI set it has to be there; without it a test says that it did nothing.
    pub fn named(name: &'static str, text: fn(&[u8]) -> String, ending: &'static str) -> Option<Program> {
        let variable = format!("{}_PROGRAM", name.to_uppercase());
        let path = env::var_os(&variable).map(PathBuf::from);
        if path.is_none() {
            assert!(env::var_os("CI").is_none(), "CI is set, and {variable} does not name the program");
            println!("SKIPPED: {variable} does not name the program, so it was not run");
        }
        Some(Program { name, path: path?, text, ending })
    }

    /// What it prints when its standard input comes in these pieces.
    pub fn printed(&self, pieces: &[&[u8]]) -> String {
        let mut process = Command::new(&self.path).stdin(Stdio::piped()).stdout(Stdio::piped()).spawn().expect("the program starts");
        let mut input = process.stdin.take().expect("a pipe");
        for (i, piece) in pieces.iter().enumerate() {
            if i > 0 {
                std::thread::sleep(Duration::from_millis(30));
            }
            // a program that has read its 8,192 bytes may have ended by now
            let _ = input.write_all(piece);
        }
        drop(input);
        let output = process.wait_with_output().expect("the program ends");
        assert!(output.status.success(), "{}", output.status);
        String::from_utf8(output.stdout).expect("plain text")
    }

    /// What it prints, which is what the reference says.
    pub fn try_input(&self, input: &[u8]) -> String {
        let text = self.printed(&[input]);
        assert_eq!(text, (self.text)(input), "{}", hex(input));
        text
    }

    pub fn try_samples(&self) {
        let samples = samples(self.ending);
        assert!(!samples.is_empty());
        for path in samples {
            self.try_input(&std::fs::read(path).expect("a sample"));
        }
    }

    /// It takes its 8,192 bytes and leaves the rest in the pipe.
    pub fn try_long_input(&self) {
        let (mut input, mut writer) = pipe().expect("a pipe");
        let bytes = vec![0; 2 * MOST_INPUT];
        writer.write_all(&bytes).expect("a pipe that holds them");
        drop(writer);
        let reader = input.try_clone().expect("another end");
        let output = Command::new(&self.path).stdin(reader).output().expect("the program starts");
        assert_eq!(String::from_utf8_lossy(&output.stdout), (self.text)(&bytes));
        let mut left = vec![];
        input.read_to_end(&mut left).expect("the rest");
        assert_eq!(left.len(), bytes.len() - MOST_INPUT);
    }

    /// An input that cannot be read is not judged.
    pub fn try_unreadable_input(&self) {
        let folder = File::open(env!("CARGO_MANIFEST_DIR")).expect("a folder");
        self.try_failing(Command::new(&self.path).stdin(folder), "standard input: Is a directory");
        self.try_failing(&mut self.by_shell("<&-"), "standard input: Bad file descriptor");
        self.try_failing(&mut self.by_shell("0> /dev/null"), "standard input: Bad file descriptor");
    }

    pub fn try_unwritable_output(&self) {
        self.try_failing(&mut self.by_shell("> /dev/full"), "standard output: No space left on device");
        self.try_failing(&mut self.by_shell(">&-"), "standard output: Bad file descriptor");
    }

    /// With nothing to complain of, standard error stays empty.
    pub fn try_silence(&self) {
        for changed in ["", "< /dev/null"] {
            let output = self.by_shell(changed).output().expect("the program starts");
            assert!(!output.stdout.is_empty() && output.stderr.is_empty(), "{output:?}");
        }
    }

    /// Runs a command with which the program cannot read or cannot write: nothing may be on its standard output, and this alone, behind its name, on its standard error.
    fn try_failing(&self, command: &mut Command, expected: &str) {
        let output = command.output().expect("the program starts");
        assert!(output.status.success(), "{}", output.status);
        assert_eq!(String::from_utf8_lossy(&output.stdout), "");
        assert_eq!(String::from_utf8_lossy(&output.stderr), format!("{}: {expected}\n", self.name));
    }

    /// The program, started by the shell with a sample as its input and then `changed` as the shell has it.
    fn by_shell(&self, changed: &str) -> Command {
        let mut shell = Command::new("sh");
        shell.args(["-c", &format!("exec \"$0\" {changed}")]).arg(&self.path);
        shell.stdin(File::open(&samples(self.ending)[0]).expect("a sample"));
        shell
    }
}
