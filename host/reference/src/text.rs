//! What the programs `ways` and `cost` print for a standard input.

use crate::graph::{Graph, MISSING};
use crate::number::Reader;
use crate::operations::{pass, reasons_for, Refusal, LENGTHS, SLIP_BYTES, WORK_BYTES};
use crate::sheet::{Sheet, FORBIDDEN, OPEN};
use crate::slip::Slip;
use crate::tour::Lengths;
use std::fmt::{Display, Write};

const MOST_INPUT: usize = 8_192;

/// The text of `ways`.
pub fn program(input: &[u8]) -> String {
    let bytes = taken(input);
    let mut slip = vec![0; SLIP_BYTES];
    let number = pass(bytes, &mut vec![0; WORK_BYTES], &mut slip);
    if number >= LENGTHS {
        return refused(number / LENGTHS);
    }
    match Slip::read(&slip[..number as usize]) {
        Ok(refused) => format!("verdict {}\n{}{}", refused.first, line("needs", &refused.goals), line("because", &refused.reasons)),
        Err(_) => {
            let sheet = Sheet::read(bytes).expect("pass took it");
            let pruned: Vec<usize> = (0..sheet.items()).filter(|&item| sheet.marks[item] == OPEN && slip[item + 1] == FORBIDDEN).collect();
            format!("verdict 0\n{}", line("struck", &pruned))
        }
    }
}

/// The text of `cost`, for an item number and a sheet behind it.
pub fn cost(input: &[u8]) -> String {
    cost_lines(taken(input)).unwrap_or_else(refused)
}

fn cost_lines(bytes: &[u8]) -> Result<String, Refusal> {
    let mut reader = Reader { rest: bytes };
    let item = reader.number()? as usize;
    let sheet = Sheet::read(reader.rest)?;
    let listed = reasons_for(&sheet, item)?;
    let length = length_through(&sheet, item, |other| sheet.marks[other] == FORBIDDEN);
    let mut text = number_line(length.map(|length| sheet.limit as i64 - length as i64));
    for &opened in &listed {
        text += &number_line(length_through(&sheet, item, |other| other != opened && listed.contains(&other)));
    }
    Ok(text)
}

/// The least length of a walk clear of what is closed through an item that is not closed, or none.
fn length_through(sheet: &Sheet, item: usize, closed: impl Fn(usize) -> bool) -> Option<u64> {
    let length = Lengths::new(sheet, &Graph::new(sheet, closed)).through_item(sheet, item);
    (length < MISSING).then_some(length)
}

/// The part of a standard input that is read.
fn taken(input: &[u8]) -> &[u8] {
    &input[..input.len().min(MOST_INPUT)]
}

fn refused(refusal: Refusal) -> String {
    format!("refused {refusal}\n")
}

fn line(word: &str, items: &[usize]) -> String {
    let mut text = word.to_string();
    for item in items {
        write!(text, " {item}").expect("text takes text");
    }
    text + "\n"
}

fn number_line(number: Option<impl Display>) -> String {
    number.map_or("none\n".to_string(), |number| format!("{number}\n"))
}
