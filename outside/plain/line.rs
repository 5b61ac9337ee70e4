//! The printed verdict (document 01, "The printed verdict").

use std::fmt::Write;

use crate::dual::dual;
use crate::reading::read;
use crate::tables::Table;
use crate::verdict::{may_replace, Verdict};
use crate::Refusal;

/// The new text and the old one out of the program's input. "Without a byte 0
/// the second text is empty; further zero bytes belong to the second."
pub fn split(input: &[u8]) -> (&[u8], &[u8]) {
    match input.iter().position(|byte| *byte == 0) {
        Some(zero) => (&input[..zero], &input[zero + 1..]),
        None => (input, &[]),
    }
}

/// The line on whether the new text may replace the old one.
pub fn verdict_line(new: &[u8], old: &[u8]) -> Vec<u8> {
    line(new, old, Ok)
}

/// The line on whether the new text is compatible with the other one: "if new
/// may replace the dual of other".
pub fn compatible_line(new: &[u8], other: &[u8]) -> Vec<u8> {
    line(new, other, |table| dual(&table))
}

/// The line on the first text's table and what is made of the second's.
fn line(first: &[u8], second: &[u8], made: impl Fn(Table) -> Result<Table, Refusal>) -> Vec<u8> {
    // "The first text's refusal goes first."
    let new = match read(first) {
        Ok(table) => table,
        Err(refusal) => return refused(refusal, 1),
    };
    match read(second).and_then(made) {
        Ok(old) => answered(&may_replace(&new, first, &old, second)),
        Err(refusal) => refused(refusal, 2),
    }
}

fn refused(refusal: Refusal, text: usize) -> Vec<u8> {
    format!("refused {} {} {}\n", refusal.number, text, refusal.place).into_bytes()
}

fn answered(verdict: &Verdict) -> Vec<u8> {
    let mut line = match verdict {
        Verdict::Yes { count, .. } => format!("yes {count}"),
        Verdict::No { reason, detail, new, old, turn, run } => {
            let mut line = format!("no {reason} {detail} {new} {old} {turn}");
            for step in run {
                write!(line, " {step}").expect("a String takes what is written");
            }
            line
        }
    };
    line.push('\n');
    line.into_bytes()
}
