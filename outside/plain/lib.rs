//! Document 01 in plain Rust: a text is read to a table, a table has a dual,
//! and of two tables one may replace the other or not.
//!
//! The way of a text is `tokens` → `reading` → `tables` → (`dual` →) `verdict`
//! → `line`; no module looks back.

#![forbid(unsafe_code)]

#[cfg(test)]
mod by_definition;
mod dual;
mod faults;
mod line;
mod numbers;
mod reading;
mod tables;
#[cfg(test)]
mod tests;
mod tokens;
mod verdict;

pub use dual::dual;
pub use line::{compatible_line, split, verdict_line};
pub use reading::read;
pub use tables::{Branch, Item, Label, Node, Party, Sort, Table};
pub use verdict::{may_replace, Verdict};

/// Why a text or a table is not taken, and where: a row of document 01's
/// "Refusal list".
#[derive(Clone, Copy, PartialEq, Eq, Debug)]
pub struct Refusal {
    pub number: usize,
    pub place: usize,
}
