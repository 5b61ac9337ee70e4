//! The numbers that document 01 fixes, each written once.

// "Numbers."
pub const TEXT_BYTES: usize = 4096;
pub const DEFINITIONS: usize = 96;
pub const TEXT_NODES: usize = 64;
pub const LABELS: usize = 16;
pub const ITEMS: usize = 4;
pub const OPEN_BRACKETS: usize = 16;
pub const WORD_BYTES: usize = 16;
pub const TABLE_NODES: usize = 128;

// "Refusal list"
pub const TEXT_TOO_LONG: usize = 1;
pub const NOT_THE_NOTATION: usize = 2;
pub const WORD_TOO_LONG: usize = 3;
pub const BRACKET_TOO_MANY: usize = 4;
pub const ONE_TOO_MANY: usize = 5;
pub const LABEL_TWICE: usize = 6;
pub const NAME_DEFINED_TWICE: usize = 7;
pub const NAME_NEVER_DEFINED: usize = 8;
pub const NAMES_LEAD_ROUND: usize = 9;
pub const DUAL_TOO_LARGE: usize = 13;

// "May replace, and compatible": the reasons of a mismatch.
pub const KINDS_DIFFER: usize = 20;
pub const ITEM_COUNTS_DIFFER: usize = 21;
pub const ITEM_DIFFERS: usize = 22;
pub const LABEL_MISSING: usize = 23;

/// The number of the step into a message's continuation, whatever its items:
/// the items have 0 to 3.
pub const CONTINUATION_STEP: u16 = 4;
