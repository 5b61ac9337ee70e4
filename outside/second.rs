//! The second implementation, `plain`, asked as the proved library is.

use plain::Table;

use crate::proved::Question;

pub fn line(question: Question, new: &[u8], old: &[u8]) -> Vec<u8> {
    match question {
        Question::Verdict => plain::verdict_line(new, old),
        Question::Compatible => plain::compatible_line(new, old),
    }
}

/// The two tables that are held against each other, where neither text is refused.
pub fn tables(question: Question, new: &[u8], old: &[u8]) -> Option<[Table; 2]> {
    let (new, old) = (plain::read(new).ok()?, plain::read(old).ok()?);
    let old = match question {
        Question::Verdict => old,
        Question::Compatible => plain::dual(&old).expect("a text has at most 64 nodes"),
    };
    Some([new, old])
}
