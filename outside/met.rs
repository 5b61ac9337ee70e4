//! What the inputs of a run meet: how often each refusal, reason, turn and length
//! of run, by the verdict and by compatible, and how often a text at a limit is
//! taken.

use std::collections::BTreeMap;

use plain::{Node, Table};

/// Each is met so often at least, by either question.
const LEAST: usize = 200;

#[derive(Default)]
pub struct Met {
    /// By what was met: the verdict's count and compatible's.
    lines: BTreeMap<String, [usize; 2]>,
    /// Texts that were taken at a limit.
    taken: BTreeMap<&'static str, usize>,
    /// What there was one too many of in refusals 5.
    too_many: BTreeMap<&'static str, usize>,
}

impl Met {
    /// Counts the verdict's line (0) or compatible's (1).
    pub fn count_line(&mut self, question: usize, line: &[u8]) {
        let line = std::str::from_utf8(line).expect("a line is ASCII");
        for row in rows(&line.split_whitespace().collect::<Vec<_>>()) {
            self.lines.entry(row).or_default()[question] += 1;
        }
    }

    pub fn count_text(&mut self, text: &[u8]) {
        match plain::read(text) {
            Ok(table) => {
                for limit in limits(text, &table) {
                    *self.taken.entry(limit).or_default() += 1;
                }
            }
            Err(refusal) if refusal.number == 5 => {
                *self.too_many.entry(one_too_many(&text[..refusal.place])).or_default() += 1;
            }
            Err(_) => {}
        }
    }

    pub fn print(&self) {
        println!("{:<44} {:>9} {:>10}", "met", "verdict", "compatible");
        for (row, [verdict, compatible]) in &self.lines {
            println!("{row:<44} {verdict:>9} {compatible:>10}");
        }
        println!("{:<44} {:>9}", "taken at the limit", "texts");
        for (limit, texts) in &self.taken {
            println!("{limit:<44} {texts:>9}");
        }
        println!("{:<44} {:>9}", "refused 5", "texts");
        for (what, texts) in &self.too_many {
            println!("{what:<44} {texts:>9}");
        }
    }

    /// What was met less often than it must be.
    pub fn rare(&self) -> Vec<String> {
        let refused =
            (1..=9).flat_map(|n| [1, 2].map(|text| format!("refused {n} in text {text}")));
        let reasons = (20..=23).map(|reason| format!("no, reason {reason}"));
        let others = [
            "yes",
            "no in turn 1",
            "no, run of more than   20 steps",
            "no, run of more than  100 steps",
        ];
        let seldom = |row: &String| {
            self.lines.get(row).is_none_or(|both| *both.iter().min().expect("two") < LEAST)
        };
        let lines = refused.chain(reasons).chain(others.map(String::from)).filter(seldom);
        let few = |texts: Option<&usize>| texts.is_none_or(|texts| *texts < LEAST);
        let limits = LIMITS.into_iter().filter(|limit| few(self.taken.get(limit)));
        let one_more = ONE_MORE.into_iter().filter(|what| few(self.too_many.get(what)));
        lines.chain(limits.chain(one_more).map(String::from)).collect()
    }
}

/// The rows to which a line belongs.
fn rows(fields: &[&str]) -> Vec<String> {
    let number = |position: usize| fields[position].parse::<usize>().expect("a number");
    let mut rows = Vec::new();
    match fields[0] {
        "yes" => {
            rows.push("yes".into());
            let passed = [20, 100, 1000].iter().filter(|bound| number(1) > **bound);
            rows.extend(passed.map(|bound| format!("yes, more than {bound:>4} marks")));
        }
        "no" => {
            let steps = fields.len() - 6;
            let passed: Vec<usize> =
                [0, 5, 20, 100, 400, 1000].into_iter().filter(|bound| steps > *bound).collect();
            rows.extend(
                passed.iter().map(|bound| format!("no, run of more than {bound:>4} steps")),
            );
            if number(5) == 1 {
                rows.push("no in turn 1".into());
                rows.extend(
                    passed.iter().map(|bound| format!("no in turn 1, more than {bound:>4} steps")),
                );
            }
            if number(4) >= 64 {
                rows.push("no, old node above 63".into());
            }
            rows.push(format!("no, reason {}", fields[1]));
            rows.push(format!("no, reason {} in turn {}", fields[1], fields[5]));
        }
        _ => rows.push(format!("refused {} in text {}", fields[1], fields[2])),
    }
    rows
}

/// The limits of a text.
const LIMITS: [&str; 7] = [
    "4,096 bytes",
    "96 definitions",
    "64 nodes",
    "16 labels",
    "4 items",
    "16 open brackets",
    "a word of 16 bytes",
];

/// What there is one too many of where refusal 5 is given; the other limits have
/// refusals of their own.
const ONE_MORE: [&str; 4] = ["definition", "label", "item, or node as an item", "node"];

/// The limits that a text which was taken comes to exactly.
fn limits(text: &[u8], table: &Table) -> Vec<&'static str> {
    let counted = |bytes: &[u8]| text.iter().filter(|byte| bytes.contains(byte)).count();
    let labels =
        |node: &Node| matches!(node, Node::Choice { branches, .. } if branches.len() == 16);
    let items = |node: &Node| matches!(node, Node::Message { items, .. } if items.len() == 4);
    let mut open: usize = 0;
    let mut most_open = 0;
    for byte in text {
        match byte {
            b'(' | b'[' | b'{' => open += 1,
            b')' | b']' | b'}' => open -= 1,
            _ => {}
        }
        most_open = most_open.max(open);
    }
    let in_word = |byte: &u8| byte.is_ascii_alphanumeric() || *byte == b'_';
    let reached = [
        text.len() == 4096,
        counted(b".") == 96,
        table.nodes().len() == 64,
        table.nodes().iter().any(labels),
        table.nodes().iter().any(items),
        most_open == 16,
        text.split(|byte| !in_word(byte)).any(|word| word.len() == 16),
    ];
    LIMITS
        .into_iter()
        .zip(reached)
        .filter_map(|(limit, reached)| reached.then_some(limit))
        .collect()
}

/// What the byte after these begins, judged by the last token before it.
fn one_too_many(before: &[u8]) -> &'static str {
    let [definition, label, item, node] = ONE_MORE;
    match before.iter().rfind(|byte| !b" \t\n\r".contains(byte)) {
        Some(b'.') => definition,
        Some(b'{' | b'|') => label,
        Some(b',') => item,
        _ => node,
    }
}
