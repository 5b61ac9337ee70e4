//! Texts that come to one of document 01's limits exactly, or one above.

use super::blanks::{padded, sprinkled, tokens};
use super::random::Random;

/// One limit, alone or behind a harmless definition.
pub fn one(random: &mut Random) -> Vec<u8> {
    let over = random.chance(1, 2);
    let limit = random.below(7);
    let mut text = Limited::new(random);
    text.reach(limit, over);
    text.written(limit == BYTES, over)
}

/// Several limits in one text, some of them passed, in any order.
pub fn several(random: &mut Random) -> Vec<u8> {
    let count = random.between(2, 4);
    let limits: Vec<(usize, bool)> =
        (0..count).map(|_| (random.below(6), random.chance(1, 3))).collect();
    let (to_the_byte, over) = (random.chance(1, 10), random.chance(1, 3));
    let mut text = Limited::new(random);
    for (limit, over) in limits {
        text.reach(limit, over);
    }
    text.written(to_the_byte, over)
}

/// The number of the limit on the text's own length, which comes last of all.
const BYTES: usize = 6;

const TOO_LONG: &str = "abcdefghijklmnopq";

struct Limited<'r> {
    random: &'r mut Random,
    /// The definitions so far, without blanks.
    text: String,
    names: usize,
}

impl Limited<'_> {
    fn new(random: &mut Random) -> Limited<'_> {
        let mut text = Limited { random, text: String::new(), names: 0 };
        if text.random.chance(1, 2) {
            text.define("end");
        }
        text
    }

    fn reach(&mut self, limit: usize, over: bool) {
        match limit {
            0 => self.word(over),
            1 => self.items(over),
            2 => self.labels(over),
            3 => self.brackets(over),
            4 => self.nodes(over),
            5 => self.definitions(over),
            _ => {}
        }
    }

    fn written(mut self, to_the_byte: bool, over: bool) -> Vec<u8> {
        if self.text.is_empty() {
            self.define("end");
        }
        let mut text = sprinkled(self.random, self.text.as_bytes());
        if !to_the_byte {
            return text;
        }
        // Now and then the text ends at its 4,096th byte where none may end.
        if self.random.chance(1, 5) {
            text.pop();
        }
        padded(self.random, &text, 4096 + over as usize)
    }

    fn fresh(&mut self) -> String {
        self.names += 1;
        format!("L{}", self.names)
    }

    fn define(&mut self, body: &str) {
        let name = self.fresh();
        self.text += &format!("{name}={body}.");
    }

    fn one_of(&mut self, list: &[&str]) -> String {
        self.random.pick(list).to_string()
    }

    fn count(&self, counted: &[&str]) -> usize {
        let tokens = tokens(self.text.as_bytes());
        tokens
            .iter()
            .filter(|token| counted.iter().any(|word| word.as_bytes() == &token[..]))
            .count()
    }

    /// A word of 16 bytes, or longer, as a name, a label or a type.
    fn word(&mut self, over: bool) {
        self.names += 1;
        let length = if over { *self.random.pick(&[17, 17, 17, 18, 33, 300]) } else { 16 };
        let word = format!("{:x<length$}", format!("w{}_", self.names));
        match self.random.below(5) {
            0 => self.text += &format!("{word}=end."),
            1 => self.define(&format!("+{{{word}:end|a:end}}")),
            2 => self.text += &format!("V{}={word}.{word}=end.", self.names),
            3 => self.text += &format!("V{}=?(void,{word});end.{word}=end.", self.names),
            _ => self.text += &format!("{word}=![];{word}."),
        }
    }

    fn items(&mut self, over: bool) {
        let kinds =
            ["string", "float", "boolean", "void", "end", "?();end", "![void];end", "+{a:end}"];
        let mut items: Vec<String> = (0..4).map(|_| self.one_of(&kinds)).collect();
        if over {
            items.push(self.one_of(&[
                "void", "end", "?();end", "&{a:end}", "?=", "", ")", "=", TOO_LONG, "L1", "_",
            ]));
        }
        let items = items.join(",");
        let body = if self.random.chance(1, 2) {
            format!("?({items});end")
        } else {
            format!("![{items}];end")
        };
        self.define(&body);
    }

    fn labels(&mut self, over: bool) {
        let name = self.fresh();
        let mut branches: Vec<String> = (0..16).map(|label| format!("m{label}:{name}")).collect();
        self.random.shuffle(&mut branches);
        if over {
            let last = self.one_of(&[
                "m16:end", "m16", "m0:end", "m15:end", "", "end:end", "=", TOO_LONG, "n:",
            ]);
            branches.push(last);
        }
        let side = self.one_of(&["+", "&"]);
        self.text += &format!("{name}={side}{{{}}}.", branches.join("|"));
    }

    fn brackets(&mut self, over: bool) {
        let name = self.fresh();
        let kinds = [("?(", ");"), ("![", "];"), ("+{a:", "}"), ("&{b:", "}")];
        let nested: Vec<(&str, &str)> = (0..16).map(|_| *self.random.pick(&kinds)).collect();
        let mut body: String = nested.iter().map(|(opening, _)| *opening).collect();
        let last = [
            "?(", "![", "+{", "&{", "?();end", "![];end", "+{a:end}", "?[", "!(", "+(", "&[", "(",
            "+",
        ];
        body += &if over { self.one_of(&last) } else { self.one_of(&["end", &name]) };
        for (_, closing) in nested.iter().rev() {
            body += closing;
            if closing.ends_with(';') {
                body += &name;
            }
        }
        self.text += &format!("{name}={body}.");
    }

    fn nodes(&mut self, over: bool) {
        let there = self.count(&["end", "?", "!", "&", "+"]);
        let wanted = 64 + over as usize;
        if there + 1 >= wanted {
            return;
        }
        let before = wanted - there - 1;
        let last = if over {
            self.one_of(&["end", "end", "?();L1", "?=", "!", "+{a:L1}", "=", ")"])
        } else {
            "end".into()
        };
        match self.random.below(3) {
            0 => {
                let message = self.one_of(&["?();", "![void];"]);
                self.define(&(message.repeat(before) + &last));
            }
            1 => {
                // One node a definition would pass 96 definitions with others
                // there, so two or three.
                for _ in 0..before / 3 {
                    self.define("?(end);![];L1");
                }
                self.define(&("?();".repeat(before % 3) + &last));
            }
            _ => {
                for _ in 0..before / 2 {
                    self.define("+{a:end}");
                }
                self.define(&("![];".repeat(before % 2) + &last));
            }
        }
    }

    fn definitions(&mut self, over: bool) {
        if self.text.is_empty() {
            self.define("end");
        }
        let first = self.text.split('=').next().unwrap_or("L1").to_string();
        for _ in self.count(&["."])..96 {
            self.define(&first);
        }
        if over {
            let name = self.fresh();
            self.text += &match self.random.below(6) {
                0 => format!("{first}=end."),
                1 => format!("{TOO_LONG}=end."),
                2 => name,
                3 => "end".into(),
                4 => format!("{name}=+{{m:end|m:end}}."),
                _ => format!("{name}=end."),
            };
        }
    }
}
