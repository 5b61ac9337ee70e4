//! Texts that are taken: grown along the notation, with loops, sessions handed
//! over, names that lead through names, and definitions that nothing reaches.

use super::random::Random;
use super::words::words;
use super::written::{Branch, Definition, Item, Text, Type, Word, SORTS};

#[derive(Clone, Copy)]
pub struct Size {
    pub definitions: usize,
    pub nodes: usize,
    /// Brackets open at once, at most.
    pub depth: usize,
}

/// Mostly small, because small texts meet most things and are quick.
pub fn any_size(random: &mut Random) -> Size {
    match random.below(40) {
        0 => Size { definitions: random.between(1, 90), nodes: 60, depth: 16 },
        1..=4 => Size {
            definitions: random.between(1, 12),
            nodes: random.between(12, 40),
            depth: random.between(2, 16),
        },
        5..=15 => small_size(random),
        _ => Size {
            definitions: random.between(1, 5),
            nodes: random.between(2, 14),
            depth: random.between(1, 5),
        },
    }
}

pub fn small_size(random: &mut Random) -> Size {
    Size {
        definitions: random.between(1, 3),
        nodes: random.between(1, 6),
        depth: random.between(1, 3),
    }
}

/// The labels that the texts of one input share.
pub fn labels(random: &mut Random) -> Vec<Word> {
    let count = *random.pick(&[2, 3, 3, 4, 6, 18]);
    let mut labels = words(random, count);
    labels.truncate(count);
    labels
}

pub fn text(random: &mut Random, size: Size, labels: &[Word]) -> Text {
    let names = words(random, size.definitions);
    let loops = random.between(1, 4);
    let mut growth = Growth { random, labels, size, nodes: 0, loops };
    let definitions = (0..size.definitions)
        .map(|number| Definition { name: names[number].clone(), body: growth.body(number) })
        .collect();
    Text { definitions, start: 0 }
}

pub fn small_text(random: &mut Random) -> Text {
    let size = small_size(random);
    let labels = labels(random);
    text(random, size, &labels)
}

struct Growth<'g> {
    random: &'g mut Random,
    labels: &'g [Word],
    size: Size,
    /// Nodes made so far.
    nodes: usize,
    /// Of 6 types inside another, how many are names while nodes are left.
    loops: usize,
}

impl Growth<'_> {
    fn body(&mut self, number: usize) -> Type {
        // A body that is a name names a later definition, and the last body is
        // a node: so no names lead round.
        let later = self.size.definitions - number - 1;
        if later > 0 && self.random.chance(1, 6) {
            return Type::Name(number + 1 + self.random.below(later));
        }
        if self.nodes >= self.size.nodes {
            return if later > 0 {
                Type::Name(number + 1 + self.random.below(later))
            } else {
                self.end()
            };
        }
        self.node(self.size.depth)
    }

    fn end(&mut self) -> Type {
        self.nodes += 1;
        Type::End
    }

    fn node(&mut self, depth: usize) -> Type {
        if depth == 0 || self.random.chance(1, 7) {
            return self.end();
        }
        self.nodes += 1;
        if self.random.chance(1, 2) {
            self.message(depth)
        } else {
            self.choice(depth)
        }
    }

    fn inner(&mut self, depth: usize) -> Type {
        if self.nodes >= self.size.nodes || self.random.chance(self.loops, 6) {
            return Type::Name(self.random.below(self.size.definitions));
        }
        self.node(depth)
    }

    fn message(&mut self, depth: usize) -> Type {
        let sent = self.random.chance(1, 2);
        let count = *self.random.pick(&[0, 1, 1, 1, 2, 2, 3, 4]);
        let items = (0..count).map(|_| self.item(depth - 1)).collect();
        Type::message(sent, items, self.inner(depth))
    }

    fn item(&mut self, depth: usize) -> Item {
        if self.random.chance(1, 2) {
            return Item::Sort(self.random.below(SORTS.len()));
        }
        Item::Session(self.inner(depth))
    }

    fn choice(&mut self, depth: usize) -> Type {
        let by_host = self.random.chance(1, 2);
        let most = self.labels.len().min(if self.random.chance(1, 20) { 16 } else { 3 });
        let mut labels = self.labels.to_vec();
        self.random.shuffle(&mut labels);
        labels.truncate(self.random.between(1, most));
        let branch = |label| Branch { label, then: self.inner(depth - 1) };
        Type::Choice { by_host, branches: labels.into_iter().map(branch).collect() }
    }
}
