//! A text as it is going to be written: definitions and types, which can be
//! changed before they become bytes.

use std::collections::HashSet;

use super::random::Random;

pub type Word = Vec<u8>;

pub const SORTS: [&[u8]; 4] = [b"string", b"float", b"boolean", b"void"];

#[derive(Clone)]
pub enum Type {
    End,
    /// The name of a definition, by its number here.
    Name(usize),
    /// A word as it stands, for names that no definition has.
    Word(Word),
    Message {
        sent: bool,
        items: Vec<Item>,
        then: Box<Type>,
    },
    Choice {
        by_host: bool,
        branches: Vec<Branch>,
    },
}

#[derive(Clone)]
pub enum Item {
    /// By its number in `SORTS`.
    Sort(usize),
    Session(Type),
}

#[derive(Clone)]
pub struct Branch {
    pub label: Word,
    pub then: Type,
}

#[derive(Clone)]
pub struct Definition {
    pub name: Word,
    pub body: Type,
}

#[derive(Clone)]
pub struct Text {
    pub definitions: Vec<Definition>,
    /// The definition that is written first.
    pub start: usize,
}

impl Item {
    pub fn session(&self) -> Option<&Type> {
        match self {
            Item::Session(session) => Some(session),
            Item::Sort(_) => None,
        }
    }

    fn session_mut(&mut self) -> Option<&mut Type> {
        match self {
            Item::Session(session) => Some(session),
            Item::Sort(_) => None,
        }
    }
}

impl Type {
    pub fn message(sent: bool, items: Vec<Item>, then: Type) -> Type {
        Type::Message { sent, items, then: Box::new(then) }
    }

    /// The types directly inside this one, in written order.
    pub fn inner(&self) -> Vec<&Type> {
        match self {
            Type::Message { items, then, .. } => {
                items.iter().filter_map(Item::session).chain([&**then]).collect()
            }
            Type::Choice { branches, .. } => branches.iter().map(|branch| &branch.then).collect(),
            _ => Vec::new(),
        }
    }

    pub fn inner_mut(&mut self) -> Vec<&mut Type> {
        match self {
            Type::Message { items, then, .. } => {
                let mut inner: Vec<&mut Type> =
                    items.iter_mut().filter_map(Item::session_mut).collect();
                inner.push(then);
                inner
            }
            Type::Choice { branches, .. } => {
                branches.iter_mut().map(|branch| &mut branch.then).collect()
            }
            _ => Vec::new(),
        }
    }

    pub fn count(&self, fits: &dyn Fn(&Type) -> bool) -> usize {
        let inside: usize = self.inner().into_iter().map(|inner| inner.count(fits)).sum();
        fits(self) as usize + inside
    }

    /// The type that fits and has `before` fitting ones before it.
    fn find_mut(&mut self, fits: &dyn Fn(&Type) -> bool, before: &mut usize) -> Option<&mut Type> {
        if fits(self) {
            if *before == 0 {
                return Some(self);
            }
            *before -= 1;
        }
        self.inner_mut().into_iter().find_map(|inner| inner.find_mut(fits, before))
    }

    pub fn for_each_mut(&mut self, act: &mut dyn FnMut(&mut Type)) {
        act(self);
        for inner in self.inner_mut() {
            inner.for_each_mut(act);
        }
    }

    fn write(&self, names: &[Definition], bytes: &mut Vec<u8>) {
        match self {
            Type::End => bytes.extend(b"end"),
            Type::Name(number) => bytes.extend(&names[*number].name),
            Type::Word(word) => bytes.extend(word),
            Type::Message { sent, items, then } => {
                bytes.extend(if *sent { b"![" } else { b"?(" });
                for (position, item) in items.iter().enumerate() {
                    if position > 0 {
                        bytes.push(b',');
                    }
                    match item {
                        Item::Sort(sort) => bytes.extend(SORTS[*sort]),
                        Item::Session(session) => session.write(names, bytes),
                    }
                }
                bytes.extend(if *sent { b"];" } else { b");" });
                then.write(names, bytes);
            }
            Type::Choice { by_host, branches } => {
                bytes.extend(if *by_host { b"+{" } else { b"&{" });
                for (position, branch) in branches.iter().enumerate() {
                    if position > 0 {
                        bytes.push(b'|');
                    }
                    bytes.extend(&branch.label);
                    bytes.push(b':');
                    branch.then.write(names, bytes);
                }
                bytes.push(b'}');
            }
        }
    }
}

pub fn is_node(part: &Type) -> bool {
    !matches!(part, Type::Name(_) | Type::Word(_))
}

pub fn is_end(part: &Type) -> bool {
    matches!(part, Type::End)
}

pub fn is_name(part: &Type) -> bool {
    matches!(part, Type::Name(_))
}

pub fn is_choice(part: &Type) -> bool {
    matches!(part, Type::Choice { .. })
}

pub fn is_message(part: &Type) -> bool {
    matches!(part, Type::Message { .. })
}

impl Text {
    /// How many of its types fit.
    pub fn count(&self, fits: &dyn Fn(&Type) -> bool) -> usize {
        self.definitions.iter().map(|definition| definition.body.count(fits)).sum()
    }

    /// One of its types that fit, each as likely as the others.
    pub fn any(&mut self, random: &mut Random, fits: &dyn Fn(&Type) -> bool) -> Option<&mut Type> {
        let count = self.count(fits);
        if count == 0 {
            return None;
        }
        let mut before = random.below(count);
        self.definitions
            .iter_mut()
            .find_map(|definition| definition.body.find_mut(fits, &mut before))
    }

    pub fn for_each_mut(&mut self, act: &mut dyn FnMut(&mut Type)) {
        for definition in &mut self.definitions {
            definition.body.for_each_mut(act);
        }
    }

    /// A word that is none of its definitions' names.
    pub fn fresh_name(&self, random: &mut Random) -> Word {
        let taken: HashSet<&[u8]> =
            self.definitions.iter().map(|definition| &definition.name[..]).collect();
        loop {
            let letter = *random.pick(b"ABXYZefstv");
            let name = format!("{}{}", letter as char, random.below(100)).into_bytes();
            if !taken.contains(&name[..]) {
                return name;
            }
        }
    }

    /// Adds a definition under a fresh name and gives its number.
    pub fn define(&mut self, random: &mut Random, body: Type) -> usize {
        let name = self.fresh_name(random);
        self.definitions.push(Definition { name, body });
        self.definitions.len() - 1
    }

    /// Leaves out the definitions that the start does not lead to.
    pub fn keep_reached(&mut self) {
        let mut numbers = vec![None; self.definitions.len()];
        let mut reached = vec![self.start];
        numbers[self.start] = Some(0);
        let mut at = 0;
        while at < reached.len() {
            self.definitions[reached[at]].body.clone().for_each_mut(&mut |part| {
                if let Type::Name(number) = part {
                    if numbers[*number].is_none() {
                        numbers[*number] = Some(reached.len());
                        reached.push(*number);
                    }
                }
            });
            at += 1;
        }
        self.definitions = reached.iter().map(|number| self.definitions[*number].clone()).collect();
        self.start = 0;
        self.for_each_mut(&mut |part| {
            if let Type::Name(number) = part {
                *number = numbers[*number].expect("what a reached definition names is reached");
            }
        });
    }

    /// The text without any blank, the start first and the others as they are.
    pub fn bytes(&self) -> Vec<u8> {
        let rest = (0..self.definitions.len()).filter(|number| *number != self.start);
        self.bytes_in_order([self.start].into_iter().chain(rest))
    }

    /// The same with the definitions after the first in any order.
    pub fn bytes_shuffled(&self, random: &mut Random) -> Vec<u8> {
        let mut rest: Vec<usize> =
            (0..self.definitions.len()).filter(|number| *number != self.start).collect();
        random.shuffle(&mut rest);
        self.bytes_in_order([self.start].into_iter().chain(rest))
    }

    fn bytes_in_order(&self, order: impl Iterator<Item = usize>) -> Vec<u8> {
        let mut bytes = Vec::new();
        for number in order {
            bytes.extend(&self.definitions[number].name);
            bytes.push(b'=');
            self.definitions[number].body.write(&self.definitions, &mut bytes);
            bytes.push(b'.');
        }
        bytes
    }
}
