//! From a text to its table, or to its refusal (document 01, "The notation",
//! "The table" and refusals 1 to 9).
//!
//! The reader goes through the tokens once, from left to right. Of the refusals
//! 2 to 7 "the least place, and at one place the lowest number" is given: so it
//! stops at the first fault, and at each token asks for the faults by number.
//! A definition, label, item or node counts as soon as its first byte is there.

use std::collections::HashMap;

use crate::faults;
use crate::numbers::*;
use crate::tables::{Branch, Item, Label, Node, Party, Table};
use crate::tokens::{tokens, Kind, Token};
use crate::Refusal;

/// Reads one text to its table.
pub fn read(text: &[u8]) -> Result<Table, Refusal> {
    if text.len() > TEXT_BYTES {
        return Err(Refusal { number: TEXT_TOO_LONG, place: 0 });
    }
    let tokens = tokens(text);
    if faults::NUMBER_BEFORE_PLACE {
        for number in NOT_THE_NOTATION..=NAME_DEFINED_TWICE {
            Reader { only: Some(number), ..Reader::new(text, &tokens) }.read_text()?;
        }
    }
    let mut reader = Reader::new(text, &tokens);
    reader.read_text()?;
    reader.table()
}

/// What a type leads to: the node that it makes, or the name that it is.
#[derive(Clone, Copy)]
enum Target {
    Node(usize),
    Name(usize),
}

struct Definition {
    place: usize,
    body: Target,
}

/// A word that stands as a definition's name, as a type, or as both.
struct Name {
    definition: Option<usize>,
    first_use: Option<usize>,
}

struct Reader<'t> {
    text: &'t [u8],
    tokens: &'t [Token],
    /// The token to be read next.
    at: usize,
    open_brackets: usize,
    nodes: Vec<Node<Target>>,
    definitions: Vec<Definition>,
    names: Vec<Name>,
    name_numbers: HashMap<&'t [u8], usize>,
    /// For `faults::NUMBER_BEFORE_PLACE` alone: the one refusal looked for.
    only: Option<usize>,
}

impl<'t> Reader<'t> {
    fn new(text: &'t [u8], tokens: &'t [Token]) -> Reader<'t> {
        Reader {
            text,
            tokens,
            at: 0,
            open_brackets: 0,
            nodes: Vec::new(),
            definitions: Vec::new(),
            names: Vec::new(),
            name_numbers: HashMap::new(),
            only: None,
        }
    }

    // Tokens and refusals

    fn token(&self) -> Token {
        self.tokens[self.at]
    }

    /// The next token's refusal 2.
    fn not_the_notation(&self) -> Refusal {
        Refusal { number: NOT_THE_NOTATION, place: self.token().place }
    }

    /// Refuses with one of the numbers 3 to 7 if the fault is there.
    fn forbid(&self, fault: bool, number: usize, place: usize) -> Result<(), Refusal> {
        if faults::NUMBER_BEFORE_PLACE && self.only.is_some_and(|only| only != number) {
            return Ok(());
        }
        if fault {
            Err(Refusal { number, place })
        } else {
            Ok(())
        }
    }

    fn forbid_long_word(&self, token: Token) -> Result<(), Refusal> {
        self.forbid(token.length > WORD_BYTES, WORD_TOO_LONG, token.place)
    }

    /// Takes the next token if it is this byte.
    fn take_if(&mut self, byte: u8) -> bool {
        let fits = self.token().kind == Kind::Byte(byte);
        self.at += fits as usize;
        fits
    }

    fn expect(&mut self, byte: u8) -> Result<(), Refusal> {
        if self.take_if(byte) {
            Ok(())
        } else {
            Err(self.not_the_notation())
        }
    }

    /// Takes a word that is not reserved: a definition's name or a label.
    fn expect_word(&mut self) -> Result<Token, Refusal> {
        let token = self.token();
        if token.kind != Kind::Word {
            return Err(self.not_the_notation());
        }
        self.forbid_long_word(token)?;
        self.at += 1;
        Ok(token)
    }

    fn open_bracket(&mut self, bracket: u8) -> Result<(), Refusal> {
        let place = self.token().place;
        self.expect(bracket)?;
        self.forbid(self.open_brackets >= OPEN_BRACKETS, BRACKET_TOO_MANY, place)?;
        self.open_brackets += 1;
        Ok(())
    }

    fn close_bracket(&mut self, bracket: u8) -> Result<(), Refusal> {
        self.expect(bracket)?;
        self.open_brackets -= 1;
        Ok(())
    }

    fn word(&self, token: Token) -> &'t [u8] {
        &self.text[token.place..token.place + token.length]
    }

    // The notation

    /// "A text is one or more definitions."
    fn read_text(&mut self) -> Result<(), Refusal> {
        loop {
            self.read_definition()?;
            if self.token().kind == Kind::Finish {
                return Ok(());
            }
        }
    }

    fn read_definition(&mut self) -> Result<(), Refusal> {
        let token = self.expect_word()?;
        let number = self.definitions.len();
        self.forbid(number >= DEFINITIONS, ONE_TOO_MANY, token.place)?;
        let name = self.name_number(token);
        self.forbid(self.names[name].definition.is_some(), NAME_DEFINED_TWICE, token.place)?;
        self.names[name].definition = Some(number);
        self.expect(b'=')?;
        let body = self.read_type()?;
        self.definitions.push(Definition { place: token.place, body });
        self.expect(b'.')
    }

    fn read_type(&mut self) -> Result<Target, Refusal> {
        match self.token().kind {
            Kind::End => self.begin_node().map(Target::Node),
            Kind::Word => self.read_name(),
            Kind::Byte(b'?') => self.read_message(Party::Card, b'(', b')'),
            Kind::Byte(b'!') => self.read_message(Party::Host, b'[', b']'),
            Kind::Byte(b'&') => self.read_choice(Party::Card),
            Kind::Byte(b'+') => self.read_choice(Party::Host),
            _ => Err(self.not_the_notation()),
        }
    }

    fn read_name(&mut self) -> Result<Target, Refusal> {
        let token = self.expect_word()?;
        let name = self.name_number(token);
        self.names[name].first_use.get_or_insert(token.place);
        Ok(Target::Name(name))
    }

    fn name_number(&mut self, token: Token) -> usize {
        let next = self.names.len();
        let number = *self.name_numbers.entry(self.word(token)).or_insert(next);
        if number == next {
            self.names.push(Name { definition: None, first_use: None });
        }
        number
    }

    /// Takes the token that begins a node and gives the node its number. What
    /// the node holds is filled in when it has been read; until then, and for
    /// good if it is an `end`, it stands as `End`.
    fn begin_node(&mut self) -> Result<usize, Refusal> {
        let number = self.nodes.len();
        self.forbid(number >= TEXT_NODES, ONE_TOO_MANY, self.token().place)?;
        self.at += 1;
        self.nodes.push(Node::End);
        Ok(number)
    }

    fn read_message(&mut self, from: Party, opening: u8, closing: u8) -> Result<Target, Refusal> {
        let number = self.begin_node()?;
        self.open_bracket(opening)?;
        let mut items = Vec::new();
        if self.token().kind != Kind::Byte(closing) {
            loop {
                items.push(self.read_item(items.len())?);
                if !self.take_if(b',') {
                    break;
                }
            }
        }
        self.close_bracket(closing)?;
        self.expect(b';')?;
        let continuation = self.read_type()?;
        self.nodes[number] = Node::Message { from, items, continuation };
        Ok(Target::Node(number))
    }

    /// Reads the item that stands after `before` others.
    fn read_item(&mut self, before: usize) -> Result<Item<Target>, Refusal> {
        let token = self.token();
        if !begins_item(token.kind) {
            return Err(self.not_the_notation());
        }
        // A fifth item that is an over-long name: 3 before 5.
        self.forbid_long_word(token)?;
        self.forbid(before >= ITEMS, ONE_TOO_MANY, token.place)?;
        if let Kind::Sort(sort) = token.kind {
            self.at += 1;
            return Ok(Item::Sort(sort));
        }
        self.read_type().map(Item::Session)
    }

    fn read_choice(&mut self, by: Party) -> Result<Target, Refusal> {
        let number = self.begin_node()?;
        self.open_bracket(b'{')?;
        let mut branches = Vec::new();
        loop {
            let label = self.read_label(&branches)?;
            self.expect(b':')?;
            let link = self.read_type()?;
            branches.push(Branch { label, link });
            if !self.take_if(b'|') {
                break;
            }
        }
        self.close_bracket(b'}')?;
        self.nodes[number] = Node::Choice { by, branches };
        Ok(Target::Node(number))
    }

    /// Reads the label that stands after those of `before` in one choice.
    fn read_label(&mut self, before: &[Branch<Target>]) -> Result<Label, Refusal> {
        let token = self.expect_word()?;
        self.forbid(before.len() >= LABELS, ONE_TOO_MANY, token.place)?;
        let word = self.word(token);
        let twice = before.iter().any(|branch| branch.label.bytes(self.text) == word);
        self.forbid(twice, LABEL_TWICE, token.place)?;
        Ok(Label { start: token.place, end: token.place + token.length })
    }

    // The table

    /// The table of a text that has none of the refusals 1 to 7: "then 8; then 9".
    fn table(self) -> Result<Table, Refusal> {
        self.forbid_undefined_names()?;
        let leads_to = self.nodes_of_definitions()?;
        let link = |target| match target {
            Target::Node(node) => node,
            Target::Name(name) => leads_to[self.definition_of(name)],
        };
        let nodes = self.nodes.iter().map(|node| node.with_links(link)).collect();
        // "The first definition gives the start."
        Ok(Table::new(nodes, leads_to[0]))
    }

    fn forbid_undefined_names(&self) -> Result<(), Refusal> {
        let undefined = self.names.iter().filter(|name| name.definition.is_none());
        match undefined.filter_map(|name| name.first_use).min() {
            Some(place) => Err(Refusal { number: NAME_NEVER_DEFINED, place }),
            None => Ok(()),
        }
    }

    /// For each definition the node that it leads to, "through other names if
    /// need be".
    fn nodes_of_definitions(&self) -> Result<Vec<usize>, Refusal> {
        let node_of = |definition: &Definition| {
            let refusal = Refusal { number: NAMES_LEAD_ROUND, place: definition.place };
            self.node_of(definition).ok_or(refusal)
        };
        self.definitions.iter().map(node_of).collect()
    }

    fn node_of(&self, definition: &Definition) -> Option<usize> {
        let mut body = definition.body;
        // More names than definitions: one of them came twice, and so for ever.
        for _ in 0..=self.definitions.len() {
            match body {
                Target::Node(node) => return Some(node),
                Target::Name(name) => body = self.definitions[self.definition_of(name)].body,
            }
        }
        None
    }

    /// Asked only after `forbid_undefined_names`.
    fn definition_of(&self, name: usize) -> usize {
        self.names[name].definition.expect("each name is defined")
    }
}

fn begins_item(kind: Kind) -> bool {
    match kind {
        Kind::Word | Kind::End | Kind::Sort(_) => true,
        Kind::Byte(byte) => matches!(byte, b'?' | b'!' | b'&' | b'+'),
        Kind::Finish => false,
    }
}
