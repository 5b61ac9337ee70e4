//! The table of nodes (document 01, "The table").

/// Who sends or chooses. "A card's description is written from the host's side."
#[derive(Clone, Copy, PartialEq, Eq, Debug)]
pub enum Party {
    Host,
    Card,
}

impl Party {
    pub fn other(self) -> Party {
        match self {
            Party::Host => Party::Card,
            Party::Card => Party::Host,
        }
    }
}

#[derive(Clone, Copy, PartialEq, Eq, Debug)]
pub enum Sort {
    String,
    Float,
    Boolean,
    Void,
}

#[derive(Clone, Copy, PartialEq, Eq, Debug)]
pub enum Item<Link = usize> {
    Sort(Sort),
    Session(Link),
}

/// A label as a part of the name bytes that go with the table.
#[derive(Clone, Copy, PartialEq, Eq, Debug)]
pub struct Label {
    pub start: usize,
    pub end: usize,
}

impl Label {
    pub fn bytes(self, names: &[u8]) -> &[u8] {
        &names[self.start..self.end]
    }
}

#[derive(Clone, Copy, PartialEq, Eq, Debug)]
pub struct Branch<Link = usize> {
    pub label: Label,
    pub link: Link,
}

/// A node. Its links are node numbers; while a text is being read they may
/// also be names, hence the parameter.
#[derive(Clone, PartialEq, Eq, Debug)]
pub enum Node<Link = usize> {
    End,
    /// `!` is sent by the host, `?` by the card.
    Message {
        from: Party,
        items: Vec<Item<Link>>,
        continuation: Link,
    },
    /// `+` lists what the host may choose, `&` what the card may choose.
    Choice {
        by: Party,
        branches: Vec<Branch<Link>>,
    },
}

impl<Link: Copy> Node<Link> {
    /// The same node with each link exchanged for another.
    pub fn with_links<Other>(&self, other: impl Fn(Link) -> Other) -> Node<Other> {
        match self {
            Node::End => Node::End,
            Node::Message { from, items, continuation } => Node::Message {
                from: *from,
                items: items_with_links(items, &other),
                continuation: other(*continuation),
            },
            Node::Choice { by, branches } => {
                let moved = |branch: &Branch<Link>| Branch {
                    label: branch.label,
                    link: other(branch.link),
                };
                Node::Choice { by: *by, branches: branches.iter().map(moved).collect() }
            }
        }
    }
}

/// The same items with each session's link exchanged for another.
pub fn items_with_links<Link: Copy, Other>(
    items: &[Item<Link>],
    other: impl Fn(Link) -> Other,
) -> Vec<Item<Other>> {
    let moved = |item: &Item<Link>| match item {
        Item::Sort(sort) => Item::Sort(*sort),
        Item::Session(link) => Item::Session(other(*link)),
    };
    items.iter().map(moved).collect()
}

/// A well-formed table. Only `read` and `dual` make one.
#[derive(Clone, PartialEq, Eq, Debug)]
pub struct Table {
    nodes: Vec<Node>,
    start: usize,
}

impl Table {
    pub(crate) fn new(nodes: Vec<Node>, start: usize) -> Table {
        Table { nodes, start }
    }

    pub fn nodes(&self) -> &[Node] {
        &self.nodes
    }

    pub fn start(&self) -> usize {
        self.start
    }
}
