//! The verdict straight from the sentences of document 01, without marks, work
//! list or label numbers: slow, for small tables, to test `verdict.rs` by.

use std::collections::BTreeSet;

use crate::{Item, Node, Party, Table};

/// A table with its name bytes.
#[derive(Clone, Copy)]
pub struct Named<'a> {
    pub table: &'a Table,
    pub names: &'a [u8],
}

/// "A pair has a left and a right node": (turn, new node, old node).
pub type Pair = (usize, usize, usize);

/// What stands beside a pair: its mismatch (reason, detail), or its steps.
pub enum Beside {
    Mismatch(usize, usize),
    Steps(Vec<(u16, Pair)>),
}

pub fn starts(new: Named, old: Named) -> Pair {
    (0, new.table.start(), old.table.start())
}

pub fn beside(new: Named, old: Named, (turn, new_node, old_node): Pair) -> Beside {
    let (left, right, left_node, right_node) = match turn {
        0 => (new, old, new_node, old_node),
        _ => (old, new, old_node, new_node),
    };
    // Left and right links back to (turn, new, old).
    let pair = |left: usize, right: usize, turns: bool| {
        let next = if turns { 1 - turn } else { turn };
        if turn == 0 {
            (next, left, right)
        } else {
            (next, right, left)
        }
    };
    match (&left.table.nodes()[left_node], &right.table.nodes()[right_node]) {
        (Node::End, Node::End) => Beside::Steps(Vec::new()),
        (
            Node::Message { from, items: left_items, continuation: left_then },
            Node::Message { from: right_from, items: right_items, continuation: right_then },
        ) if from == right_from => {
            if left_items.len() != right_items.len() {
                return Beside::Mismatch(21, 0);
            }
            let mut steps = Vec::new();
            for position in 0..left_items.len() {
                match (left_items[position], right_items[position]) {
                    (Item::Sort(a), Item::Sort(b)) if a == b => {}
                    (Item::Session(a), Item::Session(b)) => {
                        steps.push((position as u16, pair(a, b, *from == Party::Host)));
                    }
                    _ => return Beside::Mismatch(22, position),
                }
            }
            steps.push((4, pair(*left_then, *right_then, false)));
            Beside::Steps(steps)
        }
        (
            Node::Choice { by, branches: left_branches },
            Node::Choice { by: right_by, branches: right_branches },
        ) if by == right_by => {
            let mut steps = Vec::new();
            if *by == Party::Host {
                for (position, chosen) in right_branches.iter().enumerate() {
                    let label = chosen.label.bytes(right.names);
                    match left_branches.iter().find(|had| had.label.bytes(left.names) == label) {
                        Some(had) => {
                            steps.push((position as u16, pair(had.link, chosen.link, false)))
                        }
                        None => return Beside::Mismatch(23, position),
                    }
                }
            } else {
                for (position, chosen) in left_branches.iter().enumerate() {
                    let label = chosen.label.bytes(left.names);
                    match right_branches.iter().find(|had| had.label.bytes(right.names) == label) {
                        Some(had) => {
                            steps.push((position as u16, pair(chosen.link, had.link, false)))
                        }
                        None => return Beside::Mismatch(23, position),
                    }
                }
            }
            Beside::Steps(steps)
        }
        _ => Beside::Mismatch(20, 0),
    }
}

/// "New may replace old if some set of pairs holds the starts and, with each
/// pair, has no mismatch and all its steps": the largest set without mismatch
/// and with all steps, by taking out pairs until nothing changes.
pub fn some_set_holds_the_starts(new: Named, old: Named) -> bool {
    let mut set = BTreeSet::new();
    for turn in 0..2 {
        for new_node in 0..new.table.nodes().len() {
            set.extend((0..old.table.nodes().len()).map(|old_node| (turn, new_node, old_node)));
        }
    }
    loop {
        let stays = |pair: &Pair| match beside(new, old, *pair) {
            Beside::Mismatch(..) => false,
            Beside::Steps(steps) => steps.iter().all(|(_, next)| set.contains(next)),
        };
        let kept: BTreeSet<Pair> = set.iter().copied().filter(stays).collect();
        if kept.len() == set.len() {
            return set.contains(&starts(new, old));
        }
        set = kept;
    }
}

/// The first run of exactly so many steps that ends in a mismatch, with its last
/// pair, reason and detail; all runs are gone through in their order.
pub fn first_run(
    new: Named,
    old: Named,
    from: Pair,
    length: usize,
) -> Option<(Vec<u16>, Pair, usize, usize)> {
    match beside(new, old, from) {
        Beside::Mismatch(reason, detail) => {
            (length == 0).then_some((Vec::new(), from, reason, detail))
        }
        Beside::Steps(_) if length == 0 => None,
        Beside::Steps(steps) => steps.into_iter().find_map(|(number, next)| {
            let (mut run, last, reason, detail) = first_run(new, old, next, length - 1)?;
            run.insert(0, number);
            Some((run, last, reason, detail))
        }),
    }
}

/// Whether the marks are those of the pairs that some run reaches.
pub fn marks_are_the_reached_pairs(new: Named, old: Named, marks: &[bool]) -> bool {
    let mut reached = BTreeSet::from([starts(new, old)]);
    loop {
        let mut more = reached.clone();
        for pair in &reached {
            if let Beside::Steps(steps) = beside(new, old, *pair) {
                more.extend(steps.into_iter().map(|(_, next)| next));
            }
        }
        if more.len() == reached.len() {
            break;
        }
        reached = more;
    }
    let (n, m) = (new.table.nodes().len(), old.table.nodes().len());
    let marked = |place: usize| reached.contains(&(place / (n * m), place / m % n, place % m));
    marks.len() == 2 * n * m && (0..marks.len()).all(|place| marks[place] == marked(place))
}
