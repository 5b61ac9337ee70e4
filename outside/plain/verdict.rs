//! May one table replace another (document 01, "May replace, and compatible")?
//!
//! The pairs that runs reach are found level by level, a level being the pairs
//! whose first run has one number of steps. Within a level pairs stand in the
//! order of their first runs, because each pair of the level before hands on
//! its steps by number. So the first mismatch met is the one with the first run.

use std::collections::HashMap;

use crate::faults;
use crate::numbers::*;
use crate::tables::{Branch, Item, Node, Party, Table};

#[derive(Clone, PartialEq, Eq, Debug)]
pub enum Verdict {
    /// The reached pairs, marked at turn × n × m + new × m + old, and their count.
    Yes { marks: Vec<bool>, count: usize },
    /// The first run, in the order of runs, that ends in a mismatch.
    No { reason: usize, detail: usize, new: usize, old: usize, turn: usize, run: Vec<u16> },
}

/// Whether `new` may replace `old`; each table comes with its name bytes.
pub fn may_replace(new: &Table, new_names: &[u8], old: &Table, old_names: &[u8]) -> Verdict {
    let mut labels = LabelNumbers::default();
    let new_lists = labels.lists(new, new_names);
    let old_lists = labels.lists(old, old_names);
    let sides =
        [Side::new(new, new_lists, labels.count()), Side::new(old, old_lists, labels.count())];
    Search::new(&sides).verdict(Pair { nodes: [new.start(), old.start()], turn: 0 })
}

/// The places of the two tables wherever there is one thing for each.
const NEW: usize = 0;
const OLD: usize = 1;

/// Equal labels of either table have one number.
#[derive(Default)]
struct LabelNumbers<'n> {
    numbers: HashMap<&'n [u8], usize>,
}

impl<'n> LabelNumbers<'n> {
    /// For each node the numbers of its labels in written order.
    fn lists(&mut self, table: &Table, names: &'n [u8]) -> Vec<Vec<usize>> {
        let list = |node: &Node| match node {
            Node::Choice { branches, .. } => {
                branches.iter().map(|branch| self.number(branch.label.bytes(names))).collect()
            }
            _ => Vec::new(),
        };
        table.nodes().iter().map(list).collect()
    }

    fn number(&mut self, label: &'n [u8]) -> usize {
        let next = self.numbers.len();
        *self.numbers.entry(label).or_insert(next)
    }

    fn count(&self) -> usize {
        self.numbers.len()
    }
}

/// One of the two tables with its labels as numbers.
struct Side<'t> {
    nodes: &'t [Node],
    lists: Vec<Vec<usize>>,
    /// At node × label count + label number: the label's position in the
    /// node's list, or `ABSENT`.
    positions: Vec<u8>,
    label_count: usize,
}

const ABSENT: u8 = u8::MAX;

impl<'t> Side<'t> {
    fn new(table: &'t Table, lists: Vec<Vec<usize>>, label_count: usize) -> Side<'t> {
        let mut positions = vec![ABSENT; lists.len() * label_count];
        for (node, list) in lists.iter().enumerate() {
            for (position, label) in list.iter().enumerate() {
                positions[node * label_count + label] = position as u8;
            }
        }
        Side { nodes: table.nodes(), lists, positions, label_count }
    }

    /// Where the node lists the label that the chooser has at `chosen`.
    fn position(&self, node: usize, label: usize, chosen: usize) -> Option<usize> {
        if faults::BY_POSITION {
            return (chosen < self.lists[node].len()).then_some(chosen);
        }
        let position = self.positions[node * self.label_count + label];
        (position != ABSENT).then_some(position as usize)
    }
}

/// A new node, an old node, and the turn.
#[derive(Clone, Copy)]
struct Pair {
    nodes: [usize; 2],
    turn: usize,
}

struct Mismatch {
    reason: usize,
    detail: usize,
}

struct Step {
    number: u16,
    pair: Pair,
}

/// A reached pair, and the last step of its first run.
struct Reached {
    pair: Pair,
    from: usize,
    step: u16,
}

struct Search<'t> {
    sides: &'t [Side<'t>; 2],
    marks: Vec<bool>,
    /// In the order in which they were reached, and so level after level.
    reached: Vec<Reached>,
}

impl<'t> Search<'t> {
    fn new(sides: &'t [Side<'t>; 2]) -> Search<'t> {
        let marks = vec![false; 2 * sides[NEW].nodes.len() * sides[OLD].nodes.len()];
        Search { sides, marks, reached: Vec::new() }
    }

    fn verdict(mut self, starts: Pair) -> Verdict {
        self.mark(starts);
        self.reached.push(Reached { pair: starts, from: 0, step: 0 });
        let mut steps = Vec::new();
        let mut level = 0..1;
        while !level.is_empty() {
            for at in level.clone() {
                steps.clear();
                if let Err(mismatch) = self.steps(self.reached[at].pair, &mut steps) {
                    return self.no(mismatch, at);
                }
                for step in &steps {
                    let reached = Reached { pair: step.pair, from: at, step: step.number };
                    if self.mark(step.pair) {
                        self.reached.push(reached);
                    } else if faults::MET_AGAIN_FAILS {
                        self.reached.push(reached);
                        let last = self.reached.len() - 1;
                        return self.no(Mismatch { reason: KINDS_DIFFER, detail: 0 }, last);
                    }
                }
            }
            level = level.end..self.reached.len();
        }
        Verdict::Yes { count: self.reached.len(), marks: self.marks }
    }

    /// Marks the pair; false if it was marked before.
    fn mark(&mut self, pair: Pair) -> bool {
        let [n, m] = [self.sides[NEW].nodes.len(), self.sides[OLD].nodes.len()];
        let [new, old] = pair.nodes;
        let turn = if faults::MARKED_WITHOUT_TURN { 0 } else { pair.turn };
        let mark = &mut self.marks[turn * n * m + new * m + old];
        !std::mem::replace(mark, true)
    }

    fn no(&self, mismatch: Mismatch, at: usize) -> Verdict {
        let Mismatch { reason, detail } = mismatch;
        let Pair { nodes: [new, old], turn } = self.reached[at].pair;
        Verdict::No { reason, detail, new, old, turn, run: self.run(at) }
    }

    /// The first run to a reached pair.
    fn run(&self, mut at: usize) -> Vec<u16> {
        let mut run = Vec::new();
        while at != 0 {
            run.push(self.reached[at].step);
            at = self.reached[at].from;
        }
        run.reverse();
        run
    }

    /// Appends the pair's steps by number, or says why it is a mismatch.
    fn steps(&self, pair: Pair, steps: &mut Vec<Step>) -> Result<(), Mismatch> {
        let [new, old] = pair.nodes;
        match (&self.sides[NEW].nodes[new], &self.sides[OLD].nodes[old]) {
            (Node::End, Node::End) => {}
            (
                Node::Message { from, items: new_items, continuation: new },
                Node::Message { from: old_from, items: old_items, continuation: old },
            ) if from == old_from => {
                let turns = *from == Party::Host && !faults::TURN_IGNORED;
                item_steps(pair.turn ^ turns as usize, new_items, old_items, steps)?;
                let pair = Pair { nodes: [*new, *old], turn: pair.turn };
                steps.push(Step { number: CONTINUATION_STEP, pair });
            }
            (
                Node::Choice { by, branches: new_branches },
                Node::Choice { by: old_by, branches: old_branches },
            ) if by == old_by => {
                let chooser = chooser(*by, pair.turn);
                self.choice_steps(chooser, pair, [new_branches, old_branches], steps)?;
            }
            _ => return Err(Mismatch { reason: KINDS_DIFFER, detail: 0 }),
        }
        if faults::NOT_FIRST_IN_ORDER {
            steps.reverse();
        }
        Ok(())
    }

    /// The steps of a choice: "each label of the chooser, numbered by its
    /// position there".
    fn choice_steps(
        &self,
        chooser: usize,
        pair: Pair,
        branches: [&[Branch]; 2],
        steps: &mut Vec<Step>,
    ) -> Result<(), Mismatch> {
        let holder = 1 - chooser;
        let labels = &self.sides[chooser].lists[pair.nodes[chooser]];
        for (position, label) in labels.iter().enumerate() {
            let held = self.sides[holder].position(pair.nodes[holder], *label, position);
            let Some(held) = held else {
                return Err(Mismatch { reason: LABEL_MISSING, detail: position });
            };
            let mut nodes = [0; 2];
            nodes[chooser] = branches[chooser][position].link;
            nodes[holder] = branches[holder][held].link;
            steps.push(Step { number: position as u16, pair: Pair { nodes, turn: pair.turn } });
        }
        Ok(())
    }
}

/// Which table's node lists the choices. "For `+` the right lists the choices
/// and the left must have them; for `&` the left lists and the right must have
/// them"; the left one is the new table's in turn 0, the old table's in turn 1.
fn chooser(by: Party, turn: usize) -> usize {
    let [left, right] = if turn == 0 { [NEW, OLD] } else { [OLD, NEW] };
    match by {
        Party::Host if !faults::PLUS_COVERED_BY_OLD => right,
        _ => left,
    }
}

/// The steps into a message's session items, "by position"; `turn` is the one
/// that they lead to.
fn item_steps(
    turn: usize,
    new: &[Item],
    old: &[Item],
    steps: &mut Vec<Step>,
) -> Result<(), Mismatch> {
    if new.len() != old.len() {
        return Err(Mismatch { reason: ITEM_COUNTS_DIFFER, detail: 0 });
    }
    for (position, items) in new.iter().zip(old).enumerate() {
        match items {
            (Item::Session(new), Item::Session(old)) => {
                let pair = Pair { nodes: [*new, *old], turn };
                steps.push(Step { number: position as u16, pair });
            }
            (Item::Sort(new), Item::Sort(old)) if new == old => {}
            _ => return Err(Mismatch { reason: ITEM_DIFFERS, detail: position }),
        }
    }
    Ok(())
}
