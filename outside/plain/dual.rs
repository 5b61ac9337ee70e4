//! The dual of a table (document 01, "The dual").

use crate::faults;
use crate::numbers::{DUAL_TOO_LARGE, TABLE_NODES};
use crate::tables::{items_with_links, Item, Node, Table};
use crate::Refusal;

/// The dual of a table; it goes with the same name bytes.
pub fn dual(table: &Table) -> Result<Table, Refusal> {
    let count = table.nodes().len();
    // "A session item is not turned round": with any, the originals are kept
    // behind the turned nodes.
    let keeps_originals = has_session_item(table) && !faults::SESSION_ITEMS_TURNED;
    if !keeps_originals {
        let turned = table.nodes().iter().map(|node| turned(node, 0));
        return Ok(Table::new(turned.collect(), table.start()));
    }
    if 2 * count > TABLE_NODES {
        return Err(Refusal { number: DUAL_TOO_LARGE, place: count });
    }
    let turned = table.nodes().iter().map(|node| turned(node, count));
    let originals = table.nodes().iter().map(|node| node.with_links(|link| count + link));
    Ok(Table::new(turned.chain(originals).collect(), table.start()))
}

/// Nodes that nothing reaches count too.
fn has_session_item(table: &Table) -> bool {
    table.nodes().iter().any(|node| match node {
        Node::Message { items, .. } => items.iter().any(|item| matches!(item, Item::Session(_))),
        _ => false,
    })
}

/// A node turned round. Continuations and choices go on as duals and keep their
/// numbers; session items link to the originals, which begin at `originals`.
fn turned(node: &Node, originals: usize) -> Node {
    match node {
        Node::End => Node::End,
        Node::Message { from, items, continuation } => Node::Message {
            from: from.other(),
            items: items_with_links(items, |link| originals + link),
            continuation: *continuation,
        },
        Node::Choice { by, branches } => {
            Node::Choice { by: by.other(), branches: branches.clone() }
        }
    }
}
