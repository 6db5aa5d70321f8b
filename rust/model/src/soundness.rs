//! Soundness of a well-formed table, by its definition: every record with all below it, every two siblings.

use crate::tree::{Node, Tree};

/// (a) the radius reaches everything below; (b) what came after a sibling is no nearer to it.
pub fn sound(tree: &Tree) -> bool {
    tree.nodes().iter().all(|a| covers(a, tree.kind) && nearest_sibling(a, tree.kind))
}

/// Every node strictly below this one.
fn below(a: &Node) -> Vec<&Node> {
    let mut all: Vec<&Node> = a.children.iter().collect();
    let mut next = 0;
    while next < all.len() {
        all.extend(&all[next].children);
        next += 1;
    }
    all
}

fn covers(a: &Node, kind: u8) -> bool {
    below(a).iter().all(|x| a.far(kind, &x.signature) <= u64::from(a.radius))
}

fn nearest_sibling(a: &Node, kind: u8) -> bool {
    a.children.iter().all(|b| {
        below(b).iter().all(|x| {
            let mut older = a.children.iter().filter(|c| c.timestamp < x.timestamp);
            older.all(|c| b.far(kind, &x.signature) <= c.far(kind, &x.signature))
        })
    })
}
