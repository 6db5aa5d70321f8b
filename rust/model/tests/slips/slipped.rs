//! The index with one slip: its calls, and insert and delete as they slip.

use crate::walk::Walk;
use crate::{nearest, stored, Slip};
use model::calls::Model;
use model::index::{Answer, Index, Nearest, Search};
use model::refusal::{ABSENT, DONE, FULL, TWICE};
use model::tree::{Node, Tree};

/// An index with one slip. Whatever the slip does not touch is left to the model.
pub struct Slipped(pub Slip);

impl Slipped {
    fn has(&self, slip: Slip) -> bool {
        self.0 == slip
    }

    // ---- insert ----

    fn put(&self, tree: &mut Tree, x: Node, arity: usize) -> u32 {
        let kind = tree.kind;
        match &mut tree.root {
            None => {
                tree.root = Some(x);
                0
            }
            Some(root) => 1 + self.take_in(root, x, kind, arity),
        }
    }

    fn take_in(&self, a: &mut Node, x: Node, kind: u8, arity: usize) -> u32 {
        let count = a.children.len() as u32;
        let from_a = a.far(kind, &x.signature);
        if !self.has(Slip::RadiusKept) {
            a.radius = a.radius.max(from_a as u32);
        }
        let mut nearest: Option<(u64, usize)> = None;
        for (place, child) in a.children.iter().enumerate() {
            let from_c = child.far(kind, &x.signature);
            let better = |best: u64| from_c < best || (self.has(Slip::TieToYoungest) && from_c == best);
            if nearest.is_none_or(|(best, _)| better(best)) {
                nearest = Some((from_c, place));
            }
        }
        let room = a.children.len() < if self.has(Slip::ArityIgnored) { 8 } else { arity };
        match nearest {
            Some((from_c, _)) if self.has(Slip::NotStrictly) && from_a == from_c && room => a.children.push(x),
            Some((from_c, place)) if from_a >= from_c || !room => {
                return count + self.take_in(&mut a.children[place], x, kind, arity);
            }
            _ => a.children.push(x),
        }
        count
    }

    // ---- delete ----

    /// Whether the card is come upon by walking as if to insert its signature.
    fn walked_upon(tree: &Tree, card: u32) -> bool {
        let signature = tree.nodes().iter().find(|node| node.card == card).unwrap().signature;
        let mut a = tree.root.as_ref();
        while let Some(node) = a {
            if node.card == card {
                return true;
            }
            a = node.children.iter().min_by_key(|child| child.far(tree.kind, &signature));
        }
        false
    }

    fn delete_done(&self, tree: &mut Tree, card: u32, arity: usize) -> u32 {
        let mut below = tree.cut(card);
        if self.has(Slip::NewestFirst) {
            below.reverse();
        }
        if self.has(Slip::RadiusShrinks) {
            if let Some(root) = &mut tree.root {
                let far = root.children.iter().map(|child| root.far(tree.kind, &child.signature)).max();
                root.radius = root.radius.min(far.unwrap_or(0) as u32);
            }
        }
        let mut sum = 0;
        for x in below {
            let slot = if self.has(Slip::LowestSlotAgain) { tree.lowest_free().unwrap() } else { x.slot };
            let fresh = tree.largest_timestamp() + 1;
            let timestamp = if self.has(Slip::OldTimestamps) { x.timestamp } else { fresh };
            sum += self.put(tree, Node { slot, timestamp, radius: 0, children: vec![], ..x }, arity);
        }
        sum
    }
}

impl Index for Slipped {
    fn clear(&mut self, table: &mut [u8]) -> Answer {
        Model.clear(table)
    }

    fn insert(&mut self, table: &mut [u8], card: u32, kind: u8, signature: &[u8], arity: u8) -> Answer {
        if self.has(Slip::RefusesAll) {
            return Answer::refused(FULL);
        }
        let mut after = table.to_vec();
        let mut answer = Model.insert(&mut after, card, kind, signature, arity);
        if answer.refusal == TWICE && self.has(Slip::FullBeforeTwice) && Tree::of(table).lowest_free().is_none() {
            answer.refusal = FULL;
        }
        if answer.refusal != DONE {
            if answer.refusal == FULL && self.has(Slip::WritesWhenRefused) {
                table[8] ^= 1;
            }
            return answer;
        }
        let mut tree = Tree::of(table);
        if self.has(Slip::StoresFirstOnly) && tree.root.is_some() {
            return answer;
        }
        tree.kind = kind;
        let x = Node {
            slot: tree.lowest_free().unwrap(),
            card,
            timestamp: tree.largest_timestamp() + 1,
            radius: 0,
            signature: signature.try_into().unwrap(),
            children: vec![],
        };
        answer.count = self.put(&mut tree, x, usize::from(arity));
        table.copy_from_slice(&tree.bytes());
        answer
    }

    fn delete(&mut self, table: &mut [u8], card: u32, arity: u8) -> Answer {
        let mut answer = Model.delete(&mut table.to_vec(), card, arity);
        if answer.refusal != DONE {
            return answer;
        }
        let mut tree = Tree::of(table);
        if self.has(Slip::FoundByWalking) && !Slipped::walked_upon(&tree, card) {
            return Answer::refused(ABSENT);
        }
        answer.count = self.delete_done(&mut tree, card, usize::from(arity));
        table.copy_from_slice(&tree.bytes());
        answer
    }

    fn search(&mut self, table: &[u8], lent: Search) -> Answer {
        let mut answer = Model.search(table, Search { list: &mut lent.list.to_vec(), ..lent });
        if answer.refusal != DONE {
            return answer;
        }
        let (tree, query) = (Tree::of(table), lent.signature.try_into().unwrap());
        let mut walk =
            Walk { slip: self.0, kind: lent.kind, query, r: u64::from(lent.radius), listed: vec![], count: 0 };
        if let Some(root) = &tree.root {
            walk.count = 1;
            walk.visit(root, root.far(lent.kind, query), u64::MAX);
        }
        if self.has(Slip::LaterEntriesZeroed) {
            lent.list.fill(0);
        }
        lent.list[..walk.listed.len()].copy_from_slice(&walk.listed);
        answer.found = walk.listed.len() as u32;
        answer.count = if self.has(Slip::CountListed) { answer.found } else { walk.count };
        answer
    }

    fn nearest(&mut self, table: &[u8], lent: Nearest) -> Answer {
        nearest::nearest(self.0, table, lent)
    }

    fn check(&mut self, table: &[u8]) -> Answer {
        Model.check(table)
    }

    fn cards(&mut self, table: &[u8], list: &mut [u32]) -> Answer {
        stored::cards(self.0, table, list)
    }

    fn card(&mut self, table: &[u8], card: u32, row: &mut [u8]) -> Answer {
        stored::card(self.0, table, card, row)
    }
}
