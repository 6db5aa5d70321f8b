//! A well-formed table as a real tree, with the walks of insert, delete and search as the paper words them.

use crate::distance::{distance, Signature};
use crate::record::{parse_table, table_bytes, Record, CHILD_SLOTS, NO_SLOT};
use std::collections::HashSet;

#[derive(Clone, Debug)]
pub struct Node {
    pub slot: usize,
    pub card: u32,
    pub timestamp: u32,
    pub radius: u32,
    pub signature: Signature,
    /// In rising timestamp order.
    pub children: Vec<Node>,
}

#[derive(Clone, Debug)]
pub struct Tree {
    /// The number of records, free ones too.
    pub records: usize,
    /// The kind of every stored card; means nothing in a free table.
    pub kind: u8,
    pub root: Option<Node>,
}

/// What a search came upon.
#[derive(Clone, Debug, Default)]
pub struct Walk {
    pub listed: Vec<u32>,
    /// The child counts of the entered records.
    pub entered: Vec<usize>,
}

impl Tree {
    /// The tree of a well-formed table.
    pub fn of(table: &[u8]) -> Tree {
        let records = parse_table(table);
        let root = records.iter().position(Record::is_root);
        Tree {
            records: records.len(),
            kind: root.map_or(0, |slot| records[slot].kind),
            root: root.map(|slot| Node::of(&records, slot)),
        }
    }

    /// The table of this tree: every slot that no card stands in is free.
    pub fn bytes(&self) -> Vec<u8> {
        let mut records = vec![Record::free(); self.records];
        if let Some(root) = &self.root {
            root.write(self.kind, NO_SLOT, &mut records);
        }
        table_bytes(&records)
    }

    /// Every stored card's node, a parent before its children.
    pub fn nodes(&self) -> Vec<&Node> {
        let mut all: Vec<&Node> = self.root.iter().collect();
        let mut next = 0;
        while next < all.len() {
            all.extend(&all[next].children);
            next += 1;
        }
        all
    }

    pub fn holds(&self, card: u32) -> bool {
        self.nodes().iter().any(|node| node.card == card)
    }

    pub fn largest_timestamp(&self) -> u32 {
        self.nodes().iter().map(|node| node.timestamp).max().unwrap_or(0)
    }

    pub fn lowest_free(&self) -> Option<usize> {
        let taken: HashSet<usize> = self.nodes().iter().map(|node| node.slot).collect();
        (0..self.records).find(|slot| !taken.contains(slot))
    }

    /// Puts a card in, in the slot given, with the next timestamp. Returns the distance count.
    pub fn insert(&mut self, slot: usize, card: u32, signature: Signature, arity: usize) -> u32 {
        let x = Node { slot, card, timestamp: self.largest_timestamp() + 1, radius: 0, signature, children: vec![] };
        match &mut self.root {
            None => {
                self.root = Some(x);
                0
            }
            Some(root) => 1 + root.take_in(x, self.kind, arity),
        }
    }

    /// Takes the card out with everything below it; returns what stood below, oldest first.
    pub fn cut(&mut self, card: u32) -> Vec<Node> {
        let node = match self.root.take() {
            Some(root) if root.card == card => root,
            Some(mut root) => {
                let node = root.cut(card).expect("the card is stored");
                self.root = Some(root);
                node
            }
            None => panic!("the card is stored"),
        };
        let mut below = Vec::new();
        node.children.into_iter().for_each(|child| child.fell(&mut below));
        below.sort_by_key(|node| node.timestamp);
        below
    }

    /// Removes the card and puts back what stood below it. Returns the distance count.
    pub fn delete(&mut self, card: u32, arity: usize) -> u32 {
        let below = self.cut(card);
        below.into_iter().map(|x| self.insert(x.slot, x.card, x.signature, arity)).sum()
    }

    pub fn search(&self, query: &Signature, radius: u32) -> Walk {
        let mut range = Range { kind: self.kind, query, r: u64::from(radius), walk: Walk::default() };
        if let Some(root) = &self.root {
            let no_bound = u64::MAX;
            range.visit(root, range.far(root), no_bound);
        }
        range.walk
    }

    /// The distance count of a search: 1 and the child counts of the entered records, 0 in a free table.
    pub fn compared(&self, walk: &Walk) -> u32 {
        match self.root {
            None => 0,
            Some(_) => 1 + walk.entered.iter().sum::<usize>() as u32,
        }
    }
}

impl Node {
    fn of(records: &[Record], slot: usize) -> Node {
        let record = &records[slot];
        Node {
            slot,
            card: record.card,
            timestamp: record.timestamp,
            radius: record.radius,
            signature: record.signature,
            children: record.children().iter().map(|child| Node::of(records, usize::from(*child))).collect(),
        }
    }

    fn write(&self, kind: u8, parent: u16, records: &mut [Record]) {
        let mut record = Record {
            card: self.card,
            timestamp: self.timestamp,
            radius: self.radius,
            parent,
            count: 0,
            kind,
            slots: [NO_SLOT; CHILD_SLOTS],
            signature: self.signature,
        };
        record.set_children(&self.children.iter().map(|child| child.slot as u16).collect::<Vec<_>>());
        records[self.slot] = record;
        self.children.iter().for_each(|child| child.write(kind, self.slot as u16, records));
    }

    pub fn far(&self, kind: u8, from: &Signature) -> u64 {
        u64::from(distance(kind, &self.signature, from))
    }

    /// Insert's walk at a: returns the child counts of the records visited, before the new card stands there.
    fn take_in(&mut self, x: Node, kind: u8, arity: usize) -> u32 {
        let a = self;
        let children = a.children.len() as u32;
        let from_a = a.far(kind, &x.signature);
        a.radius = a.radius.max(from_a as u32);
        let mut by_nearness: Vec<(u64, u32, usize)> = a
            .children
            .iter()
            .enumerate()
            .map(|(place, child)| (child.far(kind, &x.signature), child.timestamp, place))
            .collect();
        by_nearness.sort();
        let hangs_here = match by_nearness.first() {
            None => true,
            Some((from_c, _, _)) => from_a < *from_c && a.children.len() < arity,
        };
        if hangs_here {
            a.children.push(x);
            children
        } else {
            let (_, _, c) = by_nearness[0];
            children + a.children[c].take_in(x, kind, arity)
        }
    }

    /// Takes the card out from below this node.
    fn cut(&mut self, card: u32) -> Option<Node> {
        match self.children.iter().position(|child| child.card == card) {
            Some(place) => Some(self.children.remove(place)),
            None => self.children.iter_mut().find_map(|child| child.cut(card)),
        }
    }

    /// This node and all below it, each on its own.
    fn fell(mut self, into: &mut Vec<Node>) {
        let children = std::mem::take(&mut self.children);
        into.push(self);
        children.into_iter().for_each(|child| child.fell(into));
    }
}

/// A search on its way: what it looks for, and what it came upon so far.
struct Range<'a> {
    kind: u8,
    query: &'a Signature,
    r: u64,
    walk: Walk,
}

impl Range<'_> {
    fn far(&self, node: &Node) -> u64 {
        node.far(self.kind, self.query)
    }

    /// Search's visit of a, whose distance to the query is known, with bound t on time.
    fn visit(&mut self, a: &Node, from_a: u64, t: u64) {
        let r = self.r;
        let entered = u64::from(a.timestamp) < t && from_a <= u64::from(a.radius) + r;
        if !entered {
            return;
        }
        self.walk.entered.push(a.children.len());
        if from_a <= r {
            self.walk.listed.push(a.card);
        }
        let compared: Vec<u64> = a.children.iter().map(|child| self.far(child)).collect();
        for (place, child) in a.children.iter().enumerate() {
            let here = compared[place];
            let visited = match compared[..place].iter().min() {
                None => true,
                Some(nearest_older) => here <= nearest_older + 2 * r,
            };
            if visited {
                let younger = place + 1..a.children.len();
                let nearer = younger.filter(|c| here > compared[*c] + 2 * r);
                let bound = nearer.map(|c| u64::from(a.children[c].timestamp)).chain([t]).min().unwrap();
                self.visit(child, here, bound);
            }
        }
    }
}
