//! The nearest few cards, as request #101 words it: compared records wait, each with its lower bound; the one with the
//! least is looked for among all that wait, and the cards held are looked for among all that were compared.

use crate::distance::Signature;
use crate::index::Pair;
use crate::tree::{Node, Tree};

/// What a nearest call came upon.
#[derive(Clone, Debug, Default)]
pub struct Few {
    /// Nearest first, equal distances by smaller card.
    pub held: Vec<Pair>,
    /// The distance count.
    pub count: u32,
}

impl Tree {
    /// The first k of the cards compared by the end of work.
    pub fn nearest(&self, query: &Signature, k: usize) -> Few {
        let Some(root) = &self.root else { return Few::default() };
        let mut work = Work { kind: self.kind, query, k, compared: vec![], waiting: vec![], taken: vec![] };
        work.compare(root, None, None);
        while let Some(next) = work.least() {
            if work.has_enough(&work.waiting[next]) {
                break;
            }
            let a = work.waiting.remove(next);
            work.take(a);
        }
        // "The distance count is 1 plus the child counts of the records taken".
        Few { held: work.held().to_vec(), count: 1 + work.taken.iter().sum::<usize>() as u32 }
    }
}

/// "Compared records wait", those without children too.
struct Waiting<'a> {
    record: &'a Node,
    bound: i64,
}

/// A nearest call on its way: what it looks for, and what it came upon so far.
struct Work<'a> {
    kind: u8,
    query: &'a Signature,
    k: usize,
    /// "nearest first, equal distances by smaller card".
    compared: Vec<Pair>,
    waiting: Vec<Waiting<'a>>,
    /// The child counts of the records taken.
    taken: Vec<usize>,
}

impl<'a> Work<'a> {
    fn far(&self, record: &Node) -> i64 {
        record.far(self.kind, self.query) as i64
    }

    /// Compares a record, which waits from now on.
    fn compare(&mut self, record: &'a Node, parents_bound: Option<i64>, smallest_older: Option<i64>) {
        let distance = self.far(record);
        let bound = lower_bound(distance, i64::from(record.radius), parents_bound, smallest_older);
        self.compared.push(Pair { card: record.card, distance: distance as u32 });
        self.compared.sort_by_key(|pair| (pair.distance, pair.card));
        self.waiting.push(Waiting { record, bound });
    }

    /// "the one with the least lower bound is taken next, the older among equals": its place, none where none waits.
    fn least(&self) -> Option<usize> {
        (0..self.waiting.len()).min_by_key(|place| {
            let Waiting { record, bound } = &self.waiting[*place];
            (*bound, record.timestamp)
        })
    }

    /// "and its children are compared".
    fn take(&mut self, a: Waiting<'a>) {
        let children = &a.record.children;
        self.taken.push(children.len());
        for child in children {
            let older = children.iter().filter(|sibling| sibling.timestamp < child.timestamp);
            let smallest_older = older.map(|sibling| self.far(sibling)).min();
            self.compare(child, Some(a.bound), smallest_older);
        }
    }

    /// "The cards held are the first k of all compared so far".
    fn held(&self) -> &[Pair] {
        &self.compared[..self.k.min(self.compared.len())]
    }

    /// "when k are held and the least bound exceeds the k-th distance".
    fn has_enough(&self, least: &Waiting) -> bool {
        let held = self.held();
        held.len() == self.k && held.last().is_some_and(|kth| least.bound > i64::from(kth.distance))
    }
}

/// "the largest of 0, its parent's bound, its distance less its covering radius, and half, rounded up, of its distance
/// less the smallest distance of its older siblings; a term without parent or older sibling drops out".
pub fn lower_bound(distance: i64, radius: i64, parents_bound: Option<i64>, smallest_older: Option<i64>) -> i64 {
    let half = smallest_older.map(|smallest| half_rounded_up(distance - smallest));
    let terms = [parents_bound, Some(distance - radius), half];
    terms.into_iter().flatten().fold(0, i64::max)
}

fn half_rounded_up(number: i64) -> i64 {
    number.div_euclid(2) + number.rem_euclid(2)
}

#[cfg(test)]
mod tests {
    use super::*;

    #[test]
    fn the_bound_is_the_largest_of_its_terms() {
        assert_eq!(lower_bound(9, 4, None, None), 5);
        assert_eq!(lower_bound(9, 9, None, None), 0);
        assert_eq!(lower_bound(9, i64::from(u32::MAX), None, None), 0);
        assert_eq!(lower_bound(9, 4, Some(6), None), 6);
        assert_eq!(lower_bound(9, 4, Some(4), None), 5);
        // Half of 7 and of 8, rounded up; a nearer child than its older siblings is not judged by them.
        assert_eq!(lower_bound(9, 9, Some(1), Some(2)), 4);
        assert_eq!(lower_bound(9, 9, Some(1), Some(1)), 4);
        assert_eq!(lower_bound(9, 9, Some(1), Some(14)), 1);
    }

    #[test]
    fn halves_are_rounded_up() {
        let halves: Vec<i64> = (-3..=5).map(half_rounded_up).collect();
        assert_eq!(halves, [-1, -1, 0, 0, 1, 1, 2, 2, 3]);
    }
}
