//! The doors as an index, with everything lent at any address between guards: a write beside what was lent, a write to
//! what was lent to be read, or a count or a kind that was not set is seen.

use crate::doors::{self, Doors};
use model::index::{Answer, Index, Nearest, Search};
use plotvuga::Pair;

/// Guards on either side, in entries.
const GUARD: usize = 48;
/// What a count holds before the call, and a kind in its one byte.
const NOT_SET: u32 = u32::MAX;
/// The refusal that stands for a broken promise; no call returns it.
const BROKEN: u32 = u32::MAX;

/// A copy of something lent, among guards.
struct Lent<T> {
    entries: Vec<T>,
    from: usize,
    length: usize,
    guard: T,
}

impl<T: Copy + PartialEq> Lent<T> {
    fn new(content: &[T], shift: usize, guard: T) -> Lent<T> {
        let from = GUARD + shift;
        let mut entries = vec![guard; from + content.len() + GUARD];
        entries[from..from + content.len()].copy_from_slice(content);
        Lent { entries, from, length: content.len(), guard }
    }

    fn content(&self) -> &[T] {
        &self.entries[self.from..self.from + self.length]
    }

    fn content_mut(&mut self) -> &mut [T] {
        &mut self.entries[self.from..self.from + self.length]
    }

    fn guards_hold(&self) -> bool {
        let (before, rest) = self.entries.split_at(self.from);
        before.iter().chain(&rest[self.length..]).all(|entry| *entry == self.guard)
    }

    fn is_still(&self, content: &[T]) -> bool {
        self.content() == content
    }
}

/// The doors as an index.
pub struct Guarded<D> {
    doors: D,
    calls: usize,
    /// The last promise that was seen broken, in words.
    pub broken: Option<String>,
}

impl<D: Doors> Guarded<D> {
    pub fn new(doors: D) -> Guarded<D> {
        Guarded { doors, calls: 0, broken: None }
    }

    /// An address that differs from call to call.
    fn shift(&mut self) -> usize {
        self.calls += 1;
        self.calls % 8
    }

    /// The answer, or the broken promise in its place.
    fn told(&mut self, answer: Answer, promises: &[(bool, &str)]) -> Answer {
        match promises.iter().find(|(kept, _)| !kept) {
            None => answer,
            Some((_, what)) => {
                self.broken = Some(what.to_string());
                Answer { refusal: BROKEN, ..answer }
            }
        }
    }
}

const TABLE_GUARDS: &str = "bytes beside the table were written";
const TABLE_READ: &str = "the table was lent to be read and was written";
const SIGNATURE_GUARDS: &str = "bytes beside the signature were written";
const SIGNATURE_READ: &str = "the signature was written";
const LIST_GUARDS: &str = "entries beside the list were written";
const ROW_GUARDS: &str = "bytes beside the row were written";
const COUNT_GUARDS: &str = "entries beside a count were written";
const KIND_GUARDS: &str = "bytes beside the kind were written";

impl<D: Doors> Index for Guarded<D> {
    fn clear(&mut self, table: &mut [u8]) -> Answer {
        let mut lent = Lent::new(table, self.shift(), 0xa5);
        let refusal = self.doors.clear(lent.content_mut());
        table.copy_from_slice(lent.content());
        self.told(Answer::refused(refusal), &[(lent.guards_hold(), TABLE_GUARDS)])
    }

    fn insert(&mut self, table: &mut [u8], card: u32, kind: u8, signature: &[u8], arity: u8) -> Answer {
        let mut lent = Lent::new(table, self.shift(), 0xa5);
        let query = Lent::new(signature, self.shift(), 0x5a);
        let mut counts = Lent::new(&[NOT_SET], 0, 0xc0de);
        let count = &mut counts.content_mut()[0];
        let refusal = self.doors.insert(lent.content_mut(), card, kind, arity, query.content(), count);
        table.copy_from_slice(lent.content());
        let promises = [
            (lent.guards_hold(), TABLE_GUARDS),
            (query.guards_hold(), SIGNATURE_GUARDS),
            (query.is_still(signature), SIGNATURE_READ),
            (counts.guards_hold(), COUNT_GUARDS),
        ];
        self.told(Answer { count: counts.content()[0], ..Answer::refused(refusal) }, &promises)
    }

    fn delete(&mut self, table: &mut [u8], card: u32, arity: u8) -> Answer {
        let mut lent = Lent::new(table, self.shift(), 0xa5);
        let mut counts = Lent::new(&[NOT_SET], 0, 0xc0de);
        let refusal = self.doors.delete(lent.content_mut(), card, arity, &mut counts.content_mut()[0]);
        table.copy_from_slice(lent.content());
        let promises = [(lent.guards_hold(), TABLE_GUARDS), (counts.guards_hold(), COUNT_GUARDS)];
        self.told(Answer { count: counts.content()[0], ..Answer::refused(refusal) }, &promises)
    }

    fn search(&mut self, table: &[u8], lent: Search) -> Answer {
        let bytes = Lent::new(table, self.shift(), 0xa5);
        let query = Lent::new(lent.signature, self.shift(), 0x5a);
        let mut cards = Lent::new(lent.list, self.shift(), 0xfeed);
        let (mut counts, mut founds) = (Lent::new(&[NOT_SET], 0, 0xc0de), Lent::new(&[NOT_SET], 0, 0xc0de));
        let guarded = Search { signature: query.content(), list: cards.content_mut(), ..lent };
        let (count, found) = (&mut counts.content_mut()[0], &mut founds.content_mut()[0]);
        let refusal = self.doors.search(bytes.content(), guarded, count, found);
        lent.list.copy_from_slice(cards.content());
        let promises = [
            (bytes.guards_hold(), TABLE_GUARDS),
            (bytes.is_still(table), TABLE_READ),
            (query.guards_hold(), SIGNATURE_GUARDS),
            (query.is_still(lent.signature), SIGNATURE_READ),
            (cards.guards_hold(), LIST_GUARDS),
            (counts.guards_hold() && founds.guards_hold(), COUNT_GUARDS),
        ];
        let (count, found) = (counts.content()[0], founds.content()[0]);
        self.told(Answer { count, found, ..Answer::refused(refusal) }, &promises)
    }

    fn nearest(&mut self, table: &[u8], lent: Nearest) -> Answer {
        let bytes = Lent::new(table, self.shift(), 0xa5);
        let query = Lent::new(lent.signature, self.shift(), 0x5a);
        let own: Vec<Pair> = lent.list.iter().map(|pair| Pair { card: pair.card, distance: pair.distance }).collect();
        let mut pairs = Lent::new(&own, self.shift(), Pair { card: 0xfeed, distance: 0xbeef });
        let (mut counts, mut founds) = (Lent::new(&[NOT_SET], 0, 0xc0de), Lent::new(&[NOT_SET], 0, 0xc0de));
        let guarded =
            doors::Nearest { kind: lent.kind, signature: query.content(), k: lent.k, list: pairs.content_mut() };
        let (count, found) = (&mut counts.content_mut()[0], &mut founds.content_mut()[0]);
        let refusal = self.doors.nearest(bytes.content(), guarded, count, found);
        for (entry, pair) in lent.list.iter_mut().zip(pairs.content()) {
            *entry = model::index::Pair { card: pair.card, distance: pair.distance };
        }
        let promises = [
            (bytes.guards_hold(), TABLE_GUARDS),
            (bytes.is_still(table), TABLE_READ),
            (query.guards_hold(), SIGNATURE_GUARDS),
            (query.is_still(lent.signature), SIGNATURE_READ),
            (pairs.guards_hold(), LIST_GUARDS),
            (counts.guards_hold() && founds.guards_hold(), COUNT_GUARDS),
        ];
        let (count, found) = (counts.content()[0], founds.content()[0]);
        self.told(Answer { count, found, ..Answer::refused(refusal) }, &promises)
    }

    fn check(&mut self, table: &[u8]) -> Answer {
        let lent = Lent::new(table, self.shift(), 0xa5);
        let refusal = self.doors.check(lent.content());
        let promises = [(lent.guards_hold(), TABLE_GUARDS), (lent.is_still(table), TABLE_READ)];
        self.told(Answer::refused(refusal), &promises)
    }

    fn cards(&mut self, table: &[u8], list: &mut [u32]) -> Answer {
        let bytes = Lent::new(table, self.shift(), 0xa5);
        let mut cards = Lent::new(list, self.shift(), 0xfeed);
        let mut founds = Lent::new(&[NOT_SET], 0, 0xc0de);
        let refusal = self.doors.cards(bytes.content(), cards.content_mut(), &mut founds.content_mut()[0]);
        list.copy_from_slice(cards.content());
        let promises = [
            (bytes.guards_hold(), TABLE_GUARDS),
            (bytes.is_still(table), TABLE_READ),
            (cards.guards_hold(), LIST_GUARDS),
            (founds.guards_hold(), COUNT_GUARDS),
        ];
        self.told(Answer { found: founds.content()[0], ..Answer::refused(refusal) }, &promises)
    }

    fn card(&mut self, table: &[u8], card: u32, row: &mut [u8]) -> Answer {
        let bytes = Lent::new(table, self.shift(), 0xa5);
        let mut signature = Lent::new(row, self.shift(), 0x5a);
        let mut kinds = Lent::new(&[NOT_SET as u8], self.shift(), 0xc0);
        let kind = &mut kinds.content_mut()[0];
        let refusal = self.doors.card(bytes.content(), card, signature.content_mut(), kind);
        row.copy_from_slice(signature.content());
        let promises = [
            (bytes.guards_hold(), TABLE_GUARDS),
            (bytes.is_still(table), TABLE_READ),
            (signature.guards_hold(), ROW_GUARDS),
            (kinds.guards_hold(), KIND_GUARDS),
        ];
        self.told(Answer { kind: kinds.content()[0], ..Answer::refused(refusal) }, &promises)
    }
}
