//! The comparison itself: a right library passes, and a wrong one is caught and shown as a short history.

mod few;

use histories::doors::{Doors, Linked, Nearest};
use histories::groups::{run_all, Report};
use model::index::Search;

/// One way of being wrong at the doors.
#[derive(Clone, Copy, Debug, PartialEq, Eq)]
enum Slip {
    /// Counts are left as they were lent when a call is refused.
    CountNotSet,
    FoundNotSet,
    /// One entry past the list is written.
    PastList,
    /// One byte before the table is written.
    BeforeTable,
    /// The query is written.
    QueryWritten,
    /// Check writes to its table.
    CheckWrites,
    /// Entries after the cards found are zeroed.
    LaterEntries,
    /// A refused insert changes the table.
    RefusedInsertWrites,
    /// Distances counted one short.
    CountShort,
    /// Arity 8 taken for 7.
    ArityCut,
    /// A list as long as the stored cards is refused.
    ShortByOne,
    // At the door that tells all cards.
    CardsFoundNotSet,
    CardsPastList,
    CardsLaterEntries,
    CardsWriteTable,
    /// The last two change places.
    CardsOutOfOrder,
    // At the door that tells what one card was stored with.
    CardKindNotSet,
    CardKindZero,
    CardPastRow,
    CardLaterBytes,
    CardWritesTable,
    /// A row as long as a signature is refused.
    CardShortByOne,
    /// A short row is refused before an absent card is.
    CardShortFirst,
    // At the door of the nearest few.
    NearestCountNotSet,
    NearestFoundNotSet,
    NearestCountShort,
    NearestPastList,
    NearestBeforeList,
    NearestLaterEntries,
    NearestWritesTable,
    /// Card and distance change places.
    NearestSwapped,
    /// Equal distances go by larger card.
    NearestTieByLarger,
    /// 64 taken for 63.
    NearestCut,
    /// 65 taken for 64.
    NearestBeyond,
    /// A list of k entries is refused.
    NearestShortByOne,
    /// A list shorter than k is taken where it has room for all that are stored.
    NearestShortByStored,
}

const SLIPS: [Slip; 23] = [
    Slip::CountNotSet,
    Slip::FoundNotSet,
    Slip::PastList,
    Slip::BeforeTable,
    Slip::QueryWritten,
    Slip::CheckWrites,
    Slip::LaterEntries,
    Slip::RefusedInsertWrites,
    Slip::CountShort,
    Slip::ArityCut,
    Slip::ShortByOne,
    Slip::CardsFoundNotSet,
    Slip::CardsPastList,
    Slip::CardsLaterEntries,
    Slip::CardsWriteTable,
    Slip::CardsOutOfOrder,
    Slip::CardKindNotSet,
    Slip::CardKindZero,
    Slip::CardPastRow,
    Slip::CardLaterBytes,
    Slip::CardWritesTable,
    Slip::CardShortByOne,
    Slip::CardShortFirst,
];

struct Wrong(Slip);

/// Writes where a safe slice would not let it, as a wrong C function could.
fn write<T: Copy>(to: *const T, entry: T) {
    // SAFETY: the harness lends everything with guards of many entries on either side, within one allocation.
    unsafe { std::hint::black_box(to as *mut T).write_volatile(entry) };
}

impl Doors for Wrong {
    fn clear(&mut self, table: &mut [u8]) -> u32 {
        let refusal = Linked.clear(table);
        if self.0 == Slip::BeforeTable {
            write(table.as_ptr().wrapping_sub(1), 0);
        }
        refusal
    }

    fn insert(&mut self, table: &mut [u8], card: u32, kind: u8, arity: u8, signature: &[u8], count: &mut u32) -> u32 {
        let before = *count;
        let arity = if self.0 == Slip::ArityCut && arity == 8 { 7 } else { arity };
        let refusal = Linked.insert(table, card, kind, arity, signature, count);
        match self.0 {
            Slip::CountNotSet if refusal != 0 => *count = before,
            Slip::RefusedInsertWrites if refusal == 7 => table[8] ^= 1,
            Slip::CountShort if *count > 3 => *count -= 1,
            Slip::QueryWritten if !signature.is_empty() => write(signature.as_ptr(), !signature[0]),
            _ => {}
        }
        refusal
    }

    fn delete(&mut self, table: &mut [u8], card: u32, arity: u8, count: &mut u32) -> u32 {
        Linked.delete(table, card, arity, count)
    }

    fn search(&mut self, table: &[u8], lent: Search, count: &mut u32, found: &mut u32) -> u32 {
        let before = *found;
        let list = lent.list;
        let refusal = Linked.search(table, Search { list: &mut *list, ..lent }, count, found);
        match self.0 {
            Slip::FoundNotSet if refusal != 0 => *found = before,
            Slip::PastList => write(list.as_ptr().wrapping_add(list.len()), 0),
            Slip::LaterEntries if refusal == 0 => list[*found as usize..].fill(0),
            Slip::ShortByOne if refusal == 0 => {
                let used = table.chunks(64).filter(|record| record[..4] != [0; 4]).count();
                if used == list.len() && used > 0 {
                    (*count, *found) = (0, 0);
                    return 9;
                }
            }
            _ => {}
        }
        refusal
    }

    fn nearest(&mut self, table: &[u8], lent: Nearest, count: &mut u32, found: &mut u32) -> u32 {
        few::slipped(self.0, table, lent, count, found)
    }

    fn check(&mut self, table: &[u8]) -> u32 {
        if self.0 == Slip::CheckWrites && !table.is_empty() {
            write(table.as_ptr(), !table[0]);
        }
        Linked.check(table)
    }

    fn cards(&mut self, table: &[u8], list: &mut [u32], found: &mut u32) -> u32 {
        let before = *found;
        let refusal = Linked.cards(table, list, found);
        let many = *found as usize;
        match self.0 {
            Slip::CardsFoundNotSet if refusal != 0 => *found = before,
            Slip::CardsPastList => write(list.as_ptr().wrapping_add(list.len()), 0),
            Slip::CardsLaterEntries if refusal == 0 => list[many..].fill(0),
            Slip::CardsWriteTable if refusal == 0 => write(table.as_ptr(), !table[0]),
            Slip::CardsOutOfOrder if many > 1 => list.swap(many - 2, many - 1),
            _ => {}
        }
        refusal
    }

    fn card(&mut self, table: &[u8], card: u32, row: &mut [u8], kind: &mut u8) -> u32 {
        let (before, row_before) = (*kind, row.to_vec());
        let refusal = Linked.card(table, card, row, kind);
        match self.0 {
            Slip::CardKindNotSet if refusal != 0 => *kind = before,
            Slip::CardKindZero => *kind = 0,
            Slip::CardPastRow => write(row.as_ptr().wrapping_add(row.len()), 0),
            Slip::CardLaterBytes if refusal == 0 => row[32..].fill(0),
            Slip::CardWritesTable if refusal == 0 => write(table.as_ptr(), !table[0]),
            Slip::CardShortByOne if refusal == 0 && row.len() == 32 => {
                row.copy_from_slice(&row_before);
                *kind = 0;
                return 9;
            }
            Slip::CardShortFirst if refusal == 6 && row.len() < 32 => return 9,
            _ => {}
        }
        refusal
    }
}

fn lines(run: impl FnOnce(&mut dyn FnMut(&str)) -> Report) -> (Report, String) {
    let mut text = String::new();
    let report = run(&mut |line| text += &format!("{line}\n"));
    (report, text)
}

#[test]
fn a_right_library_passes_and_the_same_seed_gives_the_same() {
    let run = |seed| lines(|print| run_all(Linked, Linked, seed, 1, print));
    let (report, text) = run(5);
    assert_eq!(report.failed, 0, "{text}");
    assert!(report.tally.calls > 2000 && report.tally.told > 200, "{}", report.calls());
    assert!(report.tally.ranked > 100, "{}", report.calls());
    assert!(report.tally.not_met().is_empty(), "{:?}", report.tally.not_met());
    assert_eq!(run(5).1, text);
    assert_ne!(run(6).1, text);
}

#[test]
fn every_slip_at_the_doors_is_caught_and_shown() {
    caught(&SLIPS);
}

#[test]
fn every_slip_at_the_door_of_the_nearest_few_is_caught_and_shown() {
    caught(&few::ALL);
}

fn caught(slips: &[Slip]) {
    for slip in slips.iter().copied() {
        let (report, text) = lines(|print| run_all(Wrong(slip), Wrong(slip), 5, 1, print));
        println!("{slip:?}: {} failed", report.failed);
        assert!(report.failed > 0, "{slip:?} was not caught");
        assert!(text.contains("FAILED"), "{slip:?}:\n{text}");
    }
}
