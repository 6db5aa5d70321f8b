//! The nearest few cards of request #101: small tables with their lists and counts worked out by hand, what each error
//! that looks right would get wrong, and every refusal.

use crate::{after_line_6, done, reading, refused};
use model::calls::Model;
use model::damage::swap_slots;
use model::distance::{FAULT_BITS, READINGS};
use model::index::{Answer, Index, Nearest, Pair};
use model::record::{parse_table, table_bytes, Record, NO_SLOT, RECORD};
use model::refusal::{ARGUMENT, DONE, KIND, LOOSE, SHORT, SIZE, TABLE};

/// What an entry holds that no call wrote.
const LENT: Pair = Pair { card: 7, distance: 7 };

/// The answer, and a list of so many entries as the call leaves it.
fn nearest(table: &[u8], kind: u8, signature: &[u8], k: u32, places: usize) -> (Answer, Vec<Pair>) {
    let mut list = vec![LENT; places];
    (Model.nearest(table, Nearest { kind, signature, k, list: &mut list }), list)
}

/// The distance count, and card and distance of each entry, of the call with a list just long enough.
fn few(table: &[u8], value: u16, k: u32) -> (u32, Vec<(u32, u32)>) {
    let (answer, list) = nearest(table, READINGS, &reading(value), k, k as usize);
    assert_eq!(answer.refusal, DONE);
    let found = list[..answer.found as usize].iter().map(|pair| (pair.card, pair.distance)).collect();
    (answer.count, found)
}

/// The table after these inserts: card, reading 0, arity.
fn after(inserts: &[(u32, u16, u8)]) -> Vec<u8> {
    let mut table = vec![0; inserts.len() * RECORD];
    for (card, value, arity) in inserts {
        assert_eq!(Model.insert(&mut table, *card, READINGS, &reading(*value), *arity).refusal, DONE);
    }
    table
}

/// A table of records oldest first, each with its card, reading 0, covering radius and the slot of its parent.
fn rows(rows: &[(u32, u16, u32, u16)]) -> Vec<u8> {
    let mut records = vec![Record::free(); rows.len()];
    for (slot, (card, value, radius, parent)) in rows.iter().enumerate() {
        let record = &mut records[slot];
        (record.card, record.timestamp, record.radius, record.parent) = (*card, slot as u32 + 1, *radius, *parent);
        (record.kind, record.signature) = (READINGS, reading(*value));
        let children = (0..rows.len() as u16).filter(|child| rows[usize::from(*child)].3 == slot as u16);
        record.set_children(&children.collect::<Vec<_>>());
    }
    table_bytes(&records)
}

#[test]
fn nearest_48_after_line_6() {
    // 11 has radius 30 and children 12 and 13; 12 has radius 28 and children 14 and 16; 13 has radius 20 and child 15.
    // From 48: 11 is 2 away, bound 0; 12 is 32 away, bound 32 - 28 = 4; 13 is 28 away, bound 28 - 20 = 8; 14 is 4 away,
    // bound 4; 16 is 30 away, bound 30; 15 is 8 away, bound 8.
    let table = after_line_6();
    let all = [(11, 2), (14, 4), (15, 8), (13, 28), (16, 30), (12, 32)];
    // k = 1: 11 is taken; 12's bound exceeds 2. k = 2: 12 and 14 too; 13's bound exceeds 4. From k = 3: all compared.
    for (k, count) in [(1, 3), (2, 5), (3, 6), (4, 6), (5, 6), (6, 6)] {
        assert_eq!(few(&table, 48, k), (count, all[..k as usize].to_vec()), "k {k}");
    }
    // With fewer stored than k, all of them.
    for k in [7, 63, 64] {
        assert_eq!(few(&table, 48, k), (6, all.to_vec()), "k {k}");
    }
}

#[test]
fn equal_distances_by_smaller_card_and_later_entries_stay() {
    let table = after(&[(5, 10, 3), (9, 14, 3), (3, 6, 3), (4, 14, 3), (8, 6, 3), (1, 20, 3)]);
    let (answer, list) = nearest(&table, READINGS, &reading(10), 4, 6);
    assert_eq!((answer.refusal, answer.found), (DONE, 4));
    let pair = |card, distance| Pair { card, distance };
    assert_eq!(list, [pair(5, 0), pair(3, 4), pair(4, 4), pair(8, 4), LENT, LENT]);
    assert_eq!(few(&table, 10, 3).1, [(5, 0), (3, 4), (4, 4)]);
    assert_eq!(few(&table, 10, 5).1, [(5, 0), (3, 4), (4, 4), (8, 4), (9, 4)]);
}

#[test]
fn a_free_table_lists_none_and_counts_0() {
    for kind in [READINGS, FAULT_BITS] {
        assert_eq!(nearest(&[0; 3 * RECORD], kind, &reading(5), 1, 1), (done(0, 0), vec![LENT]));
        assert_eq!(nearest(&[0; 3 * RECORD], kind, &reading(5), 64, 65), (done(0, 0), vec![LENT; 65]));
    }
}

#[test]
fn fault_masks_are_ranked_by_their_bits() {
    let mut table = vec![0; 3 * RECORD];
    for (card, byte) in [(1, 0), (2, 255), (3, 1)] {
        Model.insert(&mut table, card, FAULT_BITS, &[byte; 32], 8);
    }
    let (answer, list) = nearest(&table, FAULT_BITS, &[3; 32], 2, 2);
    assert_eq!((answer.refusal, answer.found), (DONE, 2));
    assert_eq!(list, [Pair { card: 3, distance: 32 }, Pair { card: 1, distance: 64 }]);
}

// ---- errors that look right ----

#[test]
fn error_ending_when_the_bound_reaches_the_kth_distance() {
    // Both are 3 away and have bound 3. The wrong end leaves card 6 listed.
    assert_eq!(few(&after(&[(6, 3, 1), (1, 3, 1)]), 0, 1), (2, vec![(1, 3)]));
}

#[test]
fn error_younger_siblings_in_the_term() {
    // Card 3 is 3 away and stands next to the younger 7, 0 away; the wrong term gives 3 bound 2 and leaves 7 listed.
    let table = after(&[(4, 1, 1), (3, 0, 1), (2, 3, 1), (7, 3, 2)]);
    assert_eq!(parse_table(&table)[0].children(), [1, 3]);
    assert_eq!(few(&table, 3, 1), (4, vec![(2, 0)]));
}

#[test]
fn error_the_difference_not_halved() {
    // Card 8 is 7 away, its older sibling 6 is 3 away: half of 4 is 2, the radius gives 3. The wrong term 4 leaves 6.
    let table = after(&[(3, 1, 1), (6, 0, 1), (8, 10, 2), (2, 6, 1)]);
    assert_eq!(parse_table(&table)[2].children(), [3]);
    assert_eq!(few(&table, 3, 2), (4, vec![(3, 2), (2, 3)]));
}

#[test]
fn error_half_rounded_down() {
    // Card 3 is 4 away, its older sibling 2 is 1 away: half of 3, rounded up, is 2, and exceeds 1. Rounded down, 3 is
    // taken and its child compared: the same list, at count 4.
    let table = after(&[(1, 15, 2), (2, 9, 2), (3, 14, 2), (4, 17, 2)]);
    assert_eq!((parse_table(&table)[0].children(), parse_table(&table)[2].children()), (&[1, 2][..], &[3][..]));
    assert_eq!(few(&table, 10, 1), (3, vec![(2, 1)]));
}

// ---- loose tables, by the same rule ----

#[test]
fn error_the_parents_bound_left_out() {
    // A chain, 5, 9, 1 and 0 away. The root's radius is too small, so its bound, 2, holds for all below it: card 3 has
    // bound 2 and not 0, and is not taken when it is itself 1 away.
    let table = rows(&[(1, 5, 3, NO_SLOT), (2, 9, 9, 0), (3, 1, 1, 1), (4, 0, 0, 2)]);
    assert_eq!(Model.check(&table), refused(LOOSE));
    assert_eq!(few(&table, 0, 1), (3, vec![(3, 1)]));
}

#[test]
fn error_another_than_the_oldest_among_equal_bounds() {
    // Cards 3 and 2 are both 10 away with bound 5; below 3, the older, a card is 1 away, below 2 one is 2 away. The
    // older is taken, and then the other bound exceeds 1. The younger, the smaller card or the smaller slot leaves 6.
    let mut table = rows(&[(9, 10, 10, NO_SLOT), (3, 10, 5, 0), (2, 10, 5, 0), (5, 1, 0, 1), (6, 2, 0, 2)]);
    swap_slots(&mut table, 1, 2);
    assert_eq!(Model.check(&table), refused(LOOSE));
    assert_eq!(few(&table, 0, 1), (4, vec![(5, 1)]));
    // With one more wanted, the other is taken too.
    assert_eq!(few(&table, 0, 2), (5, vec![(5, 1), (6, 2)]));
}

#[test]
fn sums_without_loss() {
    // A radius of 4,294,967,295 gives no bound; the distance less it is far below 0.
    let table = rows(&[(1, 5, u32::MAX, NO_SLOT), (2, 900, u32::MAX, 0), (3, 1, 0, 1)]);
    assert_eq!(few(&table, 0, 1), (3, vec![(3, 1)]));
    assert_eq!(few(&table, 0, 64), (3, vec![(3, 1), (1, 5), (2, 900)]));
}

// ---- refusals ----

/// Refused with this number, zero counts, and every entry as it was lent.
fn refuses(table: &[u8], kind: u8, signature: &[u8], k: u32, places: usize, refusal: u32) {
    assert_eq!(nearest(table, kind, signature, k, places), (refused(refusal), vec![LENT; places]));
}

#[test]
fn refusals_one_by_one() {
    let table = after_line_6();
    for length in [0, 1, 63, 65, 65_535, 65_537, 65_600] {
        refuses(&vec![9; length], READINGS, &reading(48), 1, 9, SIZE);
    }
    let mut bad = table.clone();
    bad[15] = 3;
    refuses(&bad, READINGS, &reading(48), 1, 9, TABLE);
    for kind in [0, 3, 255] {
        refuses(&table, kind, &reading(48), 1, 9, ARGUMENT);
    }
    for length in [0, 31, 33, 64] {
        refuses(&table, READINGS, &vec![0; length], 1, 9, ARGUMENT);
    }
    for k in [0, 65, 1 << 8 | 1, 1 << 16 | 1, u32::MAX] {
        refuses(&table, READINGS, &reading(48), k, 70, ARGUMENT);
    }
    refuses(&table, FAULT_BITS, &reading(48), 1, 9, KIND);
    for k in 1..=64 {
        refuses(&table, READINGS, &reading(48), k, k as usize - 1, SHORT);
        refuses(&[0; RECORD], READINGS, &reading(48), k, k as usize - 1, SHORT);
    }
}

#[test]
fn refusals_come_in_the_order_of_their_numbers() {
    let table = after_line_6();
    let mut bad = table.clone();
    bad[15] = 3;
    refuses(&[9; 63], 0, &[], 0, 0, SIZE);
    refuses(&bad, 0, &[], 0, 0, TABLE);
    refuses(&bad, FAULT_BITS, &reading(48), 3, 2, TABLE);
    refuses(&table, FAULT_BITS, &reading(48), 65, 2, ARGUMENT);
    refuses(&table, FAULT_BITS, &reading(48), 0, 0, ARGUMENT);
    refuses(&table, FAULT_BITS, &[0; 31], 3, 2, ARGUMENT);
    refuses(&table, 3, &reading(48), 3, 2, ARGUMENT);
    refuses(&table, FAULT_BITS, &reading(48), 3, 2, KIND);
}

#[test]
fn a_list_is_short_by_k_alone() {
    let table = after_line_6();
    // Six are stored: a list of two is long enough for k = 2, one of six is not for k = 7.
    assert_eq!(nearest(&table, READINGS, &reading(48), 2, 2).0, done(5, 2));
    refuses(&table, READINGS, &reading(48), 7, 6, SHORT);
    assert_eq!(nearest(&table, READINGS, &reading(48), 7, 7).0, done(6, 6));
    assert_eq!(nearest(&table, READINGS, &reading(48), 7, 7).1[6], LENT);
}
