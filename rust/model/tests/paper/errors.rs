//! The paper's errors that look right: what each would get wrong.

use crate::{after_line_6, done, reading, search};
use model::calls::Model;
use model::distance::READINGS;
use model::index::Index;
use model::judge::{judge, Verdict};
use model::record::{parse_table, RECORD};

#[test]
fn error_parent_among_the_candidates() {
    // After line 6, 11 is nearer to 52 than both children, but was full when card 14 came.
    assert_eq!(search(&after_line_6(), 52, 0), (done(5, 1), vec![14]));
}

#[test]
fn error_younger_siblings_in_the_smallest_distance() {
    // Card 3 went below 2, which is nearer to it than the root; 4 then came to stand next to 2 and lies close to 3.
    // A search at 3 must still look below 2, though only for what is older than 4.
    let mut table = vec![0; 4 * RECORD];
    for (card, value) in [(1, 0), (2, 100), (3, 52), (4, 48)] {
        Model.insert(&mut table, card, READINGS, &reading(value), 4);
    }
    assert_eq!(parse_table(&table)[0].children(), [1, 3]);
    assert_eq!(parse_table(&table)[1].children(), [2]);
    // Card 2 is 48 from the query and its younger sibling, card 4, only 4: the wrong smallest distance skips 2.
    assert_eq!(search(&table, 52, 0), (done(4, 1), vec![3]));
}

#[test]
fn error_finding_a_card_by_walking_as_if_to_insert() {
    let mut table = vec![0; 8 * RECORD];
    for (card, value) in [(1, 50), (2, 80), (3, 64)] {
        Model.insert(&mut table, card, READINGS, &reading(value), 1);
    }
    // Card 3 went below 2, for 1 was full; 4 now stands next to 2 and is nearer to 3, so a walk would go there.
    Model.insert(&mut table, 4, READINGS, &reading(60), 2);
    assert_eq!(parse_table(&table)[0].children(), [1, 3]);
    assert_eq!(parse_table(&table)[1].children(), [2]);
    assert_eq!(Model.delete(&mut table, 3, 2), done(0, 0));
    assert_eq!(search(&table, 64, 0).1, Vec::<u32>::new());
    assert_eq!(parse_table(&table)[1].children(), [0u16; 0]);
}

#[test]
fn error_returned_records_with_their_old_timestamps() {
    let mut table = after_line_6();
    Model.delete(&mut table, 12, 2);
    let records = parse_table(&table);
    assert_eq!((records[3].timestamp, records[5].timestamp), (6, 7));
    assert_eq!(judge(&table), Verdict::WellFormed);
}
