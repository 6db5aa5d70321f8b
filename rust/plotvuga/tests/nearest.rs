//! The nearest few: lists, counts and refusals as the caller gets them.

use plotvuga::{library, Pair, Pairs, Refusal, Signature, Table, MOST_NEAREST, MOST_RECORDS};

fn reading(value: u16) -> Signature {
    let mut readings = [0; 16];
    readings[0] = value;
    Signature::readings(readings)
}

fn pairs(list: &[(u32, u32)]) -> Vec<Pair> {
    list.iter().map(|(card, distance)| Pair { card: *card, distance: *distance }).collect()
}

/// The paper's table after line 6, with two records to spare.
fn six() -> Table {
    let mut table = Table::new(8).unwrap();
    for (card, value) in [(11, 50), (12, 80), (13, 20), (14, 52), (15, 40), (16, 78)] {
        table.insert(card, &reading(value), 2).unwrap();
    }
    table
}

/// All six by their distance to 48.
const FROM_48: [(u32, u32); 6] = [(11, 2), (14, 4), (15, 8), (13, 28), (16, 30), (12, 32)];

#[test]
fn nearest_first_with_their_distances() {
    let table = six();
    for (k, distances) in [(1, 3), (2, 5), (3, 6), (5, 6), (6, 6), (7, 6), (64, 6)] {
        let right = Pairs { distances, pairs: pairs(&FROM_48[..6.min(k)]) };
        assert_eq!(table.nearest(&reading(48), k as u32), Ok(right));
    }
    // 12 and 13 are 30 away, and 14 and 16 are 2 and 28.
    let ties = pairs(&[(11, 0), (14, 2), (15, 10), (16, 28), (12, 30), (13, 30)]);
    assert_eq!(table.nearest(&reading(50), 6).unwrap().pairs, ties);
    assert_eq!(table.nearest(&reading(50), 5).unwrap().pairs, ties[..5]);
}

#[test]
fn the_front_of_the_list_is_filled_and_the_rest_stays() {
    let table = six().into_bytes();
    let other = Pair { card: 1000, distance: 7 };
    let mut list = [other; 9];
    let near = plotvuga::nearest(&table, &reading(48), 2, &mut list[1..8]).unwrap();
    assert_eq!((near.distances, near.pairs), (5, &pairs(&FROM_48[..2])[..]));
    assert_eq!(list[1..3], pairs(&FROM_48[..2]));
    assert!(list[..1].iter().chain(&list[3..]).all(|pair| *pair == other));
    // With more asked for than are stored, the list has to have room for them all the same.
    let near = plotvuga::nearest(&table, &reading(48), 7, &mut list[..7]).unwrap();
    assert_eq!(near.pairs, pairs(&FROM_48));
    assert_eq!(list[6..], [other; 3]);
}

#[test]
fn an_empty_table_and_a_full_one() {
    let mut table = Table::new(MOST_RECORDS).unwrap();
    for k in [1, 64] {
        assert_eq!(table.nearest(&reading(3), k), Ok(Pairs { distances: 0, pairs: Vec::new() }));
        assert!(table.nearest(&Signature::faults([1; 4]), k).unwrap().pairs.is_empty());
    }
    for card in 1..=MOST_RECORDS as u32 {
        table.insert(card, &reading(card as u16), 8).unwrap();
    }
    let listed = table.nearest(&reading(500), 64).unwrap();
    let right: Vec<(u32, u32)> = (0..64u32).map(|place| (place.div_ceil(2), place % 2)).map(side).collect();
    assert_eq!(listed.pairs, pairs(&right));
    assert!(listed.distances <= MOST_RECORDS as u32);
}

/// The card so far from 500, below it first.
fn side((distance, below): (u32, u32)) -> (u32, u32) {
    (if below == 1 { 500 - distance } else { 500 + distance }, distance)
}

/// The advice for LOOSE holds here, too: a covering radius that is too small hides the nearest card.
#[test]
fn a_table_that_is_not_sound_can_miss_a_card() {
    let mut bytes = six().into_bytes();
    bytes[64 + 8] = 0;
    let table = Table::over(bytes);
    assert_eq!(table.check(), Err(Refusal::Loose));
    assert_eq!(table.nearest(&reading(48), 2).unwrap().pairs, pairs(&[(11, 2), (15, 8)]));
}

/// Each refusal with every later one due as well, so that the order is seen too.
#[test]
fn refusals_in_their_order() {
    let table = six().into_bytes();
    let mut bad = table.clone();
    bad[15] = 3;
    let (own, other) = (reading(48), Signature::faults([1; 4]));
    for (bytes, signature, k, refusal) in [
        (&bad[..63], &other, 65, Refusal::Size),
        (&bad, &other, 65, Refusal::Table),
        (&table, &other, 65, Refusal::Argument),
        (&table, &other, 0, Refusal::Argument),
        (&table, &other, u32::MAX, Refusal::Argument),
        (&table, &other, 6, Refusal::Kind),
        (&table, &own, 6, Refusal::Short),
    ] {
        let kind = signature.kind().number();
        let (mut list, mut count, mut found) = ([Pair { card: 9, distance: 9 }; 5], 9, 9);
        let number = library::nearest(bytes, kind, signature.bytes(), k, &mut list, &mut count, &mut found);
        assert_eq!(number, refusal.number());
        // A refusal sets both counts to 0 and leaves the list.
        assert_eq!((list, count, found), ([Pair { card: 9, distance: 9 }; 5], 0, 0));
        assert_eq!(plotvuga::nearest(bytes, signature, k, &mut list), Err(refusal));
        if refusal != Refusal::Short {
            assert_eq!(Table::over(bytes).nearest(signature, k), Err(refusal));
        }
    }
    // What types see to: kind and length of a signature.
    for (kind, length) in [(0, 32), (3, 32), (1, 31), (1, 33), (2, 0)] {
        let (mut list, mut count, mut found) = ([Pair::default(); 5], 9, 9);
        let number = library::nearest(&table, kind, &[0; 33][..length], 5, &mut list, &mut count, &mut found);
        assert_eq!((number, count, found), (Refusal::Argument.number(), 0, 0));
    }
}

#[test]
fn as_many_as_can_be_asked_for() {
    let mut list = [Pair::default(); MOST_NEAREST + 1];
    let most = MOST_NEAREST as u32;
    let table = six().into_bytes();
    assert_eq!(plotvuga::nearest(&table, &reading(48), most + 1, &mut list), Err(Refusal::Argument));
    assert_eq!(plotvuga::nearest(&table, &reading(48), most, &mut list[..MOST_NEAREST - 1]), Err(Refusal::Short));
    assert_eq!(plotvuga::nearest(&table, &reading(48), most, &mut list).unwrap().pairs, pairs(&FROM_48));
}

/// A pair is C's: two numbers of 32 bits, the card first, aligned for one.
#[test]
fn a_pair_is_two_numbers() {
    assert_eq!((size_of::<Pair>(), align_of::<Pair>()), (8, 4));
    assert_eq!((std::mem::offset_of!(Pair, card), std::mem::offset_of!(Pair, distance)), (0, 4));
}
