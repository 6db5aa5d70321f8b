//! What check's answer means, on the compiled library: a table is loose exactly if some stored card is missed by the
//! search of radius 0 for its own signature. That is proved of the definitions (`check-means`); here it is run.

use model::damage::loosen;
use model::history::grown_table;
use model::random::Random;
use plotvuga::{Refusal, Table};

/// Whether each stored card is found by its own signature.
fn each_finds_itself(table: &Table) -> bool {
    table.cards().unwrap().all(|card| {
        let signature = table.card(card).unwrap();
        table.search(&signature, 0).unwrap().cards.contains(&card)
    })
}

#[test]
fn a_table_is_loose_exactly_if_a_card_is_hidden_from_its_own_signature() {
    let mut random = Random::new(19);
    let mut loose = 0;
    for _ in 0..600 {
        let records = random.from_to(2, 60) as usize;
        let mut bytes = grown_table(&mut random, records);
        if random.percent(60) {
            loosen(&mut random, &mut bytes);
        }
        let table = Table::over(bytes);
        let sound = match table.check() {
            Ok(()) => true,
            Err(Refusal::Loose) => false,
            Err(other) => panic!("{other}"),
        };
        loose += usize::from(!sound);
        assert_eq!(each_finds_itself(&table), sound);
    }
    assert!((200..400).contains(&loose), "{loose} of 600 are loose");
}
