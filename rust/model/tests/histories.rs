//! The model against the plain scan over many random histories: every search lists exactly the cards within the
//! radius, every nearest list is the first of the scan, what is stored is told as the calls stored it, every table that
//! calls made is sound, and no refused call changes anything.

use model::calls::Model;
use model::compare::{run, Tally};
use model::damage::loosen;
use model::history::{any_history, grown_table, history, Manner};
use model::index::Index;
use model::judge::{judge, Verdict};
use model::random::Random;
use model::refusal::{DONE, LOOSE};

#[test]
fn lists_are_what_the_scan_finds_and_what_is_stored_is_told() {
    let mut random = Random::new(7);
    let mut tally = Tally::default();
    for _ in 0..400 {
        let records = random.from_to(1, 40) as usize;
        let history = history(&mut random, Manner::Fresh, records, 4 * records + 20);
        assert!(history.told_by_calls());
        tally.add(&run(&mut Model, &mut Model, &history).unwrap());
    }
    let large = history(&mut random, Manner::Fresh, 1024, 2500);
    tally.add(&run(&mut Model, &mut Model, &large).unwrap());
    assert!(tally.scanned > 5000 && tally.ranked > 2500 && tally.told > 2000, "{tally:?}");
}

#[test]
fn histories_meet_every_refusal() {
    let mut random = Random::new(8);
    let mut tally = Tally::default();
    (0..300).for_each(|_| tally.add(&run(&mut Model, &mut Model, &any_history(&mut random)).unwrap()));
    assert!(tally.refusals().iter().all(|times| *times > 10), "{tally:?}");
    assert!(tally.refusals()[DONE as usize] > tally.calls / 3, "{tally:?}");
    assert!(tally.not_met().is_empty(), "{:?}", tally.not_met());
}

#[test]
fn a_refused_call_touches_nothing() {
    let mut random = Random::new(9);
    for _ in 0..100 {
        let history = any_history(&mut random);
        let mut table = history.start.clone();
        for command in &history.commands {
            let (before, mut lent) = (table.clone(), command.lent());
            let answer = command.make(&mut Model, &mut table, &mut lent);
            if answer.is_some_and(|answer| answer.refusal != DONE) {
                let answer = answer.unwrap();
                assert_eq!((answer.count, answer.found, answer.kind), (0, 0, 0));
                assert_eq!(table, before);
                assert_eq!(lent, command.lent());
            }
        }
    }
}

#[test]
fn loosened_tables_are_well_formed_and_loose() {
    let mut random = Random::new(10);
    let mut loosened = 0;
    for _ in 0..300 {
        let records = random.from_to(2, 60) as usize;
        let mut table = grown_table(&mut random, records);
        assert_eq!(Model.check(&table).refusal, DONE);
        if loosen(&mut random, &mut table) {
            loosened += 1;
            assert_eq!(judge(&table), Verdict::WellFormed);
            assert_eq!(Model.check(&table).refusal, LOOSE);
        }
    }
    assert!(loosened > 150, "{loosened}");
}
