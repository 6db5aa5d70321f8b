//! Wrong indexes that look right, each with one slip: the comparison must catch every one of them and shorten the
//! history that shows it. An index without a slip must pass, so the slips alone are what is caught.

mod nearest;
mod short;
mod slip;
mod slipped;
mod stored;
mod walk;

use model::calls::Model;
use model::compare::{compare, run};
use model::history::{history, Manner};
use model::random::Random;
use slip::{Slip, ALL};
use slipped::Slipped;

#[test]
fn without_a_slip_nothing_is_caught() {
    let mut random = Random::new(11);
    for round in 0..200 {
        let manner = Manner::ALL[round % 3];
        let history = history(&mut random, manner, 2 + round % 30, 120);
        if let Err(failure) = compare(&mut Slipped(Slip::None), &mut Model, &history) {
            panic!("{failure}");
        }
    }
}

#[test]
fn every_slip_is_caught_and_its_history_shortened() {
    for slip in ALL {
        let mut random = Random::new(12);
        let mut caught = None;
        for round in 0..2000 {
            let manner = Manner::ALL[round % 3];
            let history = history(&mut random, manner, 2 + round % 30, 120);
            if let Err(failure) = compare(&mut Slipped(slip), &mut Model, &history) {
                caught = Some((round, failure));
                break;
            }
        }
        let (round, failure) = caught.unwrap_or_else(|| panic!("{slip:?} was never caught"));
        let commands = failure.history.commands.len();
        println!("{slip:?}: history {}, {commands} commands left: {}", round + 1, failure.difference.what);
        assert!(commands <= 20, "{slip:?}:\n{failure}");
    }
}

/// Two indexes that err alike do not differ; what the calls stored shows it all the same.
#[test]
fn slips_in_telling_what_is_stored_are_caught_by_what_the_calls_stored() {
    let told = [
        Slip::CardsInTreeOrder,
        Slip::CardsWithFree,
        Slip::CardLeftOut,
        Slip::CardsNeedAll,
        Slip::KindAlwaysReadings,
        Slip::SignatureOfFirst,
        Slip::ShortBeforeAbsent,
    ];
    for slip in told {
        let mut random = Random::new(13);
        let caught = (0..300).any(|round| {
            let history = history(&mut random, Manner::Fresh, 2 + round % 30, 120);
            run(&mut Slipped(slip), &mut Slipped(slip), &history).is_err()
        });
        assert!(caught, "{slip:?} was never caught");
    }
}

/// The same for the nearest few: the plain scan alone shows every slip that lists other cards.
#[test]
fn slips_in_listing_the_nearest_are_caught_by_the_plain_scan() {
    let listing = [
        Slip::NearestReached,
        Slip::NearestYounger,
        Slip::NearestParentJudges,
        Slip::NearestNotHalved,
        Slip::NearestApart,
        Slip::NearestWraps,
        Slip::NearestOnceK,
        Slip::NearestLargerCard,
        Slip::NearestTieStays,
        Slip::NearestLastDropped,
    ];
    for slip in listing {
        let mut random = Random::new(14);
        let caught = (0..2000).any(|round| {
            let history = history(&mut random, Manner::Fresh, 2 + round % 30, 120);
            run(&mut Slipped(slip), &mut Slipped(slip), &history).is_err()
        });
        assert!(caught, "{slip:?} was never caught");
    }
}

/// On a sound table a record is taken exactly if its bound is at most the k-th distance; so neither its parent's bound
/// nor the choice among equal bounds shows there. These are caught on loose tables alone.
#[test]
fn slips_that_only_a_loose_table_shows() {
    for slip in [Slip::NearestNoParent, Slip::NearestYoungerFirst, Slip::NearestByCard, Slip::NearestBySlot] {
        let mut random = Random::new(15);
        for round in 0..300 {
            let history = history(&mut random, Manner::Fresh, 2 + round % 30, 120);
            if let Err(failure) = compare(&mut Slipped(slip), &mut Model, &history) {
                panic!("{slip:?} on a sound table\n{failure}");
            }
        }
    }
}
