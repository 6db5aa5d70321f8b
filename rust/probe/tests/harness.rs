//! The comparison itself: right answers pass, and every wrong one is caught.

use model::judge::Clause;
use probe::answers::{Answers, Slip};
use probe::groups::compare_all;
use probe::tally::Report;

fn compared(slip: Option<Slip>, seed: u64, rounds: usize) -> Report {
    compare_all(&Answers { slip }, seed, rounds, &mut |_| ())
}

#[test]
fn right_answers_pass() {
    for seed in [1, 2] {
        let report = compared(None, seed, 60);
        assert_eq!(report.failed(), 0, "{report:?}");
        assert!(report.passed() > 30_000, "{}", report.passed());
    }
}

#[test]
fn the_same_seed_gives_the_same_comparisons() {
    let lines = |seed: u64| {
        let mut lines = Vec::new();
        compare_all(&Answers::default(), seed, 5, &mut |line| lines.push(line.to_string()));
        lines
    };
    assert_eq!(lines(3), lines(3));
    assert_ne!(lines(3), lines(4));
}

#[test]
fn a_judge_that_ignores_a_clause_is_caught() {
    for clause in Clause::ALL {
        let failed = compared(Some(Slip::Ignored(clause)), 1, 30).failed();
        println!("{clause:?} ignored: {failed} failed");
        // A clause that follows from others may be left out; every other one may not.
        assert_eq!(failed == 0, clause.follows_from_others(), "{clause:?}: {failed} failed");
    }
}

#[test]
fn every_other_slip_is_caught() {
    for slip in Slip::OTHERS {
        let report = compared(Some(slip), 1, 30);
        println!("{slip:?}: {} failed", report.failed());
        assert!(report.failed() > 0, "{slip:?} was not caught");
        let group = report.groups.iter().find(|group| group.failed > 0).unwrap();
        assert!(group.to_string().lines().count() > 1, "a failure is described: {group}");
    }
}
