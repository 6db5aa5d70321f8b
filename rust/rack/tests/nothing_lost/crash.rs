//! The program is ended at every call that touches a file or answers: before it, after it, and in the middle of a
//! write.

use crate::scenario::{sorts, Scenario, Stage};

/// The signal that nobody can catch.
const KILL: i32 = 9;

/// Ends a scenario in every way, and gives how often that was.
fn ends(scenario: Scenario) -> usize {
    let stage = Stage::new("crash", scenario);
    let whole = stage.run(0, "none");
    assert_eq!((whole.ended.code, whole.ended.err.as_str()), (expected(&whole.ended.out), ""));
    assert_eq!((whole.state, whole.left.len()), (stage.scenario.last(), 0));
    let mut ends = 0;
    for call in &whole.calls {
        let halves = call.name == "write";
        for way in ["kill", "kill-after", "half"].into_iter().filter(|way| *way != "half" || halves) {
            let outcome = stage.run(call.number, way);
            assert_eq!(outcome.ended.signal, Some(KILL), "{way} at {call:?}");
            let last = outcome.calls.last().unwrap();
            assert_eq!((last.number, &last.name, last.is_cut()), (call.number, &call.name, way == "kill"));
            ends += 1;
        }
    }
    // No call is left out: past the last one it ends by itself.
    let past = stage.run(whole.calls.len() + 1, "kill");
    assert_eq!((past.ended.code, past.ended.out), (whole.ended.code, whole.ended.out));
    println!("ended {ends} times");
    ends
}

/// A script with a refusal in it ends with 1.
fn expected(out: &str) -> Option<i32> {
    Some(i32::from(out.contains("\"refusal\":6")))
}

// A change is at least: opened, locked, the folder opened, a new file made, written, synced, named, the folder synced,
// answered; each ended twice, and two writes in half.
const CHANGE: usize = 20;

#[test]
fn insert_is_ended_at_every_call() {
    assert!(ends(sorts::insert()) >= CHANGE);
}

#[test]
fn insert_is_ended_where_one_was_ended_before() {
    assert!(ends(sorts::insert_over_leftover()) >= CHANGE);
}

#[test]
fn many_inserts_are_ended_at_every_call() {
    assert!(ends(sorts::insert_lines()) >= CHANGE + 2 * 3);
}

#[test]
fn delete_is_ended_at_every_call() {
    assert!(ends(sorts::delete()) >= CHANGE);
}

#[test]
fn clear_is_ended_at_every_call() {
    assert!(ends(sorts::clear()) >= CHANGE);
}

#[test]
fn a_script_is_ended_at_every_call() {
    assert!(ends(sorts::script()) >= 3 * CHANGE);
}

#[test]
fn new_is_ended_at_every_call() {
    // The folder opened, a file made, written, synced, named, its other name taken off, the folder synced, answered.
    assert!(ends(sorts::new()) >= 2 * 8 + 2);
}
