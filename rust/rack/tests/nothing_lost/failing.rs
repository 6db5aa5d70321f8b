//! Every call that touches a file or answers is made to fail, one after the other: the disk is full, broken or
//! read-only. The program says so, with how the table stands, and it does stand so.

use crate::scenario::{sorts, Outcome, Scenario, Stage};
use crate::shim::Call;
use std::io;
use std::path::Path;

const EPERM: i32 = 1;
const EINTR: i32 = 4;
const EIO: i32 = 5;
const EINVAL: i32 = 22;
const ENOSPC: i32 = 28;
const EROFS: i32 = 30;

/// What fails for good: the disk is full, broken or read-only, or it is not allowed.
const ERRORS: [i32; 4] = [ENOSPC, EIO, EROFS, EPERM];
/// The fewest calls of a change, and how often each is made to fail at least.
const CHANGE: usize = 9 * (ERRORS.len() + 1);

/// What is said where the file is as it was, and where it is changed all the same.
const KEPT: [&str; 2] = ["the table stands as it stood before", "nothing was made"];
const MADE: &str = "the change is made";

/// What may fail without harm: another owner than before, a leftover that nobody minds, and a second name, since a file
/// can be renamed instead.
fn is_harmless(call: &Call) -> bool {
    matches!(call.name.as_str(), "fchown" | "unlink" | "link")
}

/// Fails every call of a scenario, and gives how often that was.
fn fails(scenario: Scenario) -> usize {
    let stage = Stage::new("failing", scenario);
    let whole = stage.run(0, "none");
    let mut fails = 0;
    for call in &whole.calls {
        for error in ERRORS {
            one(&stage, &whole, call, error);
        }
        dead(&stage, call);
        fails += ERRORS.len() + 1;
        let mut goes_on = Vec::new();
        if call.name == "write" {
            goes_on.push("short".to_string());
        }
        // The system may interrupt these at any time, and means: once more.
        if matches!(call.name.as_str(), "write" | "fsync" | "open" | "create" | "fchmod") {
            goes_on.push(format!("fail={EINTR}"));
        }
        // Some file systems can't sync a folder, and say so by this.
        if call.name == "fsync" && Path::new(&call.path) == stage.folder() {
            goes_on.push(format!("fail={EINVAL}"));
        }
        for way in &goes_on {
            same(&whole, &stage.run(call.number, way), call);
        }
        fails += goes_on.len();
    }
    println!("failed {fails} times");
    fails
}

/// One call fails, and no other.
fn one(stage: &Stage, whole: &Outcome, call: &Call, error: i32) {
    let outcome = stage.run(call.number, &format!("fail={error}"));
    let failed = &outcome.calls[call.number - 1];
    assert_eq!((&failed.name, failed.result), (&call.name, -i64::from(error)), "the call failed");
    let context = format!("{call:?} with {error}: {:?}, at {}", outcome.ended, outcome.state);
    if is_harmless(call) && outcome.ended.code != Some(3) {
        same(whole, &outcome, call);
    } else {
        // With a leftover that can't be taken off, the new file can't be made.
        let words = if call.name == "unlink" { ".t.rack-new" } else { &system(error) };
        told(&outcome, words, &context);
    }
    // What was there before may stay; what this run has made may not.
    let made = outcome.calls.iter().any(|call| call.name == "create" && call.is_done());
    assert!(outcome.left.is_empty() || call.name == "unlink" || !made, "{:?} is left: {context}", outcome.left);
}

/// A call fails, and all that come after it: the disk is gone. What can still be said is said.
fn dead(stage: &Stage, call: &Call) {
    let outcome = stage.run(call.number, &format!("dead={EIO}"));
    let context = format!("dead from {call:?}: {:?}, at {}", outcome.ended, outcome.state);
    let harm = outcome.calls.iter().any(|failed| failed.result == -i64::from(EIO) && !is_harmless(failed));
    assert_eq!(outcome.ended.code == Some(3), harm, "{context}");
    if harm {
        told(&outcome, "", &context);
    } else {
        assert_eq!(outcome.state, stage.scenario.last(), "{context}");
    }
}

/// It ended with 3, said what failed, and how the table stands: changed if this group has got its name.
fn told(outcome: &Outcome, words: &str, context: &str) {
    let err = &outcome.ended.err;
    assert_eq!(outcome.ended.code, Some(3), "{context}");
    assert!(err.starts_with("rack: ") && err.contains(words) && err.ends_with('\n'), "{context}");
    // The folder's sync and the answer come after the name; all else comes before it.
    let last = outcome.calls.iter().rfind(|call| !call.is_done() && !is_harmless(call));
    let last = last.expect("something failed");
    let is_made = outcome.calls.iter().any(|call| call.number < last.number && has_named(outcome, call, last));
    assert_eq!(err.contains(MADE), is_made, "{context}");
    assert_eq!(KEPT.iter().any(|kept| err.contains(kept)), !is_made, "{context}");
}

/// Whether this call gave the table its name in the group in which the other failed: no lock was taken between them.
fn has_named(outcome: &Outcome, call: &Call, failed: &Call) -> bool {
    let between = &outcome.calls[call.number - 1..failed.number];
    matches!(call.name.as_str(), "rename" | "link")
        && call.is_done()
        && !between.iter().any(|call| call.name == "open" && call.path.ends_with("/t"))
}

/// It went on as if nothing had been.
fn same(whole: &Outcome, outcome: &Outcome, call: &Call) {
    let [expected, found] = [whole, outcome].map(|run| (run.ended.code, &run.ended.out, &run.ended.err, run.state));
    assert_eq!(found, expected, "{call:?}");
}

/// The system's words for an error.
fn system(error: i32) -> String {
    let words = io::Error::from_raw_os_error(error).to_string();
    words.split(" (os").next().unwrap_or_default().to_string()
}

#[test]
fn insert_fails_at_every_call() {
    assert!(fails(sorts::insert()) >= CHANGE);
}

#[test]
fn insert_fails_where_one_was_ended_before() {
    assert!(fails(sorts::insert_over_leftover()) >= CHANGE);
}

#[test]
fn many_inserts_fail_at_every_call() {
    assert!(fails(sorts::insert_lines()) >= CHANGE);
}

#[test]
fn delete_fails_at_every_call() {
    assert!(fails(sorts::delete()) >= CHANGE);
}

#[test]
fn clear_fails_at_every_call() {
    assert!(fails(sorts::clear()) >= CHANGE);
}

#[test]
fn a_script_fails_at_every_call() {
    assert!(fails(sorts::script()) >= 3 * CHANGE);
}

#[test]
fn new_fails_at_every_call() {
    assert!(fails(sorts::new()) >= 8 * (ERRORS.len() + 1));
}
