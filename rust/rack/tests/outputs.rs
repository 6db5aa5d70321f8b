//! What becomes of answers when nobody can take them, and what a long run tells meanwhile: a change that is made stays
//! made, the status tells, and the program never falls over its own words.

mod bench;

use bench::{full, Folder, Told};
use std::io::{BufRead, BufReader, Write};
use std::process::Stdio;
use std::thread::sleep;
use std::time::Duration;

#[test]
fn a_change_whose_answer_is_lost_is_made_and_said_to_be() {
    let lost = "rack: the answer could not be written to standard output: No space left on device";
    for json in ["", " --json"] {
        let folder = Folder::with_table("lost", 8);
        let run = |words: &str, input: &[u8]| {
            let mut rack = folder.with_input(&format!("{words}{json}"), input);
            Told::of(rack.stdout(full()).output().expect("it runs"))
        };
        run("t insert 1 readings 5", b"").is(3, "", &format!("{lost}; the change is made\n"));
        folder.rack("t cards").is(0, "1 readings 5\n", "");
        for words in ["t count", "t cards", "t search radius 1 readings 1", "--help", "new u"] {
            let told = run(words, b"");
            assert!(told.status == 3 && told.err.starts_with(lost), "{words}: {told:?}");
        }
        let told = run("t insert", b"2 readings 6\n3 readings 7\n");
        told.is(3, "", &format!("{lost}; the change is made: the lines up to 2 are done, and none after\n"));
        folder.rack("t count").is(0, "3 cards stored with readings; room for 5 more\n", "");
        run("t clear all", b"").is(3, "", &format!("{lost}; the change is made\n"));
        folder.rack("t count").is(0, "0 cards stored; room for 8 more\n", "");
    }
}

#[test]
fn refusals_are_told_though_an_answer_before_them_is_lost() {
    let folder = Folder::with_table("behind", 8);
    let mut rack = folder.with_input("t insert", b"1 readings 5\n1 readings 6\nx\n");
    let told = Told::of(rack.stdout(full()).output().expect("it runs"));
    let lines: Vec<&str> = told.err.lines().collect();
    assert!(lines[0].starts_with("rack: line 2: 5 TWICE") && lines[1].starts_with("rack: line 3: "), "{told:?}");
    assert!(lines[2].contains("could not be written") && told.status == 3, "{told:?}");
}

#[test]
fn a_reader_that_has_gone_is_a_failure_and_not_the_end_of_the_change() {
    let folder = Folder::with_table("gone", 8);
    let (reader, writer) = std::io::pipe().expect("a pipe");
    drop(reader);
    let told = Told::of(folder.command(&["t", "insert", "1", "readings", "5"]).stdout(writer).output().unwrap());
    let lost = "rack: the answer could not be written to standard output: Broken pipe; the change is made\n";
    told.is(3, "", lost);
    folder.rack("t cards").is(0, "1 readings 5\n", "");
}

#[test]
fn closed_ends_do_no_harm() {
    // The system gives the number of a closed end to the next file: the table must not be taken for standard output.
    let folder = Folder::with_table("closed", 8);
    for (card, closed) in (1..).zip([">&-", "2>&-", ">&- 2>&-", "<&- >&- 2>&-", "<&-"]) {
        let told = folder.shell(&format!("rack t insert {card} readings 5 {closed}"));
        assert_eq!((told.status, told.err.as_str()), (0, ""), "{closed}");
        assert_eq!(plotvuga::stored(&folder.table()), Ok(card), "{closed}");
        assert_eq!(folder.shell(&format!("rack t insert {card} readings 5 {closed}")).status, 1, "{closed}");
        assert_eq!(folder.shell(&format!("rack t frob {closed}")).status, 2, "{closed}");
        assert_eq!(folder.shell(&format!("rack no count {closed}")).status, 3, "{closed}");
    }
    assert_eq!(plotvuga::check(&folder.table()), Ok(()));
}

#[test]
fn the_status_tells_where_standard_error_is_full() {
    let folder = Folder::with_listing("err");
    for (words, status) in [
        ("t insert 11 readings 1", 1),
        ("t frob", 2),
        ("", 2),
        ("new", 2),
        ("no count", 3),
        ("new t", 3),
        ("t count", 0),
        ("t insert", 0),
    ] {
        let arguments: Vec<&str> = words.split_whitespace().collect();
        let ended = folder.command(&arguments).stdout(Stdio::null()).stderr(full()).status().expect("it runs");
        assert_eq!(ended.code(), Some(status), "{words}");
        let ended = folder.command(&arguments).stdout(full()).stderr(full()).status().expect("it runs");
        let either = if words == "t count" { 3 } else { status };
        assert_eq!(ended.code(), Some(either), "{words}, with both full");
    }
}

#[test]
fn progress_is_told_after_a_second_and_not_in_a_short_run() {
    let folder = Folder::with_table("progress", 8);
    let mut rack = folder.piped("t insert");
    let mut input = rack.stdin.take().expect("a pipe");
    let mut answers = BufReader::new(rack.stdout.take().expect("a pipe")).lines();
    input.write_all(b"1 readings 5\n").expect("it reads");
    assert!(answers.next().is_some(), "it is at work");
    sleep(Duration::from_millis(1100));
    input.write_all(b"2 readings 6\n3 readings 7\n").expect("it reads");
    drop(input);
    assert_eq!(answers.count(), 2);
    let told = Told::of(rack.wait_with_output().expect("it ends"));
    assert!(told.status == 0 && told.err.starts_with("rack: 2 lines in ") && told.err.ends_with(" s\n"), "{told:?}");
    let told = folder.fed("t insert", b"4 readings 5\n5 readings 6\n");
    assert_eq!((told.status, told.err.as_str()), (0, ""), "a short run tells none");
}
