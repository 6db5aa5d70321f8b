//! A night's cards from standard input: what is bad or refused is told with its line's number and passed over, the rest
//! is done; a line that is answered is on the disk.

mod bench;

use bench::json::objects;
use bench::{full, Folder, Told};
use std::fs;
use std::io::{BufRead, BufReader, Write};
use std::os::unix::fs::MetadataExt;
use std::time::Instant;

/// So many lines of `insert`, with readings that differ.
fn night(cards: u32) -> Vec<u8> {
    let line = |card: u32| {
        let reading = |place: u32| format!(" {}", card.wrapping_mul(40_503 + 2 * place) >> 3 & 0xffff);
        format!("{card} readings{}\n", (0..16).map(reading).collect::<String>())
    };
    (1..=cards).map(line).collect::<String>().into_bytes()
}

/// How many cards the table `t` holds.
fn stored(folder: &Folder) -> usize {
    plotvuga::stored(&folder.table()).expect("a table")
}

#[test]
fn bad_and_refused_lines_are_passed_over_and_the_worst_status_stays() {
    let folder = Folder::with_table("passed", 8);
    let told = folder.fed("t insert", b"1 readings 5\n1 readings 6\n2 readings 7\n");
    let twice = "rack: line 2: 5 TWICE: card 1 is stored already; to store it anew, first: rack t delete 1\n";
    told.is(1, "card 1 stored; 0 distances worked out\ncard 2 stored; 1 distance worked out\n", twice);
    let told = folder.fed("t insert", b"3 readings\n1 readings 1\n4 readings 8\n");
    let err = "rack: line 1: readings needs a number at least\n".to_string() + twice;
    told.is(2, "card 4 stored; 2 distances worked out\n", &err);
    let told = folder.fed("t", b"delete 4\ncheck\nfrob\ncount\n");
    assert_eq!((told.status, told.out.lines().count(), stored(&folder)), (2, 3, 2), "{told:?}");
}

#[test]
fn what_editors_do_to_a_file_does_no_harm() {
    let folder = Folder::with_table("editors", 8);
    let text = "\u{feff}1 readings 5\r\n\r\n  # a comment\r\n\t2\treadings  6 # the second\r\n\n3 readings 7";
    let told = folder.fed("t insert", text.as_bytes());
    let cut = "rack: line 6 has no line end: see that it was not cut short\n";
    assert_eq!((told.status, told.err.as_str(), stored(&folder)), (0, cut, 3), "{told:?}");
    folder.rack("t cards").is(0, "1 readings 5\n2 readings 6\n3 readings 7\n", "");
    let told = folder.fed("t card", "1\n\u{feff}2\n".as_bytes());
    assert_eq!((told.status, told.out.as_str()), (2, "1 readings 5\n"), "only the first line has the mark: {told:?}");
}

#[test]
fn bytes_that_are_no_text_are_told_in_short_and_a_line_of_a_megabyte_is_the_last() {
    let folder = Folder::with_table("long", 8);
    let mut input = b"1 readings 5\n2 \xff\xfe 5\n3 \0 5\n4 readings ".to_vec();
    input.extend([b'7'; 1 << 20]);
    input.extend(b"\n5 readings 5\n");
    let told = folder.fed("t insert", &input);
    assert_eq!((told.status, stored(&folder)), (2, 1), "{told:?}");
    let lines: Vec<&str> = told.err.lines().collect();
    assert_eq!(lines[0], "rack: line 2: not text in UTF-8");
    assert!(lines[1].starts_with("rack: line 3: ") && lines[1].ends_with("here is \"\\0\""), "{told:?}");
    assert_eq!(lines[2..], ["rack: line 4: longer than 4096 bytes, so it and what follows is not read"]);
    let endless = std::fs::File::open("/dev/zero").expect("bytes without end");
    let told = Told::of(folder.command(&["t", "insert"]).stdin(endless).output().expect("it runs"));
    assert_eq!(told.status, 2, "an input without end is not read on");
    let longest = format!("7 readings 7{}\n", " ".repeat(4096 - 12));
    assert_eq!(folder.fed("t insert", longest.as_bytes()).status, 0, "the longest line is a line");
}

#[test]
fn twenty_bad_lines_end_it_and_nineteen_do_not() {
    for (bad, cards) in [(19, 2), (20, 1), (1000, 1)] {
        let folder = Folder::with_table("twenty", 8);
        let input = format!("1 readings 5\n{}2 readings 6\n", "x\n".repeat(bad));
        let told = folder.fed("t insert", input.as_bytes());
        assert_eq!((told.status, stored(&folder)), (2, cards), "{bad}");
        assert_eq!(told.out.lines().count(), cards, "what was done before is answered");
        let last = told.err.lines().last().unwrap_or_default();
        let ends = "rack: line 21: 20 bad lines in a row: is this the right input? No more is read";
        assert_eq!(last == ends, bad >= 20, "{last}");
        assert_eq!(told.err.lines().count(), if bad < 20 { bad } else { 21 });
    }
    let folder = Folder::with_table("scattered", 64);
    let lines: String = (1..=40).map(|card| format!("{card} readings 5\nx\n")).collect();
    let told = folder.fed("t insert", lines.as_bytes());
    assert_eq!((told.status, stored(&folder)), (2, 40), "those that are not in a row end nothing");
}

#[test]
fn a_line_is_answered_before_the_next_and_is_on_the_disk_then() {
    let folder = Folder::with_table("typed", 8);
    for json in [false, true] {
        let mut rack = folder.piped(if json { "t --json" } else { "t" });
        let mut input = rack.stdin.take().expect("a pipe");
        let mut answers = BufReader::new(rack.stdout.take().expect("a pipe")).lines();
        let mut ask = |line: &str| {
            input.write_all(line.as_bytes()).expect("it reads");
            answers.next().expect("an answer").expect("text")
        };
        for card in 1..=3 {
            let answer = ask(&format!("insert {card} readings {card}\n"));
            let expected = match json {
                true => format!("{{\"line\":{card},\"call\":\"insert\",\"card\":{card},\"refusal\":0,"),
                false => format!("card {card} stored; "),
            };
            assert!(answer.starts_with(&expected), "{answer}");
            assert_eq!(stored(&folder), card, "{answer}");
        }
        assert!(ask("clear all\n").contains("clear"));
        assert_eq!(stored(&folder), 0);
        drop(input);
        let told = Told::of(rack.wait_with_output().expect("it ends"));
        assert_eq!((told.status, told.err.as_str()), (0, ""));
    }
}

#[test]
fn half_a_line_holds_nothing_up() {
    let folder = Folder::with_table("half", 8);
    let mut rack = folder.piped("t insert");
    let mut input = rack.stdin.take().expect("a pipe");
    let mut answers = BufReader::new(rack.stdout.take().expect("a pipe")).lines();
    input.write_all(b"1 readings 1\n2 rea").expect("it reads");
    assert!(answers.next().is_some_and(|answer| answer.expect("text").starts_with("card 1 stored")));
    assert_eq!(folder.rack("t insert 3 readings 3 --wait 0").status, 0, "and the file is free for others");
    input.write_all(b"dings 2").expect("it reads");
    drop(input);
    assert!(answers.next().is_some_and(|answer| answer.expect("text").starts_with("card 2 stored")));
    assert_eq!((rack.wait().expect("it ends").code(), stored(&folder)), (Some(0), 3));
}

#[test]
fn a_change_by_another_is_seen_by_the_next_line() {
    let folder = Folder::with_table("another", 8);
    let mut rack = folder.piped("t");
    let mut input = rack.stdin.take().expect("a pipe");
    let mut answers = BufReader::new(rack.stdout.take().expect("a pipe")).lines();
    let mut ask = |line: &str| {
        input.write_all(line.as_bytes()).expect("it reads");
        answers.next().expect("an answer").expect("text")
    };
    assert_eq!(ask("count\n"), "0 cards stored; room for 8 more");
    assert_eq!(folder.rack("t insert 5 readings 1").status, 0);
    assert_eq!(ask("count\n"), "1 card stored with readings; room for 7 more");
    assert_eq!(ask("insert 6 readings 1\n"), "card 6 stored; 1 distance worked out");
    drop(input);
    assert_eq!(rack.wait().expect("it ends").code(), Some(0));
    folder.rack("t cards").is(0, "5 readings 1\n6 readings 1\n", "");
}

#[test]
fn a_whole_night_is_put_into_the_file_at_once() {
    let folder = Folder::with_table("night", 1024);
    fs::hard_link(folder.path("t"), folder.path("old")).expect("a second name");
    let before = fs::metadata(folder.path("t")).unwrap().ino();
    // No answer can be written, so it ends when the first change is in the file: and that is all of them.
    let mut rack = folder.with_input("t insert", &night(1024));
    let told = Told::of(rack.stdout(full()).output().expect("it runs"));
    let lost = "rack: the answer could not be written to standard output: No space left on device; the change is \
                made: the lines up to 1024 are done, and none after\n";
    told.is(3, "", lost);
    assert_eq!(stored(&folder), 1024);
    assert_ne!(fs::metadata(folder.path("t")).unwrap().ino(), before, "another file has the name");
    assert_eq!(fs::read(folder.path("old")).unwrap(), vec![0; 65_536], "the old one was not written to");
}

#[test]
fn a_night_of_1024_cards_is_answered_card_by_card_and_told_how_fast() {
    let folder = Folder::with_table("fast", 1024);
    let mut rack = folder.with_input("t insert --json", &night(1030));
    let from = Instant::now();
    let told = Told::of(rack.output().expect("it runs"));
    println!("1,024 cards inserted from standard input in {:?}", from.elapsed());
    let answers = objects(&told.out);
    assert_eq!((told.status, answers.len(), stored(&folder)), (1, 1030, 1024));
    for (number, answer) in (1..).zip(&answers) {
        let refusal = if number <= 1024 { 0 } else { 7 };
        let known = [answer.number("line"), answer.number("card"), answer.number("refusal")];
        assert_eq!(known, [number, number, refusal]);
    }
    assert_eq!(folder.rack("t check").status, 0);
}

#[test]
fn input_that_cannot_be_read_fails_and_what_came_before_is_kept() {
    let folder = Folder::with_table("input", 8);
    let mut rack = folder.command(&["t", "insert"]);
    rack.stdin(fs::File::open(folder.path(".")).unwrap());
    Told::of(rack.output().unwrap()).is(3, "", "rack: standard input, line 1: Is a directory\n");
    folder.shell("rack t insert <&-").is(0, "", "rack: standard input had no line, so nothing was done\n");
}
