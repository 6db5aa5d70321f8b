//! Lines and their records; bad lines and their explanations; the program as it is piped.

use front::{command, Command, Operation};
use model::calls::Model;
use model::program;
use std::io::Write;
use std::process::{Command as Process, Output, Stdio};

/// Runs `cards` on this input.
fn cards(input: &[u8]) -> Output {
    told(&[], input)
}

/// Runs `cards` with these arguments on this input.
fn told(arguments: &[&str], input: &[u8]) -> Output {
    let mut process = Process::new(env!("CARGO_BIN_EXE_cards"))
        .args(arguments)
        .stdin(Stdio::piped())
        .stdout(Stdio::piped())
        .stderr(Stdio::piped())
        .spawn()
        .unwrap();
    // A program that stopped at a bad line reads no further.
    let _ = process.stdin.take().unwrap().write_all(input);
    process.wait_with_output().unwrap()
}

fn explained(line: &str) -> String {
    command(line).expect_err(line).to_string()
}

#[test]
fn the_listing_gives_the_papers_lines() {
    let output = cards(include_bytes!("../../../examples/listing.txt"));
    assert!(output.status.success() && output.stderr.is_empty());
    let lines = include_str!("../../../examples/listing.expected");
    assert_eq!(program::run(&mut Model, &output.stdout), lines);
}

#[test]
fn every_operation_has_its_record() {
    let mut signature = [0; 32];
    signature[..4].copy_from_slice(&[50, 0, 255, 255]);
    let insert = command("insert 4294967295 kind 1 arity 2 readings 50 65535").unwrap().unwrap();
    assert_eq!(insert.bytes()[..], program::command(1, 1, 2, u32::MAX, 0, &signature));
    // The words before the signature stand in any order.
    assert_eq!(command("insert 4294967295 arity 2 kind 1 readings 50 65535").unwrap().unwrap(), insert);
    let delete = command("\tdelete 12  arity 8 # gone").unwrap().unwrap();
    assert_eq!(delete.bytes()[..], program::command(2, 0, 8, 12, 0, &[0; 32]));
    signature = [0; 32];
    signature[..2].copy_from_slice(&[0x0f, 0x80]);
    let search = command("search radius 3 kind 2 mask 0f80\r\n").unwrap().unwrap();
    assert_eq!(search.bytes()[..], program::command(3, 2, 0, 0, 3, &signature));
    assert_eq!(command("search radius 3 kind 2 mask 0F 80").unwrap().unwrap(), search);
    let check = Command { operation: Operation::Check, kind: 0, arity: 0, card: 0, radius: 0, signature: [0; 32] };
    assert_eq!(command("check").unwrap(), Some(check));
}

#[test]
fn all_sixteen_readings_and_all_32_bytes() {
    let numbers: Vec<String> = (0..16).map(|place| (4096 * place + place).to_string()).collect();
    let readings = command(&format!("search kind 1 radius 0 readings {}", numbers.join(" "))).unwrap().unwrap();
    for place in 0..16 {
        let reading = u16::from_le_bytes([readings.signature[2 * place], readings.signature[2 * place + 1]]);
        assert_eq!(usize::from(reading), 4096 * place + place);
    }
    let mask = command(&format!("search kind 2 radius 0 mask {}", "a5".repeat(32))).unwrap().unwrap();
    assert_eq!(mask.signature, [0xa5; 32]);
}

#[test]
fn blank_lines_and_comments_are_no_commands() {
    for line in ["", "  \t ", "# insert 1", "   # check", "\r\n"] {
        assert_eq!(command(line), Ok(None));
    }
}

#[test]
fn what_the_program_refuses_is_let_through() {
    for line in ["insert 0 kind 1 arity 2 readings 1", "insert 1 kind 3 arity 9 mask 00", "delete 0 arity 255"] {
        assert!(command(line).unwrap().is_some());
    }
}

#[test]
fn bad_lines_are_explained() {
    for (line, part) in [
        ("clear", "\"clear\" is no operation"),
        ("insert", "the card needs a number"),
        ("insert kind 1 arity 2 readings 50", "the card is a number from 0 to 4294967295, and here is \"kind\""),
        ("insert 11 arity 2 readings 50", "insert needs kind"),
        ("insert 11 kind 1 readings 50", "insert needs arity"),
        ("insert 11 kind 1 arity 2", "insert needs readings or a mask"),
        ("insert 11 kind 1 kind 1 arity 2 readings 50", "kind is given twice"),
        ("insert 11 kind 1 arity 256 readings 50", "arity is a number from 0 to 255, and here is \"256\""),
        ("insert 4294967296 kind 1 arity 2 readings 50", "here is \"4294967296\""),
        ("insert -1 kind 1 arity 2 readings 50", "here is \"-1\""),
        ("insert +1 kind 1 arity 2 readings 50", "here is \"+1\""),
        ("insert 11 kind 1 arity 2 readings", "readings needs a number"),
        ("insert 11 kind 1 arity 2 readings 65536", "reading 0 is a number from 0 to 65535"),
        ("insert 11 kind 1 arity 2 readings 1 x", "reading 1 is a number"),
        ("insert 11 kind 1 arity 2 readings 0 0 0 0 0 0 0 0 0 0 0 0 0 0 0 0 0", "a seventeenth is here"),
        (
            "insert 11 kind 1 arity 2 radius 3 readings 50",
            "insert takes kind, arity, readings, mask, and here is \"radius\"",
        ),
        ("insert 11 kind 1 arity 2 mask 00", "a mask belongs to kind 2"),
        ("search kind 2 radius 3 readings 1", "readings belong to kind 1"),
        ("search kind 2 radius 3 mask", "here are 0 digits"),
        ("search kind 2 radius 3 mask 0", "here are 1 digits"),
        ("search kind 2 radius 3 mask 0g", "hexadecimal digits, and here is 'g'"),
        ("search kind 1 readings 48", "search needs radius"),
        ("search 48 kind 1 radius 5 readings 48", "here is \"48\""),
        ("delete 12", "delete needs arity"),
        ("delete 12 arity", "arity needs a number"),
        ("delete 12 kind 1 arity 2", "delete takes arity, and here is \"kind\""),
        ("check 1", "check stands alone"),
        ("Check", "no operation"),
    ] {
        assert!(explained(line).contains(part), "{line}: {}", explained(line));
    }
    let long = format!("search kind 2 radius 3 mask {}", "00".repeat(33));
    assert!(explained(&long).contains("here are 66 digits"));
}

#[test]
fn a_bad_line_ends_it_with_its_number_and_nothing_of_it_written() {
    let output = cards(b"# two commands\ncheck\n\ndelete 12 arity 2\ninsert 11 kind 1 arity x readings 5\ncheck\n");
    assert_eq!(output.status.code(), Some(1));
    assert_eq!(output.stdout.len(), 2 * front::RECORD);
    let words = String::from_utf8(output.stderr).unwrap();
    assert!(words.starts_with("cards: line 5: arity is a number"), "{words}");
    let output = cards(b"check\n\xff\xfe\n");
    assert_eq!((output.status.code(), output.stdout.len()), (Some(1), front::RECORD));
    assert_eq!(String::from_utf8(output.stderr).unwrap(), "cards: line 2: not text\n");
}

#[test]
fn a_long_word_is_shown_by_its_start() {
    for before in ["", "insert ", "check ", "delete 12 ", "delete 12 arity ", "search kind 1 radius 5 readings "] {
        let word = "9".repeat(41);
        assert!(explained(&format!("{before}{word}")).contains(&format!("\"{}\"..", "9".repeat(40))), "{before}");
        // Forty are shown whole.
        assert!(explained(&format!("{before}{}", &word[..40])).contains(&format!("\"{}\"", &word[..40])), "{before}");
        assert!(!explained(&format!("{before}{}", &word[..40])).contains(".."), "{before}");
    }
    let seventeenth = format!("search kind 1 radius 5 readings {} {}", "0 ".repeat(16), "x".repeat(41));
    assert!(explained(&seventeenth).ends_with("x\".."));
    // Cut between characters, not in the middle of one.
    assert!(explained(&"ä".repeat(41)).starts_with(&format!("\"{}\"..", "ä".repeat(40))));
    let output = cards(&vec![b'x'; 5_000_000]);
    assert_eq!(output.status.code(), Some(1));
    assert!(output.stderr.len() < 200, "{} bytes", output.stderr.len());
}

#[test]
fn help_goes_to_standard_output() {
    for option in ["--help", "-h"] {
        let output = told(&[option], b"");
        let words = String::from_utf8(output.stdout).unwrap();
        assert_eq!((output.status.code(), output.stderr.len()), (Some(0), 0));
        assert!(words.starts_with("usage: cards") && words.ends_with("comment\n"), "{words}");
    }
}

#[test]
fn other_arguments_are_refused_with_status_2() {
    let long = "-".repeat(5000);
    for argument in ["--colour", "-x", "lines.txt", "", &long] {
        let output = told(&[argument], b"check\n");
        let words = String::from_utf8(output.stderr).unwrap();
        assert_eq!((output.status.code(), output.stdout.len()), (Some(2), 0));
        assert!(words.starts_with(&format!("cards: it takes no {}", front::shown(argument))), "{words}");
        assert!(words.contains("usage: cards") && words.len() < 600, "{words}");
    }
}

#[test]
fn a_byte_order_mark_is_skipped_before_the_first_line_alone() {
    let output = cards("\u{feff}check\ncheck\n".as_bytes());
    assert_eq!((output.status.code(), output.stdout.len()), (Some(0), 2 * front::RECORD));
    assert_eq!(cards("\u{feff}".as_bytes()).status.code(), Some(0));
    let output = cards("check\n\u{feff}check\n".as_bytes());
    assert_eq!((output.status.code(), output.stdout.len()), (Some(1), front::RECORD));
    assert!(String::from_utf8(output.stderr).unwrap().starts_with("cards: line 2: \"\\u{feff}check\" is no operation"));
}

#[test]
fn a_last_line_without_an_end_counts() {
    assert_eq!(cards(b"check\ncheck").stdout.len(), 2 * front::RECORD);
    assert_eq!(cards(b"").stdout.len(), 0);
}
