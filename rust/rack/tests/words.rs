//! Every word of the command line on good input: from arguments and from lines, with readings and with masks, and what
//! a person reads.

mod bench;

use bench::{Folder, Told};
use rack::request::{Request, Search, Verb};
use rack::said::{self, Said};
use std::fs;

/// The eight calls of the library by the words of a person, with readings.
const READINGS: [(&str, &str); 16] = [
    ("insert 11 arity 2 readings 50", "card 11 stored; 0 distances worked out\n"),
    ("insert 12 arity 2 kind 1 readings 80", "card 12 stored; 1 distance worked out\n"),
    ("insert 13 kind 1 arity 2 readings 20 0 0", "card 13 stored; 2 distances worked out\n"),
    ("count", "3 cards stored with readings; room for 5 more\n"),
    (
        "search radius 33 readings 48",
        "3 cards within 33; 3 of 3 stored cards compared\n  card 11, 2 away\n  card 13, 28 away\n  card 12, 32 away\n",
    ),
    ("search readings 48", "rack: search needs radius and its number\n"),
    ("search radius 0 kind 1 readings 49", "no stored card is within 0; 3 of 3 stored cards compared\n"),
    ("nearest 1 readings 48", "the nearest 1 card; 3 of 3 stored cards compared\n  card 11, 2 away\n"),
    (
        "nearest 64 kind 1 readings 65535 1",
        "the nearest 3 cards; 3 of 3 stored cards compared\n  card 12, 65456 away\n  card 11, 65486 away\n  \
         card 13, 65516 away\n",
    ),
    ("check", "sound: every search finds all that is near among 3 stored cards\n"),
    ("cards", "11 readings 50\n12 readings 80\n13 readings 20\n"),
    ("card 12", "12 readings 80\n"),
    ("delete 12 arity 2", "card 12 deleted; 0 distances worked out\n"),
    ("delete 11", "card 11 deleted; 0 distances worked out\n"),
    ("clear all", "cleared: 1 card deleted\n"),
    ("count", "0 cards stored; room for 8 more\n"),
];

/// The same with masks, and what an empty table answers.
const MASKS: [(&str, &str); 12] = [
    ("nearest 3 mask 00", "no card is stored\n"),
    ("search radius 256 mask ff", "no stored card is within 256; 0 of 0 stored cards compared\n"),
    ("check", "sound: every search finds all that is near among 0 stored cards\n"),
    ("cards", ""),
    ("clear all", "cleared: 0 cards deleted\n"),
    ("insert 4294967295 mask 0F80", "card 4294967295 stored; 0 distances worked out\n"),
    ("insert 1 kind 2 mask 00 00 0000 01", "card 1 stored; 1 distance worked out\n"),
    ("cards", "4294967295 mask 0f80\n1 mask 0000000001\n"),
    ("count", "2 cards stored with masks; room for 6 more\n"),
    (
        "search radius 5 mask 0f",
        "2 cards within 5; 2 of 2 stored cards compared\n  card 4294967295, 1 away\n  card 1, 5 away\n",
    ),
    ("nearest 1 kind 2 mask 0000000003", "the nearest 1 card; 2 of 2 stored cards compared\n  card 1, 1 away\n"),
    ("delete 1", "card 1 deleted; 0 distances worked out\n"),
];

/// What a bad request tells stands on standard error, what a good one tells on standard output.
fn is_bad(told: &str) -> bool {
    told.starts_with("rack: ")
}

fn by_arguments(name: &str, script: &[(&str, &str)]) -> Vec<u8> {
    let folder = Folder::with_table(name, 8);
    for (words, told) in script {
        let run = folder.rack(&format!("t {words}"));
        match is_bad(told) {
            true => run.is(2, "", told),
            false => run.is(0, told, ""),
        }
    }
    folder.table()
}

fn by_lines(name: &str, script: &[(&str, &str)]) -> Vec<u8> {
    let folder = Folder::with_table(name, 8);
    let (mut lines, mut out, mut err) = (String::new(), String::new(), String::new());
    for (number, (words, told)) in (1..).zip(script) {
        lines += &format!("{words}\n");
        match words.split(' ').next() {
            _ if is_bad(told) => err += &told.replace("rack: ", &format!("rack: line {number}: ")),
            Some("search" | "nearest") => out += &format!("line {number}: {told}"),
            _ => out += told,
        }
    }
    folder.fed("t", lines.as_bytes()).is(if err.is_empty() { 0 } else { 2 }, &out, &err);
    folder.table()
}

#[test]
fn every_word_is_answered_from_arguments_and_from_lines() {
    for (name, script) in [("readings", &READINGS[..]), ("masks", &MASKS[..])] {
        let arguments = by_arguments(&format!("words-{name}"), script);
        let lines = by_lines(&format!("words-{name}-lines"), script);
        assert_eq!(arguments, lines, "{name}: two ways, one table");
    }
}

#[test]
fn a_new_table_is_its_bytes_and_nothing_else() {
    let folder = Folder::new("new");
    folder.rack("new a --records 512").is(0, "an empty table of 512 records\n", "");
    folder.rack("new --records 1 b").is(0, "an empty table of 1 record\n", "");
    folder.rack("new c").is(0, "an empty table of 1024 records\n", "");
    for (name, records) in [("a", 512), ("b", 1), ("c", 1024)] {
        assert_eq!(fs::read(folder.path(name)).unwrap(), vec![0; 64 * records], "{name}");
    }
    assert_eq!(fs::read_dir(folder.path(".")).unwrap().count(), 3, "nothing is left beside them");
}

#[test]
fn the_arity_is_4_if_none_is_said() {
    let (said, unsaid, other) =
        (Folder::with_table("arity4", 8), Folder::with_table("arity", 8), Folder::with_table("arity5", 8));
    let star = |arity: &str| {
        let card = |(at, card)| format!("insert {card} {arity} readings {}\n", "0 ".repeat(at) + "9");
        format!("insert 99 {arity} readings 0\n") + &(0..).zip(1..=6).map(card).collect::<String>() + "delete 2\n"
    };
    assert_eq!(said.fed("t", star("arity 4").as_bytes()), unsaid.fed("t", star("").as_bytes()));
    assert_eq!(said.table(), unsaid.table());
    assert_eq!(other.fed("t", star("arity 5").as_bytes()).status, 0);
    assert_ne!(said.table(), other.table(), "here the arity is seen");
}

#[test]
fn words_of_the_command_line_hold_for_every_line_that_says_nothing_else() {
    let folder = Folder::with_table("hold", 8);
    let lines = b"1 readings 5\n2 arity 9 readings 6\n3 kind 2 readings 7\n4 kind 1 arity 1 readings 8\n";
    let told = folder.fed("t insert kind 1 arity 0", lines);
    let err = "rack: line 1: 3 ARGUMENT: the arity is 1 to 8, and here is 0\n\
               rack: line 2: 3 ARGUMENT: the arity is 1 to 8, and here is 9\n\
               rack: line 3: readings belong to kind 1, and the kind here is 2\n";
    told.is(2, "card 4 stored; 0 distances worked out\n", err);
    let near = "line 1: 1 card within 3; 1 of 1 stored card compared\n  card 4, 3 away\n";
    let out = format!("{near}line 2: no stored card is within 2; 1 of 1 stored card compared\n");
    folder.fed("t search radius 3", b"readings 5\nradius 2 readings 5\n").is(0, &out, "");
    assert_eq!(folder.fed("t insert readings 8", b"5\n6\n7 readings 9\n").status, 0);
    let out = "line 1: the nearest 2 cards; 4 of 4 stored cards compared\n  card 4, 0 away\n  card 5, 0 away\n";
    // A card before its signature is not taken for how many are wanted.
    let err = "rack: line 2: nearest takes one number and then kind, readings, mask, and here is \"7\"\n";
    folder.fed("t nearest 2", b"readings 8\n7 readings 9\n").is(2, out, err);
    let out = "line 1: the nearest 1 card; 4 of 4 stored cards compared\n  card 7, 0 away\n";
    folder.fed("t nearest", b"1 readings 9\n").is(0, out, "");
    folder.fed("t card", b"7\n5\n").is(0, "7 readings 9\n5 readings 8\n", "");
    let out = "card 7 deleted; 0 distances worked out\ncard 5 deleted; 1 distance worked out\n";
    folder.fed("t delete arity 1", b"7\n5\n").is(0, out, "");
}

#[test]
fn options_stand_anywhere() {
    let folder = Folder::with_listing("options");
    let expected = folder.rack("t --json search radius 5 readings 48");
    assert_eq!(expected.status, 0);
    for words in ["--json t search radius 5 readings 48", "t search --wait 3 radius 5 readings 48 --json"] {
        assert_eq!(folder.rack(words), expected, "{words}");
    }
}

/// What the library's users in C read.
const HEADER: &str = include_str!("../../../include/plotvuga.h");

#[test]
fn help_and_version_are_told_on_standard_output() {
    let folder = Folder::new("help");
    let Told { status, out, err } = folder.rack("--help");
    assert_eq!((status, err.as_str()), (0, ""));
    for verb in Verb::ALL {
        assert!(out.lines().any(|line| line.trim_start().starts_with(verb.name())), "{} is not told", verb.name());
    }
    for words in ["new FILE", "--json", "--wait", "--records", "status:"] {
        assert!(out.contains(words), "{words} is not told");
    }
    assert_eq!((folder.rack("-h").out, folder.rack("t insert --help").out), (out.clone(), out));
    // The library's, since its calls are what can be asked for.
    let part = |name: &str| {
        let (_, rest) = HEADER.split_once(&format!("#define PLOTVUGA_VERSION_{name} ")).expect(name);
        rest.lines().next().unwrap_or_default().to_string()
    };
    let version = [part("MAJOR"), part("MINOR"), part("PATCH")].join(".");
    folder.rack("--version").is(0, &format!("rack {version}\n"), "");
}

#[test]
fn every_call_of_the_library_has_a_word() {
    let calls: Vec<&str> =
        HEADER.split("uint32_t plotvuga_").skip(1).filter_map(|rest| Some(rest.split_once('(')?.0)).collect();
    assert!(calls.len() >= 8, "{calls:?}");
    for call in calls {
        assert!(Verb::named(call).is_some(), "plotvuga_{call} can't be asked for");
    }
}

#[test]
fn a_drawing_is_asked_for_in_any_order() {
    let drawn = |svg: Option<&str>, radius: Option<u32>| {
        let search = radius.map(|radius| Search { radius, signature: plotvuga::Signature::readings([7; 16]) });
        Request::Draw { svg: svg.map(Into::into), search }
    };
    let search = format!("--search radius 3 readings{}", " 7".repeat(16));
    let asked = |text: &str| said::line(text, None, &Said::default()).map_err(|fault| fault.to_string());
    assert_eq!(asked("draw"), Ok(Some(drawn(None, None))));
    assert_eq!(asked("draw --svg o.svg"), Ok(Some(drawn(Some("o.svg"), None))));
    assert_eq!(asked(&format!("draw {search}")), Ok(Some(drawn(None, Some(3)))));
    assert_eq!(asked(&format!("draw --svg - {search}")), Ok(Some(drawn(Some("-"), Some(3)))));
    assert_eq!(asked(&format!("draw {search} --svg o.svg")), Ok(Some(drawn(Some("o.svg"), Some(3)))));
    for (bad, words) in [
        ("draw --svg", "--svg needs the name"),
        ("draw --svg a --svg b", "--svg is given twice"),
        ("draw o.svg", "draw takes --svg, --search, and here is \"o.svg\""),
        ("draw --search", "search needs radius"),
        ("draw --search radius 3", "search needs readings or a mask"),
        ("draw --search readings 3 --svg o", "search needs radius"),
        ("draw --search radius 3 readings 1 --search radius 3 readings 1", "--search is given twice"),
        ("draw --search radius 3 readings 1 --svg", "--svg needs the name"),
    ] {
        let fault = asked(bad).expect_err(bad);
        assert!(fault.contains(words), "{bad}: {fault}");
    }
}
