//! Bad usage: status 2, a line on standard error that tells what is wrong, and no byte of the table changed.

mod bench;

use bench::json::object;
use bench::Folder;
use std::fs;

/// What is typed behind the file, and what is told of it.
const BAD: [(&str, &str); 48] = [
    ("frob", "\"frob\" is no word of rack's; these are: insert, delete, search, nearest, check"),
    ("Insert 5 readings 1", "\"Insert\" is no word of rack's"),
    ("t", "\"t\" is no word of rack's"),
    ("--bogus", "\"--bogus\" is no word of rack's"),
    ("check --bogus", "check stands alone, and here is \"--bogus\""),
    ("check 1", "check stands alone, and here is \"1\""),
    ("count all", "count stands alone"),
    ("cards 11", "cards stands alone"),
    ("card 11 12", "card takes one card's number and nothing else, and here is \"12\""),
    ("card x", "the card is a number from 0 to 4294967295, and here is \"x\""),
    ("insert x readings 1", "the card is a number from 0 to 4294967295, and here is \"x\""),
    ("insert -5 readings 1", "the card is a number from 0 to 4294967295, and here is \"-5\""),
    ("insert +5 readings 1", "here is \"+5\""),
    ("insert 5.0 readings 1", "here is \"5.0\""),
    ("insert 4294967296 readings 1", "here is \"4294967296\""),
    ("insert 99999999999999999999999999 readings 1", "here is \"99999999999999999999999999\""),
    ("insert 5 50 60", "insert takes one number and then kind, arity, readings, mask, and here is \"50\""),
    ("insert 5 readings", "readings needs a number at least"),
    ("insert 5 mask", "and here are 0 digits"),
    ("insert 5 readings 65536", "reading 0 is a number from 0 to 65535, and here is \"65536\""),
    ("insert 5 readings 1 -1", "reading 1 is a number from 0 to 65535, and here is \"-1\""),
    ("insert 5 readings 1,2", "here is \"1,2\""),
    ("insert 5 readings 1 2 3 4 5 6 7 8 9 10 11 12 13 14 15 16 17", "a seventeenth is here: \"17\""),
    ("insert 5 readings 1 arity 2", "reading 1 is a number from 0 to 65535, and here is \"arity\""),
    ("insert 5 mask 0g", "a mask has hexadecimal digits, and here is 'g'"),
    ("insert 5 mask 0x0f", "here is 'x'"),
    ("insert 5 mask 0f8", "here are 3 digits"),
    (
        "insert 5 mask 000000000000000000000000000000000000000000000000000000000000000000",
        "1 to 32 bytes, and here are 66 digits",
    ),
    ("insert 5 kind 0 readings 1", "kind is 1 (readings) or 2 (a mask), and here is 0"),
    ("insert 5 kind 3 mask 01", "kind is 1 (readings) or 2 (a mask), and here is 3"),
    ("insert 5 kind 2 readings 1", "readings belong to kind 1, and the kind here is 2"),
    ("insert 5 kind 1 mask 01", "a mask belongs to kind 2, and the kind here is 1"),
    ("insert 5 kind readings 1", "kind is a number from 0 to 255, and here is \"readings\""),
    ("insert 5 arity 256 readings 1", "arity is a number from 0 to 255, and here is \"256\""),
    ("insert 5 arity", "arity needs a number, 0 to 255"),
    ("insert 5 arity 2 arity 2 readings 1", "arity is given twice"),
    ("insert 5 kind 1 kind 1 readings 1", "kind is given twice"),
    ("insert 5 radius 2 readings 1", "insert takes one number and then kind, arity, readings, mask"),
    ("delete 11 12", "delete takes one number and then arity, and here is \"12\""),
    ("search readings 1", "search needs radius and its number"),
    ("search radius readings 1", "radius is a number from 0 to 4294967295, and here is \"readings\""),
    ("search radius 4294967296 readings 1", "here is \"4294967296\""),
    ("search radius 1 radius 1 readings 1", "radius is given twice"),
    (
        "search 5 readings 1",
        "search takes kind, radius, readings, mask, and here is \"5\"; a radius is said so: radius 5",
    ),
    ("nearest readings 1", "nearest needs how many are wanted, 1 to 64, right behind it"),
    ("nearest -1 readings 1", "how many are wanted is a number from 0 to 4294967295, and here is \"-1\""),
    ("clear", "clear takes every card off the table; if that is meant, say: clear all"),
    ("clear all all", "all is given twice"),
];

#[test]
fn what_is_wrong_is_told_and_nothing_is_changed() {
    let folder = Folder::with_listing("usage");
    let table = folder.table();
    for (words, told) in BAD {
        folder.rack(&format!("t {words}")).is_bad(told);
    }
    assert_eq!(folder.table(), table);
}

#[test]
fn the_same_is_told_as_an_object_and_of_a_line() {
    let folder = Folder::with_listing("usage-lines");
    let table = folder.table();
    // In twos: after too many bad lines none would be read.
    for pair in BAD.chunks(2) {
        let lines: String = pair.iter().map(|(words, _)| format!("{words}\n")).collect();
        let told = folder.fed("t", lines.as_bytes());
        assert_eq!((told.status, told.out.as_str(), told.err.lines().count()), (2, "", 2), "{told:?}");
        for ((number, line), (words, expected)) in (1..).zip(told.err.lines()).zip(pair) {
            assert!(line.starts_with(&format!("rack: line {number}: ")) && line.contains(expected), "{words}: {line}");
            let json = folder.rack(&format!("t --json {words}"));
            assert_eq!((json.status, json.err.as_str()), (2, ""), "{words}");
            let object = object(&json.out);
            assert_eq!(object.names(), "bad", "{words}");
            assert_eq!(line, format!("rack: line {number}: {}", object.text("bad")), "{words}");
        }
    }
    assert_eq!(folder.table(), table);
}

#[test]
fn a_command_line_without_a_file_is_told_where_help_is() {
    let folder = Folder::with_listing("no-file");
    let files = || fs::read_dir(folder.path(".")).unwrap().count();
    let before = files();
    let ends = "; rack --help tells what can be asked\n";
    for (words, told) in [
        ("", "it needs a file"),
        ("new", "new needs the name of the file to make"),
        ("new a b", "new takes a file and --records, and here is \"b\""),
        ("new a --record 8", "new takes a file and --records, and here is \"--record\""),
        ("new --record 8 a", "it takes no \"--record\""),
        ("new --record", "it takes no \"--record\""),
        ("new a --records", "--records needs a number, 0 to 4294967295"),
        ("new a --records x", "--records is a number from 0 to 4294967295, and here is \"x\""),
        ("new a --records -1", "here is \"-1\""),
        ("new a --records 4294967296", "here is \"4294967296\""),
        ("new a --records 8 --records 8", "--records is given twice"),
        ("new t.rack-new", "a name that ends in .rack-new is that of a table half written"),
        ("--bogus t count", "it takes no \"--bogus\""),
        ("-json t count", "it takes no \"-json\""),
        ("insert t 5 readings 1", "the file comes first: rack FILE insert"),
        ("count", "the file comes first: rack FILE count"),
        ("t count --wait", "--wait needs a number, 0 to 4294967295"),
        ("t count --wait x", "--wait is a number from 0 to 4294967295, and here is \"x\""),
        ("t count --wait 1 --wait 1", "--wait is given twice"),
    ] {
        let run = folder.rack(words);
        run.is_bad(told);
        assert!(run.err.ends_with(ends), "{run:?}");
    }
    let bad = "{\"bad\":\"it needs a file; rack --help tells what can be asked\"}\n";
    folder.rack("--json").is(2, bad, "");
    folder.run(&["", "count"]).is_bad("it needs a file");
    folder.run(&["new", ""]).is_bad("here is \"\"");
    assert_eq!(files(), before, "nothing was made");
}

#[test]
fn a_file_that_has_a_words_name_can_be_asked() {
    let folder = Folder::new("named");
    folder.rack("new insert --records 2").is(0, "an empty table of 2 records\n", "");
    folder.rack("insert count").is(0, "0 cards stored; room for 2 more\n", "");
    folder.rack("new ./new --records 2").is(0, "an empty table of 2 records\n", "");
    folder.rack("./new count").is(0, "0 cards stored; room for 2 more\n", "");
    folder.rack("new ./-x --records 2").is(0, "an empty table of 2 records\n", "");
    folder.rack("./-x count").is(0, "0 cards stored; room for 2 more\n", "");
}

#[test]
fn a_file_is_never_made_over_another_and_a_missing_one_is_told() {
    let folder = Folder::with_listing("again");
    let table = folder.table();
    let told = "rack: t is there already and was not touched; choose another name\n";
    folder.rack("new t").is(3, "", told);
    let failed = "{\"failed\":\"t is there already and was not touched; choose another name\"}\n";
    folder.rack("new t --json").is(3, failed, told);
    assert_eq!(folder.table(), table);
    folder.rack("new no/t").is(3, "", "rack: opening the folder no: No such file or directory; nothing was made\n");
    folder.rack("u count").is(3, "", "rack: there is no u; to make an empty table: rack new u\n");
    for words in ["u", "u insert", "u search radius 5"] {
        folder.rack(words).is(3, "", "rack: there is no u; to make an empty table: rack new u\n");
    }
    let told = folder.run(&["it's new", "count"]);
    told.is(3, "", "rack: there is no it's new; to make an empty table: rack new 'it'\\''s new'\n");
    assert_eq!(folder.shell("rack new 'it'\\''s new'; rack \"it's new\" count").status, 0);
}

#[test]
fn a_request_that_is_begun_and_that_no_line_ends_is_bad_usage() {
    let folder = Folder::with_listing("begun");
    let none = "rack: standard input had no line, so nothing was done\n";
    for input in ["", "\n", "# nobody failed\n\n"] {
        for words in ["", "insert", "insert arity 2", "delete", "card"] {
            folder.fed(&format!("t {words}"), input.as_bytes()).is(0, "", none);
        }
        for (words, needs) in [
            ("insert 5", "insert needs readings or a mask at its end"),
            ("search", "search needs radius and its number"),
            ("search radius 5", "search needs readings or a mask at its end"),
            ("nearest", "nearest needs how many are wanted, 1 to 64, right behind it"),
            ("nearest 2", "nearest needs readings or a mask at its end"),
        ] {
            let err = format!("{none}rack: {needs}\n");
            folder.fed(&format!("t {words}"), input.as_bytes()).is(2, "", &err);
        }
    }
}
