//! Every word with `--json`: one object a line on standard output, each read strictly and looked at field by field.

mod bench;

use bench::json::{object, objects, read, Json};
use bench::Folder;

#[test]
fn what_is_no_json_is_not_read() {
    for bad in ["", "{", "{}x", "{\"a\":01}", "{\"a\":1,}", "{\"a\":1,\"a\":2}", "[1 ,2]", "\"\n\"", "\"\\x\"", "tru"] {
        assert!(read(bad).is_err(), "{bad:?}");
    }
    let good = read("{\"a\":[1,{}],\"b\":\"\\u0009\\\"\",\"c\":true}").unwrap();
    assert_eq!((good.names().as_str(), good.list("a").len(), good.text("b")), ("a b c", 2, "\t\""));
}

/// The numbers of some fields.
fn numbers<const N: usize>(object: &Json, names: [&str; N]) -> [u64; N] {
    names.map(|name| object.number(name))
}

/// The cards of an answer with their distances.
fn pairs(object: &Json) -> Vec<[u64; 2]> {
    let pair = |pair: &Json| {
        assert_eq!(pair.names(), "card distance");
        numbers(pair, ["card", "distance"])
    };
    object.list("cards").iter().map(pair).collect()
}

#[track_caller]
fn asked(folder: &Folder, words: &str, names: &str) -> Json {
    let told = folder.rack(&format!("{words} --json"));
    assert_eq!((told.status, told.err.as_str()), (0, ""), "{words}");
    let object = object(&told.out);
    assert_eq!((object.names().as_str(), object.number("refusal")), (names, 0), "{words}");
    let word = words.split(' ').find(|word| *word != "t").unwrap_or_default();
    assert_eq!(object.text("call"), word);
    object
}

#[test]
fn every_word_with_readings() {
    let folder = Folder::new("objects");
    let made = asked(&folder, "new t --records 8", "call refusal records");
    assert_eq!(made.number("records"), 8);
    let empty = asked(&folder, "t count", "call refusal stored free");
    assert_eq!(numbers(&empty, ["stored", "free"]), [0, 8]);
    for (card, reading, distances) in [(11, 50, 0), (12, 80, 1), (13, 20, 2)] {
        let words = format!("t insert {card} arity 2 readings {reading}");
        let object = asked(&folder, &words, "call card refusal distances");
        assert_eq!(numbers(&object, ["card", "distances"]), [card, distances]);
    }
    let count = asked(&folder, "t count", "call refusal stored free kind");
    assert_eq!(numbers(&count, ["stored", "free", "kind"]), [3, 5, 1]);
    let found = asked(&folder, "t search radius 30 readings 48", "call refusal radius stored distances cards");
    assert_eq!(numbers(&found, ["radius", "stored", "distances"]), [30, 3, 3]);
    assert_eq!(pairs(&found), [[11, 2], [13, 28]]);
    let near = asked(&folder, "t nearest 2 readings 48", "call refusal k stored distances cards");
    assert_eq!((numbers(&near, ["k", "stored", "distances"]), pairs(&near)), ([2, 3, 3], vec![[11, 2], [13, 28]]));
    assert_eq!(asked(&folder, "t check", "call refusal stored").number("stored"), 3);
    let card = asked(&folder, "t card 12", "call card refusal kind readings");
    assert_eq!(numbers(&card, ["card", "kind"]), [12, 1]);
    assert_eq!((card.list("readings").len(), &card.list("readings")[0]), (16, &Json::Number(80)));
    let cards = asked(&folder, "t cards", "call refusal cards");
    assert_eq!(cards.list("cards").iter().map(|card| card.number("card")).collect::<Vec<_>>(), [11, 12, 13]);
    assert_eq!(cards.list("cards")[1].names(), "card kind readings");
    assert_eq!(cards.list("cards")[1].list("readings"), card.list("readings"));
    let deleted = asked(&folder, "t delete 11", "call card refusal distances");
    assert_eq!(numbers(&deleted, ["card", "distances"]), [11, 1]);
    assert_eq!(asked(&folder, "t clear all", "call refusal deleted").number("deleted"), 2);
}

#[test]
fn masks_are_told_whole() {
    let folder = Folder::with_table("objects-mask", 2);
    asked(&folder, "t insert 1 mask 0F80", "call card refusal distances");
    let mask = format!("0f80{}", "0".repeat(60));
    let card = asked(&folder, "t card 1", "call card refusal kind mask");
    assert_eq!((card.number("kind"), card.text("mask")), (2, mask.as_str()));
    let cards = asked(&folder, "t cards", "call refusal cards");
    assert_eq!(
        (cards.list("cards")[0].names().as_str(), cards.list("cards")[0].text("mask")),
        ("card kind mask", &*mask)
    );
    assert_eq!(asked(&folder, "t count", "call refusal stored free kind").number("kind"), 2);
    let found = asked(&folder, "t search radius 256 mask 00", "call refusal radius stored distances cards");
    assert_eq!(pairs(&found), [[1, 5]]);
}

#[test]
fn a_drawing_is_told_record_by_record() {
    let folder = Folder::with_listing("objects-draw");
    let drawn = asked(&folder, "t draw", "call refusal sound records");
    let records = drawn.list("records");
    assert_eq!((drawn.field("sound"), records.len()), (&Json::Truth(true), 6));
    assert_eq!((records[0].number("card"), records[0].field("parent")), (11, &Json::Null));
    assert!(records[1..].iter().all(|record| record.number("parent") >= 11), "{drawn:?}");
}

#[test]
fn each_line_has_an_object_that_tells_its_number() {
    let folder = Folder::with_table("objects-lines", 8);
    let lines = b"insert 1 readings 5\n# two\ninsert 1 readings 6\nfrob\nsearch radius 1 readings 5\ncount\n";
    let told = folder.fed("--json t", lines);
    assert_eq!((told.status, told.err.as_str()), (2, ""));
    let objects = objects(&told.out);
    let names: Vec<String> = objects.iter().map(Json::names).collect();
    let expected = [
        "line call card refusal distances",
        "line call card refusal name advice",
        "line bad",
        "line call refusal radius stored distances cards",
        "line call refusal stored free kind",
    ];
    assert_eq!(names, expected);
    assert_eq!(objects.iter().map(|object| object.number("line")).collect::<Vec<_>>(), [1, 3, 4, 5, 6]);
    assert_eq!((objects[1].number("refusal"), objects[1].text("name")), (5, "TWICE"));
    assert_eq!(pairs(&objects[3]), [[1, 0]]);
}

#[test]
fn a_name_with_quotes_and_control_characters_is_told_in_one_line() {
    let folder = Folder::new("objects-name");
    let name = "a\"b\\c\n\td";
    assert_eq!(folder.run(&["new", name, "--records", "1"]).status, 0);
    let told = folder.run(&[name, "--json", "delete", "7"]);
    let object = object(&told.out);
    assert_eq!((told.status, object.number("refusal")), (1, 6));
    assert!(object.text("advice").contains(name), "{object:?}");
}
