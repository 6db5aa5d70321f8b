//! Every refusal that the program can meet: its number, its name, what to do about it, status 1, and the file as it
//! was. What the advice tells to type is typed, and helps.

mod bench;

use bench::json::object;
use bench::{Folder, Told};
use std::fs;

/// The request is refused so: from arguments, from a line, and as an object; and no byte of the table changes.
#[track_caller]
fn refused(folder: &Folder, words: &str, number: u64, name: &str, advice: &str) {
    let table = folder.table();
    let told = format!("{number} {name}: {advice}\n");
    folder.rack(&format!("t {words}")).is(1, "", &format!("rack: {told}"));
    folder.fed("t", format!("{words}\n").as_bytes()).is(1, "", &format!("rack: line 1: {told}"));
    let Told { status, out, err } = folder.rack(&format!("t --json {words}"));
    assert_eq!((status, err.as_str()), (1, ""), "{words}");
    let object = object(&out);
    assert_eq!((object.number("refusal"), object.text("name"), object.text("advice")), (number, name, advice));
    assert!(words.starts_with(object.text("call")), "{words}: {object:?}");
    assert_eq!(folder.table(), table, "{words}");
}

/// Every word that is asked of a file; `draw` too.
const EVERY: [&str; 10] = [
    "insert 5 readings 1",
    "delete 5",
    "search radius 1 readings 1",
    "nearest 1 readings 1",
    "check",
    "cards",
    "card 5",
    "count",
    "clear all",
    "draw",
];

#[test]
fn size_1_a_file_of_another_length() {
    let folder = Folder::new("size");
    for length in [0, 63, 65, 65_600] {
        fs::write(folder.path("t"), vec![0; length]).unwrap();
        let advice = format!(
            "t has {length} bytes, and a table has 64 for each of 1 to 1024 records; this is another file, or a part \
             of it is lost; it was not written to"
        );
        for words in EVERY {
            refused(&folder, words, 1, "SIZE", &advice);
        }
    }
    for records in [0, 1025] {
        let advice = format!("a table has 1 to 1024 records, and here is {records}; nothing was made");
        folder.rack(&format!("new u --records {records}")).is(1, "", &format!("rack: 1 SIZE: {advice}\n"));
        let json = folder.rack(&format!("new u --json --records {records}"));
        assert_eq!((json.status, object(&json.out).text("advice")), (1, advice.as_str()));
        assert!(!folder.path("u").exists());
    }
}

#[test]
fn table_2_a_file_that_is_not_well_formed() {
    let advice = "t is damaged or no table: its records are not one tree; bring back a copy that was kept, or make a \
                  new table; it was not written to";
    // A free record that is not all zero; a card twice; a child count of 9; a second root; another kind; a parent that
    // is not there.
    let forged: [(usize, &[u8]); 6] =
        [(7 * 64 + 9, &[1]), (64, &[11]), (14, &[9]), (64 + 12, &[255, 255]), (64 + 15, &[2]), (64 + 12, &[7, 0])];
    for (at, bytes) in forged {
        let folder = Folder::with_listing("table");
        folder.forge(at, bytes);
        for words in EVERY {
            refused(&folder, words, 2, "TABLE", advice);
        }
    }
    let folder = Folder::with_table("table-text", 1);
    folder.forge(0, &[b'x'; 64]);
    let told = folder.fed("t", b"count\ncount\n");
    assert_eq!((told.status, told.err.lines().count()), (1, 1), "nothing further is asked of it: {told:?}");
}

#[test]
fn argument_3() {
    let folder = Folder::with_listing("argument");
    for words in ["insert 0 readings 1", "delete 0", "card 0", "insert 0 mask 01"] {
        refused(&folder, words, 3, "ARGUMENT", "a card's number is 1 or more");
    }
    for arity in [0, 9, 255] {
        let advice = format!("the arity is 1 to 8, and here is {arity}");
        for words in [format!("insert 5 arity {arity} readings 1"), format!("delete 11 arity {arity}")] {
            refused(&folder, &words, 3, "ARGUMENT", &advice);
        }
    }
    for k in ["0", "65", "4294967295"] {
        let advice = format!("1 to 64 can be asked for, and here is {k}");
        refused(&folder, &format!("nearest {k} readings 1"), 3, "ARGUMENT", &advice);
    }
}

#[test]
fn kind_4() {
    let folder = Folder::with_listing("kind");
    let advice = "t holds cards with readings, and here is a mask; keep a file for each kind";
    for words in ["insert 5 mask 01", "insert 11 mask 01", "search radius 5 mask 01", "nearest 5 mask 01"] {
        refused(&folder, words, 4, "KIND", advice);
    }
    let folder = Folder::with_table("kind-mask", 8);
    assert_eq!(folder.rack("t insert 1 mask 00").status, 0);
    let advice = "t holds cards with masks, and here are readings; keep a file for each kind";
    for words in ["insert 5 readings 1", "search radius 5 readings 1", "nearest 5 readings 1"] {
        refused(&folder, words, 4, "KIND", advice);
    }
}

#[test]
fn twice_5_and_absent_6() {
    let folder = Folder::with_listing("twice");
    let advice = "card 11 is stored already; to store it anew, first: rack t delete 11";
    refused(&folder, "insert 11 readings 7", 5, "TWICE", advice);
    assert_eq!(folder.shell("rack t delete 11 && rack t insert 11 readings 7").status, 0);
    for words in ["delete 99", "card 99"] {
        let card = words.split(' ').next_back().unwrap_or_default();
        let advice = format!("card {card} is not stored; rack t cards tells which are");
        refused(&folder, words, 6, "ABSENT", &advice);
    }
}

#[test]
fn full_7_and_5_comes_first() {
    for records in [1, 8, 1024] {
        let folder = Folder::with_table("full", records);
        let cards: String = (1..=records).map(|card| format!("{card} readings {card}\n")).collect();
        assert_eq!(folder.fed("t insert", cards.as_bytes()).status, 0);
        let advice = match records {
            1024 => "all 1024 records are in use, and no table has more; begin a second one".to_string(),
            _ => format!(
                "{records} of {records} records are in use; delete a card, or go over to a longer table: \
                 rack new t.anew --records 1024 && rack t cards | rack t.anew insert"
            ),
        };
        refused(&folder, "insert 2000 readings 1", 7, "FULL", &advice);
        let twice = folder.rack("t insert 1 readings 1");
        assert!(twice.status == 1 && twice.err.starts_with("rack: 5 TWICE"), "{twice:?}");
        assert_eq!(folder.rack("t delete 1").status + folder.rack("t insert 2000 readings 1").status, 0);
    }
}

#[test]
fn clock_8() {
    let folder = Folder::with_listing("clock");
    // The youngest leaf has the last timestamp that there is.
    folder.forge(5 * 64 + 4, &u32::MAX.to_le_bytes());
    let advice = "its timestamps are used up; store the cards anew: rack new t.anew --records 8 && rack t cards | \
                  rack t.anew insert";
    refused(&folder, "insert 17 readings 1", 8, "CLOCK", advice);
    refused(&folder, "delete 13", 8, "CLOCK", advice);
    assert_eq!(folder.rack("t search radius 5 readings 48").status, 0);
}

#[test]
fn loose_10_for_check_search_and_nearest() {
    let folder = Folder::with_listing("loose");
    folder.forge(8, &29u32.to_le_bytes());
    let advice = "some search on t would miss a card, so none is made; store the cards anew: rack new t.anew \
                  --records 8 && rack t cards | rack t.anew insert";
    for words in ["check", "search radius 5 readings 48", "nearest 2 readings 48"] {
        refused(&folder, words, 10, "LOOSE", advice);
    }
    assert_eq!(folder.rack("t cards").status, 0);
}

/// A table that refuses a request until its cards are stored anew.
struct Ill {
    number: u8,
    /// What is forged of the listing's table, and where.
    forged: (usize, u32),
    words: &'static [&'static str],
}

/// What the advice tells to type, typed into a shell, makes a file that does what was refused.
fn helps(name: &str, ill: &Ill) {
    let folder = Folder::with_listing("helps");
    folder.forge(ill.forged.0, &ill.forged.1.to_le_bytes());
    if ill.number == 7 {
        assert_eq!(folder.fed("t insert", b"1 readings 1\n2 readings 2\n").status, 0);
    }
    fs::rename(folder.path("t"), folder.path(name)).unwrap();
    let asked = |file: &str| folder.run(&[&[file], ill.words].concat());
    let told = asked(name);
    assert!(told.status == 1 && told.err.starts_with(&format!("rack: {} ", ill.number)), "{told:?}");
    let at = told.err.find("rack new ").expect("it tells what to type");
    assert_eq!(folder.shell(&told.err[at..]).status, 0, "{told:?}");
    let anew = format!("{name}.anew");
    assert_eq!(folder.run(&[&anew, "cards"]), folder.run(&[name, "cards"]));
    assert_eq!((folder.run(&[&anew, "check"]).status, asked(&anew).status), (0, 0), "{name}");
    let before = fs::read(folder.path(&anew)).unwrap();
    let again = folder.shell(&told.err[at..]);
    assert!(again.status != 0 && again.err.contains("is there already"), "{again:?}");
    assert_eq!(fs::read(folder.path(&anew)).unwrap(), before, "a second time does nothing to it");
}

#[test]
fn what_the_advice_tells_to_type_helps() {
    let ills = [
        Ill { number: 7, forged: (4, 1), words: &["insert", "70", "readings", "1"] },
        Ill { number: 8, forged: (5 * 64 + 4, u32::MAX), words: &["insert", "70", "readings", "1"] },
        Ill { number: 10, forged: (8, 29), words: &["search", "radius", "5", "readings", "48"] },
    ];
    for name in ["t", "two words", "it's \"$HOME\" `ls` \\ ;&|*?!#~<>()", "~", "Stück 7", "new\nline"] {
        for ill in &ills {
            helps(name, ill);
        }
    }
}
