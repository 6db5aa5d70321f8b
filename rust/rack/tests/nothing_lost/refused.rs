//! Files that hold no table: every word is refused by its number, or told what is wrong, and nothing is touched.

use crate::folder::{names, rights, table, Folder, Untouched, LISTING};
use crate::person::Person;
use crate::process::{asked, rack, run, run_on, Ended};
use std::fs::{self, File};
use std::path::{Path, PathBuf};
use std::process::Command;

/// Every word, and a picture, with all that belongs to it.
const WORDS: [&str; 12] = [
    "insert 20 readings 33",
    "delete 12",
    "clear all",
    "search radius 5 readings 48",
    "nearest 3 readings 48",
    "check",
    "cards",
    "card 12",
    "count",
    "draw",
    "draw --search radius 5 readings 48",
    "draw --svg OUT",
];

/// Asks every word of a file, and each is to end with this status and these words. Neither the file nor its folder is
/// touched.
fn every_word(file: &Path, code: i32, words: &str) {
    let folder = file.parent().unwrap();
    let before = (Untouched::of(file), Untouched::of(folder), names(folder));
    let is_told = |ended: &Ended| ended.code == Some(code) && ended.out.is_empty() && ended.err.contains(words);
    for asked_for in WORDS {
        let picture = folder.join("picture.svg");
        let ended = run(&mut asked(file, &asked_for.replace("OUT", picture.to_str().unwrap())));
        assert!(is_told(&ended), "{asked_for} of {file:?}: {ended:?}");
        assert!((Untouched::of(file), Untouched::of(folder), names(folder)) == before, "{asked_for} of {file:?}");
    }
    let ended = run_on(rack().arg(file), "count\nclear all\ninsert 20 readings 33\n");
    assert!(is_told(&ended) && ended.err.lines().count() == 1, "{ended:?}");
    assert!((Untouched::of(file), Untouched::of(folder), names(folder)) == before, "lines for {file:?}");
}

/// A file with these bytes.
fn put(folder: &Path, bytes: &[u8]) -> PathBuf {
    let file = folder.join("t");
    fs::write(&file, bytes).unwrap();
    file
}

#[test]
fn another_length_is_refused_and_not_touched() {
    let folder = Folder::new("lengths");
    let inner = folder.inner("inner", 0o755);
    for length in [0, 1, 63, 65, 100, 65_535, 65_537, 65_600, 1 << 17] {
        let file = put(&inner, &vec![0; length]);
        every_word(&file, 1, &format!("1 SIZE: {} has {length} bytes", file.display()));
    }
}

#[test]
fn a_huge_file_is_refused_at_once() {
    let folder = Folder::new("huge");
    let file = folder.inner("inner", 0o755).join("t");
    // It has this length and takes no room: to read it whole would take minutes.
    File::create(&file).unwrap().set_len(1 << 36).unwrap();
    every_word(&file, 1, "1 SIZE: ");
}

#[test]
fn what_is_not_well_formed_is_refused_and_not_touched() {
    let folder = Folder::new("malformed");
    let inner = folder.inner("inner", 0o755);
    let good = table(16, &LISTING).into_bytes();
    let changed = |place: usize, byte: u8| {
        let mut bytes = good.clone();
        bytes[place] = byte;
        bytes
    };
    // A free record that is not all zero, a kind that is none, a child slot that leads nowhere, a card twice, a text.
    let cards_twice = changed(64, 11);
    let text = b"cards of the night shift, not yet stored; see the list on the bench\n".repeat(16)[..1024].to_vec();
    for bytes in [changed(15 * 64 + 40, 1), changed(15, 3), changed(16, 200), cards_twice, text] {
        every_word(&put(&inner, &bytes), 1, "2 TABLE: ");
    }
    // The test can tell them from a table.
    assert_eq!(run(&mut asked(&put(&inner, &good), "check")).code, Some(0));
}

#[test]
fn what_is_no_file_is_told() {
    let folder = Folder::new("no-file");
    let inner = folder.inner("inner", 0o755);
    fs::create_dir(inner.join("folder")).unwrap();
    every_word(&inner.join("folder"), 3, "is no file, so it can't be a table");
    // Nobody writes into the pipe: reading from it would never end.
    assert!(Command::new("mkfifo").arg(inner.join("pipe")).status().unwrap().success());
    every_word(&inner.join("pipe"), 3, "is no file, so it can't be a table");
    for words in WORDS {
        let ended = run(&mut asked(Path::new("/dev/zero"), &words.replace("OUT", inner.join("o").to_str().unwrap())));
        assert!(ended.code == Some(3) && ended.err.contains("/dev/zero is no file"), "{words}: {ended:?}");
    }
    assert_eq!(names(&inner), ["folder", "pipe"]);
    assert!(!Path::new("/dev/.zero.rack-new").exists());
}

#[test]
fn a_missing_file_is_told_and_not_made() {
    let folder = Folder::new("missing");
    let inner = folder.inner("inner", 0o755);
    std::os::unix::fs::symlink("nowhere", inner.join("link")).unwrap();
    for name in ["t", "link"] {
        for words in WORDS {
            let ended = run(&mut asked(&inner.join(name), &words.replace("OUT", inner.join("o").to_str().unwrap())));
            assert!(
                ended.code == Some(3) && ended.err.contains("to make an empty table: rack new"),
                "{words}: {ended:?}"
            );
            assert_eq!(names(&inner), ["link"], "{words}");
        }
    }
}

#[test]
fn a_file_that_may_not_be_read_is_told() {
    let folder = Folder::new("unreadable");
    let Some(person) = Person::in_folder(&folder) else { return };
    let inner = folder.inner("inner", 0o777);
    let file = put(&inner, table(16, &LISTING).bytes());
    rights(&file, 0o000);
    let before = Untouched::of(&file);
    for words in WORDS {
        let (code, said) = person.asks(&file, &words.replace("OUT", inner.join("o").to_str().unwrap()));
        assert!(code == Some(3) && said.contains("Permission denied"), "{words}: {said}");
        assert_eq!((Untouched::of(&file), names(&inner)), (before.clone(), vec!["t".to_string()]), "{words}");
    }
}

#[test]
fn new_takes_no_name_from_anything() {
    let folder = Folder::new("taken");
    let inner = folder.inner("inner", 0o755);
    let file = put(&inner, table(16, &LISTING).bytes());
    fs::write(inner.join("empty"), "").unwrap();
    fs::create_dir(inner.join("folder")).unwrap();
    std::os::unix::fs::symlink("nowhere", inner.join("link")).unwrap();
    let all = names(&inner);
    for name in &all {
        let before = Untouched::of(&inner.join(name));
        let ended = run(rack().arg("new").arg(inner.join(name)));
        assert!(ended.code == Some(3) && ended.err.contains("is there already and was not touched"), "{ended:?}");
        assert_eq!((Untouched::of(&inner.join(name)), names(&inner)), (before, all.clone()));
    }
    // Nor does a picture.
    let ended = run(&mut asked(&file, &format!("draw --svg {}", file.display())));
    assert!(ended.code == Some(3) && ended.err.contains("was not touched"), "{ended:?}");
    assert_eq!(fs::read(&file).unwrap(), table(16, &LISTING).bytes());
}

#[test]
fn new_goes_on_where_one_of_its_number_was_ended() {
    let folder = Folder::new("number");
    let left = format!(".t.rack-{}-0", std::process::id());
    fs::write(folder.at(&left), "half of a table").unwrap();
    // By the program's own part: the number of a process that is yet to be started is not known.
    rack::store::create(&folder.at("t"), &[0; 64]).unwrap();
    assert_eq!(fs::read(folder.at("t")).unwrap(), [0; 64]);
    assert_eq!(names(&folder.at("")), [left, "t".to_string()]);
}

#[test]
fn what_is_in_the_way_of_a_change_is_named() {
    let folder = Folder::new("in-the-way");
    let inner = folder.inner("inner", 0o755);
    let file = put(&inner, table(16, &LISTING).bytes());
    fs::create_dir(inner.join(".t.rack-new")).unwrap();
    let before = Untouched::of(&file);
    let ended = run(&mut asked(&file, "insert 20 readings 33"));
    assert!(ended.code == Some(3) && ended.err.contains(".t.rack-new is in the way"), "{ended:?}");
    assert_eq!((Untouched::of(&file), names(&inner)), (before, vec![".t.rack-new".to_string(), "t".to_string()]));
}
