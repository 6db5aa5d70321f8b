//! Several at once on one file: every change is kept, readers see whole tables, and a writer that has to wait says so
//! or is told. The lock is never held while somebody types or reads, and it goes with whoever had it.

use crate::folder::{names, table, Folder};
use crate::process::{asked, rack, run, run_on, Running};
use crate::shim::Shim;
use plotvuga::Table;
use std::fs::{self, File};
use std::path::{Path, PathBuf};
use std::sync::atomic::{AtomicBool, Ordering};
use std::thread::scope;

const WRITERS: u32 = 8;
const EACH: u32 = 25;
/// Seconds that suffice for all of them on a slow disk.
const LONG: &str = "50";

/// A folder with a table in it.
fn start(test: &str) -> (Folder, PathBuf) {
    let folder = Folder::new(test);
    let file = folder.at("t");
    fs::write(&file, table(256, &[]).bytes()).unwrap();
    (folder, file)
}

/// The cards in a file, sorted.
fn cards(file: &Path) -> Vec<u32> {
    let table = Table::over(fs::read(file).unwrap());
    table.check().unwrap();
    let mut cards: Vec<u32> = table.cards().unwrap().collect();
    cards.sort_unstable();
    cards
}

/// Stores cards one by one, each by a program of its own.
fn one_by_one(file: &Path, cards: impl Iterator<Item = u32>) {
    for card in cards {
        let words = format!("insert {card} readings {}", card * 37 % 1000);
        let ended = run(asked(file, &words).args(["--wait", LONG]));
        // On a slow disk it may have to wait so long that it says so.
        assert!(ended.code == Some(0) && ended.err.lines().all(|line| line.ends_with("waiting for it")), "{ended:?}");
    }
}

/// Stores cards by one program, each when the one before is answered.
fn line_by_line(file: &Path, cards: impl Iterator<Item = u32>) {
    let mut typist = Running::start(rack().arg(file).args(["--wait", LONG]));
    for card in cards {
        typist.say(&format!("insert {card} readings {}\n", card * 37 % 1000));
        typist.hear(1);
    }
    let ended = typist.end();
    assert_eq!((ended.code, ended.out.lines().count()), (Some(0), EACH as usize), "{ended:?}");
}

/// Looks at the table again and again: it is always sound, and no card leaves it.
fn look(file: &Path, done: &AtomicBool) -> usize {
    let (mut looks, mut stored) = (0, 0);
    while !done.load(Ordering::SeqCst) || looks == 0 {
        let ended = run_on(rack().arg(file), "check\ncount\n");
        assert_eq!((ended.code, ended.err.as_str()), (Some(0), ""));
        let count = ended.out.lines().last().and_then(|line| line.split(' ').next()?.parse().ok());
        assert!(ended.out.starts_with("sound: ") && count >= Some(stored), "{stored} before: {}", ended.out);
        (looks, stored) = (looks + 1, count.unwrap());
    }
    looks
}

#[test]
fn eight_writers_lose_no_card_and_readers_see_whole_tables() {
    let (folder, file) = start("eight");
    let done = AtomicBool::new(false);
    scope(|scope| {
        let readers: Vec<_> = (0..2).map(|_| scope.spawn(|| look(&file, &done))).collect();
        let writer = |number: u32| {
            let cards = (0..EACH).map(move |card| 1 + number * EACH + card);
            let file = &file;
            scope.spawn(move || if number < WRITERS / 2 { one_by_one(file, cards) } else { line_by_line(file, cards) })
        };
        let writers: Vec<_> = (0..WRITERS).map(writer).collect();
        let ends: Vec<_> = writers.into_iter().map(|writer| writer.join()).collect();
        // The readers are to stop even where a writer did not do well.
        done.store(true, Ordering::SeqCst);
        assert!(ends.iter().all(Result::is_ok));
        assert!(readers.into_iter().map(|reader| reader.join().unwrap()).sum::<usize>() >= 2);
    });
    assert_eq!(cards(&file), (1..=WRITERS * EACH).collect::<Vec<_>>());
    assert_eq!(names(file.parent().unwrap()), ["t"]);
    drop(folder);
}

#[test]
fn one_of_many_makes_a_new_table() {
    let folder = Folder::new("many-new");
    let file = folder.at("t");
    let make = || run(rack().arg("new").arg(&file)).code;
    let codes: Vec<_> = scope(|scope| {
        let makers: Vec<_> = (0..WRITERS).map(|_| scope.spawn(make)).collect();
        makers.into_iter().map(|maker| maker.join().unwrap()).collect()
    });
    assert_eq!(codes.iter().filter(|code| **code == Some(0)).count(), 1, "{codes:?}");
    assert_eq!(codes.iter().filter(|code| **code == Some(3)).count(), codes.len() - 1, "{codes:?}");
    assert_eq!(fs::read(&file).unwrap(), vec![0; 65_536]);
    assert_eq!(names(file.parent().unwrap()), ["t"]);
}

#[test]
fn a_locked_file_is_told_or_waited_for() {
    let (_folder, file) = start("locked");
    let before = fs::read(&file).unwrap();
    let lock = File::open(&file).unwrap();
    lock.lock().unwrap();
    let told = run(asked(&file, "insert 1 readings 5").args(["--wait", "0"]));
    assert!(told.code == Some(3) && told.out.is_empty(), "{told:?}");
    assert!(told.err.contains("another program has been changing") && told.err.contains("--wait"), "{told:?}");
    assert_eq!(fs::read(&file).unwrap(), before);
    // Readers need no lock.
    assert_eq!(run(&mut asked(&file, "count")).code, Some(0));
    let mut waiting = Running::start(asked(&file, "insert 1 readings 5").args(["--wait", "30"]));
    let said = waiting.complaint();
    assert!(said.starts_with("rack: another program is changing") && said.contains("waiting for it"), "{said}");
    assert_eq!(fs::read(&file).unwrap(), before);
    lock.unlock().unwrap();
    let ended = waiting.end();
    assert_eq!((ended.code, cards(&file)), (Some(0), vec![1]), "{ended:?}");
}

#[test]
fn lines_that_found_the_file_locked_are_told() {
    let (_folder, file) = start("locked-lines");
    let mut typist = Running::start(rack().arg(&file).args(["--wait", "0"]));
    typist.say("insert 1 readings 5\n");
    typist.hear(1);
    let lock = File::open(&file).unwrap();
    lock.lock().unwrap();
    typist.say("count\ninsert 2 readings 5\ninsert 3 readings 5\n");
    let ended = typist.end();
    assert_eq!((ended.code, ended.out.lines().count()), (Some(3), 2), "the first line and the count: {ended:?}");
    assert!(ended.err.contains("nothing is done from line 3 on"), "{ended:?}");
    assert_eq!(cards(&file), [1]);
}

#[test]
fn a_typist_holds_no_lock_in_the_middle_of_a_line() {
    let (_folder, file) = start("typist");
    let mut typist = Running::start(rack().arg(&file));
    typist.say("insert 1 readings 5\ninsert 2 read");
    typist.hear(1);
    let second = run(asked(&file, "insert 3 readings 7").args(["--wait", "0"]));
    assert_eq!(second.code, Some(0), "{second:?}");
    typist.say("ings 6\n");
    let ended = typist.end();
    assert_eq!((ended.code, ended.out.lines().count(), cards(&file)), (Some(0), 2, vec![1, 2, 3]), "{ended:?}");
}

#[test]
fn an_answer_that_nobody_reads_holds_no_lock() {
    let (_folder, file) = start("unread");
    one_by_one(&file, 1..=20);
    // Card 1 is stored already, so nothing is changed; the answers are more than a pipe holds.
    let mut asker = Running::start(rack().arg(&file));
    asker.say(&format!("card 1\ninsert 1 readings 5\n{}", "search radius 999999 readings 5\n".repeat(500)));
    asker.hear(1);
    let second = run(asked(&file, "insert 30 readings 7").args(["--wait", "0"]));
    assert_eq!(second.code, Some(0), "{second:?}");
    let ended = asker.end();
    assert_eq!((ended.code, ended.out.lines().count()), (Some(1), 1 + 500 * (1 + 20)));
}

#[test]
fn a_killed_writer_has_no_lock() {
    let folder = Folder::new("killed");
    let shim = Shim::build(&folder);
    let file = shim.folder.join("t");
    fs::write(&file, table(256, &[]).bytes()).unwrap();
    let mut command = asked(&file, "insert 1 readings 5");
    shim.over(&mut command, 0, "none");
    assert_eq!(run(&mut command).code, Some(0));
    let rename = shim.calls().into_iter().find(|call| call.names(&file)).unwrap();

    let mut command = asked(&file, "insert 2 readings 6");
    shim.over(&mut command, rename.number, "hold");
    let mut holder = Running::start(&mut command);
    assert_eq!(holder.complaint(), "held\n");
    let other = || run(asked(&file, "insert 3 readings 7").args(["--wait", "0"]));
    let told = other();
    assert!(told.code == Some(3) && told.err.contains("another program has been changing"), "{told:?}");
    assert_eq!(names(&shim.folder), [".t.rack-new", "t"], "what the holder has begun is not taken off");
    holder.kill();
    let ended = other();
    assert_eq!((ended.code, cards(&file)), (Some(0), vec![1, 3]), "{ended:?}");
    assert_eq!(names(&shim.folder), ["t"]);
}
