//! What the program is ended in the middle of: a table, what is asked of it, and the tables that may stand in the file
//! at any moment. Every run is judged by the same rules, however it ended.

use crate::folder::{names, reading, table, Folder, LISTING};
use crate::journal;
use crate::process::{rack, run, run_on, Ended, Running};
use crate::shim::{Call, Shim};
use plotvuga::Table;
use std::fs;
use std::path::{Path, PathBuf};
use std::process::Command;

/// The records of the tables.
pub const RECORDS: usize = 16;

/// What the file holds; none where there is no file.
type State = Option<Table>;

/// Lines that arrive together, so that they are carried out and answered together.
struct Group {
    lines: &'static str,
    answers: usize,
    after: State,
}

/// A start, and all that is asked.
pub struct Scenario {
    name: &'static str,
    words: &'static str,
    start: State,
    /// Whether an earlier run was ended and has left its file.
    leftover: bool,
    groups: Vec<Group>,
}

impl Scenario {
    /// The listing's table, and one change that the command line asks for.
    pub fn one(name: &'static str, words: &'static str, change: impl Fn(&mut Table)) -> Scenario {
        Scenario::of(name, words).group("", 1, change)
    }

    /// The listing's table, and words that lines are to follow.
    pub fn of(name: &'static str, words: &'static str) -> Scenario {
        Scenario { name, words, start: Some(table(RECORDS, &LISTING)), leftover: false, groups: Vec::new() }
    }

    /// No file, and a new one to be made.
    pub fn made(name: &'static str) -> Scenario {
        let after = Some(Table::new(RECORDS).unwrap());
        Scenario { name, words: "", start: None, leftover: false, groups: vec![Group { lines: "", answers: 1, after }] }
    }

    /// With what an ended run has left.
    pub fn with_leftover(self) -> Scenario {
        Scenario { leftover: true, ..self }
    }

    /// Then these lines, which have so many answers and change the table so.
    pub fn group(mut self, lines: &'static str, answers: usize, change: impl Fn(&mut Table)) -> Scenario {
        let mut after = self.state(self.groups.len()).clone();
        change(after.as_mut().unwrap());
        self.groups.push(Group { lines, answers, after });
        self
    }

    /// The table after so many groups.
    fn state(&self, groups: usize) -> &State {
        groups.checked_sub(1).map_or(&self.start, |last| &self.groups[last].after)
    }

    /// The number of groups.
    pub fn last(&self) -> usize {
        self.groups.len()
    }

    /// Whether it makes a file.
    pub fn is_new(&self) -> bool {
        self.start.is_none()
    }

    /// How many groups a run has answered in part at least.
    fn answered(&self, out: &str) -> usize {
        let mut lines = out.split_inclusive('\n').filter(|line| !line.starts_with("{\"failed\"")).count();
        let begun = self.groups.iter().take_while(|group| {
            let begun = lines > 0;
            lines = lines.saturating_sub(group.answers);
            begun
        });
        begun.count()
    }
}

/// A scenario with a folder to run it in.
pub struct Stage {
    pub scenario: Scenario,
    shim: Shim,
    file: PathBuf,
    _folder: Folder,
}

/// A run that has ended, and what it left.
pub struct Outcome {
    pub ended: Ended,
    pub calls: Vec<Call>,
    /// After how many groups the file is.
    pub state: usize,
    /// The files beside the table.
    pub left: Vec<String>,
}

impl Stage {
    /// A folder for one scenario.
    pub fn new(test: &str, scenario: Scenario) -> Stage {
        let folder = Folder::new(&format!("{test}-{}", scenario.name));
        let shim = Shim::build(&folder);
        Stage { scenario, file: shim.folder.join("t"), shim, _folder: folder }
    }

    /// Runs it from its start, with this done at the call of that number, and judges what is left.
    pub fn run(&self, at: usize, what: &str) -> Outcome {
        self.set();
        let mut command = self.watched(at, what);
        command.arg("--json");
        match self.scenario.is_new() {
            true => command.arg("new").arg(&self.file).args(["--records", &RECORDS.to_string()]),
            false => command.arg(&self.file).args(self.scenario.words.split_whitespace()),
        };
        let mut running = Running::start(&mut command);
        for group in &self.scenario.groups {
            running.say(group.lines);
            running.hear(group.answers);
        }
        let ended = running.end();
        self.judged(ended, &format!("{what} at {at}"))
    }

    /// The program, with this done at its call of that number.
    fn watched(&self, at: usize, what: &str) -> Command {
        let mut command = rack();
        self.shim.over(&mut command, at, what);
        command
    }

    /// Puts the start into the folder, and nothing else.
    fn set(&self) {
        for name in names(&self.shim.folder) {
            fs::remove_file(self.shim.folder.join(name)).unwrap();
        }
        if let Some(start) = &self.scenario.start {
            fs::write(&self.file, start.bytes()).unwrap();
        }
        if self.scenario.leftover {
            fs::write(self.shim.folder.join(".t.rack-new"), "half of another table").unwrap();
        }
    }

    /// The folder in which it is run.
    pub fn folder(&self) -> &Path {
        &self.shim.folder
    }

    /// What holds after every run: the file is one of the tables, at least that of the last answer and just that of the
    /// last name given; at most one file stands beside it; all was synced in order; and the next one can go on.
    fn judged(&self, ended: Ended, way: &str) -> Outcome {
        let calls = self.shim.calls();
        let context = format!("{}, {way}: {ended:?} {calls:#?}", self.scenario.name);
        let found = fs::read(&self.file).ok();
        let is_found = |state: &usize| self.scenario.state(*state).as_ref().map(Table::bytes) == found.as_deref();
        let state = (0..=self.scenario.last()).find(is_found);
        let state = state.unwrap_or_else(|| panic!("the file is neither the old table nor the new one: {context}"));
        assert!(self.scenario.answered(&ended.out) <= state, "answered, and not in the file: {context}");
        let named = calls.iter().filter(|call| call.names(&self.file) && call.is_done()).count();
        assert_eq!(named, state, "the file was changed by something else than a name: {context}");
        let mut left = names(&self.shim.folder);
        left.retain(|name| name != "t");
        assert!(left.len() <= 1 && left.iter().all(|name| name.starts_with(".t.rack-")), "{left:?}: {context}");
        journal::in_order(&calls, &self.file).unwrap_or_else(|fault| panic!("{fault}: {context}"));
        self.goes_on(state, &context);
        Outcome { ended, calls, state, left }
    }

    /// Another run works at once on what is left.
    fn goes_on(&self, state: usize, context: &str) {
        let Some(mut expected) = self.scenario.state(state).clone() else {
            let made = run(self.watched(0, "none").arg("new").arg(&self.file));
            assert_eq!(made.code, Some(0), "{made:?} after {context}");
            return assert_eq!(fs::read(&self.file).unwrap(), Table::new(1024).unwrap().bytes());
        };
        let mut next = self.watched(0, "none");
        let next = run_on(next.arg(&self.file).args(["--wait", "0"]), "insert 4000 readings 9\ncheck\n");
        assert_eq!((next.code, next.err.as_str()), (Some(0), ""), "{next:?} after {context}");
        expected.insert(4000, &reading(9), 4).unwrap();
        assert_eq!(fs::read(&self.file).unwrap(), expected.bytes(), "after {context}");
        if !self.scenario.is_new() {
            assert_eq!(names(&self.shim.folder), ["t"], "the next change takes the leftover off: {context}");
        }
    }
}

/// One of each sort, for every way of ending.
pub mod sorts {
    use super::{reading, Scenario};

    pub fn insert() -> Scenario {
        Scenario::one("insert", "insert 20 readings 33", |table| {
            table.insert(20, &reading(33), 4).unwrap();
        })
    }

    pub fn insert_over_leftover() -> Scenario {
        Scenario { name: "leftover", ..insert() }.with_leftover()
    }

    pub fn insert_lines() -> Scenario {
        let lines = "21 readings 5\n22 readings 81\n23 arity 2 readings 49\n";
        Scenario::of("lines", "insert").group(lines, 3, |table| {
            table.insert(21, &reading(5), 4).unwrap();
            table.insert(22, &reading(81), 4).unwrap();
            table.insert(23, &reading(49), 2).unwrap();
        })
    }

    pub fn delete() -> Scenario {
        Scenario::one("delete", "delete 11", |table| {
            table.delete(11, 4).unwrap();
        })
    }

    pub fn clear() -> Scenario {
        Scenario::one("clear", "clear all", |table| table.clear().unwrap())
    }

    pub fn new() -> Scenario {
        Scenario::made("new")
    }

    /// Several groups: refused, looked for and changed, and in the end all of it cleared.
    pub fn script() -> Scenario {
        Scenario::of("script", "")
            .group("insert 31 readings 7\nsearch radius 5 readings 48\n", 2, |table| {
                table.insert(31, &reading(7), 4).unwrap();
            })
            .group("delete 99\ndelete 12\ncheck\n", 3, |table| {
                table.delete(12, 4).unwrap();
            })
            .group("clear all\ninsert 32 readings 8\n", 2, |table| {
                table.clear().unwrap();
                table.insert(32, &reading(8), 4).unwrap();
            })
    }
}
