//! Somebody whom a file's rights hold back: the user of the tests, or nobody where that is root, whom none hold back.

use crate::folder::{rights, Folder};
use crate::process::run;
use std::fs;
use std::io::Write;
use std::os::unix::fs::MetadataExt;
use std::os::unix::process::CommandExt;
use std::path::{Path, PathBuf};
use std::process::Command;

/// The user that owns nothing.
pub const NOBODY: u32 = 65534;

/// Who runs the program, and where it is.
pub struct Person {
    program: PathBuf,
    pub is_root: bool,
}

impl Person {
    /// In a folder that everyone may look into. None, and that is said, where nobody can't come so far.
    pub fn in_folder(folder: &Folder) -> Option<Person> {
        let program = folder.at("rack");
        // Copied by another process: a copy that is open for writing here could not be run, nor where it is inherited.
        let copied = Command::new("cp").arg(env!("CARGO_BIN_EXE_rack")).arg(&program).status().unwrap();
        assert!(copied.success());
        rights(&program, 0o755);
        let person = Person { is_root: fs::metadata(&program).unwrap().uid() == 0, program };
        let mut help = person.command(NOBODY);
        if help.arg("--help").output().is_ok_and(|help| help.status.success()) {
            return Some(person);
        }
        left_out("rights: nobody may not run a program in the folder for temporary files");
        None
    }

    /// The program, run by this person, and as a member of that group where it can be chosen.
    pub fn command(&self, group: u32) -> Command {
        let mut command = Command::new(&self.program);
        if self.is_root {
            command.uid(NOBODY).gid(group);
        }
        command
    }

    /// What this person gets for an answer: the status and the words.
    pub fn asks(&self, file: &Path, words: &str) -> (Option<i32>, String) {
        let ended = run(self.command(NOBODY).arg(file).args(words.split_whitespace()));
        (ended.code, ended.out + &ended.err)
    }
}

/// Says that something could not be tried here; a passing test's own words are not shown.
pub fn left_out(what: &str) {
    let _ = writeln!(std::io::stderr(), "left out: {what}");
}
