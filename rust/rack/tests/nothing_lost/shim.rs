//! The library that ends the program at one of its calls, built for a test, and the log that it keeps: see shim.c.

use crate::folder::Folder;
use std::fs;
use std::path::{Path, PathBuf};
use std::process::Command;

/// The result of a call that was not made, since the program was ended before it.
const KILLED: i64 = -1000;
/// How the log names standard output.
const OUT: &str = "stdout";

/// A folder that is watched, and the library that watches it.
pub struct Shim {
    library: PathBuf,
    log: PathBuf,
    pub folder: PathBuf,
}

/// A call that was counted.
#[derive(Clone, Debug, PartialEq, Eq)]
pub struct Call {
    pub number: usize,
    pub name: String,
    pub path: String,
    /// The new name, where it has two.
    pub to: String,
    pub result: i64,
}

impl Call {
    /// Whether it was made and did well.
    pub fn is_done(&self) -> bool {
        self.result >= 0
    }

    /// Whether the program was ended before it.
    pub fn is_cut(&self) -> bool {
        self.result == KILLED
    }

    /// Whether it writes an answer.
    pub fn is_answer(&self) -> bool {
        self.path == OUT
    }

    /// Whether it gives this file its name.
    pub fn names(&self, file: &Path) -> bool {
        matches!(self.name.as_str(), "rename" | "link") && Path::new(&self.to) == file
    }
}

impl Shim {
    /// Builds it, with an empty folder to watch.
    pub fn build(folder: &Folder) -> Shim {
        let source = Path::new(env!("CARGO_MANIFEST_DIR")).join("tests/nothing_lost/shim.c");
        let library = folder.at("shim.so");
        let mut compiler = Command::new("cc");
        compiler.args(["-std=gnu11", "-shared", "-fPIC", "-Wall", "-Wextra", "-Werror", "-o"]);
        assert!(compiler.arg(&library).arg(source).status().expect("a C compiler").success());
        Shim { library, log: folder.at("log"), folder: folder.inner("watched", 0o755) }
    }

    /// Has a command watched, and this done at its call of that number.
    pub fn over(&self, command: &mut Command, at: usize, what: &str) {
        let _ = fs::remove_file(&self.log);
        command.env("LD_PRELOAD", &self.library).env("RACK_FOLDER", &self.folder).env("RACK_LOG", &self.log);
        command.env("RACK_AT", at.to_string()).env("RACK_DO", what);
    }

    /// The calls of the last command.
    pub fn calls(&self) -> Vec<Call> {
        let log = fs::read_to_string(&self.log).expect("the library was loaded");
        log.lines().map(call).collect()
    }
}

fn call(line: &str) -> Call {
    let fields: Vec<&str> = line.split(' ').collect();
    let [number, name, path, to, result] = fields[..] else { panic!("no line of the log: {line}") };
    let (name, path, to) = (name.to_string(), path.to_string(), to.to_string());
    Call { number: number.parse().unwrap(), name, path, to, result: result.parse().unwrap() }
}
