//! The program run as at the bench: in a folder of its own, with what it ended with and what it put on standard output
//! and on standard error.
#![allow(dead_code)] // Each file of tests uses a part of it.

pub mod json;

use std::fs::{self, File, OpenOptions};
use std::path::{Path, PathBuf};
use std::process::{Child, Command, Output, Stdio};

/// A folder of a test's own, gone with everything in it at the test's end.
pub struct Folder(PathBuf);

/// What a run came to.
#[derive(Clone, Debug, PartialEq, Eq)]
pub struct Told {
    pub status: i32,
    pub out: String,
    pub err: String,
}

impl Told {
    /// Of a run that has ended by itself.
    pub fn of(output: Output) -> Told {
        let text = |bytes| String::from_utf8(bytes).expect("what is told is text");
        let status = output.status.code().expect("it ends by itself");
        Told { status, out: text(output.stdout), err: text(output.stderr) }
    }

    /// It told exactly this.
    #[track_caller]
    pub fn is(&self, status: i32, out: &str, err: &str) {
        let expected = Told { status, out: out.to_string(), err: err.to_string() };
        assert_eq!(*self, expected);
    }

    /// It was bad usage, told in a line that has these words, and nothing else was told.
    #[track_caller]
    pub fn is_bad(&self, words: &str) {
        let told = self.status == 2 && self.out.is_empty() && self.err.starts_with("rack: ");
        assert!(told && self.err.contains(words) && self.err.lines().count() == 1, "{words:?} in {self:?}");
    }
}

impl Folder {
    /// An empty one.
    pub fn new(name: &str) -> Folder {
        let path = std::env::temp_dir().join(format!("rack-{name}-{}", std::process::id()));
        let _ = fs::remove_dir_all(&path);
        fs::create_dir(&path).expect("a folder can be made for the test");
        Folder(path)
    }

    /// One with a table `t` of so many records.
    pub fn with_table(name: &str, records: usize) -> Folder {
        let folder = Folder::new(name);
        fs::write(folder.path("t"), vec![0; 64 * records]).expect("the table's file can be made");
        folder
    }

    /// One with a table `t` of eight records that holds the cards of the paper's listing.
    pub fn with_listing(name: &str) -> Folder {
        let folder = Folder::with_table(name, 8);
        let cards = b"11 readings 50\n12 readings 80\n13 readings 20\n14 readings 52\n15 readings 40\n16 readings 78\n";
        assert_eq!(folder.fed("t insert arity 2", cards).status, 0);
        folder
    }

    pub fn path(&self, name: impl AsRef<Path>) -> PathBuf {
        self.0.join(name)
    }

    /// The bytes of the table `t`.
    pub fn table(&self) -> Vec<u8> {
        fs::read(self.path("t")).expect("the table is there")
    }

    /// Changes bytes of the table `t` behind the program's back.
    pub fn forge(&self, at: usize, bytes: &[u8]) {
        let mut table = self.table();
        table[at..at + bytes.len()].copy_from_slice(bytes);
        fs::write(self.path("t"), table).expect("the table can be written");
    }

    /// The program in this folder, not yet run; standard input is empty.
    pub fn command(&self, arguments: &[&str]) -> Command {
        let mut command = Command::new(env!("CARGO_BIN_EXE_rack"));
        command.args(arguments).current_dir(&self.0).stdin(Stdio::null());
        command
    }

    /// The program run on arguments.
    pub fn run(&self, arguments: &[&str]) -> Told {
        Told::of(self.command(arguments).output().expect("it runs"))
    }

    /// The program run on the words of a text.
    pub fn rack(&self, words: &str) -> Told {
        self.run(&words.split_whitespace().collect::<Vec<_>>())
    }

    /// The same with a file of these bytes as standard input.
    pub fn fed(&self, words: &str, input: &[u8]) -> Told {
        Told::of(self.with_input(words, input).output().expect("it runs"))
    }

    /// The program on the words of a text, with a file of these bytes as standard input, not yet run.
    pub fn with_input(&self, words: &str, input: &[u8]) -> Command {
        fs::write(self.path("input"), input).expect("the input can be written");
        let mut command = self.command(&words.split_whitespace().collect::<Vec<_>>());
        command.stdin(File::open(self.path("input")).expect("the input is there"));
        command
    }

    /// The program at work, with a pipe to each of its three ends. It is ended after a while: one that keeps an answer
    /// back is a fault to be told, not to be waited for.
    pub fn piped(&self, words: &str) -> Child {
        let mut command = Command::new("timeout");
        command.args(["20", env!("CARGO_BIN_EXE_rack")]).args(words.split_whitespace()).current_dir(&self.0);
        command.stdin(Stdio::piped()).stdout(Stdio::piped()).stderr(Stdio::piped()).spawn().expect("it runs")
    }

    /// What a shell makes of this text, where `rack` is the program.
    pub fn shell(&self, text: &str) -> Told {
        let folder = Path::new(env!("CARGO_BIN_EXE_rack")).parent().expect("the program stands in a folder");
        let path = std::env::var("PATH").unwrap_or_default();
        let mut shell = Command::new("sh");
        shell.args(["-c", text]).current_dir(&self.0).stdin(Stdio::null());
        Told::of(shell.env("PATH", format!("{}:{path}", folder.display())).output().expect("a shell runs"))
    }
}

/// A place for output that is always full.
pub fn full() -> File {
    OpenOptions::new().write(true).open("/dev/full").expect("the system has such a device")
}

impl Drop for Folder {
    fn drop(&mut self) {
        let _ = fs::remove_dir_all(&self.0);
    }
}
