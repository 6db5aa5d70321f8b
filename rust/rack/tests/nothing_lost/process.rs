//! The program run with its input at hand, and ended if it never ends by itself.

use std::io::{BufRead, BufReader, Read, Write};
use std::os::unix::process::ExitStatusExt;
use std::path::Path;
use std::process::{Child, Command, Stdio};
use std::sync::mpsc::{channel, Sender};
use std::thread::{spawn, JoinHandle};
use std::time::Duration;

/// What runs longer than this hangs.
const LONGEST: Duration = Duration::from_secs(60);

/// How a run ended, and what it said.
#[derive(Debug)]
pub struct Ended {
    pub code: Option<i32>,
    pub signal: Option<i32>,
    pub out: String,
    pub err: String,
}

/// The program.
pub fn rack() -> Command {
    Command::new(env!("CARGO_BIN_EXE_rack"))
}

/// The program with a file and the words behind it.
pub fn asked(file: &Path, words: &str) -> Command {
    let mut command = rack();
    command.arg(file).args(words.split_whitespace());
    command
}

/// Runs a command without input.
pub fn run(command: &mut Command) -> Ended {
    Running::start(command).end()
}

/// Runs a command on these lines.
pub fn run_on(command: &mut Command, lines: &str) -> Ended {
    let mut running = Running::start(command);
    running.say(lines);
    running.end()
}

/// A program at work, whose input and output are at hand.
pub struct Running {
    child: Child,
    out: BufReader<std::process::ChildStdout>,
    err: BufReader<std::process::ChildStderr>,
    heard: String,
    watch: Option<(Sender<()>, JoinHandle<()>)>,
}

impl Drop for Running {
    /// Where a test fails while it runs, it is not left behind. One that has ended is not touched.
    fn drop(&mut self) {
        let _ = self.child.kill();
        let _ = self.child.wait();
    }
}

impl Running {
    /// Starts it.
    pub fn start(command: &mut Command) -> Running {
        command.stdin(Stdio::piped()).stdout(Stdio::piped()).stderr(Stdio::piped());
        let mut child = command.spawn().unwrap();
        let out = BufReader::new(child.stdout.take().unwrap());
        let err = BufReader::new(child.stderr.take().unwrap());
        let watch = Some(watch(child.id()));
        Running { child, out, err, heard: String::new(), watch }
    }

    /// Puts this into its input. A program that has ended reads nothing.
    pub fn say(&mut self, text: &str) {
        let _ = self.child.stdin.as_mut().unwrap().write_all(text.as_bytes());
    }

    /// Waits for so many lines on its output, or for its end.
    pub fn hear(&mut self, lines: usize) {
        for _ in 0..lines {
            if self.out.read_line(&mut self.heard).unwrap() == 0 {
                break;
            }
        }
    }

    /// Waits for a line on its standard error.
    pub fn complaint(&mut self) -> String {
        let mut line = String::new();
        self.err.read_line(&mut line).unwrap();
        line
    }

    /// Ends it now.
    pub fn kill(mut self) -> Ended {
        self.child.kill().unwrap();
        self.end()
    }

    /// Ends its input, and waits for its end.
    pub fn end(mut self) -> Ended {
        drop(self.child.stdin.take());
        let mut err = String::new();
        self.out.read_to_string(&mut self.heard).unwrap();
        self.err.read_to_string(&mut err).unwrap();
        let status = self.child.wait().unwrap();
        let (sender, watcher) = self.watch.take().unwrap();
        drop(sender);
        watcher.join().unwrap();
        Ended { code: status.code(), signal: status.signal(), out: std::mem::take(&mut self.heard), err }
    }
}

/// Ends a process that hangs; it is told of the process's own end by the sender's.
fn watch(process: u32) -> (Sender<()>, JoinHandle<()>) {
    let (sender, ended) = channel();
    let watcher = spawn(move || {
        if ended.recv_timeout(LONGEST) == Err(std::sync::mpsc::RecvTimeoutError::Timeout) {
            let _ = Command::new("kill").args(["-9", &process.to_string()]).status();
        }
    });
    (sender, watcher)
}
