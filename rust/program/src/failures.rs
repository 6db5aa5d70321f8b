//! The program where its input or its output fails: it has to end, and to tell in one sentence on standard error which
//! of the two it was and where it stood. Its exit status is 0 all the same: the sentence is all. Where nobody reads
//! what it writes, Rattle's own start has the system's signal ignored, so that the sentence comes there too.

use crate::commands;
use model::calls::Model;
use model::program::{self, COMMAND};
use std::fs::{File, OpenOptions};
use std::io::{self, BufRead, BufReader, Read, Write};
use std::os::fd::OwnedFd;
use std::os::unix::net::UnixStream;
use std::os::unix::process::ExitStatusExt;
use std::process::{Child, Command, Stdio};
use std::sync::mpsc;
use std::time::{Duration, Instant};

/// What a program that goes on or waits is given before it counts as hung.
const PATIENCE: Duration = Duration::from_secs(10);

#[derive(Clone, Copy, Debug, PartialEq, Eq)]
enum End {
    Status(i32),
    Signal(i32),
    Hung,
}

/// What was seen of a run: its standard output, where there was one to read, its standard error, and its end.
#[derive(Debug, PartialEq, Eq)]
struct Run {
    printed: String,
    said: String,
    end: End,
}

impl Run {
    fn new(printed: &str, said: &str, end: End) -> Run {
        Run { printed: printed.to_string(), said: said.to_string(), end }
    }
}

/// Every failure by name, with what went wrong, if anything did.
pub fn all(path: &str) -> Vec<(&'static str, Option<String>)> {
    let no_line = |number: usize| format!("bench: could not write line {number} to standard output\n");
    let no_command = |number: usize| format!("bench: could not read command {number} from standard input\n");
    let listing = commands::listing();
    let lines = program::run(&mut Model, &listing);
    let first = lines.lines().next().map(|line| format!("{line}\n")).unwrap_or_default();
    let ended = End::Status(0);
    let cases = [
        ("output to a full device", full_device(path, &listing), Run::new("", &no_line(1), ended)),
        ("a last line to a full device", full_device(path, &[1; 7]), Run::new("", &no_line(1), ended)),
        ("output closed", shell(path, "exec \"$0\" >&-", &listing), Run::new("", &no_line(1), ended)),
        ("reader gone", reader_gone(Command::new(path), &listing), Run::new(&first, &no_line(2), ended)),
        (
            "reader gone, and the signal of that ignored",
            reader_gone(in_shell(path, "trap '' PIPE; exec \"$0\""), &listing),
            Run::new(&first, &no_line(2), ended),
        ),
        ("input from a directory", directory(path), Run::new("", &no_command(1), ended)),
        ("input closed", shell(path, "exec \"$0\" <&-", &[]), Run::new("", &no_command(1), ended)),
        ("input lost within a record", lost_input(path, &listing), Run::new(&lines, &no_command(12), ended)),
    ];
    cases.into_iter().map(|(name, seen, right)| (name, difference(seen, right))).collect()
}

fn difference(seen: io::Result<Run>, right: Run) -> Option<String> {
    match seen {
        Ok(seen) if seen == right => None,
        Ok(seen) => Some(format!("{seen:?} and not {right:?}")),
        Err(error) => Some(format!("it could not be tried: {error}")),
    }
}

fn in_shell(path: &str, script: &str) -> Command {
    let mut command = Command::new("sh");
    command.args(["-c", script, path]);
    command
}

/// Waits for the end, and ends it where it hangs.
fn end(process: &mut Child) -> io::Result<End> {
    let begin = Instant::now();
    while begin.elapsed() < PATIENCE {
        if let Some(status) = process.try_wait()? {
            return Ok(status.code().map(End::Status).or(status.signal().map(End::Signal)).unwrap_or(End::Hung));
        }
        std::thread::sleep(Duration::from_millis(1));
    }
    stop(process)?;
    Ok(End::Hung)
}

fn stop(process: &mut Child) -> io::Result<()> {
    process.kill()?;
    process.wait().map(|_| ())
}

fn text(from: Option<impl Read>) -> io::Result<String> {
    let mut text = String::new();
    match from {
        Some(mut from) => from.read_to_string(&mut text).map(|_| text),
        None => Ok(text),
    }
}

/// A run to its end on so little input that its pipe takes it at once.
fn whole(mut command: Command, input: &[u8]) -> io::Result<Run> {
    let mut process = command.stdin(Stdio::piped()).stderr(Stdio::piped()).spawn()?;
    // A program that ends early leaves its input: that is no failure here.
    let _ = process.stdin.take().map(|mut to| to.write_all(input));
    let end = end(&mut process)?;
    Ok(Run { printed: text(process.stdout.take())?, said: text(process.stderr.take())?, end })
}

fn full_device(path: &str, input: &[u8]) -> io::Result<Run> {
    let mut command = Command::new(path);
    command.stdout(OpenOptions::new().write(true).open("/dev/full")?);
    whole(command, input)
}

/// By a shell that closes what the script says.
fn shell(path: &str, script: &str, input: &[u8]) -> io::Result<Run> {
    let mut command = in_shell(path, script);
    command.stdout(Stdio::piped());
    whole(command, input)
}

/// The reader takes the first line and goes; only then comes the second command, and the input stays open.
fn reader_gone(mut command: Command, input: &[u8]) -> io::Result<Run> {
    let piped = command.stdin(Stdio::piped()).stdout(Stdio::piped()).stderr(Stdio::piped());
    let mut process = piped.spawn()?;
    let (Some(mut to), Some(from)) = (process.stdin.take(), process.stdout.take()) else {
        return Err(io::Error::other("no pipes"));
    };
    to.write_all(&input[..COMMAND])?;
    let (tell, told) = mpsc::channel();
    std::thread::spawn(move || {
        let mut line = String::new();
        let read = BufReader::new(from).read_line(&mut line);
        tell.send(read.map(|_| line))
    });
    let Ok(printed) = told.recv_timeout(PATIENCE) else {
        stop(&mut process)?;
        return Ok(Run { printed: String::new(), said: text(process.stderr.take())?, end: End::Hung });
    };
    to.write_all(&input[COMMAND..2 * COMMAND])?;
    let end = end(&mut process)?;
    Ok(Run { printed: printed?, said: text(process.stderr.take())?, end })
}

fn from(path: &str, input: OwnedFd) -> io::Result<Run> {
    let mut command = Command::new(path);
    let mut process = command.stdin(input).stdout(Stdio::piped()).stderr(Stdio::piped()).spawn()?;
    let end = end(&mut process)?;
    Ok(Run { printed: text(process.stdout.take())?, said: text(process.stderr.take())?, end })
}

fn directory(path: &str) -> io::Result<Run> {
    from(path, File::open("/")?.into())
}

/// Whole commands and some bytes more, and then an error: the other end of a socket is closed with bytes unread.
fn lost_input(path: &str, input: &[u8]) -> io::Result<Run> {
    let (mut ours, mut theirs) = UnixStream::pair()?;
    theirs.write_all(b"unread")?;
    ours.write_all(input)?;
    ours.write_all(&[1; 10])?;
    drop(ours);
    from(path, theirs.into())
}
