//! A program run with its input written in pieces.

use std::io::{Read, Write};
use std::process::{Command, Stdio};
use std::time::{Duration, Instant};

#[derive(Clone, Copy, Debug, PartialEq, Eq)]
pub enum Pieces {
    Whole,
    /// Pieces that end within command records.
    Some,
    /// One byte at a time.
    Bytes,
}

/// What the program printed, and how long it ran; or how it failed.
pub fn run(path: &str, input: &[u8], pieces: Pieces) -> Result<(String, Duration), String> {
    let begin = Instant::now();
    let spawned = Command::new(path).stdin(Stdio::piped()).stdout(Stdio::piped()).spawn();
    let mut process = spawned.map_err(|error| format!("{path} does not start: {error}"))?;
    let mut to = process.stdin.take().ok_or("no input")?;
    let mut from = process.stdout.take().ok_or("no output")?;
    let size = match pieces {
        Pieces::Whole => input.len().max(1),
        Pieces::Some => 61,
        Pieces::Bytes => 1,
    };
    let mut printed = String::new();
    // Written beside the reading, so that neither waits for the other's pipe.
    let (written, read) = std::thread::scope(|scope| {
        let writer = scope.spawn(move || input.chunks(size).try_for_each(|piece| to.write_all(piece)));
        let read = from.read_to_string(&mut printed);
        (writer.join(), read)
    });
    let status = process.wait().map_err(|error| error.to_string())?;
    read.map_err(|error| format!("its output: {error}"))?;
    match written {
        Ok(Ok(())) if status.success() => Ok((printed, begin.elapsed())),
        Ok(Ok(())) => Err(format!("it ended with {status}")),
        _ => Err("it stopped reading".to_string()),
    }
}
