//! `cards`: readable lines on standard input, the bench program's command records on standard output. Each line's
//! record goes out before the next line is read, so that it can be typed into a pipe. A bad line is explained with its
//! number and ends the program with status 1; nothing of it is written, and no later line is read. `--help` tells what
//! a line can say; any other argument ends it with status 2.

use std::io::{self, BufRead, Write};
use std::process::ExitCode;

const USAGE: &str = "\
usage: cards < LINES | bench
  insert CARD kind KIND arity ARITY readings N.. | mask HEX..
  delete CARD arity ARITY
  search kind KIND radius RADIUS readings N.. | mask HEX..
  check
missing readings and mask bytes are 0; # begins a comment
";

/// What some editors put before the first line of a text.
const BYTE_ORDER_MARK: char = '\u{feff}';

fn run(input: &mut dyn BufRead, output: &mut dyn Write) -> Result<(), String> {
    let mut line = Vec::new();
    for number in 1.. {
        line.clear();
        if input.read_until(b'\n', &mut line).map_err(|error| format!("line {number}: {error}"))? == 0 {
            break;
        }
        let mut text = std::str::from_utf8(&line).map_err(|_| format!("line {number}: not text"))?;
        if number == 1 {
            text = text.strip_prefix(BYTE_ORDER_MARK).unwrap_or(text);
        }
        if let Some(command) = front::command(text).map_err(|fault| format!("line {number}: {fault}"))? {
            let written = output.write_all(&command.bytes()).and_then(|()| output.flush());
            written.map_err(|error| format!("line {number}: its record could not be written: {error}"))?;
        }
    }
    Ok(())
}

/// Tells what a line can say, to whoever asked.
fn help() -> ExitCode {
    match io::stdout().write_all(USAGE.as_bytes()) {
        Ok(()) => ExitCode::SUCCESS,
        Err(_) => ExitCode::FAILURE,
    }
}

fn main() -> ExitCode {
    if let Some(argument) = std::env::args_os().nth(1) {
        if argument == "--help" || argument == "-h" {
            return help();
        }
        eprint!("cards: it takes no {}\n{USAGE}", front::shown(&argument.to_string_lossy()));
        return ExitCode::from(2);
    }
    match run(&mut io::stdin().lock(), &mut io::stdout().lock()) {
        Ok(()) => ExitCode::SUCCESS,
        Err(why) => {
            eprintln!("cards: {why}");
            ExitCode::FAILURE
        }
    }
}
