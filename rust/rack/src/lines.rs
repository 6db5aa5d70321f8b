//! Standard input line by line, and whether the next line is at hand or has to be waited for.

use crate::failure::Failure;
use front::words::{fault, Fault};
use std::io::{BufRead, BufReader, Read};

/// What is read at once: more than a thousand cards with sixteen long readings each.
const AT_ONCE: usize = 1 << 18;
/// The bytes of the longest line that is taken for one.
const LONGEST: usize = 4096;
/// What some editors put before the first line of a text.
const BYTE_ORDER_MARK: char = '\u{feff}';

/// Lines with their numbers.
pub struct Lines<R> {
    input: BufReader<R>,
    number: u64,
    /// Whether no more is read, since what came is no text of lines.
    over: bool,
    /// The last line, if it has no line end.
    cut: Option<u64>,
}

/// A line's number, and its text or what is wrong with it.
pub type Line = (u64, Result<String, Fault>);

impl<R: Read> Lines<R> {
    /// The lines of an input.
    pub fn of(input: R) -> Lines<R> {
        Lines { input: BufReader::with_capacity(AT_ONCE, input), number: 0, over: false, cut: None }
    }

    /// Whether a whole line has been read already, so that the next one need not be waited for.
    pub fn at_hand(&self) -> bool {
        self.input.buffer().contains(&b'\n')
    }

    /// The last line, if the input ended in the middle of it: it may have been cut short.
    pub fn cut(&self) -> Option<u64> {
        self.cut
    }

    /// The next line; none at the end.
    pub fn next_line(&mut self) -> Result<Option<Line>, Failure> {
        let mut line = Vec::new();
        let number = self.number + 1;
        let failed = |error| Failure::input(number, &error);
        let most = LONGEST as u64 + 1;
        if self.over || self.input.by_ref().take(most).read_until(b'\n', &mut line).map_err(failed)? == 0 {
            return Ok(None);
        }
        self.number = number;
        if line.len() > LONGEST && !line.ends_with(b"\n") {
            // It may have no end.
            self.over = true;
            return Ok(Some((
                number,
                fault(format!("longer than {LONGEST} bytes, so it and what follows is not read")),
            )));
        }
        self.cut = Some(number).filter(|_| !line.ends_with(b"\n"));
        Ok(Some((number, text(number, line))))
    }
}

fn text(number: u64, line: Vec<u8>) -> Result<String, Fault> {
    let Ok(text) = String::from_utf8(line) else { return fault("not text in UTF-8") };
    match text.strip_prefix(BYTE_ORDER_MARK) {
        Some(rest) if number == 1 => Ok(rest.to_string()),
        _ => Ok(text),
    }
}
