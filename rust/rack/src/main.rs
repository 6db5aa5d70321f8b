//! `rack`: the index of failed cards in a file, for people at the bench. `rack --help` tells what can be asked. It ends
//! with status 0 if all was done, 1 if something was refused, 2 on bad usage, 3 if input or output failed.

use plotvuga::Table;
use rack::answer::{Answer, Refused};
use rack::ask::{Ask, What, JSON};
use rack::failure::Failure;
use rack::output::{print, Asked, Output, Reply, Status};
use rack::{advice, run, store};
use std::io::{stdin, IsTerminal};
use std::path::Path;
use std::process::ExitCode;

const USAGE: &str = "\
usage: rack new FILE [--records N]    make an empty table; 1024 records if not said
       rack FILE WORD ..              do what the word says
       rack FILE < LINES              the same, a word a line
words:
  insert CARD [arity N] SIGNATURE     store a card (arity: 1 to 8, 4 if not said)
  delete CARD [arity N]               take a card off
  search radius N SIGNATURE           the cards within the radius
  nearest K SIGNATURE                 the K nearest cards, 1 to 64
  check                               does every search find all that is near?
  cards                               all cards, as insert reads them
  card CARD                           what a card was stored with
  count                               how many are stored, and room for how many
  clear all                           take every card off
  draw [--svg OUT] [--search ..]      the tree, for the terminal or as a picture,
                                      with a search's way through it
SIGNATURE ends the line: 'readings N ..', up to sixteen of 0 to 65535, or
'mask HEX', up to 32 bytes, byte 0 first. What is missing is 0.
Without the card or the signature, lines of standard input say it, one for each
card, in the same words:
  rack FILE insert < CARDS            each line: CARD SIGNATURE
  rack FILE search radius 5 < CARDS   each line: SIGNATURE
# begins a comment. A bad or a refused line is told with its number and passed
over; twenty bad ones in a row end it.
options:
  --json      an object a line, for programs
  --wait N    seconds to wait while another program changes the file; 10 if not
              said
status: 0 done, 1 refused, 2 bad usage, 3 input or output failed
";

fn main() -> ExitCode {
    let json = std::env::args_os().any(|argument| argument == JSON);
    let mut output = Output { json, status: Status::Done };
    let done = match Ask::read(std::env::args_os().skip(1)) {
        Err(fault) => output.tell(&Reply { line: None, told: Err(fault.and("rack --help tells what can be asked")) }),
        Ok(ask) => done(&ask, &mut output),
    };
    if let Err(failure) = done {
        output.failed(&failure);
    }
    ExitCode::from(output.status as u8)
}

fn done(ask: &Ask, output: &mut Output) -> Result<(), Failure> {
    match &ask.what {
        What::Help => print(USAGE),
        What::Version => print(&format!("rack {}\n", env!("CARGO_PKG_VERSION"))),
        What::New { path, records } => {
            let answer = made(path, *records)?;
            let is_made = matches!(answer, Answer::Made { .. });
            let told = output.tell(&Reply { line: None, told: Ok((Asked { word: "new", card: None }, answer)) });
            told.map_err(|failure| if is_made { failure.after_change(None) } else { failure })
        }
        What::Words { path, words } => {
            let input = stdin();
            let terminal = input.is_terminal();
            run::run(path, ask.wait, words, input.lock(), terminal, output)
        }
    }
}

/// Makes a file with an empty table.
fn made(path: &Path, records: usize) -> Result<Answer, Failure> {
    match Table::new(records) {
        Ok(table) => store::create(path, table.bytes()).map(|()| Answer::Made { records }),
        Err(refusal) => Ok(Answer::Refused(Refused { refusal, advice: advice::records(records) })),
    }
}
