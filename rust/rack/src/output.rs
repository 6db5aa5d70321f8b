//! Answers on their way out: in words, refusals on standard error and all else on standard output; or as objects, all
//! of them on standard output. The status that the program ends with is the worst of what it met.

use crate::answer::{Answer, Drawing};
use crate::draw;
use crate::failure::Failure;
use crate::object::{self, Object};
use crate::picture;
use crate::request::Request;
use crate::text;
use front::words::Fault;
use std::fmt::Display;
use std::io::{stderr, stdout, Write};

/// What the program's end tells a script.
#[derive(Clone, Copy, Debug, PartialEq, Eq, PartialOrd, Ord)]
pub enum Status {
    Done = 0,
    Refused = 1,
    Usage = 2,
    Failed = 3,
}

/// What came of a line, or of the command line where there is no number.
pub struct Reply {
    pub line: Option<u64>,
    pub told: Result<(Asked, Answer), Fault>,
}

/// Which word was asked, and of which card.
pub struct Asked {
    pub word: &'static str,
    pub card: Option<u32>,
}

impl Asked {
    /// Of a request.
    pub fn of(request: &Request) -> Asked {
        Asked { word: request.verb().name(), card: request.card() }
    }
}

/// Where answers go.
pub struct Output {
    pub json: bool,
    pub status: Status,
}

impl Output {
    /// Ends with this status, unless it met a worse one.
    pub fn met(&mut self, status: Status) {
        self.status = self.status.max(status);
    }

    /// Tells that input or output failed: in words in any case, since standard output may be what failed.
    pub fn failed(&mut self, failure: &Failure) {
        self.met(Status::Failed);
        if self.json {
            let _ = print(&format!("{}\n", Object::default().text("failed", &failure.to_string()).end()));
        }
        complain(format_args!("{failure}\n"));
    }

    /// Tells one reply.
    pub fn tell(&mut self, reply: &Reply) -> Result<(), Failure> {
        match &reply.told {
            Err(_) => self.met(Status::Usage),
            Ok((_, Answer::Refused(_))) => self.met(Status::Refused),
            Ok((_, Answer::Drawn(drawing))) if drawing.svg.is_some() => {
                written(drawing)?;
                // Whatever else stood beside it there would spoil it.
                if picture::is_standard_output(drawing.svg.as_deref()) {
                    return Ok(());
                }
            }
            Ok(_) => {}
        }
        if self.json {
            return print(&format!("{}\n", as_object(reply)));
        }
        let at = reply.line.map_or_else(String::new, |line| format!("line {line}: "));
        match &reply.told {
            Err(fault) => complain(format_args!("{at}{fault}\n")),
            Ok((_, answer @ Answer::Refused(_))) => complain(format_args!("{at}{}", text::words(answer))),
            Ok((_, answer @ (Answer::Found(_) | Answer::Nearest(_)))) => {
                print(&format!("{at}{}", text::words(answer)))?
            }
            Ok((_, answer)) => print(&text::words(answer))?,
        }
        Ok(())
    }
}

/// Puts a picture into its file.
fn written(drawing: &Drawing) -> Result<(), Failure> {
    let Some(path) = &drawing.svg else { return Ok(()) };
    picture::write(path, &draw::svg(&drawing.title, &drawing.tree, drawing.walk.as_ref(), drawing.sound))
}

fn as_object(reply: &Reply) -> String {
    let mut object = Object::default();
    if let Some(line) = reply.line {
        object = object.plain("line", line);
    }
    match &reply.told {
        Err(fault) => object.text("bad", &fault.to_string()).end(),
        Ok((asked, answer)) => {
            object = object.text("call", asked.word);
            if let Some(card) = asked.card {
                object = object.plain("card", card);
            }
            object::fields(object, answer).end()
        }
    }
}

/// Puts words, with the end of their line, on standard error. If nobody can read them there, the status still tells.
pub fn complain(words: impl Display) {
    let _ = write!(stderr(), "rack: {words}");
}

/// Puts words on standard output now.
pub fn print(words: &str) -> Result<(), Failure> {
    let mut output = stdout().lock();
    let done = output.write_all(words.as_bytes()).and_then(|()| output.flush());
    done.map_err(|error| Failure::answer(&error))
}
