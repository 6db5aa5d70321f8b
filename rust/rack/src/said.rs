//! Words read as a request. What a command line leaves open, the card or the signature, each line of standard input
//! says in the same words; what it says holds for every line that does not say otherwise.

use crate::request::{Request, Search, Verb, ARITY};
use front::words::{fault, mask, number, once, readings, shown, Fault};
use plotvuga::{Kind, Signature, MOST_NEAREST};
use std::path::PathBuf;

/// What has been said of a request so far.
#[derive(Clone, Debug, Default)]
pub struct Said {
    /// The card, or how many nearest ones are asked for.
    first: Option<u32>,
    kind: Option<u8>,
    arity: Option<u8>,
    radius: Option<u32>,
    signature: Option<Signature>,
    all: Option<()>,
    svg: Option<PathBuf>,
    search: Option<Search>,
}

/// The words that a verb takes, after its number where it has one.
fn takes(verb: Verb) -> &'static [&'static str] {
    match verb {
        Verb::Insert => &["kind", "arity", "readings", "mask"],
        Verb::Delete => &["arity"],
        Verb::Search => &["kind", "radius", "readings", "mask"],
        Verb::Nearest => &["kind", "readings", "mask"],
        Verb::Clear => &["all"],
        Verb::Draw => &["--svg", "--search"],
        Verb::Check | Verb::Cards | Verb::Card | Verb::Count => &[],
    }
}

/// What the number right after a verb is.
fn first_number(verb: Verb) -> Option<&'static str> {
    match verb {
        Verb::Insert | Verb::Delete | Verb::Card => Some("the card"),
        Verb::Nearest => Some("how many are wanted"),
        _ => None,
    }
}

/// Whether a signature is a part of it.
fn has_signature(verb: Verb) -> bool {
    takes(verb).contains(&"readings")
}

impl Said {
    /// What these words say, over what was said before; a word may stand once among them.
    pub fn read(verb: Verb, words: &mut dyn Iterator<Item = &str>, before: &Said) -> Result<Said, Fault> {
        let mut said = Said::default();
        let mut words = words.peekable();
        if let (Some(name), Some(word)) = (first_number(verb), words.peek().copied()) {
            // A card before a signature must not pass for how many are wanted, where that was said.
            let is_open = before.first.is_none() || is_number(word) && verb != Verb::Nearest;
            if !takes(verb).contains(&word) && is_open {
                said.first = Some(number(name, words.next())?);
            }
        }
        said.words(verb, &mut words)?;
        Ok(said.over(before))
    }

    /// All words behind the number.
    fn words(&mut self, verb: Verb, words: &mut dyn Iterator<Item = &str>) -> Result<(), Fault> {
        while let Some(word) = words.next() {
            if !takes(verb).contains(&word) {
                return fault(not_taken(verb, word));
            }
            self.word(word, words)?;
        }
        Ok(())
    }

    /// One word with what stands behind it.
    fn word(&mut self, word: &str, words: &mut dyn Iterator<Item = &str>) -> Result<(), Fault> {
        match word {
            "kind" => once("kind", &mut self.kind, number("kind", words.next())?),
            "arity" => once("arity", &mut self.arity, number("arity", words.next())?),
            "radius" => once("radius", &mut self.radius, number("radius", words.next())?),
            "readings" => self.signed(Kind::Readings, readings(words)?),
            "mask" => self.signed(Kind::Faults, mask(words)?),
            "--svg" => match words.next() {
                Some(name) if !name.is_empty() => once("--svg", &mut self.svg, PathBuf::from(name)),
                _ => fault("--svg needs the name of the picture's file, or - for standard output"),
            },
            "--search" => self.searched(words),
            _ => once("all", &mut self.all, ()),
        }
    }

    /// A search, which goes on to the end or to another option.
    fn searched(&mut self, words: &mut dyn Iterator<Item = &str>) -> Result<(), Fault> {
        let words: Vec<&str> = words.collect();
        let end = words.iter().position(|word| word.starts_with("--")).unwrap_or(words.len());
        let (search, rest) = words.split_at(end);
        let said = Said::read(Verb::Search, &mut search.iter().copied(), &Said::default())?;
        let Request::Search(search) = said.request(Verb::Search)? else { unreachable!("a search was read") };
        once("--search", &mut self.search, search)?;
        self.words(Verb::Draw, &mut rest.iter().copied())
    }

    fn signed(&mut self, kind: Kind, bytes: [u8; Signature::BYTES]) -> Result<(), Fault> {
        once("the signature", &mut self.signature, Signature::from_bytes(kind, bytes))
    }

    /// This, and what was said before where it is silent.
    fn over(self, before: &Said) -> Said {
        Said {
            first: self.first.or(before.first),
            kind: self.kind.or(before.kind),
            arity: self.arity.or(before.arity),
            radius: self.radius.or(before.radius),
            signature: self.signature.or(before.signature),
            all: self.all.or(before.all),
            svg: self.svg.or_else(|| before.svg.clone()),
            search: self.search.or_else(|| before.search.clone()),
        }
    }

    /// Whether a card or a signature is left open, so that lines have to say it.
    pub fn is_open(&self, verb: Verb) -> bool {
        let card = first_number(verb).is_some() && verb != Verb::Nearest && self.first.is_none();
        card || has_signature(verb) && self.signature.is_none()
    }

    /// Whether it asks for one card or looks for some, so that it is not done if no line says the rest.
    pub fn is_begun(&self, verb: Verb) -> bool {
        self.first.is_some() || matches!(verb, Verb::Search | Verb::Nearest)
    }

    /// The request, if nothing is missing.
    pub fn request(&self, verb: Verb) -> Result<Request, Fault> {
        let first = || self.first.map_or_else(|| fault(no_first(verb)), Ok);
        let arity = self.arity.unwrap_or(ARITY);
        Ok(match verb {
            Verb::Insert => Request::Insert { card: first()?, arity, signature: self.known(verb)? },
            Verb::Delete => Request::Delete { card: first()?, arity },
            Verb::Search => Request::Search(self.search(verb)?),
            Verb::Nearest => Request::Nearest { k: first()?, signature: self.known(verb)? },
            Verb::Card => Request::Card { card: first()? },
            Verb::Clear if self.all.is_none() => {
                return fault("clear takes every card off the table; if that is meant, say: clear all")
            }
            Verb::Clear => Request::Clear,
            Verb::Check => Request::Check,
            Verb::Cards => Request::Cards,
            Verb::Count => Request::Count,
            Verb::Draw => Request::Draw { svg: self.svg.clone(), search: self.search.clone() },
        })
    }

    fn search(&self, verb: Verb) -> Result<Search, Fault> {
        let Some(radius) = self.radius else { return fault("search needs radius and its number") };
        Ok(Search { radius, signature: self.known(verb)? })
    }

    /// The signature, of the kind that was said if one was.
    fn known(&self, verb: Verb) -> Result<Signature, Fault> {
        let Some(signature) = self.signature else {
            return fault(format!("{} needs readings or a mask at its end", verb.name()));
        };
        match (self.kind, signature.kind()) {
            (None, _) | (Some(1), Kind::Readings) | (Some(2), Kind::Faults) => Ok(signature),
            (Some(1), _) => fault("a mask belongs to kind 2, and the kind here is 1"),
            (Some(2), _) => fault("readings belong to kind 1, and the kind here is 2"),
            (Some(kind), _) => fault(format!("kind is 1 (readings) or 2 (a mask), and here is {kind}")),
        }
    }
}

/// The request of a line, over what the command line said; none for a blank line or a comment.
pub fn line(text: &str, verb: Option<Verb>, before: &Said) -> Result<Option<Request>, Fault> {
    let text = text.split('#').next().unwrap_or_default();
    let mut words = text.split_whitespace().peekable();
    if words.peek().is_none() {
        return Ok(None);
    }
    let verb = match verb {
        Some(verb) => verb,
        None => self::verb(words.next().unwrap_or_default())?,
    };
    Said::read(verb, &mut words, before)?.request(verb).map(Some)
}

/// The verb of a word.
pub fn verb(word: &str) -> Result<Verb, Fault> {
    Verb::named(word).map_or_else(
        || {
            let all: Vec<&str> = Verb::ALL.iter().map(|verb| verb.name()).collect();
            fault(format!("{} is no word of rack's; these are: {}", shown(word), all.join(", ")))
        },
        Ok,
    )
}

fn is_number(word: &str) -> bool {
    word.bytes().all(|byte| byte.is_ascii_digit())
}

/// What to say where the number right after a verb is missing.
fn no_first(verb: Verb) -> String {
    match verb {
        Verb::Nearest => format!("nearest needs how many are wanted, 1 to {MOST_NEAREST}, right behind it"),
        _ => format!("{} needs the card's number right behind it", verb.name()),
    }
}

fn not_taken(verb: Verb, word: &str) -> String {
    let (name, is_radius) = (verb.name(), takes(verb).contains(&"radius") && is_number(word) && word.len() <= 10);
    let word = if is_radius { format!("{}; a radius is said so: radius {word}", shown(word)) } else { shown(word) };
    match (takes(verb), first_number(verb)) {
        ([], None) => format!("{name} stands alone, and here is {word}"),
        ([], Some(_)) => format!("{name} takes one card's number and nothing else, and here is {word}"),
        (words, Some(_)) => format!("{name} takes one number and then {}, and here is {word}", words.join(", ")),
        (words, None) => format!("{name} takes {}, and here is {word}", words.join(", ")),
    }
}
