//! A request carried out on a table's bytes by the library's calls.

use crate::advice;
use crate::answer::{Answer, Count, Drawing, Found, Refused};
use crate::apart::apart;
use crate::draw::{Tree, Unlike, Walk};
use crate::failure::Failure;
use crate::name::shown;
use crate::request::{Request, Search};
use plotvuga::{Pair, Refusal, Signature, Table};
use std::collections::hash_map::{Entry, HashMap};
use std::path::Path;

/// A table in memory, well formed, and where it came from.
pub struct Bench {
    pub table: Table,
    /// As the user named it.
    pub path: Box<Path>,
    /// Whether it is sound, once that was asked.
    sound: Option<bool>,
    /// What cards were stored with, where that was asked since the last change: for each answer the library judges the
    /// whole table, and a search may list every card.
    known: HashMap<u32, Signature>,
}

impl Bench {
    /// The table that these bytes hold.
    pub fn new(path: &Path, bytes: Vec<u8>) -> Bench {
        Bench { table: Table::over(bytes), path: path.into(), sound: None, known: HashMap::new() }
    }

    /// Carries a request out. A refused one has changed nothing.
    pub fn answer(&mut self, request: &Request) -> Result<Answer, Failure> {
        if request.changes() {
            self.known.clear();
            // A sound table stays sound; a change may mend one that is not.
            self.sound = self.sound.filter(|sound| *sound);
        }
        match self.carried_out(request) {
            Ok(answer) => Ok(answer),
            Err(Stop::Failed(failure)) => Err(failure),
            Err(Stop::Refused(refusal)) => {
                let advice = advice::on(refusal, Some(request), &self.path, &self.table);
                Ok(Answer::Refused(Refused { refusal, advice }))
            }
        }
    }

    fn carried_out(&mut self, request: &Request) -> Result<Answer, Stop> {
        let table = &mut self.table;
        Ok(match request {
            Request::Insert { card, arity, signature } => {
                Answer::Inserted { card: *card, distances: table.insert(*card, signature, *arity)?.distances }
            }
            Request::Delete { card, arity } => {
                Answer::Deleted { card: *card, distances: table.delete(*card, *arity)?.distances }
            }
            Request::Search(search) => self.searched(search)?,
            Request::Nearest { k, signature } => self.nearest(*k, signature)?,
            Request::Check => {
                table.check()?;
                Answer::Sound { stored: table.stored()? }
            }
            Request::Cards => Answer::Cards(
                table
                    .cards()?
                    .map(|card| table.card(card).map(|signature| (card, signature)))
                    .collect::<Result<_, _>>()?,
            ),
            Request::Card { card } => Answer::Card(*card, table.card(*card)?),
            Request::Count => self.counted()?,
            Request::Clear => {
                let stored = table.stored()?;
                table.clear()?;
                Answer::Cleared { stored }
            }
            Request::Draw { svg, search } => {
                let tree = Tree::of(table.bytes())?;
                let walk = search.as_ref().map(|asked| Walk::of(&tree, &asked.signature, asked.radius)).transpose()?;
                let (title, sound) = (shown(&self.path), self.is_sound());
                Answer::Drawn(Box::new(Drawing { title, tree, walk, sound, svg: svg.clone() }))
            }
        })
    }

    /// A list of a table that is not sound may lack a near card, and the card in hand would be shipped for it; so none
    /// is given.
    fn sound_only(&mut self) -> Result<(), Refusal> {
        if self.is_sound() {
            return Ok(());
        }
        Err(Refusal::Loose)
    }

    fn is_sound(&mut self) -> bool {
        *self.sound.get_or_insert_with(|| self.table.check().is_ok())
    }

    fn searched(&mut self, search: &Search) -> Result<Answer, Stop> {
        let found = self.table.search(&search.signature, search.radius)?;
        self.sound_only()?;
        let near = found.cards.iter().map(|card| self.pair(*card, &search.signature)).collect::<Result<_, _>>()?;
        let stored = self.table.stored()?;
        Ok(Answer::Found(Found { asked: search.radius, stored, distances: found.distances, near }))
    }

    fn nearest(&mut self, k: u32, signature: &Signature) -> Result<Answer, Stop> {
        let found = self.table.nearest(signature, k)?;
        self.sound_only()?;
        let stored = self.table.stored()?;
        Ok(Answer::Nearest(Found { asked: k, stored, distances: found.distances, near: found.pairs }))
    }

    /// A listed card with its distance.
    fn pair(&mut self, card: u32, signature: &Signature) -> Result<Pair, Refusal> {
        let stored = match self.known.entry(card) {
            Entry::Occupied(known) => *known.get(),
            Entry::Vacant(place) => *place.insert(self.table.card(card)?),
        };
        let distance = apart(&stored, signature).ok_or(Refusal::Kind)?;
        Ok(Pair { card, distance })
    }

    fn counted(&self) -> Result<Answer, Refusal> {
        let (stored, free) = (self.table.stored()?, self.table.free()?);
        let first = self.table.cards()?.next();
        let kind = first.map(|card| self.table.card(card)).transpose()?.map(|signature| signature.kind());
        Ok(Answer::Count(Count { stored, free, kind }))
    }
}

/// Why a request was not carried out.
enum Stop {
    Refused(Refusal),
    Failed(Failure),
}

impl From<Refusal> for Stop {
    fn from(refusal: Refusal) -> Stop {
        Stop::Refused(refusal)
    }
}

impl From<Unlike> for Stop {
    fn from(unlike: Unlike) -> Stop {
        match unlike {
            Unlike::Refused(refusal) => Stop::Refused(refusal),
            other => Stop::Failed(Failure::new(other.to_string())),
        }
    }
}
