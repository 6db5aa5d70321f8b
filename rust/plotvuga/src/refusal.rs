//! Why a call was refused.

use std::fmt;

/// A refusal, in the order in which they are tested. A refused call has touched nothing that it was lent.
///
/// Printed, it is its number, its name, and a sentence that tells what can be done:
///
/// ```
/// let mut table = plotvuga::Table::new(1)?;
/// let signature = plotvuga::Signature::readings([0; 16]);
/// table.insert(11, &signature, 4)?;
/// let refusal = table.insert(12, &signature, 4).unwrap_err();
/// assert_eq!(refusal, plotvuga::Refusal::Full);
/// assert!(refusal.to_string().starts_with("7 FULL: no record is free"));
/// # Ok::<(), plotvuga::Refusal>(())
/// ```
#[derive(Clone, Copy, Debug, PartialEq, Eq, Hash, PartialOrd, Ord)]
pub enum Refusal {
    /// The table's length is not a multiple of 64 from 64 to 65,536.
    Size = 1,
    /// The table is not well formed: its bytes are not one tree of records. `include/plotvuga.h` says what is asked.
    Table = 2,
    /// Card 0, an arity that is not 1 to 8, or a `k` that is not 1 to 64. Types see to the rest of what the C functions
    /// refuse so.
    Argument = 3,
    /// The table holds cards of the other kind.
    Kind = 4,
    /// The card is already stored.
    Twice = 5,
    /// The card is not stored.
    Absent = 6,
    /// No record is free. Delete a card; or lend a longer table, the same bytes with zeros behind them; or, at 1,024
    /// records, begin a second table.
    Full = 7,
    /// A fresh timestamp would pass 4,294,967,295. Store the cards anew in a cleared table, whose timestamps begin at
    /// 1: [`cards`](crate::cards) and [`card`](crate::card) tell what to store.
    Clock = 8,
    /// The list has fewer entries than cards are stored, or, for the nearest few, than are asked for.
    Short = 9,
    /// The table is well formed but not sound: some search on it misses a card. Store its cards anew as for
    /// [`Refusal::Clock`].
    Loose = 10,
}

impl Refusal {
    /// All of them, by number.
    pub const ALL: [Refusal; 10] = [
        Refusal::Size,
        Refusal::Table,
        Refusal::Argument,
        Refusal::Kind,
        Refusal::Twice,
        Refusal::Absent,
        Refusal::Full,
        Refusal::Clock,
        Refusal::Short,
        Refusal::Loose,
    ];

    /// The refusal's number, 1 to 10.
    pub fn number(self) -> u32 {
        self as u32
    }

    /// The refusal of that number; none for 0, which means done, and for numbers that no call returns.
    pub fn from_number(number: u32) -> Option<Refusal> {
        Refusal::ALL.into_iter().find(|refusal| refusal.number() == number)
    }

    /// The refusal's name in capitals.
    pub fn name(self) -> &'static str {
        match self {
            Refusal::Size => "SIZE",
            Refusal::Table => "TABLE",
            Refusal::Argument => "ARGUMENT",
            Refusal::Kind => "KIND",
            Refusal::Twice => "TWICE",
            Refusal::Absent => "ABSENT",
            Refusal::Full => "FULL",
            Refusal::Clock => "CLOCK",
            Refusal::Short => "SHORT",
            Refusal::Loose => "LOOSE",
        }
    }

    /// What it says, and what can be done about it, in a sentence: that of `plotvuga_refusal_text` in
    /// `include/plotvuga.h`.
    pub fn text(self) -> &'static str {
        match self {
            Refusal::Size => "the table's length is not a multiple of 64 from 64 to 65,536 bytes",
            Refusal::Table => "the table is not well formed: bring back a copy that was kept, or clear it",
            Refusal::Argument => {
                "an argument is out of its range: card 1 or more, arity 1 to 8, kind 1 or 2, signature of 32 bytes, \
                 k 1 to 64"
            }
            Refusal::Kind => "the table holds cards of the other kind: keep a table for each kind",
            Refusal::Twice => "the card is already stored: delete it before it is stored anew",
            Refusal::Absent => "the card is not stored",
            Refusal::Full => {
                "no record is free: delete a card, or lend a longer table, the same bytes with zeros behind them"
            }
            Refusal::Clock => "no fresh timestamp is left: store the cards anew in a cleared table",
            Refusal::Short => {
                "the answer has no room: lend an entry for each stored card, k entries for the nearest k, or 32 bytes \
                 for a signature"
            }
            Refusal::Loose => {
                "the table is not sound, so that a search can miss a card: store the cards anew in a cleared table"
            }
        }
    }
}

impl fmt::Display for Refusal {
    fn fmt(&self, f: &mut fmt::Formatter<'_>) -> fmt::Result {
        write!(f, "{} {}: {}", self.number(), self.name(), self.text())
    }
}

impl std::error::Error for Refusal {}

/// The result that a refusal number stands for.
pub(crate) fn done(number: u32) -> Result<(), Refusal> {
    if number == 0 {
        return Ok(());
    }
    Err(Refusal::from_number(number).expect("the library returns 0 or a refusal's number"))
}
