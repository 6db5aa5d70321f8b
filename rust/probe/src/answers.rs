//! The model's answers to the probe functions: what the library is compared with. With a slip they serve to show
//! that the comparison catches a wrong library.

use crate::{Probe, NO_ANSWER};
use model::distance::{distance, Signature, FAULT_BITS, READINGS};
use model::judge::{judge, size_is_right, Clause, Verdict};
use model::record::{parse_table, Record, RECORD};
use model::refusal::{DONE, SIZE, TABLE};

/// One way of being wrong.
#[derive(Clone, Copy, Debug, PartialEq, Eq)]
pub enum Slip {
    /// The judge does not look at this clause.
    Ignored(Clause),
    /// The judge leaves out the last record's own fields.
    LastRecordUnseen,
    /// The judge refuses a radius above the largest distance.
    RadiusJudged,
    /// The judge refuses what is well formed but not sound.
    SoundnessJudged,
    /// 65,600 bytes are taken for a table.
    SizeTooLong,
    /// No bytes are taken for a table.
    SizeZero,
    /// Only whole records are counted, so that 65 bytes are a table of one.
    SizeRoundedDown,
    /// Differences of readings as signed 16-bit numbers.
    ReadingsSigned,
    /// The last 64-bit word of the mask left out.
    MaskShort,
    /// A distance for kind 3, as for kind 1.
    KindThree,
    /// Clear leaves the last byte.
    ClearShort,
    /// Clear writes before it refuses.
    ClearWhenRefused,
    UsedWithFree,
    /// Card 0 found in the lowest free record.
    CardZeroFound,
    /// Only the low 16 bits of cards compared.
    CardNarrow,
    HighestFree,
    /// The timestamp of the used record in the highest slot.
    LastTimestamp,
    /// Timestamps compared as signed numbers.
    TimestampSigned,
    RootAtZero,
    /// The kind byte of record 0, used or not.
    KindOfRecordZero,
    /// Questions answered on a table that is not well formed.
    AnswersAnyTable,
}

impl Slip {
    /// Every slip but the ignored clauses.
    pub const OTHERS: [Slip; 20] = [
        Slip::LastRecordUnseen,
        Slip::RadiusJudged,
        Slip::SoundnessJudged,
        Slip::SizeTooLong,
        Slip::SizeZero,
        Slip::SizeRoundedDown,
        Slip::ReadingsSigned,
        Slip::MaskShort,
        Slip::KindThree,
        Slip::ClearShort,
        Slip::ClearWhenRefused,
        Slip::UsedWithFree,
        Slip::CardZeroFound,
        Slip::CardNarrow,
        Slip::HighestFree,
        Slip::LastTimestamp,
        Slip::TimestampSigned,
        Slip::RootAtZero,
        Slip::KindOfRecordZero,
        Slip::AnswersAnyTable,
    ];
}

/// The model's answers, right ones without a slip.
#[derive(Clone, Copy, Debug, Default)]
pub struct Answers {
    pub slip: Option<Slip>,
}

impl Answers {
    fn has(&self, slip: Slip) -> bool {
        self.slip == Some(slip)
    }

    fn size_is_right(&self, length: usize) -> bool {
        match self.slip {
            Some(Slip::SizeTooLong) => size_is_right(length) || length == 65_600,
            Some(Slip::SizeZero) => size_is_right(length) || length == 0,
            Some(Slip::SizeRoundedDown) => size_is_right(length / RECORD * RECORD),
            _ => size_is_right(length),
        }
    }

    fn table_is_right(&self, table: &[u8]) -> bool {
        let records = parse_table(&table[..table.len() / RECORD * RECORD]);
        let violated = |clause: &Clause| clause.violated_by(&records);
        match self.slip {
            Some(Slip::Ignored(left_out)) => {
                Clause::ALL.iter().filter(|clause| **clause != left_out).all(|c| !violated(c))
            }
            Some(Slip::LastRecordUnseen) => {
                let own = [Clause::FreeNotZero, Clause::TimestampZero, Clause::SlotPastCount];
                let seen = &records[..records.len().saturating_sub(1)];
                Clause::ALL.iter().all(|clause| !clause.violated_by(if own.contains(clause) { seen } else { &records }))
            }
            Some(Slip::RadiusJudged) => {
                judge(table) == Verdict::WellFormed && records.iter().all(|record| record.radius <= 1_048_560)
            }
            Some(Slip::SoundnessJudged) => {
                judge(table) == Verdict::WellFormed && model::soundness::sound(&model::tree::Tree::of(table))
            }
            _ => !Clause::ALL.iter().any(violated),
        }
    }

    /// The answer to a question on the records of a well-formed table.
    fn ask(&self, table: &[u8], question: impl Fn(&[Record]) -> usize) -> u32 {
        let any_table = self.has(Slip::AnswersAnyTable) && size_is_right(table.len());
        if any_table || judge(table) == Verdict::WellFormed {
            question(&parse_table(table)) as u32
        } else {
            NO_ANSWER
        }
    }
}

impl Probe for Answers {
    fn distance(&self, kind: u8, a: &[u8], b: &[u8]) -> u32 {
        let (Ok(a), Ok(b)) = (<&Signature>::try_from(a), <&Signature>::try_from(b)) else { return NO_ANSWER };
        let readings = |s: &Signature, at: usize| i16::from_le_bytes([s[2 * at], s[2 * at + 1]]);
        match (kind, self.slip) {
            (READINGS, Some(Slip::ReadingsSigned)) => {
                (0..16).map(|at| (i32::from(readings(a, at)) - i32::from(readings(b, at))).unsigned_abs()).sum()
            }
            (FAULT_BITS, Some(Slip::MaskShort)) => {
                let without_last =
                    |s: &Signature| -> Signature { std::array::from_fn(|at| if at < 24 { s[at] } else { 0 }) };
                distance(FAULT_BITS, &without_last(a), &without_last(b))
            }
            (3, Some(Slip::KindThree)) => distance(READINGS, a, b),
            (READINGS | FAULT_BITS, _) => distance(kind, a, b),
            _ => NO_ANSWER,
        }
    }

    fn judge(&self, table: &[u8]) -> u32 {
        if !self.size_is_right(table.len()) {
            SIZE
        } else if self.table_is_right(table) {
            DONE
        } else {
            TABLE
        }
    }

    fn clear(&self, table: &mut [u8]) -> u32 {
        let right = self.size_is_right(table.len());
        if right || self.has(Slip::ClearWhenRefused) {
            let end = table.len() - usize::from(self.has(Slip::ClearShort));
            table[..end].fill(0);
        }
        if right {
            DONE
        } else {
            SIZE
        }
    }

    fn used(&self, table: &[u8]) -> u32 {
        let with_free = self.has(Slip::UsedWithFree);
        self.ask(table, |records| records.iter().filter(|record| with_free || record.used()).count())
    }

    fn slot_of(&self, table: &[u8], card: u32) -> u32 {
        self.ask(table, |records| {
            let is_it = |record: &Record| match self.slip {
                Some(Slip::CardZeroFound) => record.card == card,
                Some(Slip::CardNarrow) => record.used() && record.card as u16 == card as u16,
                _ => record.used() && record.card == card,
            };
            records.iter().position(is_it).unwrap_or(records.len())
        })
    }

    fn lowest_free(&self, table: &[u8]) -> u32 {
        let highest = self.has(Slip::HighestFree);
        self.ask(table, |records| {
            let free = |record: &Record| !record.used();
            let found = if highest { records.iter().rposition(free) } else { records.iter().position(free) };
            found.unwrap_or(records.len())
        })
    }

    fn largest_timestamp(&self, table: &[u8]) -> u32 {
        self.ask(table, |records| {
            let mut timestamps = records.iter().filter(|record| record.used()).map(|record| record.timestamp);
            let found = match self.slip {
                Some(Slip::LastTimestamp) => timestamps.next_back(),
                Some(Slip::TimestampSigned) => timestamps.max_by_key(|timestamp| *timestamp as i32),
                _ => timestamps.max(),
            };
            found.unwrap_or(0) as usize
        })
    }

    fn root(&self, table: &[u8]) -> u32 {
        let at_zero = self.has(Slip::RootAtZero);
        self.ask(table, |records| match records.iter().position(Record::is_root) {
            None => records.len(),
            Some(_) if at_zero => 0,
            Some(slot) => slot,
        })
    }

    fn kind(&self, table: &[u8]) -> u32 {
        let of_zero = self.has(Slip::KindOfRecordZero);
        self.ask(table, |records| {
            let kind = records.iter().find(|record| record.used()).map_or(0, |record| record.kind);
            usize::from(if of_zero { records[0].kind } else { kind })
        })
    }
}
