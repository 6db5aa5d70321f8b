//! What a card is known by.

/// What a signature's 32 bytes mean.
#[derive(Clone, Copy, Debug, PartialEq, Eq, Hash)]
pub enum Kind {
    /// Sixteen 16-bit readings; the distance is the sum of their absolute differences, at most 1,048,560.
    Readings = 1,
    /// 256 fault bits; the distance is the number of bits that differ, at most 256.
    Faults = 2,
}

impl Kind {
    /// The kind's number, 1 or 2.
    pub fn number(self) -> u8 {
        self as u8
    }

    /// The kind of that number; none but for 1 and 2.
    pub fn from_number(number: u8) -> Option<Kind> {
        [Kind::Readings, Kind::Faults].into_iter().find(|kind| kind.number() == number)
    }
}

/// Sixteen readings, or a mask of 256 fault bits.
#[derive(Clone, Copy, Debug, PartialEq, Eq, Hash)]
pub struct Signature {
    kind: Kind,
    bytes: [u8; Signature::BYTES],
}

impl Signature {
    /// The bytes of a signature of either kind.
    pub const BYTES: usize = 32;

    /// A signature of sixteen readings. Every number is an ordinary reading.
    pub fn readings(readings: [u16; 16]) -> Signature {
        let mut bytes = [0; Signature::BYTES];
        for (place, reading) in bytes.chunks_exact_mut(2).zip(readings) {
            place.copy_from_slice(&reading.to_le_bytes());
        }
        Signature { kind: Kind::Readings, bytes }
    }

    /// A signature of 256 fault bits, in four words.
    pub fn faults(words: [u64; 4]) -> Signature {
        let mut bytes = [0; Signature::BYTES];
        for (place, word) in bytes.chunks_exact_mut(8).zip(words) {
            place.copy_from_slice(&word.to_le_bytes());
        }
        Signature { kind: Kind::Faults, bytes }
    }

    /// The signature that these bytes hold, low byte first.
    pub fn from_bytes(kind: Kind, bytes: [u8; Signature::BYTES]) -> Signature {
        Signature { kind, bytes }
    }

    /// What its bytes mean.
    pub fn kind(&self) -> Kind {
        self.kind
    }

    /// Its bytes, low byte first.
    pub fn bytes(&self) -> &[u8; Signature::BYTES] {
        &self.bytes
    }

    /// Its sixteen readings; none if it is a mask.
    pub fn as_readings(&self) -> Option<[u16; 16]> {
        let reading = |place: usize| u16::from_le_bytes([self.bytes[2 * place], self.bytes[2 * place + 1]]);
        (self.kind == Kind::Readings).then(|| std::array::from_fn(reading))
    }

    /// Its fault bits in four words; none if it is readings.
    pub fn as_faults(&self) -> Option<[u64; 4]> {
        let word = |place: usize| u64::from_le_bytes(std::array::from_fn(|byte| self.bytes[8 * place + byte]));
        (self.kind == Kind::Faults).then(|| std::array::from_fn(word))
    }
}

impl From<[u16; 16]> for Signature {
    fn from(readings: [u16; 16]) -> Signature {
        Signature::readings(readings)
    }
}

impl From<[u64; 4]> for Signature {
    fn from(words: [u64; 4]) -> Signature {
        Signature::faults(words)
    }
}
