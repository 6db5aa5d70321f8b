//! The two distances, by other formulas than the paper's own, so that a slip in one is not repeated in the other.

pub const READINGS: u8 = 1;
pub const FAULT_BITS: u8 = 2;

/// The bytes of a signature of either kind.
pub const SIGNATURE: usize = 32;

pub type Signature = [u8; SIGNATURE];

/// The distance of the given kind, 1 or 2.
pub fn distance(kind: u8, a: &Signature, b: &Signature) -> u32 {
    match kind {
        READINGS => readings(a, b),
        FAULT_BITS => fault_bits(a, b),
        _ => panic!("no distance of kind {kind}"),
    }
}

/// Kind 1: an absolute difference is twice the larger reading less both, so the sum needs no difference at all.
fn readings(a: &Signature, b: &Signature) -> u32 {
    let of = |s: &Signature| -> [i64; 16] {
        std::array::from_fn(|reading| i64::from(s[2 * reading]) + 256 * i64::from(s[2 * reading + 1]))
    };
    let (a, b) = (of(a), of(b));
    let larger: i64 = a.iter().zip(&b).map(|(x, y)| *x.max(y)).sum();
    (2 * larger - a.iter().sum::<i64>() - b.iter().sum::<i64>()) as u32
}

/// Kind 2: the bits of each mask, less those in both twice.
fn fault_bits(a: &Signature, b: &Signature) -> u32 {
    let ones = |s: &mut dyn Iterator<Item = u8>| -> u32 { s.map(|byte| u32::from(ONES[usize::from(byte)])).sum() };
    let both = ones(&mut a.iter().zip(b).map(|(x, y)| x & y));
    ones(&mut a.iter().copied()) + ones(&mut b.iter().copied()) - 2 * both
}

/// The number of one bits of each byte: those of its upper seven bits, and its lowest.
const ONES: [u8; 256] = {
    let mut table = [0; 256];
    let mut byte = 1;
    while byte < 256 {
        table[byte] = table[byte / 2] + (byte % 2) as u8;
        byte += 1;
    }
    table
};

#[cfg(test)]
mod tests {
    use super::*;
    use crate::random::Random;
    use crate::signature::{self, Flavour};

    /// The mask as a text of 256 noughts and ones.
    fn bits(s: &Signature) -> String {
        s.iter().map(|byte| format!("{byte:08b}")).collect()
    }

    /// The distance of readings counted in unit steps over sorted ends, for small readings only.
    fn steps(a: &Signature, b: &Signature) -> u32 {
        (0..16)
            .map(|reading| {
                let at = |s: &Signature| u16::from_le_bytes([s[2 * reading], s[2 * reading + 1]]);
                let mut ends = [at(a), at(b)];
                ends.sort();
                (ends[0]..ends[1]).count() as u32
            })
            .sum()
    }

    #[test]
    fn both_kinds_agree_with_counting() {
        let mut random = Random::new(1);
        for round in 0..3000 {
            let flavour = Flavour::ALL[round % Flavour::ALL.len()];
            let mut source = signature::Source::new(&mut random, READINGS, flavour);
            let (a, b) = (source.next(&mut random), source.next(&mut random));
            if round % 30 == 0 {
                assert_eq!(distance(READINGS, &a, &b), steps(&a, &b));
            }
            let unlike = bits(&a).chars().zip(bits(&b).chars()).filter(|(x, y)| x != y).count();
            assert_eq!(distance(FAULT_BITS, &a, &b), unlike as u32);
        }
    }

    #[test]
    fn the_four_laws_on_samples() {
        let mut random = Random::new(2);
        for kind in [READINGS, FAULT_BITS] {
            for round in 0..2000 {
                let flavour = Flavour::ALL[round % Flavour::ALL.len()];
                let mut source = signature::Source::new(&mut random, kind, flavour);
                let (a, b, c) = (source.next(&mut random), source.next(&mut random), source.next(&mut random));
                assert_eq!(distance(kind, &a, &a), 0);
                assert_eq!(distance(kind, &a, &b), distance(kind, &b, &a));
                assert!(distance(kind, &a, &b) <= distance(kind, &a, &c) + distance(kind, &c, &b));
                assert!(distance(kind, &a, &b) <= 1_048_560);
            }
        }
    }
}
