//! Signatures to try: near each other, spread evenly, at the ends of their range, or few distinct ones.

use crate::distance::{Signature, READINGS, SIGNATURE};
use crate::random::Random;

#[derive(Clone, Copy, Debug, PartialEq, Eq)]
pub enum Flavour {
    /// A few centres and a little noise around them, as failures of one cause look.
    Clustered,
    Uniform,
    /// Readings of 0, 1, 65,534, 65,535 and the middle; masks of no bits, all bits, one bit.
    Extreme,
    /// Three to six distinct signatures, so that equal ones are common.
    Few,
    /// Reading 0 alone, small: distances tie often.
    Line,
}

impl Flavour {
    pub const ALL: [Flavour; 5] = [Flavour::Clustered, Flavour::Uniform, Flavour::Extreme, Flavour::Few, Flavour::Line];
}

/// Draws signatures of one kind and flavour.
pub struct Source {
    kind: u8,
    flavour: Flavour,
    centres: Vec<Signature>,
}

impl Source {
    pub fn new(random: &mut Random, kind: u8, flavour: Flavour) -> Source {
        let many = random.from_to(3, 6);
        let centres = (0..many).map(|_| uniform(random)).collect();
        Source { kind, flavour, centres }
    }

    pub fn any_flavour(random: &mut Random, kind: u8) -> Source {
        let flavour = random.pick(&Flavour::ALL);
        Source::new(random, kind, flavour)
    }

    pub fn next(&mut self, random: &mut Random) -> Signature {
        match self.flavour {
            Flavour::Uniform => uniform(random),
            Flavour::Few => random.pick(&self.centres),
            Flavour::Clustered => self.near(random),
            Flavour::Extreme => extreme(random, self.kind),
            Flavour::Line => {
                let mut signature = [0; SIGNATURE];
                signature[0] = random.below(24) as u8;
                signature
            }
        }
    }

    /// A centre with some readings moved by up to 40, or with up to twelve bits turned.
    fn near(&self, random: &mut Random) -> Signature {
        let mut signature = random.pick(&self.centres);
        if self.kind == READINGS {
            for at in (0..SIGNATURE).step_by(2) {
                let reading = i32::from(signature[at]) + 256 * i32::from(signature[at + 1]);
                let moved = (reading + random.below(81) as i32 - 40).clamp(0, 65_535) as u16;
                signature[at..at + 2].copy_from_slice(&moved.to_le_bytes());
            }
        } else {
            for _ in 0..random.below(13) {
                signature[random.below(SIGNATURE)] ^= 1 << random.below(8);
            }
        }
        signature
    }
}

fn uniform(random: &mut Random) -> Signature {
    std::array::from_fn(|_| random.byte())
}

fn extreme(random: &mut Random, kind: u8) -> Signature {
    let mut signature = [0; SIGNATURE];
    if kind == READINGS {
        let all = random.percent(30).then(|| random.pick(&[0u16, 65_535]));
        for at in (0..SIGNATURE).step_by(2) {
            let reading = all.unwrap_or_else(|| random.pick(&[0, 1, 255, 256, 32_767, 32_768, 65_534, 65_535]));
            signature[at..at + 2].copy_from_slice(&reading.to_le_bytes());
        }
    } else {
        match random.below(4) {
            0 => {}
            1 => signature = [255; SIGNATURE],
            2 => signature[random.below(SIGNATURE)] = 1 << random.below(8),
            _ => (0..4).for_each(|word| {
                let byte = random.pick(&[0, 255]);
                signature[8 * word..8 * word + 8].fill(byte);
            }),
        }
    }
    signature
}
