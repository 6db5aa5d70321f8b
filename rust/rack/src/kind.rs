//! The words for the kinds of signatures, in one place: they are typed, printed so that they can be typed again, and
//! told in sentences. Every kind is named here, so that a new one can't go by another's word.

use plotvuga::Kind;

/// The word before a signature of this kind, as it is typed.
pub fn word(kind: Kind) -> &'static str {
    match kind {
        Kind::Readings => "readings",
        Kind::Faults => "mask",
    }
}

/// What cards of this kind are stored with.
pub fn stored_with(kind: Kind) -> &'static str {
    match kind {
        Kind::Readings => "readings",
        Kind::Faults => "masks",
    }
}

/// That a signature of this kind is at hand.
pub fn is_here(kind: Kind) -> &'static str {
    match kind {
        Kind::Readings => "here are readings",
        Kind::Faults => "here is a mask",
    }
}
