//! The command record of 48 bytes.

/// The bytes of a command record.
pub const RECORD: usize = 48;

#[derive(Clone, Copy, Debug, PartialEq, Eq)]
pub enum Operation {
    Insert = 1,
    Delete = 2,
    Search = 3,
    Check = 4,
}

/// One command; what its operation does not need is 0.
#[derive(Clone, Debug, PartialEq, Eq)]
pub struct Command {
    pub operation: Operation,
    pub kind: u8,
    pub arity: u8,
    pub card: u32,
    pub radius: u32,
    pub signature: [u8; 32],
}

impl Command {
    pub fn bytes(&self) -> [u8; RECORD] {
        let mut bytes = [0; RECORD];
        bytes[..3].copy_from_slice(&[self.operation as u8, self.kind, self.arity]);
        bytes[4..8].copy_from_slice(&self.card.to_le_bytes());
        bytes[8..12].copy_from_slice(&self.radius.to_le_bytes());
        bytes[16..].copy_from_slice(&self.signature);
        bytes
    }
}
