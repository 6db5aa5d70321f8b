//! The bench program: command records of 48 bytes in, one line out for each.

use crate::index::{Answer, Index, Search};
use crate::record::RECORD;
use crate::refusal::ARGUMENT;

/// The bytes of a command record.
pub const COMMAND: usize = 48;
/// The places of the program's table and of its list.
pub const PLACES: usize = 512;

pub const INSERT: u8 = 1;
pub const DELETE: u8 = 2;
pub const SEARCH: u8 = 3;
pub const CHECK: u8 = 4;

/// One command record; unused bytes are 0.
pub fn command(operation: u8, kind: u8, arity: u8, card: u32, radius: u32, signature: &[u8]) -> Vec<u8> {
    let mut bytes = vec![operation, kind, arity, 0];
    bytes.extend(card.to_le_bytes());
    bytes.extend(radius.to_le_bytes());
    bytes.extend([0; 4]);
    bytes.extend(signature);
    assert_eq!(bytes.len(), COMMAND);
    bytes
}

/// What the program prints for this input, over any index.
pub fn run(index: &mut dyn Index, input: &[u8]) -> String {
    let mut table = vec![0; PLACES * RECORD];
    let mut list = vec![0; PLACES];
    let mut printed = String::new();
    let mut commands = input.chunks_exact(COMMAND);
    for (before, bytes) in commands.by_ref().enumerate() {
        let number = |at: usize| u32::from_le_bytes(bytes[at..at + 4].try_into().unwrap());
        let (kind, arity, card, radius, signature) = (bytes[1], bytes[2], number(4), number(8), &bytes[16..]);
        let answer = match bytes[0] {
            INSERT => index.insert(&mut table, card, kind, signature, arity),
            DELETE => index.delete(&mut table, card, arity),
            SEARCH => index.search(&table, Search { kind, signature, radius, list: &mut list }),
            CHECK => index.check(&table),
            _ => Answer::refused(ARGUMENT),
        };
        printed += &format!("{} {} {} {}", before + 1, answer.refusal, answer.count, answer.found);
        list[..answer.found as usize].iter().for_each(|card| printed += &format!(" {card}"));
        printed += "\n";
    }
    match commands.remainder().len() {
        0 => {}
        left => printed += &format!("cut {left}\n"),
    }
    printed
}
