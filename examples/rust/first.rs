//! A first program: three failed cards are stored, and a doubtful one is held against them. examples/c/first.c is the
//! same in C; both print examples/first.expected.

use plotvuga::{Refusal, Signature, Table};

fn main() -> Result<(), Refusal> {
    let mut table = Table::new(16)?;
    for (card, reading) in [(11, 500), (12, 900), (13, 505), (13, 505)] {
        match table.insert(card, &Signature::readings([reading; 16]), 4) {
            Ok(_) => println!("card {card}: the call was done"),
            Err(refusal) => println!("card {card}: {}", refusal.text()),
        }
    }
    let near = table.search(&Signature::readings([502; 16]), 100)?;
    print!("{} near cards:", near.cards.len());
    near.cards.iter().for_each(|card| print!(" {card}"));
    println!();
    Ok(())
}
