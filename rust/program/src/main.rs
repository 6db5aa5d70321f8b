//! Compares what the bench program prints with what the model prints: `program PATH [seed] [amount]`. Without a path it
//! is the model's own bench program, standard input to standard output, so that the comparison can be tried on itself;
//! that one reads all its input first and is silent where it fails, so what is asked of failures goes red on it.

mod commands;
mod failures;
mod pipe;

use commands::Writer;
use model::calls::Model;
use model::program::{self, COMMAND};
use model::random::Random;
use pipe::Pieces;
use std::io::{Read, Write};
use std::process::ExitCode;
use std::time::Duration;

const DEFAULT_SEED: u64 = 20_260_602;
const DEFAULT_AMOUNT: usize = 40;

/// The inputs that are always tried, by name.
fn named(random: &mut Random) -> Vec<(String, Vec<u8>, Pieces)> {
    let listing = commands::listing();
    let mut list = vec![
        ("nothing".to_string(), Vec::new(), Pieces::Whole),
        ("the listing".to_string(), listing.clone(), Pieces::Whole),
        ("the listing, one byte at a time".to_string(), listing.clone(), Pieces::Bytes),
    ];
    for left in 1..COMMAND {
        let input = [&listing[..], &vec![1; left]].concat();
        list.push((format!("the listing and {left} bytes more"), input, Pieces::Whole));
    }
    list.push(("47 bytes alone".to_string(), vec![4; 47], Pieces::Bytes));
    let operations = (0..=255).flat_map(|operation| commands::noise(random, operation)).collect();
    list.push(("every operation byte, with noise in every other field".to_string(), operations, Pieces::Whole));
    list.push(("530 inserts: full at 512".to_string(), Writer::new(random).fill(random, 530), Pieces::Some));
    list
}

/// The named inputs, so many random histories, and a long one last.
fn inputs(random: &mut Random, amount: usize) -> Vec<(String, Vec<u8>, Pieces)> {
    let mut inputs = named(random);
    for round in 0..amount {
        let many = random.from_to(1, 400) as usize;
        let mut input = Writer::new(random).commands(random, many);
        input.truncate(input.len() - random.pick(&[0, 0, 0, 1, 47]));
        inputs.push((format!("history {}", round + 1), input, random.pick(&[Pieces::Whole, Pieces::Some])));
    }
    let long = Writer::new(random).commands(random, 10_000);
    inputs.push(("a history of 10,000 commands".to_string(), long, Pieces::Whole));
    inputs
}

/// The first line that the program printed otherwise, in words.
fn first_difference(printed: &str, right: &str) -> String {
    let number = printed.lines().zip(right.lines()).take_while(|(own, right)| own == right).count();
    let line = |text: &str| text.lines().nth(number).unwrap_or("the end").to_string();
    format!("line {}: {:?} and not {:?}", number + 1, line(printed), line(right))
}

/// Counts what was tried by whether anything was wrong with it, and tells what was.
#[derive(Default)]
struct Tally {
    passed: usize,
    failed: usize,
}

impl Tally {
    fn note(&mut self, name: &str, wrong: Option<String>) {
        match wrong {
            None => self.passed += 1,
            Some(why) => {
                self.failed += 1;
                println!("FAILED: {name}: {why}");
            }
        }
    }
}

/// What the program at the path prints, held against the model.
fn compare(tally: &mut Tally, path: &str, seed: u64, amount: usize) {
    let inputs = inputs(&mut Random::new(seed), amount);
    let mut lines = 0;
    let mut last = Duration::ZERO;
    for (name, input, pieces) in &inputs {
        let right = program::run(&mut Model, input);
        lines += right.lines().count();
        let wrong = match pipe::run(path, input, *pieces) {
            Ok((printed, time)) => {
                last = time;
                (printed != right).then(|| first_difference(&printed, &right))
            }
            Err(why) => Some(why),
        };
        tally.note(name, wrong);
    }
    println!(
        "{} inputs, {lines} lines compared; the last, 10,000 commands, took {} ms",
        inputs.len(),
        last.as_millis()
    );
}

/// What the program does where its input or output fails.
fn fail(tally: &mut Tally, path: &str) {
    let cases = failures::all(path);
    println!("{} failures of input or output tried", cases.len());
    cases.into_iter().for_each(|(name, wrong)| tally.note(name, wrong));
}

fn stand_in() -> std::io::Result<()> {
    let mut input = Vec::new();
    std::io::stdin().read_to_end(&mut input)?;
    std::io::stdout().write_all(program::run(&mut Model, &input).as_bytes())
}

fn main() -> ExitCode {
    let mut arguments = std::env::args().skip(1);
    let Some(path) = arguments.next() else {
        return if stand_in().is_ok() { ExitCode::SUCCESS } else { ExitCode::FAILURE };
    };
    let numbers: Result<Vec<u64>, _> = arguments.map(|number| number.parse()).collect();
    let (seed, amount) = match numbers.as_deref() {
        Ok([]) => (DEFAULT_SEED, DEFAULT_AMOUNT),
        Ok([seed]) => (*seed, DEFAULT_AMOUNT),
        Ok([seed, amount]) => (*seed, *amount as usize),
        _ => {
            eprintln!("usage: program PATH [seed] [amount]");
            return ExitCode::from(2);
        }
    };
    println!("seed {seed}, {amount} histories");
    let mut tally = Tally::default();
    compare(&mut tally, &path, seed, amount);
    fail(&mut tally, &path);
    println!("{} passed, {} failed", tally.passed, tally.failed);
    if tally.failed == 0 {
        ExitCode::SUCCESS
    } else {
        ExitCode::FAILURE
    }
}
