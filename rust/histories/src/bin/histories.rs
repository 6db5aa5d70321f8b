//! Compares the library with the model: `histories [seed] [amount]`. The amount is in hundredths of the gate's set, so
//! 1,000 is ten times as much. Ends with `N passed, M failed`, counted in histories and named edges.

use histories::doors::{Linked, Typed};
use histories::groups::{run_all, DEFAULT_AMOUNT, DEFAULT_SEED};
use std::process::ExitCode;

fn main() -> ExitCode {
    let numbers: Result<Vec<u64>, _> = std::env::args().skip(1).map(|argument| argument.parse()).collect();
    let (seed, amount) = match numbers.as_deref() {
        Ok([]) => (DEFAULT_SEED, DEFAULT_AMOUNT),
        Ok([seed]) => (*seed, DEFAULT_AMOUNT),
        Ok([seed, amount]) => (*seed, *amount as usize),
        _ => {
            eprintln!("usage: histories [seed] [amount, in hundredths of the gate's set]");
            return ExitCode::from(2);
        }
    };
    println!("seed {seed}, amount {amount}");
    let report = run_all(Linked, Typed, seed, amount, &mut |line| println!("{line}"));
    println!("{}", report.calls());
    println!("{} passed, {} failed", report.passed, report.failed);
    if report.failed == 0 {
        ExitCode::SUCCESS
    } else {
        ExitCode::FAILURE
    }
}
