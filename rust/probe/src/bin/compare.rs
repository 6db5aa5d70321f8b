//! Compares the probe functions of the proved library with the model: `compare [seed] [rounds]`. With `--self` the
//! model's own answers stand in for the library; `--self --ignore CLAUSE` lets its judge leave out one clause, which
//! must be seen.

use model::judge::Clause;
use probe::answers::{Answers, Slip};
use probe::groups::{compare_all, DEFAULT_ROUNDS, DEFAULT_SEED};
use probe::Probe;
use std::process::ExitCode;

const USAGE: &str = "usage: compare [seed] [rounds] [--self [--ignore CLAUSE]]";

struct Options {
    seed: u64,
    rounds: usize,
    on_self: bool,
    ignored: Option<Clause>,
}

fn options() -> Result<Options, String> {
    let mut options = Options { seed: DEFAULT_SEED, rounds: DEFAULT_ROUNDS, on_self: false, ignored: None };
    let mut numbers = 0;
    let mut arguments = std::env::args().skip(1);
    while let Some(argument) = arguments.next() {
        match argument.as_str() {
            "--self" => options.on_self = true,
            "--ignore" => options.ignored = Some(clause(&arguments.next().unwrap_or_default())?),
            number => {
                let value: u64 = number.parse().map_err(|_| format!("{number:?} is no number\n{USAGE}"))?;
                match numbers {
                    0 => options.seed = value,
                    1 => options.rounds = value as usize,
                    _ => return Err(USAGE.to_string()),
                }
                numbers += 1;
            }
        }
    }
    if options.ignored.is_some() && !options.on_self {
        return Err(format!("--ignore needs --self\n{USAGE}"));
    }
    Ok(options)
}

fn clause(name: &str) -> Result<Clause, String> {
    let named = Clause::ALL.into_iter().find(|clause| format!("{clause:?}") == name);
    named.ok_or_else(|| format!("{name:?} is no clause; the clauses are {:?}", Clause::ALL))
}

#[cfg(not(feature = "stub"))]
fn library() -> Result<Box<dyn Probe>, String> {
    Ok(Box::new(probe::library::Library))
}

#[cfg(feature = "stub")]
fn library() -> Result<Box<dyn Probe>, String> {
    Err(format!("built without the library (feature stub): only --self can run\n{USAGE}"))
}

fn run() -> Result<bool, String> {
    let options = options()?;
    let probe: Box<dyn Probe> = match options.on_self {
        true => Box::new(Answers { slip: options.ignored.map(Slip::Ignored) }),
        false => library()?,
    };
    println!("seed {}, {} rounds", options.seed, options.rounds);
    let report = compare_all(probe.as_ref(), options.seed, options.rounds, &mut |line| println!("{line}"));
    println!("{} passed, {} failed", report.passed(), report.failed());
    Ok(report.failed() == 0)
}

fn main() -> ExitCode {
    match run() {
        Ok(true) => ExitCode::SUCCESS,
        Ok(false) => ExitCode::FAILURE,
        Err(why) => {
            eprintln!("{why}");
            ExitCode::from(2)
        }
    }
}
