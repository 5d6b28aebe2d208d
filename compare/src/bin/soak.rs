//! `soak SEED MINUTES`: the tests' comparisons on ever new inputs.

use std::env;
use std::fs;
use std::process::ExitCode;
use std::time::{Duration, Instant};

use compare::comparison::{CHECKS, Check, Difference, Tally};

/// In each round a check runs this part of its tests' cases.
const ROUND: u64 = 500;

fn main() -> ExitCode {
    let arguments: Option<Vec<u64>> = env::args().skip(1).map(|word| word.parse().ok()).collect();
    let Some(&[seed, minutes]) = arguments.as_deref() else {
        eprintln!("usage: soak SEED MINUTES");
        return ExitCode::FAILURE;
    };
    let end = Instant::now() + Duration::from_secs(60 * minutes);
    let mut tallies: Vec<Tally> = CHECKS.iter().map(|_| Tally::default()).collect();
    // Cases are numbered from the seed on, far from another seed's numbers.
    let mut case = seed << 32;
    while Instant::now() < end {
        for (check, tally) in CHECKS.into_iter().zip(&mut tallies) {
            for _ in 0..check.cases.div_ceil(ROUND) {
                if let Err(difference) = check.run_case(case, tally) {
                    report(check, case, &difference);
                    return ExitCode::FAILURE;
                }
                case += 1;
            }
        }
    }
    for (check, tally) in CHECKS.into_iter().zip(&tallies) {
        println!("{}\n{tally}", check.name);
    }
    ExitCode::SUCCESS
}

fn report(check: &Check, case: u64, difference: &Difference) {
    let file = format!("difference-{case}");
    println!("{}, case {case}: {difference}", check.name);
    match fs::write(&file, &difference.input) {
        Ok(()) => println!("the input is in {file}"),
        Err(error) => println!("the input could not be written to {file}: {error}"),
    }
}
