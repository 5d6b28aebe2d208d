//! `bench`: measures the verified library beside the reference, in one run on
//! the same inputs, and prints the results as Markdown.
//!
//! `bench one OPERATION TOWN IMPLEMENTATION ROUNDS` makes the calls and nothing
//! else, for callgrind to count.

mod instructions;
mod report;
mod times;
mod work;

use std::env;
use std::process::ExitCode;

use work::{Implementation, Row};

fn main() -> ExitCode {
    let arguments: Vec<String> = env::args().skip(1).collect();
    let words: Vec<&str> = arguments.iter().map(String::as_str).collect();
    match words[..] {
        [] => {
            report::print();
            ExitCode::SUCCESS
        }
        ["one", ref case @ ..] => match one(case) {
            Some(()) => ExitCode::SUCCESS,
            None => usage(),
        },
        _ => usage(),
    }
}

fn usage() -> ExitCode {
    eprintln!("usage: bench [one OPERATION TOWN IMPLEMENTATION ROUNDS]");
    ExitCode::FAILURE
}

/// Makes the calls, or returns `None` if the words do not say which.
fn one(words: &[&str]) -> Option<()> {
    let &[operation, town, implementation, rounds] = words else {
        return None;
    };
    let row = Row::named(operation, town)?;
    let implementation = Implementation::named(implementation)?;
    let rounds: u32 = rounds.parse().ok()?;
    let mut call = row.call(implementation);
    for _ in 0..rounds {
        call();
    }
    Some(())
}
