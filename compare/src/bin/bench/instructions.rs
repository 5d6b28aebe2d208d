//! Instructions per call, counted by callgrind.

use std::env;
use std::process::Command;

use crate::work::{Implementation, Row};

/// Two runs that differ only in the number of calls, so that the start of the
/// program falls out of their difference.
const FEW: u64 = 1;
const MANY: u64 = 11;

pub fn instructions(row: &Row, implementation: Implementation) -> u64 {
    let count = |rounds| collected(row, implementation, rounds);
    (count(MANY) - count(FEW)) / (MANY - FEW)
}

fn collected(row: &Row, implementation: Implementation, rounds: u64) -> u64 {
    let program = env::current_exe().expect("the program's own path");
    let output = Command::new("valgrind")
        .args(["--tool=callgrind", "--callgrind-out-file=/dev/null"])
        .arg(program)
        .args(["one", row.operation.name(), row.town.name])
        .args([implementation.name(), &rounds.to_string()])
        .output()
        .expect("valgrind runs");
    let printed = String::from_utf8_lossy(&output.stderr);
    assert!(output.status.success(), "{printed}");
    let count = printed
        .lines()
        .find_map(|line| line.split_once("Collected : "))
        .and_then(|(_, count)| count.trim().parse().ok());
    count.expect("callgrind prints what it collected")
}
