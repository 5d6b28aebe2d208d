//! The measured values as Markdown tables.

use std::fs;
use std::process::Command;

use compare::inputs::towns::Town;
use compare::reference::limits::MAX_TEXT;

use crate::instructions::instructions;
use crate::times::times;
use crate::work::{Implementation, Operation, Row};

/// What was measured of one row, first of the library, then of the reference.
struct Measured {
    row: Row,
    instructions: [f64; 2],
    nanoseconds: [f64; 2],
}

impl Measured {
    fn of(row: Row) -> Self {
        Self {
            instructions: Implementation::BOTH.map(|one| instructions(&row, one) as f64),
            nanoseconds: times(&row),
            row,
        }
    }
}

pub fn print() {
    print_conditions();
    print_towns();
    let measured: Vec<Measured> = Row::all().into_iter().map(Measured::of).collect();
    print_rows(&measured);
    print_throughput(&measured);
    print_growth(&measured);
}

fn print_conditions() {
    println!("Machine: {}", processor());
    println!();
    println!("Tools: {}; {}", version("rustc"), version("valgrind"));
    println!();
    println!("Lent buffers are not cleared between calls: the same ones are lent again.");
    println!("Instructions are per call, from callgrind; times are medians per call.");
}

fn processor() -> String {
    let info = fs::read_to_string("/proc/cpuinfo").unwrap_or_default();
    let model = info
        .lines()
        .find_map(|line| line.strip_prefix("model name"));
    let model = model.map(|rest| rest.trim_start_matches([':', '\t', ' ']));
    model.unwrap_or("unknown").to_owned()
}

fn version(tool: &str) -> String {
    let output = Command::new(tool).arg("--version").output();
    let printed = output.map(|output| output.stdout).unwrap_or_default();
    String::from_utf8_lossy(&printed).trim().to_owned()
}

fn print_towns() {
    println!();
    println!("| town | junctions | arcs | intervals | speeds | bytes |");
    println!("|---|--:|--:|--:|--:|--:|");
    for town in Town::NAMES.into_iter().filter_map(Town::named) {
        let network = &town.network;
        println!(
            "| {} | {} | {} | {} | {} | {} |",
            town.name,
            network.junctions,
            network.arcs(),
            network.fences.len(),
            network.speeds.len(),
            file_size(&town),
        );
    }
}

fn file_size(town: &Town) -> String {
    match town.text.len() {
        size @ ..=MAX_TEXT => size.to_string(),
        _ => "more than a file holds".to_owned(),
    }
}

fn print_rows(measured: &[Measured]) {
    println!();
    println!(
        "| operation | town | Rattle instructions | Rust | ratio | Rattle time | Rust | ratio |"
    );
    println!("|---|---|--:|--:|--:|--:|--:|--:|");
    for Measured {
        row,
        instructions,
        nanoseconds,
    } in measured
    {
        let [rattle, rust] = instructions;
        let [rattle_time, rust_time] = nanoseconds.map(|time| time / 1_000.0);
        println!(
            "| {} | {} | {rattle} | {rust} | {:.2} | {rattle_time:.2} µs | {rust_time:.2} µs | {:.2} |",
            row.operation.name(),
            row.town.name,
            rattle / rust,
            rattle_time / rust_time,
        );
    }
}

fn print_throughput(measured: &[Measured]) {
    println!();
    println!("| bytes per second | town | Rattle | Rust |");
    println!("|---|---|--:|--:|");
    for Measured {
        row, nanoseconds, ..
    } in measured
    {
        if row.operation.reads_a_text() {
            let bytes = row.town.text.len() as f64;
            let [rattle, rust] = nanoseconds.map(|time| bytes / time * 1_000.0);
            println!(
                "| {} | {} | {rattle:.0} MB/s | {rust:.0} MB/s |",
                row.operation.name(),
                row.town.name,
            );
        }
    }
}

/// By what factor each operation grows from the small town, if it is measured on it, to the
/// large one.
fn print_growth(measured: &[Measured]) {
    println!();
    println!("| small to large | Rattle instructions | Rust | Rattle time | Rust |");
    println!("|---|--:|--:|--:|--:|");
    for operation in Operation::ALL.into_iter().filter(|one| one.takes("small")) {
        let find = |town| {
            let wanted =
                |one: &&Measured| one.row.operation == operation && one.row.town.name == town;
            measured
                .iter()
                .find(wanted)
                .expect("it is measured on both towns")
        };
        let (small, large) = (find("small"), find("large"));
        let [rattle, rust] = factors(large.instructions, small.instructions);
        let [rattle_time, rust_time] = factors(large.nanoseconds, small.nanoseconds);
        println!(
            "| {} | × {rattle:.1} | × {rust:.1} | × {rattle_time:.1} | × {rust_time:.1} |",
            operation.name()
        );
    }
}

fn factors(large: [f64; 2], small: [f64; 2]) -> [f64; 2] {
    [large[0] / small[0], large[1] / small[1]]
}
