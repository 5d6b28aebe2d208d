//! The built programs, through standard input, standard output and their exit
//! status.

use std::env;
use std::io::Write;
use std::path::{Path, PathBuf};
use std::process::{Command, Stdio};

use crate::reference;

pub struct Program {
    pub name: &'static str,
    /// What it should print.
    pub(super) reference: fn(&[u8]) -> Vec<u8>,
}

pub const ARRIVALS: Program = Program {
    name: "arrivals",
    reference: reference::arrivals_text,
};

pub const SHEET: Program = Program {
    name: "sheet",
    reference: reference::sheet_text,
};

pub const TO_NEW: Program = Program {
    name: "to_new",
    reference: reference::to_new_text,
};

pub const TO_OLD: Program = Program {
    name: "to_old",
    reference: reference::to_old_text,
};

/// Where the programs stand, unless the environment names another for one, in
/// the variable of its name in capitals.
const BUILT: &str = concat!(env!("CARGO_MANIFEST_DIR"), "/../target/bin");

/// What a program printed, and its exit status; none where a signal ended it.
#[derive(Debug, PartialEq)]
pub struct Run {
    pub printed: String,
    pub status: Option<i32>,
}

impl Run {
    /// Of a program that ended by itself.
    pub fn ended(printed: &str, status: i32) -> Self {
        Self {
            printed: printed.to_owned(),
            status: Some(status),
        }
    }
}

impl Program {
    /// Runs the program on this input.
    pub fn run(&self, input: &[u8]) -> Run {
        let variable = self.name.to_uppercase();
        let built = || Path::new(BUILT).join(self.name);
        let program = env::var_os(&variable).map_or_else(built, PathBuf::from);
        let run = run_program(&program, input);
        run.unwrap_or_else(|error| {
            panic!(
                "cannot run {}: {error}; build the program first, or set {variable}",
                program.display()
            )
        })
    }
}

fn run_program(program: &Path, input: &[u8]) -> std::io::Result<Run> {
    let mut child = Command::new(program)
        .stdin(Stdio::piped())
        .stdout(Stdio::piped())
        .spawn()?;
    let mut stdin = child.stdin.take().expect("a pipe was asked for");
    // The program may stop reading once it knows its answer, which breaks the
    // pipe; what it prints is judged all the same.
    let _ = stdin.write_all(input);
    drop(stdin);
    let output = child.wait_with_output()?;
    Ok(Run {
        printed: String::from_utf8_lossy(&output.stdout).into_owned(),
        status: output.status.code(),
    })
}
