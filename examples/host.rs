//! Asks the host question of a town file: host FILE SOURCE DEPARTURE DESTINATION.
use std::env;
use std::fs::File;
use std::io::{self, Read};
use std::process::ExitCode;

#[link(name = "cabinet", kind = "static")]
unsafe extern "C" {
    fn cabinet_host_question(text: *const u8, length: usize, source: u32, departure: u32, destination: u32) -> u32;
}

/// A refusal is answered as this and its number. Every other answer is a tick below it.
const REFUSED: u32 = 4_294_900_000;

/// One byte more than a town file may have, so that a longer one is seen to be too long without being read to its end.
const ROOM: u64 = 65_537;

/// The tick of the earliest arrival, or the number of the refusal.
fn host_question(text: &[u8], source: u32, departure: u32, destination: u32) -> Result<u32, u32> {
    // SAFETY: the pointer and the length are of one slice, which the function only reads.
    let answer = unsafe { cabinet_host_question(text.as_ptr(), text.len(), source, departure, destination) };
    if answer < REFUSED { Ok(answer) } else { Err(answer - REFUSED) }
}

/// The file, and the source, the departure and the destination.
fn question(words: &[String]) -> Option<(&str, [u32; 3])> {
    let [_, file, source, departure, destination] = words else { return None };
    Some((file, [source.parse().ok()?, departure.parse().ok()?, destination.parse().ok()?]))
}

fn read(file: &str) -> io::Result<Vec<u8>> {
    let mut text = Vec::new();
    File::open(file)?.take(ROOM).read_to_end(&mut text)?;
    Ok(text)
}

fn main() -> ExitCode {
    let words: Vec<String> = env::args().collect();
    let Some((file, [source, departure, destination])) = question(&words) else {
        eprintln!("usage: host FILE SOURCE DEPARTURE DESTINATION");
        return ExitCode::from(2);
    };
    let text = match read(file) {
        Ok(text) => text,
        Err(error) => {
            eprintln!("{file}: {error}");
            return ExitCode::from(2);
        }
    };
    match host_question(&text, source, departure, destination) {
        Ok(tick) => println!("{tick}"),
        Err(number) => {
            println!("refused {number}");
            return ExitCode::FAILURE;
        }
    }
    ExitCode::SUCCESS
}
