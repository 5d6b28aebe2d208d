//! Town files, written from networks.

use std::fmt::{self, Write};

use super::networks::random_network;
use super::{OwnedNetwork, Random};
use crate::reference::Form;
use crate::reference::limits::{MAX_LINE, MAX_NAME};

pub const FORMS: [Form; 2] = [Form::Old, Form::New];

/// A town with names and comments, to be written as a file of either form. The file is
/// valid unless too long; the old form cannot say the holds.
pub struct RandomTown {
    pub network: OwnedNetwork,
    names: Vec<(u32, String)>,
    comments: Comments,
}

/// Comments to put in one after the other, each with the number of lines before it.
pub type Comments = Vec<(usize, Vec<u8>)>;

impl RandomTown {
    /// A town that often has no holds.
    pub fn new(random: &mut Random) -> Self {
        let mut network = random_network(random);
        if random.one_in(3) {
            network.holds.fill(0);
        }
        let names = random_names(random, network.junctions);
        let lines = 2 + names.len() + network.arcs();
        let count = random.index(4);
        Self {
            comments: random_comments(random, lines, count),
            network,
            names,
        }
    }

    pub fn text(&self, form: Form) -> Vec<u8> {
        let text = town_text(&self.network, form, &self.names);
        with_comments(&text, &self.comments)
    }
}

/// A network and its town file, valid unless too long.
pub fn random_town(random: &mut Random) -> (OwnedNetwork, Vec<u8>) {
    let form = random.pick(&FORMS);
    random_town_of(random, form)
}

/// A network and its town file of this form, valid unless too long.
pub fn random_town_of(random: &mut Random, form: Form) -> (OwnedNetwork, Vec<u8>) {
    let mut town = RandomTown::new(random);
    if form == Form::Old {
        town.network.holds.fill(0);
    }
    let text = town.text(form);
    (town.network, text)
}

fn random_names(random: &mut Random, junctions: u32) -> Vec<(u32, String)> {
    let chances = random.pick(&[1, 3, 300]);
    let mut names = Vec::new();
    for junction in 0..junctions {
        if random.one_in(chances) {
            names.push((junction, random_name(random)));
        }
    }
    names
}

fn random_name(random: &mut Random) -> String {
    let length = random.up_to_one_of(&[2, MAX_NAME as u32]) as usize;
    let mut name = printed_bytes(random, length);
    put_pieces(random, &mut name);
    for end in [0, length - 1] {
        if name[end] == b' ' {
            name[end] = b'~';
        }
    }
    String::from_utf8(name).expect("printed bytes are ASCII")
}

/// So many comments for a text of so many lines.
pub fn random_comments(random: &mut Random, lines: usize, count: usize) -> Comments {
    let comment = |present| (random.place(present + 1), random_comment(random));
    (lines..lines + count).map(comment).collect()
}

pub fn with_comments(text: &[u8], comments: &Comments) -> Vec<u8> {
    let mut lines = lines(text);
    for (place, comment) in comments {
        lines.insert(*place, comment.clone());
    }
    lines.concat()
}

fn random_comment(random: &mut Random) -> Vec<u8> {
    let length = random.up_to_one_of(&[3, 60, MAX_LINE as u32 - 2]) as usize;
    let mut line = b"CM".to_vec();
    line.extend(printed_bytes(random, length));
    line[2] = b' ';
    put_pieces(random, &mut line[3..]);
    line.push(b'\n');
    line
}

/// What other lines begin or end with, and a converter might take for theirs.
const PIECES: [&str; 14] = [
    "TN",
    "TW",
    "AR",
    "TN 3 2",
    "TW 3 2",
    "AR 0 1 50",
    "AR 1 0 9 36 0",
    "FN 0",
    "JN 0",
    "CM",
    "0",
    " 0",
    " 0 0",
    " 1200",
];

/// Puts such pieces at the start and the end, at times, where they have room.
fn put_pieces(random: &mut Random, bytes: &mut [u8]) {
    for at_end in [false, true] {
        let piece = random.pick(&PIECES).as_bytes();
        let start = if at_end {
            bytes.len().saturating_sub(piece.len())
        } else {
            0
        };
        if random.one_in(2)
            && let Some(place) = bytes[start..].get_mut(..piece.len())
        {
            place.copy_from_slice(piece);
        }
    }
}

fn printed_bytes(random: &mut Random, length: usize) -> Vec<u8> {
    (0..length).map(|_| 32 + random.below(95) as u8).collect()
}

/// Writes a network as a town file. The old form cannot say its holds.
pub fn town_text(network: &OwnedNetwork, form: Form, names: &[(u32, String)]) -> Vec<u8> {
    let mut text = String::new();
    write_town(&mut text, network, form, names).expect("a string takes every line");
    text.into_bytes()
}

fn write_town(
    text: &mut String,
    network: &OwnedNetwork,
    form: Form,
    names: &[(u32, String)],
) -> fmt::Result {
    let mark = match form {
        Form::Old => "TN",
        Form::New => "TW",
    };
    writeln!(
        text,
        "{mark} {} {}",
        network.junctions,
        network.fences.len()
    )?;
    write!(text, "FN")?;
    end_line(text, &network.fences)?;
    for (junction, name) in names {
        writeln!(text, "JN {junction} {name}")?;
    }
    for arc in 0..network.arcs() {
        let (tail, head) = (network.tails[arc], network.heads[arc]);
        write!(text, "AR {tail} {head} {}", network.lengths[arc])?;
        put_numbers(text, network.lent().arc_speeds(arc))?;
        match form {
            Form::Old => end_line::<u16>(text, &[])?,
            Form::New => end_line(text, &[network.holds[arc]])?,
        }
    }
    Ok(())
}

/// Writes each number after one space.
fn put_numbers<T: fmt::Display>(text: &mut String, numbers: &[T]) -> fmt::Result {
    for number in numbers {
        write!(text, " {number}")?;
    }
    Ok(())
}

fn end_line<T: fmt::Display>(text: &mut String, numbers: &[T]) -> fmt::Result {
    put_numbers(text, numbers)?;
    writeln!(text)
}

/// A program's line before the town file.
pub fn question_line(source: u32, departures: &[u32]) -> Vec<u8> {
    let mut line = format!("QU {source}");
    end_line(&mut line, departures).expect("a string takes every number");
    line.into_bytes()
}

/// Adds comments at the end until the text has this size, if it can.
pub fn pad(text: &mut Vec<u8>, size: usize) {
    const LONGEST: usize = MAX_LINE + 1;
    const SHORTEST: usize = 3;
    while text.len() + SHORTEST <= size {
        let room = size - text.len();
        let line = match room {
            ..=LONGEST => room,
            // What is left must be enough for another comment.
            _ => LONGEST.min(room - SHORTEST),
        };
        text.extend(comment_of(line));
    }
}

/// A comment of this many bytes, its mark and its line feed counted.
pub(super) fn comment_of(bytes: usize) -> Vec<u8> {
    let mut line = b"CM ".to_vec();
    line.resize(bytes - 1, b'.');
    line.push(b'\n');
    line
}

/// The lines of a text, each with its line feed.
pub fn lines(text: &[u8]) -> Vec<Vec<u8>> {
    let lines = text.split_inclusive(|&byte| byte == b'\n');
    lines.map(<[u8]>::to_vec).collect()
}
