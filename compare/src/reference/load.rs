use std::io::BufRead;

use super::limits::{
    DAY, MAX_ARCS, MAX_HOLD, MAX_INTERVALS, MAX_JUNCTIONS, MAX_LENGTH, MAX_LINE, MAX_NAME,
    MAX_SPEED, MAX_TEXT, SIX_DIGITS,
};
use super::{LoadRefusal, Network, Refusal};

#[derive(Clone, Copy, Debug, PartialEq, Eq)]
pub struct Counts {
    pub junctions: u32,
    pub intervals: u32,
    pub arcs: u32,
}

/// The two forms of a town file.
#[derive(Clone, Copy, Debug, Default, PartialEq, Eq)]
pub enum Form {
    /// It has `TN`, and no holds.
    #[default]
    Old,
    /// It has `TW`, and a hold at the end of each `AR` line.
    New,
}

impl Form {
    pub fn other(self) -> Self {
        match self {
            Self::Old => Self::New,
            Self::New => Self::Old,
        }
    }
}

/// Reads a town file into the lent tables.
pub fn load(
    text: &[u8],
    fences: &mut [u32],
    tails: &mut [u16],
    heads: &mut [u16],
    lengths: &mut [u32],
    holds: &mut [u16],
    speeds: &mut [u8],
) -> Result<Counts, LoadRefusal> {
    let town = Town::read(text)?;
    let long_enough = fences.len() >= town.fences.len()
        && tails.len() >= town.tails.len()
        && heads.len() >= town.heads.len()
        && lengths.len() >= town.lengths.len()
        && holds.len() >= town.holds.len()
        && speeds.len() >= town.speeds.len();
    if !long_enough {
        return Err(Refusal::TABLE_TOO_SHORT.at_line(0));
    }
    fences[..town.fences.len()].copy_from_slice(&town.fences);
    tails[..town.tails.len()].copy_from_slice(&town.tails);
    heads[..town.heads.len()].copy_from_slice(&town.heads);
    lengths[..town.lengths.len()].copy_from_slice(&town.lengths);
    holds[..town.holds.len()].copy_from_slice(&town.holds);
    speeds[..town.speeds.len()].copy_from_slice(&town.speeds);
    Ok(Counts {
        junctions: town.junctions,
        intervals: town.intervals as u32,
        arcs: town.tails.len() as u32,
    })
}

/// The part of the text that names the junction, empty if there is none.
pub fn name(text: &[u8], junction: u32) -> &[u8] {
    // A refused text names nothing, as the empty town does.
    let town = Town::read(text).unwrap_or_default();
    let named = town.names.iter().find(|&&(named, _)| named == junction);
    named.map_or(&[], |&(_, name)| name)
}

/// A town file as read; its values are within the network's limits.
#[derive(Default)]
pub(super) struct Town<'t> {
    form: Form,
    junctions: u32,
    intervals: usize,
    names: Vec<(u32, &'t [u8])>,
    fences: Vec<u32>,
    tails: Vec<u16>,
    heads: Vec<u16>,
    lengths: Vec<u32>,
    holds: Vec<u16>,
    speeds: Vec<u8>,
}

impl<'t> Town<'t> {
    pub fn read(text: &'t [u8]) -> Result<Self, LoadRefusal> {
        if text.len() > MAX_TEXT {
            return Err(Refusal::TEXT_TOO_LONG.at_line(0));
        }
        let mut reader = Reader::for_text(text);
        let mut line_number = 0;
        let mut rest = text;
        while !rest.is_empty() {
            line_number += 1;
            let reply = reader.line(take_line(&mut rest));
            reply.map_err(|refusal| refusal.at_line(line_number))?;
        }
        if reader.turn < Turn::Junctions {
            return Err(Refusal::MISSING.at_line(line_number + 1));
        }
        Ok(reader.town)
    }

    pub fn form(&self) -> Form {
        self.form
    }

    pub fn network(&self) -> Network<'_> {
        Network {
            junctions: self.junctions,
            fences: &self.fences,
            tails: &self.tails,
            heads: &self.heads,
            lengths: &self.lengths,
            holds: &self.holds,
            speeds: &self.speeds,
        }
    }
}

/// What may stand next, comments apart.
#[derive(Clone, Copy, PartialEq, PartialOrd)]
enum Turn {
    Counts,
    Fences,
    Junctions,
    Arcs,
}

struct Reader<'t> {
    town: Town<'t>,
    turn: Turn,
    /// The fields of the present line.
    numbers: Vec<u32>,
}

impl<'t> Reader<'t> {
    /// Makes room for all that the text can hold, so that no table must grow;
    /// a number takes at least two bytes.
    fn for_text(text: &[u8]) -> Self {
        Self {
            town: Town {
                tails: Vec::with_capacity(MAX_ARCS),
                heads: Vec::with_capacity(MAX_ARCS),
                lengths: Vec::with_capacity(MAX_ARCS),
                holds: Vec::with_capacity(MAX_ARCS),
                speeds: Vec::with_capacity(text.len() / 2),
                ..Town::default()
            },
            turn: Turn::Counts,
            numbers: Vec::with_capacity(MAX_LINE / 2),
        }
    }

    fn line(&mut self, line: &'t [u8]) -> Result<(), Refusal> {
        let line = line.strip_suffix(b"\n").ok_or(Refusal::NO_LINE_FEED)?;
        Refusal::LINE_TOO_LONG.unless(line.len() <= MAX_LINE)?;
        let (mark, fields) = line.split_first_chunk().ok_or(Refusal::UNKNOWN_MARK)?;
        match mark {
            b"TN" => self.counts(Form::Old, fields),
            b"TW" => self.counts(Form::New, fields),
            b"FN" => self.fences(fields),
            b"JN" => self.junction(fields),
            b"AR" => self.arc(fields),
            b"CM" => Refusal::FORM.unless(is_comment(fields)),
            _ => Err(Refusal::UNKNOWN_MARK),
        }
    }

    fn counts(&mut self, form: Form, fields: &[u8]) -> Result<(), Refusal> {
        Refusal::OUT_OF_TURN.unless(self.turn == Turn::Counts)?;
        let Some(&[junctions, intervals]) = take_numbers(fields, &mut self.numbers) else {
            return Err(Refusal::FORM);
        };
        let intervals = intervals as usize;
        let within =
            (1..=MAX_JUNCTIONS).contains(&junctions) && (1..=MAX_INTERVALS).contains(&intervals);
        Refusal::LIMITS.unless(within)?;
        self.town.form = form;
        self.town.junctions = junctions;
        self.town.intervals = intervals;
        self.turn = Turn::Fences;
        Ok(())
    }

    fn fences(&mut self, fields: &[u8]) -> Result<(), Refusal> {
        Refusal::OUT_OF_TURN.unless(self.turn == Turn::Fences)?;
        let fences = take_numbers(fields, &mut self.numbers).ok_or(Refusal::FORM)?;
        Refusal::FORM.unless(fences.len() == self.town.intervals)?;
        let within = fences[0] == 0
            && fences.is_sorted_by(|earlier, later| earlier < later)
            && fences.iter().all(|&fence| fence < DAY);
        Refusal::LIMITS.unless(within)?;
        self.town.fences.extend(fences);
        self.turn = Turn::Junctions;
        Ok(())
    }

    fn junction(&mut self, fields: &'t [u8]) -> Result<(), Refusal> {
        Refusal::OUT_OF_TURN.unless(self.turn == Turn::Junctions)?;
        let (junction, rest) = take_number(fields).ok_or(Refusal::FORM)?;
        let name = rest.strip_prefix(b" ").ok_or(Refusal::FORM)?;
        Refusal::FORM.unless(is_name(name))?;
        let town = &mut self.town;
        let rises = town.names.last().is_none_or(|&(last, _)| last < junction);
        Refusal::LIMITS.unless(junction < town.junctions && rises)?;
        town.names.push((junction, name));
        Ok(())
    }

    fn arc(&mut self, fields: &[u8]) -> Result<(), Refusal> {
        Refusal::OUT_OF_TURN.unless(self.turn >= Turn::Junctions)?;
        let numbers = take_numbers(fields, &mut self.numbers).ok_or(Refusal::FORM)?;
        let &[tail, head, length, ref rest @ ..] = numbers else {
            return Err(Refusal::FORM);
        };
        let town = &mut self.town;
        let (&hold, speeds) = match town.form {
            Form::Old => (&0, rest),
            Form::New => rest.split_last().ok_or(Refusal::FORM)?,
        };
        Refusal::FORM.unless(speeds.len() == town.intervals)?;
        let within = tail < town.junctions
            && head < town.junctions
            && tail != head
            && (1..=MAX_LENGTH).contains(&length)
            && hold <= MAX_HOLD.into()
            && speeds.iter().all(|&speed| speed <= MAX_SPEED.into())
            && town.tails.len() < MAX_ARCS;
        Refusal::LIMITS.unless(within)?;
        town.tails.push(tail as u16);
        town.heads.push(head as u16);
        town.lengths.push(length);
        town.holds.push(hold as u16);
        town.speeds.extend(speeds.iter().map(|&speed| speed as u8));
        self.turn = Turn::Arcs;
        Ok(())
    }
}

/// Takes a line with its line feed, or all that is left.
pub(super) fn take_line<'t>(text: &mut &'t [u8]) -> &'t [u8] {
    let start = *text;
    let length = text.skip_until(b'\n').expect("a slice can be read");
    &start[..length]
}

/// Takes the whole rest of a line as numbers, each after one space.
pub(super) fn take_numbers<'n>(mut fields: &[u8], numbers: &'n mut Vec<u32>) -> Option<&'n [u32]> {
    numbers.clear();
    while !fields.is_empty() {
        let (number, rest) = take_number(fields)?;
        numbers.push(number);
        fields = rest;
    }
    Some(numbers)
}

/// Takes a space and a number; returns the number and what stands after it.
#[inline]
fn take_number(fields: &[u8]) -> Option<(u32, &[u8])> {
    let [b' ', first @ b'0'..=b'9', rest @ ..] = fields else {
        return None;
    };
    let mut number = u32::from(first - b'0');
    let mut rest = rest;
    while let [digit @ b'0'..=b'9', after @ ..] = rest {
        // A leading zero, or seven digits, take no further one.
        if !(1..=SIX_DIGITS).contains(&number) {
            return None;
        }
        number = 10 * number + u32::from(digit - b'0');
        rest = after;
    }
    Some((number, rest))
}

fn is_printed(byte: &u8) -> bool {
    matches!(byte, 32..=126)
}

fn is_name(name: &[u8]) -> bool {
    (1..=MAX_NAME).contains(&name.len())
        && name.iter().all(is_printed)
        && !name.starts_with(b" ")
        && !name.ends_with(b" ")
}

/// A comment is the mark alone, or the mark, a space and any printed bytes.
fn is_comment(fields: &[u8]) -> bool {
    fields.is_empty() || fields[0] == b' ' && fields.iter().all(is_printed)
}

#[cfg(test)]
mod tests {
    use super::*;
    use crate::inputs::examples::{HELD_TOWN, HELD_TOWN_TEXT, TOWN, TOWN_TEXT};

    /// Loads the paper's town, or the one with holds, into tables of these lengths.
    fn load_into(form: Form, lengths: [usize; 6]) -> Result<Counts, LoadRefusal> {
        let (town, text) = match form {
            Form::Old => (TOWN, TOWN_TEXT),
            Form::New => (HELD_TOWN, HELD_TOWN_TEXT),
        };
        let mut fences = vec![7; lengths[0]];
        let mut tails = vec![7; lengths[1]];
        let mut heads = vec![7; lengths[2]];
        let mut metres = vec![7; lengths[3]];
        let mut holds = vec![7; lengths[4]];
        let mut speeds = vec![7; lengths[5]];
        let reply = load(
            text.as_bytes(),
            &mut fences,
            &mut tails,
            &mut heads,
            &mut metres,
            &mut holds,
            &mut speeds,
        );
        let written = reply.map_or(0, |_| 1);
        assert_eq!(fences, kept_after(&town.fences[..2 * written], lengths[0]));
        assert_eq!(tails, kept_after(&town.tails[..3 * written], lengths[1]));
        assert_eq!(heads, kept_after(&town.heads[..3 * written], lengths[2]));
        assert_eq!(metres, kept_after(&town.lengths[..3 * written], lengths[3]));
        assert_eq!(holds, kept_after(&town.holds[..3 * written], lengths[4]));
        assert_eq!(speeds, kept_after(&town.speeds[..6 * written], lengths[5]));
        reply
    }

    /// The entries, and behind them what stood in the table before.
    fn kept_after<T: Copy + From<u8>>(entries: &[T], length: usize) -> Vec<T> {
        let mut table = entries.to_vec();
        table.resize(length, T::from(7));
        table
    }

    #[test]
    fn loads_the_papers_town_and_one_with_holds() {
        let counts = Counts {
            junctions: 3,
            intervals: 2,
            arcs: 3,
        };
        for form in [Form::Old, Form::New] {
            assert_eq!(load_into(form, [2, 3, 3, 3, 3, 6]), Ok(counts));
            assert_eq!(load_into(form, [3, 5, 4, 9, 8, 7]), Ok(counts));
        }
    }

    #[test]
    fn refuses_each_table_too_short_and_changes_none() {
        for form in [Form::Old, Form::New] {
            for short in 0..6 {
                let mut lengths = [2, 3, 3, 3, 3, 6];
                lengths[short] -= 1;
                let refused = Refusal::TABLE_TOO_SHORT.at_line(0);
                assert_eq!(load_into(form, lengths), Err(refused));
            }
        }
    }

    #[test]
    fn names_are_parts_of_the_text() {
        let text = b"TN 3 1\nFN 0\nJN 0 Mill Cross\nJN 2 a  b\n";
        let named = name(text, 0);
        assert_eq!(named, b"Mill Cross");
        assert_eq!(named.as_ptr(), text[17..].as_ptr());
        assert_eq!(name(text, 2), b"a  b");
        assert_eq!(name(text, 1), b"");
        assert_eq!(name(text, 3), b"");
        assert_eq!(name(text, u32::MAX), b"");
        let text = b"TW 3 1\nFN 0\nJN 1 TN\nAR 0 1 1 1 0\n";
        assert_eq!(name(text, 1).as_ptr(), text[17..].as_ptr());
        assert_eq!(name(text, 1), b"TN");
    }

    #[test]
    fn a_refused_text_names_nothing() {
        assert_eq!(name(b"TN 3 1\nFN 0\nJN 0 a\nXX\n", 0), b"");
        assert_eq!(name(b"TN 3 1\nFN 0\nJN 0 a\nCM", 0), b"");
        assert_eq!(name(b"", 0), b"");
    }
}
