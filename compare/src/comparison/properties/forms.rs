//! Properties of the two forms of a town file and of the converters between them.

use crate::cabinet;
use crate::comparison::{Check, Difference, Outcome};
use crate::inputs::Random;
use crate::inputs::damage::damage_text;
use crate::inputs::networks::random_departure;
use crate::inputs::texts::{
    FORMS, RandomTown, lines, pad, random_comments, random_town, random_town_of, with_comments,
};
use crate::operations::CABINET;
use crate::reference::limits::{MAX_ARCS, MAX_INTERVALS, MAX_TEXT};
use crate::reference::{Counts, Form, LoadRefusal, Refusal};

pub const CONVERTED_AS_WRITTEN: Check = Check {
    name: "converted as written",
    cases: 10_000,
    run: converted_as_written,
    finds_nothing: false,
    refuses: &[20..=20, 34..=35],
};

pub const THERE_AND_BACK: Check = Check {
    name: "there and back",
    cases: 10_000,
    run: random_there_and_back,
    finds_nothing: false,
    refuses: &[20..=27, 34..=35],
};

pub const CONVERTED_TOWN: Check = Check {
    name: "converted town",
    cases: 10_000,
    run: random_converted_town,
    finds_nothing: false,
    refuses: &[20..=20, 34..=35],
};

pub const COMMENTS_ADDED: Check = Check {
    name: "comments added",
    cases: 5_000,
    run: comments_added,
    finds_nothing: false,
    refuses: &[34..=34],
};

pub const REFUSED_AS_LOADED: Check = Check {
    name: "refused as loaded",
    cases: 15_000,
    run: refused_as_loaded,
    finds_nothing: false,
    refuses: &[20..=27],
};

/// Longer than any result.
const ROOM: usize = MAX_TEXT + 100;

fn at_line_0(number: u32) -> LoadRefusal {
    LoadRefusal {
        refusal: Refusal(number),
        line: 0,
    }
}

/// The library's conversion to this form.
fn converted(to: Form, text: &[u8]) -> Result<Vec<u8>, LoadRefusal> {
    let mut output = vec![7; ROOM];
    let length = CABINET.converter(to)(text, &mut output)?;
    output.truncate(length);
    Ok(output)
}

/// The library's conversion to the form that the text does not have.
fn converted_to_other(text: &[u8]) -> (Form, Result<Vec<u8>, LoadRefusal>) {
    match converted(Form::New, text) {
        Err(refused) if refused.refusal == Refusal(33) => (Form::Old, converted(Form::Old, text)),
        reply => (Form::New, reply),
    }
}

/// A text as a difference shows it.
fn shown_text(text: &[u8]) -> String {
    String::from_utf8_lossy(text).into_owned()
}

fn shown_reply(reply: &Result<Vec<u8>, LoadRefusal>) -> String {
    match reply {
        Ok(text) => shown_text(text),
        Err(refused) => format!("{refused:?}"),
    }
}

fn expect_conversion(
    to: Form,
    text: &[u8],
    expected: &Result<Vec<u8>, LoadRefusal>,
) -> Result<(), Difference> {
    let found = converted(to, text);
    if found == *expected {
        return Ok(());
    }
    Err(Difference {
        question: format!("conversion to the form {to:?}"),
        input: text.to_vec(),
        expected: shown_reply(expected),
        found: shown_reply(&found),
    })
}

fn outcome<T>(reply: &Result<T, LoadRefusal>) -> Outcome {
    match reply {
        Ok(_) => Outcome::Answered,
        Err(refused) => Outcome::Refused(refused.refusal),
    }
}

/// A town is written in both forms; the conversion of one is the other, unless holds are
/// in its way or a limit. The other form itself is refused.
fn converted_as_written(random: &mut Random) -> Result<Outcome, Difference> {
    let to = random.pick(&FORMS);
    let mut town = RandomTown::new(random);
    if to == Form::New {
        town.network.holds.fill(0);
    }
    let mut text = town.text(to.other());
    let mut wanted = town.text(to);
    if random.one_in(4) {
        let longest = MAX_TEXT - 1 + random.index(3);
        let mut padding = Vec::new();
        pad(&mut padding, longest.saturating_sub(wanted.len()));
        text.extend(&padding);
        wanted.extend(&padding);
    }
    if wanted.len() <= MAX_TEXT {
        expect_conversion(to, &wanted, &Err(at_line_0(33)))?;
    }
    let held = town.network.holds.iter().any(|&hold| hold > 0);
    let expected = if text.len() > MAX_TEXT {
        Err(at_line_0(20))
    } else if held {
        Err(at_line_0(34))
    } else if wanted.len() > MAX_TEXT {
        Err(at_line_0(35))
    } else {
        Ok(wanted)
    };
    expect_conversion(to, &text, &expected)?;
    Ok(outcome(&expected))
}

/// A town file, damaged at times, or as long as it or its result may be.
fn random_text(random: &mut Random) -> Vec<u8> {
    let (network, mut text) = random_town(random);
    match random.below(6) {
        0 | 1 => damage_text(random, &mut text),
        2 => {
            let longest = random.pick(&[MAX_TEXT, MAX_TEXT - 2 * network.arcs()]);
            pad(&mut text, longest - 1 + random.index(3));
        }
        _ => {}
    }
    text
}

fn random_there_and_back(random: &mut Random) -> Result<Outcome, Difference> {
    there_and_back(&random_text(random))
}

/// What was converted, and then back, is the text byte by byte. The way back is never
/// refused.
pub fn there_and_back(text: &[u8]) -> Result<Outcome, Difference> {
    let (to, reply) = converted_to_other(text);
    if let Ok(result) = &reply {
        expect_conversion(to.other(), result, &Ok(text.to_vec()))?;
    }
    Ok(outcome(&reply))
}

/// What Load counts in a text and writes.
#[derive(Debug, PartialEq)]
struct Loaded {
    counts: Counts,
    fences: Vec<u32>,
    tails: Vec<u16>,
    heads: Vec<u16>,
    lengths: Vec<u32>,
    holds: Vec<u16>,
    speeds: Vec<u8>,
}

/// The library's tables.
fn loaded(text: &[u8]) -> Result<Loaded, LoadRefusal> {
    let mut fences = vec![7; MAX_INTERVALS];
    let mut tails = vec![7; MAX_ARCS];
    let mut heads = vec![7; MAX_ARCS];
    let mut lengths = vec![7; MAX_ARCS];
    let mut holds = vec![7; MAX_ARCS];
    let mut speeds = vec![7; MAX_ARCS * MAX_INTERVALS];
    let counts = cabinet::load(
        text,
        &mut fences,
        &mut tails,
        &mut heads,
        &mut lengths,
        &mut holds,
        &mut speeds,
    )?;
    Ok(Loaded {
        counts,
        fences,
        tails,
        heads,
        lengths,
        holds,
        speeds,
    })
}

/// What the library says of a town file: its tables, and the answer to a host question
/// with the names of its source and destination.
#[derive(Debug, PartialEq)]
struct Described<'t> {
    loaded: Loaded,
    names: [&'t [u8]; 2],
    answer: u32,
}

impl<'t> Described<'t> {
    fn of(
        text: &'t [u8],
        (source, departure): (u32, u32),
        destination: u32,
    ) -> Result<Self, LoadRefusal> {
        Ok(Self {
            loaded: loaded(text)?,
            names: [source, destination].map(|junction| cabinet::name(text, junction)),
            answer: cabinet::host_question(text, source, departure, destination),
        })
    }
}

fn random_converted_town(random: &mut Random) -> Result<Outcome, Difference> {
    let (network, mut text) = random_town(random);
    if random.one_in(4) {
        let longest = MAX_TEXT - 2 * network.arcs();
        pad(&mut text, longest - 1 + random.index(3));
    }
    let source = random.below(network.junctions);
    let departure = random_departure(random, &network.fences);
    let destination = random.below(network.junctions);
    converted_town(&text, (source, departure), destination)
}

/// The result of a conversion loads as the text does, with holds of 0. It has the same
/// names, and the host question has the same answer.
pub fn converted_town(
    text: &[u8],
    start: (u32, u32),
    destination: u32,
) -> Result<Outcome, Difference> {
    let (_, reply) = converted_to_other(text);
    if let Ok(result) = &reply {
        let described = |text| Described::of(text, start, destination);
        let (expected, found) = (described(text), described(result));
        let without_holds = |town: &Described| {
            let arcs = town.loaded.counts.arcs as usize;
            town.loaded.holds[..arcs].iter().all(|&hold| hold == 0)
        };
        if found != expected || !found.as_ref().is_ok_and(without_holds) {
            return Err(Difference {
                question: format!("converted, and from {start:?} to {destination}"),
                input: text.to_vec(),
                expected: format!("{expected:?} without holds"),
                found: format!("{found:?}"),
            });
        }
    }
    Ok(outcome(&reply))
}

/// Further comments change no table and no answer, and are converted along as they are.
fn comments_added(random: &mut Random) -> Result<Outcome, Difference> {
    let form = random.pick(&FORMS);
    let (network, text, commented, comments) = loop {
        let (network, text) = random_town_of(random, form);
        let count = random.up_to_one_of(&[3, 20]) as usize;
        let comments = random_comments(random, lines(&text).len(), count);
        let commented = with_comments(&text, &comments);
        // The comments must have room in the longer form.
        if commented.len() + 2 * network.arcs() <= MAX_TEXT {
            break (network, text, commented, comments);
        }
    };
    let start = (
        random.below(network.junctions),
        random_departure(random, &network.fences),
    );
    let destination = random.below(network.junctions);
    let described = |text| Described::of(text, start, destination);
    let (expected, found) = (described(&text), described(&commented));
    if found != expected || found.is_err() {
        return Err(Difference {
            question: format!("with more comments, and from {start:?} to {destination}"),
            input: commented.clone(),
            expected: format!("{expected:?}"),
            found: format!("{found:?}"),
        });
    }
    let reply = converted(form.other(), &text);
    let expected = reply.map(|result| with_comments(&result, &comments));
    expect_conversion(form.other(), &commented, &expected)?;
    Ok(outcome(&expected))
}

/// Both converters refuse what Load does, with its number and line, whatever the output.
/// Of a text that Load takes, exactly one says that it has the wanted form.
fn refused_as_loaded(random: &mut Random) -> Result<Outcome, Difference> {
    let text = random_text(random);
    let load = loaded(&text).map(drop);
    let room = random.pick(&[0, 1, text.len(), ROOM]);
    let replies = FORMS.map(|to| {
        let reply = CABINET.converter(to)(&text, &mut vec![7; room]);
        reply.map(drop)
    });
    let good = match load {
        Ok(()) => {
            let wanted = replies.map(|reply| reply == Err(at_line_0(33)));
            let others = replies.iter().flat_map(|reply| reply.err());
            wanted[0] != wanted[1] && others.into_iter().all(|one| one.refusal.0 >= 33)
        }
        refused => replies == [refused; 2],
    };
    if !good {
        return Err(Difference {
            question: format!("refusals of Load, and of to_old and to_new into {room} bytes"),
            input: text,
            expected: format!("{load:?}"),
            found: format!("{replies:?}"),
        });
    }
    Ok(outcome(&load))
}
