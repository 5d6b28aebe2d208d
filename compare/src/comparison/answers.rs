//! One question put to the reference and to the library, for each operation.

mod week;

pub(super) use week::{shown_store, shown_week};
pub use week::{week_change, week_new, week_place, week_plan};

use std::fmt::Debug;
use std::hint::black_box;

use super::lent::Lent;
use super::program::{Program, Run};
use super::{Difference, Outcome};
use crate::inputs::networks::LoneArc;
use crate::inputs::tables;
use crate::inputs::{OwnedNetwork, Random};
use crate::operations::{CABINET, Labelling, Operations, REFERENCE, TablesCheck};
use crate::reference::limits::{FIGURES, REFUSED};
use crate::reference::{Closure, Form, Refusal, certificate_check};

/// What an operation replied and what the lent buffers then hold.
#[derive(Debug, PartialEq)]
pub(super) struct Answer<R, B> {
    reply: R,
    /// Whether nothing but the entries due was written.
    kept: bool,
    pub(super) buffers: B,
}

impl<R> Answer<R, ()> {
    /// Of an operation to which no buffer is lent.
    fn reply(reply: R) -> Self {
        Self {
            reply,
            kept: true,
            buffers: (),
        }
    }
}

/// Expects the same answer of both, and returns it.
fn agreed<R, B>(
    question: &str,
    input: impl Fn() -> Vec<u8>,
    answer: impl Fn(&Operations) -> Answer<R, B>,
) -> Result<Answer<R, B>, Difference>
where
    R: Debug + PartialEq,
    B: Debug + PartialEq,
{
    let expected = answer(&REFERENCE);
    let found = answer(&CABINET);
    if found == expected && found.kept {
        return Ok(found);
    }
    Err(Difference {
        question: question.to_owned(),
        input: input(),
        expected: format!("{expected:?}"),
        found: format!("{found:?}"),
    })
}

/// The same for its reply alone.
fn compare<R, B>(
    question: &str,
    input: impl Fn() -> Vec<u8>,
    answer: impl Fn(&Operations) -> Answer<R, B>,
) -> Result<R, Difference>
where
    R: Debug + PartialEq,
    B: Debug + PartialEq,
{
    agreed(question, input, answer).map(|answer| answer.reply)
}

pub(super) fn shown(network: &OwnedNetwork) -> Vec<u8> {
    format!("{network:#?}\n").into_bytes()
}

pub(super) fn shown_closed(network: &OwnedNetwork, closures: &[Closure]) -> Vec<u8> {
    format!("{network:#?}\n{closures:#?}\n").into_bytes()
}

pub(super) fn shown_tables(
    network: &OwnedNetwork,
    closures: &[Closure],
    (labels, predecessors): (&[u32], &[u16]),
) -> Vec<u8> {
    let tables = format!("labels {labels:?}\npredecessors {predecessors:?}\n");
    [shown_closed(network, closures), tables.into_bytes()].concat()
}

pub(super) fn shown_arc(arc: &LoneArc) -> Vec<u8> {
    format!("{arc:?}\n").into_bytes()
}

pub fn network_check(network: &OwnedNetwork) -> Result<Outcome, Difference> {
    let input = || shown(network);
    let reply = compare("network check", input, |operations| {
        Answer::reply((operations.network_check)(&network.lent()))
    })?;
    Ok(Outcome::of(&reply))
}

pub fn arc_arrival(arc: &LoneArc, departure: u32, interval: u32) -> Result<Outcome, Difference> {
    let question = format!("arc arrival at {departure} in {interval}, {arc}");
    let input = || shown_arc(arc);
    let reply = compare(&question, input, |operations| {
        Answer::reply((operations.arc_arrival)(
            departure,
            interval,
            arc.length,
            arc.hold,
            &arc.fences,
            &arc.speeds,
        ))
    })?;
    Ok(match reply {
        Ok(None) => Outcome::Nothing,
        _ => Outcome::of(&reply),
    })
}

/// Labels and Passes, to which the same is lent. Each is compared with the reference, and the
/// library's Passes with its own Labels: it refuses and writes the same, and its number of
/// passes is one that there can be. Then the tables check is asked about what Labels left,
/// which is right unless it refuses, and about some altered tables.
pub fn labels(
    network: &OwnedNetwork,
    closures: &[Closure],
    asker: u32,
    start: (u32, u32),
    lengths: (usize, usize),
) -> Result<Outcome, Difference> {
    let question = |operation| {
        let ((source, departure), (label_count, predecessor_count)) = (start, lengths);
        format!(
            "{operation} for {asker} from {source} at {departure}, buffers of {label_count} and \
             {predecessor_count}"
        )
    };
    let input = || shown_closed(network, closures);
    let labels = agreed(&question("labels"), input, |operations| {
        labelled(operations.labels, network, closures, asker, start, lengths)
    })?;
    let passes = agreed(&question("passes"), input, |operations| {
        labelled(operations.passes, network, closures, asker, start, lengths)
    })?;
    let possible = match passes.reply {
        Ok(number) => labels.reply.is_ok() && (1..=network.junctions).contains(&number),
        Err(refusal) => labels.reply == Err(refusal),
    };
    if !possible || passes.buffers != labels.buffers {
        return Err(Difference {
            question: question("passes and labels"),
            input: input(),
            expected: format!("{labels:?}"),
            found: format!("{passes:?}"),
        });
    }
    let outcome = Outcome::of(&labels.reply);
    let own = (labels.buffers.0.entries(), labels.buffers.1.entries());
    let found = tables_check(network, closures, asker, start, own)?;
    if found != outcome {
        return Err(Difference {
            question: question("tables check and labels"),
            input: input(),
            expected: outcome.to_string(),
            found: found.to_string(),
        });
    }
    if outcome == Outcome::Answered {
        let (source, departure) = start;
        // The same ones whenever the same is asked.
        let random = &mut Random::new(u64::from(source) << 32 | u64::from(departure));
        for _ in 0..ALTERED {
            let mut altered = (own.0.to_vec(), own.1.to_vec());
            tables::alter(random, network, departure, &mut altered);
            tables_check(network, closures, asker, start, (&altered.0, &altered.1))?;
        }
    }
    Ok(outcome)
}

/// How many altered tables are tried after Labels' own.
const ALTERED: usize = 2;

/// The tables check of these labels and predecessors, which must stay as they are. Both ways
/// of the reference are compared. Nothing is found if it says no.
pub fn tables_check(
    network: &OwnedNetwork,
    closures: &[Closure],
    asker: u32,
    start: (u32, u32),
    tables: (&[u32], &[u16]),
) -> Result<Outcome, Difference> {
    let (source, departure) = start;
    let question = format!("tables check for {asker} from {source} at {departure}");
    let input = || shown_tables(network, closures, tables);
    let answer = |operation| checked(operation, network, closures, asker, start, tables);
    let defined = agreed(&question, input, |operations| {
        answer(operations.tables_check)
    })?;
    let certified = answer(certificate_check);
    if certified != defined {
        return Err(Difference {
            question: format!("{question}, by its definition and as a certificate"),
            input: input(),
            expected: format!("{defined:?}"),
            found: format!("{certified:?}"),
        });
    }
    Ok(match defined.reply {
        Ok(false) => Outcome::Nothing,
        _ => Outcome::of(&defined.reply),
    })
}

/// The answer of a tables check, which is to leave all that is lent to it.
pub(super) fn checked(
    operation: TablesCheck,
    network: &OwnedNetwork,
    closures: &[Closure],
    asker: u32,
    (source, departure): (u32, u32),
    (labels, predecessors): (&[u32], &[u16]),
) -> Labelled<bool> {
    let sent = (Lent::holding(labels), Lent::holding(predecessors));
    let lent = sent.clone();
    let reply = operation(
        &network.lent(),
        closures,
        asker,
        source,
        departure,
        lent.0.entries(),
        lent.1.entries(),
    );
    // What was lent to be read might have been written all the same.
    let lent = black_box(lent);
    Answer {
        reply,
        kept: lent == sent,
        buffers: lent,
    }
}

/// An answer with the labels and predecessors.
pub(super) type Labelled<T> = Answer<Result<T, Refusal>, (Lent<u32>, Lent<u16>)>;

/// The answer of Labels or of Passes.
pub(super) fn labelled<T>(
    operation: Labelling<T>,
    network: &OwnedNetwork,
    closures: &[Closure],
    asker: u32,
    (source, departure): (u32, u32),
    (label_count, predecessor_count): (usize, usize),
) -> Labelled<T> {
    let mut labels = Lent::new(label_count);
    let mut predecessors = Lent::new(predecessor_count);
    let reply = operation(
        &network.lent(),
        closures,
        asker,
        source,
        departure,
        labels.part(),
        predecessors.part(),
    );
    let entries = reply.as_ref().map_or(0, |_| network.junctions as usize);
    Answer {
        reply,
        kept: labels.kept_after(entries) && predecessors.kept_after(entries),
        buffers: (labels, predecessors),
    }
}

pub fn route(
    network: &OwnedNetwork,
    closures: &[Closure],
    asker: u32,
    (source, departure): (u32, u32),
    destination: u32,
    list_length: usize,
) -> Result<Outcome, Difference> {
    let question = format!(
        "route for {asker} from {source} at {departure} to {destination}, list of {list_length}"
    );
    let input = || shown_closed(network, closures);
    let reply = compare(&question, input, |operations| {
        let mut arcs = Lent::new(list_length);
        let reply = (operations.route)(
            &network.lent(),
            closures,
            asker,
            source,
            departure,
            destination,
            arcs.part(),
        );
        Answer {
            reply,
            kept: arcs.kept_after(reply.unwrap_or(0) as usize),
            buffers: arcs,
        }
    })?;
    Ok(Outcome::of(&reply))
}

pub fn sheet(
    network: &OwnedNetwork,
    closures: &[Closure],
    asker: u32,
    source: u32,
    departures: &[u32],
    (label_count, figure_count): (usize, usize),
) -> Result<Outcome, Difference> {
    let question = format!(
        "sheet for {asker} from {source} at {departures:?}, buffers of {label_count} and \
         {figure_count}"
    );
    let input = || shown_closed(network, closures);
    let reply = compare(&question, input, |operations| {
        let mut labels = Lent::new(label_count);
        let mut figures = Lent::new(figure_count);
        let reply = (operations.sheet)(
            &network.lent(),
            closures,
            asker,
            source,
            departures,
            labels.part(),
            figures.part(),
        );
        let junctions = reply.map_or(0, |()| network.junctions as usize);
        Answer {
            reply,
            kept: labels.kept_after(departures.len() * junctions)
                && figures.kept_after(FIGURES * junctions),
            buffers: (labels, figures),
        }
    })?;
    Ok(Outcome::of(&reply))
}

/// The lengths of the tables lent to Load.
#[derive(Clone, Copy, Debug)]
pub struct TableLengths {
    pub fences: usize,
    pub tails: usize,
    pub heads: usize,
    pub lengths: usize,
    pub holds: usize,
    pub speeds: usize,
}

impl TableLengths {
    /// As long as the entries of so many intervals and arcs.
    pub fn exact(intervals: usize, arcs: usize) -> Self {
        Self {
            fences: intervals,
            tails: arcs,
            heads: arcs,
            lengths: arcs,
            holds: arcs,
            speeds: arcs * intervals,
        }
    }
}

pub fn load(text: &[u8], tables: TableLengths) -> Result<Outcome, Difference> {
    let question = format!("load into {tables:?}");
    let input = || text.to_vec();
    let reply = compare(&question, input, |operations| {
        let mut fences = Lent::new(tables.fences);
        let mut tails = Lent::new(tables.tails);
        let mut heads = Lent::new(tables.heads);
        let mut lengths = Lent::new(tables.lengths);
        let mut holds = Lent::new(tables.holds);
        let mut speeds = Lent::new(tables.speeds);
        let reply = (operations.load)(
            text,
            fences.part(),
            tails.part(),
            heads.part(),
            lengths.part(),
            holds.part(),
            speeds.part(),
        );
        let (intervals, arcs) = reply.map_or((0, 0), |counts| {
            (counts.intervals as usize, counts.arcs as usize)
        });
        Answer {
            reply,
            kept: fences.kept_after(intervals)
                && tails.kept_after(arcs)
                && heads.kept_after(arcs)
                && lengths.kept_after(arcs)
                && holds.kept_after(arcs)
                && speeds.kept_after(arcs * intervals),
            buffers: (fences, tails, heads, lengths, holds, speeds),
        }
    })?;
    Ok(Outcome::of(&reply.map_err(|refused| refused.refusal)))
}

pub fn name(text: &[u8], junction: u32) -> Result<Outcome, Difference> {
    let question = format!("name of {junction}");
    let input = || text.to_vec();
    let found = compare(&question, input, |operations| {
        let name = (operations.name)(text, junction);
        // The same part of the text, not only the same bytes.
        Answer::reply((!name.is_empty()).then_some(name.as_ptr_range()))
    })?;
    Ok(found.map_or(Outcome::Nothing, |_| Outcome::Answered))
}

pub fn host_question(
    text: &[u8],
    (source, departure): (u32, u32),
    destination: u32,
) -> Result<Outcome, Difference> {
    let question = format!("host question from {source} at {departure} to {destination}");
    let input = || text.to_vec();
    let answer = compare(&question, input, |operations| {
        let answer = (operations.host_question)(text, source, departure, destination);
        Answer::reply(answer)
    })?;
    Ok(match answer.checked_sub(REFUSED) {
        None => Outcome::Answered,
        Some(number) => Outcome::Refused(Refusal(number)),
    })
}

/// Compares a conversion to this form, into an output of this length.
pub fn convert(to: Form, text: &[u8], output_length: usize) -> Result<Outcome, Difference> {
    let question = format!("conversion to the form {to:?}, output of {output_length}");
    let input = || text.to_vec();
    let reply = compare(&question, input, |operations| {
        let mut output = Lent::<u8>::new(output_length);
        let reply = operations.converter(to)(text, output.part());
        Answer {
            reply,
            kept: output.kept_after(reply.unwrap_or(0)),
            buffers: output,
        }
    })?;
    Ok(Outcome::of(&reply.map_err(|refused| refused.refusal)))
}

/// Compares what a program prints with what the reference would, and its exit
/// status with 0 for an answer and 1 for a refusal.
pub fn program(program: &Program, input: &[u8]) -> Result<Outcome, Difference> {
    let printed = String::from_utf8_lossy(&(program.reference)(input)).into_owned();
    let outcome = printed_outcome(&printed);
    let expected = Run::ended(&printed, i32::from(outcome != Outcome::Answered));
    let found = program.run(input);
    if found == expected {
        return Ok(outcome);
    }
    Err(Difference {
        question: format!("the program {}", program.name),
        input: input.to_vec(),
        expected: format!("{expected:?}"),
        found: format!("{found:?}"),
    })
}

fn printed_outcome(printed: &str) -> Outcome {
    let mut words = printed.split_whitespace();
    match words.next() {
        Some("refused") => {
            let number = words.next().and_then(|number| number.parse().ok());
            Outcome::Refused(Refusal(number.expect("the reference prints a number")))
        }
        _ => Outcome::Answered,
    }
}
