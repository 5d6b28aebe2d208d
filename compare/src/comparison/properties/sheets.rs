//! Properties of the sheet: by the library's own labels, and of lists that hold
//! the same departures.

use super::cabinet_labels;
use crate::cabinet;
use crate::comparison::answers::shown_closed;
use crate::comparison::{Check, Difference, Outcome};
use crate::inputs::closures::{random_asker, random_closures};
use crate::inputs::networks::{random_departures, random_network};
use crate::inputs::{OwnedNetwork, Random};
use crate::reference::Closure;
use crate::reference::limits::{FIGURES, MAX_DEPARTURES, UNREACHED};

pub const SHEET_BY_LABELS: Check = Check {
    name: "sheet by labels",
    cases: 5_000,
    run: sheet_by_labels,
    finds_nothing: false,
    refuses: &[],
};

pub const SHEET_SHUFFLED: Check = Check {
    name: "sheet shuffled",
    cases: 5_000,
    run: sheet_shuffled,
    finds_nothing: false,
    refuses: &[],
};

pub const SHEET_TWICE: Check = Check {
    name: "sheet twice",
    cases: 5_000,
    run: sheet_twice,
    finds_nothing: false,
    refuses: &[],
};

/// A row holds what Labels gives for its departure, and the figures are those of
/// the rows.
fn sheet_by_labels(random: &mut Random) -> Result<Outcome, Difference> {
    let question = Question::random(random, MAX_DEPARTURES);
    let Question {
        network,
        closures,
        asker,
        source,
        departures,
    } = &question;
    let rows: Vec<Vec<u32>> = departures
        .iter()
        .map(|&departure| cabinet_labels(network, closures, *asker, *source, departure).0)
        .collect();
    let figures = (0..network.junctions as usize).map(|junction| {
        let labels = rows.iter().map(|row| row[junction]);
        let reached = labels
            .zip(departures)
            .filter(|&(label, _)| label != UNREACHED);
        figures(
            reached
                .map(|(label, departure)| label - departure)
                .collect(),
        )
    });
    question.expect(&Sheet {
        figures: figures.collect(),
        rows,
    })
}

fn figures(journeys: Vec<u32>) -> [u32; FIGURES] {
    [
        journeys.len() as u32,
        journeys.iter().min().copied().unwrap_or(0),
        journeys.iter().max().copied().unwrap_or(0),
        journeys.iter().sum(),
    ]
}

/// In another order of the list the rows move along and the figures stay.
fn sheet_shuffled(random: &mut Random) -> Result<Outcome, Difference> {
    let mut question = Question::random(random, MAX_DEPARTURES);
    let mut sheet = question.sheet();
    let mut order: Vec<usize> = (0..question.departures.len()).collect();
    random.shuffle(&mut order);
    question.departures = order.iter().map(|&k| question.departures[k]).collect();
    sheet.rows = order.iter().map(|&k| sheet.rows[k].clone()).collect();
    question.expect(&sheet)
}

/// A list after itself has its rows twice, the same least and greatest journeys,
/// and twice the count and the sum.
fn sheet_twice(random: &mut Random) -> Result<Outcome, Difference> {
    let mut question = Question::random(random, MAX_DEPARTURES / 2);
    let mut sheet = question.sheet();
    question.departures.extend_from_within(..);
    sheet.rows.extend_from_within(..);
    for [reached, _, _, sum] in &mut sheet.figures {
        *reached *= 2;
        *sum *= 2;
    }
    question.expect(&sheet)
}

struct Question {
    network: OwnedNetwork,
    closures: Vec<Closure>,
    asker: u32,
    source: u32,
    departures: Vec<u32>,
}

#[derive(Debug, PartialEq)]
struct Sheet {
    rows: Vec<Vec<u32>>,
    figures: Vec<[u32; FIGURES]>,
}

impl Question {
    /// A question that is not refused, with at most so many departures.
    fn random(random: &mut Random, most: usize) -> Self {
        let network = random_network(random);
        let count = random.up_to_one_of(&[8, most as u32]) as usize;
        let source = random.below(network.junctions);
        let departures = random_departures(random, &network.fences, count);
        Self {
            closures: random_closures(random, &network, source, departures[0]),
            asker: random_asker(random),
            network,
            source,
            departures,
        }
    }

    /// The library's sheet.
    fn sheet(&self) -> Sheet {
        let junctions = self.network.junctions as usize;
        let mut labels = vec![7; self.departures.len() * junctions];
        let mut figures = vec![7; FIGURES * junctions];
        let reply = cabinet::sheet(
            &self.network.lent(),
            &self.closures,
            self.asker,
            self.source,
            &self.departures,
            &mut labels,
            &mut figures,
        );
        reply.expect("a good question");
        Sheet {
            rows: labels.chunks(junctions).map(<[u32]>::to_vec).collect(),
            figures: figures.as_chunks().0.to_vec(),
        }
    }

    fn expect(&self, expected: &Sheet) -> Result<Outcome, Difference> {
        let found = self.sheet();
        if found != *expected {
            return Err(Difference {
                question: format!(
                    "sheet for {} from {} at {:?}",
                    self.asker, self.source, self.departures
                ),
                input: shown_closed(&self.network, &self.closures),
                expected: format!("{expected:?}"),
                found: format!("{found:?}"),
            });
        }
        Ok(Outcome::Answered)
    }
}
