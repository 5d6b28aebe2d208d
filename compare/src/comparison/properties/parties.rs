//! Properties of parties: of lists that differ in the other's records alone, of parties that
//! are exchanged, and of records that are the asker's own or for both.

use super::{driven, stopping};
use crate::cabinet;
use crate::comparison::answers::{Labelled, checked, labelled, shown_closed};
use crate::comparison::lent::Lent;
use crate::comparison::{Check, Difference, Outcome};
use crate::inputs::closures::{exchanged, random_asker, random_closures};
use crate::inputs::networks::{random_departures, random_network};
use crate::inputs::{OwnedNetwork, Random};
use crate::reference::limits::{BOTH_PARTIES, DAY, FIGURES, MAX_CLOSURES};
use crate::reference::{Closure, Refusal};

pub const OTHERS_CLOSURES: Check = Check {
    name: "the other's closures",
    cases: 15_000,
    run: others_closures,
    finds_nothing: true,
    refuses: &[],
};

pub const PARTIES_EXCHANGED: Check = Check {
    name: "parties exchanged",
    cases: 10_000,
    run: parties_exchanged,
    finds_nothing: true,
    refuses: &[],
};

pub const OWN_OR_BOTH: Check = Check {
    name: "own or both",
    cases: 10_000,
    run: own_or_both,
    finds_nothing: true,
    refuses: &[],
};

/// Two lists that agree, in order, on the records that stop the asker have the same answers
/// for it. Nothing is found where the other has these answers too.
fn others_closures(random: &mut Random) -> Result<Outcome, Difference> {
    let question = Question::random(random);
    let closures = question.random_closures(random);
    let asker = random_asker(random);
    let changed = question.change_others(random, &closures, asker);
    let answers = question.expect_same((&closures, asker), (&changed, asker))?;
    let matters = answers != question.answers(&changed, exchanged(asker));
    Ok(driven(matters.then_some(())))
}

/// With the parties exchanged in all records, the other has the asker's answers. Nothing is
/// found where it has them without that too.
fn parties_exchanged(random: &mut Random) -> Result<Outcome, Difference> {
    let question = Question::random(random);
    let closures = question.random_closures(random);
    let asker = random_asker(random);
    let other = exchanged(asker);
    let mut others = closures.clone();
    for closure in &mut others {
        closure.party = exchanged(closure.party);
    }
    let answers = question.expect_same((&closures, asker), (&others, other))?;
    let matters = answers != question.answers(&closures, other);
    Ok(driven(matters.then_some(())))
}

/// It is the same to the asker whether a record that stops it is its own or for both. Nothing
/// is found where these records make no difference.
fn own_or_both(random: &mut Random) -> Result<Outcome, Difference> {
    let question = Question::random(random);
    let closures = question.random_closures(random);
    let asker = random_asker(random);
    let other = exchanged(asker);
    let mut same = closures.clone();
    for closure in same.iter_mut().filter(|closure| closure.party != other) {
        closure.party = random.pick(&[BOTH_PARTIES, asker]);
    }
    let answers = question.expect_same((&closures, asker), (&same, asker))?;
    let matters = same != closures && answers != question.answers(&[], asker);
    Ok(driven(matters.then_some(())))
}

/// What Labels, Passes, the tables check, Route and Sheet are asked, at times beyond their limits.
struct Question {
    network: OwnedNetwork,
    source: u32,
    /// All but Sheet depart at the first of them.
    departures: Vec<u32>,
    destination: u32,
    route_length: usize,
    /// How much longer than they should be the other lent tables are.
    too_long: usize,
}

/// What the five reply, and what the tables lent to them then hold.
#[derive(Debug, PartialEq)]
struct Answers {
    labels: Labelled<()>,
    passes: Labelled<u32>,
    /// Of the tables without closures, whoever asks.
    tables_check: Labelled<bool>,
    route: (Result<u32, Refusal>, Lent<u16>),
    sheet: (Result<(), Refusal>, Lent<u32>, Lent<u32>),
}

impl Question {
    fn random(random: &mut Random) -> Self {
        let network = random_network(random);
        let junctions = network.junctions;
        let count = random.up_to_one_of(&[1, 6]) as usize;
        let mut departures = random_departures(random, &network.fences, count);
        if random.one_in(20) {
            departures[0] = DAY;
        }
        let unknown_source = random.one_in(20);
        let unknown_destination = random.one_in(20);
        Self {
            source: random.below(junctions) + junctions * u32::from(unknown_source),
            departures,
            destination: random.below(junctions) + junctions * u32::from(unknown_destination),
            route_length: random.index(junctions as usize + 1),
            too_long: usize::from(random.one_in(20)),
            network,
        }
    }

    fn random_closures(&self, random: &mut Random) -> Vec<Closure> {
        let source = self.source % self.network.junctions;
        random_closures(random, &self.network, source, self.departures[0] % DAY)
    }

    /// The records that stop the asker in their order, and among them others of the other
    /// party, some of which there were, at times none or as many as there is room for.
    fn change_others(&self, random: &mut Random, closures: &[Closure], asker: u32) -> Vec<Closure> {
        let party = exchanged(asker);
        let of_other = closures.iter().filter(|closure| closure.party == party);
        let mut others: Vec<Closure> = of_other.copied().collect();
        others.extend(self.random_closures(random));
        random.shuffle(&mut others);
        let mut changed = stopping(closures, asker);
        others.truncate(random.place(MAX_CLOSURES - changed.len() + 1));
        for closure in others {
            let place = random.index(changed.len() + 1);
            changed.insert(place, Closure { party, ..closure });
        }
        changed
    }

    /// The library's answers.
    fn answers(&self, closures: &[Closure], asker: u32) -> Answers {
        let network = &self.network.lent();
        let junctions = network.junctions as usize;
        let (source, departures) = (self.source, &self.departures);
        let departure = departures[0];

        let start = (source, departure);
        let lengths = (junctions + self.too_long, junctions);

        let mut arcs = Lent::new(self.route_length);
        let route_reply = cabinet::route(
            network,
            closures,
            asker,
            source,
            departure,
            self.destination,
            arcs.part(),
        );

        let mut rows = Lent::new(departures.len() * junctions);
        let mut figures = Lent::new(FIGURES * junctions + self.too_long);
        let sheet_reply = cabinet::sheet(
            network,
            closures,
            asker,
            source,
            departures,
            rows.part(),
            figures.part(),
        );
        let open = labelled(cabinet::labels, &self.network, &[], asker, start, lengths).buffers;
        Answers {
            labels: labelled(
                cabinet::labels,
                &self.network,
                closures,
                asker,
                start,
                lengths,
            ),
            passes: labelled(
                cabinet::passes,
                &self.network,
                closures,
                asker,
                start,
                lengths,
            ),
            tables_check: checked(
                cabinet::tables_check,
                &self.network,
                closures,
                asker,
                start,
                (open.0.entries(), open.1.entries()),
            ),
            route: (route_reply, arcs),
            sheet: (sheet_reply, rows, figures),
        }
    }

    /// Expects the same answers with either list and its asker, and returns them.
    fn expect_same(
        &self,
        (closures, asker): (&[Closure], u32),
        (others, other): (&[Closure], u32),
    ) -> Result<Answers, Difference> {
        let expected = self.answers(closures, asker);
        let found = self.answers(others, other);
        if found != expected {
            let (source, departures, to) = (self.source, &self.departures, self.destination);
            return Err(Difference {
                question: format!(
                    "from {source} at {departures:?} to {to}, for {asker} with {closures:?}, \
                     for {other} with {others:?}"
                ),
                input: shown_closed(&self.network, closures),
                expected: format!("{expected:?}"),
                found: format!("{found:?}"),
            });
        }
        Ok(expected)
    }
}
