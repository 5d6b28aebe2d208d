//! Properties of closures: of those of the first day as intervals of a plan, of more ticks
//! closed and the same ones by other records, of arcs closed from before the departure or
//! throughout, and of damaged lists and unknown askers.

use super::{cabinet_labels, cabinet_route, driven, refused_by_the_source, stopping};
use crate::comparison::answers::shown_closed;
use crate::comparison::{Check, Difference, Outcome};
use crate::inputs::closures::{
    random_asker, random_closures, random_more_ticks, random_same_ticks,
};
use crate::inputs::damage::{damage_closures, unknown_asker};
use crate::inputs::networks::{random_departure, random_network, random_towards};
use crate::inputs::{OwnedNetwork, Random};
use crate::reference::limits::{
    BOTH_PARTIES, DAY, LAST_TICK, MAX_CLOSURES, MAX_INTERVALS, NO_ARC, UNREACHED,
};
use crate::reference::{Closure, Refusal};

pub const CLOSURES_AS_INTERVALS: Check = Check {
    name: "closures as intervals",
    cases: 20_000,
    run: closures_as_intervals,
    finds_nothing: true,
    refuses: &[],
};

pub const MORE_CLOSED: Check = Check {
    name: "more closed",
    cases: 10_000,
    run: more_closed,
    finds_nothing: true,
    refuses: &[],
};

pub const SAME_TICKS_CLOSED: Check = Check {
    name: "same ticks closed",
    cases: 10_000,
    run: same_ticks_closed,
    finds_nothing: true,
    refuses: &[],
};

pub const CLOSED_AT_START: Check = Check {
    name: "closed at start",
    cases: 10_000,
    run: closed_at_start,
    finds_nothing: true,
    refuses: &[],
};

pub const CLOSED_THROUGHOUT: Check = Check {
    name: "closed throughout",
    cases: 5_000,
    run: closed_throughout,
    finds_nothing: true,
    refuses: &[],
};

pub const CLOSURE_LIST: Check = Check {
    name: "closure list",
    cases: 5_000,
    run: closure_list,
    finds_nothing: false,
    refuses: &[36..=39],
};

/// Labels and predecessors.
type Labels = (Vec<u32>, Vec<u16>);

/// A network, an asker and a start in it.
struct Town {
    network: OwnedNetwork,
    asker: u32,
    source: u32,
    departure: u32,
}

impl Town {
    fn random(random: &mut Random) -> Self {
        let network = random_network(random);
        Self {
            asker: random_asker(random),
            source: random.below(network.junctions),
            departure: random_departure(random, &network.fences),
            network,
        }
    }

    fn random_closures(&self, random: &mut Random) -> Vec<Closure> {
        random_closures(random, &self.network, self.source, self.departure)
    }

    /// The library's labels with these closures.
    fn labels(&self, closures: &[Closure]) -> Labels {
        self.labels_of(&self.network, closures)
    }

    /// Those of another network.
    fn labels_of(&self, network: &OwnedNetwork, closures: &[Closure]) -> Labels {
        cabinet_labels(network, closures, self.asker, self.source, self.departure)
    }

    /// What is found with the closures, or nothing if the labels are those without any.
    fn outcome(&self, labels: &Labels) -> Outcome {
        answered_if(*labels != self.labels(&[]))
    }

    fn difference(
        &self,
        question: &str,
        closures: &[Closure],
        [expected, found]: [String; 2],
    ) -> Difference {
        let Self {
            asker,
            source,
            departure,
            ..
        } = self;
        Difference {
            question: format!("labels for {asker} from {source} at {departure}, {question}"),
            input: shown_closed(&self.network, closures),
            expected,
            found,
        }
    }

    /// Expects this to be found with the closures.
    fn expect(
        &self,
        question: &str,
        closures: &[Closure],
        expected: &Labels,
        found: &Labels,
    ) -> Result<(), Difference> {
        if found == expected {
            return Ok(());
        }
        let both = [expected, found].map(|labels| format!("{labels:?}"));
        Err(self.difference(question, closures, both))
    }
}

fn answered_if(closures_matter: bool) -> Outcome {
    driven(closures_matter.then_some(()))
}

/// Closures of the first day do what a plan does that has speed 0 then, up to the tick at
/// which that plan first stands still on the second day.
fn closures_as_intervals(random: &mut Random) -> Result<Outcome, Difference> {
    let town = Town::random(random);
    let mut closures = town.random_closures(random);
    closures.retain(|closure| closure.end <= DAY);
    closures.truncate((MAX_INTERVALS - town.network.fences.len()) / 2);
    let stopping = stopping(&closures, town.asker);
    let first = stopping.iter().map(|closure| closure.first).min();
    let same_until = DAY + first.unwrap_or(DAY);
    let plan = town.network.closed_daily(&stopping);
    let by_plan = town.labels_of(&plan, &[]);
    let found = labels_until(same_until, town.labels(&closures));
    let expected = labels_until(same_until, by_plan);
    let question = format!("and by intervals up to {same_until}");
    town.expect(&question, &closures, &expected, &found)?;
    let open = labels_until(same_until, town.labels(&[]));
    Ok(answered_if(found != open))
}

/// The labels up to this tick; those after it count as unreached.
fn labels_until(last: u32, (labels, predecessors): Labels) -> Labels {
    let until = |(label, predecessor)| match label {
        label if label <= last => (label, predecessor),
        _ => (UNREACHED, NO_ARC),
    };
    labels.into_iter().zip(predecessors).map(until).unzip()
}

/// If more is closed, no label is earlier.
fn more_closed(random: &mut Random) -> Result<Outcome, Difference> {
    let town = Town::random(random);
    let closures = town.random_closures(random);
    let mut more = random_more_ticks(random, &closures);
    more.extend(town.random_closures(random));
    more.truncate(MAX_CLOSURES);
    let (labels, _) = town.labels(&closures);
    let (later, _) = town.labels(&more);
    if labels
        .iter()
        .zip(&later)
        .any(|(label, later)| later < label)
    {
        let both = [format!("none before {labels:?}"), format!("{later:?}")];
        let question = format!("and with more than {closures:?}");
        return Err(town.difference(&question, &more, both));
    }
    Ok(answered_if(labels != later))
}

/// The labels and a route are the same if the same ticks are closed by other records.
fn same_ticks_closed(random: &mut Random) -> Result<Outcome, Difference> {
    let town = Town::random(random);
    let closures = town.random_closures(random);
    let same = random_same_ticks(random, &closures);
    let labels = town.labels(&closures);
    let question = format!("and with other records than {closures:?}");
    town.expect(&question, &same, &labels, &town.labels(&same))?;
    let destination = random.below(town.network.junctions);
    let routes = [&closures, &same].map(|closures| {
        let start = (town.source, town.departure);
        cabinet_route(&town.network, closures, town.asker, start, destination)
    });
    if routes[0] != routes[1] {
        let both = routes.map(|route| format!("{route:?}"));
        let question = format!("route to {destination}, {question}");
        return Err(town.difference(&question, &same, both));
    }
    Ok(town.outcome(&labels))
}

/// If every arc out of the source is closed from the departure or before, all others than
/// the source have the labels of a departure at the end of that.
fn closed_at_start(random: &mut Random) -> Result<Outcome, Difference> {
    let mut town = Town::random(random);
    let first = town.departure.saturating_sub(random.below(3));
    let end = random_towards(random, town.departure, DAY - 1).max(first + 1);
    let source = town.source as u16;
    let out_of_source = |&arc: &u32| town.network.tails[arc as usize] == source;
    let arcs = (0..town.network.arcs() as u32).filter(out_of_source);
    let closure = |arc| Closure {
        arc,
        first,
        end,
        party: random.pick(&[BOTH_PARTIES, town.asker]),
    };
    let closures: Vec<Closure> = arcs.map(closure).collect();
    if end == DAY || closures.len() > MAX_CLOSURES {
        return Ok(Outcome::Nothing);
    }
    let mut found = town.labels(&closures);
    let outcome = town.outcome(&found);
    found.0[usize::from(source)] = end;
    let question = format!("and without closures from {end} on");
    town.departure = end;
    let expected = town.labels(&[]);
    town.expect(&question, &closures, &expected, &found)?;
    Ok(outcome)
}

/// An arc that is closed throughout is as good as one that has speed 0 throughout.
fn closed_throughout(random: &mut Random) -> Result<Outcome, Difference> {
    let town = Town::random(random);
    let mut standing = town.network.clone();
    let intervals = standing.fences.len();
    let mut closures = Vec::new();
    for _ in 0..random.up_to_one_of(&[1, 4, MAX_CLOSURES as u32]) {
        if standing.arcs() > 0 {
            let arc = random.place(standing.arcs());
            standing.speeds[arc * intervals..][..intervals].fill(0);
            closures.push(Closure {
                arc: arc as u32,
                first: 0,
                end: LAST_TICK,
                party: random.pick(&[BOTH_PARTIES, town.asker]),
            });
        }
    }
    let found = town.labels(&closures);
    let expected = town.labels_of(&standing, &[]);
    town.expect("closed throughout", &closures, &expected, &found)?;
    Ok(town.outcome(&found))
}

/// Where nothing but the list and the asker may be damaged, the list's number is that of
/// Labels, Passes, the tables check, Route and Sheet, although all that comes after it is wrong;
/// that of a good list is the asker's, and with a good asker the source's.
fn closure_list(random: &mut Random) -> Result<Outcome, Difference> {
    let mut town = Town::random(random);
    let mut closures = town.random_closures(random);
    if random.one_in(3) {
        town.asker = unknown_asker(random);
    }
    if !random.one_in(3) {
        damage_closures(random, town.network.arcs(), &mut closures);
    }
    let arcs = town.network.arcs() as u32;
    let bad = |one: &Closure| one.arc >= arcs || one.first >= one.end || one.end > 1_728_000;
    let (refusal, outcome) = match closures.len() {
        65.. => refused(36),
        _ if closures.iter().any(bad) => refused(37),
        _ if closures.iter().any(|one| one.party > 2) => refused(38),
        _ if town.asker != 1 && town.asker != 2 => refused(39),
        _ => (Refusal(9), Outcome::Answered),
    };
    let expected = [Err(refusal); 5];
    let found = refused_by_the_source(&town.network, &closures, town.asker);
    if found != expected {
        let both = [expected, found].map(|replies| format!("{replies:?}"));
        return Err(town.difference(
            "passes, tables check, route and sheet, all refused",
            &closures,
            both,
        ));
    }
    Ok(outcome)
}

fn refused(number: u32) -> (Refusal, Outcome) {
    (Refusal(number), Outcome::Refused(Refusal(number)))
}
