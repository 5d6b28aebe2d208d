//! Properties of the library's own answers, reckoned without the reference:
//! tick by tick and walk by walk, as the documents define arrivals and labels.

mod closures;
mod forms;
mod holds;
mod intervals;
mod midnight;
mod parties;
mod passes;
mod sheets;
mod tables;
mod week;

pub use closures::{
    CLOSED_AT_START, CLOSED_THROUGHOUT, CLOSURE_LIST, CLOSURES_AS_INTERVALS, MORE_CLOSED,
    SAME_TICKS_CLOSED,
};
pub use forms::{
    COMMENTS_ADDED, CONVERTED_AS_WRITTEN, CONVERTED_TOWN, REFUSED_AS_LOADED, THERE_AND_BACK,
    converted_town, there_and_back,
};
pub use holds::{ARC_HELD, HOLD_TABLE, HOLDS_AS_ARCS};
pub use intervals::{INTERVALS_PASSED_ON, LABELS_BY_ARCS, LABELS_OF_PATHS, ONE_INTERVAL};
pub use midnight::{DAY_LATER, LABELS_ROTATED};
pub use parties::{OTHERS_CLOSURES, OWN_OR_BOTH, PARTIES_EXCHANGED};
pub use passes::{PASSES_OF_PATHS, PASSES_RENUMBERED, PASSES_TWICE};
pub use sheets::{SHEET_BY_LABELS, SHEET_SHUFFLED, SHEET_TWICE};
pub use tables::{EITHER_OF_TWO_ARCS, ONE_ENTRY_CHANGED, OWN_TABLES, TABLES_OF_ANOTHER};
pub use week::{
    EARLIER_VERSIONS, EMPTY_SLOTS, MADE_ANEW, OWN_SLOT, PLAN_OF_EACH_DAY, PLANS_SHUFFLED,
    REFUSED_WEEKS, STORE_BY_HISTORY, VERSIONS_MOVED,
};

use super::answers::{shown_arc, shown_closed};
use super::{Check, Difference, Outcome};
use crate::cabinet;
use crate::inputs::closures::{random_asker, random_closures};
use crate::inputs::networks::{
    LoneArc, improve, interval_at, random_arc, random_arc_departure, random_departure,
    random_network, random_towards, small_network,
};
use crate::inputs::{OwnedNetwork, Random};
use crate::operations::Labelling;
use crate::reference::limits::{DAY, LAST_TICK, NO_ARC, UNREACHED};
use crate::reference::{Arrival, Closure, Refusal};

pub const NON_PASSING: Check = Check {
    name: "non-passing",
    cases: 100_000,
    run: non_passing,
    finds_nothing: true,
    refuses: &[],
};

pub const ARC_BY_TICKS: Check = Check {
    name: "arc by ticks",
    cases: 3_000,
    run: arc_by_ticks,
    finds_nothing: true,
    refuses: &[],
};

pub const LABELS_BY_WALKS: Check = Check {
    name: "labels by walks",
    cases: 500,
    run: labels_by_walks,
    finds_nothing: false,
    refuses: &[],
};

pub const IMPROVEMENT: Check = Check {
    name: "improvement",
    cases: 10_000,
    run: improvement,
    finds_nothing: false,
    refuses: &[],
};

/// Leaving later never arrives earlier.
fn non_passing(random: &mut Random) -> Result<Outcome, Difference> {
    let arc = random_arc(random);
    let earlier = random_arc_departure(random, &arc.fences);
    let later = random_towards(random, earlier, LAST_TICK);
    let arrival = |departure| {
        let arrival = cabinet_arrival(&arc, departure);
        arrival.map_or(UNREACHED, |arrival| arrival.tick)
    };
    let (first, second) = (arrival(earlier), arrival(later));
    if first > second {
        return Err(Difference {
            question: format!("{arc}, leaving at {earlier} and at {later}"),
            input: shown_arc(&arc),
            expected: format!("an arrival not after {second}"),
            found: format!("{first}"),
        });
    }
    Ok(driven((second != UNREACHED).then_some(second)))
}

fn arc_by_ticks(random: &mut Random) -> Result<Outcome, Difference> {
    let arc = random_arc(random);
    let departure = random_arc_departure(random, &arc.fences);
    let tick = arrival_by_ticks(
        departure,
        arc.length,
        arc.hold,
        &arc.fences,
        &arc.speeds,
        |_| false,
    );
    let expected = tick.map(|tick| arrival_at(&arc.fences, tick));
    expect_arrival(&arc, departure, expected)
}

fn expect_arrival(
    arc: &LoneArc,
    departure: u32,
    expected: Option<Arrival>,
) -> Result<Outcome, Difference> {
    let interval = interval_at(&arc.fences, departure);
    let found = cabinet_reply(arc, departure, interval);
    if found != Ok(expected) {
        return Err(Difference {
            question: format!("{arc}, leaving at {departure}"),
            input: shown_arc(arc),
            expected: format!("{expected:?}"),
            found: format!("{found:?}"),
        });
    }
    Ok(driven(expected))
}

/// The library's arrival on a good arc, left in the interval of the departure.
fn cabinet_arrival(arc: &LoneArc, departure: u32) -> Option<Arrival> {
    let interval = interval_at(&arc.fences, departure);
    cabinet_reply(arc, departure, interval).expect("a good arc")
}

/// The library's answer of Arc arrival.
fn cabinet_reply(arc: &LoneArc, departure: u32, interval: u32) -> Result<Option<Arrival>, Refusal> {
    let (fences, speeds) = (&arc.fences, &arc.speeds);
    cabinet::arc_arrival(departure, interval, arc.length, arc.hold, fences, speeds)
}

fn driven<T>(arrival: Option<T>) -> Outcome {
    arrival.map_or(Outcome::Nothing, |_| Outcome::Answered)
}

/// A tick and the interval that contains it.
fn arrival_at(fences: &[u32], tick: u32) -> Arrival {
    Arrival {
        tick,
        interval: interval_at(fences, tick),
    }
}

/// Adds up the speed of each tick until the length is covered; it is 0 if the arc is closed
/// then, else that of the interval that contains the tick's remainder by the day. Then the
/// hold is waited out.
fn arrival_by_ticks(
    departure: u32,
    length: u32,
    hold: u32,
    fences: &[u32],
    speeds: &[u8],
    closed: impl Fn(u32) -> bool,
) -> Option<u32> {
    let mut interval = 0;
    let mut spans = 0;
    for tick in departure..LAST_TICK {
        let remainder = tick % DAY;
        if remainder == 0 {
            interval = 0;
        }
        while fences
            .get(interval + 1)
            .is_some_and(|&next| next <= remainder)
        {
            interval += 1;
        }
        if !closed(tick) {
            spans += u32::from(speeds[interval]);
        }
        if spans >= 36 * length {
            return in_time(tick + 1 + hold);
        }
    }
    None
}

/// The tick, unless it is after the last one.
fn in_time(tick: u32) -> Option<u32> {
    (tick <= LAST_TICK).then_some(tick)
}

/// Labels, predecessors and routes against every walk of a small network, the passes that find
/// the labels arc by arc, and the predecessors that may stand beside them in tables.
fn labels_by_walks(random: &mut Random) -> Result<Outcome, Difference> {
    let network = small_network(random);
    let source = random.below(network.junctions);
    let departure = random_departure(random, &network.fences);
    let closures = random_closures(random, &network, source, departure);
    let asker = random_asker(random);
    let stopping = stopping(&closures, asker);
    let walks = Walks::all(&network, &stopping, source, departure);
    let tables = (walks.labels.clone(), walks.predecessors());
    let passes = (walks.passes(departure), tables.clone());
    let expected = (tables.clone(), walks.routes(), passes, walks.attaining());
    let routes = (0..network.junctions)
        .map(|to| cabinet_route(&network, &closures, asker, (source, departure), to))
        .collect();
    let found = (
        cabinet_labels(&network, &closures, asker, source, departure),
        routes,
        cabinet_passes(&network, &closures, asker, source, departure),
        cabinet_taken(&network, &closures, asker, (source, departure), &tables),
    );
    if found != expected {
        return Err(Difference {
            question: format!(
                "labels, routes, passes and tables for {asker} from {source} at {departure}"
            ),
            input: shown_closed(&network, &closures),
            expected: format!("{expected:?}"),
            found: format!("{found:?}"),
        });
    }
    Ok(Outcome::Answered)
}

/// What the tables check takes for each junction's predecessor, of all numbers of arcs and some
/// others, if nothing else is changed.
fn cabinet_taken(
    network: &OwnedNetwork,
    closures: &[Closure],
    asker: u32,
    (source, departure): (u32, u32),
    (labels, predecessors): &(Vec<u32>, Vec<u16>),
) -> Vec<Vec<u16>> {
    let lent = network.lent();
    let arcs = network.arcs() as u16;
    let taken = |junction: usize| {
        let numbers = (0..arcs + 2).chain([256, NO_ARC - 1, NO_ARC]);
        let taken = numbers.filter(|&number| {
            let mut sent = predecessors.clone();
            sent[junction] = number;
            let reply =
                cabinet::tables_check(&lent, closures, asker, source, departure, labels, &sent);
            reply.expect("a good question")
        });
        taken.collect()
    };
    (0..labels.len()).map(taken).collect()
}

/// The records that stop the asker.
fn stopping(closures: &[Closure], asker: u32) -> Vec<Closure> {
    let stops = |closure: &&Closure| closure.party == 0 || closure.party == asker;
    closures.iter().filter(stops).copied().collect()
}

fn cabinet_labels(
    network: &OwnedNetwork,
    closures: &[Closure],
    asker: u32,
    source: u32,
    departure: u32,
) -> (Vec<u32>, Vec<u16>) {
    let start = (source, departure);
    let ((), tables) = cabinet_tables(cabinet::labels, network, closures, asker, start);
    tables
}

/// The number of passes, with the labels and predecessors.
fn cabinet_passes(
    network: &OwnedNetwork,
    closures: &[Closure],
    asker: u32,
    source: u32,
    departure: u32,
) -> (u32, (Vec<u32>, Vec<u16>)) {
    let start = (source, departure);
    cabinet_tables(cabinet::passes, network, closures, asker, start)
}

fn cabinet_tables<T>(
    operation: Labelling<T>,
    network: &OwnedNetwork,
    closures: &[Closure],
    asker: u32,
    (source, departure): (u32, u32),
) -> (T, (Vec<u32>, Vec<u16>)) {
    let junctions = network.junctions as usize;
    let mut labels = vec![0; junctions];
    let mut predecessors = vec![0; junctions];
    let reply = operation(
        &network.lent(),
        closures,
        asker,
        source,
        departure,
        &mut labels,
        &mut predecessors,
    );
    (reply.expect("a good network"), (labels, predecessors))
}

/// The route, or `None` if the destination is unreached.
fn cabinet_route(
    network: &OwnedNetwork,
    closures: &[Closure],
    asker: u32,
    (source, departure): (u32, u32),
    destination: u32,
) -> Option<Vec<u16>> {
    let mut arcs = vec![0; network.junctions as usize];
    let network = network.lent();
    let reply = cabinet::route(
        &network,
        closures,
        asker,
        source,
        departure,
        destination,
        &mut arcs,
    );
    arcs.truncate(reply.ok()? as usize);
    Some(arcs)
}

/// What Labels, Passes, the tables check, Route and Sheet say to an unknown source, with all
/// after it wrong too.
fn refused_by_the_source(
    network: &OwnedNetwork,
    closures: &[Closure],
    asker: u32,
) -> [Result<(), Refusal>; 5] {
    let network = &network.lent();
    let unknown = network.junctions;
    [
        cabinet::labels(network, closures, asker, unknown, DAY, &mut [], &mut []),
        cabinet::passes(network, closures, asker, unknown, DAY, &mut [], &mut []).map(drop),
        cabinet::tables_check(network, closures, asker, unknown, DAY, &[], &[]).map(drop),
        cabinet::route(network, closures, asker, unknown, DAY, unknown, &mut []).map(drop),
        cabinet::sheet(network, closures, asker, unknown, &[], &mut [], &mut []),
    ]
}

/// The least arrivals over all walks of at most as many arcs as junctions; a
/// walk of more visits a junction twice, which never helps.
struct Walks<'a> {
    network: &'a OwnedNetwork,
    closures: &'a [Closure],
    source: usize,
    labels: Vec<u32>,
}

impl<'a> Walks<'a> {
    fn all(
        network: &'a OwnedNetwork,
        closures: &'a [Closure],
        source: u32,
        departure: u32,
    ) -> Self {
        let mut walks = Self {
            network,
            closures,
            source: source as usize,
            labels: vec![UNREACHED; network.junctions as usize],
        };
        walks.walk_on(source as usize, departure, network.junctions);
        walks
    }

    fn walk_on(&mut self, junction: usize, tick: u32, arcs_left: u32) {
        self.labels[junction] = self.labels[junction].min(tick);
        if arcs_left == 0 {
            return;
        }
        for arc in 0..self.network.arcs() {
            if self.tail(arc) == junction
                && let Some(arrival) = self.drive(arc, tick)
            {
                self.walk_on(self.head(arc), arrival, arcs_left - 1);
            }
        }
    }

    fn tail(&self, arc: usize) -> usize {
        self.network.tails[arc].into()
    }

    fn head(&self, arc: usize) -> usize {
        self.network.heads[arc].into()
    }

    fn drive(&self, arc: usize, departure: u32) -> Option<u32> {
        let network = self.network.lent();
        let (length, hold) = (network.lengths[arc], network.holds[arc].into());
        let speeds = network.arc_speeds(arc);
        let of_arc = |closure: &&Closure| closure.arc as usize == arc;
        let closures: Vec<&Closure> = self.closures.iter().filter(of_arc).collect();
        let closed = |tick| {
            let closes = |closure: &&Closure| closure.first <= tick && tick < closure.end;
            closures.iter().any(closes)
        };
        arrival_by_ticks(departure, length, hold, network.fences, speeds, closed)
    }

    /// The arcs that attain the junction's label; none for the source.
    fn arcs_attaining(&self, junction: usize) -> impl Iterator<Item = usize> {
        let label = self.labels[junction];
        let attains = move |&arc: &usize| {
            let tail_label = self.labels[self.tail(arc)];
            self.head(arc) == junction
                && tail_label != UNREACHED
                && self.drive(arc, tail_label) == Some(label)
        };
        let arcs = if junction == self.source {
            0
        } else {
            self.network.arcs()
        };
        (0..arcs).filter(attains)
    }

    /// The lowest arc that attains the junction's label, if it has one.
    fn predecessor(&self, junction: usize) -> Option<usize> {
        self.arcs_attaining(junction).next()
    }

    /// The predecessors that each junction may have.
    fn attaining(&self) -> Vec<Vec<u16>> {
        let numbers = |junction| {
            let arcs: Vec<u16> = self
                .arcs_attaining(junction)
                .map(|arc| arc as u16)
                .collect();
            if arcs.is_empty() { vec![NO_ARC] } else { arcs }
        };
        (0..self.labels.len()).map(numbers).collect()
    }

    /// Lowers labels arc by arc as long as a pass changes one, and counts the passes.
    fn passes(&self, departure: u32) -> u32 {
        let mut labels = vec![UNREACHED; self.labels.len()];
        labels[self.source] = departure;
        let mut number = 0;
        loop {
            number += 1;
            let before = labels.clone();
            for arc in 0..self.network.arcs() {
                let tick = labels[self.tail(arc)];
                let arrival = (tick != UNREACHED).then(|| self.drive(arc, tick)).flatten();
                let label = &mut labels[self.head(arc)];
                *label = arrival.unwrap_or(UNREACHED).min(*label);
            }
            if labels == before {
                return number;
            }
        }
    }

    fn predecessors(&self) -> Vec<u16> {
        let number = |junction| self.predecessor(junction).map_or(NO_ARC, |arc| arc as u16);
        (0..self.labels.len()).map(number).collect()
    }

    fn routes(&self) -> Vec<Option<Vec<u16>>> {
        let route = |junction| (self.labels[junction] != UNREACHED).then(|| self.route(junction));
        (0..self.labels.len()).map(route).collect()
    }

    fn route(&self, junction: usize) -> Vec<u16> {
        match self.predecessor(junction) {
            None => Vec::new(),
            Some(arc) => {
                let mut route = self.route(self.tail(arc));
                route.push(arc as u16);
                route
            }
        }
    }
}

/// More junctions and arcs, shorter and faster ones with shorter holds, closed to the asker
/// at fewer ticks, and an earlier departure, all together, make no label later.
fn improvement(random: &mut Random) -> Result<Outcome, Difference> {
    let network = random_network(random);
    let source = random.below(network.junctions);
    let departure = random_departure(random, &network.fences);
    let closures = random_closures(random, &network, source, departure);
    let asker = random_asker(random);
    let (improved, fewer) = improve(random, &network, &closures, asker);
    let earlier = random_towards(random, departure, 0);
    let (labels, _) = cabinet_labels(&network, &closures, asker, source, departure);
    let (better, _) = cabinet_labels(&improved, &fewer, asker, source, earlier);
    if labels
        .iter()
        .zip(&better)
        .any(|(label, better)| better > label)
    {
        return Err(Difference {
            question: format!("for {asker} from {source} at {departure}, improved at {earlier}"),
            input: [
                shown_closed(&network, &closures),
                shown_closed(&improved, &fewer),
            ]
            .concat(),
            expected: format!("labels not after {labels:?}"),
            found: format!("{better:?}"),
        });
    }
    Ok(Outcome::Answered)
}
