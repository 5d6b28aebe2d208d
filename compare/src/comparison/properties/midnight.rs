//! Properties of speeds that start again at midnight: of an arc left a day later,
//! and of a town whose day starts at another tick.

use super::{cabinet_labels, cabinet_reply, driven};
use crate::comparison::answers::{shown_arc, shown_closed};
use crate::comparison::{Check, Difference, Outcome};
use crate::inputs::Random;
use crate::inputs::closures::{random_asker, random_closures};
use crate::inputs::networks::{interval_at, random_arc, random_departure, random_network};
use crate::reference::limits::{DAY, LAST_TICK, MAX_INTERVALS, NO_ARC, UNREACHED};
use crate::reference::{Arrival, Closure};

pub const DAY_LATER: Check = Check {
    name: "a day later",
    cases: 100_000,
    run: day_later,
    finds_nothing: true,
    refuses: &[],
};

pub const LABELS_ROTATED: Check = Check {
    name: "labels rotated",
    cases: 10_000,
    run: labels_rotated,
    finds_nothing: false,
    refuses: &[],
};

/// Leaving a day later in the same interval arrives a day later in the same interval,
/// or not at all if that is after the last tick. One arc after another is asked about
/// until one can be driven from the first day, so that nothing is found exactly where
/// that drive goes on after midnight.
fn day_later(random: &mut Random) -> Result<Outcome, Difference> {
    loop {
        let arc = random_arc(random);
        let departure = random_departure_of_first_day(random, &arc.fences);
        let interval = interval_at(&arc.fences, departure);
        let arrival = |departure| cabinet_reply(&arc, departure, interval).expect("a good arc");
        let first = arrival(departure);
        let a_day_after = first.map(|Arrival { tick, interval }| Arrival {
            tick: tick + DAY,
            interval,
        });
        let expected = a_day_after.filter(|arrival| arrival.tick <= LAST_TICK);
        let found = arrival(departure + DAY);
        if found != expected {
            return Err(Difference {
                question: format!("{arc}, leaving at {departure} and a day later"),
                input: shown_arc(&arc),
                expected: format!("{expected:?} after {first:?}"),
                found: format!("{found:?}"),
            });
        }
        if first.is_some() {
            return Ok(driven(expected));
        }
    }
}

/// A departure up to the midnight after the first day, which is a day before the
/// last tick.
fn random_departure_of_first_day(random: &mut Random, fences: &[u32]) -> u32 {
    if random.one_in(16) {
        DAY
    } else {
        random_departure(random, fences)
    }
}

/// If a town's day starts at another tick, and its speeds are rotated and its closures
/// moved along, whoever leaves at the same moment has the same labels, as many ticks
/// earlier or later.
/// Nothing is found unless some label is after midnight in one of the two alone.
fn labels_rotated(random: &mut Random) -> Result<Outcome, Difference> {
    let network = random_network(random);
    let source = random.below(network.junctions);
    let departure = random_departure(random, &network.fences);
    let start = random_day_start(random, &network.fences, departure);
    let rotated = network.with_day_from(start);
    let mut towns = [
        (departure, &network),
        ((departure + DAY - start) % DAY, &rotated),
    ];
    // Who leaves at an earlier tick has more time to the last one.
    towns.sort_by_key(|&(departure, _)| departure);
    let [(early, town), (late, same_town)] = towns;
    let closures = random_closures(random, town, source, early);
    let later_closures = closed_later(&closures, late - early);
    let asker = random_asker(random);
    let (labels, predecessors) = cabinet_labels(town, &closures, asker, source, early);
    let expected = made_later(&labels, &predecessors, late - early);
    let found = cabinet_labels(same_town, &later_closures, asker, source, late);
    if found != expected {
        return Err(Difference {
            question: format!("labels for {asker} from {source} at {early}, and rotated at {late}"),
            input: [
                shown_closed(town, &closures),
                shown_closed(same_town, &later_closures),
            ]
            .concat(),
            expected: format!("{expected:?}"),
            found: format!("{found:?}"),
        });
    }
    let midnight_between =
        |(&label, &later): (&u32, &u32)| label <= DAY && DAY < later && later != UNREACHED;
    if labels.iter().zip(&found.0).any(midnight_between) {
        Ok(Outcome::Answered)
    } else {
        Ok(Outcome::Nothing)
    }
}

/// A tick at which a day may start: often soon after the departure or at a fence, and
/// always at one if there is no room for a further interval.
fn random_day_start(random: &mut Random, fences: &[u32], departure: u32) -> u32 {
    match random.below(4) {
        _ if fences.len() == MAX_INTERVALS => random.pick(fences),
        0 => random.pick(fences),
        1 => random_departure(random, fences),
        _ => (departure + 1 + random.below(100)) % DAY,
    }
}

/// Labels so many ticks later, with their predecessors; what is then after the last
/// tick is unreached.
fn made_later(labels: &[u32], predecessors: &[u16], ticks: u32) -> (Vec<u32>, Vec<u16>) {
    let later = |(&label, &predecessor): (&u32, &u16)| match label.saturating_add(ticks) {
        label @ ..=LAST_TICK => (label, predecessor),
        _ => (UNREACHED, NO_ARC),
    };
    labels.iter().zip(predecessors).map(later).unzip()
}

/// Closures so many ticks later, without what is then after the last tick.
fn closed_later(closures: &[Closure], ticks: u32) -> Vec<Closure> {
    let later = closures.iter().map(|closure| Closure {
        first: closure.first + ticks,
        end: LAST_TICK.min(closure.end + ticks),
        ..*closure
    });
    later
        .filter(|closure| closure.first < closure.end)
        .collect()
}
