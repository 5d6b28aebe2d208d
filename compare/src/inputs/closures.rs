//! Random lists of closures and askers, and records that close the same ticks or others.

use super::{OwnedNetwork, Random};
use crate::reference::Closure;
use crate::reference::limits::{
    BOTH_PARTIES, BRIGADE, DAY, DEPOT, LAST_TICK, MAX_CLOSURES, NO_ARC, UNREACHED,
};

/// The brigade or the depot.
pub fn random_asker(random: &mut Random) -> u32 {
    random.pick(&[BRIGADE, DEPOT])
}

/// The party with the brigade and the depot exchanged; that of both stays.
pub fn exchanged(party: u32) -> u32 {
    match party {
        BRIGADE => DEPOT,
        DEPOT => BRIGADE,
        party => party,
    }
}

/// The parties that a list's records have: one alone, two or all.
const PARTIES: [&[u32]; 6] = [
    &[BOTH_PARTIES],
    &[BRIGADE],
    &[DEPOT],
    &[BRIGADE, DEPOT],
    &[BOTH_PARTIES, BRIGADE, DEPOT],
    &[BOTH_PARTIES, BRIGADE, DEPOT],
];

/// Records that the network takes, often none. Many close an arc at about the ticks at
/// which it is driven by who leaves the source at the departure.
pub fn random_closures(
    random: &mut Random,
    network: &OwnedNetwork,
    source: u32,
    departure: u32,
) -> Vec<Closure> {
    let count = match random.below(8) {
        _ if network.arcs() == 0 => 0,
        0..3 => 0,
        3 => 1,
        4 => MAX_CLOSURES as u32,
        _ => random.up_to_one_of(&[4, 20, MAX_CLOSURES as u32]),
    };
    let mut closures = Vec::with_capacity(count as usize);
    if count == 0 {
        return closures;
    }
    let drives = Drives::of(network, source, departure);
    let arcs = drives.random_arcs(random);
    let parties = random.pick(&PARTIES);
    for _ in 0..count {
        let closure = if !closures.is_empty() && random.one_in(3) {
            let other = random.pick(&closures);
            random_beside(random, other)
        } else {
            let arc = random.pick(&arcs);
            drives.random_closure(random, arc)
        };
        let party = random.pick(parties);
        closures.push(Closure { party, ..closure });
    }
    closures
}

/// The record of an arc for both parties between two ticks, made good if they are equal or
/// too late.
fn between(arc: u32, one: u32, other: u32) -> Closure {
    let first = one.min(other).min(LAST_TICK - 1);
    let end = one.max(other).clamp(first + 1, LAST_TICK);
    Closure {
        arc,
        first,
        end,
        party: BOTH_PARTIES,
    }
}

/// A record that repeats another, adjoins it or overlaps with it.
fn random_beside(random: &mut Random, closure: Closure) -> Closure {
    let Closure {
        arc, first, end, ..
    } = closure;
    let length = 1 + random.below(100);
    match random.below(4) {
        0 => closure,
        1 => between(arc, first.saturating_sub(length), first),
        2 => between(arc, end, end + length),
        _ => between(arc, random_inside(random, closure), end + length),
    }
}

/// A tick at which the arc is closed.
fn random_inside(random: &mut Random, closure: Closure) -> u32 {
    closure.first + random.below(closure.end - closure.first)
}

/// How a network without closures is driven.
struct Drives<'a> {
    network: &'a OwnedNetwork,
    departure: u32,
    labels: Vec<u32>,
    predecessors: Vec<u16>,
}

impl<'a> Drives<'a> {
    fn of(network: &'a OwnedNetwork, source: u32, departure: u32) -> Self {
        let (labels, predecessors) = network.open_labels(source, departure);
        Self {
            network,
            departure,
            labels,
            predecessors,
        }
    }

    /// Some arcs, one or several of them predecessors or any.
    fn random_arcs(&self, random: &mut Random) -> Vec<u32> {
        let count = random.up_to_one_of(&[1, 4, MAX_CLOSURES as u32]);
        let arc = |_| {
            let predecessor = random.pick(&self.predecessors);
            if predecessor != NO_ARC && !random.one_in(4) {
                predecessor.into()
            } else {
                random.place(self.network.arcs()) as u32
            }
        };
        (0..count).map(arc).collect()
    }

    fn random_closure(&self, random: &mut Random, arc: u32) -> Closure {
        let first = self.random_tick(random, arc);
        let end = if random.one_in(3) {
            first + random.up_to_one_of(&[1, 3, 100])
        } else {
            self.random_tick(random, arc)
        };
        between(arc, first, end)
    }

    /// Any tick, often near the arc's departure or arrival, a fence, midnight or the last
    /// tick.
    fn random_tick(&self, random: &mut Random, arc: u32) -> u32 {
        let label = |end: &[u16]| match self.labels[usize::from(end[arc as usize])] {
            UNREACHED => self.departure,
            label => label,
        };
        let (left, reached) = (label(&self.network.tails), label(&self.network.heads));
        let tick = match random.below(8) {
            0 | 1 => near(random, left),
            2 | 3 => near(random, reached),
            4 => left.min(reached) + random.below(left.abs_diff(reached) + 1),
            5 => near_one_of(random, &[0, DAY, LAST_TICK]),
            6 => near_one_of(random, &self.network.fences) + random.pick(&[0, DAY]),
            _ => random.below(LAST_TICK + 1),
        };
        tick.min(LAST_TICK)
    }
}

/// The tick itself, the one before or the one after.
fn near(random: &mut Random, tick: u32) -> u32 {
    (tick + random.below(3)).saturating_sub(1)
}

fn near_one_of(random: &mut Random, ticks: &[u32]) -> u32 {
    let tick = random.pick(ticks);
    near(random, tick)
}

/// Records that close the same ticks to each asker: in another order, and some of them
/// parted in two, which may overlap or be one for each party, or repeated.
pub fn random_same_ticks(random: &mut Random, closures: &[Closure]) -> Vec<Closure> {
    let mut same = closures.to_vec();
    for &closure in closures {
        if same.len() < MAX_CLOSURES && random.one_in(2) {
            let whole = same.iter_mut().find(|one| **one == closure);
            let whole = whole.expect("not parted before");
            if closure.party == BOTH_PARTIES && random.one_in(4) {
                whole.party = BRIGADE;
                same.push(Closure {
                    party: DEPOT,
                    ..closure
                });
                continue;
            }
            let end = 1 + random_inside(random, closure);
            let overlap = random.pick(&[1, 1 + end - closure.first]);
            let first = end - random.below(overlap);
            if first < closure.end {
                whole.end = end;
                same.push(Closure { first, ..closure });
            } else {
                same.push(closure);
            }
        }
    }
    random.shuffle(&mut same);
    same
}

/// The records for arcs that are renumbered in this order, each for every arc that it is now.
pub fn renumbered(closures: &[Closure], order: &[usize]) -> Vec<Closure> {
    let mut moved = Vec::new();
    for closure in closures {
        let now = (0..)
            .zip(order)
            .filter(|&(_, &arc)| arc == closure.arc as usize);
        moved.extend(now.map(|(arc, _)| Closure { arc, ..*closure }));
    }
    moved
}

/// Records that close all these ticks and more, or to both parties.
pub fn random_more_ticks(random: &mut Random, closures: &[Closure]) -> Vec<Closure> {
    let mut more = closures.to_vec();
    for closure in &mut more {
        let ticks = random.pick(&[0, 0, 1, 1_000]);
        closure.first = closure.first.saturating_sub(random.below(ticks + 1));
        closure.end = LAST_TICK.min(closure.end + random.below(ticks + 1));
        if random.one_in(4) {
            closure.party = BOTH_PARTIES;
        }
    }
    more
}

/// Records that close some of these ticks and no others, or to one party only.
pub fn random_fewer_ticks(random: &mut Random, closures: &[Closure]) -> Vec<Closure> {
    let mut fewer = closures.to_vec();
    fewer.retain(|_| !random.one_in(8));
    for closure in &mut fewer {
        if random.one_in(2) {
            let one = random_inside(random, *closure);
            let other = random.pick(&[closure.first, closure.end, one]);
            *closure = Closure {
                party: closure.party,
                ..between(closure.arc, one, other)
            };
        }
        if closure.party == BOTH_PARTIES && random.one_in(8) {
            closure.party = random_asker(random);
        }
    }
    fewer
}

#[cfg(test)]
mod tests {
    use super::super::networks::{random_departure, random_network};
    use super::*;

    /// Whether the records close the arc to the asker at the tick.
    fn closes(closures: &[Closure], asker: u32, arc: u32, tick: u32) -> bool {
        let stops = |one: &Closure| one.party == 0 || one.party == asker;
        let closed = |one: &Closure| one.arc == arc && one.first <= tick && tick < one.end;
        closures.iter().any(|one| stops(one) && closed(one))
    }

    #[test]
    fn moves_along_with_arcs() {
        let closures = [between(1, 5, 9), between(0, 7, 8), between(2, 0, 1)];
        let moved = renumbered(&closures, &[1, 0, 1]);
        assert_eq!(
            moved,
            [between(0, 5, 9), between(2, 5, 9), between(1, 7, 8)]
        );
    }

    #[test]
    fn rewrites_the_same_ticks_and_more_and_fewer() {
        let random = &mut Random::new(1);
        for _ in 0..500 {
            let network = random_network(random);
            let source = random.below(network.junctions);
            let departure = random_departure(random, &network.fences);
            let closures = random_closures(random, &network, source, departure);
            let same = random_same_ticks(random, &closures);
            let more = random_more_ticks(random, &closures);
            let fewer = random_fewer_ticks(random, &closures);
            assert!(closures.len().max(same.len()) <= 64);
            for list in [&closures, &same, &more, &fewer] {
                for record in list {
                    let &Closure {
                        arc, first, end, ..
                    } = record;
                    assert!((arc as usize) < network.arcs());
                    assert!(first < end && end <= 1_728_000);
                    assert!(record.party <= 2);
                    let asker = random_asker(random);
                    for tick in [first.saturating_sub(1), first, end - 1, end] {
                        let closed = closes(&closures, asker, arc, tick);
                        assert_eq!(closes(&same, asker, arc, tick), closed);
                        assert!(closes(&more, asker, arc, tick) || !closed);
                        assert!(!closes(&fewer, asker, arc, tick) || closed);
                    }
                }
            }
        }
    }
}
