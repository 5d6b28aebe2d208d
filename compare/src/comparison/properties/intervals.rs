//! Properties of the interval that Arc arrival is given, and of the one it gives back
//! for the next arc.

use super::{arrival_at, cabinet_labels, cabinet_passes, cabinet_reply, driven};
use crate::cabinet;
use crate::comparison::answers::{shown, shown_arc};
use crate::comparison::{Check, Difference, Outcome};
use crate::inputs::networks::{
    LoneArc, random_arc, random_arc_departure, random_departure, random_network, random_path,
};
use crate::inputs::{OwnedNetwork, Random};
use crate::reference::limits::{BRIGADE, DAY, NO_ARC, UNREACHED};
use crate::reference::{Arrival, Refusal};

pub const ONE_INTERVAL: Check = Check {
    name: "one interval",
    cases: 20_000,
    run: one_interval,
    finds_nothing: true,
    refuses: &[],
};

pub const INTERVALS_PASSED_ON: Check = Check {
    name: "intervals passed on",
    cases: 50_000,
    run: intervals_passed_on,
    finds_nothing: true,
    refuses: &[],
};

pub const LABELS_OF_PATHS: Check = Check {
    name: "labels of paths",
    cases: 10_000,
    run: labels_of_paths,
    finds_nothing: true,
    refuses: &[],
};

pub const LABELS_BY_ARCS: Check = Check {
    name: "labels by arcs",
    cases: 2_000,
    run: labels_by_arcs,
    finds_nothing: false,
    refuses: &[],
};

/// Whether there is this interval, its fence is at or before the tick's remainder by
/// the day, and the next fence, if any, is after it.
fn contains(fences: &[u32], interval: u32, tick: u32) -> bool {
    let remainder = tick % DAY;
    let mut from_its_fence = fences.iter().skip(interval as usize);
    let started = from_its_fence
        .next()
        .is_some_and(|&fence| fence <= remainder);
    started && from_its_fence.all(|&fence| remainder < fence)
}

/// Of all intervals that may be given, one alone is not 46: that of the departure.
fn one_interval(random: &mut Random) -> Result<Outcome, Difference> {
    let arc = random_arc(random);
    let departure = random_arc_departure(random, &arc.fences);
    let count = arc.fences.len() as u32;
    let mut outcome = None;
    for interval in (0..count + 2).chain([u32::MAX]) {
        let reply = cabinet_reply(&arc, departure, interval);
        let right = contains(&arc.fences, interval, departure);
        match reply {
            Ok(arrival) if right => outcome = Some(driven(arrival)),
            Err(Refusal(46)) if !right => {}
            _ => {
                return Err(Difference {
                    question: format!("{arc}, leaving at {departure} in {interval}"),
                    input: shown_arc(&arc),
                    expected: if right { "an answer" } else { "number 46" }.to_owned(),
                    found: format!("{reply:?}"),
                });
            }
        }
    }
    Ok(outcome.expect("one interval contains the departure"))
}

/// Arcs are driven one after the other, each left with the interval that the one before
/// gave back: it contains the tick and so is never refused. Nothing is found where one
/// of them cannot be driven.
fn intervals_passed_on(random: &mut Random) -> Result<Outcome, Difference> {
    let LoneArc { fences, .. } = random_arc(random);
    let departure = random_arc_departure(random, &fences);
    let mut start = arrival_at(&fences, departure);
    for _ in 0..random.up_to_one_of(&[2, 20]) {
        let mut arc = random_arc(random);
        arc.speeds.resize(fences.len(), random.below(100) as u8);
        arc.fences.clone_from(&fences);
        let reply = cabinet_reply(&arc, start.tick, start.interval);
        match reply {
            Ok(Some(arrival)) if contains(&fences, arrival.interval, arrival.tick) => {
                start = arrival;
            }
            Ok(None) => return Ok(Outcome::Nothing),
            _ => {
                return Err(Difference {
                    question: format!("{arc}, leaving with {start:?}"),
                    input: shown_arc(&arc),
                    expected: "a tick and the interval that contains it".to_owned(),
                    found: format!("{reply:?}"),
                });
            }
        }
    }
    Ok(Outcome::Answered)
}

/// The labels of junctions in a row are what Arc arrival gives arc by arc, with the
/// interval passed on. Nothing is found where one of the arcs cannot be driven.
fn labels_of_paths(random: &mut Random) -> Result<Outcome, Difference> {
    let path = random_path(random);
    let departure = random_departure(random, &path.fences);
    let mut reached = vec![arrival_at(&path.fences, departure)];
    while reached.len() <= path.arcs()
        && let Some(arrival) = drive(&path, reached.len() - 1, reached[reached.len() - 1])
    {
        reached.push(arrival);
    }
    let labels = reached.iter().map(|arrival| arrival.tick);
    let predecessors = [NO_ARC].into_iter().chain(0..);
    let (mut labels, mut predecessors): (Vec<u32>, Vec<u16>) = labels.zip(predecessors).unzip();
    labels.resize(path.junctions as usize, UNREACHED);
    predecessors.resize(path.junctions as usize, NO_ARC);
    expect_labels(&path, 0, departure, (labels, predecessors))?;
    let all_reached = reached.len() > path.arcs();
    Ok(driven(all_reached.then_some(())))
}

/// Arc arrival improves every arc's head as long as it can, each junction with the
/// interval given back for it; then the labels are reached, by as many passes as Passes says.
fn labels_by_arcs(random: &mut Random) -> Result<Outcome, Difference> {
    let network = random_network(random);
    let source = random.below(network.junctions);
    let departure = random_departure(random, &network.fences);
    let mut reached = vec![None; network.junctions as usize];
    reached[source as usize] = Some(arrival_at(&network.fences, departure));
    let mut passes = 1;
    while improve_heads(&network, &mut reached) {
        passes += 1;
    }
    let label = |reached: &Option<Arrival>| reached.map_or(UNREACHED, |arrival| arrival.tick);
    let labels = reached.iter().map(label).collect();
    let mut predecessors = vec![NO_ARC; reached.len()];
    // From the last to the first, so that the lowest number stays.
    for arc in (0..network.arcs()).rev() {
        let head = usize::from(network.heads[arc]);
        if arrival_on(&network, arc, &reached).is_some_and(|arrival| reached[head] == Some(arrival))
        {
            predecessors[head] = arc as u16;
        }
    }
    let expected = (labels, predecessors);
    let found = cabinet_passes(&network, &[], BRIGADE, source, departure);
    if found != (passes, expected.clone()) {
        return Err(Difference {
            question: format!("passes from {source} at {departure}"),
            input: shown(&network),
            expected: format!("{passes}, {expected:?}"),
            found: format!("{found:?}"),
        });
    }
    expect_labels(&network, source, departure, expected)
}

/// Puts each arc's arrival in its head's place if it is earlier, and says whether one was.
fn improve_heads(network: &OwnedNetwork, reached: &mut [Option<Arrival>]) -> bool {
    let mut improved = false;
    for arc in 0..network.arcs() {
        let head = usize::from(network.heads[arc]);
        if let Some(arrival) = arrival_on(network, arc, reached)
            && reached[head].is_none_or(|present| arrival.tick < present.tick)
        {
            reached[head] = Some(arrival);
            improved = true;
        }
    }
    improved
}

/// The arrival on an arc whose tail is reached.
fn arrival_on(network: &OwnedNetwork, arc: usize, reached: &[Option<Arrival>]) -> Option<Arrival> {
    let start = reached[usize::from(network.tails[arc])]?;
    drive(network, arc, start)
}

/// The library's arrival on an arc that is left with the tail's arrival.
fn drive(network: &OwnedNetwork, arc: usize, start: Arrival) -> Option<Arrival> {
    let Arrival { tick, interval } = start;
    let network = network.lent();
    let (length, hold) = (network.lengths[arc], network.holds[arc].into());
    let speeds = network.arc_speeds(arc);
    let reply = cabinet::arc_arrival(tick, interval, length, hold, network.fences, speeds);
    reply.expect("a good arc, left in the interval given back")
}

fn expect_labels(
    network: &OwnedNetwork,
    source: u32,
    departure: u32,
    expected: (Vec<u32>, Vec<u16>),
) -> Result<Outcome, Difference> {
    let found = cabinet_labels(network, &[], BRIGADE, source, departure);
    if found != expected {
        return Err(Difference {
            question: format!("labels from {source} at {departure}"),
            input: shown(network),
            expected: format!("{expected:?}"),
            found: format!("{found:?}"),
        });
    }
    Ok(Outcome::Answered)
}
