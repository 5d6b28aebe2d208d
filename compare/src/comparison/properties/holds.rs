//! Properties of holds: of an arc with its hold and without it, of holds that become
//! arcs, and of damaged hold tables.

use std::mem;

use super::{
    arrival_at, cabinet_arrival, cabinet_labels, expect_arrival, in_time, refused_by_the_source,
};
use crate::cabinet;
use crate::comparison::answers::{shown, shown_closed};
use crate::comparison::{Check, Difference, Outcome};
use crate::inputs::Random;
use crate::inputs::closures::{random_asker, random_closures};
use crate::inputs::damage::damage_holds;
use crate::inputs::networks::{random_arc, random_arc_departure, random_departure, random_network};
use crate::reference::limits::{MAX_ARCS, MAX_JUNCTIONS};
use crate::reference::{Closure, Refusal};

pub const ARC_HELD: Check = Check {
    name: "arc held",
    cases: 100_000,
    run: arc_held,
    finds_nothing: true,
    refuses: &[],
};

pub const HOLDS_AS_ARCS: Check = Check {
    name: "holds as arcs",
    cases: 10_000,
    run: holds_as_arcs,
    finds_nothing: true,
    refuses: &[],
};

pub const HOLD_TABLE: Check = Check {
    name: "hold table",
    cases: 5_000,
    run: hold_table,
    finds_nothing: false,
    refuses: &[4..=4, 32..=32],
};

/// An arc's arrival with its hold is the one without it, as many ticks later, in the
/// interval that then contains it. One arc after another is asked about until one can be
/// driven without its hold, so that nothing is found exactly where the hold ends after
/// the last tick.
fn arc_held(random: &mut Random) -> Result<Outcome, Difference> {
    loop {
        let mut arc = random_arc(random);
        let departure = random_arc_departure(random, &arc.fences);
        let hold = mem::take(&mut arc.hold);
        let at_stop_line = cabinet_arrival(&arc, departure);
        arc.hold = hold;
        let tick = at_stop_line.and_then(|arrival| in_time(arrival.tick + hold));
        let expected = tick.map(|tick| arrival_at(&arc.fences, tick));
        let outcome = expect_arrival(&arc, departure, expected)?;
        if at_stop_line.is_some() {
            return Ok(outcome);
        }
    }
}

/// If stop lines become junctions and their holds arcs that take as long, the junctions
/// that there were have the same labels and predecessors. What closed such an arc closes
/// the way to its stop line alone. Nothing is found where no stop line became a junction.
fn holds_as_arcs(random: &mut Random) -> Result<Outcome, Difference> {
    let network = random_network(random);
    let source = random.below(network.junctions);
    let departure = random_departure(random, &network.fences);
    let closures = random_closures(random, &network, source, departure);
    let asker = random_asker(random);
    let mut with_stop_lines = network.clone();
    let mut before_stop_lines = closures.clone();
    let chances = random.pick(&[1, 3]);
    for arc in 0..network.arcs() {
        let room = with_stop_lines.junctions < MAX_JUNCTIONS && with_stop_lines.arcs() < MAX_ARCS;
        if room && network.holds[arc] > 0 && random.one_in(chances) {
            let way = with_stop_lines.make_stop_line_a_junction(arc);
            for (closure, moved) in closures.iter().zip(&mut before_stop_lines) {
                if closure.arc as usize == arc {
                    moved.arc = way as u32;
                }
            }
        }
    }
    let expected = cabinet_labels(&network, &closures, asker, source, departure);
    let found = cabinet_labels(
        &with_stop_lines,
        &before_stop_lines,
        asker,
        source,
        departure,
    );
    let (mut labels, mut predecessors) = found;
    labels.truncate(network.junctions as usize);
    predecessors.truncate(network.junctions as usize);
    let found = (labels, predecessors);
    if found != expected {
        return Err(Difference {
            question: format!(
                "labels for {asker} from {source} at {departure}, and with holds as arcs"
            ),
            input: [
                shown_closed(&network, &closures),
                shown_closed(&with_stop_lines, &before_stop_lines),
            ]
            .concat(),
            expected: format!("{expected:?}"),
            found: format!("{found:?}"),
        });
    }
    if with_stop_lines == network {
        Ok(Outcome::Nothing)
    } else {
        Ok(Outcome::Answered)
    }
}

/// Where nothing but the hold table may be damaged, its number is that of every operation
/// that takes a network, although all that comes after the network is wrong.
fn hold_table(random: &mut Random) -> Result<Outcome, Difference> {
    let mut network = random_network(random);
    if !random.one_in(4) {
        damage_holds(random, &mut network.holds);
    }
    let expected = if network.holds.len() != network.arcs() {
        Err(Refusal(4))
    } else if network.holds.iter().any(|&hold| hold > 1_200) {
        Err(Refusal(32))
    } else {
        Ok(())
    };
    let check = cabinet::network_check(&network.lent());
    // To a good network the list of closures is refused instead, for their number.
    let after_network = expected.and(Err(Refusal(36)));
    let wrong = Closure {
        arc: u32::MAX,
        first: 1,
        end: 0,
        party: 3,
    };
    let found = (check, refused_by_the_source(&network, &[wrong; 65], 0));
    let expected = (expected, [after_network; 5]);
    if found != expected {
        return Err(Difference {
            question: "network check, labels, passes, tables check, route and sheet".to_owned(),
            input: shown(&network),
            expected: format!("{expected:?}"),
            found: format!("{found:?}"),
        });
    }
    Ok(Outcome::of(&check))
}
