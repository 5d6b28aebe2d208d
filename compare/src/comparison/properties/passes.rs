//! Properties of repeated passes: what the arcs' numbers make of their number, on a path, in
//! the order in which the arcs are left, and with all arcs twice.

use super::{cabinet_labels, cabinet_passes, driven};
use crate::comparison::answers::shown_closed;
use crate::comparison::{Check, Difference, Outcome};
use crate::inputs::closures::{random_asker, random_closures, renumbered};
use crate::inputs::networks::{random_departure, random_network, random_path};
use crate::inputs::{OwnedNetwork, Random};
use crate::reference::Closure;
use crate::reference::limits::{MAX_ARCS, MAX_CLOSURES, UNREACHED};

pub const PASSES_OF_PATHS: Check = Check {
    name: "passes of paths",
    cases: 10_000,
    run: passes_of_paths,
    finds_nothing: true,
    refuses: &[],
};

pub const PASSES_RENUMBERED: Check = Check {
    name: "passes renumbered",
    cases: 10_000,
    run: passes_renumbered,
    finds_nothing: true,
    refuses: &[],
};

pub const PASSES_TWICE: Check = Check {
    name: "passes twice",
    cases: 10_000,
    run: passes_twice,
    finds_nothing: true,
    refuses: &[],
};

/// On a path each junction is reached in the same pass as the one before it, or in the next
/// one if its arc has a lower number than the arc before. Nothing is found where that is never
/// so.
fn passes_of_paths(random: &mut Random) -> Result<Outcome, Difference> {
    let path = random_path(random);
    let mut order: Vec<usize> = (0..path.arcs()).collect();
    match random.below(3) {
        0 => {}
        1 => order.reverse(),
        _ => random.shuffle(&mut order),
    }
    let question = Question::random(random, path.renumbered(&order), 0);
    let tables = question.labels();
    let mut numbers = vec![0; order.len()];
    for (number, &arc) in order.iter().enumerate() {
        numbers[arc] = number;
    }
    let on_the_way = &numbers[..reached(&tables.0) - 1];
    let lower = on_the_way.windows(2).filter(|pair| pair[1] < pair[0]);
    let later_passes = lower.count() as u32;
    let last = 1 + u32::from(!on_the_way.is_empty());
    question.expect(last + later_passes, &tables)?;
    Ok(driven((later_passes > 0).then_some(())))
}

/// With the arcs numbered as they are left, one pass finds all labels. They are the same with
/// any numbers. Nothing is found where one pass finds them in any case.
fn passes_renumbered(random: &mut Random) -> Result<Outcome, Difference> {
    let network = random_network(random);
    let source = random.below(network.junctions);
    let question = Question::random(random, network, source);
    let (number, (labels, _)) = question.passes();
    let order = question.network.arcs_as_left(&question.labels().0);
    let with_the_way = question.renumbered(&order);
    let (_, predecessors) = with_the_way.labels();
    let least = if reached(&labels) == 1 { 1 } else { 2 };
    with_the_way.expect(least, &(labels, predecessors))?;
    Ok(driven((number > least).then_some(())))
}

/// With all arcs repeated after themselves, a pass does what two do without that. Nothing is
/// found where there are no two to be done at once.
fn passes_twice(random: &mut Random) -> Result<Outcome, Difference> {
    let network = random_network(random);
    let source = random.below(network.junctions);
    let mut question = Question::random(random, network, source);
    question.closures.truncate(MAX_CLOSURES / 2);
    let half = question.network.arcs().min(MAX_ARCS / 2);
    let once: Vec<usize> = (0..half).collect();
    let question = question.renumbered(&once);
    let (number, tables) = question.passes();
    let twice = question.renumbered(&once.repeat(2));
    twice.expect(number / 2 + 1, &tables)?;
    Ok(driven((number > 2).then_some(())))
}

fn reached(labels: &[u32]) -> usize {
    labels.iter().filter(|&&label| label != UNREACHED).count()
}

/// What Labels and Passes are asked.
struct Question {
    network: OwnedNetwork,
    closures: Vec<Closure>,
    asker: u32,
    source: u32,
    departure: u32,
}

impl Question {
    fn random(random: &mut Random, network: OwnedNetwork, source: u32) -> Self {
        let departure = random_departure(random, &network.fences);
        Self {
            closures: random_closures(random, &network, source, departure),
            asker: random_asker(random),
            source,
            departure,
            network,
        }
    }

    /// The same question about arcs with other numbers.
    fn renumbered(&self, order: &[usize]) -> Self {
        Self {
            network: self.network.renumbered(order),
            closures: renumbered(&self.closures, order),
            ..*self
        }
    }

    fn labels(&self) -> (Vec<u32>, Vec<u16>) {
        cabinet_labels(
            &self.network,
            &self.closures,
            self.asker,
            self.source,
            self.departure,
        )
    }

    fn passes(&self) -> (u32, (Vec<u32>, Vec<u16>)) {
        cabinet_passes(
            &self.network,
            &self.closures,
            self.asker,
            self.source,
            self.departure,
        )
    }

    /// Expects so many passes, by which these labels and predecessors are found.
    fn expect(&self, number: u32, tables: &(Vec<u32>, Vec<u16>)) -> Result<(), Difference> {
        let (found, passed) = self.passes();
        if found == number && passed == *tables {
            return Ok(());
        }
        let Self {
            asker,
            source,
            departure,
            ..
        } = self;
        Err(Difference {
            question: format!("passes for {asker} from {source} at {departure}"),
            input: shown_closed(&self.network, &self.closures),
            expected: format!("{number}, {tables:?}"),
            found: format!("{found}, {passed:?}"),
        })
    }
}
