//! Properties of the tables check: of the library's own tables, of those with one entry
//! changed, of tables for another question, and of arcs that are there twice.

use super::{arrival_by_ticks, cabinet_labels, cabinet_passes, driven, stopping};
use crate::cabinet;
use crate::comparison::answers::shown_tables;
use crate::comparison::{Check, Difference, Outcome};
use crate::inputs::Random;
use crate::inputs::closures::{random_asker, random_closures, renumbered};
use crate::inputs::networks::{interval_at, random_departure, random_network};
use crate::inputs::tables::{Question, Tables, alter_label, alter_predecessor};
use crate::reference::Closure;
use crate::reference::limits::{DAY, MAX_ARCS, MAX_CLOSURES, NO_ARC, UNREACHED};

pub const OWN_TABLES: Check = Check {
    name: "own tables",
    cases: 5_000,
    run: own_tables,
    finds_nothing: false,
    refuses: &[],
};

pub const ONE_ENTRY_CHANGED: Check = Check {
    name: "one entry changed",
    cases: 20_000,
    run: one_entry_changed,
    finds_nothing: true,
    refuses: &[],
};

pub const TABLES_OF_ANOTHER: Check = Check {
    name: "tables of another question",
    cases: 10_000,
    run: tables_of_another,
    finds_nothing: true,
    refuses: &[],
};

pub const EITHER_OF_TWO_ARCS: Check = Check {
    name: "either of two arcs",
    cases: 5_000,
    run: either_of_two_arcs,
    finds_nothing: true,
    refuses: &[],
};

/// The tables that Labels and Passes leave are right.
fn own_tables(random: &mut Random) -> Result<Outcome, Difference> {
    let question = random_question(random);
    let Question {
        network,
        closures,
        asker,
        source,
        departure,
    } = &question;
    expect(&question, &labels(&question), true)?;
    let (_, passed) = cabinet_passes(network, closures, *asker, *source, *departure);
    expect(&question, &passed, true)
}

/// With another label the tables are wrong. With another predecessor they are right exactly
/// if it is an arc into its junction on which the library arrives at its label.
fn one_entry_changed(random: &mut Random) -> Result<Outcome, Difference> {
    let mut question = random_question(random);
    if random.one_in(2) {
        // So that there are others that attain it.
        (question, _) = arcs_twice(question);
    }
    let own = labels(&question);
    let mut sent = own.clone();
    let has_one = |&junction: &usize| own.1[junction] != NO_ARC;
    let with_predecessor: Vec<usize> = (0..own.1.len()).filter(has_one).collect();
    let junction = if with_predecessor.is_empty() || random.one_in(4) {
        random.place(own.1.len())
    } else {
        random.pick(&with_predecessor)
    };
    if random.one_in(3) {
        alter_label(random, question.departure, junction, &mut sent.0);
    } else {
        alter_predecessor(random, &question.network, junction, &mut sent);
    }
    if sent == own {
        return Ok(Outcome::Nothing);
    }
    expect(&question, &sent, right(&question, &own, &sent))
}

/// The library's tables for a question that is little different are right only if the labels
/// are the same, and then exactly if each predecessor attains its label.
fn tables_of_another(random: &mut Random) -> Result<Outcome, Difference> {
    let question = random_question(random);
    let mut another = question.clone();
    another.vary(random);
    let (own, sent) = (labels(&question), labels(&another));
    expect(&question, &sent, right(&question, &own, &sent))
}

/// If every arc is there twice, each predecessor may be either of the two. Nothing is found
/// where the source alone is reached.
fn either_of_two_arcs(random: &mut Random) -> Result<Outcome, Difference> {
    let (twice, half) = arcs_twice(random_question(random));
    let (labels, mut predecessors) = labels(&twice);
    let mut named = None;
    for predecessor in predecessors.iter_mut().filter(|arc| **arc != NO_ARC) {
        *predecessor += random.pick(&[0, half]);
        named = Some(());
    }
    expect(&twice, &(labels, predecessors), true)?;
    Ok(driven(named))
}

/// The same question with all arcs repeated after themselves, or as many of them as there is
/// room for; their number without that is the second.
fn arcs_twice(mut question: Question) -> (Question, u16) {
    question.closures.truncate(MAX_CLOSURES / 2);
    let half = question.network.arcs().min(MAX_ARCS / 2);
    let once: Vec<usize> = (0..half).collect();
    (question.renumbered(&once.repeat(2)), half as u16)
}

fn random_question(random: &mut Random) -> Question {
    let network = random_network(random);
    let source = random.below(network.junctions);
    let departure = random_departure(random, &network.fences);
    Question {
        closures: random_closures(random, &network, source, departure),
        asker: random_asker(random),
        network,
        source,
        departure,
    }
}

/// The library's own.
fn labels(question: &Question) -> Tables {
    let Question {
        network,
        closures,
        asker,
        source,
        departure,
    } = question;
    cabinet_labels(network, closures, *asker, *source, *departure)
}

/// Expects this answer. Nothing is found if it is a no.
fn expect(question: &Question, sent: &Tables, yes: bool) -> Result<Outcome, Difference> {
    let Question {
        network,
        closures,
        asker,
        source,
        departure,
    } = question;
    let found = cabinet::tables_check(
        &network.lent(),
        closures,
        *asker,
        *source,
        *departure,
        &sent.0,
        &sent.1,
    );
    if found != Ok(yes) {
        return Err(Difference {
            question: format!("tables check for {asker} from {source} at {departure}"),
            input: shown_tables(network, closures, (&sent.0, &sent.1)),
            expected: format!("{yes}"),
            found: format!("{found:?}"),
        });
    }
    Ok(driven(yes.then_some(())))
}

/// Whether tables are right: the labels are the library's, and so is each predecessor, or it
/// is another arc that attains the label.
fn right(question: &Question, own: &Tables, sent: &Tables) -> bool {
    let places = own.1.iter().zip(&sent.1).enumerate();
    let mut changed = places.filter(|(_, (own, sent))| own != sent);
    own.0 == sent.0
        && changed.all(|(junction, (&own_arc, &arc))| {
            own_arc != NO_ARC && attains(question, &own.0, arc.into(), junction)
        })
}

/// Whether the arc goes into the junction and attains its label.
fn attains(question: &Question, labels: &[u32], arc: usize, junction: usize) -> bool {
    let network = &question.network;
    arc < network.arcs()
        && usize::from(network.heads[arc]) == junction
        && match labels[usize::from(network.tails[arc])] {
            UNREACHED => false,
            left => arrival(question, arc, left) == Some(labels[junction]),
        }
}

/// The arrival on an arc that is left at this tick: on the first day by the library's Labels
/// of a town with this arc alone, on the second by its Arc arrival, which has no closures; if
/// there are some, tick by tick.
fn arrival(question: &Question, arc: usize, left: u32) -> Option<u32> {
    let mut alone = question.renumbered(&[arc]);
    if left < DAY {
        alone.network.junctions = 2;
        alone.network.tails = vec![0];
        alone.network.heads = vec![1];
        (alone.source, alone.departure) = (0, left);
        let (labels, _) = labels(&alone);
        return (labels[1] != UNREACHED).then_some(labels[1]);
    }
    let network = &alone.network;
    let (length, hold) = (network.lengths[0], network.holds[0].into());
    let (fences, speeds) = (&network.fences, &network.speeds);
    let closures = stopping(&alone.closures, alone.asker);
    if closures.is_empty() {
        let interval = interval_at(fences, left);
        let reply = cabinet::arc_arrival(left, interval, length, hold, fences, speeds);
        return reply.expect("a good arc").map(|arrival| arrival.tick);
    }
    arrival_by_ticks(left, length, hold, fences, speeds, |tick| {
        let closes = |closure: &Closure| closure.first <= tick && tick < closure.end;
        closures.iter().any(closes)
    })
}

impl Question {
    /// The same question about arcs with other numbers.
    fn renumbered(&self, order: &[usize]) -> Self {
        Self {
            network: self.network.renumbered(order),
            closures: renumbered(&self.closures, order),
            ..*self
        }
    }
}
