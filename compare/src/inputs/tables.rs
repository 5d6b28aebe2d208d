//! Labels and predecessors as they might be sent: the right ones, those of another question,
//! and altered ones.

use super::closures::exchanged;
use super::networks::interval_at;
use super::{OwnedNetwork, Random};
use crate::reference::limits::{
    BOTH_PARTIES, DAY, LAST_TICK, MAX_CLOSURES, MAX_HOLD, MAX_LENGTH, MAX_SPEED, NO_ARC, UNREACHED,
};
use crate::reference::{self, Closure};

/// Labels and predecessors.
pub type Tables = (Vec<u32>, Vec<u16>);

/// What Labels is asked, good or not.
#[derive(Clone)]
pub struct Question {
    pub network: OwnedNetwork,
    pub closures: Vec<Closure>,
    pub asker: u32,
    pub source: u32,
    pub departure: u32,
}

impl Question {
    /// The reference's tables, to choose inputs by; nothing is reached if it refuses.
    pub fn tables(&self) -> Tables {
        let junctions = self.network.junctions as usize;
        let mut tables = (vec![UNREACHED; junctions], vec![NO_ARC; junctions]);
        let _ = reference::labels(
            &self.network.lent(),
            &self.closures,
            self.asker,
            self.source,
            self.departure,
            &mut tables.0,
            &mut tables.1,
        );
        tables
    }

    /// Changes a little of it: the start, the asker, what is closed, or one arc.
    pub fn vary(&mut self, random: &mut Random) {
        let arcs = self.network.arcs();
        match random.below(8) {
            0 => self.departure = (self.departure % DAY + DAY - 1 + random.below(3)) % DAY,
            1 => self.source = random.below(self.network.junctions),
            2 => self.asker = exchanged(self.asker),
            3 => drop(self.closures.pop()),
            _ if arcs == 0 => {}
            4 | 5 if self.closures.len() < MAX_CLOSURES => self.close_an_arc(random),
            _ => self.change_an_arc(random),
        }
    }

    /// Closes an arc throughout, mostly one that is driven: all else may be right without it.
    fn close_an_arc(&mut self, random: &mut Random) {
        let driven = random.pick(&self.tables().1);
        let arc = if driven == NO_ARC {
            random.index(self.network.arcs()) as u32
        } else {
            driven.into()
        };
        self.closures.push(Closure {
            arc,
            first: 0,
            end: LAST_TICK,
            party: BOTH_PARTIES,
        });
    }

    /// A metre or a tick more or less, or another speed.
    fn change_an_arc(&mut self, random: &mut Random) {
        let OwnedNetwork {
            lengths,
            holds,
            speeds,
            ..
        } = &mut self.network;
        let arc = random.index(lengths.len());
        match random.below(3) {
            0 => {
                let length = lengths[arc] + random.pick(&[0, 2]) - 1;
                lengths[arc] = length.clamp(1, MAX_LENGTH);
            }
            1 => {
                let hold = (holds[arc] + random.pick(&[0, 2])).saturating_sub(1);
                holds[arc] = hold.min(MAX_HOLD);
            }
            _ => {
                let place = random.index(speeds.len());
                speeds[place] = random.below(u32::from(MAX_SPEED) + 1) as u8;
            }
        }
    }

    /// Tables that may be sent for it: its own, those of a question that is little different,
    /// or altered.
    pub fn random_tables(&self, random: &mut Random) -> Tables {
        let mut asked = self.clone();
        if random.one_in(2) {
            asked.vary(random);
        }
        let mut tables = asked.tables();
        if random.one_in(2) {
            alter(random, &self.network, self.departure, &mut tables);
        }
        tables
    }
}

/// Labels at the ends of what may be sent.
const EDGES: [u32; 5] = [0, LAST_TICK, LAST_TICK + 1, UNREACHED - 1, UNREACHED];

/// Changes the entries of one junction or of some.
pub fn alter(random: &mut Random, network: &OwnedNetwork, departure: u32, tables: &mut Tables) {
    for _ in 0..random.pick(&[1, 1, 1, 2, 5]) {
        let junction = random.place(tables.0.len());
        match random.below(8) {
            0..4 => alter_label(random, departure, junction, &mut tables.0),
            4 => alter_predecessor(random, network, junction, tables),
            5 => unreach_behind(network, junction, tables),
            _ => take_another_arc(random, network, junction, tables),
        }
    }
}

/// A tick more or less, another bit, the label of another junction, or a number at the ends.
pub fn alter_label(random: &mut Random, departure: u32, junction: usize, labels: &mut [u32]) {
    let label = labels[junction];
    labels[junction] = match random.below(6) {
        0 => label.wrapping_add(1),
        1 => label.wrapping_sub(1),
        2 => label ^ 1 << random.below(32),
        3 => random.pick(&EDGES),
        4 => random.pick(labels),
        _ => random.pick(&[departure, departure.wrapping_add(1)]),
    };
}

/// Often an arc into the junction, if there is one, else the predecessor of another junction, of
/// one with the same label if there is one, another bit, or no arc.
pub fn alter_predecessor(
    random: &mut Random,
    network: &OwnedNetwork,
    junction: usize,
    (labels, predecessors): &mut Tables,
) {
    let into = random_arc_into(random, network, junction);
    let arcs = network.arcs() as u16;
    predecessors[junction] = match (into, random.below(4)) {
        (Some(arc), 0 | 1) => arc,
        (_, 2) => {
            let places = labels.iter().zip(&*predecessors);
            let same = places.filter(|&(&label, _)| label == labels[junction]);
            let same: Vec<u16> = same.map(|(_, &arc)| arc).collect();
            random.pick(if same.len() > 1 { &same } else { predecessors })
        }
        _ => {
            let another_bit = predecessors[junction] ^ 1 << random.below(16);
            random.pick(&[another_bit, 0, arcs, NO_ARC - 1, NO_ARC])
        }
    };
}

fn random_arc_into(random: &mut Random, network: &OwnedNetwork, junction: usize) -> Option<u16> {
    let into = |&arc: &usize| usize::from(network.heads[arc]) == junction;
    let arcs: Vec<usize> = (0..network.arcs()).filter(into).collect();
    (!arcs.is_empty()).then(|| random.pick(&arcs) as u16)
}

/// Marks the junction and all that are reached by way of it as unreached.
fn unreach_behind(network: &OwnedNetwork, junction: usize, (labels, predecessors): &mut Tables) {
    let mut marked = vec![junction];
    while let Some(junction) = marked.pop() {
        labels[junction] = UNREACHED;
        predecessors[junction] = NO_ARC;
        for (head, &arc) in predecessors.iter().enumerate() {
            let tail = network.tails.get(usize::from(arc));
            if tail.is_some_and(|&tail| usize::from(tail) == junction) {
                marked.push(head);
            }
        }
    }
}

/// Names another arc into the junction, with the label that it attains if it is open.
fn take_another_arc(
    random: &mut Random,
    network: &OwnedNetwork,
    junction: usize,
    (labels, predecessors): &mut Tables,
) {
    let Some(arc) = random_arc_into(random, network, junction) else {
        return;
    };
    let lent = network.lent();
    let place = usize::from(arc);
    let left = labels[usize::from(network.tails[place])];
    let arrival = reference::arc_arrival(
        left,
        interval_at(&network.fences, left),
        network.lengths[place],
        network.holds[place].into(),
        &network.fences,
        lent.arc_speeds(place),
    );
    if let Ok(Some(arrival)) = arrival {
        labels[junction] = arrival.tick;
        predecessors[junction] = arc;
    }
}
