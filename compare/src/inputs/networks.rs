//! Random networks that Network check accepts, and improved ones.

use std::fmt;
use std::mem;

use super::Random;
use super::closures::{exchanged, random_closures, random_fewer_ticks};
use super::grids::random_grid;
use crate::reference::limits::{
    BRIGADE, DAY, LAST_TICK, MAX_ARCS, MAX_CLOSURES, MAX_HOLD, MAX_INTERVALS, MAX_JUNCTIONS,
    MAX_LENGTH, MAX_SPEED, NO_ARC, UNREACHED,
};
use crate::reference::{self, Closure, Network};

#[derive(Clone, Debug, Default, PartialEq)]
pub struct OwnedNetwork {
    pub junctions: u32,
    pub fences: Vec<u32>,
    pub tails: Vec<u16>,
    pub heads: Vec<u16>,
    pub lengths: Vec<u32>,
    pub holds: Vec<u16>,
    pub speeds: Vec<u8>,
}

impl OwnedNetwork {
    pub fn lent(&self) -> Network<'_> {
        Network {
            junctions: self.junctions,
            fences: &self.fences,
            tails: &self.tails,
            heads: &self.heads,
            lengths: &self.lengths,
            holds: &self.holds,
            speeds: &self.speeds,
        }
    }

    pub fn arcs(&self) -> usize {
        self.tails.len()
    }

    /// The reference's labels and predecessors without closures, to choose inputs by.
    pub(super) fn open_labels(&self, source: u32, departure: u32) -> (Vec<u32>, Vec<u16>) {
        let mut labels = vec![UNREACHED; self.junctions as usize];
        let mut predecessors = vec![NO_ARC; self.junctions as usize];
        let network = self.lent();
        let buffers = (&mut labels[..], &mut predecessors[..]);
        let reply = reference::labels(
            &network,
            &[],
            BRIGADE,
            source,
            departure,
            buffers.0,
            buffers.1,
        );
        reply.expect("a good question");
        (labels, predecessors)
    }

    /// The same streets on a day that starts at this tick of the present one: each
    /// speed is in force as many ticks earlier, and what was before the start comes
    /// at the end. There is a fence more unless one stands at the start.
    pub fn with_day_from(&self, start: u32) -> Self {
        let mut fences: Vec<u32> = self
            .fences
            .iter()
            .map(|&fence| (fence + DAY - start) % DAY)
            .collect();
        fences.push(0);
        self.with_fences(fences, start)
    }

    /// The plan that closes each day what the closures, all within the first day, close on
    /// that day. It has a fence at every edge.
    pub fn closed_daily(&self, closures: &[Closure]) -> Self {
        let edges = closures
            .iter()
            .flat_map(|closure| [closure.first, closure.end % DAY]);
        let fences = self.fences.iter().copied().chain(edges).collect();
        let mut plan = self.with_fences(fences, 0);
        let intervals = plan.fences.len();
        for closure in closures {
            let speeds = &mut plan.speeds[closure.arc as usize * intervals..][..intervals];
            for (speed, &fence) in speeds.iter_mut().zip(&plan.fences) {
                if closure.first <= fence && fence < closure.end {
                    *speed = 0;
                }
            }
        }
        plan
    }

    /// The plan with these fences, in any order. The speeds from each on are those that
    /// the present one has so many ticks later.
    fn with_fences(&self, mut fences: Vec<u32>, later: u32) -> Self {
        fences.sort_unstable();
        fences.dedup();
        let present = |&fence: &u32| interval_at(&self.fences, fence + later) as usize;
        let intervals: Vec<usize> = fences.iter().map(present).collect();
        let network = self.lent();
        let speeds = (0..self.arcs()).flat_map(|arc| {
            let speeds = network.arc_speeds(arc);
            intervals.iter().map(move |&interval| speeds[interval])
        });
        Self {
            speeds: speeds.collect(),
            fences,
            ..self.clone()
        }
    }

    /// The same streets with other numbers: each arc in this order is now the next. One that
    /// stands in it twice is there twice.
    pub fn renumbered(&self, order: &[usize]) -> Self {
        let network = self.lent();
        let speeds = order.iter().flat_map(|&arc| network.arc_speeds(arc));
        Self {
            junctions: self.junctions,
            fences: self.fences.clone(),
            tails: order.iter().map(|&arc| self.tails[arc]).collect(),
            heads: order.iter().map(|&arc| self.heads[arc]).collect(),
            lengths: order.iter().map(|&arc| self.lengths[arc]).collect(),
            holds: order.iter().map(|&arc| self.holds[arc]).collect(),
            speeds: speeds.copied().collect(),
        }
    }

    /// All arcs in the order in which they are left, if the junctions have these labels.
    pub fn arcs_as_left(&self, labels: &[u32]) -> Vec<usize> {
        let mut order: Vec<usize> = (0..self.arcs()).collect();
        order.sort_by_key(|&arc| labels[usize::from(self.tails[arc])]);
        order
    }

    /// The same streets, the arcs numbered from the one that is left last without closures to
    /// the one that is left first.
    pub fn against_the_way(&self, source: u32, departure: u32) -> Self {
        let (labels, _) = self.open_labels(source, departure);
        let mut order = self.arcs_as_left(&labels);
        order.reverse();
        self.renumbered(&order)
    }

    /// Gives every arc a hold up to the largest.
    pub(super) fn hold_up_to(&mut self, random: &mut Random, largest: u16) {
        self.holds.fill_with(|| random_hold(random, largest));
    }

    /// Makes a junction of a held arc's stop line. From there the hold is driven out, a
    /// metre in each tick at 36, on an arc that keeps the number. The way to the stop line
    /// gets a number after all others, which is returned.
    pub fn make_stop_line_a_junction(&mut self, arc: usize) -> usize {
        let stop_line = self.junctions as u16;
        self.junctions += 1;
        let tail = mem::replace(&mut self.tails[arc], stop_line);
        let hold = mem::take(&mut self.holds[arc]);
        let length = mem::replace(&mut self.lengths[arc], hold.into());
        let intervals = self.fences.len();
        let speeds = &mut self.speeds[arc * intervals..][..intervals];
        let way = Arc {
            tail,
            head: stop_line,
            length,
            hold: 0,
            speeds: speeds.to_vec(),
        };
        speeds.fill(36);
        let number = self.arcs();
        self.insert_arc(number, way);
        number
    }

    pub(super) fn insert_arc(&mut self, place: usize, arc: Arc) {
        let first_speed = place * self.fences.len();
        self.tails.insert(place, arc.tail);
        self.heads.insert(place, arc.head);
        self.lengths.insert(place, arc.length);
        self.holds.insert(place, arc.hold);
        self.speeds.splice(first_speed..first_speed, arc.speeds);
    }
}

pub(super) struct Arc {
    pub tail: u16,
    pub head: u16,
    pub length: u32,
    pub hold: u16,
    pub speeds: Vec<u8>,
}

/// How large the numbers of a network are. Small ones make many equal
/// arrivals, large ones many arcs that cannot be driven.
struct Scale {
    length: u32,
    hold: u16,
    speed: u32,
    /// One speed in so many is 0.
    standstill: u32,
}

impl Scale {
    fn random(random: &mut Random) -> Self {
        Self {
            length: random.pick(&[1, 3, 50, 5_000, MAX_LENGTH]),
            hold: random_largest_hold(random),
            speed: random.pick(&[2, 36, 120, MAX_SPEED.into()]),
            standstill: random.pick(&[2, 5, 1_000]),
        }
    }

    fn length(&self, random: &mut Random) -> u32 {
        1 + random.below(self.length)
    }

    fn speeds(&self, random: &mut Random, intervals: usize) -> Vec<u8> {
        let speed = |_| {
            if random.one_in(self.standstill) {
                0
            } else {
                random.below(self.speed + 1) as u8
            }
        };
        (0..intervals).map(speed).collect()
    }

    fn arc(&self, random: &mut Random, (tail, head): (u32, u32), intervals: usize) -> Arc {
        Arc {
            tail: tail as u16,
            head: head as u16,
            length: self.length(random),
            hold: random_hold(random, self.hold),
            speeds: self.speeds(random, intervals),
        }
    }
}

/// The largest hold of a network: none at all, few ticks, or as many as there may be.
pub(super) fn random_largest_hold(random: &mut Random) -> u16 {
    random.pick(&[0, 2, 60, MAX_HOLD])
}

/// A hold up to the largest, often none or the largest itself.
fn random_hold(random: &mut Random, largest: u16) -> u16 {
    match random.below(4) {
        0 => 0,
        1 => largest,
        _ => random.below(u32::from(largest) + 1) as u16,
    }
}

pub fn random_network(random: &mut Random) -> OwnedNetwork {
    if random.one_in(8) {
        let intervals = random_intervals(random);
        return random_grid(random, intervals);
    }
    let junctions = random.up_to_one_of(&[5, 40, MAX_JUNCTIONS]);
    let intervals = random_intervals(random);
    let arcs = random.up_to_one_of(&[8, 100, MAX_ARCS as u32]) as usize;
    network_of(random, junctions, intervals, arcs)
}

/// Junctions in a row, each with one arc to the next.
pub fn random_path(random: &mut Random) -> OwnedNetwork {
    let junctions = random.up_to_one_of(&[5, 40, MAX_JUNCTIONS]);
    let intervals = random_intervals(random);
    let scale = Scale::random(random);
    let mut network = network_of(random, junctions, intervals, 0);
    for tail in 0..junctions - 1 {
        let arc = scale.arc(random, (tail, tail + 1), intervals);
        network.insert_arc(network.arcs(), arc);
    }
    network
}

/// A network small enough to try every walk.
pub fn small_network(random: &mut Random) -> OwnedNetwork {
    let junctions = 1 + random.below(5);
    let intervals = 1 + random.index(4);
    let arcs = random.index(9);
    network_of(random, junctions, intervals, arcs)
}

fn network_of(random: &mut Random, junctions: u32, intervals: usize, arcs: usize) -> OwnedNetwork {
    let mut network = OwnedNetwork {
        junctions,
        fences: random_fences(random, intervals),
        ..OwnedNetwork::default()
    };
    add_arcs(random, &mut network, arcs, &mut []);
    network
}

/// Puts arcs between the others, if there are two junctions to join, and counts up the
/// numbers of those after them.
fn add_arcs(random: &mut Random, network: &mut OwnedNetwork, arcs: usize, numbers: &mut [u32]) {
    if network.junctions < 2 {
        return;
    }
    let scale = Scale::random(random);
    let intervals = network.fences.len();
    for _ in 0..arcs {
        let place = random.index(network.arcs() + 1);
        let ends = random_ends(random, network.junctions);
        network.insert_arc(place, scale.arc(random, ends, intervals));
        for number in &mut *numbers {
            *number += u32::from(*number >= place as u32);
        }
    }
}

/// Any two of at least two junctions.
fn random_ends(random: &mut Random, junctions: u32) -> (u32, u32) {
    let tail = random.below(junctions);
    let head = (tail + 1 + random.below(junctions - 1)) % junctions;
    (tail, head)
}

fn random_intervals(random: &mut Random) -> usize {
    random.up_to_one_of(&[4, 20, MAX_INTERVALS as u32]) as usize
}

/// Fences from the day's start on; often the later ones stand at its end instead,
/// so that intervals are short on both sides of midnight.
fn random_fences(random: &mut Random, intervals: usize) -> Vec<u32> {
    let gap = random.pick(&[1, 50, 9_000]);
    let mut fences = vec![0; intervals];
    for interval in 1..intervals {
        fences[interval] = fences[interval - 1] + 1 + random.below(gap);
    }
    if intervals > 1 && random.one_in(2) {
        let first_late = 1 + random.index(intervals - 1);
        let room = DAY - 1 - fences[intervals - 1];
        let shift = room.saturating_sub(random.pick(&[0, 1, 50]));
        for fence in &mut fences[first_late..] {
            *fence += shift;
        }
    }
    fences
}

/// One arc with the fences of its speeds, as Arc arrival takes it.
#[derive(Debug)]
pub struct LoneArc {
    pub length: u32,
    pub hold: u32,
    pub fences: Vec<u32>,
    pub speeds: Vec<u8>,
}

/// What a question says of it; its tables are shown apart.
impl fmt::Display for LoneArc {
    fn fmt(&self, f: &mut fmt::Formatter) -> fmt::Result {
        write!(f, "length {} and hold {}", self.length, self.hold)
    }
}

pub fn random_arc(random: &mut Random) -> LoneArc {
    let intervals = random_intervals(random);
    let scale = Scale::random(random);
    LoneArc {
        length: scale.length(random),
        hold: random_hold(random, scale.hold).into(),
        fences: random_fences(random, intervals),
        speeds: scale.speeds(random, intervals),
    }
}

/// The interval that contains a tick's remainder by the day, by a look at every fence.
/// Damaged fences may have none; then it is 0.
pub fn interval_at(fences: &[u32], tick: u32) -> u32 {
    let started = |&fence: &u32| fence <= tick % DAY;
    fences.iter().rposition(started).unwrap_or(0) as u32
}

/// A departure below the day, often at or beside a fence or shortly before midnight.
pub fn random_departure(random: &mut Random, fences: &[u32]) -> u32 {
    let departure = match random.below(5) {
        0 => random.below(100),
        1 => random.below(DAY),
        2 => (random.pick(fences) + random.below(3)).saturating_sub(1),
        3 => DAY - 1 - random.below(100),
        _ => DAY - 1 - random.below(3),
    };
    departure.min(DAY - 1)
}

/// Departures below the day in any order, some of them more than once.
pub fn random_departures(random: &mut Random, fences: &[u32], count: usize) -> Vec<u32> {
    let repeats = random.pick(&[2, 5, 1_000]);
    let mut departures = Vec::with_capacity(count);
    while departures.len() < count {
        let departure = if !departures.is_empty() && random.one_in(repeats) {
            random.pick(&departures)
        } else {
            random_departure(random, fences)
        };
        departures.push(departure);
    }
    departures
}

/// A departure up to the last tick, as Arc arrival takes it, on either day alike.
pub fn random_arc_departure(random: &mut Random, fences: &[u32]) -> u32 {
    match random.below(6) {
        0 => random.below(LAST_TICK + 1),
        1 => LAST_TICK - random.below(2_000),
        2 => random.pick(&[DAY - 1, DAY, DAY + 1, LAST_TICK - 1, LAST_TICK]),
        3 => DAY + random_departure(random, fences),
        _ => random_departure(random, fences),
    }
}

/// More junctions, more arcs, shorter and faster ones with shorter holds and closed at fewer
/// ticks, all together. Further arcs may be closed at any.
pub fn improve(
    random: &mut Random,
    network: &OwnedNetwork,
    closures: &[Closure],
    asker: u32,
) -> (OwnedNetwork, Vec<Closure>) {
    let mut improved = network.clone();
    improved.junctions += random.below(MAX_JUNCTIONS + 1 - network.junctions);
    let chances = random.pick(&[1, 5, 100]);
    for length in &mut improved.lengths {
        if random.one_in(chances) {
            *length = random_towards(random, *length, 1);
        }
    }
    for hold in &mut improved.holds {
        if random.one_in(chances) {
            *hold = random_towards(random, (*hold).into(), 0) as u16;
        }
    }
    for speed in &mut improved.speeds {
        if random.one_in(chances) {
            *speed = random_towards(random, (*speed).into(), MAX_SPEED.into()) as u8;
        }
    }
    let room = MAX_ARCS - network.arcs();
    let arcs = random.index(room.min(40) + 1);
    let mut numbers: Vec<u32> = (0..network.arcs() as u32).collect();
    add_arcs(random, &mut improved, arcs, &mut numbers);

    let mut fewer = random_fewer_ticks(random, closures);
    for closure in &mut fewer {
        closure.arc = numbers[closure.arc as usize];
    }
    let mut further = random_closures(random, &improved, 0, 0);
    let other = exchanged(asker);
    further.retain(|closure| closure.party == other || !numbers.contains(&closure.arc));
    fewer.extend(further);
    fewer.truncate(MAX_CLOSURES);
    (improved, fewer)
}

/// A number from the value to the bound, often near the value.
pub fn random_towards(random: &mut Random, value: u32, bound: u32) -> u32 {
    let room = value.abs_diff(bound);
    let largest = random.pick(&[room, room.min(2)]);
    let step = random.below(largest + 1);
    if bound < value {
        value - step
    } else {
        value + step
    }
}

#[cfg(test)]
mod tests {
    use super::*;

    fn two_arcs() -> OwnedNetwork {
        OwnedNetwork {
            junctions: 3,
            fences: vec![0, 100],
            tails: vec![0, 1],
            heads: vec![1, 2],
            lengths: vec![50, 100],
            holds: vec![0, 5],
            speeds: vec![36, 18, 40, 20],
        }
    }

    #[test]
    fn rotates_speeds_with_the_start_of_the_day() {
        let network = two_arcs();
        // The first interval is parted by the new midnight.
        let rotated = network.with_day_from(60);
        assert_eq!(rotated.fences, [0, 40, 863_940]);
        assert_eq!(rotated.speeds, [36, 18, 36, 40, 20, 40]);
        // A fence at the start parts none.
        let rotated = network.with_day_from(100);
        assert_eq!(rotated.fences, [0, 863_900]);
        assert_eq!(rotated.speeds, [18, 36, 20, 40]);
        assert_eq!(rotated.holds, network.holds);
        assert_eq!(network.with_day_from(0), network);
    }

    #[test]
    fn closes_daily_by_a_plan() {
        let network = two_arcs();
        let closure = |arc, first, end| Closure {
            arc,
            first,
            end,
            party: 0,
        };
        let plan = network.closed_daily(&[closure(1, 60, 110), closure(0, 863_999, 864_000)]);
        assert_eq!(plan.fences, [0, 60, 100, 110, 863_999]);
        assert_eq!(plan.speeds, [36, 36, 18, 18, 0, 40, 0, 0, 20, 20]);
        assert_eq!(network.closed_daily(&[]), network);
    }

    #[test]
    fn renumbers_arcs() {
        let network = OwnedNetwork {
            tails: vec![1, 0],
            heads: vec![2, 1],
            ..two_arcs()
        };
        let expected = OwnedNetwork {
            tails: vec![0, 1, 0],
            heads: vec![1, 2, 1],
            lengths: vec![100, 50, 100],
            holds: vec![5, 0, 5],
            speeds: vec![40, 20, 36, 18, 40, 20],
            ..two_arcs()
        };
        assert_eq!(network.renumbered(&[1, 0, 1]), expected);
        assert_eq!(network.arcs_as_left(&[9, 7, UNREACHED]), [0, 1]);
        assert_eq!(network.arcs_as_left(&[7, 9, UNREACHED]), [1, 0]);
        // The arc out of the source, then the one that is left later, and the other way round.
        assert_eq!(network.against_the_way(0, 0), network);
        let with_the_way = network.renumbered(&[1, 0]);
        assert_eq!(with_the_way.against_the_way(0, 0), network);
    }

    #[test]
    fn makes_a_stop_line_a_junction() {
        let mut network = OwnedNetwork {
            junctions: 3,
            fences: vec![0, 100],
            tails: vec![0, 1],
            heads: vec![1, 2],
            lengths: vec![50, 100],
            holds: vec![5, 7],
            speeds: vec![36, 18, 40, 20],
        };
        assert_eq!(network.make_stop_line_a_junction(0), 2);
        let expected = OwnedNetwork {
            junctions: 4,
            fences: vec![0, 100],
            tails: vec![3, 1, 0],
            heads: vec![1, 2, 3],
            lengths: vec![5, 100, 50],
            holds: vec![0, 7, 0],
            speeds: vec![36, 36, 40, 20, 36, 18],
        };
        assert_eq!(network, expected);
    }
}
