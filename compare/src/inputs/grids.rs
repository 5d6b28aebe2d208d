//! Street grids as a town might have them.

use super::networks::{Arc, random_largest_hold};
use super::{OwnedNetwork, Random};
use crate::reference::limits::{DAY, MAX_ARCS};

pub(super) fn random_grid(random: &mut Random, intervals: usize) -> OwnedNetwork {
    let columns = random.up_to_one_of(&[4, 20]);
    let rows = random.up_to_one_of(&[3, 10]);
    let arcs = random.index(MAX_ARCS + 1);
    let mut network = street_grid(random, (columns, rows), intervals, arcs);
    let largest = random_largest_hold(random);
    network.hold_up_to(random, largest);
    network
}

/// A connected grid of streets without holds. Every junction but the first has a two-way
/// street to the left or upwards; further one-way streets fill up the count.
pub fn street_grid(
    random: &mut Random,
    (columns, rows): (u32, u32),
    intervals: usize,
    arcs: usize,
) -> OwnedNetwork {
    let mut network = OwnedNetwork {
        junctions: columns * rows,
        fences: spread_fences(random, intervals),
        ..OwnedNetwork::default()
    };
    for (tail, head) in ways(random, columns, rows, arcs) {
        let street = Arc {
            tail,
            head,
            length: 50 + random.below(4_951),
            hold: 0,
            speeds: street_speeds(random, intervals),
        };
        network.insert_arc(network.arcs(), street);
    }
    network
}

/// Fences spread over the day, not quite evenly.
fn spread_fences(random: &mut Random, intervals: usize) -> Vec<u32> {
    let step = DAY / intervals as u32;
    let fence = |interval| interval * step + random.below(step / 2);
    let mut fences: Vec<u32> = (0..intervals as u32).map(fence).collect();
    fences[0] = 0;
    fences
}

/// Up to 120 km/h, and standing still at times.
fn street_speeds(random: &mut Random, intervals: usize) -> Vec<u8> {
    let speed = |_| {
        if random.one_in(20) {
            0
        } else {
            5 + random.below(116) as u8
        }
    };
    (0..intervals).map(speed).collect()
}

/// The tail and head of each street.
fn ways(random: &mut Random, columns: u32, rows: u32, arcs: usize) -> Vec<(u16, u16)> {
    let mut ways = Vec::new();
    let mut spare = Vec::new();
    for junction in 1..columns * rows {
        let left = (junction % columns > 0).then(|| junction - 1);
        let up = junction.checked_sub(columns);
        let mut neighbours: Vec<u32> = left.into_iter().chain(up).collect();
        let joined = neighbours.swap_remove(random.index(neighbours.len()));
        ways.extend(both_ways(junction, joined));
        spare.extend(
            neighbours
                .iter()
                .flat_map(|&other| both_ways(junction, other)),
        );
    }
    while ways.len() < arcs && !spare.is_empty() {
        ways.push(spare.swap_remove(random.index(spare.len())));
    }
    ways
}

fn both_ways(one: u32, other: u32) -> [(u16, u16); 2] {
    let (one, other) = (one as u16, other as u16);
    [(one, other), (other, one)]
}
