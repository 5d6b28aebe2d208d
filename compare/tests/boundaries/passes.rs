//! Passes: their number with the arcs numbered with the way and against it, up to the most
//! junctions, where nothing or not all is reached, where labels are lowered again or attained
//! twice, beside the last tick, and with closures and holds, for each who asks.

use compare::cabinet;
use compare::inputs::OwnedNetwork;
use compare::inputs::closures::{exchanged, renumbered};
use compare::inputs::towns::{ASKER, DEPARTURE, Town};
use compare::reference::limits::{BRIGADE, DEPOT, NO_ARC, UNREACHED};
use compare::reference::{Closure, Refusal};

use super::closed_labels;
use super::closures::{closure, row};

/// The number of passes from junction 0, on which both agree. The labels and predecessors
/// are those of Labels.
fn passes(network: &OwnedNetwork, departure: u32) -> u32 {
    passes_for(ASKER, network, &[], departure)
}

/// The same with closures, for one who asks.
fn passes_for(asker: u32, network: &OwnedNetwork, closures: &[Closure], departure: u32) -> u32 {
    let tables = closed_labels(network, closures, asker, departure);
    let mut labels = vec![7; tables.0.len()];
    let mut predecessors = vec![7; tables.1.len()];
    let reply = cabinet::passes(
        &network.lent(),
        closures,
        asker,
        0,
        departure,
        &mut labels,
        &mut predecessors,
    );
    assert_eq!((labels, predecessors), tables);
    reply.expect("accepted")
}

/// Junctions in a row, a metre and a tick from each to the next, the arcs numbered with the
/// way.
fn with_the_way(junctions: usize) -> OwnedNetwork {
    row(&vec![1; junctions - 1], &vec![0; junctions - 1])
}

/// The same with the arcs numbered from the last to the first.
fn against_the_way(junctions: usize) -> OwnedNetwork {
    let order: Vec<usize> = (0..junctions - 1).rev().collect();
    with_the_way(junctions).renumbered(&order)
}

#[test]
fn with_the_way_and_against_it() {
    for junctions in [2, 3, 4, 10, 199, 200] {
        assert_eq!(passes(&with_the_way(junctions), 0), 2);
        let most = junctions as u32;
        assert_eq!(passes(&against_the_way(junctions), 0), most);
        // From the last departure, beyond midnight.
        assert_eq!(passes(&with_the_way(junctions), 863_999), 2);
        assert_eq!(passes(&against_the_way(junctions), 863_999), most);
    }
    // As many arcs as there may be, after those that are needed and before them.
    let against: Vec<usize> = (0..199).rev().collect();
    for (order, expected) in [
        ([against.clone(), vec![0; 441]].concat(), 200),
        ([vec![198; 441], against.clone()].concat(), 200),
        ([vec![0; 441], against.clone()].concat(), 199),
        (
            [against.clone(), against.clone(), against, vec![0; 43]].concat(),
            67 + 1,
        ),
        ([vec![198; 441], (0..199).collect()].concat(), 2),
    ] {
        let network = with_the_way(200).renumbered(&order);
        assert_eq!(network.arcs(), 640);
        assert_eq!(passes(&network, DEPARTURE), expected);
    }
}

#[test]
fn some_with_the_way() {
    // Each arc with a lower number than the one before it on the way takes another pass.
    for (order, expected) in [
        ([0, 1, 2, 3, 4], 2),
        ([4, 0, 1, 2, 3], 3),
        ([1, 2, 3, 4, 0], 3),
        ([1, 0, 2, 3, 4], 3),
        ([0, 1, 2, 4, 3], 3),
        ([3, 4, 0, 1, 2], 3),
        ([1, 0, 3, 2, 4], 4),
        ([2, 4, 1, 3, 0], 5),
        ([4, 2, 3, 1, 0], 5),
        ([4, 3, 2, 1, 0], 6),
    ] {
        let network = with_the_way(6).renumbered(&order);
        assert_eq!(passes(&network, 0), expected, "{order:?}");
        // A ring: the way back to the source lowers nothing.
        let mut ring = network;
        ring.tails.insert(0, 5);
        ring.heads.insert(0, 0);
        ring.lengths.insert(0, 1);
        ring.holds.insert(0, 0);
        ring.speeds.insert(0, 36);
        assert_eq!(passes(&ring, 0), expected, "{order:?}");
    }
}

#[test]
fn nothing_beyond_the_source() {
    for junctions in [1, 2, 3, 200] {
        let no_arcs = with_the_way(junctions).renumbered(&[]);
        assert_eq!(passes(&no_arcs, 0), 1);
        assert_eq!(passes(&no_arcs, 863_999), 1);
    }
    // No arc leaves the source, or the only one cannot be driven or is closed throughout.
    let mut network = against_the_way(3);
    network.tails[1] = 2;
    assert_eq!(passes(&network, 0), 1);
    let mut network = against_the_way(3);
    network.speeds[1] = 0;
    assert_eq!(passes(&network, 0), 1);
    let network = against_the_way(3);
    for (end, expected) in [(1_728_000, 1), (1_727_999, 2), (1_727_998, 3)] {
        let closures = [closure(1, 0, end)];
        assert_eq!(passes_for(ASKER, &network, &closures, 0), expected);
    }
}

#[test]
fn up_to_an_unreached_junction() {
    // The arc out of each junction in turn cannot be driven, so that those up to it are
    // reached alone.
    for stopped in 0..5 {
        let mut network = against_the_way(6);
        network.speeds[4 - stopped] = 0;
        let (labels, _) = closed_labels(&network, &[], ASKER, 0);
        assert_eq!(labels[stopped + 1..], vec![UNREACHED; 5 - stopped]);
        assert_eq!(passes(&network, 0), stopped as u32 + 1);
        let mut network = with_the_way(6);
        network.speeds[stopped] = 0;
        assert_eq!(passes(&network, 0), if stopped == 0 { 1 } else { 2 });
    }
}

#[test]
fn beside_the_last_tick() {
    // The second arc takes 864,000 ticks, the first as many as it has metres, the third one.
    for (lengths, expected) in [([1, 24_000, 1], 3), ([2, 24_000, 1], 2)] {
        let mut network = row(&lengths, &[0; 3]).renumbered(&[2, 1, 0]);
        network.speeds[1] = 1;
        assert_eq!(passes(&network, 863_999), expected);
        // A tick before, the third junction is reached in time, or the last one too.
        assert_eq!(passes(&network, 863_998), expected + 1);
        assert_eq!(passes(&network, 863_997), 4);
    }
    // By its hold.
    for (hold, expected) in [(1_199, 3), (1_200, 2)] {
        let mut network = row(&[24_000, 1], &[0, hold]).renumbered(&[1, 0]);
        network.speeds[1] = 1;
        assert_eq!(passes(&network, 862_800), expected);
    }
}

#[test]
fn the_last_departure() {
    let network = against_the_way(10);
    let lent = network.lent();
    let (mut labels, mut predecessors) = ([7; 10], [7; 10]);
    let tables = (&mut labels[..], &mut predecessors[..]);
    let reply = cabinet::passes(&lent, &[], ASKER, 0, 864_000, tables.0, tables.1);
    assert_eq!(reply, Err(Refusal(10)));
    assert_eq!((labels, predecessors), ([7; 10], [7; 10]));
    let tables = (&mut labels[..], &mut predecessors[..]);
    let reply = cabinet::passes(&lent, &[], ASKER, 0, 863_999, tables.0, tables.1);
    assert_eq!(reply, Ok(10));
    assert!(labels.into_iter().eq(863_999..864_009));
}

/// Three junctions and these arcs, in metres and ticks.
pub fn triangle(arcs: &[(u16, u16, u32)]) -> OwnedNetwork {
    let lengths: Vec<u32> = arcs.iter().map(|arc| arc.2).collect();
    OwnedNetwork {
        junctions: 3,
        tails: arcs.iter().map(|arc| arc.0).collect(),
        heads: arcs.iter().map(|arc| arc.1).collect(),
        ..row(&lengths, &vec![0; arcs.len()])
    }
}

#[test]
fn labels_lowered_again() {
    for (arcs, expected) in [
        // Junction 2 straight, and by junction 1 in the same pass, or in the next one.
        (&[(0, 2, 9), (0, 1, 1), (1, 2, 1)][..], 2),
        (&[(0, 2, 9), (1, 2, 1), (0, 1, 1)], 3),
        (&[(1, 2, 1), (0, 2, 9), (0, 1, 1)], 3),
        // The way by junction 1 is no shorter.
        (&[(1, 2, 8), (0, 2, 9), (0, 1, 1)], 2),
        (&[(1, 2, 9), (0, 2, 9), (0, 1, 1)], 2),
        // Junction 1 twice in the first pass, of which the second counts at once.
        (&[(0, 1, 9), (0, 1, 1), (1, 2, 1)], 2),
        // Junction 2 by either label of junction 1, in the same pass and in the next one.
        (&[(0, 1, 9), (1, 2, 1), (0, 1, 1)], 3),
        // Junction 1 by junction 2 in the second pass, after which there is nothing to lower.
        (&[(1, 2, 1), (2, 1, 1), (0, 1, 9), (0, 2, 1)], 3),
    ] {
        assert_eq!(passes(&triangle(arcs), 0), expected, "{arcs:?}");
    }
    // A junction whose label every pass lowers, by one more arc on the way.
    let steps = 100_u16;
    let mut network = against_the_way(steps.into());
    network.junctions += 1;
    for tail in 0..steps {
        network.tails.push(tail);
        network.heads.push(steps);
        network.lengths.push(300 - 2 * u32::from(tail));
        network.holds.push(0);
        network.speeds.push(36);
    }
    let (labels, predecessors) = closed_labels(&network, &[], ASKER, 0);
    assert_eq!(labels[usize::from(steps)], 300 - 99);
    assert_eq!(predecessors[usize::from(steps)], 198);
    assert_eq!(passes(&network, 0), 100);
}

#[test]
fn attained_twice() {
    for (arcs, expected, predecessors) in [
        // By one arc after the other in the first pass.
        (&[(0, 2, 2), (0, 1, 1), (1, 2, 1)][..], 2, [1, 0]),
        (&[(0, 1, 1), (1, 2, 1), (0, 2, 2)], 2, [0, 1]),
        // By the higher number in the first pass, and by the lower one in the second, which
        // changes no label.
        (&[(1, 2, 1), (0, 2, 2), (0, 1, 1)], 2, [2, 0]),
        // By the lower number in the first pass, and by the higher one in the second.
        (&[(0, 2, 2), (1, 2, 1), (0, 1, 1)], 2, [2, 0]),
        // By a lower number that attained an earlier label only.
        (&[(0, 2, 3), (1, 2, 1), (0, 1, 1)], 3, [2, 1]),
        // By two arcs side by side.
        (&[(0, 1, 1), (0, 1, 1), (1, 2, 1), (1, 2, 1)], 2, [0, 2]),
        (&[(1, 2, 1), (1, 2, 1), (0, 1, 1), (0, 1, 1)], 3, [2, 0]),
    ] {
        let network = triangle(arcs);
        assert_eq!(passes(&network, 0), expected, "{arcs:?}");
        let [first, second] = predecessors;
        let (_, found) = closed_labels(&network, &[], ASKER, 0);
        assert_eq!(found, [NO_ARC, first, second], "{arcs:?}");
    }
    // By an arc that is closed until both ways to its tail have been driven: the lower label
    // of junction 1 lowers nothing after it.
    let network = triangle(&[(0, 1, 50), (1, 2, 1), (0, 1, 3)]);
    for (closures, label, expected) in [
        (&[][..], 4, 3),
        (&[closure(1, 0, 49)], 50, 3),
        (&[closure(1, 0, 50)], 51, 2),
        (&[closure(1, 0, 51)], 52, 2),
    ] {
        assert_eq!(passes_for(ASKER, &network, closures, 0), expected);
        let tables = closed_labels(&network, closures, ASKER, 0);
        assert_eq!(tables, (vec![0, 3, label], vec![NO_ARC, 2, 1]));
    }
}

#[test]
fn closures_and_holds() {
    // Straight in 20 ticks, or in 2 by junction 1, which takes a pass more.
    let network = triangle(&[(1, 2, 1), (0, 2, 20), (0, 1, 1)]);
    for (closures, expected, arc) in [
        (&[][..], 3, 0),
        (&[closure(0, 0, 18)], 3, 0),
        (&[closure(0, 0, 19)], 2, 0),
        (&[closure(0, 0, 20)], 2, 1),
        (&[closure(2, 0, 17)], 3, 0),
        (&[closure(2, 0, 18)], 2, 0),
        (&[closure(2, 0, 19)], 2, 1),
        (&[closure(1, 0, 1_728_000), closure(0, 0, 20)], 3, 0),
        (&[closure(1, 0, 1), closure(0, 0, 19)], 3, 0),
        (&[closure(1, 0, 1), closure(0, 0, 20)], 2, 0),
    ] {
        assert_eq!(passes_for(ASKER, &network, closures, 0), expected);
        let (_, predecessors) = closed_labels(&network, closures, ASKER, 0);
        assert_eq!(predecessors[2], arc, "{closures:?}");
    }
    for (hold, expected) in [(17, 3), (18, 2), (19, 2), (1_200, 2)] {
        for held in [0, 2] {
            let mut network = network.clone();
            network.holds[held] = hold;
            assert_eq!(passes(&network, 0), expected);
        }
    }
}

#[test]
fn who_asks() {
    let network = triangle(&[(1, 2, 1), (0, 2, 20), (0, 1, 1)]);
    for asker in [BRIGADE, DEPOT] {
        let closures = [Closure {
            party: asker,
            ..closure(0, 0, 1_728_000)
        }];
        assert_eq!(passes_for(asker, &network, &closures, 0), 2);
        assert_eq!(passes_for(exchanged(asker), &network, &closures, 0), 3);
        let closures = [Closure {
            party: asker,
            ..closure(198, 0, 1_728_000)
        }];
        let network = against_the_way(200);
        assert_eq!(passes_for(asker, &network, &closures, 0), 1);
        assert_eq!(passes_for(exchanged(asker), &network, &closures, 0), 200);
    }
}

#[test]
fn towns_with_other_numbers() {
    for town in Town::NAMES.into_iter().filter_map(Town::named) {
        let network = &town.network;
        let closures = town.closures(64);
        for closures in [&[][..], &closures] {
            let (labels, _) = closed_labels(network, closures, ASKER, DEPARTURE);
            let order = network.arcs_as_left(&labels);
            let closures = renumbered(closures, &order);
            let with_the_way = network.renumbered(&order);
            assert_eq!(passes_for(ASKER, &with_the_way, &closures, DEPARTURE), 2);
        }
        let own = passes(network, DEPARTURE);
        let against = town.against_the_way();
        let most = passes(&against.network, DEPARTURE);
        assert!(own < most, "{}: {own}, {most}", against.name);
    }
}
