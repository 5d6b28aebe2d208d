//! Parties and askers: whom a closure stops, lists that differ in the other's records alone,
//! the limits that both share, and the numbers of parties and askers with those around them.

use compare::cabinet;
use compare::inputs::OwnedNetwork;
use compare::inputs::closures::exchanged;
use compare::inputs::towns::{ASKER, DEPARTURE, Town};
use compare::reference::limits::{BOTH_PARTIES, BRIGADE, DEPOT, NO_ARC, UNREACHED};
use compare::reference::{Closure, Refusal};

use super::closures::{closure, labels_for, numbers_for, row, ten_metres};
use super::{assert_numbers_after, closed_labels, small_town};

const ASKERS: [u32; 2] = [BRIGADE, DEPOT];

fn of_party(party: u32, arc: u32, first: u32, end: u32) -> Closure {
    Closure {
        party,
        ..closure(arc, first, end)
    }
}

#[test]
fn whom_a_record_stops() {
    for (party, for_brigade, for_depot) in [
        (BOTH_PARTIES, 160, 160),
        (BRIGADE, 160, 110),
        (DEPOT, 110, 160),
    ] {
        let closures = [of_party(party, 0, 100, 150)];
        for (asker, expected) in [(BRIGADE, for_brigade), (DEPOT, for_depot)] {
            let labels = labels_for(asker, &ten_metres(), &closures, 100);
            assert_eq!(labels, [100, expected], "party {party}, asker {asker}");
        }
    }
    // On the second day.
    for asker in ASKERS {
        let closures = [of_party(asker, 0, 864_000, 900_000)];
        let labels = |asker| labels_for(asker, &ten_metres(), &closures, 863_995);
        assert_eq!(labels(asker), [863_995, 900_005]);
        assert_eq!(labels(exchanged(asker)), [863_995, 864_005]);
    }
    // Up to the last tick: the junction is unreached for the asker alone.
    for asker in ASKERS {
        let closures = [of_party(asker, 0, 0, 1_728_000)];
        let labels = |asker| labels_for(asker, &ten_metres(), &closures, 100);
        assert_eq!(labels(asker), [100, UNREACHED]);
        assert_eq!(labels(exchanged(asker)), [100, 110]);
    }
}

#[test]
fn whom_several_records_stop() {
    let both = |first, end| of_party(BOTH_PARTIES, 0, first, end);
    let brigade = |first, end| of_party(BRIGADE, 0, first, end);
    let depot = |first, end| of_party(DEPOT, 0, first, end);
    // The arrivals of the brigade and of the depot, who both leave at 100.
    for (records, expected) in [
        (&[brigade(102, 105), depot(103, 109)][..], [113, 116]),
        (&[brigade(100, 150), depot(100, 150)], [160, 160]),
        (&[brigade(100, 150), depot(150, 200)], [160, 110]),
        // One for both adjoins one of each, overlaps with it, or contains it.
        (
            &[both(104, 106), brigade(102, 104), depot(106, 109)],
            [114, 115],
        ),
        (
            &[both(104, 106), brigade(103, 105), depot(105, 110)],
            [113, 116],
        ),
        (
            &[both(102, 108), brigade(103, 104), depot(104, 107)],
            [116, 116],
        ),
        // Between two of one party the other's changes nothing.
        (
            &[brigade(102, 103), depot(103, 104), brigade(104, 105)],
            [112, 111],
        ),
        // The other's is reached only by who stands for one's own.
        (&[brigade(105, 120), depot(110, 130)], [125, 110]),
        (&[brigade(105, 120), both(110, 130)], [135, 110]),
    ] {
        let mut closures = records.to_vec();
        for _ in records {
            for (asker, arrival) in ASKERS.into_iter().zip(expected) {
                let labels = labels_for(asker, &ten_metres(), &closures, 100);
                assert_eq!(labels, [100, arrival], "{closures:?}");
            }
            closures.rotate_left(1);
        }
    }
}

#[test]
fn two_arcs_side_by_side() {
    let network = OwnedNetwork {
        junctions: 2,
        tails: vec![0; 2],
        heads: vec![1; 2],
        ..row(&[10, 15], &[0; 2])
    };
    let closures = [of_party(DEPOT, 0, 100, 120), of_party(BRIGADE, 1, 0, 999)];
    for (asker, label, arc) in [(BRIGADE, 110, 0), (DEPOT, 115, 1)] {
        let found = closed_labels(&network, &closures, asker, 100);
        assert_eq!(found, (vec![100, label], vec![NO_ARC, arc]));
        let mut arcs = [7; 2];
        let count = cabinet::route(&network.lent(), &closures, asker, 0, 100, 1, &mut arcs);
        assert_eq!((count, arcs), (Ok(1), [arc, 7]));
    }
}

/// What Labels, Route to each junction and Sheet reply and write, from junction 0 at 100 and
/// at 90.
fn all_tables(network: &OwnedNetwork, closures: &[Closure], asker: u32) -> impl PartialEq + use<> {
    labels_for(asker, network, closures, 100);
    let (labels, predecessors) = closed_labels(network, closures, asker, 100);
    let junctions = labels.len();
    let lent = network.lent();
    let routes: Vec<(Result<u32, Refusal>, Vec<u16>)> = (0..network.junctions)
        .map(|to| {
            let mut arcs = vec![7; junctions];
            let reply = cabinet::route(&lent, closures, asker, 0, 100, to, &mut arcs);
            (reply, arcs)
        })
        .collect();
    let mut rows = vec![7; 2 * junctions];
    let mut figures = vec![7; 4 * junctions];
    let tables = (&mut rows[..], &mut figures[..]);
    let reply = cabinet::sheet(&lent, closures, asker, 0, &[100, 90], tables.0, tables.1);
    assert_eq!(reply, Ok(()));
    (labels, predecessors, routes, rows, figures)
}

#[test]
fn lists_that_differ_in_the_others_records() {
    // Two ways from 0 to 3, and one on to 4.
    let network = OwnedNetwork {
        junctions: 5,
        tails: vec![0, 0, 1, 2, 3],
        heads: vec![1, 2, 3, 3, 4],
        ..row(&[10, 12, 10, 9, 20], &[0, 0, 3, 0, 0])
    };
    for asker in ASKERS {
        let kept = [
            of_party(asker, 0, 95, 107),
            of_party(BOTH_PARTIES, 3, 110, 118),
            of_party(asker, 4, 130, 140),
            of_party(BOTH_PARTIES, 0, 104, 109),
        ];
        let other = |arc, first, end| of_party(exchanged(asker), arc, first, end);
        let through = other(4, 0, 1_728_000);
        let same = Closure {
            party: exchanged(asker),
            ..kept[0]
        };
        let [a, b, c, d] = kept;
        let mut lists = vec![
            // One more, at each place.
            vec![through, a, b, c, d],
            vec![a, through, b, c, d],
            vec![a, b, through, c, d],
            vec![a, b, c, through, d],
            vec![a, b, c, d, through],
            // Of other content, repeated, in another order.
            vec![a, other(0, 0, 1), b, c, d],
            vec![same, a, b, same, c, d],
            vec![same, through, a, b, c, d],
            vec![through, same, a, b, c, d],
            vec![a, b, through, c, d, same],
            vec![a, other(1, 100, 200), b, other(2, 100, 200), c, d],
        ];
        // As many as there is room for, in front, at the end and on either side.
        for front in [0, 30, 60] {
            let mut list = vec![through; front];
            list.extend(kept);
            list.resize(64, other(1, 90, 1_000));
            lists.push(list);
        }
        // Every arc is closed to the other throughout.
        let all = (0..5).map(|arc| other(arc, 0, 1_728_000));
        lists.push(kept.into_iter().chain(all).collect());

        let expected = all_tables(&network, &kept, asker);
        let labels = labels_for(asker, &network, &kept, 100);
        assert_eq!(labels, [100, 119, 112, 127, 157]);
        for list in lists {
            assert!(all_tables(&network, &list, asker) == expected, "{list:?}");
            // They stop the other.
            let others = all_tables(&network, &list, exchanged(asker));
            assert!(others != expected, "{list:?}");
        }
    }
}

#[test]
fn as_many_as_there_may_be() {
    for asker in ASKERS {
        // The asker is stopped in every other tick, and its other in the ticks between.
        let every_other = |k: u32| {
            let party = [asker, exchanged(asker)][k as usize % 2];
            of_party(party, 0, 100 + k, 101 + k)
        };
        let mut closures: Vec<Closure> = (0..64).map(every_other).collect();
        for _ in 0..2 {
            let labels = |asker| labels_for(asker, &ten_metres(), &closures, 100);
            assert_eq!(labels(asker), [100, 120]);
            assert_eq!(labels(exchanged(asker)), [100, 119]);
            closures.reverse();
        }
        // One of its own or for both, wherever it stands among the other's.
        for party in [BOTH_PARTIES, asker] {
            for place in 0..64 {
                let mut closures = [of_party(exchanged(asker), 0, 0, 1_728_000); 64];
                closures[place] = of_party(party, 0, 100, 150);
                let labels = labels_for(asker, &ten_metres(), &closures, 100);
                assert_eq!(labels, [100, 160], "{place}");
            }
        }
        // One of the other's, wherever it stands among its own.
        for place in 0..64 {
            let mut closures = [of_party(asker, 0, 100, 150); 64];
            closures[place] = of_party(exchanged(asker), 0, 100, 200);
            let labels = labels_for(asker, &ten_metres(), &closures, 100);
            assert_eq!(labels, [100, 160], "{place}");
        }
    }
}

#[test]
fn the_limit_of_the_list_is_shared() {
    let network = small_town();
    for asker in ASKERS {
        for party in [BOTH_PARTIES, BRIGADE, DEPOT] {
            for (count, number) in [
                (63, 0),
                (64, 0),
                (65, 36),
                (66, 36),
                (128, 36),
                (65_537, 36),
            ] {
                let closures = vec![of_party(party, 25, 0, 1); count];
                assert_eq!(numbers_for(asker, &network, &closures), [number; 3]);
            }
        }
        // One too many, of which few are its own, at the start or at the end.
        for own in [1, 2, 32, 63, 64] {
            let mut closures = vec![of_party(asker, 25, 0, 1); own];
            closures.resize(65, of_party(exchanged(asker), 25, 0, 1));
            for _ in 0..2 {
                assert_eq!(numbers_for(asker, &network, &closures), [36; 3]);
                assert_eq!(numbers_for(asker, &network, &closures[1..]), [0; 3]);
                closures.reverse();
            }
        }
    }
}

#[test]
fn the_tests_of_a_record_are_shared() {
    // The small town has 26 arcs.
    let network = small_town();
    for asker in ASKERS {
        for party in [BOTH_PARTIES, BRIGADE, DEPOT] {
            for (arc, first, end, number) in [
                (25, 0, 1_728_000, 0),
                (26, 0, 1_728_000, 37),
                (u32::MAX, 0, 1, 37),
                (0, 7, 7, 37),
                (0, 8, 7, 37),
                (0, 0, 1_728_001, 37),
            ] {
                let record = of_party(party, arc, first, end);
                assert_anywhere(&network, asker, record, number);
            }
        }
    }
}

/// The number with the record alone and among good ones of each party.
fn assert_anywhere(network: &OwnedNetwork, asker: u32, record: Closure, number: u32) {
    let numbers = |closures: &[Closure]| numbers_for(asker, network, closures);
    assert_eq!(numbers(&[record]), [number; 3], "{record:?}");
    for party in [BOTH_PARTIES, BRIGADE, DEPOT] {
        for (count, place) in [(2, 0), (2, 1), (64, 0), (64, 31), (64, 63)] {
            let mut closures = vec![of_party(party, 25, 0, 1); count];
            closures[place] = record;
            assert_eq!(numbers(&closures), [number; 3], "{record:?} at {place}");
        }
    }
}

/// Some would be a party or an asker if they lost bits.
const UNKNOWN: [u32; 12] = [
    3,
    4,
    255,
    256,
    257,
    258,
    65_536,
    65_537,
    65_538,
    1 << 31,
    (1 << 31) + 1,
    4_294_967_295,
];

#[test]
fn parties() {
    let network = small_town();
    for asker in ASKERS {
        for party in [0, 1, 2] {
            assert_anywhere(&network, asker, of_party(party, 0, 0, 1), 0);
        }
        for party in UNKNOWN {
            assert_anywhere(&network, asker, of_party(party, 0, 0, 1), 38);
        }
    }
}

#[test]
fn askers() {
    let network = small_town();
    for (asker, number) in [0]
        .into_iter()
        .chain(UNKNOWN)
        .map(|asker| (asker, 39))
        .chain([(1, 0), (2, 0)])
    {
        assert_eq!(numbers_for(asker, &network, &[]), [number; 3], "{asker}");
        for party in [0, 1, 2] {
            for count in [1, 64] {
                let closures = vec![of_party(party, 0, 0, 1); count];
                assert_eq!(numbers_for(asker, &network, &closures), [number; 3]);
            }
        }
    }
    // Without any arc, of which there is no record either.
    let no_arcs = OwnedNetwork {
        junctions: 10,
        fences: vec![0],
        ..OwnedNetwork::default()
    };
    for asker in [0, 3, u32::MAX] {
        assert_eq!(numbers_for(asker, &no_arcs, &[]), [39; 3]);
    }
}

#[test]
fn the_order_of_the_numbers() {
    let network = small_town();
    let good = of_party(BRIGADE, 25, 0, 1);
    let unknown_arc = of_party(DEPOT, 26, 0, 1);
    let of_nobody = of_party(3, 25, 0, 1);
    let of_none = of_party(4_294_967_295, 25, 0, 1);
    let wrong = of_party(3, 26, 1, 1);
    for (closures, number) in [
        (&[wrong; 65][..], 36),
        (&[of_nobody; 65], 36),
        (&[unknown_arc; 65], 36),
        (&[wrong; 64], 37),
        (&[wrong], 37),
        // Each number over the whole list before the next.
        (&[of_nobody, unknown_arc], 37),
        (&[unknown_arc, of_nobody], 37),
        (&[of_none, good, good, unknown_arc], 37),
        (&[of_nobody], 38),
        (&[of_none], 38),
        (&[good, of_nobody], 38),
        (&[of_none, good], 38),
        (&[of_nobody; 64], 38),
    ] {
        for asker in [1, 2, 0, 3, 4_294_967_295] {
            assert_eq!(numbers_for(asker, &network, closures), [number; 3]);
            assert_numbers_after(&network, closures, asker, number);
        }
    }
    for closures in [&[][..], &[good], &[good; 64]] {
        for (asker, number) in [(1, 0), (2, 0), (0, 39), (3, 39), (4_294_967_295, 39)] {
            assert_numbers_after(&network, closures, asker, number);
        }
    }
    // 64 records: the last alone has an unknown arc, the others an unknown party.
    let mut closures = [of_nobody; 64];
    closures[63] = unknown_arc;
    assert_eq!(numbers_for(ASKER, &network, &closures), [37; 3]);
    closures[63] = good;
    assert_eq!(numbers_for(ASKER, &network, &closures), [38; 3]);
}

#[test]
fn refused_lists_leave_the_tables() {
    let network = ten_metres();
    let network = network.lent();
    for (record, asker, number) in [
        (of_party(3, 0, 0, 1), BRIGADE, 38),
        (of_party(u32::MAX, 0, 0, 1), DEPOT, 38),
        (of_party(BRIGADE, 0, 0, 1), 0, 39),
        (of_party(DEPOT, 0, 0, 1), 3, 39),
    ] {
        let closures = [record];
        let refused = Refusal(number);
        let (mut labels, mut predecessors) = ([7; 2], [7; 2]);
        let tables = (&mut labels[..], &mut predecessors[..]);
        let reply = cabinet::labels(&network, &closures, asker, 0, 100, tables.0, tables.1);
        assert_eq!(reply, Err(refused));
        let reply = cabinet::passes(&network, &closures, asker, 0, 100, tables.0, tables.1);
        assert_eq!(reply, Err(refused));
        assert_eq!((labels, predecessors), ([7; 2], [7; 2]));
        let mut arcs = [7; 2];
        let reply = cabinet::route(&network, &closures, asker, 0, 100, 1, &mut arcs);
        assert_eq!((reply, arcs), (Err(refused), [7; 2]));
        let (mut rows, mut figures) = ([7; 2], [7; 8]);
        let tables = (&mut rows[..], &mut figures[..]);
        let reply = cabinet::sheet(&network, &closures, asker, 0, &[100], tables.0, tables.1);
        assert_eq!((reply, rows, figures), (Err(refused), [7; 2], [7; 8]));
    }
}

#[test]
fn towns_with_shared_closures() {
    for town in Town::NAMES.into_iter().filter_map(Town::named) {
        let network = &town.network;
        let shared = town.shared_closures(64);
        let all = town.closures(64);
        let every_second: Vec<Closure> = all.iter().step_by(2).copied().collect();
        let labels =
            |closures: &[Closure], asker| closed_labels(network, closures, asker, DEPARTURE);
        assert_eq!(labels(&shared, ASKER), labels(&every_second, ASKER));
        assert_eq!(labels(&shared, exchanged(ASKER)), labels(&all, ASKER));
        // The smaller ones have every arc in both halves.
        if network.junctions > 64 {
            assert_ne!(labels(&shared, ASKER), labels(&all, ASKER));
        }
    }
}
