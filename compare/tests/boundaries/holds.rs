//! Holds: their limit and their table's length with the numbers around them, arrivals
//! with a hold beside fences, midnight and the last tick, and what holds do to labels and
//! predecessors.

use compare::cabinet;
use compare::comparison::answers;
use compare::inputs::OwnedNetwork;
use compare::inputs::networks::interval_at;
use compare::inputs::towns::{ASKER, DEPARTURE};
use compare::reference::limits::{NO_ARC, UNREACHED};

use super::{
    Moment, arc_number, arrival_on, assert_answered, assert_numbers_after, labels, lone_arc,
    number, sheet_number, small_town,
};

/// The numbers of Network check, Labels and Passes, Route and Sheet for the small town with
/// some of its tables changed.
fn numbers(network: &OwnedNetwork) -> [u32; 4] {
    let start = (0, DEPARTURE);
    [
        number(answers::network_check(network)),
        number(answers::labels(network, &[], ASKER, start, (10, 10))),
        number(answers::route(network, &[], ASKER, start, 9, 10)),
        sheet_number(network, 0, &[DEPARTURE], (10, 40)),
    ]
}

/// Above the limit, and within what a table can have.
const TOO_LONG: [u16; 5] = [1_201, 1_202, 2_048, 32_768, 65_535];
/// What Arc arrival alone can be given. Some would be within the limit if they lost bits.
const FAR_TOO_LONG: [u32; 6] = [
    65_536,
    65_537,
    66_736,
    1 << 31,
    (1 << 31) + 1_200,
    4_294_967_295,
];

#[test]
fn holds_of_a_network() {
    let mut network = small_town();
    for arc in 0..network.arcs() {
        for hold in [0, 1, 1_199, 1_200] {
            network.holds[arc] = hold;
            assert_eq!(numbers(&network), [0; 4]);
        }
        for hold in TOO_LONG {
            network.holds[arc] = hold;
            assert_eq!(numbers(&network), [32; 4]);
        }
        network.holds[arc] = 0;
    }
    network.holds.fill(1_200);
    assert_eq!(numbers(&network), [0; 4]);
    network.holds.fill(1_201);
    assert_eq!(numbers(&network), [32; 4]);
}

#[test]
fn holds_of_an_arc() {
    let number = |hold, departure| arc_number(&lone_arc(1, hold, &[0], &[36]), departure);
    for hold in [0, 1, 1_199, 1_200] {
        assert_eq!(number(hold, (0, 0)), 0);
        // It cannot be driven, which is no refusal.
        assert_eq!(number(hold, (1_728_000, 0)), 0);
    }
    for hold in TOO_LONG.map(u32::from).into_iter().chain(FAR_TOO_LONG) {
        for departure in [0, 1_728_000, 1_728_001, u32::MAX] {
            for interval in [0, 1, u32::MAX] {
                assert_eq!(number(hold, (departure, interval)), 32);
            }
        }
    }
}

#[test]
fn numbers_beside_an_arcs_hold() {
    for hold in [0, 1_200, 1_201, u32::MAX] {
        for departure in [(0, 0), (0, 1), (1_728_001, 0), (u32::MAX, u32::MAX)] {
            let number = |length, fences: &[u32], speeds: &[u8]| {
                arc_number(&lone_arc(length, hold, fences, speeds), departure)
            };
            assert_eq!(number(0, &[], &[]), 2);
            assert_eq!(number(0, &[1], &[201; 2]), 4);
            assert_eq!(number(0, &[1], &[201]), 5);
            assert_eq!(number(0, &[0], &[201]), 7);
            assert_eq!(number(100_001, &[0], &[201]), 7);
            assert_eq!(number(1, &[0], &[201]), 8);
            let expected = match (hold, departure) {
                (1_201.., _) => 32,
                (_, (1_728_001.., _)) => 15,
                (_, (_, 0)) => 0,
                _ => 46,
            };
            assert_eq!(number(1, &[0], &[200]), expected);
        }
    }
}

#[test]
fn hold_tables_of_wrong_length() {
    let mut network = small_town();
    let arcs = network.arcs();
    for count in [0, 1, arcs - 1, arcs + 1, 2 * arcs, 640, 641, 65_536] {
        for hold in [0, 1_200, 1_201] {
            network.holds = vec![hold; count];
            assert_eq!(numbers(&network), [4; 4]);
        }
    }
    // Without arcs the right length is 0.
    let mut network = OwnedNetwork {
        junctions: 10,
        fences: vec![0],
        ..OwnedNetwork::default()
    };
    // Route's destination is unreached.
    assert_eq!(numbers(&network), [0, 0, 13, 0]);
    network.holds = vec![0];
    assert_eq!(numbers(&network), [4; 4]);
}

/// The small town has 26 arcs and four intervals.
const LAST_ARC: usize = 25;
const LAST_SPEED: usize = 103;

#[test]
fn numbers_before_a_hold() {
    let damaged = |number, damage: fn(&mut OwnedNetwork)| {
        // Each is found before a hold that is too long at the first arc or the last.
        for place in [0, LAST_ARC] {
            let mut network = small_town();
            network.holds[place] = 1_201;
            damage(&mut network);
            assert_eq!(numbers(&network), [number; 4]);
        }
    };
    damaged(1, |network| network.junctions = 0);
    damaged(2, |network| network.fences.clear());
    damaged(4, |network| network.heads.truncate(LAST_ARC));
    damaged(4, |network| network.lengths.truncate(LAST_ARC));
    damaged(4, |network| network.speeds.truncate(LAST_SPEED));
    damaged(5, |network| network.fences[0] = 1);
    damaged(6, |network| {
        network.heads[LAST_ARC] = network.tails[LAST_ARC]
    });
    damaged(7, |network| network.lengths[LAST_ARC] = 0);
    damaged(8, |network| network.speeds[LAST_SPEED] = 201);

    // A hold table of wrong length is found after 641 arcs, and before a broken fence.
    damaged(3, |network| {
        network.tails.resize(641, 0);
        network.holds.clear();
    });
    damaged(4, |network| {
        network.fences[0] = 1;
        network.holds.clear();
    });
}

#[test]
fn numbers_after_a_hold() {
    let mut network = small_town();
    for (hold, before) in [(1_200, 0), (1_201, 32)] {
        network.holds[LAST_ARC] = hold;
        assert_numbers_after(&network, &[], ASKER, before);
    }
}

/// A metre in one tick, and then the hold.
fn metre(departure: Moment, hold: u32, fences: &[u32]) -> Option<Moment> {
    let speeds = vec![36; fences.len()];
    arrival_on(&lone_arc(1, hold, fences, &speeds), departure)
}

#[test]
fn up_to_the_last_tick() {
    let last = Some((1_728_000, 0));
    for fences in [&[0][..], &[0, 100], &[0, 100, 863_999]] {
        let metre = |tick, hold| metre((tick, interval_at(fences, tick)), hold, fences);
        // Reached at 1,728,000 itself.
        assert_eq!(metre(1_727_999, 0), last);
        for hold in [1, 2, 1_199, 1_200] {
            assert_eq!(metre(1_727_999, hold), None);
            // Reached so many ticks earlier, or one less.
            assert_eq!(metre(1_727_999 - hold, hold), last);
            assert_eq!(metre(1_728_000 - hold, hold), None);
        }
    }
    // The stop line alone is reached in time, by standing until the last evening.
    let evening = |hold| arrival_on(&lone_arc(1, hold, &[0, 863_990], &[0, 4]), (863_995, 1));
    assert_eq!(evening(0), Some((1_727_994, 1)));
    assert_eq!(evening(5), Some((1_727_999, 1)));
    assert_eq!(evening(6), last);
    assert_eq!(evening(7), None);
}

#[test]
fn across_fences() {
    let fences = [0, 100, 110, 111, 1_000, 863_000];
    for day in [0, 864_000] {
        for (departure, hold, tick, interval) in [
            // Reached at 95: short of the fence, onto it, across it.
            ((94, 0), 4, 99, 0),
            ((94, 0), 5, 100, 1),
            ((94, 0), 6, 101, 1),
            // Several at once, and onto the last of them.
            ((94, 0), 15, 110, 2),
            ((94, 0), 16, 111, 3),
            ((94, 0), 17, 112, 3),
            ((94, 0), 904, 999, 3),
            ((94, 0), 905, 1_000, 4),
            ((94, 0), 1_200, 1_295, 4),
            // Reached on a fence.
            ((99, 0), 0, 100, 1),
            ((99, 0), 9, 109, 1),
            ((99, 0), 10, 110, 2),
            ((109, 1), 0, 110, 2),
            ((109, 1), 1, 111, 3),
            ((109, 1), 890, 1_000, 4),
        ] {
            let departure = (day + departure.0, departure.1);
            let expected = Some((day + tick, interval));
            assert_eq!(metre(departure, hold, &fences), expected);
        }
    }
}

#[test]
fn across_midnight() {
    let fences = [0, 10, 500, 1_150, 863_000, 863_995];
    for (departure, hold, tick, interval) in [
        // Reached at 863,991.
        ((863_990, 4), 3, 863_994, 4),
        ((863_990, 4), 4, 863_995, 5),
        ((863_990, 4), 8, 863_999, 5),
        ((863_990, 4), 9, 864_000, 0),
        ((863_990, 4), 18, 864_009, 0),
        ((863_990, 4), 19, 864_010, 1),
        ((863_990, 4), 509, 864_500, 2),
        ((863_990, 4), 1_158, 865_149, 2),
        ((863_990, 4), 1_159, 865_150, 3),
        ((863_990, 4), 1_200, 865_191, 3),
        // Reached at midnight itself, and a tick after it.
        ((863_999, 5), 0, 864_000, 0),
        ((863_999, 5), 9, 864_009, 0),
        ((863_999, 5), 10, 864_010, 1),
        ((863_999, 5), 1_200, 865_200, 3),
        ((864_000, 0), 9, 864_010, 1),
        // From well before all of it.
        ((862_799, 3), 200, 863_000, 4),
        ((862_799, 3), 1_195, 863_995, 5),
        ((862_799, 3), 1_199, 863_999, 5),
        ((862_799, 3), 1_200, 864_000, 0),
    ] {
        assert_eq!(metre(departure, hold, &fences), Some((tick, interval)));
    }
    // One interval all day.
    for hold in [0, 1, 2, 1_200] {
        let expected = Some((863_999 + hold, 0));
        assert_eq!(metre((863_998, 0), hold, &[0]), expected);
    }
}

#[test]
fn across_intervals_of_a_tick() {
    // 47 in the morning, one over the day, and 48 in the evening.
    let fences: Vec<u32> = (0..48).chain(863_952..864_000).collect();
    let interval = |tick: u32| match tick % 864_000 {
        morning @ ..48 => morning,
        48..863_952 => 47,
        evening => evening - 863_952 + 48,
    };
    for departure in (0..60).chain(863_940..864_060).chain(1_727_940..1_728_001) {
        for hold in [0, 1, 2, 47, 48, 49, 95, 96, 97, 1_199, 1_200] {
            let tick = departure + 1 + hold;
            let expected = (tick <= 1_728_000).then(|| (tick, interval(tick)));
            let departure = (departure, interval(departure));
            assert_eq!(metre(departure, hold, &fences), expected);
        }
    }
}

#[test]
fn holds_after_a_long_drive() {
    // 90 metres before the fence at 100, none until 863,900, and the last ten after it,
    // each in a tick.
    let fences = [0, 100, 863_900];
    let drive = |hold| arrival_on(&lone_arc(100, hold, &fences, &[36, 0, 36]), (10, 0));
    assert_eq!(drive(0), Some((863_910, 2)));
    assert_eq!(drive(89), Some((863_999, 2)));
    assert_eq!(drive(90), Some((864_000, 0)));
    assert_eq!(drive(190), Some((864_100, 1)));
    assert_eq!(drive(1_200), Some((865_110, 1)));
    // The hold is not driven out: all of it is waited even where 200 is allowed.
    let fast = |hold| arrival_on(&lone_arc(100_000, hold, &[0], &[200]), (0, 0));
    assert_eq!(fast(0), Some((18_000, 0)));
    assert_eq!(fast(1_200), Some((19_200, 0)));
}

/// Junctions in a row, a metre at 36 from each to the next, with these holds.
fn row_of_metres(holds: &[u16], fences: &[u32]) -> OwnedNetwork {
    let arcs = holds.len();
    OwnedNetwork {
        junctions: arcs as u32 + 1,
        fences: fences.to_vec(),
        tails: (0..arcs as u16).collect(),
        heads: (1..=arcs as u16).collect(),
        lengths: vec![1; arcs],
        holds: holds.to_vec(),
        speeds: vec![36; arcs * fences.len()],
    }
}

#[test]
fn the_shorter_hold_wins() {
    let falling = [30, 20, 10];
    let rising = [10, 20, 30];
    for (lengths, holds, label, predecessor) in [
        (falling, [0, 0, 0], 10, 2),
        // One that is at the stop line later goes on earlier.
        (falling, [0, 0, 11], 20, 1),
        (falling, [0, 11, 21], 30, 0),
        (falling, [1_169, 1_180, 1_190], 1_199, 0),
        (falling, [1_200, 1_200, 1_200], 1_210, 2),
        (rising, [11, 0, 0], 20, 1),
        (rising, [21, 11, 0], 30, 2),
        (rising, [1_200, 1_189, 1_200], 1_209, 1),
        // Of those that are equal after their holds the lowest number counts.
        (falling, [0, 0, 10], 20, 1),
        (falling, [0, 10, 20], 30, 0),
        (falling, [0, 11, 20], 30, 0),
        (falling, [1, 10, 20], 30, 1),
        (falling, [1_180, 1_190, 1_200], 1_210, 0),
        (falling, [1_181, 1_190, 1_200], 1_210, 1),
        (rising, [10, 0, 0], 20, 0),
        (rising, [20, 10, 0], 30, 0),
        (rising, [21, 10, 0], 30, 1),
        (rising, [1_200, 1_190, 1_180], 1_210, 0),
        (rising, [1_200, 1_191, 1_180], 1_210, 0),
    ] {
        // Three arcs into junction 1, and from there five metres to junction 2.
        let network = OwnedNetwork {
            junctions: 3,
            fences: vec![0],
            tails: vec![0, 0, 0, 1],
            heads: vec![1, 1, 1, 2],
            lengths: [&lengths[..], &[5]].concat(),
            holds: [&holds[..], &[0]].concat(),
            speeds: vec![36; 4],
        };
        for departure in [0, 863_995] {
            let ticks = [0, label, label + 5].map(|ticks| departure + ticks);
            let expected = (ticks.to_vec(), vec![NO_ARC, predecessor, 3]);
            assert_eq!(labels(&network, departure), expected);
            let mut arcs = [7; 3];
            let count = cabinet::route(&network.lent(), &[], ASKER, 0, departure, 2, &mut arcs);
            assert_eq!((count, arcs), (Ok(2), [predecessor, 3, 7]));
        }
    }
}

#[test]
fn the_next_arc_is_left_after_the_hold() {
    // The stop line is reached at 100. The metre after it takes one tick before the fence
    // at 200, two before that at 300, then three up to midnight.
    let network = |hold| OwnedNetwork {
        speeds: [vec![36; 3], vec![36, 18, 12]].concat(),
        ..row_of_metres(&[hold, 0], &[0, 200, 300])
    };
    for (hold, expected) in [
        (0, [99, 100, 101]),
        (98, [99, 198, 199]),
        (99, [99, 199, 200]),
        (100, [99, 200, 202]),
        (198, [99, 298, 300]),
        (199, [99, 299, 302]),
        (200, [99, 300, 303]),
        (1_200, [99, 1_300, 1_303]),
    ] {
        let (ticks, predecessors) = labels(&network(hold), 99);
        assert_eq!(ticks, expected);
        assert_eq!(predecessors, [NO_ARC, 0, 1]);
    }
    // Before midnight at 12 as well, and after it at 36 again.
    for (hold, expected) in [
        (0, [863_899, 863_900, 863_903]),
        (97, [863_899, 863_997, 864_000]),
        (100, [863_899, 864_000, 864_001]),
        (300, [863_899, 864_200, 864_202]),
        (400, [863_899, 864_300, 864_303]),
    ] {
        let (ticks, _) = labels(&network(hold), 863_899);
        assert_eq!(ticks, expected);
    }
}

#[test]
fn a_walk_of_longest_holds() {
    let fences: Vec<u32> = (0..96).map(|interval| 9_000 * interval).collect();
    let network = row_of_metres(&[1_200; 199], &fences);
    // On one day, and across midnight.
    for departure in [0, 500_000, 700_000, 863_999] {
        let (ticks, _) = labels(&network, departure);
        let expected: Vec<u32> = (departure..).step_by(1_201).take(200).collect();
        assert_eq!(ticks, expected);
        assert_answered([answers::route(
            &network,
            &[],
            ASKER,
            (0, departure),
            199,
            199,
        )]);
    }
}

#[test]
fn unreached_by_a_hold() {
    // The first arc takes from 863,999 to 1,727,000. The metre after it ends at the last
    // tick with a hold of 999, and the one after that is driven if there is a tick left.
    let network = |holds: [u16; 3]| {
        let mut network = row_of_metres(&holds, &[0]);
        network.lengths[0] = 863_001 / 9;
        network.speeds[0] = 4;
        network
    };
    let start = 863_999;
    let late = UNREACHED;
    for (holds, expected) in [
        ([0, 998, 0], [start, 1_727_000, 1_727_999, 1_728_000]),
        ([0, 998, 1], [start, 1_727_000, 1_727_999, late]),
        ([0, 999, 0], [start, 1_727_000, 1_728_000, late]),
        ([0, 1_000, 0], [start, 1_727_000, late, late]),
        ([1_000, 0, 0], [start, 1_728_000, late, late]),
        ([1_001, 0, 0], [start, late, late, late]),
        ([500, 497, 1], [start, 1_727_500, 1_727_998, 1_728_000]),
    ] {
        let network = network(holds);
        let (ticks, predecessors) = labels(&network, start);
        assert_eq!(ticks, expected);
        for (junction, &label) in expected.iter().enumerate().skip(1) {
            let arc = junction as u16 - 1;
            let predecessor = if label == late { NO_ARC } else { arc };
            assert_eq!(predecessors[junction], predecessor);
            let route = number(answers::route(
                &network,
                &[],
                ASKER,
                (0, start),
                junction as u32,
                3,
            ));
            assert_eq!(route, if label == late { 13 } else { 0 });
        }
        // From 0 all are reached; on a sheet with both, each row by itself.
        let (early, _) = labels(&network, 0);
        let mut rows = [7; 12];
        let mut figures = [7; 16];
        let departures = [start, 0, start];
        let reply = cabinet::sheet(
            &network.lent(),
            &[],
            ASKER,
            0,
            &departures,
            &mut rows,
            &mut figures,
        );
        assert_eq!(reply, Ok(()));
        assert_eq!(rows[..4], expected);
        assert_eq!(rows[4..8], early);
        assert_eq!(rows[8..], expected);
        assert_eq!(sheet_number(&network, 0, &departures, (12, 16)), 0);
    }
}
