//! Closures: beside departures, arrivals, fences, midnight and the last tick, during a
//! hold, and as records that overlap or adjoin; the limits of the list and of a record,
//! with the numbers around theirs.

use compare::cabinet;
use compare::comparison::answers;
use compare::inputs::OwnedNetwork;
use compare::inputs::towns::{ASKER, DEPARTURE, SOURCE, Town};
use compare::reference::Closure;
use compare::reference::limits::{BOTH_PARTIES, NO_ARC, UNREACHED};

use super::{assert_answered, assert_numbers_after, closed_labels, labels, number, small_town};

/// A record for both parties.
pub fn closure(arc: u32, first: u32, end: u32) -> Closure {
    Closure {
        arc,
        first,
        end,
        party: BOTH_PARTIES,
    }
}

/// Junctions in a row, at 36 from each to the next.
pub fn row(lengths: &[u32], holds: &[u16]) -> OwnedNetwork {
    let arcs = lengths.len() as u16;
    OwnedNetwork {
        junctions: u32::from(arcs) + 1,
        fences: vec![0],
        tails: (0..arcs).collect(),
        heads: (1..=arcs).collect(),
        lengths: lengths.to_vec(),
        holds: holds.to_vec(),
        speeds: vec![36; lengths.len()],
    }
}

/// Ten metres, which take ten ticks.
pub fn ten_metres() -> OwnedNetwork {
    row(&[10], &[0])
}

/// The labels from junction 0, on which both agree. Those of a sheet's row are the same, and
/// each junction has a route unless it is unreached.
fn labels_with(network: &OwnedNetwork, closures: &[Closure], departure: u32) -> Vec<u32> {
    labels_for(ASKER, network, closures, departure)
}

/// The same for one who asks.
pub fn labels_for(
    asker: u32,
    network: &OwnedNetwork,
    closures: &[Closure],
    departure: u32,
) -> Vec<u32> {
    let (labels, _) = closed_labels(network, closures, asker, departure);
    let junctions = labels.len();
    let mut rows = vec![7; 2 * junctions];
    let mut figures = vec![7; 4 * junctions];
    let departures = [departure; 2];
    let lent = network.lent();
    let tables = (&mut rows[..], &mut figures[..]);
    let reply = cabinet::sheet(&lent, closures, asker, 0, &departures, tables.0, tables.1);
    assert_eq!(reply, Ok(()));
    assert_eq!(rows, labels.repeat(2));
    let buffers = (rows.len(), figures.len());
    let sheet = answers::sheet(network, closures, asker, 0, &departures, buffers);
    assert_answered([sheet]);
    for (junction, &label) in labels.iter().enumerate() {
        let destination = junction as u32;
        let start = (0, departure);
        let route = answers::route(network, closures, asker, start, destination, junctions);
        assert_eq!(number(route), if label == UNREACHED { 13 } else { 0 });
    }
    labels
}

/// Junction 1's label with one closure of arc 0.
fn arrival(network: &OwnedNetwork, departure: u32, (first, end): (u32, u32)) -> u32 {
    labels_with(network, &[closure(0, first, end)], departure)[1]
}

#[test]
fn beside_the_departure() {
    // Driven from 100 to 109 if nothing is closed.
    for (closed, expected) in [
        ((90, 99), 110),
        ((90, 100), 110),
        ((90, 101), 111),
        ((90, 109), 119),
        ((99, 100), 110),
        ((99, 101), 111),
        ((99, 200), 210),
        ((100, 101), 111),
        ((100, 110), 120),
        ((100, 200), 210),
        ((101, 102), 111),
        ((101, 110), 119),
        ((101, 200), 209),
        ((0, 1), 110),
        ((0, 200), 210),
    ] {
        assert_eq!(arrival(&ten_metres(), 100, closed), expected, "{closed:?}");
    }
    // From the first tick of all.
    assert_eq!(arrival(&ten_metres(), 0, (0, 1)), 11);
    assert_eq!(arrival(&ten_metres(), 0, (1, 2)), 11);
}

#[test]
fn beside_the_arrival() {
    for (closed, expected) in [
        // That starts shortly before 110, at it and after it.
        ((108, 150), 152),
        ((109, 150), 151),
        ((110, 150), 110),
        ((111, 150), 110),
        ((109, 110), 111),
        ((109, 111), 112),
        ((110, 111), 110),
        // That ends shortly before it, at it and after it.
        ((105, 108), 113),
        ((105, 109), 114),
        ((105, 110), 115),
        ((105, 111), 116),
        // Onto the arrival that it makes itself.
        ((105, 115), 120),
    ] {
        assert_eq!(arrival(&ten_metres(), 100, closed), expected, "{closed:?}");
    }
    // A metre takes two ticks, the second for its last span.
    let mut network = row(&[1], &[0]);
    network.speeds = vec![35];
    for (closed, expected) in [
        ((99, 100), 102),
        ((100, 101), 103),
        ((101, 102), 103),
        ((101, 150), 151),
        ((102, 150), 102),
        ((100, 150), 152),
    ] {
        assert_eq!(arrival(&network, 100, closed), expected, "{closed:?}");
    }
}

#[test]
fn beside_fences() {
    // Three metres, 108 spans, from 50.
    let network = OwnedNetwork {
        fences: vec![0, 100, 200],
        speeds: vec![36, 18, 12],
        ..row(&[3], &[0])
    };
    for (closed, expected) in [
        ((50, 98), 102),
        ((50, 99), 104),
        ((50, 100), 106),
        ((50, 101), 107),
        ((51, 100), 104),
        ((50, 150), 156),
        // 18 spans in tick 199, and 90 take eight ticks at 12.
        ((50, 199), 208),
        ((50, 200), 209),
        ((50, 201), 210),
        ((52, 200), 203),
        ((53, 200), 53),
        // 12 spans before midnight, and 96 take three ticks at 36.
        ((50, 863_999), 864_003),
        // Up to the next day's first interval, its second and its last.
        ((50, 864_000), 864_003),
        ((50, 864_001), 864_004),
        ((50, 864_099), 864_104),
        ((50, 864_100), 864_106),
        ((50, 864_150), 864_156),
        ((50, 1_727_991), 1_728_000),
        ((50, 1_727_992), UNREACHED),
    ] {
        assert_eq!(arrival(&network, 50, closed), expected, "{closed:?}");
    }
}

#[test]
fn across_midnight() {
    // Five metres before it, and five after it.
    for (closed, expected) in [
        ((863_990, 863_995), 864_005),
        ((863_990, 863_999), 864_009),
        ((863_990, 864_000), 864_010),
        ((863_990, 864_001), 864_011),
        ((863_995, 864_005), 864_015),
        ((863_998, 864_003), 864_010),
        ((863_999, 864_000), 864_006),
        ((863_999, 864_001), 864_007),
        ((864_000, 864_001), 864_006),
        ((864_000, 900_000), 900_005),
        ((864_004, 864_100), 864_101),
        ((864_005, 864_100), 864_005),
    ] {
        let found = arrival(&ten_metres(), 863_995, closed);
        assert_eq!(found, expected, "{closed:?}");
    }
    // Two metres, 72 spans, from 863,995: 60 before midnight and 12 after it.
    let network = OwnedNetwork {
        fences: vec![0, 100, 863_990],
        speeds: vec![36, 0, 12],
        ..row(&[2], &[0])
    };
    for (closed, expected) in [
        ((863_990, 863_995), 864_001),
        ((863_997, 864_000), 864_002),
        ((863_997, 864_098), 864_100),
        // 36 spans in tick 864,099, and 12 in the next evening's first.
        ((863_997, 864_099), 1_727_991),
        ((863_997, 864_100), 1_727_994),
        ((863_997, 1_727_990), 1_727_994),
        ((863_997, 1_727_996), 1_728_000),
        ((863_997, 1_727_997), UNREACHED),
    ] {
        let found = arrival(&network, 863_995, closed);
        assert_eq!(found, expected, "{closed:?}");
    }
}

#[test]
fn of_one_day_only() {
    // Junction 1 is reached at 864,100, or on the first day at 101.
    let network = row(&[101, 10], &[0; 2]);
    let evening = |first, end| labels_with(&network, &[closure(1, first, end)], 863_999);
    let morning = |first, end| labels_with(&network, &[closure(1, first, end)], 0);
    for (first, end) in [(100, 200), (0, 200), (100, 863_999), (0, 864_000)] {
        assert_eq!(evening(first, end), [863_999, 864_100, 864_110]);
    }
    assert_eq!(evening(0, 864_101), [863_999, 864_100, 864_111]);
    assert_eq!(evening(864_100, 864_101), [863_999, 864_100, 864_111]);
    assert_eq!(evening(864_100, 864_200), [863_999, 864_100, 864_210]);
    assert_eq!(morning(100, 200), [0, 101, 210]);
    for (first, end) in [(864_100, 864_200), (864_000, 1_728_000)] {
        assert_eq!(morning(first, end), [0, 101, 111]);
    }
}

#[test]
fn during_a_hold() {
    // The stop line is reached at 110, and the hold ends at 160.
    let network = row(&[10], &[50]);
    for (closed, expected) in [
        ((110, 111), 160),
        ((110, 160), 160),
        ((110, 1_728_000), 160),
        ((111, 1_728_000), 160),
        ((120, 130), 160),
        ((159, 161), 160),
        ((160, 1_728_000), 160),
        // It makes the stop line later, and the hold runs on from there.
        ((109, 110), 161),
        ((109, 111), 162),
        ((105, 115), 170),
        ((100, 110), 170),
        ((109, 200), 251),
        ((100, 1_728_000), UNREACHED),
    ] {
        assert_eq!(arrival(&network, 100, closed), expected, "{closed:?}");
    }
    // The hold runs on across midnight too.
    assert_eq!(arrival(&network, 863_980, (863_990, 864_100)), 864_040);
    assert_eq!(arrival(&network, 863_980, (863_989, 864_100)), 864_151);
    // The next arc is left after the hold; what closes it before that is past.
    let network = row(&[10, 10], &[50, 0]);
    for (closed, expected) in [
        ((100, 160), 170),
        ((100, 161), 171),
        ((160, 161), 171),
        ((169, 200), 201),
        ((170, 200), 170),
    ] {
        let labels = labels_with(&network, &[closure(1, closed.0, closed.1)], 100);
        assert_eq!(labels, [100, 160, expected], "{closed:?}");
    }
}

#[test]
fn over_a_whole_day() {
    for (departure, closed, expected) in [
        (5, (0, 863_999), 864_009),
        (5, (0, 864_000), 864_010),
        (5, (0, 864_001), 864_011),
        (0, (0, 864_000), 864_010),
        (863_999, (0, 864_000), 864_010),
        (5, (10, 864_010), 864_015),
        // The second day.
        (5, (864_000, 1_728_000), 15),
        (863_990, (864_000, 1_728_000), 864_000),
        (863_991, (864_000, 1_728_000), UNREACHED),
        (863_991, (864_000, 1_727_999), 1_728_000),
        (863_990, (863_999, 1_727_999), 1_728_000),
    ] {
        let found = arrival(&ten_metres(), departure, closed);
        assert_eq!(found, expected, "{closed:?}");
    }
}

#[test]
fn up_to_the_last_tick() {
    let last = 1_728_000;
    for (closed, expected) in [
        ((0, last), UNREACHED),
        ((100, last), UNREACHED),
        ((109, last), UNREACHED),
        ((110, last), 110),
        ((100, last - 11), last - 1),
        ((100, last - 10), last),
        ((100, last - 9), UNREACHED),
        ((109, last - 1), last),
        ((100, last - 1), UNREACHED),
        ((last - 1, last), 110),
    ] {
        assert_eq!(arrival(&ten_metres(), 100, closed), expected, "{closed:?}");
    }
    let held = row(&[10], &[5]);
    assert_eq!(arrival(&held, 100, (100, last - 15)), last);
    assert_eq!(arrival(&held, 100, (100, last - 14)), UNREACHED);
    // A further arc into the junction, twice as long, is driven instead.
    let two = OwnedNetwork {
        tails: vec![0; 2],
        heads: vec![1; 2],
        junctions: 2,
        ..row(&[10, 20], &[0; 2])
    };
    let (ticks, predecessors) = closed_labels(&two, &[closure(0, 109, last)], ASKER, 100);
    assert_eq!(
        (&ticks[..], &predecessors[..]),
        (&[100, 120][..], &[NO_ARC, 1][..])
    );
    let both = [closure(0, 109, last), closure(1, 119, last)];
    let (ticks, predecessors) = closed_labels(&two, &both, ASKER, 100);
    assert_eq!(
        (&ticks[..], &predecessors[..]),
        (&[100, UNREACHED][..], &[NO_ARC; 2][..])
    );
}

#[test]
fn several_records() {
    for (records, expected) in [
        // They overlap.
        (&[(102, 106), (104, 108)][..], 116),
        (&[(102, 108), (104, 106)], 116),
        (&[(102, 103), (102, 108)], 116),
        (&[(107, 108), (102, 108)], 116),
        (&[(102, 200), (110, 120)], 208),
        (&[(90, 101), (100, 102)], 112),
        // They adjoin.
        (&[(102, 105), (105, 108)], 116),
        (&[(102, 104), (104, 106), (106, 108)], 116),
        (&[(90, 100), (100, 110)], 120),
        (
            &[(863_000, 864_000), (100, 863_000), (864_000, 864_100)],
            864_110,
        ),
        // They are repeated.
        (&[(102, 108), (102, 108)], 116),
        (&[(102, 108), (102, 108), (102, 108)], 116),
        // A tick is left between them, or more.
        (&[(102, 105), (106, 108)], 115),
        (&[(102, 105), (106, 200)], 207),
        (&[(90, 100), (101, 110)], 119),
        (&[(100, 101), (102, 103), (104, 105)], 113),
        (&[(99, 100), (110, 200)], 110),
        (&[(105, 110), (114, 120)], 121),
        (&[(105, 110), (115, 120)], 115),
    ] {
        let mut closures: Vec<Closure> = records
            .iter()
            .map(|&(first, end)| closure(0, first, end))
            .collect();
        // In this order, in the others by turning, and in all of these backwards.
        for _ in 0..2 {
            for _ in records {
                let labels = labels_with(&ten_metres(), &closures, 100);
                assert_eq!(labels, [100, expected], "{closures:?}");
                closures.rotate_left(1);
            }
            closures.reverse();
        }
    }
}

#[test]
fn of_another_arc() {
    // Three arcs out of the source, to a junction each.
    let network = OwnedNetwork {
        tails: vec![0; 3],
        ..row(&[10; 3], &[0; 3])
    };
    for arc in 0..3 {
        let mut expected = [100, 110, 110, 110];
        expected[arc as usize + 1] = 210;
        let found = labels_with(&network, &[closure(arc, 100, 200)], 100);
        assert_eq!(found, expected);
        // Records of the others before it and after it.
        let other = (arc + 1) % 3;
        let around = [
            closure(other, 110, 300),
            closure(arc, 100, 200),
            closure(other, 0, 100),
        ];
        assert_eq!(labels_with(&network, &around, 100), expected);
    }
    // 640 arcs side by side, of which one is the shortest.
    for shortest in [0, 1, 255, 256, 257, 511, 512, 638, 639] {
        let mut lengths = [20; 640];
        lengths[shortest] = 10;
        let network = OwnedNetwork {
            junctions: 2,
            tails: vec![0; 640],
            heads: vec![1; 640],
            ..row(&lengths, &[0; 640])
        };
        let with = |arc: usize, first, end| {
            let closures = [closure(arc as u32, first, end)];
            let (labels, predecessors) = closed_labels(&network, &closures, ASKER, 100);
            (labels[1], predecessors[1])
        };
        let arc = shortest as u16;
        assert_eq!(with(shortest, 100, 105), (115, arc));
        assert_eq!(with(shortest, 100, 111), (120, u16::from(arc == 0)));
        for other in [0, 1, 255, 256, 383, 384, 511, 512, 639] {
            if other != shortest {
                assert_eq!(with(other, 0, 1_728_000), (110, arc));
            }
        }
    }
}

#[test]
fn equal_arrivals() {
    for (lengths, records, label, predecessor) in [
        // Arc 0 stands as long as arc 1 takes more, a tick less and a tick more.
        ([10, 15], &[closure(0, 100, 105)][..], 115, 0),
        ([10, 15], &[closure(0, 104, 108)], 114, 0),
        ([10, 15], &[closure(0, 104, 110)], 115, 1),
        ([15, 10], &[closure(1, 100, 105)], 115, 0),
        ([15, 10], &[closure(1, 109, 113)], 114, 1),
        ([15, 10], &[closure(1, 109, 115)], 115, 0),
        // Arc 0 would be there at the label of arc 1 if it were not closed for a tick.
        (
            [15, 10],
            &[closure(0, 100, 101), closure(1, 100, 105)],
            115,
            1,
        ),
        // Both stand until the same tick.
        (
            [10, 10],
            &[closure(0, 100, 150), closure(1, 90, 150)],
            160,
            0,
        ),
        (
            [10, 10],
            &[closure(0, 100, 151), closure(1, 90, 150)],
            160,
            1,
        ),
    ] {
        let network = OwnedNetwork {
            junctions: 2,
            tails: vec![0; 2],
            heads: vec![1; 2],
            ..row(&lengths, &[0; 2])
        };
        let found = closed_labels(&network, records, ASKER, 100);
        assert_eq!(found, (vec![100, label], vec![NO_ARC, predecessor]));
        let mut arcs = [7; 2];
        let count = cabinet::route(&network.lent(), records, ASKER, 0, 100, 1, &mut arcs);
        assert_eq!((count, arcs), (Ok(1), [predecessor, 7]));
    }
}

#[test]
fn rows_of_a_sheet() {
    // Each departure meets the closure at another place of its drive, or not at all.
    let network = ten_metres();
    let closures = [closure(0, 105, 115)];
    let departures = [100, 95, 96, 105, 114, 115, 863_999, 104];
    let mut rows = [7; 16];
    let mut figures = [7; 8];
    let reply = cabinet::sheet(
        &network.lent(),
        &closures,
        ASKER,
        0,
        &departures,
        &mut rows,
        &mut figures,
    );
    assert_eq!(reply, Ok(()));
    let reached = [120, 105, 116, 125, 125, 125, 864_009, 124];
    let expected: Vec<u32> = departures
        .into_iter()
        .zip(reached)
        .flat_map(|(left, at)| [left, at])
        .collect();
    assert_eq!(rows[..], expected);
    // Journeys of 20, 10, 20, 20, 11, 10, 10 and 20 ticks.
    assert_eq!(figures, [8, 0, 0, 0, 8, 10, 20, 121]);
    let sheet = answers::sheet(&network, &closures, ASKER, 0, &departures, (16, 8));
    assert_answered([sheet]);
}

/// The numbers of Labels and Passes, Route and Sheet for a network with ten junctions.
fn numbers(network: &OwnedNetwork, closures: &[Closure]) -> [u32; 3] {
    numbers_for(ASKER, network, closures)
}

/// The same for one who asks.
pub fn numbers_for(asker: u32, network: &OwnedNetwork, closures: &[Closure]) -> [u32; 3] {
    let (start, departures) = ((0, DEPARTURE), [DEPARTURE]);
    let buffers = (10, 40);
    [
        answers::labels(network, closures, asker, start, (10, 10)),
        answers::route(network, closures, asker, start, 9, 10),
        answers::sheet(network, closures, asker, 0, &departures, buffers),
    ]
    .map(number)
}

#[test]
fn as_many_as_there_may_be() {
    // Every other tick from 100 on: the ten metres are driven at 101 and so on to 119.
    let every_other: Vec<Closure> = (0..64)
        .map(|k| closure(0, 100 + 2 * k, 101 + 2 * k))
        .collect();
    assert_eq!(labels_with(&ten_metres(), &every_other, 100), [100, 120]);
    // Each of them alone counts, wherever it stands.
    for place in 0..64 {
        let mut closures = [closure(0, 0, 100); 64];
        closures[place] = closure(0, 100, 150);
        assert_eq!(labels_with(&ten_metres(), &closures, 100), [100, 160]);
    }
    // One for each of 64 arcs in a row.
    let network = row(&[10; 64], &[0; 64]);
    let closures: Vec<Closure> = (0..64)
        .rev()
        .map(|arc| closure(arc, 0, 1_000 * (arc + 1)))
        .collect();
    let expected: Vec<u32> = [0]
        .into_iter()
        .chain((1..=64).map(|k| 1_000 * k + 10))
        .collect();
    assert_eq!(labels_with(&network, &closures, 0), expected);

    let network = small_town();
    for (count, number) in [
        (0, 0),
        (1, 0),
        (63, 0),
        (64, 0),
        (65, 36),
        (66, 36),
        (128, 36),
        (256, 36),
        (320, 36),
        (65_536, 36),
        (65_600, 36),
    ] {
        let closures = vec![closure(25, 0, 1); count];
        assert_eq!(numbers(&network, &closures), [number; 3], "{count}");
    }
}

#[test]
fn limits_of_a_record() {
    let network = small_town();
    for (record, number) in [
        // The small town has 26 arcs.
        (closure(0, 0, 1), 0),
        (closure(25, 0, 1), 0),
        (closure(26, 0, 1), 37),
        (closure(27, 0, 1), 37),
        (closure(255, 0, 1), 37),
        (closure(256, 0, 1), 37),
        (closure(640, 0, 1), 37),
        (closure(65_535, 0, 1), 37),
        (closure(65_536, 0, 1), 37),
        (closure(65_561, 0, 1), 37),
        (closure(u32::MAX, 0, 1), 37),
        // The first tick is below the end.
        (closure(0, 0, 0), 37),
        (closure(0, 1, 0), 37),
        (closure(0, 1, 1), 37),
        (closure(0, 1, 2), 0),
        (closure(0, 2, 1), 37),
        (closure(0, 863_999, 864_000), 0),
        (closure(0, 864_000, 864_000), 37),
        (closure(0, 864_001, 864_000), 37),
        (closure(0, 1_728_000, 0), 37),
        (closure(0, u32::MAX, 1), 37),
        // The end is not above the last tick.
        (closure(0, 0, 1_727_999), 0),
        (closure(0, 0, 1_728_000), 0),
        (closure(0, 0, 1_728_001), 37),
        (closure(0, 1_727_999, 1_728_000), 0),
        (closure(0, 1_727_999, 1_728_001), 37),
        (closure(0, 1_728_000, 1_728_000), 37),
        (closure(0, 1_728_000, 1_728_001), 37),
        (closure(0, 0, u32::MAX), 37),
        (closure(0, u32::MAX, u32::MAX), 37),
        // All at once.
        (closure(26, 1_728_001, 1_728_001), 37),
    ] {
        // Alone, and anywhere among good ones.
        assert_eq!(numbers(&network, &[record]), [number; 3], "{record:?}");
        for count in [2, 63, 64] {
            for place in [0, 1, count / 2, count - 1] {
                let mut closures = vec![closure(25, 0, 1); count];
                closures[place] = record;
                assert_eq!(numbers(&network, &closures), [number; 3], "{record:?}");
            }
        }
    }
    // The last arc of the most there may be, and the first of none.
    let parallel = OwnedNetwork {
        junctions: 10,
        tails: vec![0; 640],
        heads: vec![9; 640],
        ..row(&[10; 640], &[0; 640])
    };
    assert_eq!(numbers(&parallel, &[closure(639, 0, 1_728_000)]), [0; 3]);
    assert_eq!(numbers(&parallel, &[closure(640, 0, 1_728_000)]), [37; 3]);
    let no_arcs = OwnedNetwork {
        junctions: 10,
        fences: vec![0],
        ..OwnedNetwork::default()
    };
    assert_eq!(numbers(&no_arcs, &[]), [0, 13, 0]);
    assert_eq!(numbers(&no_arcs, &[closure(0, 0, 1)]), [37; 3]);
    assert_eq!(numbers(&no_arcs, &[closure(0, 0, 1); 65]), [36; 3]);
}

/// A record that breaks each rule.
const WRONG: Closure = Closure {
    arc: u32::MAX,
    first: u32::MAX,
    end: 1_728_001,
    party: u32::MAX,
};

#[test]
fn numbers_before_the_list() {
    // The small town has 26 arcs and four intervals.
    let damaged = |number, damage: fn(&mut OwnedNetwork)| {
        let mut network = small_town();
        damage(&mut network);
        let of_nobody = Closure {
            party: 3,
            ..closure(0, 0, 1)
        };
        for record in [WRONG, of_nobody] {
            for (count, asker) in [
                (0, 0),
                (0, 1),
                (1, 2),
                (64, 1),
                (64, 3),
                (65, 1),
                (1_000, 0),
            ] {
                let found = numbers_for(asker, &network, &vec![record; count]);
                assert_eq!(found, [number; 3]);
            }
        }
    };
    damaged(1, |network| network.junctions = 0);
    damaged(1, |network| network.junctions = 201);
    damaged(2, |network| network.fences.clear());
    damaged(3, |network| network.tails.resize(641, 0));
    damaged(4, |network| network.heads.truncate(25));
    damaged(4, |network| network.holds.truncate(25));
    damaged(5, |network| network.fences[0] = 1);
    damaged(6, |network| network.heads[25] = network.tails[25]);
    damaged(7, |network| network.lengths[25] = 0);
    damaged(8, |network| network.speeds[103] = 201);
    damaged(32, |network| network.holds[25] = 1_201);
    damaged(32, |network| network.holds[0] = u16::MAX);
}

#[test]
fn numbers_after_the_list() {
    let network = small_town();
    let good = [closure(25, 0, 1); 64];
    let mut wrong_first = good;
    wrong_first[0] = WRONG;
    let mut wrong_last = good;
    wrong_last[63] = WRONG;
    for (closures, before) in [
        (&[][..], 0),
        (&good, 0),
        (&[WRONG], 37),
        (&wrong_first, 37),
        (&wrong_last, 37),
        (&[WRONG; 64], 37),
        (&[good[0]; 65], 36),
        (&[WRONG; 65], 36),
    ] {
        assert_numbers_after(&network, closures, ASKER, before);
    }
    // An unreached destination, by the closure alone.
    let network = ten_metres();
    let closed = [closure(0, 0, 1_728_000)];
    let route = |closures: &[Closure], destination| {
        let start = (0, 0);
        number(answers::route(
            &network,
            closures,
            ASKER,
            start,
            destination,
            0,
        ))
    };
    assert_eq!(route(&closed, 1), 13);
    assert_eq!(route(&[], 1), 14);
    assert_eq!(route(&closed, 2), 12);
    assert_eq!(route(&closed, 0), 0);
}

#[test]
fn towns_with_closures() {
    for town in Town::NAMES.into_iter().filter_map(Town::named) {
        let network = &town.network;
        let junctions = network.junctions as usize;
        let (open, _) = labels(network, DEPARTURE);
        for count in [1, 64] {
            let closures = town.closures(count);
            assert_eq!(closures.len(), count);
            let (closed, _) = closed_labels(network, &closures, ASKER, DEPARTURE);
            let later = open
                .iter()
                .zip(&closed)
                .filter(|(open, closed)| open < closed);
            let share = if count == 1 { 0 } else { junctions / 2 };
            assert!(later.count() > share, "{} with {count}", town.name);
            let start = (SOURCE, DEPARTURE);
            assert_answered([answers::route(
                network,
                &closures,
                ASKER,
                start,
                town.destination(),
                junctions,
            )]);
        }
    }
}
