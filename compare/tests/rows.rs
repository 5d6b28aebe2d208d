//! The reckonings that document 01 keeps, alone, on a sheet, by passes and as tables to be
//! checked, and more of them around midnight, with holds and with closures, put to the library
//! and the reference. An arc's have their intervals.

use compare::comparison::program::{ARRIVALS, Run, SHEET, TO_NEW, TO_OLD};
use compare::inputs::examples::{HELD_TOWN, HELD_TOWN_TEXT, TABLE_1, TOWN, TOWN_TEXT};
use compare::operations::{CABINET, Converter, Operations, REFERENCE};
use compare::reference::limits::{BOTH_PARTIES, BRIGADE, DEPOT, NO_ARC, REFUSED, UNREACHED};
use compare::reference::{
    Arrival, Closure, Counts, LoadRefusal, Network, Refusal, certificate_check,
};

const BOTH: [Operations; 2] = [CABINET, REFERENCE];

/// The paper's town with its speeds rotated: what it has at tick 10, this has at
/// 863,950, fifty ticks before midnight. Its first interval starts at 863,940 and goes
/// on after midnight to 40.
const NIGHT_TOWN: Network = Network {
    fences: &[0, 40, 863_940],
    speeds: &[36, 18, 36, 40, 20, 40, 36, 36, 36],
    ..TOWN
};

const NIGHT_TOWN_TEXT: &str = "\
TN 3 3
FN 0 40 863940
AR 0 1 50 36 18 36
AR 0 2 100 40 20 40
AR 1 2 50 36 36 36
";

/// Labels from junction 0.
fn labels(
    operations: &Operations,
    network: &Network,
    departure: u32,
) -> Result<(Vec<u32>, Vec<u16>), Refusal> {
    closed_labels(operations, network, &[], BRIGADE, departure)
}

/// The same with closures.
fn closed_labels(
    operations: &Operations,
    network: &Network,
    closures: &[Closure],
    asker: u32,
    departure: u32,
) -> Result<(Vec<u32>, Vec<u16>), Refusal> {
    let mut labels = vec![7; network.junctions as usize];
    let mut predecessors = vec![7; network.junctions as usize];
    let buffers = (&mut labels[..], &mut predecessors[..]);
    (operations.labels)(network, closures, asker, 0, departure, buffers.0, buffers.1)?;
    Ok((labels, predecessors))
}

/// Loads a text that holds the town, with these holds, or is refused.
fn load(operations: &Operations, text: &str, expected: &[u16]) -> Result<Counts, LoadRefusal> {
    let (mut fences, mut tails, mut heads, mut lengths) = ([7; 2], [7; 3], [7; 3], [7; 3]);
    let (mut holds, mut speeds) = ([7; 3], [7; 6]);
    let counts = (operations.load)(
        text.as_bytes(),
        &mut fences,
        &mut tails,
        &mut heads,
        &mut lengths,
        &mut holds,
        &mut speeds,
    )?;
    assert_eq!(fences, TOWN.fences);
    assert_eq!(tails, TOWN.tails);
    assert_eq!(heads, TOWN.heads);
    assert_eq!(lengths, TOWN.lengths);
    assert_eq!(holds, expected);
    assert_eq!(speeds, TOWN.speeds);
    Ok(counts)
}

/// A tick and the interval that contains its remainder by the day.
type Moment = (u32, u32);

/// Arc arrival with its input in a row's order, without a hold, the departure with its
/// interval; the arrival has its interval too. With every other interval the row must be
/// 46.
fn row(operations: &Operations) -> impl Fn(u32, &[u32], &[u8], Moment) -> Option<Moment> {
    let arc_arrival = operations.arc_arrival;
    move |length, fences, speeds, (departure, right)| {
        let reply = |interval| arc_arrival(departure, interval, length, 0, fences, speeds);
        let count = fences.len() as u32;
        for wrong in (0..=count).chain([u32::MAX]).filter(|&one| one != right) {
            assert_eq!(reply(wrong), Err(Refusal(46)));
        }
        let arrival = reply(right).expect("accepted")?;
        Some((arrival.tick, arrival.interval))
    }
}

#[test]
fn arcs() {
    for operations in BOTH {
        let arrival = row(&operations);
        assert_eq!(arrival(1, &[0], &[36], (0, 0)), Some((1, 0)));
        assert_eq!(arrival(1, &[0], &[35], (0, 0)), Some((2, 0)));
        assert_eq!(arrival(1, &[0], &[10], (0, 0)), Some((4, 0)));
        assert_eq!(arrival(1, &[0, 100], &[0, 36], (10, 0)), Some((101, 1)));
        assert_eq!(arrival(1, &[0, 100], &[36, 0], (99, 0)), Some((100, 1)));
        let next_day = Some((864_001, 0));
        assert_eq!(arrival(2, &[0, 100], &[36, 0], (99, 0)), next_day);
        let last = Some((1_728_000, 0));
        assert_eq!(arrival(1, &[0], &[1], (1_727_964, 0)), last);
        assert_eq!(arrival(1, &[0], &[1], (1_727_965, 0)), None);
    }
}

#[test]
fn arcs_across_midnight() {
    for operations in BOTH {
        let arrival = row(&operations);
        // One tick, the day's last; what comes after midnight does not matter.
        let evening = |speeds| arrival(1, &[0, 863_999], speeds, (863_999, 1));
        assert_eq!(evening(&[0, 36]), Some((864_000, 0)));
        assert_eq!(evening(&[200, 36]), Some((864_000, 0)));
        // 12 spans before midnight; the other 24 take three ticks at 8 after it.
        assert_eq!(evening(&[8, 12]), Some((864_003, 0)));
        // 18 spans in the last tick of each day make a metre, 17 do not.
        assert_eq!(evening(&[0, 18]), Some((1_728_000, 0)));
        assert_eq!(evening(&[0, 17]), None);
        // Standing until midnight, then a metre in each of the ticks up to the fence.
        let morning = |length, departure| arrival(length, &[0, 100], &[36, 0], departure);
        assert_eq!(morning(1, (863_999, 1)), Some((864_001, 0)));
        assert_eq!(morning(100, (100, 1)), Some((864_100, 1)));
        assert_eq!(morning(100, (863_999, 1)), Some((864_100, 1)));
        assert_eq!(morning(101, (100, 1)), None);
        // The last of these ticks on the first day, and all of them on the second.
        assert_eq!(morning(101, (99, 0)), Some((864_100, 1)));
    }
}

#[test]
fn arcs_on_the_second_day() {
    for operations in BOTH {
        let arrival = row(&operations);
        let metre =
            |fences: &[u32], speeds: &[u8], departure| arrival(1, fences, speeds, departure);
        // Midnight has remainder 0 and so the first interval's speed.
        let morning = [0, 100];
        let midnight = (864_000, 0);
        assert_eq!(metre(&morning, &[36, 0], midnight), Some((864_001, 0)));
        assert_eq!(metre(&morning, &[0, 36], midnight), Some((864_101, 1)));
        // On either side of the second day's fence, 864,100.
        let fence = (864_100, 1);
        assert_eq!(metre(&morning, &[36, 12], (864_099, 0)), Some(fence));
        assert_eq!(metre(&morning, &[36, 12], fence), Some((864_103, 1)));
        // The second day's last tick has the last interval's speed.
        let evening = [0, 863_999];
        let last = (1_728_000, 0);
        assert_eq!(metre(&[0], &[36], (1_727_999, 0)), Some(last));
        assert_eq!(metre(&evening, &[0, 36], (1_727_999, 1)), Some(last));
        assert_eq!(metre(&evening, &[200, 35], (1_727_999, 1)), None);
        // Nothing is driven after the last tick, whatever its remainder's speed.
        assert_eq!(metre(&[0], &[200], last), None);
        assert_eq!(metre(&evening, &[200, 0], last), None);
    }
}

#[test]
fn one_interval_met_twice() {
    for operations in BOTH {
        // Ten metres in the ten ticks from 1,000 of each day, else standing still.
        let row = row(&operations);
        let arrival = |length, departure| row(length, &[0, 1_000, 1_010], &[0, 36, 0], departure);
        // Ten on the first day, five on the second.
        assert_eq!(arrival(15, (0, 0)), Some((865_005, 1)));
        assert_eq!(arrival(15, (1_000, 1)), Some((865_005, 1)));
        // Five on the first day; the second day's ten end at the fence.
        assert_eq!(arrival(15, (1_005, 1)), Some((865_010, 2)));
        // Four on the first day are too few, and so is the second day alone.
        assert_eq!(arrival(15, (1_006, 1)), None);
        assert_eq!(arrival(15, (864_000, 0)), None);
        // Both days whole, and one metre more.
        assert_eq!(arrival(20, (1_000, 1)), Some((865_010, 2)));
        assert_eq!(arrival(20, (1_001, 1)), None);
        assert_eq!(arrival(21, (0, 0)), None);
    }
}

#[test]
fn arcs_of_the_town() {
    for operations in BOTH {
        let arrival = on_arc(&operations, &TOWN);
        assert_eq!(arrival(0, (10, 0)), Some((60, 0)));
        // The label 100 is on the fence.
        assert_eq!(arrival(1, (10, 0)), Some((100, 1)));
        assert_eq!(arrival(2, (60, 0)), Some((110, 1)));
    }
}

#[test]
fn arcs_of_document_004() {
    for operations in BOTH {
        let arrival = on_arc(&operations, &TABLE_1);
        // The route to d from 9,000, each arc left with what the one before gave back.
        assert_eq!(arrival(0, (9_000, 1)), Some((18_000, 3)));
        assert_eq!(arrival(2, (18_000, 3)), Some((26_000, 4)));
        assert_eq!(arrival(5, (26_000, 4)), Some((34_000, 5)));
        // The later ones, by b; the second is at d on the last fence.
        assert_eq!(arrival(1, (21_000, 3)), Some((31_000, 5)));
        assert_eq!(arrival(5, (31_000, 5)), Some((47_000, 7)));
        assert_eq!(arrival(1, (24_000, 4)), Some((32_000, 5)));
        assert_eq!(arrival(5, (32_000, 5)), Some((48_000, 8)));
        assert_eq!(arrival(1, (27_000, 4)), Some((34_000, 5)));
        assert_eq!(arrival(5, (34_000, 5)), Some((49_000, 8)));
    }
}

/// A row of one of the network's arcs.
fn on_arc(operations: &Operations, network: &Network) -> impl Fn(usize, Moment) -> Option<Moment> {
    let row = row(operations);
    move |arc, departure| {
        let length = network.lengths[arc];
        row(length, network.fences, network.arc_speeds(arc), departure)
    }
}

#[test]
fn labels_across_midnight() {
    let two_arcs = Network {
        junctions: 3,
        fences: &[0, 100],
        tails: &[0, 1],
        heads: &[1, 2],
        lengths: &[10, 1],
        holds: &[0; 2],
        speeds: &[1, 36, 12, 36],
    };
    // Over the first arc at 36 up to midnight, 864,000. From there the metre takes three
    // ticks at 12 in the first interval; in the last one it would take one at 36.
    let to_midnight = (two_arcs, 863_990, [863_990, 864_000, 864_003]);
    // A tick earlier the second arc's metre is still driven at 36.
    let before_midnight = (two_arcs, 863_989, [863_989, 863_999, 864_000]);
    // Standing until midnight, then ten metres up to the second day's fence. From there
    // the metre takes three ticks at 12; in the interval before it would take one at 36.
    let to_second_fence = Network {
        fences: &[0, 10],
        speeds: &[36, 0, 36, 12],
        ..two_arcs
    };
    let to_second_fence = (to_second_fence, 863_999, [863_999, 864_010, 864_013]);
    for operations in BOTH {
        for (network, departure, ticks) in [to_midnight, before_midnight, to_second_fence] {
            let expected = (ticks.to_vec(), vec![NO_ARC, 0, 1]);
            assert_eq!(labels(&operations, &network, departure), Ok(expected));
            let mut arcs = [7; 3];
            let count = (operations.route)(&network, &[], BRIGADE, 0, departure, 2, &mut arcs);
            assert_eq!((count, arcs), (Ok(2), [0, 1, 7]));
        }
    }
}

#[test]
fn the_town_at_midnight() {
    for operations in BOTH {
        // The labels that the paper's town has at 10, and 863,940 more.
        let expected = (vec![863_950, 864_000, 864_040], vec![NO_ARC, 0, 1]);
        assert_eq!(labels(&operations, &NIGHT_TOWN, 863_950), Ok(expected));
        // Up to the fence at 40 arc 0 covers 41 × 36 of its 1,800 spans; the other 324
        // take 18 ticks. Arc 2 goes on with 50, and is there before arc 1.
        let expected = (vec![863_999, 864_058, 864_108], vec![NO_ARC, 0, 2]);
        assert_eq!(labels(&operations, &NIGHT_TOWN, 863_999), Ok(expected));
        let text = NIGHT_TOWN_TEXT.as_bytes();
        assert_eq!((operations.host_question)(text, 0, 863_999, 2), 864_108);

        // From 863,940, too, arc 1 takes 90 ticks. From the fence at 40 on it takes 180,
        // and arcs 0 and 2 take 100 and 50.
        let departures = [863_950, 40, 863_940, 863_999];
        let mut rows = [7; 12];
        let mut figures = [7; 12];
        let buffers = (&mut rows[..], &mut figures[..]);
        let reply = (operations.sheet)(
            &NIGHT_TOWN,
            &[],
            DEPOT,
            0,
            &departures,
            buffers.0,
            buffers.1,
        );
        assert_eq!(reply, Ok(()));
        assert_eq!(rows[..3], [863_950, 864_000, 864_040]);
        assert_eq!(rows[3..6], [40, 140, 190]);
        assert_eq!(rows[6..9], [863_940, 863_990, 864_030]);
        assert_eq!(rows[9..], [863_999, 864_058, 864_108]);
        assert_eq!(figures, [4, 0, 0, 0, 4, 50, 100, 259, 4, 90, 150, 439]);
    }
    let run = ARRIVALS.run(format!("QU 0 863999\n{NIGHT_TOWN_TEXT}").as_bytes());
    let expected = "junction arrival arc\n0 863999 -\n1 864058 0\n2 864108 2\n";
    assert_eq!(run, Run::ended(expected, 0));
    let run = SHEET.run(format!("QU 0 863950 40 863940 863999\n{NIGHT_TOWN_TEXT}").as_bytes());
    let expected = "0 4 0 0 0\n1 4 50 100 259\n2 4 90 150 439\n";
    assert_eq!(run, Run::ended(expected, 0));
}

#[test]
fn the_town() {
    let counts = Counts {
        junctions: 3,
        intervals: 2,
        arcs: 3,
    };
    for operations in BOTH {
        let without_comment = TOWN_TEXT.replace("CM end of plan\n", "");
        for text in [TOWN_TEXT, &without_comment] {
            assert_eq!(load(&operations, text, TOWN.holds), Ok(counts));
        }
        let expected = (vec![10, 60, 100], vec![NO_ARC, 0, 1]);
        assert_eq!(labels(&operations, &TOWN, 10), Ok(expected));
        let text = TOWN_TEXT.as_bytes();
        assert_eq!((operations.name)(text, 0), b"Mill Cross");
        assert_eq!((operations.host_question)(text, 0, 10, 2), 100);
    }
}

#[test]
fn the_town_with_holds() {
    let counts = Counts {
        junctions: 3,
        intervals: 2,
        arcs: 3,
    };
    for operations in BOTH {
        let reply = load(&operations, HELD_TOWN_TEXT, HELD_TOWN.holds);
        assert_eq!(reply, Ok(counts));
        // Arc 1 is at the stop line at 100 and goes on at 1,300; arc 2 is there at 110
        // and goes on at 117.
        let expected = (vec![10, 60, 117], vec![NO_ARC, 0, 2]);
        assert_eq!(labels(&operations, &HELD_TOWN, 10), Ok(expected));
        let text = HELD_TOWN_TEXT.as_bytes();
        assert_eq!((operations.name)(text, 0), b"Mill Cross");
        assert_eq!((operations.name)(text, 1), b"");
        assert_eq!((operations.host_question)(text, 0, 10, 2), 117);
        // The longest hold alone.
        let text = HELD_TOWN_TEXT.replace("AR 1 2 50 36 36 7\n", "");
        assert_eq!((operations.host_question)(text.as_bytes(), 0, 10, 2), 1_300);
        let refused =
            (operations.host_question)(text.replace(" 1200", " 1201").as_bytes(), 0, 10, 2);
        assert_eq!(refused, REFUSED + 26);
    }
    let run = ARRIVALS.run(format!("QU 0 10\n{HELD_TOWN_TEXT}").as_bytes());
    let expected = "junction arrival arc\n0 10 -\n1 60 0\n2 117 2\n";
    assert_eq!(run, Run::ended(expected, 0));
    let run = SHEET.run(format!("QU 0 10 100\n{HELD_TOWN_TEXT}").as_bytes());
    let expected = "0 2 0 0 0\n1 2 50 100 150\n2 2 107 157 264\n";
    assert_eq!(run, Run::ended(expected, 0));
}

#[test]
fn the_town_with_closures() {
    let closure = |arc, first, end| of_party(BOTH_PARTIES, arc, first, end);
    // Up to the fence at 100 arc 1 loses 40 spans with each tick, and covers them at 20.
    // Arc 2 is at junction 2 at 110, if neither it nor arc 0 is closed.
    for (closures, expected) in [
        (&[][..], ([10, 60, 100], 1)),
        (&[closure(1, 15, 20)], ([10, 60, 110], 1)),
        (&[closure(1, 15, 21)], ([10, 60, 110], 2)),
        (&[closure(1, 0, 1_728_000)], ([10, 60, 110], 2)),
        (
            &[closure(1, 0, 1_728_000), closure(0, 50, 60)],
            ([10, 70, 120], 2),
        ),
        (
            &[closure(1, 0, 1_728_000), closure(2, 60, 70)],
            ([10, 60, 120], 2),
        ),
        // Closed at the label of 100 itself, and the same on another day.
        (&[closure(1, 100, 1_728_000)], ([10, 60, 100], 1)),
        (&[closure(1, 864_010, 864_100)], ([10, 60, 100], 1)),
        // 40 spans are left at 100, and take the ticks 200 and 201 at 20.
        (
            &[closure(0, 40, 60), closure(1, 10, 11), closure(1, 100, 200)],
            ([10, 80, 130], 2),
        ),
        (
            &[closure(2, 0, 300), closure(1, 10, 11), closure(1, 100, 200)],
            ([10, 60, 202], 1),
        ),
    ] {
        for asker in [BRIGADE, DEPOT] {
            assert_town_closed(closures, asker, expected);
        }
    }
}

/// The labels of the paper's town from 0 at 10, and junction 2's predecessor and route.
fn assert_town_closed(closures: &[Closure], asker: u32, (ticks, arc): ([u32; 3], u16)) {
    for operations in BOTH {
        let labels = closed_labels(&operations, &TOWN, closures, asker, 10);
        assert_eq!(labels, Ok((ticks.to_vec(), vec![NO_ARC, 0, arc])));
        let route = if arc == 1 { [1, 7, 7] } else { [0, 2, 7] };
        let mut arcs = [7; 3];
        let count = (operations.route)(&TOWN, closures, asker, 0, 10, 2, &mut arcs);
        assert_eq!((count, arcs), (Ok(u32::from(arc)), route));
    }
}

fn of_party(party: u32, arc: u32, first: u32, end: u32) -> Closure {
    Closure {
        arc,
        first,
        end,
        party,
    }
}

#[test]
fn the_town_with_parties() {
    // Arc 0 is closed to both for ten ticks, then to the depot for as many; arc 1 to the
    // brigade throughout.
    let closures = [
        of_party(DEPOT, 0, 60, 70),
        of_party(BRIGADE, 1, 0, 1_728_000),
        of_party(BOTH_PARTIES, 0, 50, 60),
    ];
    assert_town_closed(&closures, BRIGADE, ([10, 70, 120], 2));
    assert_town_closed(&closures, DEPOT, ([10, 80, 100], 1));
    assert_town_closed(&closures[..1], BRIGADE, ([10, 60, 100], 1));
    assert_town_closed(&closures[..2], BRIGADE, ([10, 60, 110], 2));
    assert_town_closed(&closures[1..], DEPOT, ([10, 70, 100], 1));
    for operations in BOTH {
        for (list, asker, refusal) in [
            (&closures[..], 0, 39),
            (&closures, 3, 39),
            (&[], 0, 39),
            (&[of_party(3, 0, 0, 1)], 1, 38),
            (&[of_party(3, 0, 0, 1)], 0, 38),
            (&[of_party(3, 0, 0, 1), of_party(0, 3, 0, 1)], 0, 37),
        ] {
            let reply = closed_labels(&operations, &TOWN, list, asker, 864_000);
            assert_eq!(reply, Err(Refusal(refusal)));
        }
    }
}

#[test]
fn the_town_in_both_forms() {
    let new = TOWN_TEXT.replace("TN", "TW").replace(" 18\n", " 18 0\n");
    let new = new
        .replace(" 40 20\n", " 40 20 0\n")
        .replace(" 36 36\n", " 36 36 0\n");
    for operations in BOTH {
        let converted = |converter: Converter, text: &str| {
            let mut output = [7; 200];
            let length = converter(text.as_bytes(), &mut output)?;
            assert!(output[length..].iter().all(|&byte| byte == 7));
            Ok(String::from_utf8_lossy(&output[..length]).into_owned())
        };
        assert_eq!(converted(operations.to_new, TOWN_TEXT), Ok(new.clone()));
        assert_eq!(converted(operations.to_old, &new), Ok(TOWN_TEXT.to_owned()));
        let refused = |number| {
            Err(LoadRefusal {
                refusal: Refusal(number),
                line: 0,
            })
        };
        assert_eq!(converted(operations.to_new, &new), refused(33));
        assert_eq!(converted(operations.to_old, TOWN_TEXT), refused(33));
        assert_eq!(converted(operations.to_old, HELD_TOWN_TEXT), refused(34));
    }
    assert_eq!(TO_NEW.run(TOWN_TEXT.as_bytes()), Run::ended(&new, 0));
    assert_eq!(TO_OLD.run(new.as_bytes()), Run::ended(TOWN_TEXT, 0));
}

#[test]
fn the_program() {
    let run = ARRIVALS.run(format!("QU 0 10\n{TOWN_TEXT}").as_bytes());
    let expected = "junction arrival arc\n0 10 -\n1 60 0\n2 100 1\n";
    assert_eq!(run, Run::ended(expected, 0));
}

/// The number of passes from junction 0, with the labels and predecessors.
fn passes(
    operations: &Operations,
    network: &Network,
    departure: u32,
) -> Result<(u32, Vec<u32>, Vec<u16>), Refusal> {
    let mut labels = vec![7; network.junctions as usize];
    let mut predecessors = vec![7; network.junctions as usize];
    let buffers = (&mut labels[..], &mut predecessors[..]);
    let number = (operations.passes)(network, &[], DEPOT, 0, departure, buffers.0, buffers.1)?;
    Ok((number, labels, predecessors))
}

#[test]
fn the_passes() {
    // The town with its arcs numbered from the last to the first.
    let reversed = Network {
        tails: &[1, 0, 0],
        heads: &[2, 2, 1],
        speeds: &[36, 36, 40, 20, 36, 18],
        ..TOWN
    };
    let held = Network {
        holds: &[7, 1_200, 0],
        ..reversed
    };
    for (network, number, tick, arcs) in [
        (&TOWN, 2, 100, [0, 1]),
        (&HELD_TOWN, 2, 117, [0, 2]),
        (&reversed, 2, 100, [2, 1]),
        // The second pass lowers what the first found by the long hold.
        (&held, 3, 117, [2, 0]),
    ] {
        let expected = (number, vec![10, 60, tick], vec![NO_ARC, arcs[0], arcs[1]]);
        for operations in BOTH {
            assert_eq!(passes(&operations, network, 10), Ok(expected.clone()));
            assert_eq!(passes(&operations, network, 864_000), Err(Refusal(10)));
        }
    }
}

#[test]
fn passes_of_document_004() {
    // With the arcs numbered from the last to the first, d is reached in as many passes as its
    // route has arcs.
    let mut tails = TABLE_1.tails.to_vec();
    let mut heads = TABLE_1.heads.to_vec();
    tails.reverse();
    heads.reverse();
    let speeds: Vec<u8> = (0..7)
        .rev()
        .flat_map(|arc| TABLE_1.arc_speeds(arc).to_vec())
        .collect();
    let reversed = Network {
        tails: &tails,
        heads: &heads,
        speeds: &speeds,
        ..TABLE_1
    };
    for operations in BOTH {
        for (departure, number) in [(9_000, 4), (21_000, 3), (24_000, 3), (27_000, 3)] {
            let (ticks, arcs) = labels(&operations, &TABLE_1, departure).expect("accepted");
            let expected = (2, ticks.clone(), arcs);
            assert_eq!(passes(&operations, &TABLE_1, departure), Ok(expected));
            let (found, reversed_ticks, _) =
                passes(&operations, &reversed, departure).expect("accepted");
            assert_eq!((found, reversed_ticks), (number, ticks));
        }
    }
}

/// Whether these are right from junction 0.
fn tables_check(
    operations: &Operations,
    network: &Network,
    departure: u32,
    labels: &[u32],
    predecessors: &[u16],
) -> Result<bool, Refusal> {
    (operations.tables_check)(network, &[], DEPOT, 0, departure, labels, predecessors)
}

/// The certificate is the reference's other way.
const ALL: [Operations; 3] = [
    CABINET,
    REFERENCE,
    Operations {
        tables_check: certificate_check,
        ..REFERENCE
    },
];

#[test]
fn the_tables() {
    let right = ([10, 60, 100], [NO_ARC, 0, 1]);
    for operations in ALL {
        let check = |network: &Network, labels: &[u32], predecessors: &[u16]| {
            tables_check(&operations, network, 10, labels, predecessors)
        };
        assert_eq!(check(&TOWN, &right.0, &right.1), Ok(true));
        for labels in [
            [9, 60, 100],
            [11, 60, 100],
            [10, 59, 100],
            [10, 61, 100],
            [10, 60, 99],
            [10, 60, 101],
            [10, 60, 110],
            [10, 60, UNREACHED],
            [UNREACHED, 60, 100],
        ] {
            assert_eq!(check(&TOWN, &labels, &right.1), Ok(false));
        }
        for predecessors in [
            [0, 0, 1],
            [NO_ARC, NO_ARC, 1],
            [NO_ARC, 1, 1],
            [NO_ARC, 0, 0],
            [NO_ARC, 0, 2],
            [NO_ARC, 0, 3],
            [NO_ARC, 0, NO_ARC - 1],
            [NO_ARC, 0, NO_ARC],
        ] {
            assert_eq!(check(&TOWN, &right.0, &predecessors), Ok(false));
        }
        // Arc 2 attains 110, but arc 1 is earlier there; with a hold it is not, or as early.
        let by_arc_2 = ([10, 60, 110], [NO_ARC, 0, 2]);
        for (hold, expected) in [
            (0, [false, false]),
            (9, [false, false]),
            (10, [true, true]),
            (11, [false, true]),
        ] {
            let network = Network {
                holds: &[0, hold, 0],
                ..TOWN
            };
            let by_either = [right.1, by_arc_2.1];
            let found = by_either.map(|arcs| check(&network, &by_arc_2.0, &arcs));
            assert_eq!(found, expected.map(Ok));
        }
        assert_eq!(check(&HELD_TOWN, &[10, 60, 117], &by_arc_2.1), Ok(true));
        assert_eq!(check(&HELD_TOWN, &[10, 60, 110], &by_arc_2.1), Ok(false));
        let refused = tables_check(&operations, &TOWN, 864_000, &right.0, &right.1[1..]);
        assert_eq!(refused, Err(Refusal(10)));
        assert_eq!(check(&TOWN, &right.0, &right.1[1..]), Err(Refusal(11)));
        assert_eq!(check(&TOWN, &right.0[1..], &right.1), Err(Refusal(11)));
    }
}

#[test]
fn tables_of_document_004() {
    for operations in ALL {
        let ticks = [9_000, 18_000, 26_000, 27_000, 34_000];
        let check = |labels: &[u32], predecessors: &[u16]| {
            tables_check(&operations, &TABLE_1, 9_000, labels, predecessors)
        };
        assert_eq!(check(&ticks, &[NO_ARC, 0, 2, 3, 5]), Ok(true));
        // By o-b, by b-c, and by c-d.
        assert_eq!(check(&ticks, &[NO_ARC, 0, 1, 3, 5]), Ok(false));
        assert_eq!(check(&ticks, &[NO_ARC, 0, 2, 4, 5]), Ok(false));
        assert_eq!(check(&ticks, &[NO_ARC, 0, 2, 3, 6]), Ok(false));
        for departure in [21_000, 24_000, 27_000] {
            let (labels, arcs) = labels(&operations, &TABLE_1, departure).expect("accepted");
            let check = |departure| tables_check(&operations, &TABLE_1, departure, &labels, &arcs);
            assert_eq!(check(departure), Ok(true));
            assert_eq!(check(departure - 1), Ok(false));
            assert_eq!(check(departure + 1), Ok(false));
        }
    }
}

#[test]
fn the_sheet() {
    for operations in BOTH {
        let mut labels = [7; 20];
        let mut figures = [7; 20];
        let departures = [27_000, 9_000, 24_000, 21_000];
        let buffers = (&mut labels[..], &mut figures[..]);
        let reply =
            (operations.sheet)(&TABLE_1, &[], BRIGADE, 0, &departures, buffers.0, buffers.1);
        assert_eq!(reply, Ok(()));
        assert_eq!(labels[5..10], [9_000, 18_000, 26_000, 27_000, 34_000]);
        assert_eq!(
            [labels[4], labels[14], labels[19]],
            [49_000, 48_000, 47_000]
        );
        assert_eq!(figures[..4], [4, 0, 0, 0]);
        assert_eq!(figures[16..], [4, 22_000, 26_000, 97_000]);
    }
    let run = SHEET.run(format!("QU 0 10 10\n{TOWN_TEXT}").as_bytes());
    let expected = "0 2 0 0 0\n1 2 50 50 100\n2 2 90 90 180\n";
    assert_eq!(run, Run::ended(expected, 0));
}

#[test]
fn the_empty_text() {
    let missing = LoadRefusal {
        refusal: Refusal(27),
        line: 1,
    };
    for operations in BOTH {
        assert_eq!(load(&operations, "", &[]), Err(missing));
        assert_eq!((operations.host_question)(b"", 0, 10, 2), REFUSED + 27);
    }
}

#[test]
fn limits() {
    for operations in BOTH {
        let check = |length, speed| {
            (operations.network_check)(&Network {
                lengths: &[50, 100, length],
                speeds: &[36, 18, 40, 20, 36, speed],
                ..TOWN
            })
        };
        assert_eq!(check(100_000, 200), Ok(()));
        assert_eq!(check(100_001, 200), Err(Refusal(7)));
        assert_eq!(check(100_000, 201), Err(Refusal(8)));

        let arrival = |length, speed| (operations.arc_arrival)(0, 0, length, 0, &[0], &[speed]);
        let in_time = Arrival {
            tick: 18_000,
            interval: 0,
        };
        assert_eq!(arrival(100_000, 200), Ok(Some(in_time)));
        assert_eq!(arrival(100_001, 200), Err(Refusal(7)));
        assert_eq!(arrival(100_000, 201), Err(Refusal(8)));

        assert!(labels(&operations, &TOWN, 863_999).is_ok());
        assert_eq!(labels(&operations, &TOWN, 864_000), Err(Refusal(10)));
    }
}

#[test]
fn document_004() {
    for operations in BOTH {
        let arrivals = |departure| {
            let (labels, _) = labels(&operations, &TABLE_1, departure).expect("accepted");
            labels
        };
        let route = |departure| {
            let mut arcs = [7; 5];
            let count = (operations.route)(&TABLE_1, &[], BRIGADE, 0, departure, 4, &mut arcs);
            arcs[..count.expect("accepted") as usize].to_vec()
        };
        assert_eq!(arrivals(9_000), [9_000, 18_000, 26_000, 27_000, 34_000]);
        assert_eq!(route(9_000), [0, 2, 5]);
        for (departure, arrival) in [(21_000, 47_000), (24_000, 48_000), (27_000, 49_000)] {
            assert_eq!(arrivals(departure)[4], arrival);
            assert_eq!(route(departure), [1, 5]);
        }
    }
}
