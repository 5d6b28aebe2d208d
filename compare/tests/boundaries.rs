//! The programs' size limit, midnight and the last tick, an arc's intervals, holds,
//! closures and their parties, passes, tables that are sent, a sheet's list and buffers,
//! week lists and their stores, and towns of fixed size.

#[path = "boundaries/closures.rs"]
mod closures;
#[path = "boundaries/holds.rs"]
mod holds;
#[path = "boundaries/intervals.rs"]
mod intervals;
#[path = "boundaries/parties.rs"]
mod parties;
#[path = "boundaries/passes.rs"]
mod passes;
#[path = "boundaries/tables.rs"]
mod tables;
#[path = "boundaries/week.rs"]
mod week;

use compare::cabinet;
use compare::comparison::answers::{self, TableLengths};
use compare::comparison::program::{ARRIVALS, Program, Run, SHEET};
use compare::comparison::{Difference, Outcome};
use compare::inputs::OwnedNetwork;
use compare::inputs::networks::LoneArc;
use compare::inputs::texts::{FORMS, pad, question_line, town_text};
use compare::inputs::towns::{ASKER, DEPARTURE, EVENING, SOURCE, Town, departures};
use compare::reference::limits::{DAY, MAX_TEXT, NO_ARC, REFUSED, UNREACHED};
use compare::reference::{Closure, Form, Refusal};

#[test]
fn program_input() {
    for (program, printed) in [
        (&ARRIVALS, "junction arrival arc\n0 0 -\n1 - -\n"),
        (&SHEET, "0 1 0 0 0\n1 0 0 0 0\n"),
    ] {
        let answer = Run::ended(printed, 0);
        let mut input = b"QU 0 0\nTN 2 1\nFN 0\n".to_vec();
        assert_eq!(program.run(&input), answer);
        pad(&mut input, 65_536);
        assert_eq!(program.run(&input), answer);
        input.push(b'X');
        assert_refused(program, &input, "20 line 0");
        assert_refused(program, b"", "25 line 0");
        assert_refused(program, b"QU 0 0", "25 line 0");
        assert_refused(program, b"QU 0 0\n", "27 line 1");
        assert_refused(program, b"QU 2 864000\nTN 2 1\nFN\n", "25 line 2");
        assert_refused(program, b"QU 2 864000\nTN 2 1\nFN 0\n", "9 line 0");
        assert_refused(program, b"QU 1 864000\nTN 2 1\nFN 0\n", "10 line 0");
    }
}

fn assert_refused(program: &Program, input: &[u8], refusal: &str) {
    let refused = format!("refused {refusal}\n");
    assert_eq!(program.run(input), Run::ended(&refused, 1));
}

#[test]
fn sheet_program_line() {
    const TOWN: &str = "TN 2 1\nFN 0\n";
    let refused = |question: &str, refusal| {
        let input = format!("{question}{TOWN}");
        assert_refused(&SHEET, input.as_bytes(), refusal);
    };
    for question in ["QU\n", "QU \n", "QU 1 \n", "QU 1 0 \n", "QU 1 0", "QU1\n"] {
        refused(question, "25 line 0");
    }
    refused("QU 1\n", "30 line 0");
    refused("QU 2\n", "9 line 0");
    refused("QU 9999999 9999999\n", "9 line 0");
    refused("QU 10000000 0\n", "25 line 0");
    refused("QU 1 10000000\n", "25 line 0");
    assert_refused(&SHEET, b"QU 1\nTN 2 1\nFN 1\n", "26 line 2");

    // The limit on a town file's line does not hold for the question's.
    for (count, refusal) in [(96, "10 line 0"), (97, "30 line 0"), (8_000, "30 line 0")] {
        let list = " 9999999".repeat(count);
        refused(&format!("QU 1{list}\n"), refusal);
        refused(&format!("QU 2{list}\n"), "9 line 0");
        refused(&format!("QU 1{list} \n"), "25 line 0");
        refused(&format!("QU 1{list} 00\n"), "25 line 0");
    }
    for count in [95, 96] {
        let input = format!("QU 1{}\n{TOWN}", " 863999".repeat(count));
        let printed = format!("0 0 0 0 0\n1 {count} 0 0 0\n");
        assert_eq!(SHEET.run(input.as_bytes()), Run::ended(&printed, 0));
    }
    let zeros = (65_536 - "QU 1\n".len() - TOWN.len()) / 2;
    let longest = format!("QU 1{}\n", " 0".repeat(zeros));
    assert_eq!(longest.len() + TOWN.len(), 65_535);
    refused(&longest, "30 line 0");
    refused(&longest.replacen(" 0", " 10", 1), "30 line 0");
    refused(&longest.replacen(" 0", " 100", 1), "20 line 0");
}

#[test]
fn last_tick() {
    // The second arc takes 864,000 ticks, the first as many as it has metres.
    let network = |length| OwnedNetwork {
        junctions: 4,
        fences: vec![0],
        tails: vec![0, 1, 2],
        heads: vec![1, 2, 3],
        lengths: vec![length, 24_000, 1],
        holds: vec![0; 3],
        speeds: vec![36, 1, 200],
    };
    let in_time = [863_999, 864_000, 1_728_000, UNREACHED];
    let too_late = [863_999, 864_001, UNREACHED, UNREACHED];
    for (length, expected) in [(1, in_time), (2, too_late)] {
        let network = network(length);
        let mut labels = [0; 4];
        let mut predecessors = [0; 4];
        let reply = cabinet::labels(
            &network.lent(),
            &[],
            ASKER,
            0,
            863_999,
            &mut labels,
            &mut predecessors,
        );
        assert_eq!(reply, Ok(()));
        assert_eq!(labels, expected);

        let unreached = REFUSED + 13;
        for form in FORMS {
            let text = town_text(&network, form, &[]);
            let answer = cabinet::host_question(&text, 0, 863_999, 2);
            assert_eq!(answer, expected[2].min(unreached));
        }
        let route = cabinet::route(&network.lent(), &[], ASKER, 0, 863_999, 2, &mut [0; 2]);
        assert_eq!(route.is_ok(), expected[2] != UNREACHED);
    }
}

/// The number on which both agree, 0 for an answer.
fn number(outcome: Result<Outcome, Difference>) -> u32 {
    match outcome {
        Ok(Outcome::Refused(Refusal(number))) => number,
        Ok(_) => 0,
        Err(difference) => panic!("{difference}"),
    }
}

/// A tick and the interval that contains its remainder by the day.
type Moment = (u32, u32);

fn lone_arc(length: u32, hold: u32, fences: &[u32], speeds: &[u8]) -> LoneArc {
    LoneArc {
        length,
        hold,
        fences: fences.to_vec(),
        speeds: speeds.to_vec(),
    }
}

/// The number of Arc arrival on which both agree, 0 for an answer.
fn arc_number(arc: &LoneArc, (departure, interval): Moment) -> u32 {
    number(answers::arc_arrival(arc, departure, interval))
}

/// The arrival on which both agree, for a departure; `None` where the arc cannot be
/// driven.
fn arrival_on(arc: &LoneArc, departure: Moment) -> Option<Moment> {
    assert_eq!(arc_number(arc, departure), 0);
    let (tick, interval) = departure;
    let (fences, speeds) = (&arc.fences, &arc.speeds);
    let reply = cabinet::arc_arrival(tick, interval, arc.length, arc.hold, fences, speeds);
    let arrival = reply.expect("accepted")?;
    Some((arrival.tick, arrival.interval))
}

/// The arrival on an arc without a hold.
fn arrival(departure: Moment, length: u32, fences: &[u32], speeds: &[u8]) -> Option<Moment> {
    arrival_on(&lone_arc(length, 0, fences, speeds), departure)
}

#[test]
fn both_sides_of_midnight() {
    // A metre in each of a day's first two ticks and a third of one in each of its last
    // two; standing still between them.
    let metre = |departure, interval| {
        let fences = [0, 2, 863_998];
        arrival((departure, interval), 1, &fences, &[36, 0, 12])
    };
    assert_eq!(metre(0, 0), Some((1, 0)));
    assert_eq!(metre(1, 0), Some((2, 1)));
    // One or two thirds before midnight, or none: the first tick after it is needed.
    let after_midnight = Some((864_001, 0));
    for departure in [2, 3, 863_997] {
        assert_eq!(metre(departure, 1), after_midnight);
    }
    for departure in [863_998, 863_999] {
        assert_eq!(metre(departure, 2), after_midnight);
    }
    assert_eq!(metre(864_000, 0), after_midnight);
    assert_eq!(metre(864_001, 0), Some((864_002, 1)));
    // Two thirds up to the last tick, where the second day ends.
    for (departure, interval) in [
        (864_002, 1),
        (864_003, 1),
        (1_727_998, 2),
        (1_727_999, 2),
        (1_728_000, 0),
    ] {
        assert_eq!(metre(departure, interval), None);
    }
    let late = arc_number(&lone_arc(1, 0, &[0], &[200]), (1_728_001, 0));
    assert_eq!(late, 15);
}

#[test]
fn most_intervals_around_midnight() {
    // 95 intervals of a tick at speed 1 end the day, after one that stands still.
    let fences: Vec<u32> = [0].into_iter().chain(863_905..864_000).collect();
    let speeds = [vec![0], vec![1; 95]].concat();
    let evening = |departure, length| arrival(departure, length, &fences, &speeds);
    // 36 spans in the first evening.
    assert_eq!(evening((0, 0), 1), Some((863_941, 37)));
    // 180 spans: 95 in the first evening, and 85 in the second.
    assert_eq!(evening((0, 0), 5), Some((1_727_990, 86)));
    // Ten of the first 95 may be missed, but not eleven.
    assert_eq!(evening((863_915, 11), 5), Some((1_728_000, 0)));
    assert_eq!(evening((863_916, 12), 5), None);
    assert_eq!(evening((0, 0), 6), None);

    // The same at the start of the day, before one that stands still.
    let fences: Vec<u32> = (0..96).collect();
    let speeds = [vec![1; 95], vec![0]].concat();
    let morning = |departure, length| arrival(departure, length, &fences, &speeds);
    assert_eq!(morning((0, 0), 5), Some((864_085, 85)));
    assert_eq!(morning((10, 10), 5), Some((864_095, 95)));
    assert_eq!(morning((11, 11), 5), None);
    assert_eq!(morning((863_999, 95), 1), Some((864_036, 36)));
    assert_eq!(morning((864_059, 59), 1), Some((864_095, 95)));
    assert_eq!(morning((864_060, 60), 1), None);
}

#[test]
fn walk_across_midnight() {
    // A metre from each junction to the next: a tick before midnight, two after it.
    let network = OwnedNetwork {
        junctions: 200,
        fences: vec![0, 863_000],
        tails: (0..199).collect(),
        heads: (1..200).collect(),
        lengths: vec![1; 199],
        holds: vec![0; 199],
        speeds: [18, 36].repeat(199),
    };
    // Junction 100 is reached at midnight itself, and left in the first interval.
    let before = 863_900..864_000;
    let after = (864_000..).step_by(2);
    let expected: Vec<u32> = before.chain(after).take(200).collect();
    assert_eq!(labels(&network, 863_900).0[..], expected);
    assert_answered([answers::route(&network, &[], ASKER, (0, 863_900), 199, 199)]);
}

#[test]
fn equal_arrivals_after_midnight() {
    // Arcs 0 and 1 into junction 2 stand still from tick 100 to midnight, and whoever
    // leaves them meanwhile arrives at 864,001; the lower number counts.
    let network = OwnedNetwork {
        junctions: 3,
        fences: vec![0, 100],
        tails: vec![1, 0, 0],
        heads: vec![2, 2, 1],
        lengths: vec![1; 3],
        holds: vec![0; 3],
        speeds: vec![36, 0, 36, 0, 36, 36],
    };
    for (departure, expected, predecessor) in [
        (98, [98, 99, 99], 1),
        (99, [99, 100, 100], 1),
        (100, [100, 101, 864_001], 0),
        (863_999, [863_999, 864_000, 864_001], 0),
    ] {
        let (ticks, predecessors) = labels(&network, departure);
        assert_eq!(ticks, expected);
        assert_eq!(predecessors, [NO_ARC, 2, predecessor]);
    }
}

fn sheet_number(
    network: &OwnedNetwork,
    source: u32,
    departures: &[u32],
    buffers: (usize, usize),
) -> u32 {
    number(answers::sheet(
        network,
        &[],
        ASKER,
        source,
        departures,
        buffers,
    ))
}

/// The numbers of Labels, Passes and the tables check, Route and Sheet from 9 on, each alone and
/// with all later ones, on a town of ten junctions that is refused with the number before them,
/// or with none.
fn assert_numbers_after(network: &OwnedNetwork, closures: &[Closure], asker: u32, before: u32) {
    let expect = |number| if before == 0 { number } else { before };
    let labels = |start, buffers| number(answers::labels(network, closures, asker, start, buffers));
    assert_eq!(labels((9, 0), (10, 10)), before);
    assert_eq!(labels((10, 0), (10, 10)), expect(9));
    assert_eq!(labels((10, 864_000), (9, 11)), expect(9));
    assert_eq!(labels((9, 864_000), (10, 10)), expect(10));
    assert_eq!(labels((9, 864_000), (9, 11)), expect(10));
    assert_eq!(labels((9, 0), (9, 10)), expect(11));
    assert_eq!(labels((9, 0), (10, 11)), expect(11));

    let route = |start, destination, list| {
        number(answers::route(
            network,
            closures,
            asker,
            start,
            destination,
            list,
        ))
    };
    assert_eq!(route((9, 0), 0, 10), before);
    assert_eq!(route((10, 0), 0, 10), expect(9));
    assert_eq!(route((10, 864_000), 10, 0), expect(9));
    assert_eq!(route((9, 864_000), 10, 0), expect(10));
    assert_eq!(route((9, 0), 10, 0), expect(12));
    assert_eq!(route((9, 0), 0, 0), expect(14));

    let sheet = |source, departures: &[u32], buffers| {
        number(answers::sheet(
            network, closures, asker, source, departures, buffers,
        ))
    };
    assert_eq!(sheet(9, &[0], (10, 40)), before);
    assert_eq!(sheet(10, &[0], (10, 40)), expect(9));
    assert_eq!(sheet(10, &[], (1, 41)), expect(9));
    assert_eq!(sheet(9, &[], (1, 41)), expect(30));
    assert_eq!(sheet(9, &[864_000; 97], (1, 41)), expect(30));
    assert_eq!(sheet(9, &[864_000], (11, 41)), expect(10));
    assert_eq!(sheet(9, &[0], (11, 40)), expect(31));
    assert_eq!(sheet(9, &[0], (10, 39)), expect(31));
}

/// A town of ten junctions.
fn small_town() -> OwnedNetwork {
    Town::named("small").expect("it has this name").network
}

#[test]
fn sheet_lists() {
    let network = small_town();
    let reply = |source, departures: &[u32]| {
        sheet_number(&network, source, departures, (10 * departures.len(), 40))
    };
    for (count, number) in [
        (0, 30),
        (1, 0),
        (2, 0),
        (95, 0),
        (96, 0),
        (97, 30),
        (200, 30),
    ] {
        let mut departures = vec![863_999; count];
        assert_eq!(reply(9, &departures), number);
        assert_eq!(reply(10, &departures), 9);
        for place in 0..count {
            for late in [864_000, u32::MAX] {
                departures[place] = late;
                assert_eq!(reply(9, &departures), number.max(10));
            }
            departures[place] = 863_999;
        }
    }
}

#[test]
fn sheet_buffers() {
    let network = small_town();
    for count in [1, 2, 9, 96] {
        let mut departures = vec![DEPARTURE; count];
        let rows = 10 * count;
        assert_eq!(sheet_number(&network, 0, &departures, (rows, 40)), 0);
        let wrong = [
            (rows - 1, 40),
            (rows + 1, 40),
            (rows - 10, 40),
            (rows + 10, 40),
            (0, 40),
            (rows, 39),
            (rows, 41),
            (rows, 36),
            (rows, 44),
            (rows, 10),
            (rows, 4 * count),
            (rows, 0),
            (40, rows),
            (rows - 1, 41),
            (rows + 1, 39),
        ];
        for buffers in wrong {
            assert_eq!(sheet_number(&network, 0, &departures, buffers), 31);
            assert_eq!(sheet_number(&network, 10, &departures, buffers), 9);
            assert_eq!(sheet_number(&network, 0, &[], buffers), 30);
        }
        departures[count - 1] = 864_000;
        for buffers in wrong {
            assert_eq!(sheet_number(&network, 0, &departures, buffers), 10);
        }
    }
}

#[test]
fn longest_journeys() {
    // From 0 every other junction is reached at the last tick, from 1 on none.
    let network = OwnedNetwork {
        junctions: 200,
        fences: vec![0],
        tails: vec![0; 199],
        heads: (1..200).collect(),
        lengths: vec![48_000; 199],
        holds: vec![0; 199],
        speeds: vec![1; 199],
    };
    for late in [0, 1, 95, 96] {
        let departures = [vec![0; 96 - late], vec![1; late]].concat();
        let mut labels = vec![7; 96 * 200];
        let mut figures = vec![7; 4 * 200];
        let reply = cabinet::sheet(
            &network.lent(),
            &[],
            ASKER,
            0,
            &departures,
            &mut labels,
            &mut figures,
        );
        assert_eq!(reply, Ok(()));
        let reached = 96 - late as u32;
        let longest = 1_728_000 * reached.min(1);
        assert_eq!(figures[..4], [96, 0, 0, 0]);
        for figures in figures[4..].chunks(4) {
            assert_eq!(figures, [reached, longest, longest, 1_728_000 * reached]);
        }
        assert_answered([answers::sheet(
            &network,
            &[],
            ASKER,
            0,
            &departures,
            (96 * 200, 4 * 200),
        )]);
        for form in FORMS {
            let town = town_text(&network, form, &[]);
            let input = [question_line(0, &departures), town].concat();
            assert_answered([answers::program(&SHEET, &input)]);
        }
    }
}

#[test]
fn towns_of_fixed_size() {
    for town in Town::NAMES.into_iter().filter_map(Town::named) {
        assert_town_answered(&town, Form::Old);
        assert_town_answered(&town.with_holds(), Form::New);
    }
}

fn assert_town_answered(town: &Town, form: Form) {
    assert_network_answered(town);
    if town.text.len() <= MAX_TEXT {
        assert_text_answered(town, form);
    }
}

fn assert_network_answered(town: &Town) {
    let network = &town.network;
    let junctions = network.junctions as usize;
    assert_answered([answers::network_check(network)]);
    for start in [(SOURCE, DEPARTURE), (SOURCE, EVENING)] {
        assert_answered([
            answers::labels(network, &[], ASKER, start, (junctions, junctions)),
            answers::route(network, &[], ASKER, start, town.destination(), junctions),
        ]);
    }
    let buffers = (96 * junctions, 4 * junctions);
    let departures = departures();
    let sheet = answers::sheet(network, &[], ASKER, SOURCE, &departures, buffers);
    assert_answered([sheet]);
}

fn assert_text_answered(town: &Town, form: Form) {
    let network = &town.network;
    let exact = TableLengths::exact(network.fences.len(), network.arcs());
    // Without names there is room for the question.
    let sheet_input = [
        question_line(SOURCE, &departures()),
        town_text(network, form, &[]),
    ]
    .concat();
    assert_answered([
        answers::load(&town.text, exact),
        answers::name(&town.text, town.destination()),
        answers::host_question(&town.text, (SOURCE, DEPARTURE), town.destination()),
        answers::host_question(&town.text, (SOURCE, EVENING), town.destination()),
        answers::program(&SHEET, &sheet_input),
    ]);
}

#[test]
fn evenings_in_towns_of_fixed_size() {
    for town in Town::NAMES.into_iter().filter_map(Town::named) {
        let network = town.network.lent();
        let mut labels = vec![0; network.junctions as usize];
        let mut predecessors = vec![0; network.junctions as usize];
        let reply = cabinet::labels(
            &network,
            &[],
            ASKER,
            SOURCE,
            EVENING,
            &mut labels,
            &mut predecessors,
        );
        assert_eq!(reply, Ok(()));
        let after_midnight = labels
            .iter()
            .filter(|&label| (DAY..UNREACHED).contains(label))
            .count();
        assert!(2 * after_midnight > labels.len(), "{}", town.name);
    }
}

/// Labels and predecessors from junction 0, on which both agree.
fn labels(network: &OwnedNetwork, departure: u32) -> (Vec<u32>, Vec<u16>) {
    closed_labels(network, &[], ASKER, departure)
}

/// The same with closures, for one who asks.
fn closed_labels(
    network: &OwnedNetwork,
    closures: &[Closure],
    asker: u32,
    departure: u32,
) -> (Vec<u32>, Vec<u16>) {
    let junctions = network.junctions as usize;
    assert_answered([answers::labels(
        network,
        closures,
        asker,
        (0, departure),
        (junctions, junctions),
    )]);
    let mut labels = vec![7; junctions];
    let mut predecessors = vec![7; junctions];
    let reply = cabinet::labels(
        &network.lent(),
        closures,
        asker,
        0,
        departure,
        &mut labels,
        &mut predecessors,
    );
    assert_eq!(reply, Ok(()));
    (labels, predecessors)
}

fn assert_answered<const N: usize>(outcomes: [Result<Outcome, Difference>; N]) {
    for outcome in outcomes {
        match outcome {
            Ok(outcome) => assert_eq!(outcome, Outcome::Answered),
            Err(difference) => panic!("{difference}"),
        }
    }
}
