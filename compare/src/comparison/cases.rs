//! Random questions for each operation, many of them to be refused.

mod week;

pub use week::{WEEK_CHANGE, WEEK_NEW, WEEK_PLAN};

use super::answers::{self, TableLengths};
use super::program::{self, Program};
use super::{Check, Difference, Outcome};
use crate::inputs::closures::{random_asker, random_closures};
use crate::inputs::damage::{
    damage_closures, damage_fences, damage_network, damage_text, replace_one, unknown_asker,
};
use crate::inputs::networks::{
    LoneArc, interval_at, random_arc, random_arc_departure, random_departure, random_departures,
    random_network, random_path,
};
use crate::inputs::tables::Question;
use crate::inputs::texts::{pad, question_line, random_town, random_town_of};
use crate::inputs::{OwnedNetwork, Random};
use crate::reference::limits::{
    DAY, FIGURES, LAST_TICK, MAX_ARCS, MAX_DEPARTURES, MAX_INTERVALS, MAX_LENGTH, MAX_SPEED,
    MAX_TEXT,
};
use crate::reference::{self, Closure, Form};

pub const NETWORK_CHECK: Check = Check {
    name: "network check",
    cases: 40_000,
    run: network_check,
    finds_nothing: false,
    refuses: &[1..=8, 32..=32],
};

pub const ARC_ARRIVAL: Check = Check {
    name: "arc arrival",
    cases: 200_000,
    run: arc_arrival,
    finds_nothing: true,
    refuses: &[2..=2, 4..=5, 7..=8, 15..=15, 32..=32, 46..=46],
};

pub const LABELS: Check = Check {
    name: "labels, passes and tables check",
    cases: 40_000,
    run: labels,
    finds_nothing: false,
    refuses: &[1..=11, 32..=32, 36..=39],
};

/// Finds nothing where it says no.
pub const TABLES_CHECK: Check = Check {
    name: "tables check",
    cases: 30_000,
    run: tables_check,
    finds_nothing: true,
    refuses: &[1..=11, 32..=32, 36..=39],
};

pub const ROUTE: Check = Check {
    name: "route",
    cases: 40_000,
    run: route,
    finds_nothing: false,
    refuses: &[1..=10, 12..=14, 32..=32, 36..=39],
};

pub const SHEET: Check = Check {
    name: "sheet",
    cases: 20_000,
    run: sheet,
    finds_nothing: false,
    refuses: &[1..=10, 30..=32, 36..=39],
};

pub const LOAD: Check = Check {
    name: "load",
    cases: 30_000,
    run: load,
    finds_nothing: false,
    refuses: &[20..=28],
};

pub const NAME: Check = Check {
    name: "name",
    cases: 15_000,
    run: name,
    finds_nothing: true,
    refuses: &[],
};

pub const HOST_QUESTION: Check = Check {
    name: "host question",
    cases: 15_000,
    run: host_question,
    finds_nothing: false,
    refuses: &[9..=10, 12..=13, 20..=27],
};

pub const ARRIVALS: Check = Check {
    name: "program arrivals",
    cases: 1_000,
    run: arrivals,
    finds_nothing: false,
    refuses: &[9..=10, 20..=27],
};

pub const SHEET_PROGRAM: Check = Check {
    name: "program sheet",
    cases: 1_000,
    run: sheet_program,
    finds_nothing: false,
    refuses: &[9..=10, 20..=27, 30..=30],
};

pub const TO_NEW: Check = Check {
    name: "to new",
    cases: 15_000,
    run: to_new,
    finds_nothing: false,
    refuses: &[20..=27, 33..=33, 35..=35],
};

pub const TO_OLD: Check = Check {
    name: "to old",
    cases: 15_000,
    run: to_old,
    finds_nothing: false,
    refuses: &[20..=27, 33..=35],
};

pub const TO_NEW_PROGRAM: Check = Check {
    name: "program to_new",
    cases: 1_000,
    run: to_new_program,
    finds_nothing: false,
    refuses: &[20..=27, 33..=33, 35..=35],
};

/// Its output takes every result.
pub const TO_OLD_PROGRAM: Check = Check {
    name: "program to_old",
    cases: 1_000,
    run: to_old_program,
    finds_nothing: false,
    refuses: &[20..=27, 33..=34],
};

fn network_check(random: &mut Random) -> Result<Outcome, Difference> {
    let mut network = random_network(random);
    if !random.one_in(4) {
        damage_network(random, &mut network);
    }
    answers::network_check(&network)
}

fn arc_arrival(random: &mut Random) -> Result<Outcome, Difference> {
    let mut arc = random_arc(random);
    let mut departure = random_arc_departure(random, &arc.fences);
    for _ in 0..random.below(3) {
        let LoneArc {
            length,
            hold,
            fences,
            speeds,
        } = &mut arc;
        match random.below(9) {
            0 => fences.resize(random.pick(&[0, MAX_INTERVALS + 1]), DAY - 1),
            1 => speeds.push(1),
            2 => drop(speeds.pop()),
            3 => damage_fences(random, fences),
            4 => *length = random.pick(&[0, 1, MAX_LENGTH, MAX_LENGTH + 1, u32::MAX]),
            5 => replace_one(random, speeds, &[MAX_SPEED, MAX_SPEED + 1, u8::MAX]),
            6 => *hold = random.pick(&LONG_HOLDS),
            7 => departure = random.pick(&[LAST_TICK - 1, LAST_TICK]),
            _ => departure = random.pick(&[LAST_TICK + 1, u32::MAX]),
        }
    }
    let interval = random_interval(random, departure, &arc.fences);
    answers::arc_arrival(&arc, departure, interval)
}

fn labels(random: &mut Random) -> Result<Outcome, Difference> {
    let mut network = random_network_or_path(random);
    let start = random_start(random, &network);
    if random.one_in(4) {
        // So that there are many passes.
        network = network.against_the_way(start.0 % network.junctions, start.1 % DAY);
    }
    let (closures, asker) = random_closures_and_asker(random, &network, start);
    let junctions = network.junctions as usize;
    let mut buffers = (junctions, junctions);
    if random.one_in(8) {
        buffers = (near(random, junctions), near(random, junctions));
    }
    if random.one_in(4) {
        damage_network(random, &mut network);
    }
    answers::labels(&network, &closures, asker, start, buffers)
}

fn random_network_or_path(random: &mut Random) -> OwnedNetwork {
    if random.one_in(8) {
        random_path(random)
    } else {
        random_network(random)
    }
}

fn tables_check(random: &mut Random) -> Result<Outcome, Difference> {
    let network = random_network_or_path(random);
    let start = random_start(random, &network);
    let (closures, asker) = random_closures_and_asker(random, &network, start);
    let mut question = Question {
        network,
        closures,
        asker,
        source: start.0,
        departure: start.1,
    };
    let (mut labels, mut predecessors) = question.random_tables(random);
    if random.one_in(8) {
        labels.resize(near(random, labels.len()), DAY);
        predecessors.resize(near(random, predecessors.len()), 0);
    }
    if random.one_in(4) {
        damage_network(random, &mut question.network);
    }
    let Question {
        network, closures, ..
    } = question;
    answers::tables_check(&network, &closures, asker, start, (&labels, &predecessors))
}

fn route(random: &mut Random) -> Result<Outcome, Difference> {
    let mut network = random_network(random);
    let (source, departure) = random_start(random, &network);
    let destination = random_junction(random, &network);
    let (closures, asker) = random_closures_and_asker(random, &network, (source, departure));
    if random.one_in(4) {
        damage_network(random, &mut network);
    }
    let mut arcs = [0; MAX_ARCS];
    let route = reference::route(
        &network.lent(),
        &closures,
        asker,
        source,
        departure,
        destination,
        &mut arcs,
    );
    let list = near(random, route.unwrap_or(0) as usize);
    let start = (source, departure);
    answers::route(&network, &closures, asker, start, destination, list)
}

fn sheet(random: &mut Random) -> Result<Outcome, Difference> {
    let mut network = random_network(random);
    let source = random_junction(random, &network);
    let departures = random_list(random, &network);
    let departure = departures.first().copied().unwrap_or(0);
    let (closures, asker) = random_closures_and_asker(random, &network, (source, departure));
    let junctions = network.junctions as usize;
    let mut buffers = (departures.len() * junctions, FIGURES * junctions);
    if random.one_in(8) {
        buffers = (near(random, buffers.0), near(random, buffers.1));
    }
    if random.one_in(4) {
        damage_network(random, &mut network);
    }
    answers::sheet(&network, &closures, asker, source, &departures, buffers)
}

fn load(random: &mut Random) -> Result<Outcome, Difference> {
    let (network, text) = random_damaged_town(random);
    let (intervals, arcs) = (network.fences.len(), network.arcs());
    let exact = TableLengths::exact(intervals, arcs);
    let tables = match random.below(4) {
        0 => exact,
        1 => TableLengths::exact(intervals + 1, arcs + 9),
        2 => TableLengths::exact(MAX_INTERVALS, MAX_ARCS),
        _ => TableLengths {
            fences: near(random, exact.fences),
            tails: near(random, exact.tails),
            heads: near(random, exact.heads),
            lengths: near(random, exact.lengths),
            holds: near(random, exact.holds),
            speeds: near(random, exact.speeds),
        },
    };
    answers::load(&text, tables)
}

fn name(random: &mut Random) -> Result<Outcome, Difference> {
    let (network, text) = random_damaged_town(random);
    answers::name(&text, random_junction(random, &network))
}

fn host_question(random: &mut Random) -> Result<Outcome, Difference> {
    let (network, text) = random_damaged_town(random);
    let start = random_start(random, &network);
    let destination = random_junction(random, &network);
    answers::host_question(&text, start, destination)
}

fn arrivals(random: &mut Random) -> Result<Outcome, Difference> {
    let (network, text) = random_damaged_town(random);
    let (source, departure) = random_start(random, &network);
    let question = question_line(source, &[departure]);
    program(random, &program::ARRIVALS, question, text)
}

fn sheet_program(random: &mut Random) -> Result<Outcome, Difference> {
    let (network, text) = random_damaged_town(random);
    let source = random_junction(random, &network);
    let departures = random_list(random, &network);
    let question = question_line(source, &departures);
    program(random, &program::SHEET, question, text)
}

fn to_new(random: &mut Random) -> Result<Outcome, Difference> {
    convert(random, Form::New)
}

fn to_old(random: &mut Random) -> Result<Outcome, Difference> {
    convert(random, Form::Old)
}

fn convert(random: &mut Random, to: Form) -> Result<Outcome, Difference> {
    let (length, text) = random_text_to_convert(random, to);
    let output = match random.below(3) {
        0 => MAX_TEXT + random.index(2) * 100,
        _ => near(random, length),
    };
    answers::convert(to, &text, output)
}

fn to_new_program(random: &mut Random) -> Result<Outcome, Difference> {
    let (_, text) = random_text_to_convert(random, Form::New);
    answers::program(&program::TO_NEW, &text)
}

fn to_old_program(random: &mut Random) -> Result<Outcome, Difference> {
    let (_, text) = random_text_to_convert(random, Form::Old);
    answers::program(&program::TO_OLD, &text)
}

/// A text, mostly of the other form, that is damaged at times or as long as it or its
/// result may be, and the length that its result has if it is neither refused nor damaged.
fn random_text_to_convert(random: &mut Random, to: Form) -> (usize, Vec<u8>) {
    let from = if random.one_in(6) { to } else { to.other() };
    let (network, mut text) = random_town_of(random, from);
    let holds = " 0".len() * network.arcs();
    match random.below(4) {
        0 => {
            let longest = match to {
                Form::Old => MAX_TEXT,
                Form::New => MAX_TEXT - holds,
            };
            pad(&mut text, longest - 1 + random.index(3));
        }
        1 => {}
        _ => damage_text(random, &mut text),
    }
    let length = match to {
        Form::Old => text.len().saturating_sub(holds),
        Form::New => text.len() + holds,
    };
    (length, text)
}

/// Asks a program, at times with a damaged line or with too many bytes.
fn program(
    random: &mut Random,
    program: &Program,
    mut question: Vec<u8>,
    text: Vec<u8>,
) -> Result<Outcome, Difference> {
    if random.one_in(8) {
        damage_text(random, &mut question);
    }
    let mut input = [question, text].concat();
    if random.one_in(8) {
        pad(&mut input, MAX_TEXT + random.index(2));
    }
    answers::program(program, &input)
}

/// A town file, damaged more often than not, and the network it came from.
fn random_damaged_town(random: &mut Random) -> (OwnedNetwork, Vec<u8>) {
    let (network, mut text) = random_town(random);
    if !random.one_in(3) {
        damage_text(random, &mut text);
    }
    (network, text)
}

/// The longest hold, and longer ones, of which some would be short if they lost bits.
const LONG_HOLDS: [u32; 6] = [1_200, 1_201, 65_535, 65_536, 66_736, u32::MAX];

/// Departures that no question has.
const LATE: [u32; 4] = [DAY, DAY + 1, 9_999_999, u32::MAX];

/// A source and a departure, at times beyond their limits.
fn random_start(random: &mut Random, network: &OwnedNetwork) -> (u32, u32) {
    let source = random_junction(random, network);
    let departure = if random.one_in(16) {
        random.pick(&LATE)
    } else {
        random_departure(random, &network.fences)
    };
    (source, departure)
}

/// Closures at about the ticks of the question, at times not a list that is taken, and an
/// asker, at times one that there is not.
fn random_closures_and_asker(
    random: &mut Random,
    network: &OwnedNetwork,
    (source, departure): (u32, u32),
) -> (Vec<Closure>, u32) {
    let source = source % network.junctions;
    let mut closures = random_closures(random, network, source, departure % DAY);
    if random.one_in(8) {
        damage_closures(random, network.arcs(), &mut closures);
    }
    let asker = if random.one_in(16) {
        unknown_asker(random)
    } else {
        random_asker(random)
    };
    (closures, asker)
}

/// A sheet's departures, at times none, too many or one beyond its limit.
fn random_list(random: &mut Random, network: &OwnedNetwork) -> Vec<u32> {
    let count = if random.one_in(12) {
        random.pick(&[0, MAX_DEPARTURES + 1, MAX_DEPARTURES + 2, 200, 3_000])
    } else {
        random.up_to_one_of(&[1, 8, MAX_DEPARTURES as u32]) as usize
    };
    let mut departures = random_departures(random, &network.fences, count);
    if random.one_in(12) {
        replace_one(random, &mut departures, &LATE);
    }
    departures
}

/// The departure's interval, at times another or one that there is not.
fn random_interval(random: &mut Random, departure: u32, fences: &[u32]) -> u32 {
    let right = interval_at(fences, departure);
    let count = fences.len() as u32;
    match random.below(16) {
        0 => right + 1,
        1 => right.wrapping_sub(1),
        2 => count,
        3 => random.pick(&[u32::MAX, right + 256, right + 65_536]),
        4 => random.below(count + 1),
        _ => right,
    }
}

/// A junction, at times one that there is not.
fn random_junction(random: &mut Random, network: &OwnedNetwork) -> u32 {
    let junctions = network.junctions;
    if random.one_in(16) {
        random.pick(&[junctions, junctions + 1, 65_536, u32::MAX])
    } else {
        random.below(junctions)
    }
}

/// A buffer's length: mostly as given, else shorter or longer.
fn near(random: &mut Random, length: usize) -> usize {
    match random.below(6) {
        0 => 0,
        1 => length.saturating_sub(1),
        2 => length + 1,
        3 => length + random.index(100),
        _ => length,
    }
}
