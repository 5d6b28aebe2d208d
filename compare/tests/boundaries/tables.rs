//! Tables that are sent: every entry changed in turn, other arcs that attain a label, labels
//! too late and too early in every way, junctions cut off and circles of predecessors, marks,
//! the last tick, tables of other questions, and refusals.

use compare::comparison::Outcome;
use compare::comparison::answers;
use compare::inputs::OwnedNetwork;
use compare::inputs::towns::{ASKER, DEPARTURE, Town};
use compare::reference::Closure;
use compare::reference::limits::{BRIGADE, DEPOT, NO_ARC, UNREACHED};

use super::closures::{closure, row};
use super::passes::triangle;
use super::{closed_labels, number, small_town};

const LAST: u32 = 1_728_000;

/// What is asked, always from junction 0.
struct Question<'a> {
    network: &'a OwnedNetwork,
    closures: &'a [Closure],
    asker: u32,
    departure: u32,
}

impl<'a> Question<'a> {
    fn open(network: &'a OwnedNetwork, departure: u32) -> Self {
        Self::closed(network, &[], departure)
    }

    fn closed(network: &'a OwnedNetwork, closures: &'a [Closure], departure: u32) -> Self {
        Self {
            network,
            closures,
            asker: ASKER,
            departure,
        }
    }

    /// Labels' own, on which both agree, and which are a yes.
    fn own(&self) -> (Vec<u32>, Vec<u16>) {
        let own = closed_labels(self.network, self.closures, self.asker, self.departure);
        assert!(self.says(&own.0, &own.1));
        own
    }

    /// Whether they are right, on which both agree.
    fn says(&self, labels: &[u32], predecessors: &[u16]) -> bool {
        let start = (0, self.departure);
        let tables = (labels, predecessors);
        match answers::tables_check(self.network, self.closures, self.asker, start, tables) {
            Ok(Outcome::Answered) => true,
            Ok(Outcome::Nothing) => false,
            Ok(refused) => panic!("{refused}"),
            Err(difference) => panic!("{difference}"),
        }
    }

    /// Every label and every predecessor is changed in turn. The tables stay right only where a
    /// predecessor is one of the others, which attain the junction's label as well.
    fn assert_every_entry(&self, others: &[(usize, u16)]) {
        let (labels, predecessors) = self.own();
        let arcs = self.network.arcs() as u16;
        for junction in 0..labels.len() {
            let label = labels[junction];
            let beside = [label.wrapping_add(1), label.wrapping_sub(1), self.departure];
            let edges = [0, LAST, LAST + 1, UNREACHED - 1, UNREACHED];
            let days = [label.wrapping_add(864_000), label.wrapping_sub(864_000)];
            let known = labels.iter().copied();
            let bits = (0..32).map(|bit| label ^ 1 << bit);
            for changed in known.chain(beside).chain(edges).chain(days).chain(bits) {
                let mut sent = labels.clone();
                sent[junction] = changed;
                let yes = self.says(&sent, &predecessors);
                assert_eq!(yes, changed == label, "{changed} at {junction}");
            }
            let own = predecessors[junction];
            let bits = (0..16).map(|bit| own ^ 1 << bit);
            for changed in (0..arcs + 2).chain([65_534, 65_535]).chain(bits) {
                let mut sent = predecessors.clone();
                sent[junction] = changed;
                let right = changed == own || others.contains(&(junction, changed));
                let yes = self.says(&labels, &sent);
                assert_eq!(yes, right, "arc {changed} into {junction}");
            }
        }
    }
}

#[test]
fn every_entry_of_small_towns() {
    let town = OwnedNetwork {
        junctions: 3,
        fences: vec![0, 100],
        tails: vec![0, 0, 1],
        heads: vec![1, 2, 2],
        lengths: vec![50, 100, 50],
        holds: vec![0; 3],
        speeds: vec![36, 18, 40, 20, 36, 36],
    };
    Question::open(&town, 10).assert_every_entry(&[]);
    Question::open(&town, 0).assert_every_entry(&[]);
    Question::open(&town, 863_999).assert_every_entry(&[]);
    // Arc 2 is at junction 2 at 110 as well if arc 1 is closed for five ticks.
    let closures = [closure(1, 15, 20)];
    Question::closed(&town, &closures, 10).assert_every_entry(&[(2, 2)]);
    Question::closed(&town, &[closure(1, 15, 21)], 10).assert_every_entry(&[]);
    let held = OwnedNetwork {
        holds: vec![0, 10, 0],
        ..town.clone()
    };
    Question::open(&held, 10).assert_every_entry(&[(2, 2)]);
    Question::closed(&held, &closures, 10).assert_every_entry(&[]);
    let held = OwnedNetwork {
        holds: vec![3, 1_200, 7],
        ..town
    };
    Question::open(&held, 10).assert_every_entry(&[]);
}

#[test]
fn every_entry_of_rows_and_rings() {
    for departure in [0, 863_990, 863_999] {
        let path = row(&[1, 5, 2, 9], &[0, 3, 1_200, 0]);
        Question::open(&path, departure).assert_every_entry(&[]);
        // The last junctions are cut off, in turn.
        for stopped in 0..4 {
            let mut path = path.clone();
            path.speeds[stopped] = 0;
            Question::open(&path, departure).assert_every_entry(&[]);
            let closures = [closure(stopped as u32, 0, LAST)];
            Question::closed(&path, &closures, departure).assert_every_entry(&[]);
        }
        // There and back between three junctions, the way back longer or as long.
        let ring = triangle(&[(0, 1, 1), (1, 2, 1), (2, 0, 1), (1, 0, 4), (2, 1, 1)]);
        Question::open(&ring, departure).assert_every_entry(&[]);
        let both = triangle(&[(0, 1, 2), (0, 2, 2), (1, 2, 1), (2, 1, 1)]);
        Question::open(&both, departure).assert_every_entry(&[]);
    }
}

#[test]
fn another_arc_attains_it() {
    // Two and three side by side, and two ways.
    for (arcs, others) in [
        (&[(0, 1, 1), (0, 1, 1), (1, 2, 1)][..], &[(1, 1)][..]),
        (&[(0, 1, 1), (0, 1, 1), (0, 1, 1)], &[(1, 1), (1, 2)]),
        (&[(0, 1, 1), (0, 1, 2), (0, 1, 1)], &[(1, 2)]),
        (&[(0, 1, 2), (0, 1, 1), (0, 1, 1)], &[(1, 2)]),
        (&[(0, 2, 2), (0, 1, 1), (1, 2, 1)], &[(2, 2)]),
        (&[(0, 1, 1), (1, 2, 1), (0, 2, 2)], &[(2, 2)]),
        (&[(0, 1, 1), (1, 2, 1), (0, 2, 3)], &[]),
        (
            &[(1, 2, 1), (0, 1, 1), (1, 2, 1), (0, 1, 1)],
            &[(1, 3), (2, 2)],
        ),
    ] {
        let network = triangle(arcs);
        for departure in [0, 100, 863_998, 863_999] {
            Question::open(&network, departure).assert_every_entry(others);
        }
    }
    // All other predecessors at once.
    let network = triangle(&[(1, 2, 1), (0, 1, 1), (1, 2, 1), (0, 1, 1)]);
    let question = Question::open(&network, 7);
    assert!(question.says(&[7, 8, 9], &[NO_ARC, 3, 2]));
    // By the arc's length, by its hold, and by what is closed: 5 ticks each.
    let mut network = row(&[5, 5], &[0, 0]).renumbered(&[0, 0, 0]);
    network.junctions = 2;
    network.lengths = vec![5, 2, 2];
    network.holds = vec![0, 3, 0];
    let closures = [closure(2, 11, 14)];
    Question::closed(&network, &closures, 10).assert_every_entry(&[(1, 1), (1, 2)]);
    // A tick more or less, and closed before the departure or after the arrival.
    for (closed, label, others) in [
        (closure(2, 11, 13), 14, &[][..]),
        (closure(2, 11, 15), 15, &[(1, 1)]),
        (closure(2, 9, 12), 14, &[]),
        (closure(2, 9, 13), 15, &[(1, 1), (1, 2)]),
        (closure(2, 9, 14), 15, &[(1, 1)]),
        (closure(2, 12, 15), 12, &[]),
    ] {
        let closures = [closed];
        let question = Question::closed(&network, &closures, 10);
        assert_eq!(question.own().0[1], label, "{closed:?}");
        question.assert_every_entry(others);
    }
}

#[test]
fn attained_but_too_late() {
    // A longer arc is named and everything behind it is reckoned from there.
    let network = triangle(&[(0, 1, 1), (1, 2, 1), (0, 1, 2)]);
    let question = Question::open(&network, 10);
    assert!(question.says(&[10, 11, 12], &[NO_ARC, 0, 1]));
    assert!(!question.says(&[10, 12, 13], &[NO_ARC, 2, 1]));
    assert!(!question.says(&[10, 11, 13], &[NO_ARC, 0, 1]));
    // At the end of the way alone, by a tick and by many.
    for length in [3, 4, 100, 100_000] {
        let network = triangle(&[(0, 1, 1), (1, 2, 1), (0, 2, length)]);
        let question = Question::open(&network, 10);
        assert!(!question.says(&[10, 11, 10 + length], &[NO_ARC, 0, 2]));
    }
    // Where the earlier way goes by a junction with a higher number.
    let network = triangle(&[(0, 2, 1), (2, 1, 1), (0, 1, 3)]);
    let question = Question::open(&network, 10);
    assert!(!question.says(&[10, 13, 11], &[NO_ARC, 2, 0]));
    assert!(question.says(&[10, 12, 11], &[NO_ARC, 1, 0]));
    // By a hold, by roadworks and by a slower interval.
    let mut network = triangle(&[(0, 1, 1), (0, 1, 1), (1, 2, 1)]);
    network.holds[1] = 1;
    let question = Question::open(&network, 10);
    assert!(!question.says(&[10, 12, 13], &[NO_ARC, 1, 2]));
    network.holds[1] = 0;
    let closures = [closure(1, 10, 11)];
    let question = Question::closed(&network, &closures, 10);
    assert!(!question.says(&[10, 12, 13], &[NO_ARC, 1, 2]));
    assert!(question.says(&[10, 11, 12], &[NO_ARC, 0, 2]));
    network.fences = vec![0, 10];
    network.speeds = vec![36, 36, 36, 35, 36, 36];
    let question = Question::open(&network, 10);
    assert!(!question.says(&[10, 12, 13], &[NO_ARC, 1, 2]));
    assert!(Question::open(&network, 9).says(&[9, 10, 11], &[NO_ARC, 1, 2]));
}

#[test]
fn marked_as_unreached() {
    // With everything behind them.
    for departure in [0, 863_999] {
        let network = row(&[1, 5, 2, 9], &[0, 3, 0, 7]);
        let question = Question::open(&network, departure);
        let (labels, predecessors) = question.own();
        for junction in 1..5 {
            let mut sent = (labels.clone(), predecessors.clone());
            sent.0[junction..].fill(UNREACHED);
            sent.1[junction..].fill(NO_ARC);
            assert!(!question.says(&sent.0, &sent.1));
            // With the predecessors left as they were.
            assert!(!question.says(&sent.0, &predecessors));
            // Alone.
            let mut sent = (labels.clone(), predecessors.clone());
            sent.0[junction] = UNREACHED;
            sent.1[junction] = NO_ARC;
            assert!(!question.says(&sent.0, &sent.1));
        }
        assert!(!question.says(&[UNREACHED; 5], &[NO_ARC; 5]));
        // The source is not.
        let mut sent = labels.clone();
        sent[0] = UNREACHED;
        assert!(!question.says(&sent, &predecessors));
    }
}

/// Labels beside all edges.
const TICKS: [u32; 16] = [
    0,
    1,
    99,
    100,
    101,
    102,
    863_999,
    864_000,
    LAST - 1,
    LAST,
    LAST + 1,
    1 << 31,
    UNREACHED - 2,
    UNREACHED - 1,
    UNREACHED,
    4_294_900_000,
];

#[test]
fn circles() {
    // Two junctions that no walk reaches, an arc each way between them, the first at some speed
    // and hold; a third arc from the source, which cannot be driven.
    for (speed, hold) in [(36, 0), (36, 1), (0, 0), (200, 1_200), (1, 0)] {
        let mut network = triangle(&[(1, 2, 1), (2, 1, 1), (0, 1, 1)]);
        network.speeds[0] = speed;
        network.speeds[2] = 0;
        network.holds[0] = hold;
        let question = Question::open(&network, 100);
        assert!(question.says(&[100, UNREACHED, UNREACHED], &[NO_ARC; 3]));
        for one in TICKS {
            for other in TICKS {
                let labels = [100, one, other];
                for sent in [[1, 0], [2, 0], [1, NO_ARC], [NO_ARC, 0]] {
                    assert!(!question.says(&labels, &[NO_ARC, sent[0], sent[1]]));
                }
                let unreached = [one, other] == [UNREACHED; 2];
                assert_eq!(question.says(&labels, &[NO_ARC; 3]), unreached);
            }
        }
    }
    // Three of them, with every label a tick after the one before, also around all 32 bits.
    let mut network = triangle(&[(1, 2, 1), (2, 3, 1), (3, 1, 1), (1, 3, 2), (3, 2, 2)]);
    network.junctions = 4;
    let question = Question::open(&network, 100);
    for first in TICKS {
        for step in [0, 1, 2, u32::MAX] {
            let second = first.wrapping_add(step);
            let third = second.wrapping_add(step);
            let labels = [100, first, second, third];
            if first != UNREACHED || step != 0 {
                assert!(!question.says(&labels, &[NO_ARC; 4]));
            }
            assert!(!question.says(&labels, &[NO_ARC, 2, 0, 1]));
            assert!(!question.says(&labels, &[NO_ARC, 2, 4, 3]));
        }
    }
}

#[test]
fn circles_beside_the_way() {
    // Junctions 1 and 2 are reached, and might name each other instead.
    for (there, back) in [(1, 1), (5, 1), (1, 3), (1, 100)] {
        let network = triangle(&[(0, 1, 10), (1, 2, there), (2, 1, back)]);
        let question = Question::open(&network, 100);
        let (labels, predecessors) = question.own();
        assert_eq!(predecessors, [NO_ARC, 0, 1]);
        assert!(!question.says(&labels, &[NO_ARC, 2, 1]));
        for one in TICKS {
            for other in TICKS {
                let right = labels == [100, one, other];
                assert_eq!(question.says(&[100, one, other], &predecessors), right);
                assert!(!question.says(&[100, one, other], &[NO_ARC, 2, 1]));
            }
        }
    }
}

#[test]
fn labels_above_the_last_tick() {
    // The arc cannot be driven from its tail's label, whatever is said of its head.
    let network = row(&[1, 1], &[0, 0]);
    for stopped in [0, 1] {
        let mut network = network.clone();
        network.speeds[stopped] = 0;
        let question = Question::open(&network, 0);
        let (labels, predecessors) = question.own();
        for tick in TICKS {
            let mut sent = labels.clone();
            sent[stopped + 1..].fill(tick);
            let marked = question.says(&sent, &predecessors);
            assert_eq!(marked, tick == UNREACHED);
            assert!(!question.says(&sent, &[NO_ARC, 0, 1]));
            if stopped == 0 {
                sent[2] = tick.wrapping_add(1);
                assert!(!question.says(&sent, &[NO_ARC, 0, 1]));
                assert!(!question.says(&sent, &[NO_ARC, NO_ARC, 1]));
            }
        }
    }
}

#[test]
fn beside_the_last_tick() {
    // The second arc takes 864,000 ticks; with one metre on the first it is there at the last
    // tick, with two a tick after it.
    for (length, in_time) in [(1, true), (2, false)] {
        let mut network = row(&[length, 24_000, 1], &[0; 3]);
        network.speeds[1] = 1;
        network.speeds[2] = 200;
        let question = Question::open(&network, 863_999);
        question.assert_every_entry(&[]);
        let left = 863_999 + length;
        let says = |label, arc| {
            let labels = [863_999, left, label, UNREACHED];
            question.says(&labels, &[NO_ARC, 0, arc, NO_ARC])
        };
        assert_eq!(says(LAST, 1), in_time);
        assert_eq!(says(UNREACHED, NO_ARC), !in_time);
        assert!(!says(LAST, NO_ARC));
        assert!(!says(UNREACHED, 1));
        assert!(!says(LAST + 1, 1));
        assert!(!says(LAST - 1, 1));
        // Nothing is driven from the last tick on.
        for label in [LAST, LAST + 1, UNREACHED] {
            let labels = [863_999, left, LAST, label];
            assert!(!question.says(&labels, &[NO_ARC, 0, 1, 2]));
        }
    }
    // By the hold: at the last tick, and a tick after it.
    for (hold, in_time) in [(1_199, true), (1_200, false)] {
        let mut network = row(&[24_000, 1], &[0, hold]);
        network.speeds[0] = 1;
        let question = Question::open(&network, 862_800);
        question.assert_every_entry(&[]);
        let left = 1_726_800;
        let labels = [862_800, left, LAST];
        assert_eq!(question.says(&labels, &[NO_ARC, 0, 1]), in_time);
        let labels = [862_800, left, UNREACHED];
        assert_eq!(question.says(&labels, &[NO_ARC, 0, NO_ARC]), !in_time);
    }
    // By what is closed up to the end.
    for (end, in_time) in [(LAST - 1, true), (LAST, false)] {
        let network = row(&[1], &[0]);
        let closures = [closure(0, 0, end)];
        let question = Question::closed(&network, &closures, 0);
        question.assert_every_entry(&[]);
        assert_eq!(question.says(&[0, LAST], &[NO_ARC, 0]), in_time);
        assert_eq!(question.says(&[0, UNREACHED], &[NO_ARC; 2]), !in_time);
    }
}

#[test]
fn of_other_questions() {
    let network = row(&[10, 10], &[0, 5]);
    let closures = [Closure {
        party: BRIGADE,
        ..closure(0, 15, 20)
    }];
    let brigade = Question::closed(&network, &closures, 10);
    let depot = Question {
        asker: DEPOT,
        ..brigade
    };
    let open = Question::open(&network, 10);
    let later = Question::open(&network, 11);
    let (of_brigade, of_depot) = (brigade.own(), depot.own());
    let says =
        |question: &Question, tables: &(Vec<u32>, Vec<u16>)| question.says(&tables.0, &tables.1);
    assert!(!says(&brigade, &of_depot));
    assert!(!says(&depot, &of_brigade));
    // The depot is not stopped.
    assert!(says(&open, &of_depot));
    assert!(says(&depot, &open.own()));
    assert!(!says(&open, &of_brigade));
    assert!(!says(&brigade, &open.own()));
    assert!(!says(&open, &later.own()));
    assert!(!says(&later, &open.own()));
    // Another length, hold or speed, and some that make no difference.
    for (lengths, hold, speed, same) in [
        ([11, 10], 5, 36, false),
        ([9, 10], 5, 36, false),
        ([10, 11], 5, 36, false),
        ([10, 10], 4, 36, false),
        ([10, 10], 6, 36, false),
        ([10, 9], 6, 36, true),
        ([10, 10], 5, 35, false),
        ([10, 10], 5, 39, true),
        ([10, 10], 5, 40, false),
    ] {
        let mut another = row(&lengths, &[0, hold]);
        another.speeds[0] = speed;
        let another = Question::open(&another, 10);
        assert_eq!(says(&open, &another.own()), same);
        assert_eq!(says(&another, &open.own()), same);
    }
    // A further arc that helps, and one that does not.
    for (length, same) in [(25, true), (24, false), (26, true), (1, false)] {
        let mut more = network.clone();
        more.tails.push(0);
        more.heads.push(2);
        more.lengths.push(length);
        more.holds.push(0);
        more.speeds.push(36);
        assert_eq!(says(&Question::open(&more, 10), &open.own()), same);
    }
}

#[test]
fn closures_of_the_asker_count() {
    // A shortcut that is closed to one of the two.
    for asker in [BRIGADE, DEPOT] {
        let network = triangle(&[(0, 1, 1), (1, 2, 1), (0, 2, 1)]);
        let closures = [Closure {
            party: asker,
            ..closure(2, 0, LAST)
        }];
        for asks in [BRIGADE, DEPOT] {
            let question = Question {
                asker: asks,
                ..Question::closed(&network, &closures, 0)
            };
            question.assert_every_entry(&[]);
            let around = question.says(&[0, 1, 2], &[NO_ARC, 0, 1]);
            assert_eq!(around, asks == asker);
            let straight = question.says(&[0, 1, 1], &[NO_ARC, 0, 2]);
            assert_eq!(straight, asks != asker);
        }
    }
}

#[test]
fn the_source() {
    // Arcs into the source, which are there at its label of the next day or never before it.
    let ring = triangle(&[(0, 1, 1), (1, 0, 1), (1, 2, 1), (2, 0, 1)]);
    for departure in [0, 1, 863_999] {
        let question = Question::open(&ring, departure);
        let (labels, predecessors) = question.own();
        for arc in 0..4 {
            let mut sent = predecessors.clone();
            sent[0] = arc;
            assert!(!question.says(&labels, &sent));
        }
        // All a tick earlier or later, as from another departure.
        for shift in [1, u32::MAX] {
            let mut sent = labels.clone();
            sent.iter_mut()
                .for_each(|label| *label = label.wrapping_add(shift));
            assert!(!question.says(&sent, &predecessors));
        }
    }
    // Another source's.
    let network = row(&[1, 1], &[0, 0]);
    let question = Question::open(&network, 5);
    assert!(!question.says(&[UNREACHED, 5, 6], &[NO_ARC, NO_ARC, 1]));
    assert!(!question.says(&[5, 5, 6], &[NO_ARC, NO_ARC, 1]));
    assert!(question.says(&[5, 6, 7], &[NO_ARC, 0, 1]));
}

#[test]
fn one_junction_and_no_arcs() {
    for junctions in [1, 2, 200] {
        let network = OwnedNetwork {
            junctions,
            fences: vec![0],
            ..OwnedNetwork::default()
        };
        for departure in [0, 863_999] {
            let question = Question::open(&network, departure);
            let (labels, predecessors) = question.own();
            assert_eq!(predecessors, vec![NO_ARC; labels.len()]);
            for junction in [0, labels.len() - 1] {
                for tick in TICKS {
                    let mut sent = labels.clone();
                    sent[junction] = tick;
                    let same = tick == labels[junction];
                    assert_eq!(question.says(&sent, &predecessors), same);
                }
                for arc in [0, 1, 255, 640, 65_534] {
                    let mut sent = predecessors.clone();
                    sent[junction] = arc;
                    assert!(!question.says(&labels, &sent));
                }
            }
        }
    }
}

#[test]
fn towns_of_fixed_size() {
    for town in Town::NAMES.into_iter().filter_map(Town::named) {
        let closures = town.closures(64);
        let held = town.with_holds();
        for closures in [&[][..], &closures] {
            let question = Question::closed(&held.network, closures, DEPARTURE);
            let (labels, predecessors) = question.own();
            for junction in 0..labels.len() {
                for changed in [labels[junction] + 1, labels[junction] - 1, UNREACHED] {
                    let mut sent = labels.clone();
                    sent[junction] = changed;
                    assert!(!question.says(&sent, &predecessors));
                }
                let mut sent = predecessors.clone();
                sent[junction] = (junction as u16 * 7) % held.network.arcs() as u16;
                let same = sent == predecessors;
                assert_eq!(question.says(&labels, &sent), same);
            }
        }
    }
}

#[test]
fn numbers() {
    let town = small_town();
    let held = OwnedNetwork {
        holds: vec![1_201; town.arcs()],
        ..town.clone()
    };
    let unknown = [Closure {
        party: 3,
        ..closure(26, 0, 1)
    }; 65];
    let of_nobody = [Closure {
        arc: 25,
        ..unknown[0]
    }];
    let good = [closure(25, 0, 1); 64];
    let (labels, predecessors) = closed_labels(&town, &[], ASKER, 0);
    let longer = (
        [&labels[..], &[7]].concat(),
        [&predecessors[..], &[7]].concat(),
    );
    let nine = (&labels[..9], &predecessors[..9]);
    let ten = (&labels[..], &predecessors[..]);
    for (network, closures, asker, start, tables, expected) in [
        (&held, &unknown[..], 0, (10, 864_000), nine, 32),
        (&town, &unknown, 0, (10, 864_000), nine, 36),
        (&town, &unknown[1..], 0, (10, 864_000), nine, 37),
        (&town, &of_nobody, 0, (10, 864_000), nine, 38),
        (&town, &good, 0, (10, 864_000), nine, 39),
        (&town, &[], 3, (10, 864_000), nine, 39),
        (&town, &good, 1, (10, 864_000), nine, 9),
        (&town, &good, 2, (9, 864_000), nine, 10),
        (&town, &good, 2, (10, 863_999), ten, 9),
        (&town, &good, 2, (9, 864_000), ten, 10),
        (&town, &good, 1, (9, 863_999), nine, 11),
        (&town, &[], 1, (0, 0), (&[], &[]), 11),
        (&town, &[], 1, (0, 0), (nine.0, ten.1), 11),
        (&town, &[], 1, (0, 0), (ten.0, nine.1), 11),
        (&town, &[], 1, (0, 0), (&longer.0, ten.1), 11),
        (&town, &[], 1, (0, 0), (ten.0, &longer.1), 11),
        (&town, &[], 1, (0, 0), (&longer.0, &longer.1), 11),
        (&town, &[], 1, (0, 0), ten, 0),
    ] {
        let found = answers::tables_check(network, closures, asker, start, tables);
        assert_eq!(number(found), expected);
    }
}
