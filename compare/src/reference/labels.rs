use std::cmp::Reverse;
use std::collections::BinaryHeap;

use super::arc::{Departure, interval_at};
use super::closures::{ClosedArcs, check_closures};
use super::limits::{DAY, NO_ARC, UNREACHED};
use super::{Closure, Network, Refusal, network_check};

/// Writes every junction's label and predecessor.
pub fn labels(
    network: &Network,
    closures: &[Closure],
    asker: u32,
    source: u32,
    departure: u32,
    labels: &mut [u32],
    predecessors: &mut [u16],
) -> Result<(), Refusal> {
    check_with_closures(network, closures, asker)?;
    check_start(network.junctions, source, departure)?;
    check_buffers(network.junctions, labels, predecessors)?;
    let closed = ClosedArcs::new(network.tails.len(), closures, asker);
    Search::new(network, closed).run(source, departure, labels, predecessors);
    Ok(())
}

/// The network's own numbers, then the closures' and the asker's.
pub(super) fn check_with_closures(
    network: &Network,
    closures: &[Closure],
    asker: u32,
) -> Result<(), Refusal> {
    network_check(network)?;
    check_closures(network.tails.len(), closures, asker)
}

pub(super) fn check_start(junctions: u32, source: u32, departure: u32) -> Result<(), Refusal> {
    check_source(junctions, source)?;
    check_departure(departure)
}

pub(super) fn check_source(junctions: u32, source: u32) -> Result<(), Refusal> {
    Refusal::SOURCE.unless(source < junctions)
}

pub(super) fn check_departure(departure: u32) -> Result<(), Refusal> {
    Refusal::DEPARTURE.unless(departure < DAY)
}

pub(super) fn check_buffers(
    junctions: u32,
    labels: &[u32],
    predecessors: &[u16],
) -> Result<(), Refusal> {
    let junctions = junctions as usize;
    let exact = labels.len() == junctions && predecessors.len() == junctions;
    Refusal::BUFFER_LENGTHS.unless(exact)
}

/// Nobody has left yet: the source alone is reached.
pub(super) fn reach_source(
    source: u32,
    departure: u32,
    labels: &mut [u32],
    predecessors: &mut [u16],
) {
    labels.fill(UNREACHED);
    predecessors.fill(NO_ARC);
    labels[source as usize] = departure;
}

/// Lowers the label of an arc's head to the arc's arrival and says whether it was later. The
/// lowest arc that attains a label is kept as the predecessor.
#[inline]
pub(super) fn lower(label: &mut u32, predecessor: &mut u16, tick: u32, arc: usize) -> bool {
    let lowered = tick < *label;
    if lowered {
        *label = tick;
        *predecessor = arc as u16;
    } else if tick == *label {
        *predecessor = (*predecessor).min(arc as u16);
    }
    lowered
}

/// A checked network with what is closed in it, ready to be labelled from any source at any
/// departure.
pub(super) struct Search<'n> {
    network: Network<'n>,
    arcs_out: ArcsOut,
    closed: ClosedArcs,
}

impl<'n> Search<'n> {
    pub fn new(network: &Network<'n>, closed: ClosedArcs) -> Self {
        Self {
            network: *network,
            arcs_out: ArcsOut::new(network),
            closed,
        }
    }

    /// Writes the labels and predecessors, settling junctions in the order of
    /// their labels.
    pub fn run(&self, source: u32, departure: u32, labels: &mut [u32], predecessors: &mut [u16]) {
        let network = &self.network;
        reach_source(source, departure, labels, predecessors);
        // An entry is a label, its junction, and the label's interval, with which the
        // junction is left. Only the departure's is looked up.
        let interval = interval_at(departure, network.fences) as u16;
        let mut queue = BinaryHeap::from([Reverse((departure, source as u16, interval))]);

        while let Some(Reverse((tick, tail, interval))) = queue.pop() {
            if tick > labels[usize::from(tail)] {
                continue; // an earlier arrival at the tail was settled before
            }
            let start = Departure::new(tick, interval.into());
            for &arc in self.arcs_out.of(tail) {
                let head = network.heads[arc];
                let label = &mut labels[usize::from(head)];
                let predecessor = &mut predecessors[usize::from(head)];
                if *label <= tick {
                    continue; // settled before, since every arc takes a tick or more
                }
                let length = network.lengths[arc];
                let hold = network.holds[arc].into();
                let speeds = network.arc_speeds(arc);
                let closures = self.closed.of(arc);
                let drive = start.drive(length, hold, network.fences, speeds, closures);
                let Some(arrival) = drive else {
                    continue;
                };
                // All arcs that attain the label pass here before it is settled.
                if lower(label, predecessor, arrival.tick, arc) {
                    queue.push(Reverse((arrival.tick, head, arrival.interval as u16)));
                }
            }
        }
    }
}

/// The arcs out of each junction, in one list sorted by tail.
struct ArcsOut {
    arcs: Vec<usize>,
    /// Where each junction's part of `arcs` starts, and the end of the last.
    starts: Vec<usize>,
}

impl ArcsOut {
    fn new(network: &Network) -> Self {
        let mut starts = vec![0; network.junctions as usize + 1];
        for &tail in network.tails {
            starts[usize::from(tail) + 1] += 1;
        }
        for junction in 1..starts.len() {
            starts[junction] += starts[junction - 1];
        }
        let mut next = starts.clone();
        let mut arcs = vec![0; network.tails.len()];
        for (arc, &tail) in network.tails.iter().enumerate() {
            let place = &mut next[usize::from(tail)];
            arcs[*place] = arc;
            *place += 1;
        }
        Self { arcs, starts }
    }

    fn of(&self, junction: u16) -> &[usize] {
        let junction = usize::from(junction);
        &self.arcs[self.starts[junction]..self.starts[junction + 1]]
    }
}

#[cfg(test)]
mod tests {
    use super::super::limits::{BOTH_PARTIES, BRIGADE, DEPOT};
    use super::super::passes;
    use super::*;
    use crate::inputs::examples::TOWN;

    fn labelled(network: &Network, source: u32, departure: u32) -> (Vec<u32>, Vec<u16>) {
        closed(network, &[], source, departure)
    }

    fn closed(
        network: &Network,
        closures: &[Closure],
        source: u32,
        departure: u32,
    ) -> (Vec<u32>, Vec<u16>) {
        closed_to(BRIGADE, network, closures, source, departure)
    }

    fn closed_to(
        asker: u32,
        network: &Network,
        closures: &[Closure],
        source: u32,
        departure: u32,
    ) -> (Vec<u32>, Vec<u16>) {
        let junctions = network.junctions as usize;
        let mut ticks = vec![7; junctions];
        let mut predecessors = vec![7; junctions];
        let reply = labels(
            network,
            closures,
            asker,
            source,
            departure,
            &mut ticks,
            &mut predecessors,
        );
        reply.expect("accepted");
        (ticks, predecessors)
    }

    #[test]
    fn labels_the_papers_town() {
        let (ticks, predecessors) = labelled(&TOWN, 0, 10);
        assert_eq!(ticks, [10, 60, 100]);
        assert_eq!(predecessors, [NO_ARC, 0, 1]);
    }

    #[test]
    fn marks_unreached_junctions_and_the_source() {
        let (ticks, predecessors) = labelled(&TOWN, 1, 863_999);
        assert_eq!(ticks, [UNREACHED, 863_999, 864_049]);
        assert_eq!(predecessors, [NO_ARC, NO_ARC, 2]);
    }

    #[test]
    fn takes_the_lowest_of_equal_arcs() {
        // Arcs 1 and 2 both attain tick 2 at junction 2; arc 0 is slower.
        let network = Network {
            junctions: 3,
            fences: &[0],
            tails: &[0, 1, 0, 0],
            heads: &[2, 2, 2, 1],
            lengths: &[3, 1, 2, 1],
            holds: &[0; 4],
            speeds: &[36, 36, 36, 36],
        };
        let (ticks, predecessors) = labelled(&network, 0, 0);
        assert_eq!(ticks, [0, 1, 2]);
        assert_eq!(predecessors, [NO_ARC, 3, 1]);
    }

    #[test]
    fn leaves_at_midnight_in_the_first_interval() {
        // Ten ticks before midnight and ten metres: junction 1 is reached at it. There
        // the next metre takes three ticks at 12; at the evening's 36 it would take one.
        let network = Network {
            junctions: 3,
            fences: &[0, 863_000],
            tails: &[0, 1],
            heads: &[1, 2],
            lengths: &[10, 1],
            holds: &[0; 2],
            speeds: &[1, 36, 12, 36],
        };
        let (ticks, predecessors) = labelled(&network, 0, 863_990);
        assert_eq!(ticks, [863_990, 864_000, 864_003]);
        assert_eq!(predecessors, [NO_ARC, 0, 1]);
    }

    #[test]
    fn settles_the_second_day_after_the_first() {
        // The short arc 0 stands still from tick 100 to midnight. Until shortly before
        // midnight the way by junction 1 is there first.
        let network = Network {
            junctions: 3,
            fences: &[0, 100],
            tails: &[0, 0, 1],
            heads: &[2, 1, 2],
            lengths: &[1, 50, 50],
            holds: &[0; 3],
            speeds: &[36, 0, 36, 36, 36, 36],
        };
        let (ticks, predecessors) = labelled(&network, 0, 99);
        assert_eq!(ticks, [99, 149, 100]);
        assert_eq!(predecessors, [NO_ARC, 1, 0]);
        let (ticks, predecessors) = labelled(&network, 0, 100);
        assert_eq!(ticks, [100, 150, 200]);
        assert_eq!(predecessors, [NO_ARC, 1, 2]);
        let (ticks, predecessors) = labelled(&network, 0, 863_950);
        assert_eq!(ticks, [863_950, 864_000, 864_001]);
        assert_eq!(predecessors, [NO_ARC, 1, 0]);
    }

    #[test]
    fn goes_by_the_arrival_with_its_hold() {
        // Arc 0 is at junction 2 at tick 1, arc 1 at tick 3, and arc 2 at tick 9 by way of
        // junction 1; each goes on after its hold.
        for (holds, ticks, arc) in [
            ([0, 0, 0, 0], [0, 5, 1], 0),
            ([3, 0, 0, 0], [0, 5, 3], 1),
            ([2, 0, 0, 0], [0, 5, 3], 0),
            ([1_200, 1_199, 0, 0], [0, 5, 9], 2),
            ([8, 6, 0, 0], [0, 5, 9], 0),
            ([9, 6, 0, 0], [0, 5, 9], 1),
            ([9, 7, 0, 0], [0, 5, 9], 2),
            ([1_200, 1_198, 0, 7], [0, 12, 16], 2),
            ([1_200, 1_199, 7, 7], [0, 12, 23], 2),
        ] {
            let network = Network {
                junctions: 3,
                fences: &[0],
                tails: &[0, 0, 1, 0],
                heads: &[2, 2, 2, 1],
                lengths: &[1, 3, 4, 5],
                holds: &holds,
                speeds: &[36; 4],
            };
            let (labels, predecessors) = labelled(&network, 0, 0);
            assert_eq!(labels, ticks);
            assert_eq!(predecessors, [NO_ARC, 3, arc]);
        }
    }

    #[test]
    fn leaves_in_the_interval_after_the_hold() {
        // Junction 1's stop line is reached at 100. The metre from there takes one tick in
        // the first interval, three in the second and nine in the last.
        for (hold, ticks) in [
            (0, [99, 100, 101]),
            (1, [99, 101, 104]),
            (97, [99, 197, 200]),
            (100, [99, 200, 209]),
            (1_200, [99, 1_300, 1_309]),
        ] {
            let network = Network {
                junctions: 3,
                fences: &[0, 101, 200],
                tails: &[0, 1],
                heads: &[1, 2],
                lengths: &[1, 1],
                holds: &[hold, 0],
                speeds: &[36, 36, 36, 36, 12, 4],
            };
            let (labels, predecessors) = labelled(&network, 0, 99);
            assert_eq!(labels, ticks);
            assert_eq!(predecessors, [NO_ARC, 0, 1]);
        }
    }

    /// A record that stops both.
    fn closure(arc: u32, first: u32, end: u32) -> Closure {
        Closure {
            arc,
            first,
            end,
            party: BOTH_PARTIES,
        }
    }

    #[test]
    fn stands_for_its_own_closures_and_those_of_both() {
        let of_party = |party, arc, end| Closure {
            party,
            ..closure(arc, 10, end)
        };
        let closures = [
            of_party(DEPOT, 1, 1_728_000),
            of_party(BRIGADE, 0, 20),
            of_party(BOTH_PARTIES, 0, 15),
        ];
        let (ticks, predecessors) = closed_to(BRIGADE, &TOWN, &closures, 0, 10);
        assert_eq!(ticks, [10, 70, 100]);
        assert_eq!(predecessors, [NO_ARC, 0, 1]);
        let (ticks, predecessors) = closed_to(DEPOT, &TOWN, &closures, 0, 10);
        assert_eq!(ticks, [10, 65, 115]);
        assert_eq!(predecessors, [NO_ARC, 0, 2]);
    }

    #[test]
    fn stands_while_the_arc_is_closed() {
        // Arc 0 takes the ticks from 10 to 59, a metre in each.
        for (closures, label) in [
            (&[closure(0, 0, 10)][..], 60),
            (&[closure(0, 0, 11)], 61),
            (&[closure(0, 10, 20)], 70),
            (&[closure(0, 59, 60)], 61),
            (&[closure(0, 60, 90)], 60),
            (&[closure(0, 40, 50), closure(0, 20, 30)], 80),
            (&[closure(0, 20, 30), closure(0, 30, 40)], 80),
            (&[closure(0, 20, 35), closure(0, 25, 40)], 80),
            // At 18 from the fence at 100 on: 20 metres are left, then 10.
            (&[closure(0, 40, 100)], 140),
            (&[closure(0, 40, 90)], 120),
        ] {
            let (ticks, predecessors) = closed(&TOWN, closures, 0, 10);
            assert_eq!(ticks, [10, label, 100]);
            assert_eq!(predecessors, [NO_ARC, 0, 1]);
        }
    }

    #[test]
    fn closes_real_ticks_only() {
        let (ticks, _) = closed(&TOWN, &[closure(0, 863_990, 864_010)], 0, 863_980);
        // Five metres before midnight at 18, the others after 864,010 at 36.
        assert_eq!(ticks[1], 864_055);
        let (ticks, _) = closed(&TOWN, &[closure(0, 0, 50)], 0, 863_980);
        assert_eq!(ticks[1], labelled(&TOWN, 0, 863_980).0[1]);
        let (ticks, predecessors) = closed(&TOWN, &[closure(0, 10, 1_728_000)], 0, 10);
        assert_eq!(ticks, [10, UNREACHED, 100]);
        assert_eq!(predecessors, [NO_ARC, NO_ARC, 1]);
    }

    #[test]
    fn holds_on_while_the_arc_is_closed() {
        let network = Network {
            holds: &[20, 0, 0],
            ..TOWN
        };
        for (closures, label) in [
            (&[closure(0, 60, 1_728_000)][..], 80),
            (&[closure(0, 59, 61)], 82),
            (&[closure(0, 50, 75)], 105),
        ] {
            assert_eq!(closed(&network, closures, 0, 10).0[1], label);
        }
    }

    #[test]
    fn drives_no_arc_out_of_an_unreached_tail() {
        let network = Network {
            speeds: &[0, 0, 0, 0, 36, 36],
            ..TOWN
        };
        let (ticks, predecessors) = labelled(&network, 0, 0);
        assert_eq!(ticks, [0, UNREACHED, UNREACHED]);
        assert_eq!(predecessors, [NO_ARC; 3]);
    }

    #[test]
    fn refuses_in_the_papers_order_and_changes_nothing() {
        let bad = Network {
            speeds: &[36, 18, 40, 20, 36, 201],
            ..TOWN
        };
        let held = Network {
            holds: &[0, 0, 1_201],
            ..TOWN
        };
        let unknown = [Closure {
            party: 3,
            ..closure(3, 0, 1)
        }; 65];
        let of_nobody = [Closure {
            arc: 2,
            ..unknown[0]
        }];
        let good = [closure(2, 0, 1); 64];
        for (network, closures, asker, source, departure, lengths, number) in [
            (&bad, &unknown[..], 0, 3, 864_000, (2, 2), 8),
            (&held, &unknown, 0, 3, 864_000, (2, 2), 32),
            (&TOWN, &unknown, 0, 3, 864_000, (2, 2), 36),
            (&TOWN, &unknown[1..], 0, 3, 864_000, (2, 2), 37),
            (&TOWN, &of_nobody, 0, 3, 864_000, (2, 2), 38),
            (&TOWN, &good, 0, 3, 864_000, (2, 2), 39),
            (&TOWN, &[], 3, 3, 864_000, (2, 2), 39),
            (&TOWN, &good, 1, 3, 864_000, (2, 2), 9),
            (&TOWN, &good, 2, 2, 864_000, (2, 2), 10),
            (&TOWN, &good, 1, 2, 863_999, (2, 3), 11),
            (&TOWN, &good, 2, 2, 863_999, (3, 4), 11),
        ] {
            let mut ticks = vec![7; lengths.0];
            let mut predecessors = vec![7; lengths.1];
            let (ticks, predecessors) = (&mut ticks[..], &mut predecessors[..]);
            let reply = labels(
                network,
                closures,
                asker,
                source,
                departure,
                ticks,
                predecessors,
            );
            assert_eq!(reply, Err(Refusal(number)));
            let reply = passes(
                network,
                closures,
                asker,
                source,
                departure,
                ticks,
                predecessors,
            );
            assert_eq!(reply, Err(Refusal(number)));
            assert!(ticks.iter().all(|&tick| tick == 7));
            assert!(predecessors.iter().all(|&arc| arc == 7));
        }
    }
}
