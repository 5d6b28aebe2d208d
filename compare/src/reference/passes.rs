use super::arc::{Departure, interval_at};
use super::closures::ClosedArcs;
use super::labels::{check_buffers, check_start, check_with_closures, lower, reach_source};
use super::{Closure, Network, Refusal};

/// Writes every junction's label and predecessor by repeated passes over the arcs, and returns
/// the number of the first that changes no label.
pub fn passes(
    network: &Network,
    closures: &[Closure],
    asker: u32,
    source: u32,
    departure: u32,
    labels: &mut [u32],
    predecessors: &mut [u16],
) -> Result<u32, Refusal> {
    check_with_closures(network, closures, asker)?;
    check_start(network.junctions, source, departure)?;
    check_buffers(network.junctions, labels, predecessors)?;
    reach_source(source, departure, labels, predecessors);
    let start = Departure::new(departure, interval_at(departure, network.fences));
    let mut passes = Passes {
        network,
        closed: ClosedArcs::new(network.tails.len(), closures, asker),
        starts: vec![start; labels.len()],
        labels,
        predecessors,
    };
    let mut number = 1;
    while passes.pass() {
        number += 1;
    }
    Ok(number)
}

struct Passes<'a> {
    network: &'a Network<'a>,
    closed: ClosedArcs,
    /// How each reached junction is left: at its label, with the label's interval.
    starts: Vec<Departure>,
    labels: &'a mut [u32],
    predecessors: &'a mut [u16],
}

impl Passes<'_> {
    /// Goes through all arcs once and says whether a label was lowered. If none was, every arc
    /// was left at its tail's last label, so no predecessor can be missing.
    fn pass(&mut self) -> bool {
        let network = self.network;
        let mut lowered = false;
        for arc in 0..network.tails.len() {
            let tail = usize::from(network.tails[arc]);
            let head = usize::from(network.heads[arc]);
            if self.labels[tail] >= self.labels[head] {
                continue; // unreached, or too late, since every arc takes a tick or more
            }
            let length = network.lengths[arc];
            let hold = network.holds[arc].into();
            let speeds = network.arc_speeds(arc);
            let closures = self.closed.of(arc);
            let start = self.starts[tail];
            let drive = start.drive(length, hold, network.fences, speeds, closures);
            let Some(arrival) = drive else {
                continue;
            };
            let label = &mut self.labels[head];
            let predecessor = &mut self.predecessors[head];
            if lower(label, predecessor, arrival.tick, arc) {
                self.starts[head] = Departure::new(arrival.tick, arrival.interval);
                lowered = true;
            }
        }
        lowered
    }
}

#[cfg(test)]
mod tests {
    use super::super::limits::{BOTH_PARTIES, BRIGADE, DEPOT, NO_ARC, UNREACHED};
    use super::*;
    use crate::inputs::examples::TOWN;

    /// The number of passes from junction 0, with the labels and predecessors.
    fn passed(network: &Network, closures: &[Closure], asker: u32) -> (u32, Vec<u32>, Vec<u16>) {
        let mut ticks = vec![7; network.junctions as usize];
        let mut predecessors = vec![7; network.junctions as usize];
        let buffers = (&mut ticks[..], &mut predecessors[..]);
        let number = passes(network, closures, asker, 0, 10, buffers.0, buffers.1);
        (number.expect("accepted"), ticks, predecessors)
    }

    fn open(network: &Network) -> (u32, Vec<u32>, Vec<u16>) {
        passed(network, &[], BRIGADE)
    }

    /// Three junctions in a row, a metre in a tick from each to the next.
    const WITH_THE_WAY: Network = Network {
        junctions: 3,
        fences: &[0],
        tails: &[0, 1],
        heads: &[1, 2],
        lengths: &[1; 2],
        holds: &[0; 2],
        speeds: &[36; 2],
    };

    #[test]
    fn takes_two_passes_with_the_way_and_more_against_it() {
        assert_eq!(open(&TOWN), (2, vec![10, 60, 100], vec![NO_ARC, 0, 1]));
        let with = open(&WITH_THE_WAY);
        assert_eq!(with, (2, vec![10, 11, 12], vec![NO_ARC, 0, 1]));
        let against = open(&Network {
            tails: &[1, 0],
            heads: &[2, 1],
            ..WITH_THE_WAY
        });
        assert_eq!(against, (3, vec![10, 11, 12], vec![NO_ARC, 1, 0]));
    }

    #[test]
    fn takes_one_pass_where_nothing_is_reached() {
        let nothing = (1, vec![10, UNREACHED, UNREACHED], vec![NO_ARC; 3]);
        let standing = Network {
            speeds: &[0, 36],
            ..WITH_THE_WAY
        };
        assert_eq!(open(&standing), nothing);
        let without_arcs = Network {
            tails: &[],
            heads: &[],
            lengths: &[],
            holds: &[],
            speeds: &[],
            ..WITH_THE_WAY
        };
        assert_eq!(open(&without_arcs), nothing);
        let alone = Network {
            junctions: 1,
            ..without_arcs
        };
        assert_eq!(open(&alone), (1, vec![10], vec![NO_ARC]));
    }

    #[test]
    fn takes_the_lowest_of_equal_arcs_in_whichever_pass() {
        // Arc 1 is at junction 2 in the first pass, arc 0 at the same tick in the second.
        let network = Network {
            tails: &[1, 0, 0],
            heads: &[2, 2, 1],
            lengths: &[1, 2, 1],
            holds: &[0; 3],
            speeds: &[36; 3],
            ..WITH_THE_WAY
        };
        assert_eq!(open(&network), (2, vec![10, 11, 12], vec![NO_ARC, 2, 0]));
        // Arc 0 attains a label that is lowered afterwards.
        let lowered = Network {
            tails: &[0, 0, 1],
            heads: &[2, 1, 2],
            lengths: &[3, 1, 1],
            ..network
        };
        assert_eq!(open(&lowered), (2, vec![10, 11, 12], vec![NO_ARC, 1, 2]));
    }

    #[test]
    fn lowers_a_label_again_in_a_later_pass() {
        // Junction 2 by arc 1 at 20, and then at 12 by arcs 2 and 0.
        let network = Network {
            tails: &[1, 0, 0],
            heads: &[2, 2, 1],
            lengths: &[1, 10, 1],
            holds: &[0; 3],
            speeds: &[36; 3],
            ..WITH_THE_WAY
        };
        assert_eq!(open(&network), (3, vec![10, 11, 12], vec![NO_ARC, 2, 0]));
    }

    #[test]
    fn leaves_in_the_interval_of_the_label() {
        // Junction 1 is reached at 60, in the second interval, or after its hold in the third.
        for (hold, label) in [(0, 63), (40, 109)] {
            let network = Network {
                fences: &[0, 50, 100],
                lengths: &[50, 1],
                holds: &[hold, 0],
                speeds: &[36, 36, 36, 36, 12, 4],
                ..WITH_THE_WAY
            };
            let left = 60 + u32::from(hold);
            let expected = (2, vec![10, left, label], vec![NO_ARC, 0, 1]);
            assert_eq!(open(&network), expected);
        }
    }

    #[test]
    fn stands_for_its_own_closures_and_those_of_both() {
        let closure = |party, arc, end| Closure {
            arc,
            first: 10,
            end,
            party,
        };
        let closures = [
            closure(DEPOT, 1, 1_728_000),
            closure(BRIGADE, 0, 20),
            closure(BOTH_PARTIES, 0, 15),
        ];
        let brigade = passed(&TOWN, &closures, BRIGADE);
        assert_eq!(brigade, (2, vec![10, 70, 100], vec![NO_ARC, 0, 1]));
        let depot = passed(&TOWN, &closures, DEPOT);
        assert_eq!(depot, (2, vec![10, 65, 115], vec![NO_ARC, 0, 2]));
    }
}
