use super::closures::ClosedArcs;
use super::labels::{Search, check_start, check_with_closures};
use super::limits::{NO_ARC, UNREACHED};
use super::{Closure, Network, Refusal};

/// Writes the route's arcs in driving order and returns their count.
pub fn route(
    network: &Network,
    closures: &[Closure],
    asker: u32,
    source: u32,
    departure: u32,
    destination: u32,
    arcs: &mut [u16],
) -> Result<u32, Refusal> {
    check_with_closures(network, closures, asker)?;
    let closed = ClosedArcs::new(network.tails.len(), closures, asker);
    let reached = reach(network, closed, source, departure, destination)?;
    let route = reached.route(network);
    let list = arcs.get_mut(..route.len()).ok_or(Refusal::LIST_TOO_SHORT)?;
    list.copy_from_slice(&route);
    Ok(route.len() as u32)
}

/// A reached destination.
pub(super) struct Reached {
    pub label: u32,
    destination: usize,
    predecessors: Vec<u16>,
}

impl Reached {
    /// Follows the predecessors back from the destination to the source.
    fn route(&self, network: &Network) -> Vec<u16> {
        let mut route = Vec::new();
        let mut junction = self.destination;
        while self.predecessors[junction] != NO_ARC {
            let arc = self.predecessors[junction];
            route.push(arc);
            junction = usize::from(network.tails[usize::from(arc)]);
        }
        route.reverse();
        route
    }
}

/// Labels a checked network with what is closed for one question, with refusals 9 to 13.
pub(super) fn reach(
    network: &Network,
    closed: ClosedArcs,
    source: u32,
    departure: u32,
    destination: u32,
) -> Result<Reached, Refusal> {
    check_start(network.junctions, source, departure)?;
    Refusal::DESTINATION.unless(destination < network.junctions)?;
    let destination = destination as usize;
    let mut labels = vec![UNREACHED; network.junctions as usize];
    let mut predecessors = vec![NO_ARC; network.junctions as usize];
    Search::new(network, closed).run(source, departure, &mut labels, &mut predecessors);
    let label = labels[destination];
    Refusal::UNREACHED.unless(label != UNREACHED)?;
    Ok(Reached {
        label,
        destination,
        predecessors,
    })
}

#[cfg(test)]
mod tests {
    use super::super::limits::{BOTH_PARTIES, BRIGADE, DEPOT};
    use super::*;
    use crate::inputs::examples::TOWN;

    fn found(network: &Network, source: u32, departure: u32, destination: u32) -> (u32, Vec<u16>) {
        closed(network, &[], BRIGADE, source, departure, destination)
    }

    fn closed(
        network: &Network,
        closures: &[Closure],
        asker: u32,
        source: u32,
        departure: u32,
        destination: u32,
    ) -> (u32, Vec<u16>) {
        let closed = ClosedArcs::new(network.tails.len(), closures, asker);
        let reached = reach(network, closed, source, departure, destination).expect("reached");
        let mut arcs = [7; 3];
        let reply = route(
            network,
            closures,
            asker,
            source,
            departure,
            destination,
            &mut arcs,
        );
        let count = reply.expect("accepted");
        let (arcs, behind) = arcs.split_at(count as usize);
        assert!(behind.iter().all(|&arc| arc == 7));
        (reached.label, arcs.to_vec())
    }

    #[test]
    fn follows_predecessors() {
        assert_eq!(found(&TOWN, 0, 10, 2), (100, vec![1]));
        assert_eq!(found(&TOWN, 0, 100, 2), (250, vec![0, 2]));
    }

    #[test]
    fn goes_around_a_hold() {
        for (hold, route) in [(10, (110, vec![1])), (11, (110, vec![0, 2]))] {
            let network = Network {
                holds: &[0, hold, 0],
                ..TOWN
            };
            assert_eq!(found(&network, 0, 10, 2), route);
        }
    }

    #[test]
    fn goes_around_a_closure() {
        for (end, route) in [(20, (110, vec![1])), (21, (110, vec![0, 2]))] {
            for (party, asker) in [
                (BOTH_PARTIES, BRIGADE),
                (BOTH_PARTIES, DEPOT),
                (DEPOT, DEPOT),
            ] {
                let closures = [Closure {
                    arc: 1,
                    first: 15,
                    end,
                    party,
                }];
                assert_eq!(closed(&TOWN, &closures, asker, 0, 10, 2), route);
            }
        }
    }

    #[test]
    fn goes_through_the_others_closure() {
        for (party, asker) in [(BRIGADE, DEPOT), (DEPOT, BRIGADE)] {
            let closures = [Closure {
                arc: 1,
                first: 0,
                end: 1_728_000,
                party,
            }];
            assert_eq!(closed(&TOWN, &closures, asker, 0, 10, 2), (100, vec![1]));
        }
    }

    #[test]
    fn goes_from_the_source_to_itself_by_no_arc() {
        assert_eq!(found(&TOWN, 2, 863_999, 2), (863_999, vec![]));
    }

    #[test]
    fn refuses_in_the_papers_order_and_changes_nothing() {
        let bad = Network {
            junctions: 2,
            ..TOWN
        };
        let held = Network {
            holds: &[1_201, 0, 0],
            ..TOWN
        };
        let empty = [Closure {
            arc: 0,
            first: 9,
            end: 9,
            party: 3,
        }; 65];
        let of_nobody = [Closure {
            first: 8,
            ..empty[0]
        }];
        for (network, closures, asker, source, departure, destination, number) in [
            (&bad, &empty[..], 0, 3, 864_000, 3, 6),
            (&held, &empty, 0, 3, 864_000, 3, 32),
            (&TOWN, &empty, 0, 3, 864_000, 3, 36),
            (&TOWN, &empty[1..], 0, 3, 864_000, 3, 37),
            (&TOWN, &of_nobody, 0, 3, 864_000, 3, 38),
            (&TOWN, &[], 0, 3, 864_000, 3, 39),
            (&TOWN, &[], 1, 3, 864_000, 3, 9),
            (&TOWN, &[], 2, 0, 864_000, 3, 10),
            (&TOWN, &[], 1, 2, 100, 3, 12),
            (&TOWN, &[], 2, 2, 100, 0, 13),
            (&TOWN, &[], 1, 0, 100, 2, 14),
        ] {
            let mut arcs = [7; 1];
            let reply = route(
                network,
                closures,
                asker,
                source,
                departure,
                destination,
                &mut arcs,
            );
            assert_eq!(reply.unwrap_err().0, number);
            assert_eq!(arcs, [7; 1]);
        }
    }
}
