use super::closures::ClosedArcs;
use super::labels::{Search, check_departure, check_source, check_with_closures};
use super::limits::{FIGURES, MAX_DEPARTURES, NO_ARC, UNREACHED};
use super::{Closure, Network, Refusal};

/// Writes a row of labels for each departure, and for each junction how many
/// departures reach it and the least, the greatest and the sum of the journeys.
pub fn sheet(
    network: &Network,
    closures: &[Closure],
    asker: u32,
    source: u32,
    departures: &[u32],
    labels: &mut [u32],
    figures: &mut [u32],
) -> Result<(), Refusal> {
    check_with_closures(network, closures, asker)?;
    check_departures(network.junctions, source, departures)?;
    let junctions = network.junctions as usize;
    let exact =
        labels.len() == departures.len() * junctions && figures.len() == FIGURES * junctions;
    Refusal::SHEET_LENGTHS.unless(exact)?;
    let closed = ClosedArcs::new(network.tails.len(), closures, asker);
    fill(network, closed, source, departures, labels, figures);
    Ok(())
}

pub(super) fn check_departures(
    junctions: u32,
    source: u32,
    departures: &[u32],
) -> Result<(), Refusal> {
    check_source(junctions, source)?;
    Refusal::DEPARTURE_COUNT.unless((1..=MAX_DEPARTURES).contains(&departures.len()))?;
    departures
        .iter()
        .try_for_each(|&departure| check_departure(departure))
}

/// Fills both buffers of a checked question.
pub(super) fn fill(
    network: &Network,
    closed: ClosedArcs,
    source: u32,
    departures: &[u32],
    labels: &mut [u32],
    figures: &mut [u32],
) {
    let search = Search::new(network, closed);
    let mut predecessors = vec![NO_ARC; network.junctions as usize];
    let rows = labels.chunks_exact_mut(network.junctions as usize);
    let (figures, _) = figures.as_chunks_mut();
    figures.fill([0; FIGURES]);
    for (row, &departure) in rows.zip(departures) {
        search.run(source, departure, row, &mut predecessors);
        for (figures, &label) in figures.iter_mut().zip(&*row) {
            if label != UNREACHED {
                add_journey(figures, label - departure);
            }
        }
    }
}

fn add_journey([reached, least, greatest, sum]: &mut [u32; FIGURES], ticks: u32) {
    *least = if *reached == 0 {
        ticks
    } else {
        ticks.min(*least)
    };
    *greatest = ticks.max(*greatest);
    *sum += ticks;
    *reached += 1;
}

#[cfg(test)]
mod tests {
    use super::super::limits::{BOTH_PARTIES, BRIGADE, DEPOT};
    use super::*;
    use crate::inputs::closures::exchanged;
    use crate::inputs::examples::{TABLE_1, TOWN};

    fn filled(network: &Network, source: u32, departures: &[u32]) -> (Vec<u32>, Vec<u32>) {
        closed(network, &[], BRIGADE, source, departures)
    }

    fn closed(
        network: &Network,
        closures: &[Closure],
        asker: u32,
        source: u32,
        departures: &[u32],
    ) -> (Vec<u32>, Vec<u32>) {
        let junctions = network.junctions as usize;
        let mut labels = vec![7; departures.len() * junctions];
        let mut figures = vec![7; 4 * junctions];
        let reply = sheet(
            network,
            closures,
            asker,
            source,
            departures,
            &mut labels,
            &mut figures,
        );
        reply.expect("accepted");
        (labels, figures)
    }

    #[test]
    fn holds_a_row_for_each_departure_in_turn() {
        let (labels, figures) = filled(&TOWN, 0, &[100, 10, 100]);
        assert_eq!(labels, [100, 200, 250, 10, 60, 100, 100, 200, 250]);
        assert_eq!(figures, [3, 0, 0, 0, 3, 50, 100, 250, 3, 90, 150, 390]);
    }

    #[test]
    fn holds_document_004() {
        let (labels, figures) = filled(&TABLE_1, 0, &[27_000, 9_000, 21_000, 24_000]);
        assert_eq!(labels[5..10], [9_000, 18_000, 26_000, 27_000, 34_000]);
        let at_d = [4, 9, 14, 19].map(|place| labels[place]);
        assert_eq!(at_d, [49_000, 34_000, 47_000, 48_000]);
        assert_eq!(figures[16..], [4, 22_000, 26_000, 97_000]);
    }

    #[test]
    fn counts_a_hold_to_the_journey() {
        let network = Network {
            holds: &[5, 0, 0],
            ..TOWN
        };
        let (labels, figures) = filled(&network, 0, &[100, 10]);
        assert_eq!(labels, [100, 205, 255, 10, 65, 100]);
        assert_eq!(figures, [2, 0, 0, 0, 2, 55, 105, 160, 2, 90, 155, 245]);
    }

    #[test]
    fn closes_in_every_row() {
        for (party, asker) in [(BOTH_PARTIES, BRIGADE), (BRIGADE, BRIGADE), (DEPOT, DEPOT)] {
            let closures = [Closure {
                arc: 0,
                first: 0,
                end: 110,
                party,
            }];
            let (labels, figures) = closed(&TOWN, &closures, asker, 0, &[100, 10]);
            assert_eq!(labels, [100, 210, 260, 10, 210, 100]);
            assert_eq!(figures, [2, 0, 0, 0, 2, 110, 200, 310, 2, 90, 160, 250]);
            if party == asker {
                let open = filled(&TOWN, 0, &[100, 10]);
                let other = closed(&TOWN, &closures, exchanged(asker), 0, &[100, 10]);
                assert_eq!(other, open);
            }
        }
    }

    #[test]
    fn shows_nothing_of_an_unreached_junction() {
        let (labels, figures) = filled(&TOWN, 1, &[863_999, 0]);
        assert_eq!(labels, [UNREACHED, 863_999, 864_049, UNREACHED, 0, 50]);
        assert_eq!(figures, [0, 0, 0, 0, 2, 0, 0, 0, 2, 50, 50, 100]);
    }

    #[test]
    fn counts_the_departures_that_reach_it_alone() {
        // A metre in each of the ticks 10 to 109 of a day. Who leaves after them on the
        // first day has 100 metres for a length of 101; who leaves at 109 has one more.
        let network = Network {
            junctions: 2,
            fences: &[0, 10, 110],
            tails: &[0],
            heads: &[1],
            lengths: &[101],
            holds: &[0],
            speeds: &[0, 36, 0],
        };
        let (labels, figures) = filled(&network, 0, &[110, 109, 863_999, 0]);
        let late = UNREACHED;
        assert_eq!(labels, [110, late, 109, 864_110, 863_999, late, 0, 864_011]);
        assert_eq!(figures, [4, 0, 0, 0, 2, 864_001, 864_011, 1_728_012]);
    }

    #[test]
    fn takes_up_to_96_departures() {
        for count in [1, 2, 95, 96] {
            let (_, figures) = filled(&TOWN, 0, &vec![10; count]);
            let count = count as u32;
            let expected = [count, 0, 0, 0, count, 50, 50, 50 * count];
            assert_eq!(figures[..8], expected);
        }
    }

    #[test]
    fn refuses_in_the_papers_order_and_changes_nothing() {
        let bad = Network {
            lengths: &[50, 0, 50],
            ..TOWN
        };
        let held = Network {
            holds: &[0, 1_201, 0],
            ..TOWN
        };
        let late = [0, 864_000];
        let many = [864_000; 97];
        let late_end = [Closure {
            arc: 0,
            first: 9,
            end: 1_728_001,
            party: 3,
        }; 65];
        let of_nobody = [Closure {
            end: 10,
            ..late_end[0]
        }];
        for (closures, number) in [
            (&late_end[..], 36),
            (&late_end[1..], 37),
            (&of_nobody, 38),
            (&[], 39),
        ] {
            let reply = sheet(&TOWN, closures, 0, 3, &many, &mut [7; 2], &mut [7; 2]);
            assert_eq!(reply.unwrap_err().0, number);
            let reply = sheet(&held, closures, 0, 3, &many, &mut [7; 2], &mut [7; 2]);
            assert_eq!(reply.unwrap_err().0, 32);
        }
        for (network, source, departures, lengths, number) in [
            (&bad, 3, &many[..], (2, 2), 7),
            (&held, 3, &many, (2, 2), 32),
            (&TOWN, 3, &many, (2, 2), 9),
            (&TOWN, 3, &[], (0, 12), 9),
            (&TOWN, 2, &many, (291, 12), 30),
            (&TOWN, 2, &[], (0, 12), 30),
            (&TOWN, 2, &[], (0, 11), 30),
            (&TOWN, 2, &late, (6, 12), 10),
            (&TOWN, 2, &late, (5, 11), 10),
            (&TOWN, 2, &[0, 1], (5, 12), 31),
            (&TOWN, 2, &[0, 1], (7, 12), 31),
            (&TOWN, 2, &[0, 1], (6, 11), 31),
            (&TOWN, 2, &[0, 1], (6, 13), 31),
            (&TOWN, 2, &[0, 1], (3, 12), 31),
        ] {
            let mut labels = vec![7; lengths.0];
            let mut figures = vec![7; lengths.1];
            let buffers = (&mut labels[..], &mut figures[..]);
            let reply = sheet(
                network,
                &[],
                DEPOT,
                source,
                departures,
                buffers.0,
                buffers.1,
            );
            assert_eq!(reply.unwrap_err().0, number);
            assert!(labels.iter().all(|&label| label == 7));
            assert!(figures.iter().all(|&figure| figure == 7));
        }
    }
}
