use super::arc::{Departure, interval_at};
use super::closures::ClosedArcs;
use super::labels::{check_buffers, check_start, check_with_closures};
use super::limits::{DAY, LAST_TICK, MAX_SPEED, NO_ARC, SPANS_PER_METRE, UNREACHED};
use super::{Closure, Network, Refusal};

/// Whether every label is right and every predecessor an arc into its junction that attains
/// its label from its tail's label. By the definition: the labels are reckoned and compared.
pub fn tables_check(
    network: &Network,
    closures: &[Closure],
    asker: u32,
    source: u32,
    departure: u32,
    labels: &[u32],
    predecessors: &[u16],
) -> Result<bool, Refusal> {
    let mut right = vec![0; labels.len()];
    // An arc with a higher number may stand there as well, so these are not compared.
    let mut lowest = vec![0; predecessors.len()];
    let tables = (&mut right[..], &mut lowest[..]);
    super::labels(
        network, closures, asker, source, departure, tables.0, tables.1,
    )?;
    if labels != right {
        return Ok(false);
    }
    let closed = ClosedArcs::new(network.tails.len(), closures, asker);
    let attains = |arc: usize, junction: usize| {
        let (Some(&tail), Some(&head)) = (network.tails.get(arc), network.heads.get(arc)) else {
            return false; // no arc
        };
        let left = labels[usize::from(tail)];
        if usize::from(head) != junction || left == UNREACHED {
            return false;
        }
        let start = Departure::new(left, interval_at(left % DAY, network.fences));
        let length = network.lengths[arc];
        let hold = network.holds[arc].into();
        let speeds = network.arc_speeds(arc);
        let drive = start.drive(length, hold, network.fences, speeds, closed.of(arc));
        drive.is_some_and(|arrival| arrival.tick == labels[junction])
    };
    let mut places = predecessors.iter().enumerate();
    Ok(places.all(|(junction, &predecessor)| {
        if junction == source as usize || labels[junction] == UNREACHED {
            predecessor == NO_ARC
        } else {
            attains(predecessor.into(), junction)
        }
    }))
}

/// The same without reckoning a label. The source has the departure, and no arc would lower a
/// label, so none is too late. Each is attained by an arc from an earlier one, so none is too
/// early: back along the predecessors the labels fall, and only the source has no predecessor.
pub fn certificate_check(
    network: &Network,
    closures: &[Closure],
    asker: u32,
    source: u32,
    departure: u32,
    labels: &[u32],
    predecessors: &[u16],
) -> Result<bool, Refusal> {
    check_with_closures(network, closures, asker)?;
    check_start(network.junctions, source, departure)?;
    check_buffers(network.junctions, labels, predecessors)?;
    let Some(starts) = starts(network, source, departure, labels, predecessors) else {
        return Ok(false);
    };
    let closed = ClosedArcs::new(network.tails.len(), closures, asker);
    let ends = network.tails.iter().zip(network.heads);
    let streets = network.lengths.iter().zip(network.holds);
    let speeds = network.speeds.chunks_exact(network.fences.len());
    for (arc, ((ends, street), speeds)) in ends.zip(streets).zip(speeds).enumerate() {
        let (tail, head) = (usize::from(*ends.0), usize::from(*ends.1));
        let (&length, &hold) = street;
        let named = usize::from(predecessors[head]) == arc;
        // Who is at the stop line by this tick leaves it before the head's label, or, if the
        // head is unreached, by the last tick.
        let last = labels[head]
            .min(LAST_TICK + 1)
            .checked_sub(1 + u32::from(hold));
        let Some(ticks) = last.and_then(|last| last.checked_sub(labels[tail])) else {
            if named {
                return Ok(false);
            }
            continue; // the tail is unreached or left too late
        };
        let spans = SPANS_PER_METRE * length;
        if !named && u32::from(MAX_SPEED) * ticks < spans {
            continue; // too long for any speed
        }
        let end = labels[tail] + ticks;
        let (covered, speed) =
            starts[tail].cover_until(end, network.fences, speeds, closed.of(arc));
        let lowers = covered >= spans;
        let attains = !lowers && covered + speed >= spans;
        if lowers || named && !attains {
            return Ok(false);
        }
    }
    Ok(true)
}

/// How each reached junction is left, or `None` if a junction's entries are wrong whatever the
/// arcs take: the source's, an unreached one's, a label after the last tick, or a predecessor
/// that is no arc into its junction.
fn starts(
    network: &Network,
    source: u32,
    departure: u32,
    labels: &[u32],
    predecessors: &[u16],
) -> Option<Vec<Departure>> {
    let mut starts = Vec::with_capacity(labels.len());
    for (junction, (&label, &predecessor)) in (0..).zip(labels.iter().zip(predecessors)) {
        let head = network.heads.get(usize::from(predecessor));
        let good = if junction == source {
            label == departure && predecessor == NO_ARC
        } else if label == UNREACHED {
            predecessor == NO_ARC
        } else {
            label <= LAST_TICK && head.is_some_and(|&head| u32::from(head) == junction)
        };
        if !good {
            return None;
        }
        let interval = match label {
            UNREACHED => 0, // no arc is left there
            label => interval_at(label % DAY, network.fences),
        };
        starts.push(Departure::new(label, interval));
    }
    Some(starts)
}

#[cfg(test)]
mod tests {
    use super::super::limits::BRIGADE;
    use super::*;
    use crate::inputs::Random;
    use crate::inputs::closures::{random_asker, random_closures};
    use crate::inputs::examples::TOWN;
    use crate::inputs::networks::{random_departure, random_network};
    use crate::inputs::tables::Question;

    /// The answer to a question from junction 0 at 10, on which both ways agree.
    fn says(network: &Network, closures: &[Closure], labels: &[u32], predecessors: &[u16]) -> bool {
        let [defined, certified] = [tables_check, certificate_check].map(|check| {
            let reply = check(network, closures, BRIGADE, 0, 10, labels, predecessors);
            reply.expect("accepted")
        });
        assert_eq!(defined, certified);
        defined
    }

    #[test]
    fn takes_the_papers_town_and_nothing_else() {
        let (labels, predecessors) = ([10, 60, 100], [NO_ARC, 0, 1]);
        assert!(says(&TOWN, &[], &labels, &predecessors));
        for junction in 0..3 {
            for label in [0, 9, 11, 60, 99, 101, LAST_TICK, LAST_TICK + 1, UNREACHED] {
                let mut sent = labels;
                sent[junction] = label;
                assert_eq!(says(&TOWN, &[], &sent, &predecessors), sent == labels);
            }
            for arc in [0, 1, 2, 3, NO_ARC - 1, NO_ARC] {
                let mut sent = predecessors;
                sent[junction] = arc;
                assert_eq!(says(&TOWN, &[], &labels, &sent), sent == predecessors);
            }
        }
    }

    #[test]
    fn takes_any_arc_that_attains_the_label() {
        // Arc 1 stands for five ticks and is at junction 2 when arc 2 is.
        let closures = [Closure {
            arc: 1,
            first: 15,
            end: 20,
            party: BRIGADE,
        }];
        for arc in [1, 2] {
            assert!(says(&TOWN, &closures, &[10, 60, 110], &[NO_ARC, 0, arc]));
            assert!(!says(&TOWN, &[], &[10, 60, 110], &[NO_ARC, 0, arc]));
        }
        assert!(!says(&TOWN, &closures, &[10, 60, 100], &[NO_ARC, 0, 1]));
    }

    #[test]
    fn leaves_labels_that_cannot_be_left() {
        // Junctions 1 and 2 are not reached and name each other.
        let network = Network {
            tails: &[1, 2],
            heads: &[2, 1],
            lengths: &[1; 2],
            holds: &[0; 2],
            speeds: &[36; 4],
            ..TOWN
        };
        for first in [0, 10, LAST_TICK - 1, LAST_TICK, UNREACHED - 1, UNREACHED] {
            for second in [first, first.wrapping_add(1), first.wrapping_sub(1)] {
                assert!(!says(&network, &[], &[10, first, second], &[NO_ARC, 1, 0]));
            }
        }
        assert!(says(
            &network,
            &[],
            &[10, UNREACHED, UNREACHED],
            &[NO_ARC; 3]
        ));
    }

    #[test]
    fn refuses_as_labels_does() {
        for (asker, source, departure, lengths, number) in [
            (3, 3, 864_000, (2, 2), 39),
            (1, 3, 864_000, (2, 2), 9),
            (2, 2, 864_000, (2, 2), 10),
            (1, 2, 863_999, (2, 3), 11),
            (2, 2, 863_999, (3, 4), 11),
        ] {
            for check in [tables_check, certificate_check] {
                let (labels, predecessors) = (vec![7; lengths.0], vec![7; lengths.1]);
                let reply = check(&TOWN, &[], asker, source, departure, &labels, &predecessors);
                assert_eq!(reply, Err(Refusal(number)));
            }
        }
    }

    #[test]
    fn agrees_with_the_certificate() {
        let random = &mut Random::new(1);
        let mut answers = [0; 2];
        for _ in 0..3_000 {
            let network = random_network(random);
            let source = random.below(network.junctions);
            let departure = random_departure(random, &network.fences);
            let closures = random_closures(random, &network, source, departure);
            let asker = random_asker(random);
            let question = Question {
                network,
                closures,
                asker,
                source,
                departure,
            };
            for _ in 0..4 {
                let (labels, predecessors) = question.random_tables(random);
                let network = &question.network.lent();
                let closures = &question.closures;
                let [defined, certified] = [tables_check, certificate_check].map(|check| {
                    check(
                        network,
                        closures,
                        asker,
                        source,
                        departure,
                        &labels,
                        &predecessors,
                    )
                });
                assert_eq!(defined, certified);
                answers[usize::from(defined.expect("a good question"))] += 1;
            }
        }
        assert!(answers.iter().all(|&count| count > 1_000), "{answers:?}");
    }
}
