use super::Refusal;
use super::limits::{DAY, MAX_ARCS, MAX_HOLD, MAX_INTERVALS, MAX_JUNCTIONS, MAX_LENGTH, MAX_SPEED};

/// A network as lent tables; the arc count is the length of `tails`.
#[derive(Clone, Copy, Debug)]
pub struct Network<'a> {
    pub junctions: u32,
    pub fences: &'a [u32],
    pub tails: &'a [u16],
    pub heads: &'a [u16],
    pub lengths: &'a [u32],
    /// What each arc's stop line adds to an arrival.
    pub holds: &'a [u16],
    /// One speed per interval, arc by arc.
    pub speeds: &'a [u8],
}

impl<'a> Network<'a> {
    pub fn arc_speeds(&self, arc: usize) -> &'a [u8] {
        let intervals = self.fences.len();
        &self.speeds[arc * intervals..][..intervals]
    }
}

pub fn network_check(network: &Network) -> Result<(), Refusal> {
    let &Network {
        junctions,
        fences,
        tails,
        heads,
        lengths,
        holds,
        speeds,
    } = network;
    let arcs = tails.len();

    Refusal::JUNCTION_COUNT.unless((1..=MAX_JUNCTIONS).contains(&junctions))?;
    check_fence_count(fences)?;
    Refusal::ARC_COUNT.unless(arcs <= MAX_ARCS)?;
    let as_long = heads.len() == arcs
        && lengths.len() == arcs
        && holds.len() == arcs
        && speeds.len() == arcs * fences.len();
    Refusal::TABLE_LENGTHS.unless(as_long)?;
    check_fences(fences)?;
    check_ends(junctions, tails, heads)?;
    lengths
        .iter()
        .try_for_each(|&length| check_length(length))?;
    check_speeds(speeds)?;
    check_holds(holds)
}

pub(super) fn check_fence_count(fences: &[u32]) -> Result<(), Refusal> {
    Refusal::FENCE_COUNT.unless((1..=MAX_INTERVALS).contains(&fences.len()))
}

pub(super) fn check_fences(fences: &[u32]) -> Result<(), Refusal> {
    let start_at_zero = fences.first() == Some(&0);
    let rise = fences.is_sorted_by(|earlier, later| earlier < later);
    let within_day = fences.last().is_some_and(|&last| last < DAY);
    Refusal::FENCES.unless(start_at_zero && rise && within_day)
}

fn check_ends(junctions: u32, tails: &[u16], heads: &[u16]) -> Result<(), Refusal> {
    let mut ends = tails.iter().zip(heads);
    let joins_two = |(&tail, &head): (&u16, &u16)| {
        u32::from(tail) < junctions && u32::from(head) < junctions && tail != head
    };
    Refusal::ARC_ENDS.unless(ends.all(joins_two))
}

pub(super) fn check_length(length: u32) -> Result<(), Refusal> {
    Refusal::LENGTH.unless((1..=MAX_LENGTH).contains(&length))
}

pub(super) fn check_speeds(speeds: &[u8]) -> Result<(), Refusal> {
    // A maximum has no early exit, so the compiler can take many bytes at once.
    let fastest = speeds.iter().fold(0, |fastest, &speed| speed.max(fastest));
    Refusal::SPEED.unless(fastest <= MAX_SPEED)
}

fn check_holds(holds: &[u16]) -> Result<(), Refusal> {
    // As with the speeds.
    let longest = holds.iter().fold(0, |longest, &hold| hold.max(longest));
    check_hold(longest.into())
}

pub(super) fn check_hold(hold: u32) -> Result<(), Refusal> {
    Refusal::HOLD.unless(hold <= MAX_HOLD.into())
}

#[cfg(test)]
mod tests {
    use super::*;
    use crate::inputs::examples::TOWN;

    fn refused(network: Network) -> u32 {
        network_check(&network).map_or_else(|refusal| refusal.0, |()| 0)
    }

    /// A network of `arcs` equal arcs over `intervals` intervals.
    fn check_size(junctions: u32, intervals: u32, arcs: usize) -> u32 {
        let fences: Vec<u32> = (0..intervals).collect();
        refused(Network {
            junctions,
            fences: &fences,
            tails: &vec![0; arcs],
            heads: &vec![1; arcs],
            lengths: &vec![1; arcs],
            holds: &vec![1_200; arcs],
            speeds: &vec![200; arcs * fences.len()],
        })
    }

    #[test]
    fn accepts_up_to_every_limit() {
        assert_eq!(refused(TOWN), 0);
        assert_eq!(check_size(200, 96, 640), 0);
        assert_eq!(check_size(1, 1, 0), 0);
    }

    #[test]
    fn refuses_sizes_beyond_the_limits() {
        assert_eq!(check_size(0, 1, 0), 1);
        assert_eq!(check_size(201, 1, 0), 1);
        assert_eq!(check_size(2, 0, 0), 2);
        assert_eq!(check_size(2, 97, 0), 2);
        assert_eq!(check_size(2, 1, 641), 3);
    }

    #[test]
    fn refuses_tables_of_unequal_length() {
        let heads = [1, 2, 2, 1];
        let lengths = [50, 100, 50, 50];
        let holds = [0; 4];
        let speeds = [36; 7];
        for shift in [2, 4] {
            let heads = &heads[..shift];
            let lengths = &lengths[..shift];
            let holds = &holds[..shift];
            assert_eq!(refused(Network { heads, ..TOWN }), 4);
            assert_eq!(refused(Network { lengths, ..TOWN }), 4);
            assert_eq!(refused(Network { holds, ..TOWN }), 4);
        }
        for count in [5, 7] {
            let speeds = &speeds[..count];
            assert_eq!(refused(Network { speeds, ..TOWN }), 4);
        }
    }

    #[test]
    fn refuses_broken_fences() {
        for fences in [[1, 100], [0, 0], [0, 864_000]] {
            let fences = &fences;
            assert_eq!(refused(Network { fences, ..TOWN }), 5);
        }
        let fences = &[0, 863_999];
        assert_eq!(refused(Network { fences, ..TOWN }), 0);
    }

    #[test]
    fn refuses_wrong_ends() {
        for tails in [[3, 0, 1], [0, 0, 2], [0, 65_535, 1]] {
            let tails = &tails;
            assert_eq!(refused(Network { tails, ..TOWN }), 6);
        }
        let heads = &[1, 2, 3];
        assert_eq!(refused(Network { heads, ..TOWN }), 6);
    }

    #[test]
    fn refuses_values_out_of_range() {
        for (length, number) in [(0, 7), (1, 0), (100_000, 0), (100_001, 7)] {
            let lengths = &[50, 100, length];
            assert_eq!(refused(Network { lengths, ..TOWN }), number);
        }
        for (speed, number) in [(0, 0), (200, 0), (201, 8), (255, 8)] {
            let speeds = &[36, 18, 40, 20, 36, speed];
            assert_eq!(refused(Network { speeds, ..TOWN }), number);
        }
        for (hold, number) in [(0, 0), (1, 0), (1_200, 0), (1_201, 32), (65_535, 32)] {
            for place in 0..3 {
                let mut holds = [1_200; 3];
                holds[place] = hold;
                let holds = &holds;
                assert_eq!(refused(Network { holds, ..TOWN }), number);
            }
        }
    }

    #[test]
    fn refuses_in_the_papers_order() {
        let tails = &[0; 641];
        let mut network = Network {
            junctions: 201,
            fences: &[],
            tails,
            heads: &[9],
            lengths: &[0],
            holds: &[1_201],
            speeds: &[201],
        };
        assert_eq!(refused(network), 1);
        network.junctions = 9;
        assert_eq!(refused(network), 2);
        network.fences = &[1];
        assert_eq!(refused(network), 3);
        network.tails = &tails[..2];
        assert_eq!(refused(network), 4);
        network.tails = &tails[..1];
        assert_eq!(refused(network), 5);
        network.fences = &[0];
        assert_eq!(refused(network), 6);
        network.heads = &[8];
        assert_eq!(refused(network), 7);
        network.lengths = &[1];
        assert_eq!(refused(network), 8);
        network.speeds = &[200];
        assert_eq!(refused(network), 32);
        network.holds = &[1_200];
        assert_eq!(refused(network), 0);
    }

    #[test]
    fn checks_each_table_whole_before_the_next() {
        let network = Network {
            lengths: &[0, 100, 50],
            tails: &[0, 0, 2],
            ..TOWN
        };
        assert_eq!(refused(network), 6);
        let network = Network {
            holds: &[1_201, 0, 0],
            speeds: &[36, 18, 40, 20, 36, 201],
            ..TOWN
        };
        assert_eq!(refused(network), 8);
    }
}
