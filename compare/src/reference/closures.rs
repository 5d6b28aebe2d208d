use super::Refusal;
use super::limits::{BOTH_PARTIES, BRIGADE, DEPOT, LAST_TICK, MAX_CLOSURES};

/// A record of roadworks: from the first tick up to and without the end tick the speed on
/// the arc is 0 for its party. These are real ticks and do not repeat at midnight.
#[repr(C)]
#[derive(Clone, Copy, Debug, PartialEq, Eq)]
pub struct Closure {
    pub arc: u32,
    pub first: u32,
    pub end: u32,
    /// 0 for both, else the asker that it stops.
    pub party: u32,
}

impl Closure {
    fn stops(&self, asker: u32) -> bool {
        self.party == BOTH_PARTIES || self.party == asker
    }
}

/// Checks the list for a network of so many arcs, whoever asks, and then the asker.
pub(super) fn check_closures(arcs: usize, closures: &[Closure], asker: u32) -> Result<(), Refusal> {
    Refusal::CLOSURE_COUNT.unless(closures.len() <= MAX_CLOSURES)?;
    let good = |closure: &Closure| {
        (closure.arc as usize) < arcs && closure.first < closure.end && closure.end <= LAST_TICK
    };
    Refusal::CLOSURE.unless(closures.iter().all(good))?;
    let known = |closure: &Closure| closure.party <= DEPOT;
    Refusal::PARTY.unless(closures.iter().all(known))?;
    Refusal::ASKER.unless(asker == BRIGADE || asker == DEPOT)
}

/// What a checked list closes to one asker, arranged by arc.
pub(super) struct ClosedArcs {
    /// Sorted by arc and then by tick; those of one arc leave ticks between them.
    closures: Vec<Closure>,
    /// Where each arc's part of `closures` starts and ends; empty if none is closed.
    parts: Vec<(u8, u8)>,
}

impl ClosedArcs {
    /// No arc is closed.
    pub fn none() -> Self {
        Self {
            closures: Vec::new(),
            parts: Vec::new(),
        }
    }

    /// What stops the asker in a network of so many arcs.
    pub fn new(arcs: usize, closures: &[Closure], asker: u32) -> Self {
        let stopping = closures.iter().filter(|closure| closure.stops(asker));
        let mut closures: Vec<Closure> = stopping.copied().collect();
        if closures.is_empty() {
            return Self::none();
        }
        closures.sort_unstable_by_key(|closure| (closure.arc, closure.first));
        closures.dedup_by(|later, closure| {
            let joined = later.arc == closure.arc && later.first <= closure.end;
            if joined {
                closure.end = closure.end.max(later.end);
            }
            joined
        });
        let mut parts = vec![(0, 0); arcs];
        let mut end = 0;
        for part in closures.chunk_by(|one, next| one.arc == next.arc) {
            let start = end;
            end += part.len() as u8;
            parts[part[0].arc as usize] = (start, end);
        }
        Self { closures, parts }
    }

    /// The arc's closures in the order of their ticks.
    #[inline]
    pub fn of(&self, arc: usize) -> &[Closure] {
        match self.parts.get(arc) {
            Some(&(start, end)) => &self.closures[start.into()..end.into()],
            None => &[],
        }
    }
}

#[cfg(test)]
mod tests {
    use super::*;

    /// A record that stops both.
    fn closure(arc: u32, first: u32, end: u32) -> Closure {
        of_party(BOTH_PARTIES, arc, first, end)
    }

    fn of_party(party: u32, arc: u32, first: u32, end: u32) -> Closure {
        Closure {
            arc,
            first,
            end,
            party,
        }
    }

    #[test]
    fn joins_what_overlaps_or_adjoins() {
        let closed = ClosedArcs::new(
            4,
            &[
                closure(3, 50, 60),
                closure(1, 20, 30),
                closure(3, 0, 10),
                closure(1, 10, 20),
                closure(1, 31, 32),
                closure(3, 5, 8),
                closure(3, 7, 11),
                closure(3, 50, 60),
            ],
            BRIGADE,
        );
        assert_eq!(closed.of(0), []);
        assert_eq!(closed.of(1), [closure(1, 10, 30), closure(1, 31, 32)]);
        assert_eq!(closed.of(2), []);
        assert_eq!(closed.of(3), [closure(3, 0, 11), closure(3, 50, 60)]);
    }

    #[test]
    fn closes_no_arc_without_records() {
        for closed in [ClosedArcs::new(2, &[], BRIGADE), ClosedArcs::none()] {
            assert_eq!(closed.of(0), []);
            assert_eq!(closed.of(1), []);
        }
    }

    #[test]
    fn closes_to_the_asker_what_is_its_own_or_for_both() {
        let closures = [
            of_party(DEPOT, 0, 0, 90),
            of_party(BRIGADE, 0, 10, 20),
            of_party(BRIGADE, 1, 10, 20),
            of_party(BOTH_PARTIES, 2, 5, 6),
            of_party(DEPOT, 2, 6, 7),
            of_party(BRIGADE, 2, 4, 5),
        ];
        let ticks = |asker| {
            let closed = ClosedArcs::new(3, &closures, asker);
            [0, 1, 2].map(|arc| {
                let ticks = closed.of(arc).iter().map(|one| (one.first, one.end));
                ticks.collect::<Vec<_>>()
            })
        };
        assert_eq!(ticks(BRIGADE), [[(10, 20)], [(10, 20)], [(4, 6)]]);
        assert_eq!(ticks(DEPOT), [vec![(0, 90)], vec![], vec![(5, 7)]]);
        let closed = ClosedArcs::new(3, &closures[..1], BRIGADE);
        assert_eq!(closed.of(0), []);
    }

    #[test]
    fn takes_64_records_of_one_arc_or_many() {
        let of_one: Vec<Closure> = (0..64)
            .rev()
            .map(|k| closure(0, 2 * k, 2 * k + 1))
            .collect();
        let closed = ClosedArcs::new(1, &of_one, DEPOT);
        assert!(closed.of(0).iter().eq(of_one.iter().rev()));
        let of_many: Vec<Closure> = (0..64).map(|arc| closure(10 * arc, 0, 1)).collect();
        let closed = ClosedArcs::new(640, &of_many, DEPOT);
        for arc in 0..640 {
            let expected = [closure(arc, 0, 1)];
            let count = usize::from(arc % 10 == 0);
            assert_eq!(closed.of(arc as usize), &expected[..count]);
        }
    }

    #[test]
    fn refuses_each_number() {
        let number = |closures: &[Closure], asker| {
            check_closures(3, closures, asker).map_or_else(|refusal| refusal.0, |()| 0)
        };
        let check = |closures: &[Closure]| number(closures, BRIGADE);
        assert_eq!(check(&[]), 0);
        assert_eq!(check(&[closure(2, 0, 1_728_000); 64]), 0);
        assert_eq!(check(&[closure(2, 0, 1_728_000); 65]), 36);
        assert_eq!(check(&[closure(3, 0, 1_728_000); 65]), 36);
        for bad in [
            closure(3, 0, 1),
            closure(65_536, 0, 1),
            closure(u32::MAX, 0, 1),
            closure(0, 0, 0),
            closure(0, 7, 7),
            closure(0, 8, 7),
            closure(0, u32::MAX, 7),
            closure(0, 0, 1_728_001),
            closure(0, 0, u32::MAX),
            closure(0, 1_728_000, 1_728_000),
        ] {
            for place in 0..64 {
                let mut closures = [closure(0, 1_727_999, 1_728_000); 64];
                closures[place] = bad;
                assert_eq!(check(&closures), 37);
                // Also if it is the other's, and in another record than a wrong party.
                closures[place].party = DEPOT;
                closures[63 - place].party = 3;
                assert_eq!(check(&closures), 37);
            }
        }
        for bad in [3, 256, 65_537, u32::MAX] {
            for place in 0..64 {
                let mut closures = [of_party(DEPOT, 0, 0, 1); 64];
                closures[place].party = bad;
                for asker in [0, BRIGADE, DEPOT, bad] {
                    assert_eq!(number(&closures, asker), 38);
                }
            }
        }
        for bad in [0, 3, 257, 65_538, u32::MAX] {
            for count in [0, 1, 64] {
                assert_eq!(number(&vec![closure(0, 0, 1); count], bad), 39);
                assert_eq!(number(&vec![closure(0, 0, 1); count], DEPOT), 0);
            }
        }
    }
}
