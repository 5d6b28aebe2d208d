use std::ops::ControlFlow;

use super::limits::{DAY, LAST_TICK, SPANS_PER_METRE};
use super::network::{check_fence_count, check_fences, check_hold, check_length, check_speeds};
use super::{Closure, Refusal};

/// A tick of arrival and the interval that contains its remainder by the day.
#[derive(Clone, Copy, Debug, PartialEq, Eq)]
pub struct Arrival {
    pub tick: u32,
    pub interval: u32,
}

/// The arrival on one arc, or `None` if it cannot be driven.
pub fn arc_arrival(
    departure: u32,
    interval: u32,
    length: u32,
    hold: u32,
    fences: &[u32],
    speeds: &[u8],
) -> Result<Option<Arrival>, Refusal> {
    check_fence_count(fences)?;
    Refusal::TABLE_LENGTHS.unless(speeds.len() == fences.len())?;
    check_fences(fences)?;
    check_length(length)?;
    check_speeds(speeds)?;
    check_hold(hold)?;
    Refusal::DEPARTURE_AFTER_LAST.unless(departure <= LAST_TICK)?;
    Refusal::DEPARTURE_INTERVAL.unless(contains(fences, interval, departure % DAY))?;
    Ok(Departure::new(departure, interval).drive(length, hold, fences, speeds, &[]))
}

/// Whether there is this interval and it contains the tick of the first day.
fn contains(fences: &[u32], interval: u32, tick: u32) -> bool {
    let interval = interval as usize;
    let started = fences.get(interval).is_some_and(|&fence| fence <= tick);
    let next = fences.get(interval + 1);
    started && next.is_none_or(|&fence| tick < fence)
}

/// The interval that contains a tick of the first day.
pub(super) fn interval_at(tick: u32, fences: &[u32]) -> u32 {
    // The first fence is 0, so at least one fence is not after the tick.
    fences.partition_point(|&fence| fence <= tick) as u32 - 1
}

/// What a drive ends with, or the spans that are left of it.
type Drive = ControlFlow<Option<Arrival>, u32>;

/// A tick at which arcs are left, and where in its day it lies.
#[derive(Clone, Copy)]
pub(super) struct Departure {
    tick: u32,
    /// The tick at which its day starts.
    midnight: u32,
    /// The interval that contains its remainder by the day.
    interval: usize,
}

impl Departure {
    pub fn new(tick: u32, interval: u32) -> Self {
        Self {
            tick,
            midnight: tick - tick % DAY,
            interval: interval as usize,
        }
    }

    /// Drives a checked arc, and stands on it while it is closed. At its end the hold is
    /// waited out. The closures are in the order of their ticks.
    #[inline]
    pub fn drive(
        self,
        length: u32,
        hold: u32,
        fences: &[u32],
        speeds: &[u8],
        closures: &[Closure],
    ) -> Option<Arrival> {
        let spans = SPANS_PER_METRE * length;
        let drive = if closures.is_empty() {
            self.drive_open(None, spans, hold, fences, speeds)
        } else {
            self.drive_between(closures, spans, hold, fences, speeds)
        };
        drive.break_value().flatten()
    }

    /// Drives up to each closure that is to come, and on from its end.
    fn drive_between(
        mut self,
        closures: &[Closure],
        mut spans: u32,
        hold: u32,
        fences: &[u32],
        speeds: &[u8],
    ) -> Drive {
        for closure in closures {
            if self.tick < closure.first {
                spans = self.drive_open(Some(closure.first), spans, hold, fences, speeds)?;
            }
            if self.tick < closure.end {
                let interval = interval_at(closure.end % DAY, fences);
                self = Self::new(closure.end, interval);
            }
        }
        self.drive_open(None, spans, hold, fences, speeds)
    }

    /// Drives so many spans, day by day: at midnight the speeds start again. Stops at the
    /// given tick, or else at the last one, if they are not covered by then.
    #[inline(always)]
    fn drive_open(
        self,
        until: Option<u32>,
        spans: u32,
        hold: u32,
        fences: &[u32],
        speeds: &[u8],
    ) -> Drive {
        let mut tick = self.tick;
        let mut remaining = spans;
        let mut midnight = self.midnight;
        let mut first = self.interval;
        // The last tick is itself a midnight, so no day reaches beyond it.
        while midnight < LAST_TICK {
            for (interval, &speed) in speeds.iter().enumerate().skip(first) {
                let end = midnight + fences.get(interval + 1).copied().unwrap_or(DAY);
                let stop = until.map_or(end, |until| until.min(end));
                let speed = u32::from(speed);
                let covered = speed * (stop - tick);
                if remaining <= covered {
                    let tick = tick + remaining.div_ceil(speed) + hold;
                    if tick < end {
                        let interval = interval as u32;
                        return Drive::Break(Some(Arrival { tick, interval }));
                    }
                    return Drive::Break(arrival_after(interval, midnight, tick, fences));
                }
                remaining -= covered;
                if until == Some(stop) {
                    return Drive::Continue(remaining);
                }
                tick = end;
            }
            midnight += DAY;
            first = 0;
        }
        Drive::Continue(remaining)
    }

    /// The spans that are covered up to and without the end tick, which is not before the
    /// departure nor after the last one, and the speed of the end tick itself.
    #[inline]
    pub fn cover_until(
        mut self,
        end: u32,
        fences: &[u32],
        speeds: &[u8],
        closures: &[Closure],
    ) -> (u32, u32) {
        let mut spans = 0;
        for closure in closures.iter().take_while(|closure| closure.first <= end) {
            if self.tick < closure.first {
                spans += self.cover_open_until(closure.first, fences, speeds).0;
            }
            if end < closure.end {
                return (spans, 0);
            }
            if self.tick < closure.end {
                let interval = interval_at(closure.end % DAY, fences);
                self = Self::new(closure.end, interval);
            }
        }
        let (rest, speed) = self.cover_open_until(end, fences, speeds);
        (spans + rest, speed)
    }

    #[inline(always)]
    fn cover_open_until(self, end: u32, fences: &[u32], speeds: &[u8]) -> (u32, u32) {
        let Self {
            mut tick,
            mut midnight,
            mut interval,
        } = self;
        let mut spans = 0;
        loop {
            let speed = u32::from(speeds[interval]);
            interval += 1;
            let next = midnight + fences.get(interval).copied().unwrap_or(DAY);
            if end < next {
                return (spans + speed * (end - tick), speed);
            }
            spans += speed * (next - tick);
            tick = next;
            if interval == fences.len() {
                midnight += DAY;
                interval = 0;
            }
        }
    }
}

/// The arrival at a tick after this interval of the day that starts at this midnight, or
/// `None` if it is after the last one.
fn arrival_after(interval: usize, midnight: u32, tick: u32, fences: &[u32]) -> Option<Arrival> {
    if tick > LAST_TICK {
        return None;
    }
    let since_midnight = tick - midnight;
    // A hold is shorter than a day, so at most one midnight comes between.
    let (mut interval, remainder) = if since_midnight < DAY {
        (interval + 1, since_midnight)
    } else {
        (0, since_midnight - DAY)
    };
    while fences
        .get(interval + 1)
        .is_some_and(|&fence| fence <= remainder)
    {
        interval += 1;
    }
    let interval = interval as u32;
    Some(Arrival { tick, interval })
}

#[cfg(test)]
mod tests {
    use super::*;

    /// A tick and its interval.
    type Moment = (u32, u32);

    /// The arrival, with a hold, for a departure.
    fn held(
        length: u32,
        hold: u32,
        fences: &[u32],
        speeds: &[u8],
        (departure, interval): Moment,
    ) -> Option<Moment> {
        let reply = arc_arrival(departure, interval, length, hold, fences, speeds);
        let arrival = reply.expect("accepted")?;
        Some((arrival.tick, arrival.interval))
    }

    /// The arrival without a hold.
    fn arrival(length: u32, fences: &[u32], speeds: &[u8], departure: Moment) -> Option<Moment> {
        held(length, 0, fences, speeds, departure)
    }

    /// The number that refuses a departure with its interval, or 0.
    fn refused(
        (departure, interval): Moment,
        length: u32,
        hold: u32,
        fences: &[u32],
        speeds: &[u8],
    ) -> u32 {
        let reply = arc_arrival(departure, interval, length, hold, fences, speeds);
        reply.map_or_else(|refusal| refusal.0, |_| 0)
    }

    #[test]
    fn stops_at_the_edges_of_time_and_speed() {
        assert_eq!(arrival(1, &[0], &[200], (1_728_000, 0)), None);
        let last = Some((1_728_000, 0));
        assert_eq!(arrival(1, &[0], &[200], (1_727_999, 0)), last);
        assert_eq!(arrival(100_000, &[0], &[0], (0, 0)), None);
        assert_eq!(arrival(100_000, &[0], &[200], (0, 0)), Some((18_000, 0)));
        // One span in the last tick of either day, where 36 are to be covered.
        assert_eq!(arrival(1, &[0, 863_999], &[0, 1], (0, 0)), None);
    }

    #[test]
    fn adds_up_over_several_intervals() {
        // 72 spans: 10 in the first interval, none in the second, 62 at 20.
        let fences = [0, 10, 20];
        assert_eq!(arrival(2, &fences, &[5, 0, 20], (8, 0)), Some((24, 2)));
    }

    #[test]
    fn starts_again_at_midnight() {
        let morning = [0, 100];
        let evening = [0, 863_999];
        // One metre in tick 99, the other in the first tick of the next day.
        let next_day = Some((864_001, 0));
        assert_eq!(arrival(2, &morning, &[36, 0], (99, 0)), next_day);
        // 12 spans in the day's last tick, 24 left at 8 in the next day's first ones.
        let next_day = Some((864_003, 0));
        assert_eq!(arrival(1, &evening, &[8, 12], (863_999, 1)), next_day);
        // Covered by midnight, so none of the next day's speeds count.
        let midnight = Some((864_000, 0));
        assert_eq!(arrival(1, &evening, &[0, 36], (863_999, 1)), midnight);
        // 35 spans in the last tick of either day.
        let last = Some((1_728_000, 0));
        assert_eq!(arrival(1, &evening, &[0, 35], (863_999, 1)), last);
        // The second day's 100 metres end at its fence.
        let fence = Some((864_100, 1));
        assert_eq!(arrival(100, &morning, &[36, 0], (863_999, 1)), fence);
        assert_eq!(arrival(101, &morning, &[36, 0], (863_999, 1)), None);
    }

    #[test]
    fn takes_the_speed_of_the_remainder() {
        let fences = [0, 10, 863_990];
        let speeds = [36, 18, 12];
        for (departure, arrived) in [
            ((0, 0), (1, 0)),
            ((8, 0), (9, 0)),
            ((9, 0), (10, 1)),
            ((10, 1), (12, 1)),
            ((863_988, 1), (863_990, 2)),
            ((863_989, 1), (863_992, 2)),
            ((863_990, 2), (863_993, 2)),
            ((863_996, 2), (863_999, 2)),
            ((863_997, 2), (864_000, 0)),
        ] {
            let on_second_day = |(tick, interval)| (864_000 + tick, interval);
            let first = arrival(1, &fences, &speeds, departure);
            assert_eq!(first, Some(arrived));
            let second = arrival(1, &fences, &speeds, on_second_day(departure));
            assert_eq!(second, Some(on_second_day(arrived)));
        }
        // Two ticks at 12 before midnight and one at 36 after it; up to the last tick
        // too few.
        let next_day = Some((864_001, 0));
        assert_eq!(arrival(1, &fences, &speeds, (863_998, 2)), next_day);
        assert_eq!(arrival(1, &fences, &speeds, (1_727_998, 2)), None);
        // Remainder 0, but nothing is driven after the last tick.
        assert_eq!(arrival(1, &fences, &speeds, (1_728_000, 0)), None);
    }

    #[test]
    fn meets_the_same_interval_twice() {
        // Ten metres in ten ticks of each day, and standing still in all others.
        let arrival = |length, departure| {
            let fences = [0, 1_000, 1_010];
            arrival(length, &fences, &[0, 36, 0], departure)
        };
        assert_eq!(arrival(15, (0, 0)), Some((865_005, 1)));
        assert_eq!(arrival(15, (1_005, 1)), Some((865_010, 2)));
        assert_eq!(arrival(15, (1_006, 1)), None);
        assert_eq!(arrival(20, (1_000, 1)), Some((865_010, 2)));
        assert_eq!(arrival(21, (0, 0)), None);
    }

    #[test]
    fn waits_the_hold_out_at_the_end() {
        // The stop line is reached at 99, a tick before the fence.
        let fences = [0, 100, 105, 110, 863_990];
        let arrived = |hold| held(1, hold, &fences, &[36, 0, 0, 0, 0], (98, 0));
        for (hold, expected) in [
            (0, (99, 0)),
            (1, (100, 1)),
            (5, (104, 1)),
            (6, (105, 2)),
            (10, (109, 2)),
            (11, (110, 3)),
            (1_200, (1_299, 3)),
        ] {
            assert_eq!(arrived(hold), Some(expected));
        }
        // Reached on the fence itself.
        let arrived = |hold| held(1, hold, &fences, &[36, 0, 0, 0, 0], (99, 0));
        assert_eq!(arrived(4), Some((104, 1)));
        assert_eq!(arrived(5), Some((105, 2)));
    }

    #[test]
    fn holds_across_midnight() {
        let fences = [0, 10, 20, 863_990];
        // Reached five ticks before it.
        let arrived = |hold| held(1, hold, &fences, &[0, 0, 0, 36], (863_994, 3));
        for (hold, expected) in [
            (4, (863_999, 3)),
            (5, (864_000, 0)),
            (14, (864_009, 0)),
            (15, (864_010, 1)),
            (25, (864_020, 2)),
            (1_200, (865_195, 2)),
        ] {
            assert_eq!(arrived(hold), Some(expected));
        }
        // Reached at midnight itself.
        let arrived = |hold| held(1, hold, &fences, &[0, 0, 0, 36], (863_999, 3));
        assert_eq!(arrived(0), Some((864_000, 0)));
        assert_eq!(arrived(9), Some((864_009, 0)));
        assert_eq!(arrived(10), Some((864_010, 1)));
    }

    #[test]
    fn holds_up_to_the_last_tick() {
        let last = Some((1_728_000, 0));
        for (hold, departure) in [(0, 1_727_999), (1, 1_727_998), (1_200, 1_726_799)] {
            for fences in [&[0][..], &[0, 863_999], &[0, 100]] {
                let speeds = &[36, 36][..fences.len()];
                let held = |departure| {
                    let interval = interval_at(departure % DAY, fences);
                    held(1, hold, fences, speeds, (departure, interval))
                };
                assert_eq!(held(departure), last);
                assert_eq!(held(departure + 1), None);
            }
        }
    }

    #[test]
    fn finds_the_interval_of_a_tick() {
        let fences = [0, 10, 863_990];
        for (tick, interval) in [
            (0, 0),
            (9, 0),
            (10, 1),
            (863_989, 1),
            (863_990, 2),
            (863_999, 2),
        ] {
            assert_eq!(interval_at(tick, &fences), interval);
            for other in [0, 1, 2, 3, 4, u32::MAX] {
                assert_eq!(contains(&fences, other, tick), other == interval);
            }
        }
    }

    #[test]
    fn refuses_each_number() {
        let start = (0, 0);
        assert_eq!(refused(start, 1, 0, &[], &[]), 2);
        assert_eq!(refused(start, 1, 0, &[0; 97], &[1; 97]), 2);
        assert_eq!(refused(start, 1, 0, &[0], &[1, 1]), 4);
        assert_eq!(refused(start, 1, 0, &[0, 5], &[1]), 4);
        assert_eq!(refused(start, 1, 0, &[1], &[1]), 5);
        assert_eq!(refused(start, 0, 0, &[0], &[1]), 7);
        assert_eq!(refused(start, 100_001, 0, &[0], &[1]), 7);
        assert_eq!(refused(start, 1, 0, &[0], &[201]), 8);
        for hold in [1_201, 65_536, u32::MAX] {
            assert_eq!(refused(start, 1, hold, &[0], &[1]), 32);
        }
        assert_eq!(refused((1_728_001, 0), 1, 0, &[0], &[1]), 15);
        assert_eq!(refused((0, 1), 1, 0, &[0], &[1]), 46);
        assert_eq!(refused((4, 1), 1, 0, &[0, 5], &[1, 1]), 46);
        assert_eq!(refused((5, 0), 1, 0, &[0, 5], &[1, 1]), 46);
    }

    #[test]
    fn refuses_in_the_papers_order() {
        let late = (u32::MAX, u32::MAX);
        let hold = u32::MAX;
        assert_eq!(refused(late, 0, hold, &[], &[201]), 2);
        assert_eq!(refused(late, 0, hold, &[1], &[201; 2]), 4);
        assert_eq!(refused(late, 0, hold, &[1], &[201]), 5);
        assert_eq!(refused(late, 0, hold, &[0], &[201]), 7);
        assert_eq!(refused(late, 1, hold, &[0], &[201]), 8);
        assert_eq!(refused(late, 1, hold, &[0], &[200]), 32);
        assert_eq!(refused(late, 1, 1_200, &[0], &[200]), 15);
        let last = 1_728_000;
        assert_eq!(refused((last, u32::MAX), 1, hold, &[0], &[200]), 32);
        assert_eq!(refused((last, u32::MAX), 1, 1_200, &[0], &[200]), 46);
        assert_eq!(refused((last, 0), 1, 1_200, &[0], &[200]), 0);
    }
}
