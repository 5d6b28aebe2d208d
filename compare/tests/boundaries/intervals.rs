//! The interval that Arc arrival is given, and the one it gives back: both sides of
//! fences, of midnight and of the last tick.

use super::{Moment, arc_number, arrival, lone_arc};

/// The number for an arc without a hold.
fn number(departure: Moment, length: u32, fences: &[u32], speeds: &[u8]) -> u32 {
    arc_number(&lone_arc(length, 0, fences, speeds), departure)
}

/// Every interval of a plan, the ones after its last, and ones that would be the right
/// one if some of their bits were lost.
fn intervals(count: u32, right: u32) -> impl Iterator<Item = u32> {
    let large = [8, 16, 24, 31].map(|bit| right + (1 << bit));
    (0..count + 2).chain(large).chain([u32::MAX - 1, u32::MAX])
}

/// Of all intervals the right one alone is taken, whether or not the arc can be driven.
fn assert_alone_taken(fences: &[u32], departure: u32, right: u32) {
    for speed in [0, 200] {
        let speeds = vec![speed; fences.len()];
        for interval in intervals(fences.len() as u32, right) {
            let expected = if interval == right { 0 } else { 46 };
            let found = number((departure, interval), 1, fences, &speeds);
            assert_eq!(found, expected, "{departure} in {interval} of {fences:?}");
        }
    }
}

#[test]
fn departures_beside_fences() {
    for (departure, right) in [
        (0, 0),
        (1, 0),
        (99, 0),
        (100, 1),
        (101, 1),
        (863_998, 1),
        (863_999, 2),
        (864_000, 0),
        (864_001, 0),
        (864_099, 0),
        (864_100, 1),
        (864_101, 1),
        (1_727_998, 1),
        (1_727_999, 2),
        (1_728_000, 0),
    ] {
        assert_alone_taken(&[0, 100, 863_999], departure, right);
        assert_alone_taken(&[0], departure, 0);
    }
}

#[test]
fn departures_beside_96_fences() {
    let fences: Vec<u32> = (0..96).map(|interval| 9_000 * interval).collect();
    for interval in 0..96 {
        let fence = 9_000 * interval;
        for day in [0, 864_000] {
            assert_alone_taken(&fences, day + fence, interval);
            assert_alone_taken(&fences, day + fence + 1, interval);
            assert_alone_taken(&fences, day + fence + 8_999, interval);
        }
    }
    assert_alone_taken(&fences, 1_728_000, 0);
}

#[test]
fn earlier_numbers() {
    let one = &[0][..];
    for departure in [0, 1_728_000, 1_728_001, u32::MAX] {
        for interval in intervals(2, 0) {
            let number = |length, fences: &[u32], speeds: &[u8]| {
                number((departure, interval), length, fences, speeds)
            };
            assert_eq!(number(0, &[], &[]), 2);
            assert_eq!(number(0, &[1; 97], &[201; 97]), 2);
            assert_eq!(number(0, &[1], &[201; 2]), 4);
            assert_eq!(number(0, &[1, 0], &[201]), 4);
            assert_eq!(number(0, &[1], &[201]), 5);
            assert_eq!(number(0, &[0, 0], &[201; 2]), 5);
            assert_eq!(number(0, &[0, 864_000], &[201; 2]), 5);
            assert_eq!(number(0, one, &[201]), 7);
            assert_eq!(number(100_001, one, &[201]), 7);
            assert_eq!(number(1, one, &[201]), 8);
            let expected = match (departure, interval) {
                (1_728_001.., _) => 15,
                (_, 0) => 0,
                _ => 46,
            };
            assert_eq!(number(1, one, &[200]), expected);
        }
    }
}

#[test]
fn arrivals_beside_fences() {
    // A metre in every tick.
    let metres = |departure, length| arrival(departure, length, &[0, 100, 200], &[36; 3]);
    for day in [0, 864_000] {
        for (length, interval) in [
            (1, 0),
            (99, 0),
            (100, 1),
            (101, 1),
            (199, 1),
            (200, 2),
            (201, 2),
        ] {
            let arrived = Some((day + length, interval));
            assert_eq!(metres((day, 0), length), arrived);
            if length > 100 {
                assert_eq!(metres((day + 100, 1), length - 100), arrived);
            }
        }
    }
}

#[test]
fn arrivals_rounded_up_to_a_fence() {
    // A metre takes a second tick for its last span. That tick may be the interval's
    // last, or the first of the next one.
    let metre = |departure| arrival(departure, 1, &[0, 100], &[35, 35]);
    for day in [0, 864_000] {
        assert_eq!(metre((day + 97, 0)), Some((day + 99, 0)));
        assert_eq!(metre((day + 98, 0)), Some((day + 100, 1)));
        assert_eq!(metre((day + 99, 0)), Some((day + 101, 1)));
        assert_eq!(metre((day + 100, 1)), Some((day + 102, 1)));
        assert_eq!(metre((day + 863_997, 1)), Some((day + 863_999, 1)));
        assert_eq!(metre((day + 863_998, 1)), Some((day + 864_000, 0)));
    }
    assert_eq!(metre((863_999, 1)), Some((864_001, 0)));
    assert_eq!(metre((1_727_999, 1)), None);
}

#[test]
fn arrivals_beside_midnight() {
    // Ten ticks before it, with a metre in each tick, in plans of 1, 2 and 96 intervals.
    let evening: Vec<u32> = [0].into_iter().chain(863_905..864_000).collect();
    let plans = [(&[0][..], 0, 0), (&[0, 863_000], 1, 1), (&evening, 86, 95)];
    for (fences, departure_interval, last) in plans {
        let speeds = vec![36; fences.len()];
        let metres = |midnight, length| {
            let departure = (midnight - 10, departure_interval);
            arrival(departure, length, fences, &speeds)
        };
        for midnight in [864_000, 1_728_000] {
            assert_eq!(metres(midnight, 9), Some((midnight - 1, last)));
            assert_eq!(metres(midnight, 10), Some((midnight, 0)));
        }
        assert_eq!(metres(864_000, 11), Some((864_001, 0)));
        assert_eq!(metres(1_728_000, 11), None);
    }
}

#[test]
fn arrivals_beside_intervals_of_a_tick() {
    let fences: Vec<u32> = (0..96).collect();
    let metres = |departure, length| arrival(departure, length, &fences, &[36; 96]);
    for day in [0, 864_000] {
        for tick in 0..95 {
            assert_eq!(
                metres((day + tick, tick), 1),
                Some((day + tick + 1, tick + 1))
            );
            assert_eq!(metres((day, 0), tick + 1), Some((day + tick + 1, tick + 1)));
        }
        assert_eq!(metres((day + 95, 95), 1), Some((day + 96, 95)));
        assert_eq!(metres((day, 0), 96), Some((day + 96, 95)));
    }
}

#[test]
fn arrivals_after_standing_still() {
    // Ten metres before three intervals of standing still, then on again.
    let fences = [0, 10, 20, 30, 40];
    let on_again = |departure, length| arrival(departure, length, &fences, &[36, 0, 0, 0, 36]);
    assert_eq!(on_again((0, 0), 9), Some((9, 0)));
    assert_eq!(on_again((0, 0), 10), Some((10, 1)));
    assert_eq!(on_again((0, 0), 11), Some((41, 4)));
    for departure in [
        (10, 1),
        (19, 1),
        (20, 2),
        (29, 2),
        (30, 3),
        (39, 3),
        (40, 4),
    ] {
        assert_eq!(on_again(departure, 1), Some((41, 4)));
    }

    // Ten metres in the ticks from 30 on, and standing still all day before and after.
    let once_a_day = |departure, length| arrival(departure, length, &fences, &[0, 0, 0, 36, 0]);
    for day in [0, 864_000] {
        for departure in [(0, 0), (9, 0), (10, 1), (29, 2), (30, 3)] {
            let departure = (day + departure.0, departure.1);
            assert_eq!(once_a_day(departure, 1), Some((day + 31, 3)));
            assert_eq!(once_a_day(departure, 9), Some((day + 39, 3)));
            assert_eq!(once_a_day(departure, 10), Some((day + 40, 4)));
        }
    }
    for departure in [(40, 4), (863_999, 4), (864_000, 0)] {
        assert_eq!(once_a_day(departure, 9), Some((864_039, 3)));
        assert_eq!(once_a_day(departure, 10), Some((864_040, 4)));
        assert_eq!(once_a_day(departure, 11), None);
    }
}
