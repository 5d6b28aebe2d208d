use crate::inputs::Random;
use crate::reference::Closure;
use crate::reference::limits::{BOTH_PARTIES, LAST_TICK, MAX_ARCS, MAX_CLOSURES};

/// Numbers of no party, of which some would be one if they lost bits.
const UNKNOWN: [u32; 6] = [3, 4, 256, 257, 65_538, u32::MAX];

/// One that may not ask.
pub fn unknown_asker(random: &mut Random) -> u32 {
    if random.one_in(4) {
        BOTH_PARTIES
    } else {
        random.pick(&UNKNOWN)
    }
}

/// Breaks one rule of the list, or several at once, for a network of so many arcs.
pub fn damage_closures(random: &mut Random, arcs: usize, closures: &mut Vec<Closure>) {
    if closures.is_empty() {
        closures.push(Closure {
            arc: 0,
            first: 0,
            end: LAST_TICK,
            party: BOTH_PARTIES,
        });
    }
    for _ in 0..random.up_to_one_of(&[1, 1, 3]) {
        let place = random.place(closures.len());
        let Closure {
            arc,
            first,
            end,
            party,
        } = &mut closures[place];
        match random.below(7) {
            0 => *arc = random.pick(&[arcs as u32, arcs as u32 + 1, MAX_ARCS as u32]),
            1 => *arc = random.pick(&[1 << 16, arc.saturating_add(1 << 16), u32::MAX]),
            2 => *first = random.pick(&[*end, end.saturating_add(1), u32::MAX]),
            3 => *end = random.pick(&[*first, 0, LAST_TICK + 1, u32::MAX]),
            4 | 5 => *party = random.pick(&UNKNOWN),
            _ => add_too_many(random, closures),
        }
    }
}

fn add_too_many(random: &mut Random, closures: &mut Vec<Closure>) {
    let count = random.pick(&[MAX_CLOSURES + 1, MAX_CLOSURES + 2, 256, 1_000]);
    let closure = random.pick(closures);
    closures.resize(count, closure);
}
