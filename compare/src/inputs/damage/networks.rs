use crate::inputs::{OwnedNetwork, Random};
use crate::reference::limits::{
    DAY, MAX_ARCS, MAX_HOLD, MAX_INTERVALS, MAX_JUNCTIONS, MAX_LENGTH, MAX_SPEED,
};

/// Breaks one rule of Network check, or several at once.
pub fn damage_network(random: &mut Random, network: &mut OwnedNetwork) {
    for _ in 0..random.up_to_one_of(&[1, 1, 3]) {
        match random.below(9) {
            0 => network.junctions = random.pick(&[0, MAX_JUNCTIONS + 1, u32::MAX]),
            1 => resize_fences(random, network),
            2 => add_too_many_arcs(network),
            3 => resize_table(random, network),
            4 => damage_fences(random, &mut network.fences),
            5 => damage_ends(random, network),
            6 => replace_one(random, &mut network.lengths, &[0, MAX_LENGTH + 1, u32::MAX]),
            7 => replace_one(random, &mut network.speeds, &[MAX_SPEED + 1, u8::MAX]),
            _ => damage_holds(random, &mut network.holds),
        }
    }
}

/// Makes the number of fences wrong; often the speeds keep fitting to it.
fn resize_fences(random: &mut Random, network: &mut OwnedNetwork) {
    let count = random.pick(&[0, MAX_INTERVALS + 1]);
    network.fences = (0..count as u32).collect();
    if random.one_in(2) {
        network.speeds = vec![1; network.arcs() * count];
    }
}

fn add_too_many_arcs(network: &mut OwnedNetwork) {
    let arcs = MAX_ARCS + 1;
    network.tails.resize(arcs, 0);
    network.heads.resize(arcs, 1);
    network.lengths.resize(arcs, 1);
    network.holds.resize(arcs, 0);
    network.speeds.resize(arcs * network.fences.len(), 1);
}

/// Makes one table longer or shorter by one; `damage_holds` does so with the holds.
fn resize_table(random: &mut Random, network: &mut OwnedNetwork) {
    let longer = random.one_in(2);
    match random.below(4) {
        0 => resize(longer, &mut network.tails, 0),
        1 => resize(longer, &mut network.heads, 1),
        2 => resize(longer, &mut network.lengths, 1),
        _ => resize(longer, &mut network.speeds, 1),
    }
}

fn resize<T>(longer: bool, table: &mut Vec<T>, value: T) {
    if longer {
        table.push(value);
    } else {
        table.pop();
    }
}

/// Makes the table longer or shorter, or one hold in it too long.
pub fn damage_holds(random: &mut Random, holds: &mut Vec<u16>) {
    match random.below(6) {
        0 => resize(true, holds, 0),
        1 => resize(false, holds, 0),
        2 => holds.clear(),
        _ => replace_one(random, holds, &[MAX_HOLD + 1, u16::MAX]),
    }
}

pub fn damage_fences(random: &mut Random, fences: &mut [u32]) {
    if fences.is_empty() {
        return;
    }
    let place = random.place(fences.len());
    let before = fences[place.saturating_sub(1)];
    fences[place] = random.pick(&[0, 1, before, DAY, u32::MAX]);
}

fn damage_ends(random: &mut Random, network: &mut OwnedNetwork) {
    let junctions = network.junctions as u16;
    match random.below(3) {
        0 => replace_one(random, &mut network.tails, &[junctions, u16::MAX]),
        1 => replace_one(random, &mut network.heads, &[junctions, u16::MAX]),
        _ => join_to_itself(random, network),
    }
}

fn join_to_itself(random: &mut Random, network: &mut OwnedNetwork) {
    let arcs = network.tails.len().min(network.heads.len());
    if arcs > 0 {
        let arc = random.place(arcs);
        network.heads[arc] = network.tails[arc];
    }
}

/// Puts one of the values somewhere into the table.
pub fn replace_one<T: Copy>(random: &mut Random, table: &mut [T], values: &[T]) {
    if !table.is_empty() {
        table[random.place(table.len())] = random.pick(values);
    }
}
