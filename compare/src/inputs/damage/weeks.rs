use crate::inputs::Random;
use crate::inputs::weeks::{Store, random_bytes, random_week_list, slot_of};
use crate::reference::limits::{KEPT_VERSIONS, MAX_PLANS, WEEKDAYS};

/// Breaks a rule of a week list, most likely.
pub fn damage_week_list(random: &mut Random, masks: &mut Vec<u8>) {
    if masks.is_empty() {
        masks.push(127);
    }
    let place = random.place(masks.len());
    let day = 1 << random.below(WEEKDAYS);
    match random.below(12) {
        0 => masks.clear(),
        1 => masks.resize(MAX_PLANS + 1, random.pick(&[0, 1, 64, 128])),
        2 => masks.insert(place, 0),
        3 => masks.push(0),
        4 => masks[place] = random.pick(&[0, 128, 255, masks[place] | 128]),
        // A day in two masks, also with the number of ones as it should be.
        5 => masks.push(day),
        6 => {
            masks[place] &= !day;
            masks.push(random.pick(&[1, 2, 64]));
        }
        // A day in none.
        7 => masks.iter_mut().for_each(|mask| *mask &= !day),
        8 => drop(masks.remove(place)),
        9 => masks.push(masks[place]),
        10 => masks[place] ^= 1 << random.below(8),
        _ => make_long(random, masks),
    }
}

/// A list that would be good if its length lost bits, or of any bytes.
fn make_long(random: &mut Random, masks: &mut Vec<u8>) {
    let good = masks.len();
    match random.below(3) {
        0 => masks.resize(256 + good, 0),
        1 if random.one_in(20) => masks.resize(65_536 + good, 0),
        _ => {
            masks.clear();
            let length = random.index(MAX_PLANS + 3);
            masks.resize_with(length, || random.bits() as u8);
        }
    }
}

/// Breaks a store in one way, most likely: its versions or a kept list.
pub fn damage_store(random: &mut Random, store: &mut Store) {
    let kept = store.kept_slots();
    let Some(&newest_slot) = kept.last() else {
        return;
    };
    let newest = store.versions[newest_slot];
    let (slot, other) = (kept[random.place(kept.len())], random.index(KEPT_VERSIONS));
    match random.below(16) {
        0 => store.versions.fill(0),
        1 => *store = random_bytes(random),
        // Two newest ones, or the same version twice.
        2 => store.versions[other] = newest,
        3 => store.versions[other] = store.versions[slot],
        // A gap, with an older or a newer one in its place.
        4 => store.versions[slot] = store.versions[slot].wrapping_sub(16),
        5 => store.versions[slot] = store.versions[slot].wrapping_add(16),
        // One is missing.
        6 => store.put(slot, 0, &[]),
        7 => store.versions[slot] = 0,
        // In another's slot, with its list or without.
        8 => {
            store.versions.swap(slot, other);
            store.swap_masks(slot, other);
        }
        9 => store.versions.swap(slot, other),
        10 => turn(random, store),
        11 => leave_an_old_one(random, store, newest),
        12 => set_a_version(random, store),
        _ => damage_kept_list(random, store, slot),
    }
}

/// All versions a slot further, or all one more, which puts each into another's slot.
fn turn(random: &mut Random, store: &mut Store) {
    if random.one_in(2) {
        store.versions.rotate_right(1);
        store.lists.rotate_right(MAX_PLANS);
    } else {
        let kept = store.versions.iter_mut().filter(|version| **version != 0);
        kept.for_each(|version| *version = version.wrapping_add(1));
    }
}

/// Puts a good list into a slot that should be empty, under a version that could stand in it.
fn leave_an_old_one(random: &mut Random, store: &mut Store, newest: u16) {
    let empty = store.empty_slots();
    if empty.is_empty() {
        store.versions[slot_of(newest)] = 0;
    } else {
        let slot = random.pick(&empty);
        let version = random.pick(&[1, newest, slot as u16 + 1, slot as u16 + 65_521]);
        store.put(slot, version, &random_week_list(random));
    }
}

/// Any version is set beside what it was or to any number.
fn set_a_version(random: &mut Random, store: &mut Store) {
    let version = &mut store.versions[random.index(KEPT_VERSIONS)];
    *version = match random.below(3) {
        0 => *version ^ 1 << random.below(16),
        1 => random.pick(&[version.wrapping_add(1), version.wrapping_sub(1), 1, 65_535]),
        _ => random.bits() as u16,
    };
}

/// Breaks the list in a slot.
fn damage_kept_list(random: &mut Random, store: &mut Store, slot: usize) {
    let masks = store.masks_mut(slot);
    match random.below(6) {
        0 => masks.fill(0),
        // Zeros before or between the masks, and bytes behind them.
        1 => masks.rotate_right(1),
        2 => masks[MAX_PLANS - 1] = random.pick(&[1, 64, 128, 255]),
        3 => masks[random.place(MAX_PLANS)] ^= 1 << random.below(8),
        4 => {
            let place = random.index(MAX_PLANS - 1);
            masks[place..].rotate_right(1);
            masks[place] = 0;
        }
        _ => {
            let end = masks.iter().rposition(|&mask| mask != 0);
            let mut list = masks[..end.map_or(0, |end| end + 1)].to_vec();
            damage_week_list(random, &mut list);
            list.resize(MAX_PLANS, 0);
            masks.copy_from_slice(&list);
        }
    }
}
