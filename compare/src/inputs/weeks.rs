//! Week lists, stores that keep them, and questions about them.

use super::Random;
use crate::reference::limits::{KEPT_VERSIONS, LAST_VERSION, MAX_PLANS, WEEKDAYS};
use crate::reference::{Lists, Versions, week_change, week_new};

/// The two tables of a store.
#[derive(Clone, Debug, PartialEq, Eq)]
pub struct Store {
    pub versions: Versions,
    pub lists: Lists,
}

impl Store {
    pub const EMPTY: Self = Self {
        versions: [0; KEPT_VERSIONS],
        lists: [0; KEPT_VERSIONS * MAX_PLANS],
    };

    /// As it stands when this version, which is not 0, is the newest, with a list for each
    /// version. It is set by hand, without an operation.
    pub fn with(newest: u16, mut list: impl FnMut(u16) -> Vec<u8>) -> Self {
        let mut store = Self::EMPTY;
        for version in oldest_kept(newest)..=newest {
            store.put(slot_of(version), version, &list(version));
        }
        store
    }

    /// Writes into a slot, with zeros behind the masks.
    pub fn put(&mut self, slot: usize, version: u16, masks: &[u8]) {
        self.versions[slot] = version;
        let slot = self.masks_mut(slot);
        slot.fill(0);
        slot[..masks.len()].copy_from_slice(masks);
    }

    /// The seven bytes of a slot.
    pub fn masks(&self, slot: usize) -> &[u8] {
        &self.lists[MAX_PLANS * slot..][..MAX_PLANS]
    }

    pub fn masks_mut(&mut self, slot: usize) -> &mut [u8] {
        &mut self.lists[MAX_PLANS * slot..][..MAX_PLANS]
    }

    pub fn swap_masks(&mut self, slot: usize, other: usize) {
        for place in 0..MAX_PLANS {
            let (one, two) = (MAX_PLANS * slot + place, MAX_PLANS * other + place);
            self.lists.swap(one, two);
        }
    }

    /// The greatest version, 0 if there is none.
    pub fn newest(&self) -> u16 {
        self.versions.into_iter().max().unwrap_or(0)
    }

    /// The slots with a version, from the oldest to the newest one.
    pub fn kept_slots(&self) -> Vec<usize> {
        let has_version = |&slot: &usize| self.versions[slot] != 0;
        let mut slots: Vec<usize> = (0..KEPT_VERSIONS).filter(has_version).collect();
        slots.sort_by_key(|&slot| self.versions[slot]);
        slots
    }

    pub fn empty_slots(&self) -> Vec<usize> {
        let is_empty = |&slot: &usize| self.versions[slot] == 0;
        (0..KEPT_VERSIONS).filter(is_empty).collect()
    }

    /// Fills the masks of all empty slots with any bytes, which changes no answer.
    pub fn litter(&mut self, random: &mut Random) {
        for slot in self.empty_slots() {
            for mask in self.masks_mut(slot) {
                *mask = random.bits() as u8;
            }
        }
    }

    /// A full store for measuring. Its lists have 1 to 7 masks by turns.
    pub fn measured() -> Self {
        Self::with(MEASURED, |version| {
            let plans = usize::from(version) % MAX_PLANS + 1;
            let mut masks: Vec<u8> = (0..plans).map(|day| 1 << day).collect();
            masks[plans - 1] = 128 - (1 << (plans - 1));
            masks
        })
    }
}

/// The newest version of the measured store.
pub const MEASURED: u16 = 100;

/// Where a version, which is not 0, stands.
pub fn slot_of(version: u16) -> usize {
    usize::from(version - 1) % KEPT_VERSIONS
}

/// The oldest version that is still kept.
pub fn oldest_kept(newest: u16) -> u16 {
    newest.saturating_sub(KEPT_VERSIONS as u16 - 1).max(1)
}

/// A list that keeps the rules.
pub fn random_week_list(random: &mut Random) -> Vec<u8> {
    let plans = random.up_to_one_of(&[1, 2, 3, 7, 7]) as usize;
    let mut days: Vec<u32> = (0..WEEKDAYS).collect();
    random.shuffle(&mut days);
    let mut masks = vec![0; plans];
    for (place, day) in days.into_iter().enumerate() {
        // Each plan gets a day, and the others go anywhere.
        let plan = if place < plans {
            place
        } else {
            random.index(plans)
        };
        masks[plan] |= 1 << day;
    }
    masks
}

/// A newest version, often beside the edges at which a store is full or starts again.
pub fn random_newest(random: &mut Random) -> u16 {
    const EDGES: [u16; 18] = [
        1, 2, 15, 16, 17, 18, 31, 32, 33, 255, 256, 257, 32_768, 65_519, 65_520, 65_521, 65_534,
        65_535,
    ];
    match random.below(4) {
        0 => random.pick(&EDGES),
        1 => 1 + random.below(16) as u16,
        2 => 1 + random.below(100) as u16,
        _ => 1 + random.below(LAST_VERSION.into()) as u16,
    }
}

/// A good store, set by hand or made and changed, at times with litter in its empty slots.
pub fn random_store(random: &mut Random) -> Store {
    let newest = random_newest(random);
    let mut store = if newest <= 40 && random.one_in(2) {
        made_store(random, newest)
    } else {
        Store::with(newest, |_| random_week_list(random))
    };
    if random.one_in(3) {
        store.litter(random);
    }
    store
}

/// A store that was made and changed so often.
fn made_store(random: &mut Random, newest: u16) -> Store {
    let Store {
        mut versions,
        mut lists,
    } = random_bytes(random);
    let list = random_week_list(random);
    let mut reply = week_new(&list, &mut versions, &mut lists);
    while reply.is_ok_and(|version| version < newest.into()) {
        let list = random_week_list(random);
        reply = week_change(&list, &mut versions, &mut lists);
    }
    assert_eq!(reply, Ok(newest.into()));
    Store { versions, lists }
}

/// Tables that hold anything.
pub fn random_bytes(random: &mut Random) -> Store {
    Store {
        versions: Store::EMPTY.versions.map(|_| random.bits() as u16),
        lists: Store::EMPTY.lists.map(|_| random.bits() as u8),
    }
}

/// A version to ask for: mostly one that is kept, else one beside them, or one that would be
/// kept if it lost bits.
pub fn random_version(random: &mut Random, store: &Store) -> u32 {
    let newest = u32::from(store.newest());
    let kept = match &store.kept_slots()[..] {
        [] => 1,
        slots => store.versions[slots[random.place(slots.len())]].into(),
    };
    match random.below(12) {
        0 => newest + 1,
        1 => newest.saturating_sub(KEPT_VERSIONS as u32),
        2 => random.pick(&[kept + 16, kept.saturating_sub(16), 0, 1]),
        3 => kept + random.pick(&[1 << 16, 1 << 24, 1 << 31, u32::MAX << 16]),
        4 => random.pick(&[65_535, 65_536, u32::MAX]),
        5 => random.bits() as u32,
        _ => kept,
    }
}

/// A day to ask for: mostly a weekday, else one beside them, or one that would be a weekday if
/// it lost bits.
pub fn random_day(random: &mut Random) -> u32 {
    let day = random.below(WEEKDAYS);
    match random.below(10) {
        0 => random.pick(&[WEEKDAYS, WEEKDAYS + 1, 31, 32, 255, u32::MAX]),
        1 => day + random.pick(&[8, 32, 1 << 8, 1 << 16, 1 << 31, u32::MAX << 8]),
        _ => day,
    }
}

#[cfg(test)]
mod tests {
    use super::*;

    #[test]
    fn lists_have_each_day_once() {
        let random = &mut Random::new(1);
        let mut lengths = [0; MAX_PLANS + 1];
        for _ in 0..1_000 {
            let masks = random_week_list(random);
            lengths[masks.len()] += 1;
            assert!(masks.iter().all(|&mask| mask != 0));
            assert_eq!(masks.iter().map(|&mask| u32::from(mask)).sum::<u32>(), 127);
            assert_eq!(masks.iter().map(|mask| mask.count_ones()).sum::<u32>(), 7);
        }
        assert_eq!(lengths[0], 0);
        assert!(lengths[1..].iter().all(|&count| count > 0), "{lengths:?}");
    }

    #[test]
    fn stores_set_by_hand_are_those_of_the_operations() {
        for newest in 1..=40 {
            // The same lists for the same versions.
            let mut history = Vec::new();
            let random = &mut Random::new(newest.into());
            let Store {
                mut versions,
                mut lists,
            } = random_bytes(random);
            for version in 1..=newest {
                let list = random_week_list(random);
                let operation = if version == 1 { week_new } else { week_change };
                let reply = operation(&list, &mut versions, &mut lists);
                assert_eq!(reply, Ok(version.into()));
                history.push(list);
            }
            let by_hand = Store::with(newest, |version| history[usize::from(version) - 1].clone());
            assert_eq!(by_hand, Store { versions, lists });
        }
    }

    #[test]
    fn measured_store_is_full_and_good() {
        let Store {
            mut versions,
            mut lists,
        } = Store::measured();
        assert_eq!(versions[slot_of(85)], 85);
        let reply = week_change(&[127], &mut versions, &mut lists);
        assert_eq!(reply, Ok(101));
        assert_eq!(slot_of(101), slot_of(85));
    }
}
