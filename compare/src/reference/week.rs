use super::Refusal;
use super::limits::{KEPT_VERSIONS, MAX_PLANS, WEEKDAYS};

/// The version in each slot of a store, 0 in an empty one. Version v stands in slot
/// (v − 1) mod 16.
pub type Versions = [u16; KEPT_VERSIONS];
/// The masks of each slot, with zeros behind those of its list. In an empty slot they mean
/// nothing.
pub type Lists = [u8; KEPT_VERSIONS * MAX_PLANS];

/// All weekdays.
const WEEK: u8 = 127;

/// Makes a store with this list as version 1, whatever the tables held.
pub fn week_new(masks: &[u8], versions: &mut Versions, lists: &mut Lists) -> Result<u32, Refusal> {
    Refusal::WEEK_LIST.unless(is_week_list(masks))?;
    versions.fill(0);
    lists.fill(0);
    Ok(keep(1, masks, versions, lists))
}

/// Keeps this list as the next version, in place of the oldest one if there are 16.
pub fn week_change(
    masks: &[u8],
    versions: &mut Versions,
    lists: &mut Lists,
) -> Result<u32, Refusal> {
    let newest = newest_version(versions, lists)?;
    let next = newest.checked_add(1).ok_or(Refusal::WEEK_LIST)?;
    Refusal::WEEK_LIST.unless(is_week_list(masks))?;
    Ok(keep(next, masks, versions, lists))
}

/// The place of the day's plan in the list of this version.
pub fn week_plan(
    versions: &Versions,
    lists: &Lists,
    version: u32,
    day: u32,
) -> Result<u32, Refusal> {
    newest_version(versions, lists)?;
    let slot = slot_keeping(version, versions).ok_or(Refusal::VERSION_OR_DAY)?;
    Refusal::VERSION_OR_DAY.unless(day < WEEKDAYS)?;
    let place = slot_masks(lists, slot)
        .iter()
        .position(|mask| mask & (1 << day) != 0)
        .expect("a good list has every weekday");
    Ok(place as u32)
}

/// Whether every weekday stands in exactly one mask, and every mask has one.
fn is_week_list(masks: &[u8]) -> bool {
    if masks.len() > MAX_PLANS {
        return false;
    }
    let mut days = 0;
    for &mask in masks {
        if mask == 0 || mask > WEEK || days & mask != 0 {
            return false;
        }
        days |= mask;
    }
    days == WEEK
}

/// The newest version of a store in which the last ones are kept, and nothing else, with good
/// lists.
fn newest_version(versions: &Versions, lists: &Lists) -> Result<u16, Refusal> {
    let newest = versions.iter().copied().max().unwrap_or(0);
    let mut slots = (0..).zip(versions).zip(lists.chunks_exact(MAX_PLANS));
    let good = |((slot, &version), masks)| {
        version == version_due(slot, newest) && (version == 0 || is_week_list(without_zeros(masks)))
    };
    Refusal::STORE.unless(newest != 0 && slots.all(good))?;
    Ok(newest)
}

/// The last version up to the newest one whose slot this is; 0 if there was none yet.
fn version_due(slot: u16, newest: u16) -> u16 {
    let later = newest.wrapping_sub(1 + slot) % KEPT_VERSIONS as u16;
    newest.saturating_sub(later)
}

/// A stored list: a slot's masks less the zeros at their end.
fn without_zeros(masks: &[u8]) -> &[u8] {
    let last = masks.iter().rposition(|&mask| mask != 0);
    &masks[..last.map_or(0, |last| last + 1)]
}

/// The slot in which this version is kept.
fn slot_keeping(version: u32, versions: &Versions) -> Option<usize> {
    let slot = slot_of(version.checked_sub(1)?);
    (u32::from(versions[slot]) == version).then_some(slot)
}

/// The slot of the version after so many others.
fn slot_of(before: u32) -> usize {
    before as usize % KEPT_VERSIONS
}

fn slot_masks(lists: &Lists, slot: usize) -> &[u8] {
    &lists[slot * MAX_PLANS..][..MAX_PLANS]
}

/// Writes a good list into the slot of its version, which is not 0, and returns the version.
fn keep(version: u16, masks: &[u8], versions: &mut Versions, lists: &mut Lists) -> u32 {
    let slot = slot_of(u32::from(version) - 1);
    versions[slot] = version;
    let (list, behind) = lists[slot * MAX_PLANS..][..MAX_PLANS].split_at_mut(masks.len());
    list.copy_from_slice(masks);
    behind.fill(0);
    version.into()
}

#[cfg(test)]
mod tests {
    use super::*;

    const ONE: [u8; 1] = [127];
    const TWO: [u8; 2] = [0b110_0000, 0b001_1111];
    const SEVEN: [u8; 7] = [64, 1, 32, 2, 16, 4, 8];

    /// A store after this list and so many changes to it.
    fn store(masks: &[u8], changes: u32) -> (Versions, Lists) {
        let (mut versions, mut lists) = ([9; 16], [9; 112]);
        assert_eq!(week_new(masks, &mut versions, &mut lists), Ok(1));
        for change in 1..=changes {
            let reply = week_change(masks, &mut versions, &mut lists);
            assert_eq!(reply, Ok(change + 1));
        }
        (versions, lists)
    }

    #[test]
    fn knows_week_lists() {
        for good in [&ONE[..], &TWO, &SEVEN, &[1, 126], &[3, 12, 112]] {
            assert!(is_week_list(good), "{good:?}");
        }
        for broken in [
            &[][..],
            &[0],
            &[126],
            &[128],
            &[255],
            &[127, 0],
            &[0, 127],
            &[127, 128],
            &[1, 254],
            &[127, 127],
            &[127, 1],
            &[1, 1, 124],
            &[3, 126],
            &[1, 0, 126],
            &[1, 2, 4, 8, 16, 32],
            &[1, 2, 4, 8, 16, 32, 64, 0],
            &[1, 2, 4, 8, 16, 32, 64, 64],
        ] {
            assert!(!is_week_list(broken), "{broken:?}");
        }
    }

    #[test]
    fn keeps_each_version_in_its_slot() {
        let (versions, lists) = store(&TWO, 0);
        assert_eq!(versions[..2], [1, 0]);
        assert_eq!(lists[..8], [96, 31, 0, 0, 0, 0, 0, 0]);
        let (versions, _) = store(&TWO, 15);
        assert!(versions.into_iter().eq(1..=16));
        let (mut versions, mut lists) = store(&SEVEN, 16);
        assert_eq!(versions[..2], [17, 2]);
        // What stood behind the new list is gone.
        assert_eq!(week_change(&TWO, &mut versions, &mut lists), Ok(18));
        assert_eq!(lists[7..14], [96, 31, 0, 0, 0, 0, 0]);
        assert_eq!(lists[14..21], SEVEN);
    }

    #[test]
    fn finds_the_days_plan() {
        let (mut versions, mut lists) = store(&SEVEN, 3);
        assert_eq!(week_change(&TWO, &mut versions, &mut lists), Ok(5));
        let plans =
            |version| [0, 1, 2, 3, 4, 5, 6].map(|day| week_plan(&versions, &lists, version, day));
        assert_eq!(plans(5), [1, 1, 1, 1, 1, 0, 0].map(Ok));
        assert_eq!(plans(4), [1, 3, 5, 6, 4, 2, 0].map(Ok));
        for version in [0, 6, 21, 65_541, u32::MAX] {
            assert_eq!(plans(version), [Err(Refusal::VERSION_OR_DAY); 7]);
        }
        for day in [7, 8, 32, 256, u32::MAX] {
            let reply = week_plan(&versions, &lists, 5, day);
            assert_eq!(reply, Err(Refusal::VERSION_OR_DAY));
        }
    }

    #[test]
    fn due_versions_are_the_last_ones() {
        for newest in (1..100).chain(65_500..=65_535) {
            let mut due: Vec<u16> = (0..16).map(|slot| version_due(slot, newest)).collect();
            for (slot, &version) in due.iter().enumerate() {
                assert!(version == 0 || slot_of(u32::from(version) - 1) == slot);
            }
            due.sort_unstable();
            due.retain(|&version| version != 0);
            let oldest = newest.saturating_sub(15).max(1);
            assert!(due.into_iter().eq(oldest..=newest));
        }
    }

    #[test]
    fn refuses_a_broken_store_first() {
        let (good_versions, good_lists) = store(&TWO, 20);
        let refused = |versions: &Versions, lists: &Lists| {
            let (mut changed_versions, mut changed_lists) = (*versions, *lists);
            let reply = week_change(&[], &mut changed_versions, &mut changed_lists);
            assert_eq!(reply, Err(Refusal::STORE));
            assert_eq!((&changed_versions, &changed_lists), (versions, lists));
            let reply = week_plan(versions, lists, 0, 7);
            assert_eq!(reply, Err(Refusal::STORE));
        };
        refused(&[0; 16], &good_lists);
        for slot in 0..16 {
            let good = good_versions[slot];
            // The oldest one more by 16 would be the next newest.
            for version in [0, 1, good - 1, good + 1, good + 32, 65_535] {
                let mut versions = good_versions;
                versions[slot] = version;
                if versions != good_versions {
                    refused(&versions, &good_lists);
                }
            }
            let mut lists = good_lists;
            lists[7 * slot + 6] = 1;
            refused(&good_versions, &lists);
        }
    }

    #[test]
    fn refuses_lists_and_the_last_version() {
        let (mut versions, mut lists) = store(&TWO, 20);
        let before = (versions, lists);
        let reply = week_change(&[126], &mut versions, &mut lists);
        assert_eq!(reply, Err(Refusal::WEEK_LIST));
        let reply = week_new(&[126], &mut versions, &mut lists);
        assert_eq!(reply, Err(Refusal::WEEK_LIST));
        assert_eq!((versions, lists), before);
        // As they stand at 65,534, each in its slot.
        for (slot, version) in (0..).zip(&mut versions) {
            *version = version_due(slot, 65_534);
        }
        let reply = week_change(&TWO, &mut versions, &mut lists);
        assert_eq!(reply, Ok(65_535));
        let before = (versions, lists);
        let reply = week_change(&TWO, &mut versions, &mut lists);
        assert_eq!(reply, Err(Refusal::WEEK_LIST));
        assert_eq!((versions, lists), before);
        assert_eq!(week_plan(&versions, &lists, 65_520, 6), Ok(0));
        let reply = week_plan(&versions, &lists, 65_519, 6);
        assert_eq!(reply, Err(Refusal::VERSION_OR_DAY));
    }
}
