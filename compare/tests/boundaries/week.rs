//! Week lists and their stores: all short lists, a store's whole history, its last version,
//! every way to break a store, every number altered in turn, and the limits of a question.

use compare::cabinet;
use compare::comparison::answers;
use compare::inputs::Random;
use compare::inputs::damage::damage_week_list;
use compare::inputs::weeks::{Store, oldest_kept, random_bytes, random_week_list, slot_of};
use compare::reference::Refusal;

use super::number;

const TWO: [u8; 2] = [0b110_0000, 0b001_1111];
const SEVEN: [u8; 7] = [64, 1, 32, 2, 16, 4, 8];

/// Whether a list keeps the rules, by counting for each day the masks that have it.
fn keeps_the_rules(masks: &[u8]) -> bool {
    let ones_of = |day: u32| masks.iter().filter(|&mask| mask >> day & 1 == 1).count();
    (1..=7).contains(&masks.len())
        && masks.iter().all(|mask| (1..=127).contains(mask))
        && (0..7).all(|day| ones_of(day) == 1)
}

/// The place of the mask with the day, from 0.
fn place_of(masks: &[u8], day: u32) -> u32 {
    let before = masks.iter().take_while(|&mask| mask >> day & 1 == 0);
    before.count() as u32
}

/// The number of a store made in these tables on which both agree, 0 for an answer.
fn new_number(masks: &[u8], before: &Store) -> u32 {
    number(answers::week_new(masks, before))
}

/// The number of a change.
fn change_number(masks: &[u8], before: &Store) -> u32 {
    number(answers::week_change(masks, before))
}

/// The number of a question.
fn plan_number(store: &Store, version: u32, day: u32) -> u32 {
    number(answers::week_plan(store, version, day))
}

/// The place on which both agree.
fn plan(store: &Store, version: u32, day: u32) -> Result<u32, u32> {
    match answers::week_place(store, version, day) {
        Ok(reply) => reply.map_err(|refusal| refusal.0),
        Err(difference) => panic!("{difference}"),
    }
}

/// The library makes a store or changes it.
fn new(store: &mut Store, masks: &[u8]) -> Result<u32, Refusal> {
    cabinet::week_new(masks, &mut store.versions, &mut store.lists)
}

fn change(store: &mut Store, masks: &[u8]) -> Result<u32, Refusal> {
    cabinet::week_change(masks, &mut store.versions, &mut store.lists)
}

/// Asks the library alone for a store of this list, and for a change to it.
fn assert_by_counting(masks: &[u8], garbage: &Store, store: &Store) {
    let good = keeps_the_rules(masks);
    let expect = |version| good.then_some(version).ok_or(Refusal(40));
    let mut made = garbage.clone();
    assert_eq!(new(&mut made, masks), expect(1), "{masks:?}");
    let mut changed = store.clone();
    assert_eq!(change(&mut changed, masks), expect(19), "{masks:?}");
    if !good {
        assert_eq!((&made, &changed), (garbage, store), "{masks:?}");
        return;
    }
    assert_eq!(made, Store::with(1, |_| masks.to_vec()));
    let mut expected = store.clone();
    expected.put(slot_of(19), 19, masks);
    assert_eq!(changed, expected);
    for day in 0..7 {
        let place = place_of(masks, day);
        assert_eq!(plan(&made, 1, day), Ok(place));
        assert_eq!(plan(&changed, 19, day), Ok(place));
        assert_eq!(masks[place as usize] >> day & 1, 1);
    }
}

/// Tables in which a store is made, and a store that is changed to version 19.
fn before() -> (Store, Store) {
    let random = &mut Random::new(11);
    (
        random_bytes(random),
        Store::with(18, |_| random_week_list(random)),
    )
}

#[test]
fn all_lists_of_one_and_two_masks() {
    let (garbage, store) = before();
    assert_by_counting(&[], &garbage, &store);
    for one in 0..=255 {
        assert_by_counting(&[one], &garbage, &store);
        for two in 0..=255 {
            assert_by_counting(&[one, two], &garbage, &store);
        }
    }
}

#[test]
fn all_lists_of_three_masks() {
    let (garbage, store) = before();
    // All of them are made; the refused ones must leave the same tables to the next.
    let mut made = garbage.clone();
    let mut good = 0;
    for masks in (0..1 << 24).map(|bits: u32| [(bits >> 16) as u8, (bits >> 8) as u8, bits as u8]) {
        let reply = new(&mut made, &masks);
        if keeps_the_rules(&masks) {
            good += 1;
            assert_eq!(reply, Ok(1), "{masks:?}");
            assert_by_counting(&masks, &garbage, &store);
            made = garbage.clone();
        } else {
            assert_eq!(reply, Err(Refusal(40)), "{masks:?}");
        }
    }
    assert_eq!(made, garbage);
    // The ways to give seven days to three plans of which none is left without one.
    assert_eq!(good, 1_806);
}

#[test]
fn all_changes_to_three_masks() {
    let (_, store) = before();
    let mut changed = store.clone();
    let masks = || (0..=128).chain([255]);
    for one in masks() {
        for two in masks() {
            for three in masks() {
                let masks = [one, two, three];
                let reply = change(&mut changed, &masks);
                if keeps_the_rules(&masks) {
                    assert_eq!(reply, Ok(19), "{masks:?}");
                    changed = store.clone();
                } else {
                    assert_eq!(reply, Err(Refusal(40)), "{masks:?}");
                }
            }
        }
    }
    assert_eq!(changed, store);
}

#[test]
fn longer_lists() {
    let (garbage, store) = before();
    let random = &mut Random::new(1);
    for _ in 0..100_000 {
        let mut masks = random_week_list(random);
        assert_by_counting(&masks, &garbage, &store);
        damage_week_list(random, &mut masks);
        assert_by_counting(&masks, &garbage, &store);
    }
    // Seven masks with a day each, and each of them another byte.
    for place in 0..7 {
        for mask in 0..=255 {
            let mut masks = SEVEN;
            masks[place] = mask;
            assert_by_counting(&masks, &garbage, &store);
        }
    }
    // An eighth mask, and more, also so many that bits of the number are lost.
    for list in [&[127][..], &TWO, &SEVEN] {
        for mask in [0, 1, 64, 127, 128, 255] {
            for more in [1, 6, 7, 8, 255, 256, 65_535, 65_536] {
                let mut masks = list.to_vec();
                masks.resize(list.len() + more, mask);
                assert_by_counting(&masks, &garbage, &store);
            }
        }
    }
}

#[test]
fn named_lists() {
    let (garbage, store) = before();
    for (masks, number) in [
        (&[127][..], 0),
        (&TWO, 0),
        (&SEVEN, 0),
        (&[1, 2, 4, 8, 16, 32, 64], 0),
        // None, too many, and a mask 0.
        (&[], 40),
        (&[1, 2, 4, 8, 16, 32, 64, 0], 40),
        (&[1, 2, 4, 8, 16, 32, 64, 128], 40),
        (&[0], 40),
        (&[127, 0], 40),
        (&[0, 127], 40),
        (&[1, 0, 126], 40),
        // A mask above 127.
        (&[128], 40),
        (&[255], 40),
        (&[127, 128], 40),
        (&[1, 254], 40),
        (&[129, 126], 40),
        // A day missing.
        (&[126], 40),
        (&[63], 40),
        (&[1, 2, 4, 8, 16, 32], 40),
        // A day in two masks, and all seven covered.
        (&[127, 1], 40),
        (&[127, 127], 40),
        (&[64, 127], 40),
        (&[3, 126], 40),
        (&[1, 2, 4, 8, 16, 32, 96], 40),
        // A day in two masks and another missing, so that there are seven ones.
        (&[63, 1], 40),
        (&[1, 1, 1, 1, 1, 1, 1], 40),
        (&[1, 2, 4, 8, 16, 32, 32], 40),
        (&[7, 15], 40),
        // The masks add up to 127, or each day is in an odd number of masks.
        (&[63, 63, 1], 40),
        (&[64, 32, 16, 8, 4, 1, 1], 40),
        (&[127, 1, 1], 40),
        (&[126, 3, 2], 40),
    ] {
        assert_eq!(new_number(masks, &garbage), number, "{masks:?}");
        assert_eq!(new_number(masks, &Store::EMPTY), number, "{masks:?}");
        assert_eq!(change_number(masks, &store), number, "{masks:?}");
        // Nothing of the list is looked at.
        assert_eq!(change_number(masks, &Store::EMPTY), 42, "{masks:?}");
        assert_eq!(change_number(masks, &garbage), 42, "{masks:?}");
    }
}

/// Every question, beside the plain history of accepted lists.
fn assert_history(store: &Store, history: &[Vec<u8>]) {
    for version in 0..=60 {
        let kept = version > 0 && version <= history.len() && version + 16 > history.len();
        for day in 0..=8 {
            let expected = match kept && day < 7 {
                true => Ok(place_of(&history[version - 1], day)),
                false => Err(41),
            };
            let found = plan(store, version as u32, day);
            assert_eq!(found, expected, "version {version} on day {day}");
        }
    }
}

#[test]
fn forty_changes() {
    let random = &mut Random::new(2);
    for mut store in [Store::EMPTY, random_bytes(random), Store::measured()] {
        let mut history = vec![random_week_list(random)];
        assert_eq!(new_number(&history[0], &store), 0);
        assert_eq!(new(&mut store, &history[0]), Ok(1));
        assert_history(&store, &history);
        for version in 2..=41 {
            // Some that are refused, and change nothing.
            for broken in [&[][..], &[126], &[63, 1], &[127, 0], &[1; 8]] {
                let before = store.clone();
                assert_eq!(change_number(broken, &store), 40);
                assert_eq!(change(&mut store, broken), Err(Refusal(40)));
                assert_eq!(new(&mut store, broken), Err(Refusal(40)));
                assert_eq!(store, before);
            }
            let list = random_week_list(random);
            assert_eq!(change_number(&list, &store), 0);
            assert_eq!(change(&mut store, &list), Ok(version));
            history.push(list);
            let by_hand = Store::with(version as u16, |one| history[usize::from(one) - 1].clone());
            assert_eq!(store, by_hand);
            assert_history(&store, &history);
        }
        // And from the start again.
        assert_eq!(new(&mut store, &TWO), Ok(1));
        assert_history(&store, &[TWO.to_vec()]);
    }
}

#[test]
fn every_version_that_there_is() {
    let lists = [&TWO[..], &SEVEN, &[127]];
    let list = |version: u16| lists[usize::from(version) % 3].to_vec();
    let mut store = Store::EMPTY;
    assert_eq!(new(&mut store, &list(1)), Ok(1));
    for version in 2..=65_535 {
        assert_eq!(change(&mut store, &list(version)), Ok(version.into()));
        let place = place_of(&list(version), 3);
        assert_eq!(plan(&store, version.into(), 3), Ok(place));
        // The one that fell out, and the oldest.
        let oldest = oldest_kept(version);
        assert_eq!(plan(&store, u32::from(oldest) - 1, 3), Err(41));
        let place = place_of(&list(oldest), 3);
        assert_eq!(plan(&store, oldest.into(), 3), Ok(place));
        if version % 1_021 == 0 {
            assert_eq!(store, Store::with(version, list));
        }
    }
    assert_eq!(store, Store::with(65_535, list));
}

#[test]
fn made_in_any_tables() {
    let expected = Store::with(1, |_| TWO.to_vec());
    for version in 0..=65_535_u16 {
        // The same everywhere, and in one slot alone.
        let mut same = Store {
            versions: [version; 16],
            lists: [version as u8; 112],
        };
        let mut alone = Store::EMPTY;
        alone.versions[usize::from(version) % 16] = version;
        alone.lists[usize::from(version) % 112] = !(version as u8);
        for before in [&mut same, &mut alone] {
            let garbage = before.clone();
            assert_eq!(new(before, &[126]), Err(Refusal(40)));
            assert_eq!(before, &garbage);
            assert_eq!(new(before, &TWO), Ok(1));
            assert_eq!(before, &expected);
        }
    }
    for store in good_stores() {
        assert_eq!(new_number(&TWO, &store), 0);
        assert_eq!(new_number(&[126], &store), 40);
    }
}

#[test]
fn last_versions() {
    let random = &mut Random::new(3);
    let mut store = Store::with(65_533, |_| random_week_list(random));
    for version in [65_534, 65_535] {
        assert_eq!(change_number(&TWO, &store), 0);
        assert_eq!(change(&mut store, &TWO), Ok(version));
        assert_eq!(plan(&store, version, 6), Ok(0));
        assert_eq!(plan(&store, version + 1, 6), Err(41));
        assert_eq!(plan(&store, version - 16, 6), Err(41));
        assert_eq!(plan_number(&store, version - 15, 6), 0);
    }
    assert_eq!(store.versions[slot_of(65_535)], 65_535);
    assert_eq!(store.versions[15], 65_520);
    // No list is taken any more, but a store may be made.
    let full = store.clone();
    for masks in [&TWO[..], &SEVEN, &[127], &[], &[126]] {
        assert_eq!(change_number(masks, &store), 40);
        assert_eq!(change(&mut store, masks), Err(Refusal(40)));
        assert_eq!(store, full);
    }
    for version in [0, 1, 16, 65_519, 65_536, 65_537, 131_071, u32::MAX] {
        assert_eq!(plan(&store, version, 0), Err(41), "{version}");
    }
    for version in 65_520..=65_535 {
        assert_eq!(plan_number(&store, version, 0), 0);
    }
    // A broken one is 42 there too.
    store.lists[0] = 0;
    assert_eq!(change_number(&TWO, &store), 42);
    assert_eq!(new_number(&TWO, &store), 0);
    assert_eq!(new(&mut store, &TWO), Ok(1));
    assert_eq!(store, Store::with(1, |_| TWO.to_vec()));
}

#[test]
fn versions_and_days_of_a_question() {
    for (newest, kept) in [
        (1, 1..=1),
        (2, 1..=2),
        (15, 1..=15),
        (16, 1..=16),
        (17, 2..=17),
        (18, 3..=18),
        (32, 17..=32),
        (33, 18..=33),
        (257, 242..=257),
        (65_535, 65_520..=65_535),
    ] {
        let store = Store::with(newest, |_| SEVEN.to_vec());
        for version in [
            0,
            1,
            2,
            3,
            4,
            15,
            16,
            17,
            18,
            19,
            31,
            32,
            33,
            34,
            241,
            242,
            256,
            257,
            258,
            65_519,
            65_520,
            65_534,
            65_535,
            65_536,
            65_537,
            65_538,
            65_552,
            65_553,
            65_793,
            131_071,
            1 << 31,
            (1 << 31) + 1,
            u32::MAX - 15,
            u32::MAX,
        ] {
            let number = if kept.contains(&version) { 0 } else { 41 };
            assert_eq!(
                plan_number(&store, version, 6),
                number,
                "{version} of {newest}"
            );
            for day in [
                7,
                8,
                15,
                31,
                32,
                64,
                255,
                256,
                262,
                65_536,
                1 << 31,
                u32::MAX,
            ] {
                assert_eq!(plan_number(&store, version, day), 41);
            }
        }
        for (day, place) in [(0, 1), (1, 3), (2, 5), (3, 6), (4, 4), (5, 2), (6, 0)] {
            assert_eq!(plan(&store, newest.into(), day), Ok(place));
        }
    }
}

/// Whether a store is good, as the paper says it.
fn is_good(store: &Store) -> bool {
    let newest = store.newest();
    let due = |slot: usize| {
        let kept = oldest_kept(newest)..=newest;
        kept.rev().find(|&version| slot_of(version) == slot)
    };
    newest != 0
        && (0..16).all(|slot| match due(slot) {
            None => store.versions[slot] == 0,
            Some(version) => {
                let mut masks = store.masks(slot).to_vec();
                while masks.last() == Some(&0) {
                    masks.pop();
                }
                store.versions[slot] == version && keeps_the_rules(&masks)
            }
        })
}

/// Expects 42 of a change and of all questions, or of none of them.
fn assert_good(store: &Store, good: bool) {
    assert_eq!(is_good(store), good, "{store:?}");
    let newest = u32::from(store.newest());
    let number = |number| if good { number } else { 42 };
    assert_eq!(plan_number(store, newest, 0), number(0));
    assert_eq!(plan_number(store, 0, 0), number(41));
    assert_eq!(plan_number(store, newest, 7), number(41));
    assert_eq!(plan_number(store, u32::MAX, u32::MAX), number(41));
    let last = if newest == 65_535 { 40 } else { 0 };
    assert_eq!(change_number(&TWO, store), number(last));
    assert_eq!(change_number(&[126], store), number(40));
    assert_eq!(change_number(&[], store), number(40));
}

/// Good stores of every kind: partly filled, just full, and long since.
fn good_stores() -> Vec<Store> {
    let random = &mut Random::new(4);
    let newest = [1, 2, 5, 15, 16, 17, 24, 32, 100, 65_534, 65_535];
    newest
        .into_iter()
        .map(|newest| Store::with(newest, |_| random_week_list(random)))
        .collect()
}

#[test]
fn stores_without_a_version() {
    assert_good(&Store::EMPTY, false);
    for mut store in good_stores() {
        assert_good(&store, true);
        store.versions.fill(0);
        assert_good(&store, false);
    }
}

#[test]
fn broken_versions() {
    for good in good_stores() {
        let newest = good.newest();
        let (oldest_slot, newest_slot) = (slot_of(oldest_kept(newest)), slot_of(newest));
        for slot in 0..16 {
            let own = good.versions[slot];
            let assert_with = |version: u16, is_good| {
                let mut store = good.clone();
                store.put(slot, version, &TWO);
                assert_good(&store, is_good);
            };
            // A version twice: the newest, the oldest, and a neighbour's.
            for other in [newest_slot, oldest_slot, (slot + 1) % 16, (slot + 15) % 16] {
                if other != slot && good.versions[other] != 0 {
                    assert_with(good.versions[other], false);
                }
            }
            if own == 0 {
                // One left in a slot that should be empty, unless it is the next newest.
                assert_with(slot as u16 + 1, slot == newest_slot + 1);
                assert_with(slot as u16 + 17, false);
                assert_with(slot as u16 + 65_505, false);
                continue;
            }
            // One is missing, unless it is the newest of those that were all kept.
            let all_kept = (2..=16).contains(&newest);
            assert_with(0, slot == newest_slot && all_kept);
            // An older one left in its slot, unless the newest was not made yet.
            if own > 16 {
                assert_with(own - 16, slot == newest_slot);
            }
            // A newer one already in its slot, unless it is the next newest.
            if own < 65_520 {
                assert_with(own + 16, slot == oldest_slot && newest >= 16);
                assert_with(own + 32, false);
            }
        }
    }
}

#[test]
fn named_stores() {
    let store = |versions: &[u16]| {
        let mut store = Store::EMPTY;
        for (slot, &version) in versions.iter().enumerate() {
            store.put(slot, version, &SEVEN);
        }
        store
    };
    for (versions, good) in [
        (&[1][..], true),
        (&[1, 2], true),
        (&[1, 2, 3], true),
        // None, no first one, and gaps.
        (&[], false),
        (&[0, 2], false),
        (&[0, 2, 3], false),
        (&[1, 0, 3], false),
        (&[1, 2, 4], false),
        (&[17], false),
        (&[17, 2], false),
        (&[65_521], false),
        // In another's slot.
        (&[2], false),
        (&[0, 1], false),
        (&[2, 1], false),
        (&[2, 3, 4], false),
        // The same twice.
        (&[1, 1], false),
        (&[1, 2, 2], false),
        (&[1, 2, 1], false),
        // Full ones.
        (&[1, 2, 3, 4, 5, 6, 7, 8, 9, 10, 11, 12, 13, 14, 15], true),
        (
            &[1, 2, 3, 4, 5, 6, 7, 8, 9, 10, 11, 12, 13, 14, 15, 16],
            true,
        ),
        (
            &[17, 2, 3, 4, 5, 6, 7, 8, 9, 10, 11, 12, 13, 14, 15, 16],
            true,
        ),
        (
            &[17, 18, 3, 4, 5, 6, 7, 8, 9, 10, 11, 12, 13, 14, 15, 16],
            true,
        ),
        // The oldest missing, the newest missing, and all but the last few.
        (
            &[0, 2, 3, 4, 5, 6, 7, 8, 9, 10, 11, 12, 13, 14, 15, 16],
            false,
        ),
        (
            &[17, 0, 3, 4, 5, 6, 7, 8, 9, 10, 11, 12, 13, 14, 15, 16],
            false,
        ),
        (
            &[0, 18, 3, 4, 5, 6, 7, 8, 9, 10, 11, 12, 13, 14, 15, 16],
            false,
        ),
        (&[17, 0, 0, 0, 0, 0, 0, 0, 0, 0, 0, 0, 0, 0, 0, 16], false),
        // One of the round before, and one of the round after.
        (
            &[17, 18, 19, 4, 5, 6, 7, 8, 9, 10, 11, 12, 13, 14, 15, 0],
            false,
        ),
        (
            &[17, 2, 19, 4, 5, 6, 7, 8, 9, 10, 11, 12, 13, 14, 15, 16],
            false,
        ),
        (
            &[1, 18, 3, 4, 5, 6, 7, 8, 9, 10, 11, 12, 13, 14, 15, 16],
            false,
        ),
        // From the oldest on in slot 0.
        (
            &[2, 3, 4, 5, 6, 7, 8, 9, 10, 11, 12, 13, 14, 15, 16, 17],
            false,
        ),
    ] {
        assert_good(&store(versions), good);
    }
}

#[test]
fn versions_in_other_slots() {
    for good in good_stores() {
        // Two change places, with their lists or without.
        for slot in 0..16 {
            for other in 0..slot {
                let mut store = good.clone();
                store.versions.swap(slot, other);
                let same = store == good;
                assert_good(&store, same);
                store.swap_masks(slot, other);
                assert_good(&store, same);
            }
        }
        // All turn by some slots.
        for by in 1..16 {
            let mut store = good.clone();
            store.versions.rotate_right(by);
            store.lists.rotate_right(7 * by);
            assert_good(&store, false);
        }
        // All are one more or less.
        for by in [1, 15, 65_535, 65_521] {
            let mut store = good.clone();
            for version in store.versions.iter_mut().filter(|version| **version != 0) {
                *version = version.wrapping_add(by);
            }
            assert_good(&store, is_good(&store));
        }
    }
    // Sixteen versions in their order from slot 0 on, of which the first is not 1 more than a
    // multiple of 16.
    for oldest in 1..=40 {
        let mut store = Store::EMPTY;
        for slot in 0..16 {
            store.put(slot, oldest + slot as u16, &SEVEN);
        }
        assert_good(&store, oldest % 16 == 1);
    }
}

#[test]
fn broken_lists_in_stores() {
    for good in good_stores() {
        for slot in good.kept_slots() {
            let with = |masks: [u8; 7]| {
                let mut store = good.clone();
                store.put(slot, good.versions[slot], &masks);
                store
            };
            for masks in [
                [127, 0, 0, 0, 0, 0, 0],
                [1, 126, 0, 0, 0, 0, 0],
                [1, 2, 4, 8, 16, 96, 0],
                SEVEN,
            ] {
                assert_good(&with(masks), true);
            }
            for masks in [
                // None, and a zero before or between the masks.
                [0; 7],
                [0, 127, 0, 0, 0, 0, 0],
                [0, 0, 0, 0, 0, 0, 127],
                [1, 0, 126, 0, 0, 0, 0],
                [1, 2, 4, 8, 0, 112, 0],
                [1, 2, 4, 8, 0, 0, 112],
                // Bytes behind a list.
                [127, 0, 0, 0, 0, 0, 1],
                [127, 0, 0, 0, 0, 0, 128],
                [127, 1, 0, 0, 0, 0, 0],
                [1, 126, 0, 0, 0, 0, 255],
                [1, 126, 128, 0, 0, 0, 0],
                // Above 127.
                [255, 0, 0, 0, 0, 0, 0],
                [128, 127, 0, 0, 0, 0, 0],
                [129, 126, 0, 0, 0, 0, 0],
                // A day missing, a day twice, and both.
                [126, 0, 0, 0, 0, 0, 0],
                [1, 2, 4, 8, 16, 32, 0],
                [3, 126, 0, 0, 0, 0, 0],
                [1, 2, 4, 8, 16, 32, 96],
                [63, 1, 0, 0, 0, 0, 0],
                [1; 7],
                [127; 7],
                [255; 7],
            ] {
                assert_good(&with(masks), false);
            }
        }
    }
}

#[test]
fn empty_slots_hold_anything() {
    let random = &mut Random::new(5);
    for mut store in good_stores() {
        for filled in [0, 1, 127, 128, 255] {
            for slot in store.empty_slots() {
                store.masks_mut(slot).fill(filled);
            }
            assert_good(&store, true);
        }
        store.litter(random);
        assert_good(&store, true);
        // A change into one of them leaves the others.
        let before = store.clone();
        if change(&mut store, &TWO).is_ok() {
            let mut expected = before.clone();
            let next = before.newest() + 1;
            expected.put(slot_of(next), next, &TWO);
            assert_eq!(store, expected);
        }
    }
}

/// A partly filled store and a full one.
fn altered_stores() -> [Store; 2] {
    let random = &mut Random::new(6);
    [9, 25].map(|newest| {
        let mut store = Store::with(newest, |_| random_week_list(random));
        store.litter(random);
        store
    })
}

#[test]
fn every_version_altered() {
    for good in altered_stores() {
        assert_good(&good, true);
        let newest = good.newest();
        let mut answered = 0;
        for slot in 0..16 {
            let own = good.versions[slot];
            let near = (0..=34).chain([own, newest].map(|one| one.wrapping_sub(1)));
            let far = [
                40, 41, 255, 256, 257, 265, 32_767, 32_768, 65_519, 65_520, 65_534, 65_535,
            ];
            let rounds = [16, 32, 256, 65_520].map(|by| own.wrapping_add(by));
            for version in near.chain(far).chain(rounds) {
                let mut store = good.clone();
                store.versions[slot] = version;
                let good = is_good(&store);
                assert_good(&store, good);
                answered += usize::from(good && version != own);
            }
        }
        // The newest may be dropped from a partly filled store; the oldest of a full one may be
        // the next newest.
        assert!(answered > 0);
    }
}

#[test]
fn every_mask_altered() {
    for good in altered_stores() {
        for place in 0..112 {
            let kept = good.versions[place / 7] != 0;
            for mask in 0..=255 {
                let mut store = good.clone();
                store.lists[place] = mask;
                let same = mask == good.lists[place];
                let good = is_good(&store);
                assert!(good || kept && !same);
                assert_good(&store, good);
            }
        }
    }
}

#[test]
fn every_bit_altered() {
    for good in good_stores() {
        for (slot, bit) in (0..16).flat_map(|slot| (0..16).map(move |bit| (slot, bit))) {
            let mut store = good.clone();
            store.versions[slot] ^= 1 << bit;
            assert_good(&store, is_good(&store));
        }
        for (place, bit) in (0..112).flat_map(|place| (0..8).map(move |bit| (place, bit))) {
            let mut store = good.clone();
            store.lists[place] ^= 1 << bit;
            // A day is then missing, or in two masks, or a mask is above 127.
            assert_good(&store, good.versions[place / 7] == 0);
        }
    }
}
