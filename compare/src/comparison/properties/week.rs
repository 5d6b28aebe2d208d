//! Properties of a store of week lists: of one list's days, of a store's history, of what a
//! change and a refusal leave, and of what makes no difference.

use super::driven;
use crate::cabinet;
use crate::comparison::answers::{shown_store, shown_week};
use crate::comparison::{Check, Difference, Outcome};
use crate::inputs::Random;
use crate::inputs::damage::{damage_store, damage_week_list};
use crate::inputs::weeks::{
    Store, oldest_kept, random_bytes, random_newest, random_store, random_week_list, slot_of,
};
use crate::reference::Refusal;
use crate::reference::limits::{KEPT_VERSIONS, LAST_VERSION, WEEKDAYS};

pub const PLAN_OF_EACH_DAY: Check = Check {
    name: "plan of each day",
    cases: 50_000,
    run: plan_of_each_day,
    finds_nothing: false,
    refuses: &[],
};

pub const STORE_BY_HISTORY: Check = Check {
    name: "store by its history",
    cases: 2_000,
    run: store_by_history,
    finds_nothing: true,
    refuses: &[],
};

pub const EARLIER_VERSIONS: Check = Check {
    name: "earlier versions",
    cases: 20_000,
    run: earlier_versions,
    finds_nothing: true,
    refuses: &[],
};

pub const OWN_SLOT: Check = Check {
    name: "a change's own slot",
    cases: 50_000,
    run: own_slot,
    finds_nothing: false,
    refuses: &[],
};

pub const REFUSED_WEEKS: Check = Check {
    name: "refused weeks",
    cases: 50_000,
    run: refused_weeks,
    finds_nothing: false,
    refuses: &[40..=40, 42..=42],
};

pub const MADE_ANEW: Check = Check {
    name: "made anew",
    cases: 50_000,
    run: made_anew,
    finds_nothing: false,
    refuses: &[],
};

pub const EMPTY_SLOTS: Check = Check {
    name: "empty slots",
    cases: 20_000,
    run: empty_slots,
    finds_nothing: true,
    refuses: &[42..=42],
};

pub const PLANS_SHUFFLED: Check = Check {
    name: "plans shuffled",
    cases: 50_000,
    run: plans_shuffled,
    finds_nothing: true,
    refuses: &[],
};

pub const VERSIONS_MOVED: Check = Check {
    name: "versions moved",
    cases: 20_000,
    run: versions_moved,
    finds_nothing: false,
    refuses: &[42..=42],
};

/// Each day's plan has the day in its mask, and no other plan has it.
fn plan_of_each_day(random: &mut Random) -> Result<Outcome, Difference> {
    let mut store = random_changeable(random);
    let list = random_week_list(random);
    let version = accepted(change(&mut store, &list), &store, &list)?;
    for day in 0..WEEKDAYS {
        let found = plan(&store, version, day);
        let places = 0..list.len();
        let with_day: Vec<usize> = places
            .filter(|&place| list[place] >> day & 1 == 1)
            .collect();
        let right = found.is_ok_and(|place| with_day == [place as usize]);
        expect(right, &store, || {
            let question = format!("the plan of {list:?} on day {day}");
            (question, format!("{with_day:?}"), format!("{found:?}"))
        })?;
    }
    Ok(Outcome::Answered)
}

/// After a store is made and changed, with broken lists in between, the versions are the
/// numbers of the accepted lists; the last 16 of them are answered by their lists, and all
/// others are 41. Nothing is found where all are kept.
fn store_by_history(random: &mut Random) -> Result<Outcome, Difference> {
    let mut store = random_bytes(random);
    let first = random_week_list(random);
    let mut history = vec![first];
    let made = new(&mut store, &history[0]);
    expect_reply(made, Ok(1), &store, &history[0])?;
    for _ in 0..random.up_to_one_of(&[3, 16, 40]) {
        let mut list = random_week_list(random);
        if random.one_in(4) {
            break_list(random, &mut list);
            let before = store.clone();
            expect_reply(change(&mut store, &list), Err(Refusal(40)), &before, &list)?;
            expect_same(&before, &store, &list)?;
        } else {
            let next = history.len() as u32 + 1;
            expect_reply(change(&mut store, &list), Ok(next), &store, &list)?;
            history.push(list);
        }
    }
    let newest = history.len();
    for version in 0..newest as u32 + 20 {
        let kept = (version as usize + KEPT_VERSIONS > newest)
            .then(|| history.get((version as usize).wrapping_sub(1)))
            .flatten();
        for day in 0..WEEKDAYS {
            let place = kept.map(|list| list.iter().position(|mask| mask >> day & 1 == 1));
            let expected = place.flatten().ok_or(41).map(|place| place as u32);
            let found = plan(&store, version, day).map_err(|refusal| refusal.0);
            expect(found == expected, &store, || {
                let question = format!("version {version} of {newest} on day {day}");
                (question, format!("{expected:?}"), format!("{found:?}"))
            })?;
        }
    }
    Ok(driven((newest > KEPT_VERSIONS).then_some(())))
}

/// A change leaves all replies for every earlier version still kept; the one that falls out is
/// 41. Nothing is found if none does.
fn earlier_versions(random: &mut Random) -> Result<Outcome, Difference> {
    let mut store = random_changeable(random);
    let before = store.clone();
    let list = random_week_list(random);
    let version = accepted(change(&mut store, &list), &store, &list)?;
    let newest = before.newest();
    let oldest = oldest_kept(newest + 1);
    for earlier in oldest_kept(newest)..=newest {
        for day in 0..WEEKDAYS {
            let expected = if earlier < oldest {
                Err(Refusal(41))
            } else {
                plan(&before, earlier.into(), day)
            };
            let found = plan(&store, earlier.into(), day);
            let answered = expected.is_ok() || earlier < oldest;
            expect(answered && found == expected, &before, || {
                let question =
                    format!("version {earlier} on day {day}, after the change to {version}");
                (question, format!("{expected:?}"), format!("{found:?}"))
            })?;
        }
    }
    Ok(driven((oldest_kept(newest) < oldest).then_some(())))
}

/// A change writes its version, its masks and zeros into its slot, and nothing else.
fn own_slot(random: &mut Random) -> Result<Outcome, Difference> {
    let mut store = random_changeable(random);
    let before = store.clone();
    let list = random_week_list(random);
    let version = before.newest() + 1;
    expect_reply(
        change(&mut store, &list),
        Ok(version.into()),
        &before,
        &list,
    )?;
    let mut expected = before;
    expected.put(slot_of(version), version, &list);
    expect_same(&expected, &store, &list)
}

/// A refused call leaves both tables, and the next one is refused too.
fn refused_weeks(random: &mut Random) -> Result<Outcome, Difference> {
    let mut store = random_store(random);
    let mut list = random_week_list(random);
    if random.one_in(2) {
        damage_store(random, &mut store);
    }
    if random.one_in(2) {
        damage_week_list(random, &mut list);
    }
    let before = store.clone();
    let operation = if random.one_in(4) { new } else { change };
    let reply = operation(&mut store, &list);
    if reply.is_ok() {
        return Ok(Outcome::Answered);
    }
    expect_same(&before, &store, &list)?;
    // Nothing is kept outside the tables either.
    expect_reply(operation(&mut store, &list), reply, &before, &list)?;
    Ok(Outcome::of(&reply))
}

/// What the tables held makes no difference to a store that is made in them.
fn made_anew(random: &mut Random) -> Result<Outcome, Difference> {
    let mut store = if random.one_in(2) {
        random_bytes(random)
    } else {
        random_store(random)
    };
    let before = store.clone();
    let list = random_week_list(random);
    expect_reply(new(&mut store, &list), Ok(1), &before, &list)?;
    let expected = Store::with(1, |_| list.clone());
    expect_same(&expected, &store, &list)
}

/// What the masks of empty slots are makes no difference to any answer. Nothing is found where
/// no slot is empty.
fn empty_slots(random: &mut Random) -> Result<Outcome, Difference> {
    let store = good_or_broken(random);
    let mut littered = store.clone();
    littered.litter(random);
    let list = random_week_list(random);
    let replies = |mut store: Store| (change(&mut store, &list), all_plans(&store));
    let (expected, found) = (replies(store.clone()), replies(littered.clone()));
    expect(found == expected, &littered, || {
        let question = "the same with other masks in the empty slots".to_owned();
        (question, format!("{expected:?}"), format!("{found:?}"))
    })?;
    if let Err(refusal) = plan(&store, store.newest().into(), 0) {
        return Ok(Outcome::Refused(refusal));
    }
    Ok(driven(store.versions.contains(&0).then_some(())))
}

/// If a list's masks stand in another order, the places of all days move along. Nothing is
/// found where it is the same order.
fn plans_shuffled(random: &mut Random) -> Result<Outcome, Difference> {
    let list = random_week_list(random);
    let mut order: Vec<usize> = (0..list.len()).collect();
    random.shuffle(&mut order);
    let shuffled: Vec<u8> = order.iter().map(|&place| list[place]).collect();
    let store = random_changeable(random);
    let plans = |list: &[u8]| {
        let mut store = store.clone();
        let version = accepted(change(&mut store, list), &store, list)?;
        let place = |day| plan(&store, version, day).map_or(usize::MAX, |place| place as usize);
        Ok((0..WEEKDAYS).map(place).collect::<Vec<usize>>())
    };
    let expected = plans(&list)?;
    let place = |place: &usize| order.get(*place).copied().unwrap_or(usize::MAX);
    let found: Vec<usize> = plans(&shuffled)?.iter().map(place).collect();
    expect(found == expected, &store, || {
        let question = format!("the plans of {list:?} and of {shuffled:?}");
        (question, format!("{expected:?}"), format!("{found:?}"))
    })?;
    Ok(driven((shuffled != list).then_some(())))
}

/// If all versions of a full store, good or broken, move by a multiple of 16, the answers for
/// them stay.
fn versions_moved(random: &mut Random) -> Result<Outcome, Difference> {
    let mut store = Store::with(16 + random.below(50) as u16, |_| random_week_list(random));
    if random.one_in(3) {
        // A list alone is broken, or two versions change places.
        if random.one_in(2) {
            store.lists[random.index(112)] ^= 1 << random.below(8);
        } else {
            store.versions.swap(random.index(16), random.index(16));
        }
    }
    let by = 16 * random.up_to_one_of(&[3, 4_000]) as u16;
    let mut moved = store.clone();
    moved.versions.iter_mut().for_each(|version| *version += by);
    for version in 0..u32::from(store.newest()) + 20 {
        let day = random.below(WEEKDAYS);
        let expected = plan(&store, version, day);
        let found = plan(&moved, version + u32::from(by), day);
        expect(found == expected, &moved, || {
            let question = format!("version {version} more by {by} on day {day}");
            (question, format!("{expected:?}"), format!("{found:?}"))
        })?;
    }
    Ok(Outcome::of(&plan(&store, store.newest().into(), 0)))
}

fn good_or_broken(random: &mut Random) -> Store {
    let mut store = random_store(random);
    if random.one_in(3) {
        damage_store(random, &mut store);
    }
    store
}

/// A good store, set by hand, that has a next version.
fn random_changeable(random: &mut Random) -> Store {
    let newest = random_newest(random).min(LAST_VERSION - 1);
    let mut store = Store::with(newest, |_| random_week_list(random));
    if random.one_in(3) {
        store.litter(random);
    }
    store
}

/// Breaks a list for certain: a day stands in no mask, or in two.
fn break_list(random: &mut Random, list: &mut Vec<u8>) {
    let day = 1 << random.below(WEEKDAYS);
    if random.one_in(2) {
        list.iter_mut().for_each(|mask| *mask &= !day);
    } else {
        list.push(day);
    }
}

fn new(store: &mut Store, list: &[u8]) -> Result<u32, Refusal> {
    cabinet::week_new(list, &mut store.versions, &mut store.lists)
}

fn change(store: &mut Store, list: &[u8]) -> Result<u32, Refusal> {
    cabinet::week_change(list, &mut store.versions, &mut store.lists)
}

fn plan(store: &Store, version: u32, day: u32) -> Result<u32, Refusal> {
    cabinet::week_plan(&store.versions, &store.lists, version, day)
}

/// The replies for all versions around those that are kept, and for no version.
fn all_plans(store: &Store) -> Vec<Result<u32, Refusal>> {
    let newest = u32::from(store.newest());
    let versions = [0].into_iter().chain(newest.saturating_sub(17)..newest + 2);
    let days = |version| (0..=WEEKDAYS).map(move |day| plan(store, version, day));
    versions.flat_map(days).collect()
}

/// The question, what was expected and what was found are told if it does not hold.
fn expect(
    holds: bool,
    store: &Store,
    told: impl FnOnce() -> (String, String, String),
) -> Result<(), Difference> {
    if holds {
        return Ok(());
    }
    let (question, expected, found) = told();
    Err(Difference {
        question,
        input: shown_store(store).into_bytes(),
        expected,
        found,
    })
}

fn expect_reply(
    found: Result<u32, Refusal>,
    expected: Result<u32, Refusal>,
    store: &Store,
    list: &[u8],
) -> Result<(), Difference> {
    if found == expected {
        return Ok(());
    }
    Err(Difference {
        question: format!("a store with the list {list:?}"),
        input: shown_week(store, list),
        expected: format!("{expected:?}"),
        found: format!("{found:?}"),
    })
}

/// The version of a list that must be accepted.
fn accepted(reply: Result<u32, Refusal>, store: &Store, list: &[u8]) -> Result<u32, Difference> {
    expect_reply(reply, Ok(reply.unwrap_or(0)), store, list)?;
    Ok(reply.unwrap_or(0))
}

fn expect_same(expected: &Store, found: &Store, list: &[u8]) -> Result<Outcome, Difference> {
    if found == expected {
        return Ok(Outcome::Answered);
    }
    Err(Difference {
        question: format!("the tables after the list {list:?}"),
        input: shown_week(expected, list),
        expected: shown_store(expected),
        found: shown_store(found),
    })
}
