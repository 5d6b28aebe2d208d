//! Random questions for the operations on a store of week lists.

use super::super::{Check, Difference, Outcome};
use super::answers;
use crate::inputs::Random;
use crate::inputs::damage::{damage_store, damage_week_list};
use crate::inputs::weeks::{
    Store, random_bytes, random_day, random_store, random_version, random_week_list,
};

pub const WEEK_NEW: Check = Check {
    name: "week new",
    cases: 100_000,
    run: week_new,
    finds_nothing: false,
    refuses: &[40..=40],
};

pub const WEEK_CHANGE: Check = Check {
    name: "week change",
    cases: 200_000,
    run: week_change,
    finds_nothing: false,
    refuses: &[40..=40, 42..=42],
};

pub const WEEK_PLAN: Check = Check {
    name: "week plan",
    cases: 200_000,
    run: week_plan,
    finds_nothing: false,
    refuses: &[41..=42],
};

fn week_new(random: &mut Random) -> Result<Outcome, Difference> {
    let before = if random.one_in(2) {
        random_bytes(random)
    } else {
        good_or_broken_store(random)
    };
    answers::week_new(&good_or_broken_list(random), &before)
}

fn week_change(random: &mut Random) -> Result<Outcome, Difference> {
    let before = good_or_broken_store(random);
    answers::week_change(&good_or_broken_list(random), &before)
}

fn week_plan(random: &mut Random) -> Result<Outcome, Difference> {
    let store = good_or_broken_store(random);
    let version = random_version(random, &store);
    answers::week_plan(&store, version, random_day(random))
}

fn good_or_broken_list(random: &mut Random) -> Vec<u8> {
    let mut masks = random_week_list(random);
    if random.one_in(3) {
        damage_week_list(random, &mut masks);
    }
    masks
}

fn good_or_broken_store(random: &mut Random) -> Store {
    let mut store = random_store(random);
    if random.one_in(2) {
        damage_store(random, &mut store);
    }
    store
}
