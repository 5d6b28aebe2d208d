//! The operations on a store of week lists.

use std::hint::black_box;

use super::super::lent::Lent;
use super::super::{Difference, Outcome};
use super::{Answer, compare};
use crate::inputs::weeks::Store;
use crate::operations::{Operations, WeekWriter};
use crate::reference::Refusal;
use crate::reference::limits::{KEPT_VERSIONS, MAX_PLANS};

/// The two tables, lent with a margin.
#[derive(Clone, Debug, PartialEq)]
struct LentStore {
    versions: Lent<u16>,
    lists: Lent<u8>,
}

impl LentStore {
    fn holding(store: &Store) -> Self {
        Self {
            versions: Lent::holding(&store.versions),
            lists: Lent::holding(&store.lists),
        }
    }

    fn held(&self) -> Store {
        Store {
            versions: self.versions.entries().try_into().expect("as long"),
            lists: self.lists.entries().try_into().expect("as long"),
        }
    }
}

pub fn shown_week(store: &Store, masks: &[u8]) -> Vec<u8> {
    format!("{}list {masks:?}\n", shown_store(store)).into_bytes()
}

/// Each slot on a line.
pub fn shown_store(store: &Store) -> String {
    let slot = |slot| format!("{} {:?}\n", store.versions[slot], store.masks(slot));
    (0..KEPT_VERSIONS).map(slot).collect()
}

/// A store is made of a list in tables that hold anything.
pub fn week_new(masks: &[u8], before: &Store) -> Result<Outcome, Difference> {
    let made = |store: &Store| store.versions[1..] == [0; KEPT_VERSIONS - 1];
    written(
        "week new",
        |operations| operations.week_new,
        masks,
        before,
        made,
    )
}

/// A list is the next version of a store.
pub fn week_change(masks: &[u8], before: &Store) -> Result<Outcome, Difference> {
    let changed = |store: &Store| {
        let same = |&slot: &usize| {
            store.versions[slot] == before.versions[slot] && store.masks(slot) == before.masks(slot)
        };
        (0..KEPT_VERSIONS).filter(same).count() == KEPT_VERSIONS - 1
    };
    written(
        "week change",
        |operations| operations.week_change,
        masks,
        before,
        changed,
    )
}

/// Compares an operation that writes into a store. It writes nothing when it refuses, and else
/// what it leaves is as told.
fn written(
    name: &str,
    operation: fn(&Operations) -> WeekWriter,
    masks: &[u8],
    before: &Store,
    as_told: impl Fn(&Store) -> bool,
) -> Result<Outcome, Difference> {
    let question = format!("{name} with {} masks", masks.len());
    let input = || shown_week(before, masks);
    let reply = compare(&question, input, |operations| {
        let given = Lent::holding(masks);
        let sent = LentStore::holding(before);
        let (lent_masks, mut lent) = (given.clone(), sent.clone());
        let reply = operation(operations)(
            lent_masks.entries(),
            lent.versions.part().try_into().expect("as long"),
            lent.lists.part().try_into().expect("as long"),
        );
        // What was lent to be read might have been written all the same.
        let lent_masks = black_box(lent_masks);
        let kept = match reply {
            Ok(_) => as_told(&lent.held()),
            Err(_) => lent == sent,
        };
        Answer {
            reply,
            kept: kept && lent_masks == given,
            buffers: lent,
        }
    })?;
    Ok(Outcome::of(&reply))
}

/// A question by version and day, which must leave the store as it is.
pub fn week_plan(store: &Store, version: u32, day: u32) -> Result<Outcome, Difference> {
    Ok(Outcome::of(&week_place(store, version, day)?))
}

/// The same, with the reply on which both agree.
pub fn week_place(
    store: &Store,
    version: u32,
    day: u32,
) -> Result<Result<u32, Refusal>, Difference> {
    let question = format!("week plan of version {version} on day {day}");
    let input = || shown_store(store).into_bytes();
    compare(&question, input, |operations| {
        let sent = LentStore::holding(store);
        let lent = sent.clone();
        let reply = (operations.week_plan)(
            lent.versions.entries().try_into().expect("as long"),
            lent.lists.entries().try_into().expect("as long"),
            version,
            day,
        );
        // What was lent to be read might have been written all the same.
        let lent = black_box(lent);
        let possible = reply.is_err() || reply.is_ok_and(|place| place < MAX_PLANS as u32);
        Answer {
            reply,
            kept: possible && lent == sent,
            buffers: lent,
        }
    })
}
