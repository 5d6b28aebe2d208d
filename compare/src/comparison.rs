//! Comparisons of the verified library with the reference, and properties of
//! it that the papers demand, on random inputs.

pub mod answers;
pub mod cases;
mod lent;
pub mod program;
pub mod properties;

use std::collections::BTreeMap;
use std::fmt;
use std::iter;
use std::ops::RangeInclusive;

use crate::inputs::Random;
use crate::reference::Refusal;

/// A comparison that makes its own inputs.
pub struct Check {
    pub name: &'static str,
    /// How many cases the tests run; a longer run keeps the proportions.
    pub cases: u64,
    pub run: fn(&mut Random) -> Result<Outcome, Difference>,
    /// Whether some cases must find nothing.
    pub finds_nothing: bool,
    /// Refusals that must occur.
    pub refuses: &'static [RangeInclusive<u32>],
}

pub const CHECKS: [&Check; 64] = [
    &cases::NETWORK_CHECK,
    &cases::ARC_ARRIVAL,
    &cases::LABELS,
    &cases::TABLES_CHECK,
    &cases::ROUTE,
    &cases::SHEET,
    &cases::LOAD,
    &cases::NAME,
    &cases::HOST_QUESTION,
    &cases::ARRIVALS,
    &cases::SHEET_PROGRAM,
    &cases::TO_NEW,
    &cases::TO_OLD,
    &cases::TO_NEW_PROGRAM,
    &cases::TO_OLD_PROGRAM,
    &cases::WEEK_NEW,
    &cases::WEEK_CHANGE,
    &cases::WEEK_PLAN,
    &properties::NON_PASSING,
    &properties::ARC_BY_TICKS,
    &properties::LABELS_BY_WALKS,
    &properties::IMPROVEMENT,
    &properties::DAY_LATER,
    &properties::LABELS_ROTATED,
    &properties::ONE_INTERVAL,
    &properties::INTERVALS_PASSED_ON,
    &properties::LABELS_OF_PATHS,
    &properties::LABELS_BY_ARCS,
    &properties::SHEET_BY_LABELS,
    &properties::SHEET_SHUFFLED,
    &properties::SHEET_TWICE,
    &properties::ARC_HELD,
    &properties::HOLDS_AS_ARCS,
    &properties::HOLD_TABLE,
    &properties::CLOSURES_AS_INTERVALS,
    &properties::MORE_CLOSED,
    &properties::SAME_TICKS_CLOSED,
    &properties::CLOSED_AT_START,
    &properties::CLOSED_THROUGHOUT,
    &properties::CLOSURE_LIST,
    &properties::OTHERS_CLOSURES,
    &properties::PARTIES_EXCHANGED,
    &properties::OWN_OR_BOTH,
    &properties::PASSES_OF_PATHS,
    &properties::PASSES_RENUMBERED,
    &properties::PASSES_TWICE,
    &properties::OWN_TABLES,
    &properties::ONE_ENTRY_CHANGED,
    &properties::TABLES_OF_ANOTHER,
    &properties::EITHER_OF_TWO_ARCS,
    &properties::CONVERTED_AS_WRITTEN,
    &properties::THERE_AND_BACK,
    &properties::CONVERTED_TOWN,
    &properties::COMMENTS_ADDED,
    &properties::REFUSED_AS_LOADED,
    &properties::PLAN_OF_EACH_DAY,
    &properties::STORE_BY_HISTORY,
    &properties::EARLIER_VERSIONS,
    &properties::OWN_SLOT,
    &properties::REFUSED_WEEKS,
    &properties::MADE_ANEW,
    &properties::EMPTY_SLOTS,
    &properties::PLANS_SHUFFLED,
    &properties::VERSIONS_MOVED,
];

/// What a case came to, for counting.
#[derive(Clone, Copy, Debug, PartialEq, Eq, PartialOrd, Ord)]
pub enum Outcome {
    Answered,
    /// The arc cannot be driven, there is no name, the tables are not right, or midnight, the
    /// holds, the closures, their parties, the arcs' numbers or a store's size make no
    /// difference.
    Nothing,
    Refused(Refusal),
}

impl Outcome {
    fn of<T>(reply: &Result<T, Refusal>) -> Self {
        match reply {
            Ok(_) => Self::Answered,
            &Err(refusal) => Self::Refused(refusal),
        }
    }
}

impl fmt::Display for Outcome {
    fn fmt(&self, f: &mut fmt::Formatter) -> fmt::Result {
        match self {
            Self::Answered => f.pad("answered"),
            Self::Nothing => f.pad("nothing"),
            Self::Refused(Refusal(number)) => f.pad(&format!("refused {number}")),
        }
    }
}

/// A case in which the library does not answer as it should.
#[derive(Debug)]
pub struct Difference {
    pub question: String,
    /// The network or the text that the question is about.
    pub input: Vec<u8>,
    pub expected: String,
    pub found: String,
}

impl fmt::Display for Difference {
    fn fmt(&self, f: &mut fmt::Formatter) -> fmt::Result {
        /// The reply stands first; the tables after it may be long.
        const SHOWN: usize = 2_000;
        writeln!(f, "{}", self.question)?;
        writeln!(f, "expected: {:.SHOWN$}", self.expected)?;
        write!(f, "found:    {:.SHOWN$}", self.found)
    }
}

/// How often each outcome occurred.
#[derive(Default)]
pub struct Tally(BTreeMap<Outcome, u64>);

impl Tally {
    pub fn count(&mut self, outcome: Outcome) {
        *self.0.entry(outcome).or_default() += 1;
    }
}

impl fmt::Display for Tally {
    fn fmt(&self, f: &mut fmt::Formatter) -> fmt::Result {
        self.0
            .iter()
            .try_for_each(|(outcome, count)| writeln!(f, "  {outcome:12}{count:>12}"))
    }
}

impl Check {
    pub fn run_case(&self, seed: u64, tally: &mut Tally) -> Result<(), Difference> {
        let outcome = (self.run)(&mut Random::new(seed))?;
        tally.count(outcome);
        Ok(())
    }

    /// The outcomes that must occur and did not.
    pub fn missing(&self, tally: &Tally) -> Vec<Outcome> {
        let nothing = self.finds_nothing.then_some(Outcome::Nothing);
        let numbers = self.refuses.iter().cloned().flatten();
        let refusals = numbers.map(|number| Outcome::Refused(Refusal(number)));
        let expected = iter::once(Outcome::Answered).chain(nothing).chain(refusals);
        expected
            .filter(|outcome| !tally.0.contains_key(outcome))
            .collect()
    }
}
