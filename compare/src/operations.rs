//! One implementation of the operations as a table of functions.

use crate::reference::{
    Arrival, Closure, Counts, Form, Lists, LoadRefusal, Network, Refusal, Versions,
};
use crate::{cabinet, reference};

/// Takes a text and a lent output, and returns the result's length.
pub type Converter = fn(&[u8], &mut [u8]) -> Result<usize, LoadRefusal>;

/// Takes a question, and lent labels and predecessors.
pub type Labelling<R> = fn(
    network: &Network,
    closures: &[Closure],
    asker: u32,
    source: u32,
    departure: u32,
    labels: &mut [u32],
    predecessors: &mut [u16],
) -> Result<R, Refusal>;

/// Takes a question, and lent labels and predecessors to read; returns whether they are right.
pub type TablesCheck = fn(
    network: &Network,
    closures: &[Closure],
    asker: u32,
    source: u32,
    departure: u32,
    labels: &[u32],
    predecessors: &[u16],
) -> Result<bool, Refusal>;

/// Takes a week list and a lent store, and returns the version made.
pub type WeekWriter =
    fn(masks: &[u8], versions: &mut Versions, lists: &mut Lists) -> Result<u32, Refusal>;

#[expect(clippy::type_complexity, reason = "the signatures are the operations'")]
pub struct Operations {
    pub network_check: fn(&Network) -> Result<(), Refusal>,
    pub arc_arrival: fn(u32, u32, u32, u32, &[u32], &[u8]) -> Result<Option<Arrival>, Refusal>,
    pub labels: Labelling<()>,
    /// Returns the number of passes.
    pub passes: Labelling<u32>,
    pub tables_check: TablesCheck,
    pub route: fn(
        network: &Network,
        closures: &[Closure],
        asker: u32,
        source: u32,
        departure: u32,
        destination: u32,
        arcs: &mut [u16],
    ) -> Result<u32, Refusal>,
    pub sheet: fn(
        network: &Network,
        closures: &[Closure],
        asker: u32,
        source: u32,
        departures: &[u32],
        labels: &mut [u32],
        figures: &mut [u32],
    ) -> Result<(), Refusal>,
    pub load: fn(
        text: &[u8],
        fences: &mut [u32],
        tails: &mut [u16],
        heads: &mut [u16],
        lengths: &mut [u32],
        holds: &mut [u16],
        speeds: &mut [u8],
    ) -> Result<Counts, LoadRefusal>,
    pub name: fn(&[u8], u32) -> &[u8],
    pub host_question: fn(&[u8], u32, u32, u32) -> u32,
    pub to_new: Converter,
    pub to_old: Converter,
    pub week_new: WeekWriter,
    pub week_change: WeekWriter,
    /// Returns the plan's place.
    pub week_plan:
        fn(versions: &Versions, lists: &Lists, version: u32, day: u32) -> Result<u32, Refusal>,
}

impl Operations {
    /// The converter to this form.
    pub fn converter(&self, to: Form) -> Converter {
        match to {
            Form::Old => self.to_old,
            Form::New => self.to_new,
        }
    }
}

pub const REFERENCE: Operations = Operations {
    network_check: reference::network_check,
    arc_arrival: reference::arc_arrival,
    labels: reference::labels,
    passes: reference::passes,
    tables_check: reference::tables_check,
    route: reference::route,
    sheet: reference::sheet,
    load: reference::load,
    name: reference::name,
    host_question: reference::host_question,
    to_new: reference::to_new,
    to_old: reference::to_old,
    week_new: reference::week_new,
    week_change: reference::week_change,
    week_plan: reference::week_plan,
};

pub const CABINET: Operations = Operations {
    network_check: cabinet::network_check,
    arc_arrival: cabinet::arc_arrival,
    labels: cabinet::labels,
    passes: cabinet::passes,
    tables_check: cabinet::tables_check,
    route: cabinet::route,
    sheet: cabinet::sheet,
    load: cabinet::load,
    name: cabinet::name,
    host_question: cabinet::host_question,
    to_new: cabinet::to_new,
    to_old: cabinet::to_old,
    week_new: cabinet::week_new,
    week_change: cabinet::week_change,
    week_plan: cabinet::week_plan,
};
