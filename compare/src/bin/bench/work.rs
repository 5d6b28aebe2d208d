//! What is measured: calls whose buffers are made before.

use std::hint::black_box;

use compare::inputs::towns::{ASKER, DEPARTURE, EVENING, SOURCE, Town, departures};
use compare::inputs::weeks::{MEASURED, Store, oldest_kept, slot_of};
use compare::operations::{CABINET, Converter, Labelling, Operations, REFERENCE, TablesCheck};
use compare::reference::limits::{FIGURES, MAX_ARCS, MAX_INTERVALS, MAX_TEXT, REFUSED};
use compare::reference::{Closure, Form, certificate_check};

#[derive(Clone, Copy, PartialEq)]
pub enum Operation {
    Load,
    LoadHeld,
    ToNew,
    ToOld,
    Labels,
    LabelsEvening,
    LabelsHeld,
    LabelsClosures1,
    LabelsClosures64,
    LabelsClosuresShared,
    Passes,
    PassesClosures64,
    PassesAgainst,
    TablesCheck,
    TablesCheckClosures64,
    Route,
    Sheet,
    HostQuestion,
    WeekChange,
    WeekPlan,
}

impl Operation {
    pub const ALL: [Self; 20] = [
        Self::Load,
        Self::LoadHeld,
        Self::ToNew,
        Self::ToOld,
        Self::Labels,
        Self::LabelsEvening,
        Self::LabelsHeld,
        Self::LabelsClosures1,
        Self::LabelsClosures64,
        Self::LabelsClosuresShared,
        Self::Passes,
        Self::PassesClosures64,
        Self::PassesAgainst,
        Self::TablesCheck,
        Self::TablesCheckClosures64,
        Self::Route,
        Self::Sheet,
        Self::HostQuestion,
        Self::WeekChange,
        Self::WeekPlan,
    ];

    pub fn name(self) -> &'static str {
        match self {
            Self::Load => "load",
            Self::LoadHeld => "load-held",
            Self::ToNew => "to-new",
            Self::ToOld => "to-old",
            Self::Labels => "labels",
            Self::LabelsEvening => "labels-evening",
            Self::LabelsHeld => "labels-held",
            Self::LabelsClosures1 => "labels-closures-1",
            Self::LabelsClosures64 => "labels-closures-64",
            Self::LabelsClosuresShared => "labels-closures-shared",
            Self::Passes => "passes",
            Self::PassesClosures64 => "passes-closures-64",
            Self::PassesAgainst => "passes-against",
            Self::TablesCheck => "tables-check",
            Self::TablesCheckClosures64 => "tables-check-closures-64",
            Self::Route => "route",
            Self::Sheet => "sheet",
            Self::HostQuestion => "host-question",
            Self::WeekChange => "week-change",
            Self::WeekPlan => "week-plan",
        }
    }

    /// Whether it is measured on this town; the full one has no text that Load takes.
    pub fn takes(self, town: &str) -> bool {
        match self {
            Self::Labels | Self::LabelsEvening | Self::LabelsHeld | Self::Sheet => true,
            Self::Passes | Self::PassesAgainst | Self::TablesCheck => true,
            Self::Load | Self::LoadHeld | Self::ToNew | Self::ToOld => town != "full",
            Self::Route | Self::HostQuestion => town != "full",
            Self::LabelsClosures1 | Self::LabelsClosures64 => town == Town::CLOSED,
            Self::LabelsClosuresShared | Self::PassesClosures64 => town == Town::CLOSED,
            Self::TablesCheckClosures64 => town == Town::CLOSED,
            // They have no town, and stand beside one.
            Self::WeekChange | Self::WeekPlan => town == Town::CLOSED,
        }
    }

    /// Whether it goes through a text once and does nothing else.
    pub fn reads_a_text(self) -> bool {
        matches!(
            self,
            Self::Load | Self::LoadHeld | Self::ToNew | Self::ToOld
        )
    }
}

#[derive(Clone, Copy)]
pub enum Implementation {
    Rattle,
    Rust,
}

impl Implementation {
    pub const BOTH: [Self; 2] = [Self::Rattle, Self::Rust];

    pub fn name(self) -> &'static str {
        match self {
            Self::Rattle => "rattle",
            Self::Rust => "rust",
        }
    }

    pub fn named(name: &str) -> Option<Self> {
        Self::BOTH.into_iter().find(|one| one.name() == name)
    }

    fn operations(self) -> &'static Operations {
        match self {
            Self::Rattle => &CABINET,
            Self::Rust => &REFERENCE,
        }
    }

    /// In Rust the one that reckons no labels.
    fn tables_check(self) -> TablesCheck {
        match self {
            Self::Rattle => CABINET.tables_check,
            Self::Rust => certificate_check,
        }
    }
}

/// One operation on one town.
pub struct Row {
    pub operation: Operation,
    pub town: Town,
}

impl Row {
    pub fn named(operation: &str, town: &str) -> Option<Self> {
        let named = |one: &Operation| one.name() == operation;
        let operation = Operation::ALL.into_iter().find(named)?;
        let town = Town::named(town)?;
        let town = match operation {
            Operation::LabelsHeld | Operation::LoadHeld => town.with_holds(),
            Operation::ToNew => town.to_convert(Form::New),
            Operation::ToOld => town.to_convert(Form::Old),
            Operation::PassesAgainst => town.against_the_way(),
            _ => town,
        };
        Some(Self { operation, town })
    }

    pub fn all() -> Vec<Self> {
        let mut rows = Vec::new();
        for operation in Operation::ALL {
            for town in Town::NAMES {
                if operation.takes(town) {
                    rows.extend(Self::named(operation.name(), town));
                }
            }
        }
        rows
    }

    /// A call that can be repeated and lends the same buffers each time.
    pub fn call(&self, implementation: Implementation) -> Box<dyn FnMut() + '_> {
        let operations = implementation.operations();
        let labels =
            |closures, departure| labelling(operations.labels, &self.town, closures, departure);
        let passes = |closures| labelling(operations.passes, &self.town, closures, DEPARTURE);
        let check = |closures| tables_check(implementation.tables_check(), &self.town, closures);
        match self.operation {
            Operation::Load | Operation::LoadHeld => load(operations, &self.town),
            Operation::ToNew => convert(operations.to_new, &self.town),
            Operation::ToOld => convert(operations.to_old, &self.town),
            Operation::Labels | Operation::LabelsHeld => labels(Vec::new(), DEPARTURE),
            Operation::LabelsEvening => labels(Vec::new(), EVENING),
            Operation::LabelsClosures1 => labels(self.town.closures(1), DEPARTURE),
            Operation::LabelsClosures64 => labels(self.town.closures(64), DEPARTURE),
            Operation::LabelsClosuresShared => labels(self.town.shared_closures(64), DEPARTURE),
            Operation::Passes | Operation::PassesAgainst => passes(Vec::new()),
            Operation::PassesClosures64 => passes(self.town.closures(64)),
            Operation::TablesCheck => check(Vec::new()),
            Operation::TablesCheckClosures64 => check(self.town.closures(64)),
            Operation::Route => route(operations, &self.town),
            Operation::Sheet => sheet(operations, &self.town),
            Operation::HostQuestion => host_question(operations, &self.town),
            Operation::WeekChange => week_change(operations),
            Operation::WeekPlan => week_plan(operations),
        }
    }
}

fn load<'a>(operations: &'a Operations, town: &'a Town) -> Box<dyn FnMut() + 'a> {
    let mut fences = vec![0; MAX_INTERVALS];
    let mut tails = vec![0; MAX_ARCS];
    let mut heads = vec![0; MAX_ARCS];
    let mut lengths = vec![0; MAX_ARCS];
    let mut holds = vec![0; MAX_ARCS];
    let mut speeds = vec![0; MAX_ARCS * MAX_INTERVALS];
    Box::new(move || {
        let reply = (operations.load)(
            black_box(&town.text),
            black_box(&mut fences),
            black_box(&mut tails),
            black_box(&mut heads),
            black_box(&mut lengths),
            black_box(&mut holds),
            black_box(&mut speeds),
        );
        assert!(reply.is_ok());
    })
}

fn convert<'a>(converter: Converter, town: &'a Town) -> Box<dyn FnMut() + 'a> {
    let mut output = vec![0; MAX_TEXT];
    Box::new(move || {
        let reply = converter(black_box(&town.text), black_box(&mut output));
        assert!(reply.is_ok());
    })
}

/// Labels or Passes.
fn labelling<'a, T: 'a>(
    operation: Labelling<T>,
    town: &'a Town,
    closures: Vec<Closure>,
    departure: u32,
) -> Box<dyn FnMut() + 'a> {
    let network = town.network.lent();
    let mut labels = vec![0; network.junctions as usize];
    let mut predecessors = vec![0; network.junctions as usize];
    Box::new(move || {
        let reply = operation(
            black_box(&network),
            black_box(&closures),
            ASKER,
            SOURCE,
            departure,
            black_box(&mut labels),
            black_box(&mut predecessors),
        );
        assert!(reply.is_ok());
    })
}

/// Of the tables that Labels leaves.
fn tables_check<'a>(
    operation: TablesCheck,
    town: &'a Town,
    closures: Vec<Closure>,
) -> Box<dyn FnMut() + 'a> {
    let network = town.network.lent();
    let mut labels = vec![0; network.junctions as usize];
    let mut predecessors = vec![0; network.junctions as usize];
    let reply = (REFERENCE.labels)(
        &network,
        &closures,
        ASKER,
        SOURCE,
        DEPARTURE,
        &mut labels,
        &mut predecessors,
    );
    assert!(reply.is_ok());
    Box::new(move || {
        let reply = operation(
            black_box(&network),
            black_box(&closures),
            ASKER,
            SOURCE,
            DEPARTURE,
            black_box(&labels),
            black_box(&predecessors),
        );
        assert_eq!(reply, Ok(true));
    })
}

fn route<'a>(operations: &'a Operations, town: &'a Town) -> Box<dyn FnMut() + 'a> {
    let network = town.network.lent();
    let destination = town.destination();
    let mut arcs = vec![0; network.junctions as usize];
    Box::new(move || {
        let reply = (operations.route)(
            black_box(&network),
            black_box(&[]),
            ASKER,
            SOURCE,
            DEPARTURE,
            destination,
            black_box(&mut arcs),
        );
        assert!(reply.is_ok());
    })
}

fn sheet<'a>(operations: &'a Operations, town: &'a Town) -> Box<dyn FnMut() + 'a> {
    let network = town.network.lent();
    let departures = departures();
    let mut labels = vec![0; departures.len() * network.junctions as usize];
    let mut figures = vec![0; FIGURES * network.junctions as usize];
    Box::new(move || {
        let reply = (operations.sheet)(
            black_box(&network),
            black_box(&[]),
            ASKER,
            SOURCE,
            black_box(&departures),
            black_box(&mut labels),
            black_box(&mut figures),
        );
        assert!(reply.is_ok());
    })
}

fn host_question<'a>(operations: &'a Operations, town: &'a Town) -> Box<dyn FnMut() + 'a> {
    let destination = town.destination();
    Box::new(move || {
        let text = black_box(&town.text);
        let answer = (operations.host_question)(text, SOURCE, DEPARTURE, destination);
        assert!(answer < REFUSED);
    })
}

/// Always the same change of a full store.
fn week_change(operations: &Operations) -> Box<dyn FnMut() + '_> {
    let mut store = Store::measured();
    let masks = [0b001_1111, 0b010_0000, 0b100_0000];
    let oldest = oldest_kept(MEASURED);
    Box::new(move || {
        let Store { versions, lists } = &mut store;
        let reply =
            (operations.week_change)(black_box(&masks), black_box(versions), black_box(lists));
        assert_eq!(reply, Ok(u32::from(MEASURED) + 1));
        // The version that fell out is there again, with the list that was written; this is one
        // number for either program.
        versions[slot_of(oldest)] = oldest;
    })
}

/// Of a day in a full store, in a list of three plans.
fn week_plan(operations: &Operations) -> Box<dyn FnMut() + '_> {
    const VERSION: u32 = 93;
    const SUNDAY: u32 = 6;
    let Store { versions, lists } = Store::measured();
    Box::new(move || {
        let (versions, lists) = (black_box(&versions), black_box(&lists));
        let reply = (operations.week_plan)(versions, lists, VERSION, SUNDAY);
        assert_eq!(reply, Ok(2));
    })
}
