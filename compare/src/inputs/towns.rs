//! Towns of fixed size, for measuring and for tests.

use super::grids::street_grid;
use super::texts::{pad, town_text};
use super::{OwnedNetwork, Random};
use crate::reference::limits::{
    BOTH_PARTIES, BRIGADE, DAY, DEPOT, MAX_ARCS, MAX_DEPARTURES, MAX_HOLD, MAX_INTERVALS, MAX_TEXT,
    NO_ARC,
};
use crate::reference::{Closure, Form};

pub struct Town {
    pub name: &'static str,
    pub network: OwnedNetwork,
    /// Its town file, of the old form at first. That of `full` is too long.
    pub text: Vec<u8>,
}

/// A question of the brigade from one corner of the grid to the opposite one, at 8 o'clock.
pub const ASKER: u32 = BRIGADE;
pub const SOURCE: u32 = 0;
pub const DEPARTURE: u32 = 8 * 36_000;

const TEN_MINUTES: u32 = 6_000;

/// Ten minutes before midnight, so that most walks of every town cross it.
pub const EVENING: u32 = DAY - TEN_MINUTES;

/// As many as a sheet takes, a quarter of an hour apart.
pub fn departures() -> Vec<u32> {
    const STEP: u32 = DAY / MAX_DEPARTURES as u32;
    (0..DAY).step_by(STEP as usize).collect()
}

const LARGE: &str = "large";

fn names(network: &OwnedNetwork) -> Vec<(u32, String)> {
    let name = |junction| (junction, format!("Crossing {junction}"));
    (0..network.junctions).map(name).collect()
}

impl Town {
    pub const NAMES: [&str; 4] = ["small", "middle", LARGE, "full"];
    /// The town that is asked about with closures.
    pub const CLOSED: &str = LARGE;

    pub fn named(name: &str) -> Option<Self> {
        match name {
            "small" => Some(Self::new("small", (5, 2), 26, 4)),
            "middle" => Some(Self::new("middle", (10, 6), 200, 12)),
            LARGE => Some(Self::large()),
            "full" => Some(Self::biggest("full", MAX_INTERVALS)),
            _ => None,
        }
    }

    /// The most junctions and arcs, with as many intervals as a text can hold.
    fn large() -> Self {
        let counts: Vec<usize> = (1..=MAX_INTERVALS).collect();
        let fits = |&intervals: &usize| Self::biggest(LARGE, intervals).text.len() <= MAX_TEXT;
        let town = Self::biggest(LARGE, counts.partition_point(fits));
        town.with_file(Form::Old, MAX_TEXT)
    }

    fn biggest(name: &'static str, intervals: usize) -> Self {
        Self::new(name, (20, 10), MAX_ARCS, intervals)
    }

    fn new(name: &'static str, grid: (u32, u32), arcs: usize, intervals: usize) -> Self {
        let network = street_grid(&mut Random::new(1), grid, intervals, arcs);
        Self {
            name,
            text: town_text(&network, Form::Old, &names(&network)),
            network,
        }
    }

    /// The same streets with holds, none at about a quarter of the arcs, else up to the
    /// longest, and with a file of the new form.
    pub fn with_holds(mut self) -> Self {
        self.network.hold_up_to(&mut Random::new(2), MAX_HOLD);
        self.with_file(Form::New, MAX_TEXT)
    }

    /// The same streets, the arcs numbered against the way of the question.
    pub fn against_the_way(mut self) -> Self {
        self.network = self.network.against_the_way(SOURCE, DEPARTURE);
        self.with_file(Form::Old, MAX_TEXT)
    }

    /// With a file to be converted to this form; the longer one of the two is as long as
    /// the town's file may be.
    pub fn to_convert(self, to: Form) -> Self {
        match to {
            Form::Old => self.with_file(Form::New, MAX_TEXT),
            Form::New => {
                let holds = " 0".len() * self.network.arcs();
                self.with_file(Form::Old, MAX_TEXT - holds)
            }
        }
    }

    /// With a file of this form, in which every junction has a name, or as many of the
    /// last ones as there is room for. That of the large town is as long as it may be.
    fn with_file(mut self, form: Form, most: usize) -> Self {
        let names = names(&self.network);
        let text = |first| town_text(&self.network, form, &names[first..]);
        let places: Vec<usize> = (0..names.len()).collect();
        self.text = text(places.partition_point(|&first| text(first).len() > most));
        if self.name == LARGE {
            pad(&mut self.text, most);
        }
        self
    }

    /// So many records for both parties. Each closes an arc for ten minutes, from the middle
    /// of the time on that the question is on it. The arcs are predecessors, spread evenly
    /// over the order in which they are left, from the first on.
    pub fn closures(&self, count: usize) -> Vec<Closure> {
        let (labels, predecessors) = self.network.open_labels(SOURCE, DEPARTURE);
        let mut drives: Vec<(u32, u32, u16)> = Vec::new();
        for (&reached, arc) in labels.iter().zip(predecessors) {
            if arc != NO_ARC {
                let tail = self.network.tails[usize::from(arc)];
                drives.push((labels[usize::from(tail)], reached, arc));
            }
        }
        drives.sort_unstable();
        let closure = |record: usize| {
            let (left, reached, arc) = drives[record * drives.len() / count];
            let first = left.midpoint(reached);
            Closure {
                arc: arc.into(),
                first,
                end: first + TEN_MINUTES,
                party: BOTH_PARTIES,
            }
        };
        (0..count).map(closure).collect()
    }

    /// The same records, every second one the depot's alone.
    pub fn shared_closures(&self, count: usize) -> Vec<Closure> {
        let mut closures = self.closures(count);
        for closure in closures.iter_mut().skip(1).step_by(2) {
            closure.party = DEPOT;
        }
        closures
    }

    /// The corner opposite to the source.
    pub fn destination(&self) -> u32 {
        self.network.junctions - 1
    }
}
