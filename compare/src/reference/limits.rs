//! The constants of documents 01 and 02.

/// Ticks in a day, after which the speeds start again; fences and departures of a
/// question lie below it.
pub const DAY: u32 = 864_000;
/// The last tick at which an arrival counts, the end of the second day.
pub const LAST_TICK: u32 = 1_728_000;

pub const SPANS_PER_METRE: u32 = 36;

pub const MAX_JUNCTIONS: u32 = 200;
pub const MAX_INTERVALS: usize = 96;
pub const MAX_ARCS: usize = 640;
/// In metres.
pub const MAX_LENGTH: u32 = 100_000;
/// In ticks.
pub const MAX_HOLD: u16 = 1_200;
/// In km/h, which is spans per tick.
pub const MAX_SPEED: u8 = 200;

/// Records in one list of closures.
pub const MAX_CLOSURES: usize = 64;
/// The party of a closure that stops both askers.
pub const BOTH_PARTIES: u32 = 0;
/// An asker, and the party of the closures that stop it alone.
pub const BRIGADE: u32 = 1;
/// The other asker.
pub const DEPOT: u32 = 2;

/// Departures on one sheet.
pub const MAX_DEPARTURES: usize = 96;
/// What a sheet tells of each junction.
pub const FIGURES: usize = 4;

pub const WEEKDAYS: u32 = 7;
/// Masks in one week list.
pub const MAX_PLANS: usize = 7;
/// Versions in one store of week lists.
pub const KEPT_VERSIONS: usize = 16;
/// The last version that a list can have.
pub const LAST_VERSION: u16 = 65_535;

/// In bytes.
pub const MAX_TEXT: usize = 65_536;
/// In bytes before the line feed.
pub const MAX_LINE: usize = 700;
/// The largest number that one more digit may follow.
pub const SIX_DIGITS: u32 = 999_999;
pub const MAX_NAME: usize = 24;

/// The label of an unreached junction.
pub const UNREACHED: u32 = 4_294_967_295;
/// The predecessor of the source and of an unreached junction.
pub const NO_ARC: u16 = 65_535;
/// A refusal's number is added to this where one `u32` holds answer or refusal.
pub const REFUSED: u32 = 4_294_900_000;
