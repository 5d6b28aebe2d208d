//! The examples that document 01 itself gives, and its town with holds.

use crate::reference::Network;

pub const TOWN_TEXT: &str = "\
TN 3 2
FN 0 100
JN 0 Mill Cross
AR 0 1 50 36 18
AR 0 2 100 40 20
AR 1 2 50 36 36
CM end of plan
";

/// What the text says; an old file has hold 0.
pub const TOWN: Network = Network {
    junctions: 3,
    fences: &[0, 100],
    tails: &[0, 0, 1],
    heads: &[1, 2, 2],
    lengths: &[50, 100, 50],
    holds: &[0; 3],
    speeds: &[36, 18, 40, 20, 36, 36],
};

/// The same town in the new form, held at both stop lines of junction 2.
pub const HELD_TOWN_TEXT: &str = "\
TW 3 2
FN 0 100
JN 0 Mill Cross
AR 0 1 50 36 18 0
AR 0 2 100 40 20 1200
AR 1 2 50 36 36 7
CM end of plan
";

pub const HELD_TOWN: Network = Network {
    holds: &[0, 1_200, 7],
    ..TOWN
};

/// Document 004, Table 1, with o, a, b, c, d as 0 to 4.
#[rustfmt::skip]
pub const TABLE_1: Network = Network {
    junctions: 5,
    fences: &[0, 6_000, 12_000, 18_000, 24_000, 30_000, 36_000, 42_000, 48_000],
    tails: &[0, 0, 1, 1, 2, 2, 3],
    heads: &[1, 2, 2, 3, 3, 4, 4],
    lengths: &[10_000; 7],
    holds: &[0; 7],
    speeds: &[
        40, 40, 40, 40, 40, 40, 40, 40, 40,
        60, 30, 10, 20, 40, 60, 60, 60, 60,
        60, 40, 30, 40, 60, 60, 60, 60, 60,
        40, 40, 40, 40, 40, 40, 40, 40, 40,
        60, 60, 60, 60, 40, 30, 60, 60, 60,
        60, 60, 60, 60, 60, 30, 10, 30, 60,
        40, 40, 40, 40, 40, 40, 40, 40, 40,
    ],
};
