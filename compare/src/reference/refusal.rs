/// Why an operation refused: the paper's number.
#[derive(Clone, Copy, Debug, PartialEq, Eq, PartialOrd, Ord)]
pub struct Refusal(pub u32);

impl Refusal {
    pub const JUNCTION_COUNT: Self = Self(1);
    pub const FENCE_COUNT: Self = Self(2);
    pub const ARC_COUNT: Self = Self(3);
    pub const TABLE_LENGTHS: Self = Self(4);
    pub const FENCES: Self = Self(5);
    pub const ARC_ENDS: Self = Self(6);
    pub const LENGTH: Self = Self(7);
    pub const SPEED: Self = Self(8);
    pub const SOURCE: Self = Self(9);
    pub const DEPARTURE: Self = Self(10);
    pub const BUFFER_LENGTHS: Self = Self(11);
    pub const DESTINATION: Self = Self(12);
    pub const UNREACHED: Self = Self(13);
    pub const LIST_TOO_SHORT: Self = Self(14);
    pub const DEPARTURE_AFTER_LAST: Self = Self(15);
    pub const TEXT_TOO_LONG: Self = Self(20);
    pub const NO_LINE_FEED: Self = Self(21);
    pub const LINE_TOO_LONG: Self = Self(22);
    pub const UNKNOWN_MARK: Self = Self(23);
    pub const OUT_OF_TURN: Self = Self(24);
    pub const FORM: Self = Self(25);
    pub const LIMITS: Self = Self(26);
    pub const MISSING: Self = Self(27);
    pub const TABLE_TOO_SHORT: Self = Self(28);
    pub const DEPARTURE_COUNT: Self = Self(30);
    pub const SHEET_LENGTHS: Self = Self(31);
    pub const HOLD: Self = Self(32);
    pub const WANTED_FORM: Self = Self(33);
    pub const HELD: Self = Self(34);
    pub const RESULT_TOO_LONG: Self = Self(35);
    pub const CLOSURE_COUNT: Self = Self(36);
    pub const CLOSURE: Self = Self(37);
    pub const PARTY: Self = Self(38);
    pub const ASKER: Self = Self(39);
    pub const WEEK_LIST: Self = Self(40);
    pub const VERSION_OR_DAY: Self = Self(41);
    pub const STORE: Self = Self(42);
    pub const DEPARTURE_INTERVAL: Self = Self(46);

    /// Refuses unless the condition holds.
    pub(super) fn unless(self, condition: bool) -> Result<(), Self> {
        if condition { Ok(()) } else { Err(self) }
    }

    pub(super) fn at_line(self, line: u32) -> LoadRefusal {
        LoadRefusal {
            refusal: self,
            line,
        }
    }
}

/// A refusal of Load or of a converter, and the line it is found at.
#[derive(Clone, Copy, Debug, PartialEq, Eq)]
pub struct LoadRefusal {
    pub refusal: Refusal,
    pub line: u32,
}
