//! The numbered refusals.

/// Why a call is refused. The discriminant is the number that the rules give it.
#[derive(Clone, Copy, Debug, PartialEq, Eq, Hash)]
#[repr(u8)]
pub enum Refusal {
    FrameSize = 1,
    StartOutside = 2,
    Direction = 3,
    Tolerance = 4,
    NoPolygon = 5,
    Short = 6,
    Kind = 7,
    PointOutside = 8,
    NoCode = 9,
    Trailing = 10,
    LeavesFrame = 20,
    Full = 21,
    OnlyStart = 22,
    ListShort = 23,
    RowsShort = 24,
    BufferShort = 25,
    NoUsable = 26,
    OverBudget = 27,
    EdgeNoCode = 28,
}

impl Refusal {
    pub fn number(self) -> u8 {
        self as u8
    }
}
