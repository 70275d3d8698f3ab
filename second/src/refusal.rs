//! The numbers by which a call is refused or an entry turned down.

/// Why a call is refused. A refused call alters nothing.
#[derive(Clone, Copy, Debug, PartialEq, Eq, PartialOrd, Ord)]
pub enum Refusal {
    Tenant = 1,
    MalformedEntry = 2,
    Count = 3,
    LaneFull = 4,
    NoEntryWaiting = 5,
    FewRecords = 6,
    SettingsValue = 7,
    AwayQuote = 8,
    AlreadyOpen = 9,
    NoOpeningPrice = 20,
    NoSettings = 21,
    TurnsUsedUp = 35,
}

impl Refusal {
    /// The paper's number for this refusal.
    pub fn number(self) -> u32 {
        self as u32
    }
}

/// Why the entry of a taken turn is turned down.
#[derive(Clone, Copy, Debug, PartialEq, Eq, PartialOrd, Ord)]
pub enum TurnedDown {
    NotOpen = 10,
    OffGrid = 11,
    PutAtStrike = 12,
    NoOffer = 13,
    NoBid = 14,
    Width = 15,
    FarPrice = 16,
    RowsUsed = 17,
    NotRestingHere = 18,
    NumbersUsedUp = 19,
    NeverGiven = 22,
}

impl TurnedDown {
    /// The paper's number for this reason.
    pub fn number(self) -> u32 {
        self as u32
    }
}

/// The answer number of a call that returns nothing else: 0 when accepted.
pub fn answer(outcome: Result<(), Refusal>) -> u32 {
    outcome.map_or_else(Refusal::number, |()| 0)
}
