//! The refusals of document 01, "The numbers" and "The station", and of document 02.

/// Why a call refuses, with its number.
#[derive(Clone, Copy, Debug, PartialEq, Eq)]
#[repr(u32)]
pub enum Refusal {
    Short = 1,
    Version = 2,
    Status = 52,
    TypeOrFamily = 3,
    Length = 4,
    Radio = 5,
    ModulationLength = 6,
    PatternLength = 7,
    ParameterRecords = 64,
    PduSize = 8,
    Modulation = 9,
    Encoding = 10,
    TdlType = 11,
    DataLength = 12,
    Npg = 131,
    Net = 132,
    Tsec = 133,
    Msec = 134,
    MessageType = 135,
    Slot = 136,
    Epoch = 137,
    LateSlot = 138,
    Retired = 50,
    BodySize = 14,
    BodyLimit = 15,
    Output = 16,
    RecordKind = 20,
    RecordLength = 21,
    CarriedBytes = 22,
    NotCarried = 23,
    BundleSize = 51,
    WindowFull = 24,
    LastNumber = 25,
    NotHeld = 26,
    NotAccepted = 27,
    StoreSize = 28,
    WrongEnd = 29,
    NoPlace = 30,
    UnknownUnit = 31,
    OtherNet = 32,
    OtherId = 33,
    NotFine = 34,
    NotIn = 35,
    ClockBack = 36,
    Settings = 37,
}

impl Refusal {
    pub fn number(self) -> u32 {
        self as u32
    }
}

/// The number of an answer that is 0 where nothing is refused.
pub fn number(answer: Result<(), Refusal>) -> u32 {
    match answer {
        Ok(()) => 0,
        Err(refusal) => refusal.number(),
    }
}

#[inline(always)]
pub fn require(holds: bool, refusal: Refusal) -> Result<(), Refusal> {
    if holds {
        Ok(())
    } else {
        Err(refusal)
    }
}
