//! The numbers given back instead of an answer.

/// A refusal; its number is the paper's.
#[derive(Clone, Copy, Debug, PartialEq, Eq)]
pub enum Refusal {
    Short = 1,
    Head,
    Type,
    Long,
    AddressKind,
    Octet,
    NotOurs,
    State,
    AdmissionClosed,
    FullHouse,
    NoRecord,
    Phase,
    SoundCount,
    TickGap,
    Output,
    Configuration,
    CarOnly,
    ReportsFull,
    OnlyForStations,
    NoSounds,
    EmptyRun,
    OtherTry,
    GroupCount,
    Carriers,
}

impl Refusal {
    pub fn number(self) -> u32 {
        self as u32
    }
}

/// What each number means, from 1 on.
const WORDS: [&str; 24] = [
    "frame too short",
    "frame head wrong",
    "unknown message type",
    "frame too long",
    "address of the wrong kind",
    "fixed octet wrong",
    "not for us",
    "the state takes no such event",
    "admission closed",
    "all records held by other cars",
    "no such record, run, profile or station",
    "record in another phase",
    "sound count too high or heard already",
    "tick gap over 60,000",
    "output too short",
    "bad configuration",
    "only a car receives this",
    "ten stations' reports kept",
    "only a station receives this",
    "a report of no sounds",
    "a request with an empty run",
    "START of the other try",
    "another group count than the record's",
    "another number of carriers",
];

/// The numbers that a station gives, and those that a car gives.
pub const OF_STATIONS: [u32; 21] =
    [1, 2, 3, 4, 5, 6, 7, 8, 9, 10, 11, 12, 13, 14, 15, 16, 17, 21, 22, 23, 24];
pub const OF_CARS: [u32; 15] = [1, 2, 3, 4, 5, 6, 7, 8, 11, 14, 15, 16, 18, 19, 20];

/// A refusal number in words.
pub fn words(number: u32) -> &'static str {
    let index = usize::try_from(number).unwrap_or(0).wrapping_sub(1);
    WORDS.get(index).copied().unwrap_or("no such refusal")
}
