//! What the library tells by numbers; they are those of the C header.

use core::error::Error;
use core::fmt;

/// A number that has no meaning of the kind that was asked for.
///
/// ```
/// use lahzavar::{Pilot, UnknownNumber};
/// assert_eq!(Pilot::try_from(6), Err(UnknownNumber(6)));
/// assert_eq!(UnknownNumber(6).to_string(), "the number 6 has no meaning here");
/// ```
#[derive(Clone, Copy, Debug, PartialEq, Eq, Hash)]
pub struct UnknownNumber(pub u32);

impl fmt::Display for UnknownNumber {
    fn fmt(&self, f: &mut fmt::Formatter) -> fmt::Result {
        write!(f, "the number {} has no meaning here", self.0)
    }
}

impl Error for UnknownNumber {}

/// Why a call was refused; a later version may know more.
///
/// ```
/// use lahzavar::{Refusal, UnknownNumber};
/// assert_eq!(Refusal::try_from(16), Ok(Refusal::BadConfiguration));
/// assert_eq!(Refusal::try_from(99), Ok(Refusal::Other(99)));
/// assert_eq!(Refusal::try_from(0), Err(UnknownNumber(0))); // no refusal
/// assert_eq!(Refusal::TickGap.number(), 14);
/// assert_eq!(Refusal::OutputTooShort.to_string(), "refused with 15: the output is too short");
/// ```
#[derive(Clone, Copy, Debug, PartialEq, Eq, Hash)]
#[non_exhaustive]
pub enum Refusal {
    /// 1: the frame ends before its payload does.
    TooShort,
    /// 2: no SLAC frame: octets 12-14 or 17-18.
    BadHead,
    /// 3: none of the thirteen messages; to the functions of [`maps`](crate::maps): none of their
    /// two, or to [`values`](crate::maps::values) no `CM_AMP_MAP.REQ`.
    UnknownType,
    /// 4: longer than its message is written.
    TooLong,
    /// 5: source, destination or the profile's car of the wrong kind.
    BadAddress,
    /// 6: another octet that is fixed, equal to one before, or limited; for an amplitude map also no
    /// carriers, more than [`CARRIERS`](crate::CARRIERS), or a value over 15.
    BadOctet,
    /// 7: to another receiver, from another modem, or from ourselves.
    NotForUs,
    /// 8: the state takes no such event.
    WrongState,
    /// 9: a new car after the end of admission.
    AdmissionClosed,
    /// 10: a new car while every record is held.
    RecordsFull,
    /// 11: this car holds no record, or another run; at a car: another run or station; to the query:
    /// no record, or one that counts no profile; for an amplitude map: another car than the matched
    /// one.
    NoRecord,
    /// 12: the car's record is in another phase.
    WrongPhase,
    /// 13: a sound count that the try has not (over 9 in the ISO edition), or heard already.
    BadSoundCount,
    /// 14: more than 60,000 ms since the last reading.
    TickGap,
    /// 15: less room than [`LEAST_OUTPUT`](crate::LEAST_OUTPUT), or
    /// [`CAR_LEAST_OUTPUT`](crate::CAR_LEAST_OUTPUT); for an amplitude map: than its frame takes, or
    /// than it has carriers.
    OutputTooShort,
    /// 16: the station or car was badly configured, or wiped; to
    /// [`maps::reduce`](crate::maps::reduce): a level outside -128 to 0.
    BadConfiguration,
    /// 17: a message that only a car receives; a `CM_AMP_MAP.CNF`, since a station never asks.
    OnlyForCars,
    /// 18: a report, while those of [`STATIONS`](crate::STATIONS) other stations are kept.
    ReportsFull,
    /// 19: a message that only a station receives.
    OnlyForStations,
    /// 20: a report of no sounds.
    NoSounds,
    /// 21: a request whose run is eight zero octets.
    EmptyRun,
    /// 22: a `CM_START_ATTEN_CHAR.IND` with the values of the other try; SAE alone.
    OtherTry,
    /// 23: a `CM_ATTEN_PROFILE.IND` with another group count than the record's; SAE alone.
    OtherGroupCount,
    /// 24: a `CM_AMP_MAP.REQ` with another number of carriers than ours; to
    /// [`maps::reduce`](crate::maps::reduce): not as many levels as values.
    OtherCarrierCount,
    /// A number of a later library, which this wrapper does not know.
    Other(u32),
}

/// Every refusal that this wrapper knows, from number 1 on, with its sentence.
const REFUSALS: [(Refusal, &str); 24] = [
    (Refusal::TooShort, "the frame ends before its payload does"),
    (
        Refusal::BadHead,
        "the frame is no HomePlug management message of version 1, or a fragment of one",
    ),
    (Refusal::UnknownType, "the message is none of those that this call reads"),
    (Refusal::TooLong, "the frame is longer than its message; is its check sequence still there?"),
    (
        Refusal::BadAddress,
        "the source, the destination or the profile's car is an address of the wrong kind",
    ),
    (
        Refusal::BadOctet,
        "an octet of the payload, or a map's count or value, is not what the standard fixes",
    ),
    (Refusal::NotForUs, "the frame is for another receiver, from another modem, or from ourselves"),
    (Refusal::WrongState, "the state takes no such event"),
    (Refusal::AdmissionClosed, "a new car asks after the end of admission"),
    (Refusal::RecordsFull, "a new car asks while other cars hold every record"),
    (
        Refusal::NoRecord,
        "there is no such record, run, chosen station or matched car, or no profile is counted yet",
    ),
    (Refusal::WrongPhase, "the car's record is in another phase"),
    (Refusal::BadSoundCount, "the sound's count is too high, or was heard already"),
    (Refusal::TickGap, "the clock is more than 60 seconds past the last reading that was taken"),
    (Refusal::OutputTooShort, "the output is too short"),
    (
        Refusal::BadConfiguration,
        "the configuration is bad or there is none, or a level is outside -128 to 0 dBm/Hz",
    ),
    (Refusal::OnlyForCars, "a station never takes this message"),
    (Refusal::ReportsFull, "the reports of as many other stations are kept as there is room for"),
    (Refusal::OnlyForStations, "only a station receives this message"),
    (Refusal::NoSounds, "the report tells of no sounds"),
    (Refusal::EmptyRun, "the request's run is empty, eight zero octets"),
    (Refusal::OtherTry, "the start has the values of the other try"),
    (Refusal::OtherGroupCount, "the profile has another group count than the car's record"),
    (
        Refusal::OtherCarrierCount,
        "the map has another number of carriers than the station, or than there are levels",
    ),
];

impl Refusal {
    /// The refusal's number.
    ///
    /// ```
    /// assert_eq!(lahzavar::Refusal::OnlyForCars.number(), 17);
    /// ```
    #[must_use]
    pub fn number(self) -> u32 {
        match self {
            Refusal::Other(number) => number,
            known => REFUSALS.iter().zip(1..).find(|(row, _)| row.0 == known).map_or(0, |f| f.1),
        }
    }

    /// The refusal as a sentence, for a log.
    ///
    /// ```
    /// use lahzavar::Refusal;
    /// assert_eq!(Refusal::WrongPhase.text(), "the car's record is in another phase");
    /// ```
    #[must_use]
    pub fn text(self) -> &'static str {
        let known = REFUSALS.iter().find(|(refusal, _)| *refusal == self);
        known.map_or("a refusal that this version does not know", |(_, text)| text)
    }
}

/// The sentence with its number.
impl fmt::Display for Refusal {
    fn fmt(&self, f: &mut fmt::Formatter) -> fmt::Result {
        write!(f, "refused with {}: {}", self.number(), self.text())
    }
}

impl Error for Refusal {}

/// Every number but 0, which is no refusal.
impl TryFrom<u32> for Refusal {
    type Error = UnknownNumber;

    fn try_from(number: u32) -> Result<Refusal, UnknownNumber> {
        let before = number.checked_sub(1).ok_or(UnknownNumber(number))?;
        Ok(REFUSALS.get(before as usize).map_or(Refusal::Other(number), |(refusal, _)| *refusal))
    }
}

impl From<Refusal> for u32 {
    fn from(refusal: Refusal) -> u32 {
        refusal.number()
    }
}

/// The numbers of an enum, there and back, and its words for a log.
macro_rules! numbered {
    ($kind:ident { $($variant:ident $words:literal)+ }) => {
        /// The numbers of the variants, and no others.
        impl TryFrom<u32> for $kind {
            type Error = UnknownNumber;

            fn try_from(number: u32) -> Result<$kind, UnknownNumber> {
                let mut known = [$($kind::$variant),+].into_iter();
                known.find(|one| *one as u32 == number).ok_or(UnknownNumber(number))
            }
        }

        impl From<$kind> for u32 {
            fn from(known: $kind) -> u32 {
                known as u32
            }
        }

        impl fmt::Display for $kind {
            fn fmt(&self, f: &mut fmt::Formatter) -> fmt::Result {
                f.write_str(match self {
                    $($kind::$variant => $words,)+
                })
            }
        }
    };
}

/// What the charge controller is to be told.
#[derive(Clone, Copy, Debug, PartialEq, Eq, Hash)]
pub enum Indication {
    /// 1: the matching has failed, or was ended.
    NoLink = 1,
    /// 2: the car that is plugged in and the station have a link.
    LinkEstablished = 2,
    /// 3, the car's alone: the least mean attenuation that a station reported, less the car's
    /// reference, is below 10 dB; the car asks that station for its key.
    Found = 3,
    /// 4, the car's alone: it is from 10 to below 20 dB, and the car asks all the same. A driver
    /// that wants a validation first does not send that frame, and terminates.
    PotentiallyFound = 4,
    /// 5, the car's alone: it is 20 dB or more, and the matching has ended.
    NotFound = 5,
    /// 6, the car's alone: the station has given its key, which [`Car::key`](crate::Car::key)
    /// tells.
    KeyGiven = 6,
}

numbered!(Indication {
    NoLink "no link"
    LinkEstablished "link established"
    Found "found"
    PotentiallyFound "potentially found"
    NotFound "not found"
    KeyGiven "key given"
});

/// The station's state.
#[derive(Clone, Copy, Debug, PartialEq, Eq, Hash)]
pub enum State {
    /// 0: no car is plugged in, or its matching has failed.
    Unmatched = 0,
    /// 1: a car is plugged in, and cars may ask.
    Matching = 1,
    /// 2: a car has the key, and its link is awaited.
    Joining = 2,
    /// 3: the link is established.
    Matched = 3,
}

numbered!(State {
    Unmatched "unmatched"
    Matching "matching"
    Joining "joining"
    Matched "matched"
});

/// The car's state.
#[derive(Clone, Copy, Debug, PartialEq, Eq, Hash)]
pub enum CarState {
    /// 0: no matching was started, or it has failed or ended.
    Idle = 0,
    /// 1: the car asks for stations.
    Asking = 1,
    /// 2: a station has answered, and the sounds are about to begin.
    Confirmed = 2,
    /// 3: the car sends its sounds and gathers reports.
    Sounding = 3,
    /// 4: the car asks the chosen station for the key.
    Requesting = 4,
    /// 5: the car has the key, and its link is awaited.
    Joining = 5,
    /// 6: the link is established.
    Matched = 6,
}

numbered!(CarState {
    Idle "idle"
    Asking "asking"
    Confirmed "confirmed"
    Sounding "sounding"
    Requesting "requesting"
    Joining "joining"
    Matched "matched"
});

/// The control pilot's state: a car is plugged in at B, C and D.
#[derive(Clone, Copy, Debug, PartialEq, Eq, Hash)]
pub enum Pilot {
    /// 0: no car.
    A = 0,
    /// 1: a car, not ready.
    B = 1,
    /// 2: a car, ready.
    C = 2,
    /// 3: a car, ready, which asks for ventilation.
    D = 3,
    /// 4: a fault of the pilot.
    E = 4,
    /// 5: the station is not available.
    F = 5,
}

numbered!(Pilot { A "A" B "B" C "C" D "D" E "E" F "F" });

/// By which standard a station reads and writes: that of the site's cars. An ISO car never matches
/// at an SAE station, nor an SAE car at an ISO one.
///
/// ```
/// use lahzavar::{Edition, UnknownNumber};
/// assert_eq!(u32::from(Edition::Sae), 1);
/// assert_eq!(Edition::try_from(2), Err(UnknownNumber(2)));
/// assert_eq!(Edition::Iso.to_string(), "ISO 15118-3");
/// ```
#[derive(Clone, Copy, Debug, PartialEq, Eq, Hash)]
pub enum Edition {
    /// 0: ISO 15118-3.
    Iso = 0,
    /// 1: SAE J2931/4. A car's first `CM_SLAC_PARM.REQ` begins a first try, of 8 sounds in 200 ms,
    /// and one while it holds a record a later try, of 16 sounds in 1,000 ms. A request that is
    /// repeated because its answer came late does so too, and a start by the first answer is then
    /// [`Refusal::OtherTry`].
    Sae = 1,
}

numbered!(Edition { Iso "ISO 15118-3" Sae "SAE J2931/4" });
