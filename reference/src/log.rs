//! The log of a session: its reader and writer, and the causes for which one is refused ("The
//! log").

use crate::messages::{Address, Edition, Nid, Nmk};
use crate::station::Config;

/// A log is at most so long.
pub const LONGEST: usize = 65_536;
const HEAD: usize = 20;
/// Two addresses, NID, NMK, and a number for each later setting.
const CONFIGURATION: usize = 6 + 6 + 7 + 16 + 3 * 4;
/// Where the configuration ends.
pub const EVENTS: usize = HEAD + CONFIGURATION;
/// The three numbers of an event or a reply, before its octets.
pub const ENTRY: usize = 12;

/// Kinds of event.
pub const FRAME: u32 = 0;
pub const TICK: u32 = 1;
pub const PILOT: u32 = 2;
pub const TERMINATE: u32 = 3;
pub const LINK_UP: u32 = 4;

/// Why a log is refused; its number is the paper's.
#[derive(Clone, Copy, Debug, PartialEq, Eq)]
pub enum Cause {
    Long = 1,
    Short,
    Replies,
    EventsStart,
    RepliesStart,
    Length,
    Wide,
    Setting,
    Kind,
    Reading,
    EventLength,
    Pilot,
    Indication,
    ReplyLength,
    Output,
}

type Checked = Result<(), Cause>;

/// The configuration, each value as wide as it can be given.
#[derive(Clone, Copy, Debug, PartialEq, Eq)]
pub struct Settings {
    pub station: u64,
    pub modem: u64,
    pub nid: u64,
    pub nmk: [u8; 16],
    /// Whether validation is not required: 1 or 0.
    pub exempt: u32,
    /// 0 for ISO, 1 for SAE.
    pub edition: u32,
    /// Our carriers, any number.
    pub carriers: u32,
}

/// An event without its octets.
#[derive(Clone, Copy, Debug, PartialEq, Eq)]
pub struct Event {
    pub kind: u32,
    pub reading: u32,
    pub length: u32,
}

/// A reply without its frames.
#[derive(Clone, Copy, Debug, PartialEq, Eq)]
pub struct Reply {
    pub refusal: u32,
    pub indication: u32,
    pub length: u32,
}

/// A log, with the octets of each list back to back.
#[derive(Clone, Debug, PartialEq, Eq)]
pub struct Log {
    pub settings: Settings,
    pub events: Vec<Event>,
    pub octets: Vec<u8>,
    pub replies: Vec<Reply>,
    pub frames: Vec<u8>,
}

impl Settings {
    pub fn of(config: &Config) -> Settings {
        Settings {
            station: high_first(&config.station.0),
            modem: high_first(&config.modem.0),
            nid: high_first(&reversed(config.nid.0)),
            nmk: config.nmk.0,
            exempt: u32::from(config.exempt),
            edition: u32::from(config.edition == Edition::Sae),
            carriers: config.carriers,
        }
    }

    /// The station's configuration, which may be a bad one.
    pub fn config(&self) -> Config {
        let address = |number: u64| {
            let [_, _, octets @ ..] = number.to_be_bytes();
            Address(octets)
        };
        let [nid @ .., _] = self.nid.to_le_bytes();
        Config {
            station: address(self.station),
            modem: address(self.modem),
            nid: Nid(nid),
            nmk: Nmk(self.nmk),
            exempt: self.exempt == 1,
            edition: if self.edition == 1 { Edition::Sae } else { Edition::Iso },
            carriers: self.carriers,
        }
    }

    /// Refusals 7 and 8.
    fn check(&self) -> Checked {
        let narrow = self.station >> 48 == 0 && self.modem >> 48 == 0 && self.nid >> 56 == 0;
        check(narrow, Cause::Wide)?;
        check(self.exempt <= 1 && self.edition <= 1, Cause::Setting)
    }
}

impl Event {
    /// Refusals 9 to 12, given the event's octets; none where they are not as many as the length
    /// says.
    fn check(&self, octets: Option<&[u8]>) -> Checked {
        check(self.kind <= LINK_UP, Cause::Kind)?;
        let has_reading = matches!(self.kind, TICK | PILOT);
        check(has_reading || self.reading == 0, Cause::Reading)?;
        let fits = match self.kind {
            FRAME => true,
            PILOT => self.length == 1,
            _ => self.length == 0,
        };
        check(fits, Cause::EventLength)?;
        let octets = octets.ok_or(Cause::EventLength)?;
        check(self.kind != PILOT || octets.iter().all(|state| *state <= 5), Cause::Pilot)
    }
}

impl Reply {
    /// Refusals 13 and 14.
    fn check(&self) -> Checked {
        let is_refused = self.refusal != 0;
        let highest = if is_refused { 0 } else { 2 };
        check(self.indication <= highest, Cause::Indication)?;
        check(!is_refused || self.length == 0, Cause::ReplyLength)
    }
}

impl Log {
    /// Each event with its octets.
    pub fn events(&self) -> impl Iterator<Item = (Event, &[u8])> {
        let lengths = self.events.iter().map(|event| event.length);
        self.events.iter().copied().zip(cut(&self.octets, lengths))
    }

    /// Each reply with its frames.
    pub fn replies(&self) -> impl Iterator<Item = (Reply, &[u8])> {
        let lengths = self.replies.iter().map(|reply| reply.length);
        self.replies.iter().copied().zip(cut(&self.frames, lengths))
    }

    /// Reads a log: the whole is judged first, then the places, then the fields in their order.
    pub fn read(log: &[u8]) -> Result<Log, Cause> {
        check(log.len() <= LONGEST, Cause::Long)?;
        let head = |place: usize| number(log, 4 * place).ok_or(Cause::Short);
        let [events, replies, events_start, replies_start, total] =
            [head(0)?, head(1)?, head(2)?, head(3)?, head(4)?];
        check(replies == events, Cause::Replies)?;
        check(is_place(events_start, EVENTS), Cause::EventsStart)?;
        let second = end(log, EVENTS, events).ok_or(Cause::RepliesStart)?;
        check(is_place(replies_start, second), Cause::RepliesStart)?;
        check(is_place(total, log.len()), Cause::Length)?;
        check(end(log, second, replies) == Some(log.len()), Cause::Length)?;

        let settings = settings(log).ok_or(Cause::Length)?;
        settings.check()?;
        let mut read = Log {
            settings,
            events: Vec::new(),
            octets: Vec::new(),
            replies: Vec::new(),
            frames: Vec::new(),
        };
        let mut place = EVENTS;
        for _ in 0..events {
            let ([kind, reading, length], octets) = entry(log, place).ok_or(Cause::Length)?;
            let event = Event { kind, reading, length };
            event.check(Some(octets))?;
            read.events.push(event);
            read.octets.extend(octets);
            place += ENTRY + octets.len();
        }
        for _ in 0..replies {
            let ([refusal, indication, length], octets) = entry(log, place).ok_or(Cause::Length)?;
            let reply = Reply { refusal, indication, length };
            reply.check()?;
            read.replies.push(reply);
            read.frames.extend(octets);
            place += ENTRY + octets.len();
        }
        Ok(read)
    }

    /// The log's length, by the lengths in it.
    pub fn length(&self) -> u64 {
        let events = self.events.iter().map(|event| event.length);
        let replies = self.replies.iter().map(|reply| reply.length);
        let entries = events.chain(replies).map(|length| ENTRY as u64 + u64::from(length));
        EVENTS as u64 + entries.sum::<u64>()
    }

    /// Writes the log from the output's first octet and gives its length.
    pub fn write(&self, output: &mut [u8]) -> Result<usize, Cause> {
        let length = usize::try_from(self.length()).ok().filter(|length| *length <= LONGEST);
        let length = length.ok_or(Cause::Long)?;
        check(self.replies.len() == self.events.len(), Cause::Replies)?;
        self.settings.check()?;
        let mut left = &self.octets[..];
        for (place, event) in self.events.iter().enumerate() {
            // What is behind the last event's octets belongs to no event.
            let is_last = place + 1 == self.events.len();
            let (octets, rest) = split(left, event.length).unzip();
            let is_whole = !is_last || rest.is_some_and(<[u8]>::is_empty);
            event.check(octets.filter(|_| is_whole))?;
            left = rest.unwrap_or_default();
        }
        check(left.is_empty(), Cause::EventLength)?;
        let mut left = &self.frames[..];
        for (place, reply) in self.replies.iter().enumerate() {
            reply.check()?;
            let is_last = place + 1 == self.replies.len();
            let (_, rest) = split(left, reply.length).ok_or(Cause::ReplyLength)?;
            check(!is_last || rest.is_empty(), Cause::ReplyLength)?;
            left = rest;
        }
        check(left.is_empty(), Cause::ReplyLength)?;
        let output = output.get_mut(..length).ok_or(Cause::Output)?;
        output.copy_from_slice(&self.to_octets());
        Ok(length)
    }

    /// The log's octets, whatever is wrong with it.
    pub fn to_octets(&self) -> Vec<u8> {
        let Settings { station, modem, nid, nmk, exempt, edition, carriers } = self.settings;
        let events = self.events().map(|(Event { kind, reading, length }, octets)| {
            [&numbers([kind, reading, length])[..], octets].concat()
        });
        let replies = self.replies().map(|(Reply { refusal, indication, length }, frames)| {
            [&numbers([refusal, indication, length])[..], frames].concat()
        });
        let (events, replies) = (events.collect::<Vec<_>>(), replies.collect::<Vec<_>>());
        let counts = [events.len(), replies.len()].map(|count| count as u32);
        let (events, replies) = (events.concat(), replies.concat());
        let second = EVENTS + events.len();
        let places = [EVENTS, second, second + replies.len()].map(|place| place as u32);
        [
            &numbers([counts[0], counts[1], places[0], places[1], places[2]])[..],
            &station.to_be_bytes()[2..],
            &modem.to_be_bytes()[2..],
            &nid.to_le_bytes()[..7],
            &nmk,
            &numbers([exempt, edition, carriers]),
            &events,
            &replies,
        ]
        .concat()
    }
}

fn check(is_right: bool, cause: Cause) -> Checked {
    is_right.then_some(()).ok_or(cause)
}

/// Whether a number of the head is that place.
fn is_place(number: u32, place: usize) -> bool {
    usize::try_from(number) == Ok(place)
}

/// The number at a place.
pub fn number(octets: &[u8], at: usize) -> Option<u32> {
    octets.get(at..)?.first_chunk().copied().map(u32::from_le_bytes)
}

fn numbers<const N: usize>(numbers: [u32; N]) -> Vec<u8> {
    numbers.into_iter().flat_map(u32::to_le_bytes).collect()
}

/// The three numbers of an event or a reply, and its octets.
fn entry(log: &[u8], at: usize) -> Option<([u32; 3], &[u8])> {
    let numbers = [number(log, at)?, number(log, at + 4)?, number(log, at + 8)?];
    let (octets, _) = split(log.get(at + ENTRY..)?, numbers[2])?;
    Some((numbers, octets))
}

/// Where a list of so many events or replies ends; nowhere where some of its octets would stand
/// behind the log's end.
fn end(log: &[u8], start: usize, count: u32) -> Option<usize> {
    let mut place = start;
    for _ in 0..count {
        let (_, octets) = entry(log, place)?;
        place += ENTRY + octets.len();
    }
    Some(place)
}

/// Splits octets behind so many.
fn split(octets: &[u8], length: u32) -> Option<(&[u8], &[u8])> {
    octets.split_at_checked(usize::try_from(length).ok()?)
}

/// The octets in parts of these lengths; where they end early, so do the parts.
fn cut(octets: &[u8], lengths: impl Iterator<Item = u32>) -> impl Iterator<Item = &[u8]> {
    lengths.scan(octets, |left, length| {
        let (part, rest) = split(left, length).unwrap_or((left, &[]));
        *left = rest;
        Some(part)
    })
}

/// The configuration, behind the head.
fn settings(log: &[u8]) -> Option<Settings> {
    let (station, rest) = log.get(HEAD..)?.split_first_chunk::<6>()?;
    let (modem, rest) = rest.split_first_chunk::<6>()?;
    let (nid, rest) = rest.split_first_chunk::<7>()?;
    let (nmk, rest) = rest.split_first_chunk::<16>()?;
    Some(Settings {
        station: high_first(station),
        modem: high_first(modem),
        nid: high_first(&reversed(*nid)),
        nmk: *nmk,
        exempt: number(rest, 0)?,
        edition: number(rest, 4)?,
        carriers: number(rest, 8)?,
    })
}

fn high_first(octets: &[u8]) -> u64 {
    octets.iter().fold(0, |number, octet| number << 8 | u64::from(*octet))
}

fn reversed<const N: usize>(mut octets: [u8; N]) -> [u8; N] {
    octets.reverse();
    octets
}
