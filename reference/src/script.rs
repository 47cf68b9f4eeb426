//! The bench script: its reader and writer, and the output's ("The bench script"). What the car's
//! script shares with it stands here too.

use crate::amplitude;
use crate::messages::{Address, Edition, Nid, Nmk};
use crate::refusal::Refusal;
use crate::station::{Config, Indication, Pilot, Service, Station};
use std::borrow::Cow;
use std::io::{self, BufRead, BufReader, Read, Write};

/// The most octets of an event, and of the output lent to it.
pub const MOST: usize = 4096;

#[derive(Clone, Debug, PartialEq, Eq)]
pub enum Event {
    Frame { octets: Vec<u8>, room: usize },
    Tick { reading: u32, room: usize },
    Pilot { to: Pilot, reading: u32 },
    Terminate,
    LinkUp,
    Query { car: Address },
    Reduction { values: Vec<u8>, levels: Vec<i16>, room: usize },
    Inspection,
}

/// An event's answer: its indication and the octets given back, or the refusal.
pub type Outcome<I = Indication> = Result<(Option<I>, Vec<u8>), Refusal>;

/// An event's answer as the output has it.
#[derive(Clone, Debug, PartialEq, Eq)]
pub struct Answer {
    /// The refusal's number, or 0.
    pub refusal: u32,
    /// 1 for "no link", 2 for "link established", 3 to 6 for a car's own, 0 for none.
    pub indication: u32,
    /// The frames, or what a query gives.
    pub octets: Vec<u8>,
}

impl<I: Into<u32>> From<Outcome<I>> for Answer {
    fn from(outcome: Outcome<I>) -> Answer {
        match outcome {
            Ok((indication, octets)) => {
                Answer { refusal: 0, indication: indication.map_or(0, I::into), octets }
            }
            Err(refusal) => Answer { refusal: refusal.number(), indication: 0, octets: Vec::new() },
        }
    }
}

impl Answer {
    pub fn write(&self, output: &mut impl Write) -> io::Result<()> {
        write_number(output, self.refusal)?;
        write_number(output, self.indication)?;
        write_octets(output, &self.octets)
    }

    /// The next answer of an output; none at its end.
    pub fn take(output: &mut impl BufRead) -> io::Result<Option<Answer>> {
        if output.fill_buf()?.is_empty() {
            return Ok(None);
        }
        let (refusal, indication) = (take_number(output)?, take_number(output)?);
        Ok(Some(Answer { refusal, indication, octets: take_octets(output)? }))
    }
}

impl Event {
    /// Makes the call that the event is.
    pub fn happen(&self, station: &mut Station) -> Outcome {
        let mut output = Vec::new();
        let accepted = match self {
            Event::Frame { octets, room } => {
                output.resize(*room, 0);
                station.receive(octets, &mut output)?
            }
            Event::Tick { reading, room } => {
                output.resize(*room, 0);
                station.tick(*reading, &mut output)?
            }
            Event::Pilot { to, reading } => station.change_pilot(*to, *reading)?,
            Event::Terminate => station.terminate()?,
            Event::LinkUp => station.link_up()?,
            Event::Query { car } => {
                let Service { heard, least, greatest } = station.service(*car)?;
                return Ok((None, [&heard.to_le_bytes()[..], &least, &greatest].concat()));
            }
            Event::Reduction { values, levels, room } => {
                output.resize(*room, 0);
                let written = amplitude::reduce(values, levels, &mut output)?;
                output.truncate(written);
                return Ok((None, output));
            }
            Event::Inspection => {
                let (state, car) = station.inspect()?;
                let car = car.map_or([0; 6], |car| car.0);
                return Ok((None, [&state.to_le_bytes()[..], &car].concat()));
            }
        };
        output.truncate(accepted.written);
        Ok((accepted.indication, output))
    }

    /// The event's kind, reading and octets, as scripts and logs have them.
    pub fn parts(&self) -> (u32, u32, Cow<'_, [u8]>) {
        match self {
            Event::Frame { octets, .. } => (0, 0, octets.into()),
            Event::Tick { reading, .. } => (1, *reading, [][..].into()),
            Event::Pilot { to, reading } => (2, *reading, vec![*to as u8].into()),
            Event::Terminate => (3, 0, [][..].into()),
            Event::LinkUp => (4, 0, [][..].into()),
            Event::Query { car } => (5, 0, car.0[..].into()),
            Event::Reduction { values, levels, .. } => {
                let levels: Vec<u8> = levels.iter().flat_map(|level| level.to_le_bytes()).collect();
                let count = (values.len() as u32).to_le_bytes();
                (6, 0, [&count[..], values, &levels].concat().into())
            }
            Event::Inspection => (7, 0, [][..].into()),
        }
    }

    /// The event with these parts and that room, unless it breaks the layout.
    pub fn of(kind: u32, reading: u32, room: usize, octets: Vec<u8>) -> io::Result<Event> {
        Ok(match (kind, &octets[..]) {
            (0, _) => Event::Frame { octets, room },
            (1, []) => Event::Tick { reading, room },
            (2, [pilot]) => match Pilot::ALL.get(usize::from(*pilot)) {
                Some(to) => Event::Pilot { to: *to, reading },
                None => return Err(broken("a pilot state over 5")),
            },
            (3, []) => Event::Terminate,
            (4, []) => Event::LinkUp,
            (5, &[a, b, c, d, e, f]) => Event::Query { car: Address([a, b, c, d, e, f]) },
            (6, octets) => match reduction(octets) {
                Some((values, levels)) => Event::Reduction { values, levels, room },
                None => return Err(broken_event(kind)),
            },
            (7, []) => Event::Inspection,
            _ => return Err(broken_event(kind)),
        })
    }

    pub fn write(&self, script: &mut impl Write) -> io::Result<()> {
        let (kind, reading, octets) = self.parts();
        let room = match self {
            Event::Frame { room, .. }
            | Event::Tick { room, .. }
            | Event::Reduction { room, .. } => *room,
            _ => 0,
        };
        write_entry(script, kind, reading, room, &octets)
    }
}

/// The parts of a reduction: "the number of values as a number, the values, the levels as two octets
/// each, low octet first".
fn reduction(octets: &[u8]) -> Option<(Vec<u8>, Vec<i16>)> {
    let (count, rest) = octets.split_first_chunk()?;
    let count = usize::try_from(u32::from_le_bytes(*count)).ok()?;
    let (values, levels) = rest.split_at_checked(count)?;
    if levels.len() % 2 != 0 {
        return None;
    }
    let level = |pair: &[u8]| i16::from_le_bytes([pair[0], pair[1]]);
    Some((values.to_vec(), levels.chunks_exact(2).map(level).collect()))
}

/// An event as it stands in a script: "kind, reading, room, length, octets".
pub fn write_entry(
    script: &mut impl Write,
    kind: u32,
    reading: u32,
    room: usize,
    octets: &[u8],
) -> io::Result<()> {
    write_number(script, kind)?;
    write_number(script, reading)?;
    write_number(script, number(room)?)?;
    write_octets(script, octets)
}

/// The script's head: the configuration and the number of events.
pub fn write_head(script: &mut impl Write, config: &Config, events: u32) -> io::Result<()> {
    script.write_all(&config.station.0)?;
    script.write_all(&config.modem.0)?;
    script.write_all(&config.nid.0)?;
    script.write_all(&config.nmk.0)?;
    write_number(script, u32::from(config.exempt))?;
    write_number(script, u32::from(config.edition == Edition::Sae))?;
    write_number(script, config.carriers)?;
    write_number(script, events)
}

/// The answer to configuring.
pub fn write_configured(output: &mut impl Write, answer: Result<(), Refusal>) -> io::Result<()> {
    write_number(output, answer.err().map_or(0, Refusal::number))
}

pub fn write_number(out: &mut impl Write, number: u32) -> io::Result<()> {
    out.write_all(&number.to_le_bytes())
}

fn write_octets(out: &mut impl Write, octets: &[u8]) -> io::Result<()> {
    write_number(out, number(octets.len())?)?;
    out.write_all(octets)
}

fn number(length: usize) -> io::Result<u32> {
    u32::try_from(length).map_err(io::Error::other)
}

/// Input that breaks the layout.
pub fn broken(what: &str) -> io::Error {
    io::Error::new(io::ErrorKind::InvalidData, what)
}

/// The next octets, or "the input ends early".
pub fn take<const N: usize>(input: &mut impl Read) -> io::Result<[u8; N]> {
    let mut octets = [0; N];
    fill(input, &mut octets)?;
    Ok(octets)
}

/// The next number, low octet first.
pub fn take_number(input: &mut impl Read) -> io::Result<u32> {
    take(input).map(u32::from_le_bytes)
}

/// The next number, which is 1 for yes or 0 for no.
fn take_yes_or_no(input: &mut impl Read) -> io::Result<bool> {
    match take_number(input)? {
        0 => Ok(false),
        1 => Ok(true),
        _ => Err(broken("a setting that is neither 1 nor 0")),
    }
}

/// The next number, which is at most 4,096.
fn take_length(input: &mut impl Read) -> io::Result<usize> {
    match usize::try_from(take_number(input)?) {
        Ok(length) if length <= MOST => Ok(length),
        _ => Err(broken("a room or length over 4,096")),
    }
}

/// A length of at most 4,096, and so many octets.
fn take_octets(input: &mut impl Read) -> io::Result<Vec<u8>> {
    let mut octets = vec![0; take_length(input)?];
    fill(input, &mut octets)?;
    Ok(octets)
}

fn fill(input: &mut impl Read, octets: &mut [u8]) -> io::Result<()> {
    input.read_exact(octets).map_err(|error| match error.kind() {
        io::ErrorKind::UnexpectedEof => broken("the input ends early"),
        _ => error,
    })
}

/// An event as it stands in a script.
pub struct Entry {
    pub kind: u32,
    pub reading: u32,
    pub room: usize,
    pub octets: Vec<u8>,
}

/// The events of a script, behind its head.
pub struct Entries<R> {
    input: BufReader<R>,
    remaining: u32,
}

impl<R: Read> Entries<R> {
    /// Reads the number of events, the head's last part.
    pub fn open(mut input: BufReader<R>) -> io::Result<Self> {
        let remaining = take_number(&mut input)?;
        Ok(Entries { input, remaining })
    }

    /// Whether the next event has yet to arrive, so that answers should go out first.
    pub fn is_waiting(&self) -> bool {
        self.input.buffer().is_empty()
    }

    /// The next event; none after the last, where the input is to end.
    pub fn next_entry(&mut self) -> io::Result<Option<Entry>> {
        let Some(remaining) = self.remaining.checked_sub(1) else {
            return match self.input.fill_buf()?.is_empty() {
                true => Ok(None),
                false => Err(broken("octets after the last event")),
            };
        };
        self.remaining = remaining;
        let kind = take_number(&mut self.input)?;
        let reading = take_number(&mut self.input)?;
        let room = take_length(&mut self.input)?;
        let octets = take_octets(&mut self.input)?;
        Ok(Some(Entry { kind, reading, room, octets }))
    }
}

/// An event that breaks the layout by its kind, or by its length.
pub fn broken_event(kind: u32) -> io::Error {
    match kind {
        0..=7 => broken("an event of the wrong length"),
        _ => broken("an unknown kind of event"),
    }
}

/// A script read event by event.
pub struct Script<R> {
    entries: Entries<R>,
    pub config: Config,
}

impl<R: Read> Script<R> {
    /// Reads the head.
    pub fn open(input: R) -> io::Result<Self> {
        let mut input = BufReader::new(input);
        let config = Config {
            station: Address(take(&mut input)?),
            modem: Address(take(&mut input)?),
            nid: Nid(take(&mut input)?),
            nmk: Nmk(take(&mut input)?),
            exempt: take_yes_or_no(&mut input)?,
            edition: match take_yes_or_no(&mut input)? {
                false => Edition::Iso,
                true => Edition::Sae,
            },
            carriers: take_number(&mut input)?,
        };
        Ok(Script { entries: Entries::open(input)?, config })
    }

    pub fn is_waiting(&self) -> bool {
        self.entries.is_waiting()
    }

    /// The next event; none after the last.
    pub fn next_event(&mut self) -> io::Result<Option<Event>> {
        let Some(entry) = self.entries.next_entry()? else { return Ok(None) };
        let Entry { kind, reading, room, octets } = entry;
        Event::of(kind, reading, room, octets).map(Some)
    }
}
