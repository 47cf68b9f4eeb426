//! The car's script: its reader and writer. Events and output are laid out as in the bench script.

use crate::car::{Car, Config, Indication};
use crate::messages::{Address, RunId};
use crate::script::{broken_event, take, take_number, write_entry, write_number};
use crate::script::{Entries, Entry, Outcome};
use std::io::{self, BufReader, Read, Write};

#[derive(Clone, Debug, PartialEq, Eq)]
pub enum Event {
    Frame { octets: Vec<u8>, room: usize },
    Tick { reading: u32, room: usize },
    Start { run: RunId, random: [u8; 16], reading: u32, room: usize },
    Terminate,
    LinkUp,
    Query,
}

impl Event {
    /// Makes the call that the event is.
    pub fn happen(&self, car: &mut Car) -> Outcome<Indication> {
        let mut output = Vec::new();
        let accepted = match self {
            Event::Frame { octets, room } => {
                output.resize(*room, 0);
                car.receive(octets, &mut output)?
            }
            Event::Tick { reading, room } => {
                output.resize(*room, 0);
                car.tick(*reading, &mut output)?
            }
            Event::Start { run, random, reading, room } => {
                output.resize(*room, 0);
                car.start(*run, *random, *reading, &mut output)?
            }
            Event::Terminate => car.terminate()?,
            Event::LinkUp => car.link_up()?,
            Event::Query => {
                let network = car.network()?;
                let octets = [&network.station.0[..], &network.nid.0, &network.nmk.0].concat();
                return Ok((None, octets));
            }
        };
        output.truncate(accepted.written);
        Ok((accepted.indication, output))
    }

    pub fn write(&self, script: &mut impl Write) -> io::Result<()> {
        match self {
            Event::Frame { octets, room } => write_entry(script, 0, 0, *room, octets),
            Event::Tick { reading, room } => write_entry(script, 1, *reading, *room, &[]),
            Event::Start { run, random, reading, room } => {
                write_entry(script, 2, *reading, *room, &[&run.0[..], random].concat())
            }
            Event::Terminate => write_entry(script, 3, 0, 0, &[]),
            Event::LinkUp => write_entry(script, 4, 0, 0, &[]),
            Event::Query => write_entry(script, 5, 0, 0, &[]),
        }
    }

    /// The event that stands in a script; none where it breaks the layout.
    fn of(entry: Entry) -> Option<Event> {
        let Entry { kind, reading, room, octets } = entry;
        Some(match (kind, &octets[..]) {
            (0, _) => Event::Frame { octets, room },
            (1, []) => Event::Tick { reading, room },
            (2, octets) => {
                let (run, random) = octets.split_first_chunk()?;
                let random = random.try_into().ok()?;
                Event::Start { run: RunId(*run), random, reading, room }
            }
            (3, []) => Event::Terminate,
            (4, []) => Event::LinkUp,
            (5, []) => Event::Query,
            _ => return None,
        })
    }
}

/// The script's head: the configuration and the number of events.
pub fn write_head(script: &mut impl Write, config: &Config, events: u32) -> io::Result<()> {
    script.write_all(&config.car.0)?;
    write_number(script, config.reference)?;
    write_number(script, events)
}

/// A script read event by event.
pub struct Script<R> {
    entries: Entries<R>,
    pub config: Config,
}

impl<R: Read> Script<R> {
    /// Reads the head.
    pub fn open(input: R) -> io::Result<Self> {
        let mut input = BufReader::new(input);
        let car = Address(take(&mut input)?);
        let config = Config { car, reference: take_number(&mut input)? };
        Ok(Script { entries: Entries::open(input)?, config })
    }

    pub fn is_waiting(&self) -> bool {
        self.entries.is_waiting()
    }

    /// The next event; none after the last.
    pub fn next_event(&mut self) -> io::Result<Option<Event>> {
        let Some(entry) = self.entries.next_entry()? else { return Ok(None) };
        let kind = entry.kind;
        Event::of(entry).map(Some).ok_or_else(|| broken_event(kind))
    }
}
