//! The events of a log, given to a station of the library.

use super::log::{Answer, Event, Kind, Log};
use crate::frames::Address;
use lahzavar::{Configuration, Edition, Pilot, State, Station, LEAST_OUTPUT};

/// One event, what was recorded, what the library's station gives, and how it is afterwards.
pub struct Step {
    pub event: Event,
    pub recorded: Answer,
    pub given: Answer,
    pub state: State,
    /// The car that joins or has joined.
    pub car: Option<Address>,
    pub records: usize,
    /// The last reading that an event had, this one's too; none before the first.
    pub reading: Option<u32>,
    /// The last pilot state, A before the first.
    pub pilot: Pilot,
}

impl Step {
    pub fn differs(&self) -> bool {
        self.recorded != self.given
    }
}

/// A log, replayed.
pub struct Session {
    pub configuration: Configuration,
    /// Whether the library takes the configuration; else its station answers 16 to everything.
    pub configured: bool,
    pub steps: Vec<Step>,
}

impl Session {
    /// The number, from 1, of the first event whose recorded answer differs.
    pub fn first_difference(&self) -> Option<usize> {
        self.steps.iter().position(Step::differs).map(|at| at + 1)
    }
}

fn array<const N: usize>(octets: &[u8]) -> [u8; N] {
    octets.first_chunk().copied().unwrap_or([0; N])
}

/// What the station is configured with.
pub fn configuration(log: &Log) -> Configuration {
    let part = |at: usize| log.settings.get(at).map_or(&[][..], |octets| &octets[..]);
    let number = |at: usize| u32::from_le_bytes(array(part(at)));
    Configuration {
        address: array(part(0)),
        modem: array(part(1)),
        nid: array(part(2)),
        nmk: array(part(3)),
        validation_not_required: number(4) == 1,
        edition: Edition::try_from(number(5)).unwrap_or(Edition::Iso),
        carriers: number(6),
    }
}

/// Some configuration that is good, so that there is a station to be configured anew.
fn any_good() -> Configuration {
    Configuration {
        address: [2, 0, 0, 0, 0, 1],
        modem: [2, 0, 0, 0, 0, 2],
        nid: [0; 7],
        nmk: [0; 16],
        validation_not_required: false,
        edition: Edition::Iso,
        carriers: 1,
    }
}

fn answer(answered: lahzavar::Answer) -> Answer {
    match answered {
        Ok(done) => Answer {
            refusal: 0,
            indication: done.indication.map_or(0, u32::from),
            frames: done.octets().to_vec(),
        },
        Err(refusal) => Answer { refusal: refusal.number(), indication: 0, frames: Vec::new() },
    }
}

fn pilot(event: &Event) -> Pilot {
    let state = event.octets.first().map_or(0, |state| u32::from(*state));
    Pilot::try_from(state).unwrap_or(Pilot::A)
}

fn carry_out(station: &mut Station, event: &Event) -> Answer {
    let mut out = [0; LEAST_OUTPUT];
    answer(match event.kind {
        Kind::Frame => station.frame(&event.octets, &mut out),
        Kind::Tick => station.tick(event.reading, &mut out),
        Kind::Pilot => station.pilot(pilot(event), event.reading),
        Kind::Terminate => station.terminate(),
        Kind::LinkUp => station.link_up(),
    })
}

/// Gives every event of a log to a station that is configured alike.
///
/// # Panics
///
/// Where the library does not take a good configuration.
pub fn replay(log: Log) -> Session {
    let configuration = configuration(&log);
    let mut station = Station::new(&any_good()).expect("a good configuration is taken");
    let configured = station.configure(&configuration).is_ok();
    let (mut reading, mut last_pilot) = (None, Pilot::A);
    let steps = log.events.into_iter().zip(log.replies).map(|(event, recorded)| {
        let given = carry_out(&mut station, &event);
        if matches!(event.kind, Kind::Tick | Kind::Pilot) {
            reading = Some(event.reading);
        }
        if event.kind == Kind::Pilot {
            last_pilot = pilot(&event);
        }
        let car = station.inspect().ok().and_then(|told| told.car);
        let (state, records, pilot) = (station.state(), station.records_held(), last_pilot);
        Step { event, recorded, given, state, car, records, reading, pilot }
    });
    let steps = steps.collect();
    Session { configuration, configured, steps }
}
