//! The lanes of the chart: the pilot, the station, its modem, each car, and one for all others.

use super::log::Kind;
use super::replay::{Session, Step};
use crate::frames::{self, Address};
use crate::messages::Sender;

/// The pixels of a lane.
pub const WIDTH: usize = 122;
/// What the label of the last lane's frames takes.
const MARGIN: usize = 120;

pub const PILOT: usize = 0;
pub const STATION: usize = 1;
pub const MODEM: usize = 2;
const FIRST_CAR: usize = 3;

pub struct Lanes {
    pub station: Address,
    pub modem: Address,
    /// In the order in which they first sent a frame.
    pub cars: Vec<Address>,
    /// Whether some frame is of nobody who has a lane: unreadable, or another station's.
    pub others: bool,
}

/// Whether the library has read a frame: refusals from 1 to 6 say why it could not.
fn is_read(step: &Step) -> bool {
    !(1..=6).contains(&step.given.refusal)
}

/// The car of a frame that was read: the one that a profile names, or else the sender.
fn car(step: &Step) -> Option<Address> {
    let frame = &step.event.octets;
    let message = frames::message(frame).filter(|_| step.event.kind == Kind::Frame)?;
    match message.sender {
        Sender::Modem => frames::profiled_car(frame),
        Sender::Car => frames::source(frame),
        Sender::Station => None,
    }
    .filter(|_| is_read(step))
}

impl Lanes {
    pub fn of(session: &Session) -> Lanes {
        let (station, modem) = (session.configuration.address, session.configuration.modem);
        let mut lanes = Lanes { station, modem, cars: Vec::new(), others: false };
        for found in session.steps.iter().filter_map(car) {
            if found != station && found != modem && !lanes.cars.contains(&found) {
                lanes.cars.push(found);
            }
        }
        let frames = session.steps.iter().filter(|step| step.event.kind == Kind::Frame);
        let mut senders = frames.map(|step| frames::source(&step.event.octets));
        lanes.others = senders.any(|sender| lanes.known(sender).is_none());
        lanes
    }

    fn known(&self, address: Option<Address>) -> Option<usize> {
        let address = address?;
        match address {
            _ if address == self.station => Some(STATION),
            _ if address == self.modem => Some(MODEM),
            _ => self.cars.iter().position(|car| *car == address).map(|car| FIRST_CAR + car),
        }
    }

    /// The lane of an address.
    pub fn of_address(&self, address: Option<Address>) -> usize {
        self.known(address).unwrap_or(FIRST_CAR + self.cars.len())
    }

    /// A name for a lane, and what stands below it.
    pub fn title(&self, lane: usize) -> (String, String) {
        match lane {
            PILOT => ("Pilot".into(), "control pilot".into()),
            STATION => ("Station".into(), frames::address(&self.station)),
            MODEM => ("Modem".into(), frames::address(&self.modem)),
            _ => match self.cars.get(lane - FIRST_CAR) {
                Some(car) => (format!("Car {}", lane - FIRST_CAR + 1), frames::address(car)),
                None => ("Others".into(), "no car of this chart".into()),
            },
        }
    }

    /// An address as a person is told it: by its lane's name, or by its octets.
    pub fn name(&self, address: Option<Address>) -> String {
        match (self.known(address), address) {
            (Some(STATION), _) => "the station".into(),
            (Some(MODEM), _) => "the modem".into(),
            (Some(lane), _) => {
                let (title, _) = self.title(lane);
                title.to_lowercase()
            }
            (None, Some(frames::BROADCAST)) => "all".into(),
            (None, Some(address)) => frames::address(&address),
            (None, None) => "nobody".into(),
        }
    }

    pub fn count(&self) -> usize {
        FIRST_CAR + self.cars.len() + usize::from(self.others)
    }

    /// The kind of a lane, for whoever reads the page by a program.
    pub fn kind(&self, lane: usize) -> &'static str {
        match lane {
            PILOT => "pilot",
            STATION => "station",
            MODEM => "modem",
            _ if lane < FIRST_CAR + self.cars.len() => "car",
            _ => "others",
        }
    }

    /// The middle of a lane.
    pub fn x(lane: usize) -> usize {
        WIDTH * lane + WIDTH / 2
    }

    pub fn width(&self) -> usize {
        WIDTH * self.count() + MARGIN
    }
}
