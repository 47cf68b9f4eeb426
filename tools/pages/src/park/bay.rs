//! A bay: its station, the car that is plugged in there, and what has happened to them.

use super::attenuation::REFERENCE;
use super::profile::{address, Side};
use super::random::Random;
use lahzavar::{Car, Configuration, Edition, Indication, Pilot, Refusal, Station, GROUPS};

/// One start of a car.
#[derive(Clone, Debug)]
pub struct Start {
    pub at: u32,
    /// When it ended: with the key, or without a link.
    pub end: Option<u32>,
    /// With what it ended, if it has.
    pub ended: Option<Indication>,
    /// What the choice gave: the station's bay, and whether it was found or potentially found.
    pub choice: Option<(usize, Indication)>,
    /// The bays whose reports the car has taken.
    pub reports: Vec<usize>,
    /// Whether the request reached the own station, why that refused it, and the bay of the car that
    /// it joined or had joined then.
    pub own_heard: bool,
    pub own_refusal: Option<Refusal>,
    pub own_joined: Option<usize>,
}

/// What a station has measured of a car, as it stood when it last reported to it.
#[derive(Clone, Debug)]
pub struct Heard {
    pub sounds: u32,
    pub mean: [u8; GROUPS],
    pub least: [u8; GROUPS],
    pub greatest: [u8; GROUPS],
}

/// What has become of a car.
#[derive(Clone, Debug, Default)]
pub struct Story {
    pub plugged: u32,
    pub starts: Vec<Start>,
    /// The bay whose station it has a link with, or has the key of.
    pub joined: Option<usize>,
    pub key_at: Option<u32>,
    pub link_at: Option<u32>,
}

impl Story {
    /// Whether the car has a link.
    pub fn is_linked(&self) -> bool {
        self.link_at.is_some()
    }
}

pub struct Bay {
    pub number: usize,
    pub station: Station,
    pub car: Car,
    /// The readings of both clocks at time 0.
    pub station_clock: u32,
    pub car_clock: u32,
    /// The times of what comes next.
    pub plug_in_at: Option<u32>,
    pub start_at: Option<u32>,
    pub link_at: Option<u32>,
    pub story: Story,
}

fn configuration(bay: usize, random: &mut Random) -> Configuration {
    let mut nid: [u8; 7] = random.octets();
    nid[6] &= 0x3F;
    Configuration {
        address: address(Side::Station, bay),
        modem: address(Side::Modem, bay),
        nid,
        nmk: random.octets(),
        validation_not_required: false,
        edition: Edition::Iso,
        carriers: 1155,
    }
}

impl Bay {
    /// A bay with nothing plugged in yet.
    ///
    /// # Errors
    ///
    /// The library's, which takes every configuration that is made here.
    pub fn draw(number: usize, random: &mut Random) -> Result<Bay, Refusal> {
        Ok(Bay {
            number,
            station: Station::new(&configuration(number, random))?,
            car: Car::new(address(Side::Car, number), REFERENCE)?,
            station_clock: random.between(0, u32::MAX),
            car_clock: random.between(0, u32::MAX),
            plug_in_at: None,
            start_at: None,
            link_at: None,
            story: Story::default(),
        })
    }

    /// The station's pilot goes to B, with a new key.
    ///
    /// # Errors
    ///
    /// The library's.
    pub fn plug_in(&mut self, now: u32, random: &mut Random) -> Result<(), Refusal> {
        self.plug_in_at = None;
        self.station.configure(&configuration(self.number, random))?;
        self.station.pilot(Pilot::B, self.station_clock.wrapping_add(now)).map(|_| ())
    }

    /// The car's last start.
    pub fn last_start(&mut self) -> Option<&mut Start> {
        self.story.starts.last_mut()
    }
}
