//! The line of the car's example, which a real driver does not have: a charging station and its
//! modem, the car's own modem, and a neighbour's car.

use crate::frames::{self, Address};
use crate::{Board, Event};
use lahzavar::{Answer, Configuration, Done, Edition, Key, Pilot, Refusal, State};
use lahzavar::{Station, LEAST_OUTPUT};
use std::collections::VecDeque;

pub const CAR: Address = [2, 0, 0, 0, 0, 1];
/// The clock at plug-in; it wraps during the matching.
pub const PLUG_IN: u32 = 0xFFFF_FB00;

const NEIGHBOUR: frames::Car = frames::Car { address: [2, 0, 0, 0, 0, 2], run: [9; 8] };
const STATION: Address = [2, 0, 0, 0, 0, 0xAA];
const MODEM: Address = [2, 0, 0, 0, 0, 0xBB];
const NID: [u8; 7] = [1, 2, 3, 4, 5, 6, 7];
const NMK: [u8; 16] = *b"a key for tests.";

pub struct Line {
    station: Station,
    clock: u32,
    events: VecDeque<Event>,
    seed: u64,
}

impl Line {
    pub fn new() -> Result<Line, Refusal> {
        let station = Station::new(&Configuration {
            address: STATION,
            modem: MODEM,
            nid: NID,
            nmk: NMK,
            validation_not_required: false,
            edition: Edition::Iso,
            carriers: 1155,
        })?;
        Ok(Line { station, clock: PLUG_IN, events: VecDeque::new(), seed: 1 })
    }

    /// The car hears what the station sends, to others too; where it refuses it sends nothing.
    fn car_hears(&mut self, answer: Answer) {
        let frames = answer.iter().flat_map(Done::frames);
        self.events.extend(frames.map(|frame| Event::Frame(frame.to_vec())));
    }

    fn station_hears(&mut self, frame: &[u8]) {
        let mut out = [0; LEAST_OUTPUT];
        let answer = self.station.frame(frame, &mut out);
        self.car_hears(answer);
    }

    /// The station sees the plug-in after a second, so that the car's first start fails.
    fn station_clock(&mut self, since_plug_in: u32) {
        let mut out = [0; LEAST_OUTPUT];
        let answer = match since_plug_in {
            1_000 => self.station.pilot(Pilot::B, self.clock),
            _ => self.station.tick(self.clock, &mut out),
        };
        self.car_hears(answer);
    }
}

impl Board for Line {
    /// The clock goes on by 5 ms where nothing else waits. The plug is out once there is a link, or
    /// after 20 seconds.
    fn event(&mut self) -> Option<Event> {
        if let Some(event) = self.events.pop_front() {
            return Some(event);
        }
        self.clock = self.clock.wrapping_add(5);
        let since_plug_in = self.clock.wrapping_sub(PLUG_IN);
        self.station_clock(since_plug_in);
        if since_plug_in == 1_500 {
            self.events.push_back(Event::Frame(NEIGHBOUR.parm_req()));
            self.station_hears(&NEIGHBOUR.parm_req());
        }
        let plugged_in = self.station.state() != State::Matched && since_plug_in < 20_000;
        plugged_in.then_some(Event::Clock(self.clock))
    }

    /// The station hears the frame, and its modem measures 8 dB in every group of a sound.
    fn send(&mut self, frame: &[u8]) {
        self.station_hears(frame);
        if frames::message_type(frame) == frames::SOUND_IND {
            self.station_hears(&frames::profile(MODEM, STATION, CAR, 8));
        }
    }

    /// With the right key both modems have a link.
    fn set_key(&mut self, key: &Key) {
        if (key.nid, key.nmk) == (NID, NMK) && self.station.link_up().is_ok() {
            self.events.push_back(Event::LinkUp);
        }
    }

    /// The same octets in every run of the program, from a small generator. A real car takes them
    /// from a random source.
    fn random<const N: usize>(&mut self) -> [u8; N] {
        [(); N].map(|()| {
            self.seed = self.seed.wrapping_mul(0x5851_F42D_4C95_7F2D).wrapping_add(1);
            self.seed.to_be_bytes()[0]
        })
    }
}
