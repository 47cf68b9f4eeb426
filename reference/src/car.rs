//! The car: state, kept reports, the five calls and the key query ("The car's end").

use crate::messages::{Address, Body, Edition, Groups, Kind, Message, Nid, Nmk, RunId};
use crate::refusal::Refusal;

const ASKING: u32 = 200;
const CONFIRMED: u32 = 100;
const BETWEEN: u32 = 40;
const GATHERING: u32 = 1_200;
const REQUESTING: u32 = 200;
const JOINING: u32 = 12_000;
const RETRIES: u8 = 2;
/// START and SOUND frames together.
const FRAMES: u8 = 13;
const LONGEST_GAP: u32 = 60_000;
const HIGHEST_REFERENCE: u32 = 255;
/// A MATCH.REQ, the longest frame that a car sends.
const LEAST_OUTPUT: usize = 85;

/// The reference is the attenuation that the car takes as its zero.
#[derive(Clone, Copy, Debug, PartialEq, Eq)]
pub struct Config {
    pub car: Address,
    pub reference: u32,
}

/// The station that answered the match request, and its network.
#[derive(Clone, Copy, Debug, PartialEq, Eq)]
pub struct Network {
    pub station: Address,
    pub nid: Nid,
    pub nmk: Nmk,
}

/// Each state with what it carries; `left` is its remaining time.
#[derive(Clone, Copy, Debug, PartialEq, Eq)]
pub enum State {
    Idle,
    Asking {
        left: u32,
        retries: u8,
    },
    Confirmed {
        left: u32,
    },
    /// How many of the 13 frames are sent, the time to the next, and the time left to gather.
    Sounding {
        sent: u8,
        next: u32,
        left: u32,
    },
    Requesting {
        left: u32,
        retries: u8,
        station: Address,
    },
    Joining {
        left: u32,
        network: Network,
    },
    Matched {
        network: Network,
    },
}

/// What is kept of a station's first report: the sum of its 58 values.
#[derive(Clone, Copy, Debug, PartialEq, Eq)]
pub struct Report {
    pub station: Address,
    pub total: u32,
}

#[derive(Clone, Copy, Debug, PartialEq, Eq)]
pub enum Indication {
    NoLink = 1,
    LinkEstablished,
    Found,
    PotentiallyFound,
    NotFound,
    KeyGiven,
}

impl From<Indication> for u32 {
    fn from(indication: Indication) -> u32 {
        indication as u32
    }
}

/// An accepted call: how many octets of the output its frame takes, and its indication.
#[derive(Clone, Copy, Debug, Default, PartialEq, Eq)]
pub struct Accepted {
    pub written: usize,
    pub indication: Option<Indication>,
}

pub type Answer = Result<Accepted, Refusal>;
type Checked = Result<(), Refusal>;

#[derive(Clone, Debug, PartialEq, Eq)]
pub struct Car {
    /// None after a bad configuration.
    config: Option<Config>,
    pub state: State,
    /// The last clock reading taken.
    pub reading: u32,
    /// The run and the random value of the last start.
    pub run: RunId,
    pub random: [u8; 16],
    /// In the order in which the stations first reported.
    reports: [Option<Report>; 10],
}

impl Car {
    /// A bad configuration "gives 16 and an Idle car that answers 16 to everything".
    pub fn configure(config: Config) -> (Car, Checked) {
        let car = Car {
            config: config.is_good().then_some(config),
            state: State::Idle,
            reading: 0,
            run: RunId([0; 8]),
            random: [0; 16],
            reports: Default::default(),
        };
        let answer = car.config().map(|_| ());
        (car, answer)
    }

    /// The reports kept.
    pub fn reports(&self) -> impl Iterator<Item = &Report> {
        self.reports.iter().flatten()
    }

    fn config(&self) -> Result<Config, Refusal> {
        self.config.ok_or(Refusal::Configuration)
    }

    /// Start: "16, 15, 8".
    pub fn start(
        &mut self,
        run: RunId,
        random: [u8; 16],
        reading: u32,
        output: &mut [u8],
    ) -> Answer {
        let us = self.config()?.car;
        check_room(output)?;
        let State::Idle = self.state else { return Err(Refusal::State) };
        let accepted = sent(Body::ParmReq { run }.broadcast(us), output)?;
        self.reading = reading;
        self.run = run;
        self.random = random;
        self.reports = Default::default();
        self.state = State::Asking { left: ASKING, retries: RETRIES };
        Ok(accepted)
    }

    /// Terminate: Idle from every state; "no link" if it was neither Idle nor Matched.
    pub fn terminate(&mut self) -> Answer {
        self.config()?;
        match std::mem::replace(&mut self.state, State::Idle) {
            State::Idle | State::Matched { .. } => Ok(Accepted::default()),
            _ => Ok(Indication::NoLink.alone()),
        }
    }

    /// Link up: in Joining, Matched and "link established"; else 8.
    pub fn link_up(&mut self) -> Answer {
        self.config()?;
        let State::Joining { network, .. } = self.state else { return Err(Refusal::State) };
        self.state = State::Matched { network };
        Ok(Indication::LinkEstablished.alone())
    }

    /// The key query: "in Joining and Matched the station, its NID and NMK; else 8".
    pub fn network(&self) -> Result<Network, Refusal> {
        self.config()?;
        match self.state {
            State::Joining { network, .. } | State::Matched { network } => Ok(network),
            _ => Err(Refusal::State),
        }
    }

    /// A received frame: "16, 15, reading, 19, 7, 8, 11, 20, 18".
    pub fn receive(&mut self, frame: &[u8], output: &mut [u8]) -> Answer {
        let us = self.config()?.car;
        check_room(output)?;
        let Message { destination, source, body } = Message::read(frame, Edition::Iso)?;
        let run = run_for_a_car(&body)?;
        if destination != us || source == us {
            return Err(Refusal::NotOurs);
        }
        if !self.state.takes(body.kind()) {
            return Err(Refusal::State);
        }
        if run != Some(self.run) || self.state.is_settled_on_other_than(source) {
            return Err(Refusal::NoRecord);
        }
        match body {
            Body::AttenChar { sounds, groups, .. } => {
                self.take_report(us, source, sounds, &groups, output)
            }
            Body::MatchCnf { nid, nmk, .. } => {
                let network = Network { station: source, nid, nmk };
                self.state = State::Joining { left: JOINING, network };
                Ok(Indication::KeyGiven.alone())
            }
            _ => {
                if let State::Asking { .. } = self.state {
                    self.state = State::Confirmed { left: CONFIRMED };
                }
                Ok(Accepted::default())
            }
        }
    }

    /// An ATTEN_CHAR.IND of our run: 20, 18, else answered; in Sounding a first one is kept.
    fn take_report(
        &mut self,
        us: Address,
        station: Address,
        sounds: u8,
        groups: &Groups,
        output: &mut [u8],
    ) -> Answer {
        if sounds == 0 {
            return Err(Refusal::NoSounds);
        }
        let response = Body::response(self.run).send(us, station);
        let is_kept = self.reports().any(|report| report.station == station);
        if is_kept || !matches!(self.state, State::Sounding { .. }) {
            return sent(response, output);
        }
        let mut places = self.reports.iter_mut();
        let place = places.find(|place| place.is_none()).ok_or(Refusal::ReportsFull)?;
        let accepted = sent(response, output)?;
        *place = Some(Report { station, total: total(groups) });
        Ok(accepted)
    }

    /// A clock tick: "16, 15, 14". "A time fires when remaining is at most elapsed; the excess is
    /// dropped", and at most one fires.
    pub fn tick(&mut self, reading: u32, output: &mut [u8]) -> Answer {
        let config = self.config()?;
        check_room(output)?;
        let elapsed = reading.wrapping_sub(self.reading);
        if elapsed > LONGEST_GAP {
            return Err(Refusal::TickGap);
        }
        self.reading = reading;
        match &mut self.state {
            State::Idle | State::Matched { .. } => Ok(Accepted::default()),
            State::Asking { left, .. }
            | State::Confirmed { left }
            | State::Requesting { left, .. }
            | State::Joining { left, .. } => {
                if *left <= elapsed {
                    return self.fire(config.car, output);
                }
                *left -= elapsed;
                Ok(Accepted::default())
            }
            State::Sounding { left, .. } if *left <= elapsed => self.choose(config, output),
            State::Sounding { sent: frames, next, left } => {
                *left -= elapsed;
                if *frames == FRAMES {
                    return Ok(Accepted::default());
                }
                if *next > elapsed {
                    *next -= elapsed;
                    return Ok(Accepted::default());
                }
                let body = sounding_frame(*frames, self.run, self.random);
                let accepted = sent(body.broadcast(config.car), output)?;
                *frames += 1;
                *next = BETWEEN;
                Ok(accepted)
            }
        }
    }

    /// The state's time is over, in another state than Sounding: the next frame, or "no link".
    fn fire(&mut self, us: Address, output: &mut [u8]) -> Answer {
        let run = self.run;
        let (state, message) = match self.state {
            State::Asking { retries: retries @ 1.., .. } => {
                let state = State::Asking { left: ASKING, retries: retries - 1 };
                (state, Body::ParmReq { run }.broadcast(us))
            }
            State::Confirmed { .. } => {
                let state = State::Sounding { sent: 1, next: BETWEEN, left: GATHERING };
                (state, sounding_frame(0, run, self.random).broadcast(us))
            }
            State::Requesting { retries: retries @ 1.., station, .. } => {
                let state = State::Requesting { left: REQUESTING, retries: retries - 1, station };
                (state, Body::match_req(run).send(us, station))
            }
            _ => {
                self.state = State::Idle;
                return Ok(Indication::NoLink.alone());
            }
        };
        let accepted = sent(message, output)?;
        self.state = state;
        Ok(accepted)
    }

    /// The choice: "the least total, on equal totals the one that reported first".
    fn choose(&mut self, config: Config, output: &mut [u8]) -> Answer {
        // Of equals, the first one is given.
        let nearest = self.reports().min_by_key(|report| report.total).copied();
        let indication = nearest.map_or(Indication::NoLink, |nearest| config.judge(nearest.total));
        let (Some(Report { station, .. }), Indication::Found | Indication::PotentiallyFound) =
            (nearest, indication)
        else {
            self.state = State::Idle;
            return Ok(indication.alone());
        };
        let Accepted { written, .. } =
            sent(Body::match_req(self.run).send(config.car, station), output)?;
        self.state = State::Requesting { left: REQUESTING, retries: RETRIES, station };
        Ok(Accepted { written, indication: Some(indication) })
    }
}

impl Config {
    /// "Its address, unicast, and a reference, a whole number from 0 to 255."
    fn is_good(&self) -> bool {
        self.car.is_unicast() && self.reference <= HIGHEST_REFERENCE
    }

    /// The least totals that are no longer found, and no longer potentially found.
    pub fn limits(&self) -> [u32; 2] {
        [10, 20].map(|decibels| 58 * (decibels + self.reference))
    }

    /// Found, potentially found or not found, without dividing.
    fn judge(&self, total: u32) -> Indication {
        let [found, potentially] = self.limits();
        match total {
            _ if total < found => Indication::Found,
            _ if total < potentially => Indication::PotentiallyFound,
            _ => Indication::NotFound,
        }
    }
}

impl State {
    /// "PARM.CNF is taken in Asking, Confirmed and Sounding, ATTEN_CHAR.IND in Sounding and
    /// Requesting, MATCH.CNF in Requesting"; VALIDATE.CNF and amplitude maps in none.
    fn takes(&self, kind: Kind) -> bool {
        match self {
            State::Asking { .. } | State::Confirmed { .. } => kind == Kind::ParmCnf,
            State::Sounding { .. } => matches!(kind, Kind::ParmCnf | Kind::AttenChar),
            State::Requesting { .. } => matches!(kind, Kind::AttenChar | Kind::MatchCnf),
            State::Idle | State::Joining { .. } | State::Matched { .. } => false,
        }
    }

    /// "In Requesting another station than the chosen one."
    fn is_settled_on_other_than(&self, source: Address) -> bool {
        matches!(self, State::Requesting { station, .. } if *station != source)
    }
}

impl Indication {
    /// An accepted call with this indication and no frame.
    fn alone(self) -> Accepted {
        Accepted { written: 0, indication: Some(self) }
    }
}

/// The frame of the 13 that follows so many: "three START, then ten SOUND with counts 9 down to 0".
fn sounding_frame(sent: u8, run: RunId, random: [u8; 16]) -> Body {
    match sent {
        0..=2 => Body::start(run),
        _ => Body::sound(run, FRAMES - 1 - sent, random),
    }
}

/// The run of a message to a car, where it has one; 19 for one that only a station receives.
fn run_for_a_car(body: &Body) -> Result<Option<RunId>, Refusal> {
    match body {
        Body::ParmCnf { run, .. } | Body::AttenChar { run, .. } | Body::MatchCnf { run, .. } => {
            Ok(Some(*run))
        }
        Body::ValidateCnf { .. } | Body::AmpMapReq { .. } | Body::AmpMapCnf { .. } => Ok(None),
        Body::ParmReq { .. }
        | Body::StartAttenChar { .. }
        | Body::MnbcSound { .. }
        | Body::AttenCharRsp { .. }
        | Body::ValidateReq { .. }
        | Body::MatchReq { .. }
        | Body::AttenProfile { .. } => Err(Refusal::OnlyForStations),
    }
}

/// "Its total, the sum of its 58 values."
pub fn total(groups: &Groups) -> u32 {
    groups.iter().map(|value| u32::from(*value)).sum()
}

/// "Start, frame and tick ask for an output of at least 85 octets."
fn check_room(output: &[u8]) -> Checked {
    (output.len() >= LEAST_OUTPUT).then_some(()).ok_or(Refusal::Output)
}

/// An accepted call with this frame, written from the output's first octet, and no indication.
fn sent(message: Message, output: &mut [u8]) -> Answer {
    Ok(Accepted { written: message.write(Edition::Iso, output)?, indication: None })
}
