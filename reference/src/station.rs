//! The station: state, records, the five calls and the service query ("The station").

use crate::messages::{Address, Body, Edition, Groups, Id, Kind, Message, Nid, Nmk, RunId, Try};
use crate::messages::{FAILURE, MAP_SUCCESS, MOST_CARRIERS, MOST_GROUPS};
use crate::messages::{NOT_REQUIRED, NO_ID, READY, SUCCESS};
use crate::refusal::Refusal;

const ADMISSION: u32 = 50_000;
const ASKED: u32 = 400;
const REPORTED: u32 = 200;
const AWAITING: u32 = 10_000;
const VALIDATING_READY: u32 = 400;
/// A window is so long times one more than the timer of the second request.
const WINDOW: u32 = 100;
const VALIDATING_SUCCESS: u32 = 10_000;
const JOINING: u32 = 12_000;
const RETRIES: u8 = 2;
const LONGEST_GAP: u32 = 60_000;
/// How many records stand side by side.
pub const RECORDS: usize = 16;
/// A report of 129 octets for each record.
pub const LEAST_OUTPUT: usize = 129 * RECORDS;

#[derive(Clone, Copy, Debug, PartialEq, Eq)]
pub struct Config {
    pub station: Address,
    pub modem: Address,
    pub nid: Nid,
    pub nmk: Nmk,
    /// Whether validation is not required.
    pub exempt: bool,
    pub edition: Edition,
    /// How many carriers we have.
    pub carriers: u32,
}

/// The control pilot's states.
#[derive(Clone, Copy, Debug, PartialEq, Eq)]
pub enum Pilot {
    A,
    B,
    C,
    D,
    E,
    F,
}

impl Pilot {
    pub const ALL: [Pilot; 6] = [Pilot::A, Pilot::B, Pilot::C, Pilot::D, Pilot::E, Pilot::F];

    /// B, C or D: a car is plugged in.
    pub fn is_plugged(self) -> bool {
        matches!(self, Pilot::B | Pilot::C | Pilot::D)
    }
}

/// Matching carries admission's remaining time (closed at 0), Joining its own; Joining and Matched
/// have the car.
#[derive(Clone, Copy, Debug, PartialEq, Eq)]
pub enum State {
    Unmatched,
    Matching { admission: u32 },
    Joining { left: u32, car: Address, run: RunId },
    Matched { car: Address },
}

#[derive(Clone, Copy, Debug, PartialEq, Eq)]
pub enum Phase {
    Asked,
    Sounding,
    Reported { retries: u8 },
    Awaiting,
    Validating(Step),
}

/// The steps of a validation.
#[derive(Clone, Copy, Debug, PartialEq, Eq)]
pub enum Step {
    Ready,
    /// The toggles counted in the window, and whether one is begun.
    Counting {
        toggles: u8,
        begun: bool,
    },
    Success,
}

/// One car's run.
#[derive(Clone, Debug, PartialEq, Eq)]
pub struct Record {
    pub car: Address,
    pub run: RunId,
    /// Whether the try is a later one; never in the ISO edition.
    pub later: bool,
    /// The group count that the first profile fixed; none in the ISO edition.
    pub groups: Option<u8>,
    /// The M-SOUND counts heard, one bit each.
    pub heard: u16,
    pub profiles: u16,
    pub sums: [u16; 58],
    /// The least and the greatest value of each group; 255 and 0 before the first profile.
    pub least: Groups,
    pub greatest: Groups,
    pub phase: Phase,
    /// The phase's remaining time.
    pub left: u32,
}

#[derive(Clone, Copy, Debug, PartialEq, Eq)]
pub enum Indication {
    NoLink = 1,
    LinkEstablished,
}

impl From<Indication> for u32 {
    fn from(indication: Indication) -> u32 {
        indication as u32
    }
}

/// An accepted call: how many octets of the output its frames take, and its indication.
#[derive(Clone, Copy, Debug, Default, PartialEq, Eq)]
pub struct Accepted {
    pub written: usize,
    pub indication: Option<Indication>,
}

/// What the service query gives: how many sounds of the car's run were heard, and the spread of
/// the values in each group.
#[derive(Clone, Copy, Debug, PartialEq, Eq)]
pub struct Service {
    pub heard: u32,
    pub least: Groups,
    pub greatest: Groups,
}

pub type Answer = Result<Accepted, Refusal>;
type Checked = Result<(), Refusal>;

#[derive(Clone, Debug, PartialEq, Eq)]
pub struct Station {
    /// None after a bad configuration.
    config: Option<Config>,
    pub state: State,
    pub pilot: Pilot,
    /// The last clock reading taken.
    pub reading: u32,
    records: [Option<Record>; RECORDS],
}

impl Station {
    /// A bad configuration "gives 16 and an Unmatched station that answers 16 to everything".
    pub fn configure(config: Config) -> (Station, Checked) {
        let station = Station {
            config: config.is_good().then_some(config),
            state: State::Unmatched,
            pilot: Pilot::A,
            reading: 0,
            records: [const { None }; RECORDS],
        };
        let answer = station.config().map(|_| ());
        (station, answer)
    }

    /// The records held.
    pub fn records(&self) -> impl Iterator<Item = &Record> {
        self.records.iter().flatten()
    }

    pub fn record(&self, car: Address) -> Option<&Record> {
        self.records().find(|record| record.car == car)
    }

    /// The edition; ISO after a bad configuration.
    pub fn edition(&self) -> Edition {
        self.config.map_or(Edition::Iso, |config| config.edition)
    }

    /// Whether every record is held.
    pub fn is_full(&self) -> bool {
        self.records.iter().all(Option::is_some)
    }

    fn config(&self) -> Result<Config, Refusal> {
        self.config.ok_or(Refusal::Configuration)
    }

    /// The pilot event.
    pub fn change_pilot(&mut self, to: Pilot, reading: u32) -> Answer {
        self.config()?;
        let from = std::mem::replace(&mut self.pilot, to);
        let mut indication = None;
        if !to.is_plugged() {
            indication = self.unmatch();
            self.reading = reading;
        } else if !from.is_plugged() {
            self.state = State::Matching { admission: ADMISSION };
            self.free_all();
            self.reading = reading;
        } else {
            self.records.iter_mut().flatten().for_each(|record| record.toggle(from, to));
        }
        Ok(Accepted { written: 0, indication })
    }

    /// Terminate: Unmatched in every state, reading and pilot state kept.
    pub fn terminate(&mut self) -> Answer {
        self.config()?;
        Ok(Accepted { written: 0, indication: self.unmatch() })
    }

    /// Link up: in Joining, Matched and "link established"; else 8.
    pub fn link_up(&mut self) -> Answer {
        self.config()?;
        let State::Joining { car, .. } = self.state else { return Err(Refusal::State) };
        self.state = State::Matched { car };
        Ok(Accepted { written: 0, indication: Some(Indication::LinkEstablished) })
    }

    /// The service query: "16, then 11 where the car holds no record or its record counts no
    /// profile".
    pub fn service(&self, car: Address) -> Result<Service, Refusal> {
        self.config()?;
        let counted = self.record(car).filter(|record| record.profiles > 0);
        let Record { heard, least, greatest, .. } = counted.ok_or(Refusal::NoRecord)?;
        Ok(Service { heard: heard.count_ones(), least: *least, greatest: *greatest })
    }

    /// The inspection: the state's number, and the car in Joining and Matched.
    pub fn inspect(&self) -> Result<(u32, Option<Address>), Refusal> {
        self.config()?;
        Ok(match self.state {
            State::Unmatched => (0, None),
            State::Matching { .. } => (1, None),
            State::Joining { car, .. } => (2, Some(car)),
            State::Matched { car } => (3, Some(car)),
        })
    }

    /// A received frame: "16, 15, reading, 17, 7, 8, 21, then 9 and 10, or 11, 12, then 13, 22 or
    /// 23".
    pub fn receive(&mut self, frame: &[u8], output: &mut [u8]) -> Answer {
        let config = self.config()?;
        let mut output = Output::lent(output, config.edition)?;
        let message = Message::read(frame, config.edition)?;
        let car = message.car().ok_or(Refusal::CarOnly)?;
        config.concerns(&message, car)?;
        match (self.state, message.body) {
            (State::Matched { car: matched }, Body::AmpMapReq { carriers }) => {
                if car != matched {
                    return Err(Refusal::NoRecord);
                }
                if u32::from(carriers) != config.carriers {
                    return Err(Refusal::Carriers);
                }
                output.send(Body::AmpMapCnf { result: MAP_SUCCESS }, config.station, car)?;
            }
            (State::Matching { .. }, _) => self.matching(car, &message, config, &mut output)?,
            (
                State::Joining { car: joining, run: its, .. },
                Body::MatchReq { run, car_id, station_id },
            ) => {
                if (car, run) != (joining, its) {
                    return Err(Refusal::NoRecord);
                }
                output.send(config.match_cnf(run, car_id, station_id), config.station, car)?;
            }
            _ => return Err(Refusal::State),
        }
        Ok(Accepted { written: output.used, indication: None })
    }

    /// A frame in Matching, for each message the rule under "Frames".
    fn matching(
        &mut self,
        car: Address,
        message: &Message,
        config: Config,
        out: &mut Output,
    ) -> Checked {
        match message.body {
            Body::ParmReq { run } if run.is_empty() => return Err(Refusal::EmptyRun),
            Body::ParmReq { run } => {
                let place = self.place(car)?;
                // A request that takes a free record makes a first try, a restart a later one.
                let later = config.edition == Edition::Sae && place.is_some();
                let attempt = config.attempt(later);
                out.send(Body::ParmCnf { run, attempt }, config.station, car)?;
                *place = Some(Record::asked(car, run, later));
            }
            Body::StartAttenChar { run, attempt } => {
                let record = self.run(car, run)?;
                let (Phase::Asked | Phase::Sounding) = record.phase else {
                    return Err(Refusal::Phase);
                };
                if attempt != config.attempt(record.later) {
                    return Err(Refusal::OtherTry);
                }
                if record.phase == Phase::Asked {
                    record.enter(Phase::Sounding, attempt.time());
                }
            }
            Body::MnbcSound { run, count, .. } => {
                let record = self.run(car, run)?.sounding()?;
                let sounds = config.attempt(record.later).sounds();
                if count >= sounds || record.heard & (1 << count) != 0 {
                    return Err(Refusal::SoundCount);
                }
                record.heard |= 1 << count;
            }
            Body::AttenProfile { count, groups, .. } => {
                let record = self.held(car)?.sounding()?;
                if config.edition == Edition::Sae && *record.groups.get_or_insert(count) != count {
                    return Err(Refusal::GroupCount);
                }
                record.add(&groups);
                if record.profiles == u16::from(config.attempt(record.later).sounds()) {
                    out.send(record.report(), config.station, car)?;
                    record.enter(Phase::Reported { retries: RETRIES }, REPORTED);
                }
            }
            Body::AttenCharRsp { run, .. } => {
                let record = self.run(car, run)?;
                let Phase::Reported { .. } = record.phase else { return Err(Refusal::Phase) };
                record.enter(Phase::Awaiting, AWAITING);
            }
            Body::MatchReq { run, car_id, station_id } => {
                let (Phase::Awaiting | Phase::Validating(Step::Success)) =
                    self.run(car, run)?.phase
                else {
                    return Err(Refusal::Phase);
                };
                out.send(config.match_cnf(run, car_id, station_id), config.station, car)?;
                self.state = State::Joining { left: JOINING, car, run };
                self.free_all();
            }
            // "The destination alone tells the two requests apart."
            Body::ValidateReq { timer } => match message.destination {
                Address::BROADCAST => self.second_validate_req(car, timer)?,
                _ => self.first_validate_req(car, config, out)?,
            },
            Body::ParmCnf { .. }
            | Body::AttenChar { .. }
            | Body::ValidateCnf { .. }
            | Body::MatchCnf { .. }
            | Body::AmpMapCnf { .. } => return Err(Refusal::CarOnly),
            Body::AmpMapReq { .. } => return Err(Refusal::State),
        }
        Ok(())
    }

    /// The first REQ of a validation: "in Awaiting, else 12; in Awaiting it is answered each time".
    fn first_validate_req(&mut self, car: Address, config: Config, out: &mut Output) -> Checked {
        let is_busy = self.records().any(Record::is_validating);
        let record = self.held(car)?;
        let Phase::Awaiting = record.phase else { return Err(Refusal::Phase) };
        let result = match (config.exempt, is_busy) {
            (true, _) => NOT_REQUIRED,
            (false, true) => FAILURE,
            (false, false) => READY,
        };
        out.send(Body::ValidateCnf { toggles: 0, result }, config.station, car)?;
        if result == READY {
            record.enter(Phase::Validating(Step::Ready), VALIDATING_READY);
        }
        Ok(())
    }

    /// The second REQ: "in ready, else 12: counting, 100 * (timer + 1), no toggles, none begun".
    fn second_validate_req(&mut self, car: Address, timer: u8) -> Checked {
        let record = self.held(car)?;
        let Phase::Validating(Step::Ready) = record.phase else { return Err(Refusal::Phase) };
        let counting = Step::Counting { toggles: 0, begun: false };
        record.enter(Phase::Validating(counting), WINDOW * (u32::from(timer) + 1));
        Ok(())
    }

    /// A clock tick: "16, 15, 14"; reports of one tick stand back to back, in record order, and
    /// the confirmations of validations behind them, in record order too.
    pub fn tick(&mut self, reading: u32, output: &mut [u8]) -> Answer {
        let config = self.config()?;
        let mut output = Output::lent(output, config.edition)?;
        let elapsed = reading.wrapping_sub(self.reading);
        if elapsed > LONGEST_GAP {
            return Err(Refusal::TickGap);
        }
        self.reading = reading;
        let mut indication = None;
        match &mut self.state {
            State::Unmatched | State::Matched { .. } => {}
            State::Matching { admission } => {
                let mut confirmations = [None; RECORDS];
                for (place, confirmation) in self.records.iter_mut().zip(&mut confirmations) {
                    *confirmation = run_down(place, elapsed, self.pilot, config, &mut output)?;
                }
                for (car, toggles, result) in confirmations.into_iter().flatten() {
                    output.send(Body::ValidateCnf { toggles, result }, config.station, car)?;
                }
                *admission = admission.saturating_sub(elapsed);
                if *admission == 0 && self.records().next().is_none() {
                    indication = self.unmatch();
                }
            }
            State::Joining { left, .. } if *left > elapsed => *left -= elapsed,
            State::Joining { .. } => indication = self.unmatch(),
        }
        Ok(Accepted { written: output.used, indication })
    }

    /// Unmatched with the records free; "no link" if it was Matching or Joining.
    fn unmatch(&mut self) -> Option<Indication> {
        self.free_all();
        match std::mem::replace(&mut self.state, State::Unmatched) {
            State::Matching { .. } | State::Joining { .. } => Some(Indication::NoLink),
            State::Unmatched | State::Matched { .. } => None,
        }
    }

    fn free_all(&mut self) {
        self.records.iter_mut().for_each(|place| *place = None);
    }

    /// The car's record; else 11.
    fn held(&mut self, car: Address) -> Result<&mut Record, Refusal> {
        let mut held = self.records.iter_mut().flatten();
        held.find(|record| record.car == car).ok_or(Refusal::NoRecord)
    }

    /// The car's record, if it is of this run; else 11.
    fn run(&mut self, car: Address, run: RunId) -> Result<&mut Record, Refusal> {
        let record = self.held(car)?;
        if record.run == run {
            Ok(record)
        } else {
            Err(Refusal::NoRecord)
        }
    }

    /// Where a PARM.REQ goes: the car's own record; "else 9, 10, or the first free record".
    fn place(&mut self, car: Address) -> Result<&mut Option<Record>, Refusal> {
        let own = |place: &Option<Record>| place.as_ref().is_some_and(|record| record.car == car);
        let own = self.records.iter().position(own);
        if own.is_none() && self.state == (State::Matching { admission: 0 }) {
            return Err(Refusal::AdmissionClosed);
        }
        let index = own.or_else(|| self.records.iter().position(Option::is_none));
        index.and_then(|index| self.records.get_mut(index)).ok_or(Refusal::FullHouse)
    }
}

impl Config {
    /// "Our address and the modem's unicast and different, NID below 2^54", and our carriers from 1
    /// to 1,155.
    fn is_good(&self) -> bool {
        let unicast = self.station.is_unicast() && self.modem.is_unicast();
        let carriers = (1..=MOST_CARRIERS.into()).contains(&self.carriers);
        unicast && self.station != self.modem && self.nid.is_valid() && carriers
    }

    /// Refusal 7: "unicast not to us; PROFILE's source not our modem; car is us or our modem".
    fn concerns(&self, message: &Message, car: Address) -> Checked {
        let to_us = [Address::BROADCAST, self.station].contains(&message.destination);
        let measured = message.body.kind() != Kind::AttenProfile || message.source == self.modem;
        let ours = to_us && measured && car != self.station && car != self.modem;
        ours.then_some(()).ok_or(Refusal::NotOurs)
    }

    /// The confirmation has the two IDs of the request that it answers.
    fn match_cnf(&self, run: RunId, car_id: Id, station_id: Id) -> Body {
        Body::MatchCnf { run, nid: self.nid, nmk: self.nmk, car_id, station_id }
    }

    /// The try of a record.
    pub fn attempt(&self, later: bool) -> Try {
        match (self.edition, later) {
            (Edition::Iso, _) => Try::Iso,
            (Edition::Sae, false) => Try::First,
            (Edition::Sae, true) => Try::Later,
        }
    }
}

impl Record {
    fn asked(car: Address, run: RunId, later: bool) -> Record {
        Record {
            car,
            run,
            later,
            groups: None,
            heard: 0,
            profiles: 0,
            sums: [0; 58],
            least: [255; 58],
            greatest: [0; 58],
            phase: Phase::Asked,
            left: ASKED,
        }
    }

    fn enter(&mut self, phase: Phase, left: u32) {
        self.phase = phase;
        self.left = left;
    }

    /// The record in Sounding; else 12.
    fn sounding(&mut self) -> Result<&mut Record, Refusal> {
        if self.phase == Phase::Sounding {
            Ok(self)
        } else {
            Err(Refusal::Phase)
        }
    }

    /// Whether the record is ready or counting.
    pub fn is_validating(&self) -> bool {
        matches!(self.phase, Phase::Validating(Step::Ready | Step::Counting { .. }))
    }

    /// A pilot change among B, C and D, in a record that counts: "B to C begins a toggle; C to B
    /// ends one that is begun, and the count goes up by one, at most to 255; the same state again
    /// changes nothing; any other change leaves none begun".
    fn toggle(&mut self, from: Pilot, to: Pilot) {
        let Phase::Validating(Step::Counting { toggles, begun }) = &mut self.phase else { return };
        if from == to {
            return;
        }
        if *begun && (from, to) == (Pilot::C, Pilot::B) {
            *toggles = toggles.saturating_add(1);
        }
        *begun = (from, to) == (Pilot::B, Pilot::C);
    }

    /// "Values added, one more counted"; each value lowers the least and raises the greatest of
    /// its group where it is lower or higher.
    fn add(&mut self, groups: &Groups) {
        for (group, value) in groups.iter().enumerate() {
            self.sums[group] += u16::from(*value);
            self.least[group] = self.least[group].min(*value);
            self.greatest[group] = self.greatest[group].max(*value);
        }
        self.profiles += 1;
    }

    /// The ATTEN_CHAR.IND: "profiles counted, and for each group the sum divided by that count,
    /// rounded to the nearest whole number, a half upwards"; with the record's group count.
    fn report(&self) -> Body {
        let octet = |value: u16| u8::try_from(value).unwrap_or(u8::MAX);
        Body::AttenChar {
            run: self.run,
            sounds: octet(self.profiles),
            count: self.groups.unwrap_or(MOST_GROUPS),
            groups: self.sums.map(|sum| octet(mean(sum, self.profiles))),
            source_id: NO_ID,
            resp_id: NO_ID,
        }
    }
}

/// The mean of so many values, at least one, rounded to the nearest, a half upwards.
pub fn mean(sum: u16, count: u16) -> u16 {
    let count = count.max(1);
    (2 * sum + count) / (2 * count)
}

/// A confirmation that a tick sends: to whom, with which toggles and result.
type Confirmation = (Address, u8, u8);

/// A tick for one record: "a time fires when remaining is at most elapsed; the excess is dropped,
/// one firing per record per tick. Otherwise the elapsed is taken off." A report is sent at once,
/// a confirmation is given back.
fn run_down(
    place: &mut Option<Record>,
    elapsed: u32,
    pilot: Pilot,
    config: Config,
    output: &mut Output,
) -> Result<Option<Confirmation>, Refusal> {
    let Some(record) = place else { return Ok(None) };
    if record.left > elapsed {
        record.left -= elapsed;
        return Ok(None);
    }
    let car = record.car;
    let confirm = |toggles, result| Some((car, toggles, result));
    let retries = match record.phase {
        Phase::Sounding if record.profiles > 0 => RETRIES,
        Phase::Reported { retries } if retries > 0 => retries - 1,
        Phase::Validating(Step::Counting { toggles, .. }) if pilot == Pilot::B => {
            record.enter(Phase::Validating(Step::Success), VALIDATING_SUCCESS);
            return Ok(confirm(toggles, SUCCESS));
        }
        Phase::Validating(Step::Counting { .. }) => {
            *place = None;
            return Ok(confirm(0, FAILURE));
        }
        Phase::Asked
        | Phase::Sounding
        | Phase::Reported { .. }
        | Phase::Awaiting
        | Phase::Validating(Step::Ready | Step::Success) => {
            *place = None;
            return Ok(None);
        }
    };
    output.send(record.report(), config.station, car)?;
    record.enter(Phase::Reported { retries }, REPORTED);
    Ok(None)
}

/// The lent output: frames stand back to back from its first octet.
struct Output<'a> {
    octets: &'a mut [u8],
    used: usize,
    edition: Edition,
}

impl<'a> Output<'a> {
    /// Frame and tick calls ask for an output with room for the longest report to each record.
    fn lent(octets: &'a mut [u8], edition: Edition) -> Result<Self, Refusal> {
        let enough = octets.len() >= LEAST_OUTPUT;
        enough.then_some(Output { octets, used: 0, edition }).ok_or(Refusal::Output)
    }

    fn send(&mut self, body: Body, station: Address, car: Address) -> Checked {
        let rest = self.octets.get_mut(self.used..).ok_or(Refusal::Output)?;
        self.used += body.send(station, car).write(self.edition, rest)?;
        Ok(())
    }
}
