//! Cars and stations on one line, in simulated milliseconds: every frame reaches everybody but its
//! sender, unless it is lost on the way.

use super::arguments::Options;
use super::attenuation::Attenuation;
use super::bay::{Bay, Heard, Start, Story};
use super::profile::{bay_of, profile, Side};
use super::random::Random;
use crate::frames;
use crate::messages::{ATTEN_CHAR_IND, PARM_REQ, SOUND_IND};
use lahzavar::{Answer, CarState, Indication, Refusal, State};
use lahzavar::{CAR_LEAST_OUTPUT, LEAST_OUTPUT};
use std::collections::{BTreeMap, VecDeque};

const STATION_TICK: u32 = 10;
const CAR_TICK: u32 = 5;
/// How long a frame is under way.
const DELAY: u32 = 2;
/// A bay is plugged in within so long for each bay of the park, and its car starts so much later.
const PLUGGING: u32 = 700;
const START: (u32, u32) = (300, 2500);
/// From a failed matching to the next start, and to a station's next matching.
const PAUSE: (u32, u32) = (400, 20_000);
const STATION_PAUSE: u32 = 1000;
/// From the key to the link.
const LINK: (u32, u32) = (100, 3000);
/// A car that has not joined by then does not join.
pub const LIMIT: u32 = 180_000;

/// What came of a run.
pub struct Outcome {
    pub options: Options,
    pub attenuation: Attenuation,
    pub stories: Vec<Story>,
    /// What each station has measured of each car: by car, then by station.
    pub heard: Vec<Vec<Option<Heard>>>,
    /// The car that each station has a link with.
    pub joined_by: Vec<Option<usize>>,
    pub time: u32,
    pub frames: u64,
    pub lost: u64,
    /// How often each refusal came, at stations and at cars.
    pub refusals: BTreeMap<u32, u64>,
}

struct Line {
    options: Options,
    attenuation: Attenuation,
    random: Random,
    bays: Vec<Bay>,
    heard: Vec<Vec<Option<Heard>>>,
    now: u32,
    under_way: VecDeque<(u32, Vec<u8>)>,
    frames: u64,
    lost: u64,
    refusals: BTreeMap<u32, u64>,
}

/// An answer without what it borrows.
struct Came {
    frames: Vec<Vec<u8>>,
    indication: Option<Indication>,
    refusal: Option<Refusal>,
}

fn came(answer: Answer) -> Came {
    match answer {
        Ok(done) => Came {
            frames: done.frames().map(<[u8]>::to_vec).collect(),
            indication: done.indication,
            refusal: None,
        },
        Err(refusal) => Came { frames: Vec::new(), indication: None, refusal: Some(refusal) },
    }
}

fn kind(frame: &[u8]) -> Option<u16> {
    frames::message(frame).map(|message| message.number)
}

impl Line {
    fn draw(options: Options) -> Result<Line, Refusal> {
        let mut random = Random::new(options.seed);
        let attenuation = Attenuation::draw(options.bays, options.near, &mut random);
        let mut bays = Vec::new();
        for number in 0..options.bays {
            let mut bay = Bay::draw(number, &mut random)?;
            let all = PLUGGING * u32::try_from(options.bays).unwrap_or(1);
            let plugged = random.between(0, all);
            bay.plug_in_at = Some(plugged);
            bay.start_at = Some(plugged + random.between(START.0, START.1));
            bay.story.plugged = plugged;
            bays.push(bay);
        }
        let heard = vec![vec![None; options.bays]; options.bays];
        let (under_way, refusals) = (VecDeque::new(), BTreeMap::new());
        let (now, frames, lost) = (0, 0, 0);
        Ok(Line {
            options,
            attenuation,
            random,
            bays,
            heard,
            now,
            under_way,
            frames,
            lost,
            refusals,
        })
    }

    fn send(&mut self, frames: Vec<Vec<u8>>) {
        for frame in frames {
            self.frames += 1;
            self.under_way.push_back((self.now + DELAY, frame));
        }
    }

    fn count(&mut self, refusal: Option<Refusal>) {
        if let Some(refusal) = refusal {
            *self.refusals.entry(refusal.number()).or_default() += 1;
        }
    }

    /// What comes of a station's answer: reports are kept with what the query tells, and a matching
    /// without a link begins anew.
    fn obey_station(&mut self, at: usize, came: Came) -> Option<Refusal> {
        for frame in came.frames.iter().filter(|frame| kind(frame) == Some(ATTEN_CHAR_IND)) {
            self.keep_report(at, frame);
        }
        self.send(came.frames);
        if came.indication == Some(Indication::NoLink) {
            self.bays[at].plug_in_at = Some(self.now + STATION_PAUSE);
        }
        self.count(came.refusal);
        came.refusal
    }

    fn keep_report(&mut self, station: usize, report: &[u8]) {
        let Some(car) = bay_of(frames::destination(report), Side::Car) else { return };
        let spread = frames::destination(report).map(|car| self.bays[station].station.query(car));
        let mean = frames::groups(report).first_chunk().copied();
        if let (Some(Ok(spread)), Some(mean)) = (spread, mean) {
            let (least, greatest) = (spread.least, spread.greatest);
            self.heard[car][station] = Some(Heard { sounds: spread.sounds, mean, least, greatest });
        }
    }

    /// What comes of a car's answer: a matching without a link begins anew after a pause.
    fn obey_car(&mut self, at: usize, came: Came) {
        let now = self.now;
        let chosen =
            came.frames.first().and_then(|frame| bay_of(frames::destination(frame), Side::Station));
        if let Some(start) = self.bays[at].last_start() {
            match came.indication {
                Some(found @ (Indication::Found | Indication::PotentiallyFound)) => {
                    start.choice = chosen.map(|chosen| (chosen, found));
                }
                Some(_) if start.end.is_none() => {
                    start.end = Some(now);
                    start.ended = came.indication;
                }
                _ => {}
            }
        }
        match came.indication {
            Some(Indication::NoLink | Indication::NotFound) => {
                let story = &mut self.bays[at].story;
                (story.joined, story.key_at) = (None, None);
                self.bays[at].start_at = Some(now + self.random.between(PAUSE.0, PAUSE.1));
            }
            Some(Indication::KeyGiven) => self.take_key(at),
            _ => {}
        }
        self.send(came.frames);
        self.count(came.refusal);
    }

    fn take_key(&mut self, at: usize) {
        let station = self.bays[at].car.key().ok().map(|key| key.station);
        let link_at = self.now + self.random.between(LINK.0, LINK.1);
        let bay = &mut self.bays[at];
        bay.story.joined = bay_of(station, Side::Station);
        bay.story.key_at = Some(self.now);
        bay.link_at = Some(link_at);
    }

    fn give_station(&mut self, at: usize, frame: &[u8]) {
        let mut out = [0; LEAST_OUTPUT];
        let came = came(self.bays[at].station.frame(frame, &mut out));
        let refusal = self.obey_station(at, came);
        let from = bay_of(frames::source(frame), Side::Car);
        if kind(frame) == Some(PARM_REQ) && from == Some(at) {
            let joined = self.bays[at].station.inspect().ok().and_then(|told| told.car);
            if let Some(start) = self.bays[at].last_start() {
                start.own_heard = true;
                start.own_refusal = refusal;
                start.own_joined = bay_of(joined, Side::Car);
            }
        }
    }

    fn give_car(&mut self, at: usize, frame: &[u8]) {
        let mut out = [0; CAR_LEAST_OUTPUT];
        let came = came(self.bays[at].car.frame(frame, &mut out));
        let station = bay_of(frames::source(frame), Side::Station);
        if kind(frame) == Some(ATTEN_CHAR_IND) && came.refusal.is_none() {
            if let (Some(start), Some(station)) = (self.bays[at].last_start(), station) {
                if !start.reports.contains(&station) {
                    start.reports.push(station);
                }
            }
        }
        self.obey_car(at, came);
    }

    fn is_lost(&mut self) -> bool {
        let lost = self.random.per_cent(self.options.loss);
        self.lost += u64::from(lost);
        lost
    }

    /// A frame reaches everybody but its sender, beginning at any bay; a modem measures the sounds
    /// that reach it.
    fn deliver(&mut self, frame: &[u8]) {
        let from = frames::source(frame);
        let (car, station) = (bay_of(from, Side::Car), bay_of(from, Side::Station));
        let bays = self.bays.len();
        let first = self.random.between(0, u32::try_from(bays - 1).unwrap_or(0)) as usize;
        for turn in 0..bays {
            let at = (first + turn) % bays;
            if station != Some(at) && !self.is_lost() {
                self.give_station(at, frame);
                if let (Some(SOUND_IND), Some(car)) = (kind(frame), car) {
                    let values = self.attenuation.measured(car, at, &mut self.random);
                    self.give_station(at, &profile(at, car, &values));
                }
            }
            if car != Some(at) && !self.is_lost() {
                self.give_car(at, frame);
            }
        }
    }

    fn start(&mut self, at: usize) {
        let (run, random) = (self.random.octets(), self.random.octets());
        let now = self.now;
        let bay = &mut self.bays[at];
        bay.start_at = None;
        bay.story.starts.push(Start {
            at: now,
            end: None,
            ended: None,
            choice: None,
            reports: Vec::new(),
            own_heard: false,
            own_refusal: None,
            own_joined: None,
        });
        let mut out = [0; CAR_LEAST_OUTPUT];
        let came = came(bay.car.start(run, random, bay.car_clock.wrapping_add(now), &mut out));
        self.obey_car(at, came);
    }

    /// The modems of a car and of the station that it joins have a link.
    fn link_up(&mut self, at: usize) {
        let Some(joined) = self.bays[at].story.joined else { return };
        self.bays[at].link_at = None;
        let station = came(self.bays[joined].station.link_up());
        let car = came(self.bays[at].car.link_up());
        let both = [&station, &car].map(|end| end.indication);
        if both == [Some(Indication::LinkEstablished); 2] {
            self.bays[at].story.link_at = Some(self.now);
        }
    }

    fn do_what_is_due(&mut self) -> Result<(), Refusal> {
        for at in 0..self.bays.len() {
            let now = Some(self.now);
            if self.bays[at].plug_in_at == now {
                self.bays[at].plug_in(self.now, &mut self.random)?;
            }
            if self.bays[at].start_at == now {
                self.start(at);
            }
            if self.bays[at].link_at == now {
                self.link_up(at);
            }
        }
        Ok(())
    }

    /// Ticks the ends in which times run.
    fn tick(&mut self) {
        for at in 0..self.bays.len() {
            let bay = &mut self.bays[at];
            let station_reading = bay.station_clock.wrapping_add(self.now);
            let car_reading = bay.car_clock.wrapping_add(self.now);
            let timed = matches!(bay.station.state(), State::Matching | State::Joining);
            if timed && station_reading % STATION_TICK == 0 {
                let mut out = [0; LEAST_OUTPUT];
                let came = came(bay.station.tick(station_reading, &mut out));
                self.obey_station(at, came);
            }
            let bay = &mut self.bays[at];
            let idle = matches!(bay.car.state(), CarState::Idle | CarState::Matched);
            if !idle && car_reading % CAR_TICK == 0 {
                let mut out = [0; CAR_LEAST_OUTPUT];
                let came = came(bay.car.tick(car_reading, &mut out));
                self.obey_car(at, came);
            }
        }
    }

    fn deliver_due(&mut self) {
        while self.under_way.front().is_some_and(|(due, _)| *due <= self.now) {
            if let Some((_, frame)) = self.under_way.pop_front() {
                self.deliver(&frame);
            }
        }
    }
}

/// Runs a park until every car has a link, or the limit.
///
/// # Errors
///
/// The library's, which takes every configuration that is made here.
pub fn run(options: Options) -> Result<Outcome, Refusal> {
    let mut line = Line::draw(options)?;
    while line.now < LIMIT && !line.bays.iter().all(|bay| bay.story.is_linked()) {
        line.do_what_is_due()?;
        line.tick();
        line.deliver_due();
        line.now += 1;
    }
    let joined_by = line.bays.iter().map(|bay| {
        let told = bay.station.inspect().ok().filter(|told| told.state == State::Matched);
        bay_of(told.and_then(|told| told.car), Side::Car)
    });
    let joined_by = joined_by.collect();
    let Line { options, attenuation, bays, heard, now, frames, lost, refusals, .. } = line;
    let stories = bays.into_iter().map(|bay| bay.story).collect();
    Ok(Outcome {
        options,
        attenuation,
        stories,
        heard,
        joined_by,
        time: now,
        frames,
        lost,
        refusals,
    })
}

#[cfg(test)]
mod tests {
    use super::{run, Options};

    #[test]
    fn with_nothing_lost_and_far_neighbours_every_car_ends_at_its_own_bay() {
        let outcome = run(Options { bays: 8, loss: 0, near: 20, seed: 3 }).unwrap();
        for (bay, story) in outcome.stories.iter().enumerate() {
            assert_eq!((story.joined, story.is_linked()), (Some(bay), true));
            assert_eq!(outcome.joined_by[bay], Some(bay));
            assert!(outcome.heard[bay][bay].is_some());
        }
        assert_eq!(outcome.lost, 0);
    }

    #[test]
    fn with_everything_lost_no_car_joins() {
        let outcome = run(Options { bays: 2, loss: 100, near: 20, seed: 3 }).unwrap();
        assert!(outcome.stories.iter().all(|story| !story.is_linked() && story.joined.is_none()));
    }
}
