//! Random scripts from a seed, and the demo script.

use crate::amplitude;
use crate::count::Counts;
use crate::messages::{Address, Body, Edition, Groups, Id, Kind, Message, Nid, Nmk, RunId, Try};
use crate::messages::{MOST_CARRIERS, MOST_GROUPS, NO_ID};
use crate::random::{replace, Random};
use crate::script::{write_head, Event, MOST};
use crate::station::{Config, Phase, Pilot, Record, State, Station, Step, LEAST_OUTPUT, RECORDS};
use std::collections::VecDeque;
use std::io::{self, Write};

/// What an episode from plug-in to plug-in is like.
#[derive(Clone)]
struct Mood {
    cars: usize,   // how many of the cars take part
    pace: usize,   // the longest usual tick
    limits: usize, // how many ticks in a hundred go to a limit
    damage: usize, // how many frames in a hundred are damaged
    matches: bool, // whether cars in Awaiting go on to match
    late: bool,    // whether the clock jumps to the end of admission
    doubts: usize, // how many steps in a hundred of a car in Awaiting ask for validation
    many: bool,    // whether a validation has more toggles than are counted
    hasty: bool,   // whether cars come at once and sounding ends after one profile
    focus: usize,  // how many frames in a hundred are of a car that has its report
}

/// Elapsed times at, just below and just above the rules' limits.
const LIMITS: [u32; 32] = [
    0, 1, 99, 100, 101, 199, 200, 201, 399, 400, 401, 599, 600, 601, 999, 1_000, 1_001, 9_999,
    10_000, 11_999, 12_000, 12_001, 25_599, 25_600, 49_999, 50_000, 59_999, 60_000, 60_001, 60_002,
    0x8000_0000, 0xFFFF_FFFF,
];

const READY: Phase = Phase::Validating(Step::Ready);
const SUCCESS: Phase = Phase::Validating(Step::Success);

/// A first validate request.
const FIRST: Body = Body::ValidateReq { timer: 0 };

/// Timers of a second validate request, mostly small ones.
const TIMERS: [u8; 14] = [0, 0, 0, 1, 1, 2, 3, 4, 5, 9, 10, 99, 254, 255];

/// How many cars there are: more than there are records.
const CARS: usize = RECORDS + 4;

/// Makes events, steered by a station of its own.
#[derive(Clone)]
struct Generator {
    random: Random,
    config: Config,
    station: Station,
    cars: [Address; CARS],
    mood: Mood,
    /// The last reading sent, also one that was refused.
    clock: u32,
    /// What comes next, mostly.
    plan: VecDeque<Planned>,
    /// How many cars come at once, in the next larger waves.
    waves: Vec<usize>,
    /// How many profiles the next cars send that send some.
    lengths: Vec<usize>,
    /// How many arrivals in a hundred are larger waves.
    large: usize,
    /// How many episodes in a hundred have a validation with more toggles than are counted; one in
    /// a script is enough.
    many: usize,
}

/// An event that is planned.
#[derive(Clone, Copy)]
enum Planned {
    Frame(Message),
    /// A START of the try that the car's record then has, mostly.
    Start(Address, RunId),
    Tick(u32),
    /// A tick by the remaining time of the car's record and so much more, less one.
    End(Address, u32),
    Pilot(Pilot),
    /// Any pilot change while a car validates.
    Toggle,
    Terminate,
    Query(Address),
}

/// A plan longer than this is a wave of arrivals, which goes on undisturbed.
const WAVE: usize = 12;

/// `cover` tries so many ways on, each of so many events at most.
const TRIES: usize = 160;
const STRETCH: usize = 64;

/// `generate SEED EVENTS`.
pub fn generate(seed: u64, events: u32, script: &mut impl Write) -> io::Result<()> {
    let mut generator = Generator::new(Random::new(seed));
    let config = generator.written_config();
    write_head(script, &config, events)?;
    for _ in 0..events {
        let event = generator.event();
        // The answer is in the station's next state.
        let _ = event.happen(&mut generator.station);
        event.write(script)?;
    }
    Ok(())
}

/// A session for a log: its configuration and so many events, with no query and with the least
/// output that the calls ask for.
pub fn session(seed: u64, events: u32) -> (Config, Vec<Event>) {
    let mut generator = Generator::new(Random::new(seed));
    let (config, mut session) = (generator.written_config(), Vec::new());
    while session.len() < events as usize {
        let mut event = generator.event();
        match &mut event {
            Event::Query { .. } | Event::Reduction { .. } | Event::Inspection => continue,
            Event::Frame { room, .. } | Event::Tick { room, .. } => *room = LEAST_OUTPUT,
            _ => {}
        }
        // The answer is in the station's next state.
        let _ = event.happen(&mut generator.station);
        session.push(event);
    }
    (config, session)
}

/// `cover SEED EVENTS`: as `generate` with a good configuration, but of several ways on it takes
/// the one that reaches most rows of the table.
pub fn cover(seed: u64, events: u32, script: &mut impl Write) -> io::Result<()> {
    let mut generator = Generator { large: 45, many: 30, ..Generator::new(Random::new(seed)) };
    let mut counts = Counts::new(generator.config);
    write_head(script, &generator.config, events)?;
    let mut left = usize::try_from(events).map_err(io::Error::other)?;
    while left > 0 {
        let longest = 1 + generator.random.below(STRETCH);
        let length = (1 + generator.random.below(longest)).min(left);
        let seeds: [u64; TRIES] = std::array::from_fn(|_| generator.random.next());
        let tries = seeds.into_iter().map(|seed| generator.go_on(seed, length, &counts));
        let Some(best) = tries.max_by_key(|(_, counts, _)| counts.reached()) else { break };
        let stretch;
        (generator, counts, stretch) = best;
        stretch.iter().try_for_each(|event| event.write(script))?;
        left -= length;
    }
    Ok(())
}

impl Generator {
    /// One way on: so many events by another seed.
    fn go_on(&self, seed: u64, length: usize, counts: &Counts) -> (Generator, Counts, Vec<Event>) {
        let mut generator = Generator { random: Random::new(seed), ..self.clone() };
        let mut counts = counts.clone();
        let stretch = (0..length).map(|_| {
            let event = generator.event();
            let before = generator.station.clone();
            let outcome = event.happen(&mut generator.station);
            counts.event(&event, &before, &generator.station, &outcome);
            event
        });
        let stretch = stretch.collect();
        (generator, counts, stretch)
    }

    fn new(mut random: Random) -> Generator {
        let mut nid = random.octets::<7>();
        nid[6] &= 0x3F;
        let nid = random.pick(&[nid, nid, [0xFF, 0xFF, 0xFF, 0xFF, 0xFF, 0xFF, 0x3F]], [0; 7]);
        let config = Config {
            station: random.unicast(0xAA),
            modem: random.unicast(0xBB),
            nid: Nid(nid),
            nmk: Nmk(random.octets()),
            exempt: random.chance(20),
            edition: random.pick(&[Edition::Iso, Edition::Sae], Edition::Iso),
            carriers: Generator::carriers(&mut random),
        };
        let cars = std::array::from_fn(|place| random.unicast(1 + place as u8));
        let (station, _) = Station::configure(config);
        let mood = Mood {
            cars: CARS,
            pace: 20,
            limits: 5,
            damage: 5,
            matches: true,
            late: false,
            doubts: 20,
            many: false,
            hasty: false,
            focus: 0,
        };
        let (plan, waves, lengths) = (VecDeque::new(), Vec::new(), Vec::new());
        let (clock, large, many) = (0, 30, 8);
        Generator { random, config, station, cars, mood, clock, plan, waves, lengths, large, many }
    }

    /// A number of carriers, mostly a small one.
    fn carriers(random: &mut Random) -> u32 {
        let any = 1 + random.below(usize::from(MOST_CARRIERS)) as u32;
        let small = 2 + random.below(38) as u32;
        random.pick(&[1, 2, 3, 917, 1_154, 1_155, any, small, small, small, small, small], any)
    }

    /// The configuration that goes into the script: now and then a bad one.
    fn written_config(&mut self) -> Config {
        let mut config = self.config;
        if self.random.chance(6) {
            let any = self.random.next() as u32;
            match self.random.below(10) {
                7 => config.carriers = 0,
                8 => config.carriers = 1_156,
                9 => config.carriers = self.random.pick(&[0x1_0001, any | 0x8000, u32::MAX], 0),
                0 => config.station.0[0] |= 1,
                1 => config.modem.0[0] |= 1,
                2 => config.station = Address([0; 6]),
                3 => config.modem = Address([0; 6]),
                4 => config.modem = config.station,
                5 => config.nid = Nid([0, 0, 0, 0, 0, 0, 0x40]),
                _ => config.nid.0[6] |= 0x80,
            }
        }
        config
    }

    fn event(&mut self) -> Event {
        let share = match self.validating().map(|record| record.phase) {
            Some(Phase::Validating(Step::Counting { toggles, .. })) => match self.station.pilot {
                _ if self.mood.many => {
                    if toggles == 255 {
                        self.many = 0;
                    }
                    self.mood.many = toggles < 255 || self.random.chance(75);
                    100
                }
                Pilot::B => 15,
                _ => 20,
            },
            Some(_) => 6,
            None => 0,
        };
        if self.random.chance(share) {
            return self.toggle();
        }
        if let Some(event) = self.planned() {
            return event;
        }
        let roll = self.random.below(1000);
        match (self.station.state, roll) {
            (State::Matched { .. }, 0..=299)
            | (State::Joining { .. }, 850..=919)
            | (State::Unmatched, 900..=939) => self.map_frame(),
            (State::Matched { .. }, 300..=499) => self.frame(),
            (State::Matched { .. }, 500..=579) => {
                let reading = self.random.next() as u32;
                Event::Pilot { to: self.random.pick(&Pilot::ALL[1..4], Pilot::B), reading }
            }
            (State::Unmatched, 0..=549) | (State::Matched { .. }, 580..=649) => self.pilot(),
            (State::Unmatched | State::Matched { .. }, 550..=699) => self.frame(),
            (State::Unmatched | State::Matched { .. }, 700..=899) => self.tick(),
            (State::Matching { .. }, 0..=739) => self.frame(),
            (State::Matching { .. }, 740..=959) => self.tick(),
            (State::Joining { .. }, 0..=399) => self.frame(),
            (State::Joining { .. }, 400..=699) => self.tick(),
            (State::Joining { .. }, 700..=849) => Event::LinkUp,
            (_, 990..=994) => Event::Terminate,
            (_, 985..=989) => Event::LinkUp,
            (_, 980..=984) => self.pilot(),
            (_, 975..=979) => {
                let reading = self.clock;
                Event::Pilot { to: self.random.pick(&Pilot::ALL[1..4], Pilot::B), reading }
            }
            (_, 965..=969) => self.map_frame(),
            _ => self.question(),
        }
    }

    /// A service query, an inspection or a reduction.
    fn question(&mut self) -> Event {
        match self.random.below(8) {
            0 => Event::Inspection,
            1..=4 => self.reduction(),
            _ => self.query(),
        }
    }

    /// A reduction, mostly of a few values; now and then with something wrong.
    fn reduction(&mut self) -> Event {
        let few = 1 + self.random.below(12);
        let most = usize::from(MOST_CARRIERS);
        let count = match self.random.below(50) {
            0 => most,
            1 => most + 1,
            2 => most + 2 + self.random.below(20),
            3 => 0,
            4..=9 => 1,
            _ => few,
        };
        let mut values: Vec<u8> = (0..count).map(|_| self.random.below(16) as u8).collect();
        let limit = |value: u8| -50 - 2 * i16::from(value);
        let mut levels = Vec::new();
        for value in &values {
            let any = -(self.random.below(129) as i16);
            let near = (limit(*value) + self.random.below(4) as i16 - 1).min(0);
            levels.push(self.random.pick(&[any, any, near, near, 0, -128], any));
        }
        let mut room = count;
        if self.random.chance(25) {
            (values, levels) = (vec![self.random.pick(&[0, 15], 0); count], vec![0; count]);
        }
        let (at, low) = (self.random.below(count), -129 - self.random.below(32_000) as i16);
        let high = 1 + self.random.below(32_000) as i16;
        for _ in 0..self.random.pick(&[0, 0, 1, 1, 2, 2], 0) {
            let level = self.random.pick(&[-129, -129, 1, 1, low, high, i16::MIN, i16::MAX], 1);
            match self.random.below(8) {
                0 => values.iter_mut().skip(at).take(1).for_each(|value| *value = 16),
                1 => {
                    let value = 17 + self.random.below(239) as u8;
                    values.iter_mut().skip(at).take(1).for_each(|other| *other = value);
                }
                2 => drop(levels.pop()),
                3 => levels.push(self.random.pick(&[0, level], 0)),
                4 | 5 => levels.iter_mut().skip(at).take(1).for_each(|other| *other = level),
                6 => room = self.random.pick(&[0, count.saturating_sub(1)], 0),
                _ => room = self.random.pick(&[count + 1, MOST], MOST),
            }
        }
        Event::Reduction { values, levels, room }
    }

    /// An amplitude map of a car, mostly the matched one, mostly of as many carriers as we have; now
    /// and then with something wrong.
    fn map_frame(&mut self) -> Event {
        let Config { station, modem, carriers, .. } = self.config;
        let (any, other) = (self.car(), self.random.unicast(0xCC));
        let own = match self.station.state {
            State::Joining { car, .. } | State::Matched { car } => car,
            _ => any,
        };
        let strange = self.random.pick(&[station, modem], modem);
        let car = self.random.pick(&[own, own, own, own, own, own, any, any, strange], own);
        let small = 1 + self.random.below(12);
        let ours = carriers as usize;
        let count = match self.random.below(24) {
            0 => ours + 1,
            1 => ours.saturating_sub(1).max(1),
            2 => small,
            3 if self.random.chance(30) => usize::from(MOST_CARRIERS),
            4 => 1,
            5 => 2,
            _ => ours,
        };
        let count = count.min(usize::from(MOST_CARRIERS));
        let values: Vec<u8> = (0..count).map(|_| self.random.below(16) as u8).collect();
        let to =
            self.random.pick(&[station, station, station, station, station, other, modem], other);
        let mut octets = vec![0; 599];
        let written = amplitude::write(car, to, &values, &mut octets);
        octets.truncate(written.unwrap_or(0));
        self.spoil_map(&mut octets);
        let room =
            if self.random.chance(4) { self.random.below(LEAST_OUTPUT) } else { LEAST_OUTPUT };
        Event::Frame { octets, room }
    }

    /// Changes the number of carriers, the length, an address, the unused half or the padding of an
    /// amplitude map, or nothing.
    fn spoil_map(&mut self, octets: &mut Vec<u8>) {
        let length = octets.len();
        let any = 1_157 + self.random.below(64_000) as u16;
        let wrong = self.random.pick(&[0, 1_156, 1_156, any, 0xFFFF], 0);
        let group = self.random.pick(&[0, 6], 0);
        let carriers = u16::from_le_bytes([octets[19], octets[20]]);
        let shortest = Kind::AmpMapReq.shortest_with(carriers);
        match self.random.below(32) {
            0 => replace(octets, 19, &wrong.to_le_bytes()),
            1 => {
                replace(octets, 19, &wrong.to_le_bytes());
                octets.truncate(21);
            }
            2 => {
                replace(octets, 19, &wrong.to_le_bytes());
                octets.resize(600, 0);
            }
            3 => {
                replace(octets, 19, &wrong.to_le_bytes());
                octets[group] |= 1;
            }
            4 => octets.truncate(19 + self.random.below(2)),
            5 => octets.truncate(self.random.pick(&[21, shortest - 1], 21)),
            6 => {
                octets.truncate(shortest - 1);
                octets[group] |= 1;
            }
            7 => octets.resize(length + 1 + self.random.below(20), 0),
            8 => octets[group] |= 1,
            9 | 10 if carriers % 2 == 1 => octets[shortest - 1] |= 0x10 << self.random.below(4),
            11 | 12 => {
                let padding = 1 + self.random.below(255) as u8;
                octets.iter_mut().skip(shortest).for_each(|octet| *octet = padding);
            }
            13 => octets.truncate(shortest),
            _ => {}
        }
    }

    /// A service query, mostly of a car that holds a record.
    fn query(&mut self) -> Event {
        let Config { station, modem, .. } = self.config;
        let (any, ours) = (self.car(), self.random.pick(&[station, modem], Address::BROADCAST));
        let held: Vec<Address> = self.cars_in(|_| true).into_iter().map(|(car, _)| car).collect();
        let car = match self.random.below(20) {
            0 => ours,
            1..=4 => any,
            _ => self.random.pick(&held, any),
        };
        Event::Query { car }
    }

    /// A plug-in or a loss, now and then any change.
    fn pilot(&mut self) -> Event {
        let far = (self.random.next() as u32, self.random.below(3000) as u32);
        self.clock = self.random.pick(&[self.clock, far.0, far.1, 0u32.wrapping_sub(far.1)], 0);
        let to = match (self.random.below(8), self.station.pilot.is_plugged()) {
            (0, _) => self.random.pick(&Pilot::ALL, Pilot::A),
            (_, true) => self.random.pick(&[Pilot::A, Pilot::A, Pilot::E, Pilot::F], Pilot::A),
            (_, false) => self.random.pick(&[Pilot::B, Pilot::B, Pilot::C, Pilot::D], Pilot::B),
        };
        if to.is_plugged() {
            let (few, late) = (self.random.chance(25), self.random.chance(30));
            let many = self.random.chance(self.many);
            let doubts = self.random.pick(&[0, 30, 90, 90, 90], 20);
            let most = self.random.pick(&[8, 8, CARS], CARS);
            let cars = 1 + self.random.below(if few || late { 3 } else { most });
            self.plan.clear();
            self.mood = Mood {
                cars,
                pace: self.random.pick(&[3, 10, 40, 150], 10),
                limits: self.random.pick(&[1, 2, 5, 25], 2),
                damage: self.random.pick(&[0, 3, 8, 20], 5),
                matches: self.random.chance(60),
                late,
                doubts: if many { 90 } else { doubts },
                many,
                hasty: many || self.random.chance(90),
                focus: self.random.pick(&[0, 40, 80], 30),
            };
        }
        Event::Pilot { to, reading: self.clock }
    }

    /// The record that is ready or counting.
    fn validating(&self) -> Option<&Record> {
        self.station.records().find(|record| record.is_validating())
    }

    /// Whether the clock is to jump to the end of admission.
    fn is_late(&self) -> bool {
        let open = matches!(self.station.state, State::Matching { admission } if admission > 1000);
        self.mood.late && open
    }

    /// The next planned event, now and then an odd frame or none; a new plan where there is none.
    fn planned(&mut self) -> Option<Event> {
        let State::Matching { .. } = self.station.state else { return None };
        if !self.mood.hasty || self.is_late() {
            return None;
        }
        let is_wave = self.plan.len() > WAVE;
        match self.random.below(100) {
            0..=7 if !is_wave => return None,
            8..=10 => return Some(self.edition_frame()),
            11..=17 => return Some(self.odd_frame()),
            18..=20 => return Some(self.query()),
            21 => return Some(self.question()),
            22 if self.random.chance(30) => return Some(self.map_frame()),
            21..=45 if self.station.is_full() => return Some(self.odd_frame()),
            _ => {}
        }
        if self.plan.is_empty() {
            let is_early = |record: &Record| matches!(record.phase, Phase::Asked | Phase::Sounding);
            let is_early = self.station.records().all(is_early);
            self.plan = match is_early {
                true if self.random.chance(70) => self.arrivals(),
                true => return None,
                false => self.validation().or_else(|| self.end())?,
            };
        }
        Some(match self.plan.pop_front()? {
            Planned::Frame(message) => {
                let octets = message.to_frame(self.config.edition).unwrap_or_default();
                let more = self.random.pick(&[0, 0, 0, 1, MOST - LEAST_OUTPUT], 0);
                Event::Frame { octets, room: LEAST_OUTPUT + more }
            }
            Planned::Start(car, run) => {
                let message = self.start(car, run).broadcast(car);
                let octets = message.to_frame(self.config.edition).unwrap_or_default();
                Event::Frame { octets, room: LEAST_OUTPUT }
            }
            Planned::Tick(elapsed) => self.tick_by(elapsed),
            Planned::End(car, more) => {
                let left = self.station.record(car)?.left;
                self.tick_by((left + more).saturating_sub(1))
            }
            Planned::Pilot(to) => Event::Pilot { to, reading: self.clock },
            Planned::Toggle => self.toggle(),
            Planned::Terminate => Event::Terminate,
            Planned::Query(car) => Event::Query { car },
        })
    }

    /// Some cars from their request to the response, mostly with a profile each.
    fn arrivals(&mut self) -> VecDeque<Planned> {
        let Config { station, .. } = self.config;
        let is_large = !self.mood.many && !self.mood.late && self.random.chance(self.large);
        let most = match is_large {
            true => self.wave(),
            false => self.random.pick(&[1, 2, 3, 3], 1).min(self.mood.cars),
        };
        let is_small = most < 4;
        let responses = self.random.pick(&[100, 70, 40], 90);
        let (mut first, mut last) = (VecDeque::new(), Vec::new());
        let mut is_later = false;
        for car in self.cars.into_iter().take(most) {
            let mut run = self.run();
            let mut later = self.station.record(car).is_some();
            first.extend(self.arrival(car, run, later, is_small));
            if self.random.chance(self.restarts(is_small)) {
                run = self.run();
                later = true;
                let mut again = self.arrival(car, run, later, is_small);
                let place = self.random.pick(&[0, 1, 2], 1);
                again.insert(place, Planned::Query(car));
                first.extend(again);
                first.push_back(Planned::Query(car));
            }
            is_later |= later;
            if self.random.chance(responses) {
                last.push(Planned::Frame(self.response(run).send(car, station)));
            }
        }
        let car = self.cars[self.random.below(most)];
        first.extend(match self.random.below(4) {
            0 => vec![Planned::End(car, 0), Planned::End(car, 1)],
            _ => vec![Planned::Tick(self.config.attempt(is_later).time())],
        });
        if !is_small && self.random.chance(70) {
            // Some respond, the others get their report again, and once more.
            for _ in 0..2 {
                let some = last.len().saturating_sub(1 + self.random.below(2));
                first.extend(last.drain(some..));
                first.push_back(Planned::Tick(200));
            }
        }
        first.extend(last);
        first
    }

    /// How many cars in a hundred restart while they sound.
    fn restarts(&self, is_small: bool) -> usize {
        match (is_small, self.config.edition) {
            (true, Edition::Iso) => 10,
            (true, Edition::Sae) => 35,
            (false, _) => 1,
        }
    }

    /// How many cars come in the next larger wave: each number comes once before one comes again.
    fn wave(&mut self) -> usize {
        if self.waves.is_empty() {
            self.waves = (4..=RECORDS).collect();
        }
        let place = self.random.below(self.waves.len());
        self.waves.swap_remove(place)
    }

    /// A run for a request: mostly any, now and then one with a single octet that isn't zero.
    fn run(&mut self) -> RunId {
        let mut run = self.random.octets();
        if self.random.chance(10) {
            let octet = self.random.below(8);
            run = [0; 8];
            run[octet] = 1 + self.random.below(255) as u8;
        }
        RunId(run)
    }

    /// A run that may be empty.
    fn any_run(&mut self) -> RunId {
        let (empty, any) = (RunId([0; 8]), self.run());
        self.random.pick(&[empty, any, any, any, any, any], any)
    }

    /// A car's request, start, sounds and profiles; a long one may have them all.
    fn arrival(&mut self, car: Address, run: RunId, later: bool, is_long: bool) -> Vec<Planned> {
        let Config { station, modem, .. } = self.config;
        let request = Body::ParmReq { run }.broadcast(car);
        let mut plan = vec![Planned::Frame(request), Planned::Start(car, run)];
        let sounds = self.config.attempt(later).sounds();
        let (all, few) = (is_long && self.random.chance(5), self.random.pick(&[0, 0, 1], 0));
        for count in 0..if all { sounds } else { few } {
            let any = self.random.below(usize::from(sounds) + 2) as u8;
            let sound = self.sound(run, if all { count } else { any });
            plan.push(Planned::Frame(sound.broadcast(car)));
            if self.random.chance(10) {
                plan.push(Planned::Frame(sound.broadcast(car)));
            }
        }
        let profiles = match (is_long, self.random.below(100)) {
            (true, 0..=4) => usize::from(sounds),
            (true, 5..=24) => self.profiles(sounds),
            (true, 25..=44) if later => self.profiles(sounds),
            (true, 45..=49) if later => usize::from(sounds),
            _ => 1 + self.random.below(8) / 6,
        };
        // Many profiles have many groups, in which means are of every kind.
        let few = self.group_count();
        let count = if profiles > 3 { few.max(MOST_GROUPS - few) } else { few };
        for _ in 0..profiles {
            let profile = self.profile_of(car, count).send(modem, station);
            plan.push(Planned::Frame(profile));
        }
        plan.extend((profiles == usize::from(sounds)).then_some(Planned::Query(car)));
        plan
    }

    /// How many profiles a car sends, up to so many: each number comes once before one comes again.
    fn profiles(&mut self, most: u8) -> usize {
        let most = usize::from(most);
        if self.lengths.iter().all(|length| *length > most) {
            self.lengths.extend(2..=most);
        }
        let places: Vec<usize> =
            (0..self.lengths.len()).filter(|place| self.lengths[*place] <= most).collect();
        let place = self.random.pick(&places, 0);
        self.lengths.swap_remove(place)
    }

    /// A START of the try that the car's record has, now and then of the other one.
    fn start(&mut self, car: Address, run: RunId) -> Body {
        let later = self.station.record(car).is_some_and(|record| record.later);
        let is_other = self.plan.len() <= WAVE && self.random.chance(8);
        Body::StartAttenChar { run, attempt: self.config.attempt(later != is_other) }
    }

    fn sound(&mut self, run: RunId, count: u8) -> Body {
        Body::MnbcSound { run, count, random: self.random.octets(), sender_id: self.id() }
    }

    fn response(&mut self, run: RunId) -> Body {
        Body::AttenCharRsp { run, source_id: self.id(), resp_id: self.id() }
    }

    fn match_req(&mut self, run: RunId) -> Body {
        Body::MatchReq { run, car_id: self.id(), station_id: self.id() }
    }

    /// An identifier, in the ISO edition zeros.
    fn id(&mut self) -> Id {
        let any = self.random.octets();
        match self.config.edition {
            Edition::Iso => NO_ID,
            Edition::Sae => self.random.pick(&[NO_ID, any, any], any),
        }
    }

    /// A group count, in the ISO edition 58.
    fn group_count(&mut self) -> u8 {
        let any = 1 + self.random.below(usize::from(MOST_GROUPS)) as u8;
        match self.config.edition {
            Edition::Iso => MOST_GROUPS,
            Edition::Sae => self.random.pick(&[1, 2, 57, MOST_GROUPS, MOST_GROUPS, any, any], any),
        }
    }

    /// The cars in a phase, and their runs.
    fn cars_in(&self, is_in: impl Fn(Phase) -> bool) -> Vec<(Address, RunId)> {
        let records = self.station.records().filter(|record| is_in(record.phase));
        records.map(|record| (record.car, record.run)).collect()
    }

    /// A car in Awaiting goes to one of the three steps, says this and that, and ends.
    fn validation(&mut self) -> Option<VecDeque<Planned>> {
        let station = self.config.station;
        let cars = self.cars_in(|phase| phase == Phase::Awaiting);
        let (car, run) = self.random.pick(&cars, *cars.first()?);
        if !self.random.chance(self.mood.doubts) {
            return None;
        }
        let others: Vec<_> = cars.into_iter().filter(|(other, _)| *other != car).collect();
        let (other, its_run) = self.random.pick(&others, (car, run));
        let mut plan = VecDeque::from([Planned::Frame(FIRST.send(car, station))]);
        let successes = self.cars_in(|phase| phase == SUCCESS);
        let step = match (self.mood.many, successes.is_empty()) {
            (true, _) => 1,
            (false, true) => self.random.pick(&[0, 1, 2, 2], 1),
            (false, false) => self.random.pick(&[0, 1, 2, 2, 2, 2], 1),
        };
        if step > 0 {
            plan.extend([Planned::Toggle; 2].into_iter().take(self.random.below(3)));
            plan.push_back(Planned::Frame(self.second().broadcast(car)));
            let toggles = self.random.pick(&[0, 0, 1, 2, 3, 4, 6], 2);
            plan.extend([Planned::Toggle; 6].into_iter().take(toggles));
        }
        if self.mood.many {
            plan.extend([Planned::Pilot(Pilot::B), Planned::End(car, 1)]);
            return Some(plan);
        }
        if step > 1 {
            plan.extend([Planned::Pilot(Pilot::B), Planned::End(car, 1)]);
        }
        for _ in 0..self.random.below(5) {
            plan.push_back(Planned::Frame(match self.random.below(8) {
                0 | 1 => FIRST.send(other, station),
                2 if step > 1 => {
                    let run = self.any_run();
                    self.match_req(run).send(car, station)
                }
                _ => self.message_of(car, run),
            }));
        }
        if step > 1 && self.random.chance(45) {
            return Some(plan);
        }
        plan.push_back(match self.random.below(8) {
            0..=2 if other != car => Planned::Frame(self.match_req(its_run).send(other, station)),
            _ => self.end_of(car, run),
        });
        Some(plan)
    }

    /// A car that has its report, but isn't in Awaiting, goes on or ends.
    fn end(&mut self) -> Option<VecDeque<Planned>> {
        let cars = self.cars_in(|phase| matches!(phase, Phase::Reported { .. }));
        if let Some((car, run)) = cars.first() {
            let response = self.response(*run).send(*car, self.config.station);
            let response = Planned::Frame(response);
            return Some([self.random.pick(&[response, Planned::End(*car, 1)], response)].into());
        }
        let cars = self.cars_in(|phase| matches!(phase, Phase::Validating(_)));
        let (car, run) = self.random.pick(&cars, *cars.first()?);
        Some([self.end_of(car, run)].into())
    }

    /// An end of a car's validation.
    fn end_of(&mut self, car: Address, run: RunId) -> Planned {
        let late = self.random.below(600) as u32;
        let loss = self.random.pick(&[Pilot::A, Pilot::E, Pilot::F], Pilot::A);
        match self.random.below(12) {
            0 => Planned::Pilot(loss),
            1 | 2 => Planned::Terminate,
            3 => Planned::Frame(self.match_req(run).send(car, self.config.station)),
            4 => Planned::Frame(Body::ParmReq { run }.broadcast(car)),
            5 | 6 => Planned::End(car, 0),
            7 | 8 => Planned::End(car, 1),
            _ => Planned::End(car, 1 + late),
        }
    }

    /// A frame that is refused, mostly: damaged, stray or for cars alone.
    fn odd_frame(&mut self) -> Event {
        let Config { station, modem, .. } = self.config;
        let cars = self.cars_in(|_| true);
        let (car, _) = self.random.pick(&cars, (self.cars[0], RunId([0; 8])));
        let ours = self.random.pick(&[station, modem], modem);
        let (first, second) = (FIRST.send(car, station), self.second().broadcast(car));
        let empty = Body::ParmReq { run: RunId([0; 8]) };
        let newcomer = self.cars.into_iter().find(|car| self.station.record(*car).is_none());
        let message = match self.random.below(11) {
            0..=3 if self.station.is_full() && newcomer.is_some() => {
                let (any, run) = (self.any_run(), RunId([0; 8]));
                let run = self.random.pick(&[any, any, run], any);
                Body::ParmReq { run }.broadcast(newcomer.unwrap_or(car))
            }
            0..=2 => self.random.pick(&[first, second], first),
            3 => self.random.pick(&[FIRST.send(ours, station), FIRST.broadcast(ours)], first),
            10 => {
                let any = self.car();
                let validating = self.cars_in(|phase| matches!(phase, Phase::Validating(_)));
                let (own, _) = self.random.pick(&validating, (car, RunId([0; 8])));
                let car = self.random.pick(&[own, own, own, car, any, any, ours], any);
                empty.broadcast(car)
            }
            4 => self.stray_message(),
            _ => self.car_only_message(),
        };
        let mut octets = message.to_frame(self.config.edition).unwrap_or_default();
        let length = octets.len();
        let wrong = self.random.pick(&[0, 1, 0xFF], 1);
        match self.random.below(20) {
            0 => octets.resize(length + 1, 0),
            1 => octets.truncate(19 + self.random.below(3)),
            2 | 3 => octets[0] ^= 1,
            4 => octets[6] |= 1,
            5 => octets[6..12].fill(0),
            6 => octets[15] = 0x77,
            7 | 8 => octets[19] = 1 << self.random.below(8),
            9 => octets[20] = self.random.next() as u8,
            10 | 11 => octets[21] = self.random.next() as u8,
            12 => octets[..6].fill(wrong),
            _ => {}
        }
        let room =
            if self.random.chance(15) { self.random.below(LEAST_OUTPUT) } else { self.room() };
        Event::Frame { octets, room }
    }

    /// A frame by which the editions differ: an SAE frame, or one with a wrong try, group count or
    /// length.
    fn edition_frame(&mut self) -> Event {
        let Config { station, modem, nid, nmk, .. } = self.config;
        let mut cars = self.cars_in(|phase| matches!(phase, Phase::Asked | Phase::Sounding));
        if cars.is_empty() || self.random.chance(20) {
            cars = self.cars_in(|_| true);
        }
        let (car, run) = self.random.pick(&cars, (self.cars[0], RunId([7; 8])));
        let attempt = self.random.pick(&[Try::First, Try::Later], Try::First);
        let other = self.random.unicast(0xCC);
        let any = 1 + self.random.below(usize::from(MOST_GROUPS)) as u8;
        let count = self.random.pick(&[1, MOST_GROUPS, MOST_GROUPS, any, any, any], any);
        let (one, two, groups) = (self.random.octets(), self.random.octets(), self.groups(count));
        let ids = self.random.pick(&[[one, two], [one, NO_ID], [NO_ID, two]], [one, two]);
        let [source_id, resp_id] = ids;
        let [car_id, station_id] = ids;
        let sounds = self.random.below(18) as u8;
        let sounds = self.random.pick(&[7, 8, 15, 16, sounds, sounds], sounds);
        let heard = self.station.record(car).map_or(0, |record| record.heard.trailing_zeros());
        let sounds = if self.random.chance(30) { heard as u8 } else { sounds };
        let random = self.random.octets();
        let message = match self.random.below(12) {
            0..=2 => Body::StartAttenChar { run, attempt }.broadcast(car),
            3 => Body::ParmCnf { run, attempt }.send(other, car),
            4 => Body::MnbcSound { run, count: sounds, random, sender_id: one }.broadcast(car),
            5 | 6 => {
                let report = Body::AttenChar { run, sounds, count, groups, source_id, resp_id };
                report.send(other, car)
            }
            7 => Body::AttenCharRsp { run, source_id, resp_id }.send(car, station),
            8 => Body::MatchReq { run, car_id, station_id }.send(car, station),
            9 => Body::MatchCnf { run, nid, nmk, car_id, station_id }.send(other, car),
            _ => Body::AttenProfile { car, count, groups }.send(modem, station),
        };
        let mut octets = message.to_frame(Edition::Sae).unwrap_or_default();
        match message.body.kind() {
            Kind::StartAttenChar => self.spoil_try(&mut octets, 19 + 2, car),
            Kind::ParmCnf => self.spoil_try(&mut octets, 19 + 6, car),
            Kind::AttenCharRsp if self.random.chance(40) => octets[19 + 50] = 1,
            kind => {
                if let Some(place) = kind.count_place() {
                    self.spoil_count(&mut octets, place);
                }
            }
        }
        Event::Frame { octets, room: LEAST_OUTPUT }
    }

    /// Changes the pair, RESP_TYPE or FWD_STA that stand from a place on, or nothing.
    fn spoil_try(&mut self, octets: &mut [u8], at: usize, car: Address) {
        let iso = Try::Iso.octets();
        match self.random.below(10) {
            0 => {
                octets[at..at + 3].copy_from_slice(&iso);
                octets[at + 3..at + 9].copy_from_slice(&car.0);
            }
            1 => octets[at..at + 2].copy_from_slice(&iso[..2]),
            2 => octets[at..at + 2].copy_from_slice(&[0x08, 0x0A]),
            3 => octets[at..at + 2].copy_from_slice(&[0x10, 0x02]),
            4 => octets[at + 2] = self.random.pick(&[1, 0x80], 1),
            5 => octets[at + 3..at + 9].copy_from_slice(&car.0),
            6 => octets[at + self.random.below(9)] ^= 1 << self.random.below(8),
            _ => {}
        }
    }

    /// Changes the group count, the length or the padding, or nothing.
    fn spoil_count(&mut self, octets: &mut Vec<u8>, place: usize) {
        let length = octets.len();
        let any = MOST_GROUPS + 1 + self.random.below(197) as u8;
        let wrong = self.random.pick(&[0, 0, MOST_GROUPS + 1, any, 0xFF], 0);
        let group = self.random.pick(&[0, 6], 0);
        match self.random.below(16) {
            0 | 1 => octets[place] = wrong,
            2 => octets.truncate(place - self.random.pick(&[0, 1, 6], 0)),
            3 | 4 => {
                octets[place] = wrong;
                let more = self.random.below(length - place);
                octets.truncate(place + 1 + self.random.pick(&[0, 0, more], 0));
            }
            5 => octets.truncate(place + 1 + self.random.below(length - place)),
            6 => octets.push(0),
            7 => {
                octets[place] = wrong;
                octets[group] |= 1;
            }
            8 => {
                octets[place] = wrong;
                octets.resize(MOST.min(length + 70), 0);
            }
            9 => {
                octets.truncate(place + 1);
                octets[group] |= 1;
            }
            10 => octets[place] = self.random.pick(&[1, 2, MOST_GROUPS - 1, MOST_GROUPS], 1),
            11 | 12 => {
                let shortest = Kind::of(octets)
                    .map_or(length, |kind| kind.shortest_with(octets[place].into()));
                let padding = 1 + self.random.below(255) as u8;
                octets.iter_mut().skip(shortest).for_each(|octet| *octet = padding);
                if self.random.chance(50) {
                    octets.truncate(shortest + self.random.below(length + 1 - shortest));
                }
            }
            _ => {}
        }
    }

    /// A pilot change while a car validates: mostly B-C-B, now and then the same state again, D
    /// between, or a loss. Where it takes no reading it may have any.
    fn toggle(&mut self) -> Event {
        let to = match (self.station.pilot, self.random.below(100)) {
            (Pilot::B, _) if self.mood.many => Pilot::C,
            (_, _) if self.mood.many => Pilot::B,
            (_, 0) => self.random.pick(&[Pilot::A, Pilot::E, Pilot::F], Pilot::A),
            (same, 1..=12) => same,
            (Pilot::D, 13..=56) => Pilot::C,
            (Pilot::B | Pilot::C, 13..=28) => Pilot::D,
            (Pilot::B, _) => Pilot::C,
            _ => Pilot::B,
        };
        let any = self.random.next() as u32;
        let reading = self.random.pick(&[self.clock, self.clock, any], any);
        Event::Pilot { to, reading }
    }

    fn tick(&mut self) -> Event {
        let steps: Vec<(Phase, u32)> = self
            .station
            .records()
            .filter(|record| matches!(record.phase, Phase::Validating(_)))
            .map(|record| (record.phase, record.left))
            .collect();
        let share = match self.random.pick(&steps, (Phase::Asked, 0)) {
            (Phase::Validating(Step::Counting { .. }), left) if !self.mood.many => (25, left),
            (Phase::Validating(_), left) => (8, left),
            _ => (0, 0),
        };
        if self.random.chance(share.0) {
            let late = self.random.below(400) as u32;
            let beyond = self.random.pick(&[0, 1, 2, late], 1);
            return self.tick_by((share.1 + beyond).saturating_sub(1));
        }
        let elapsed = match self.station.state {
            State::Matching { admission } if self.is_late() => {
                admission - 50 - self.random.below(600) as u32
            }
            State::Unmatched | State::Matched { .. } if self.random.chance(50) => {
                self.random.below(60_002) as u32
            }
            State::Joining { .. } if self.random.chance(40) => self.limit(),
            _ if self.random.chance(self.mood.limits) => self.limit(),
            _ if self.random.chance(1) => 60_000 + self.random.below(3) as u32,
            _ => self.random.below(self.mood.pace + 1) as u32,
        };
        self.tick_by(elapsed)
    }

    fn tick_by(&mut self, elapsed: u32) -> Event {
        let gaps = [60_001, 60_002, 0x8000_0000, 0xFFFF_FFFF];
        let elapsed = if self.random.chance(1) { self.random.pick(&gaps, 0) } else { elapsed };
        let from = if self.random.chance(4) { self.clock } else { self.station.reading };
        self.clock = from.wrapping_add(elapsed);
        Event::Tick { reading: self.clock, room: self.room() }
    }

    /// An elapsed time at a limit: a remaining time of the station, or one of the rules'.
    fn limit(&mut self) -> u32 {
        if self.random.chance(30) {
            return self.random.pick(&LIMITS, 0);
        }
        let mut times: Vec<u32> = self.station.records().map(|record| record.left).collect();
        if let State::Matching { admission: left } | State::Joining { left, .. } =
            self.station.state
        {
            times.push(left);
        }
        (self.random.pick(&times, 0) + self.random.below(3) as u32).saturating_sub(1)
    }

    /// Mostly enough; now and then short.
    fn room(&mut self) -> usize {
        match self.random.below(100) {
            0 => 0,
            1 => LEAST_OUTPUT - 1,
            2 | 3 => self.random.below(LEAST_OUTPUT),
            4..=9 => LEAST_OUTPUT + self.random.below(MOST + 1 - LEAST_OUTPUT),
            10..=12 => MOST,
            _ => LEAST_OUTPUT,
        }
    }

    fn car(&mut self) -> Address {
        if self.random.chance(self.mood.focus) {
            let is_far = |record: &&Record| !matches!(record.phase, Phase::Asked | Phase::Sounding);
            let cars: Vec<Address> =
                self.station.records().filter(is_far).map(|record| record.car).collect();
            if !cars.is_empty() {
                return self.random.pick(&cars, Address([2; 6]));
            }
        }
        let car = self.random.below(self.mood.cars);
        self.cars.get(car).copied().unwrap_or(Address([2; 6]))
    }

    fn frame(&mut self) -> Event {
        let message = match self.random.below(100) {
            0..=77 => self.next_step(),
            78..=85 => self.any_message(),
            86..=89 => self.stray_message(),
            _ => self.car_only_message(),
        };
        let Config { station, modem, edition, .. } = self.config;
        let octets = self.random.frame(&message, edition, self.mood.damage, [station, modem]);
        Event::Frame { octets, room: self.room() }
    }

    /// What a car would send next.
    fn next_step(&mut self) -> Message {
        let (station, car) = (self.config.station, self.car());
        if let State::Joining { car: joining, run, .. } = self.station.state {
            match self.random.below(15) {
                0 => return self.match_req(run).send(car, station),
                1 => {
                    let run = self.any_run();
                    return self.match_req(run).send(joining, station);
                }
                2..=6 => return self.match_req(run).send(joining, station),
                _ => {}
            }
        }
        let Some(record) = self.station.record(car) else {
            if !matches!(self.station.state, State::Matching { .. }) {
                match self.random.below(10) {
                    0..=2 => return FIRST.send(car, station),
                    3..=5 => return self.second().broadcast(car),
                    6..=7 => return self.any_message(),
                    _ => {}
                }
            }
            return Body::ParmReq { run: self.any_run() }.broadcast(car);
        };
        let (run, heard, profiles) = (record.run, record.heard, u32::from(record.profiles));
        let later = record.later;
        match (record.phase, self.random.below(100)) {
            (Phase::Asked, 0..=84) | (Phase::Sounding, 0..=4) => {
                self.start(car, run).broadcast(car)
            }
            (Phase::Sounding, 5..=94) => {
                let sounds = self.config.attempt(later).sounds();
                let unheard: Vec<u8> =
                    (0..sounds).filter(|count| heard & (1 << count) == 0).collect();
                if heard.count_ones() > profiles || unheard.is_empty() {
                    return self.profile(car).send(self.config.modem, station);
                }
                let count = self.random.pick(&unheard, 0);
                self.sound(run, count).broadcast(car)
            }
            (Phase::Reported { .. }, 0..=64) => self.response(run).send(car, station),
            (Phase::Awaiting, roll) if roll < self.matches() => {
                self.match_req(run).send(car, station)
            }
            (Phase::Awaiting, roll) if roll >= 100 - self.mood.doubts => FIRST.send(car, station),
            (READY, 0..=39) => self.second().broadcast(car),
            (SUCCESS, roll) if roll < self.matches() => self.match_req(run).send(car, station),
            (Phase::Validating(_), 0..=84) => self.message_of(car, run),
            _ => self.any_message(),
        }
    }

    /// How many steps in a hundred of a car that may match are a match request.
    fn matches(&self) -> usize {
        match (self.mood.matches, self.mood.doubts) {
            (false, _) => 1,
            (true, 0) => 20,
            (true, _) => 10,
        }
    }

    /// A second validate request.
    fn second(&mut self) -> Body {
        let any = self.random.next() as u8;
        let timer = match self.random.below(4) {
            _ if self.mood.many => 255,
            0 if self.random.chance(30) => any,
            _ => self.random.pick(&TIMERS, any),
        };
        Body::ValidateReq { timer }
    }

    /// A profile, mostly with the group count of the car's record.
    fn profile(&mut self, car: Address) -> Body {
        let fixed = self.station.record(car).and_then(|record| record.groups);
        let any = self.group_count();
        let count = if self.random.chance(8) { any } else { fixed.unwrap_or(any) };
        self.profile_of(car, count)
    }

    fn profile_of(&mut self, car: Address, count: u8) -> Body {
        Body::AttenProfile { car, count, groups: self.groups(count) }
    }

    /// Values of so many groups.
    fn groups(&mut self, count: u8) -> Groups {
        let flat = self.random.next() as u8;
        let mut groups = match self.random.below(10) {
            0 => [self.random.pick(&[0, 1, 0xFE, 0xFF], flat); MOST_GROUPS as usize],
            1 | 2 => [flat; MOST_GROUPS as usize],
            _ => self.random.octets(),
        };
        groups[usize::from(count)..].fill(0);
        groups
    }

    /// Any message to the station, of the car's run or now and then another.
    fn any_message(&mut self) -> Message {
        let car = self.car();
        let run = match self.station.record(car) {
            Some(record) if !self.random.chance(20) => record.run,
            _ => self.any_run(),
        };
        self.message_of(car, run)
    }

    /// Any message of that car and run to the station.
    fn message_of(&mut self, car: Address, run: RunId) -> Message {
        let station = self.config.station;
        match self.random.below(13) {
            0 => Body::ParmReq { run }.broadcast(car),
            12 => Body::ParmReq { run: self.any_run() }.broadcast(car),
            1 | 2 => self.start(car, run).broadcast(car),
            3 | 4 => {
                let count = self.random.pick(&[0, 1, 5, 8, 9, 10, 11, 15, 16, 255], 9);
                self.sound(run, count).broadcast(car)
            }
            5 | 6 => self.profile(car).send(self.config.modem, station),
            7 | 8 => self.response(run).send(car, station),
            9 => FIRST.send(car, station),
            10 => self.second().broadcast(car),
            _ => self.match_req(run).send(car, station),
        }
    }

    /// A message that isn't the station's: for another one, from a wrong modem, or from itself.
    fn stray_message(&mut self) -> Message {
        let Config { station, modem, .. } = self.config;
        let (car, other, run) = (self.car(), self.random.unicast(0xCC), RunId([7; 8]));
        let ours = self.random.pick(&[station, modem], modem);
        let wrong = self.random.pick(&[other, car, station], other);
        let wrong_station = self.random.pick(&[other, car, modem], other);
        match self.random.below(11) {
            0 => self.response(run).send(car, other),
            1 => self.match_req(run).send(car, wrong),
            2 => self.profile(car).send(modem, other),
            3 => self.profile(car).send(wrong, station),
            4 => self.profile(ours).send(modem, station),
            5 => Body::ParmReq { run }.broadcast(ours),
            6 => self.match_req(run).send(ours, station),
            7 => FIRST.send(car, wrong_station),
            8 => FIRST.send(ours, station),
            9 => self.second().broadcast(ours),
            _ => self.match_req(run).send(car, modem),
        }
    }

    fn car_only_message(&mut self) -> Message {
        let Config { station, nid, nmk, .. } = self.config;
        let (car, other) = (self.car(), self.random.unicast(0xCC));
        let (run, sounds) = (RunId(self.random.octets()), self.random.next() as u8);
        let (result, later) = (self.random.below(5) as u8, self.random.chance(50));
        let body = match self.random.below(6) {
            5 => Body::AmpMapCnf { result: u8::from(later) },
            0 => Body::ParmCnf { run, attempt: self.config.attempt(later) },
            1 => {
                let count = self.group_count();
                let groups = self.groups(count);
                let (source_id, resp_id) = (self.id(), self.id());
                Body::AttenChar { run, sounds, count, groups, source_id, resp_id }
            }
            2 | 3 => Body::ValidateCnf { toggles: self.random.next() as u8, result },
            _ => Body::MatchCnf { run, nid, nmk, car_id: self.id(), station_id: self.id() },
        };
        body.send(
            self.random.pick(&[station, other], other),
            self.random.pick(&[car, station], car),
        )
    }
}

/// `demo`: a whole matching of one car, with a validation by two toggles; the neighbour's frames
/// are heard on the same line, but it validates and matches with the next station.
pub fn demo(script: &mut impl Write) -> io::Result<()> {
    let address = |last| Address([2, 0, 0, 0, 0, last]);
    let (station, modem, next_station) = (address(0xAA), address(0xBB), address(0xCC));
    let (car, run) = (address(1), RunId([1, 2, 3, 4, 5, 6, 7, 8]));
    let (neighbour, its_run) = (address(2), RunId([0x22; 8]));
    let mut events = vec![Event::Pilot { to: Pilot::B, reading: 1000 }];
    let mut clock = 1000;
    let mut pass = |messages: &[Message], pilot: Option<Pilot>, time: u32| {
        for message in messages {
            let octets = message.to_frame(Edition::Iso).unwrap_or_default();
            events.push(Event::Frame { octets, room: LEAST_OUTPUT });
        }
        events.extend(pilot.map(|to| Event::Pilot { to, reading: clock }));
        clock += time;
        events.push(Event::Tick { reading: clock, room: LEAST_OUTPUT });
    };
    let mut hear = |messages: &[Message]| pass(messages, None, 20);
    hear(&[
        Body::ParmReq { run: its_run }.broadcast(neighbour),
        Body::ParmReq { run }.broadcast(car),
    ]);
    hear(&[Body::start(run).broadcast(car), Body::start(its_run).broadcast(neighbour)]);
    for count in (0..10).rev() {
        let (near, far, random) = ([12 + count % 2; 58], [55 + count % 3; 58], [count; 16]);
        hear(&[
            Body::sound(run, count, random).broadcast(car),
            Body::profile(car, near).send(modem, station),
            Body::sound(its_run, count, random).broadcast(neighbour),
            Body::profile(neighbour, far).send(modem, station),
        ]);
    }
    hear(&[
        Body::response(run).send(car, station),
        Body::response(its_run).send(neighbour, station),
    ]);
    hear(&[FIRST.send(neighbour, next_station), FIRST.send(car, station)]);
    let second = Body::ValidateReq { timer: 4 };
    hear(&[second.broadcast(neighbour), second.broadcast(car)]);
    for to in [Pilot::C, Pilot::B, Pilot::C, Pilot::B] {
        pass(&[], Some(to), 100);
    }
    pass(&[], None, 80);
    let mut hear = |messages: &[Message]| pass(messages, None, 20);
    hear(&[
        Body::match_req(its_run).send(neighbour, next_station),
        Body::match_req(run).send(car, station),
    ]);
    events.push(Event::LinkUp);
    let (nid, nmk) = (Nid([1, 2, 3, 4, 5, 6, 7]), Nmk([0x4B; 16]));
    let (exempt, edition, carriers) = (false, Edition::Iso, 917);
    let config = Config { station, modem, nid, nmk, exempt, edition, carriers };
    write_head(script, &config, u32::try_from(events.len()).map_err(io::Error::other)?)?;
    events.iter().try_for_each(|event| event.write(script))
}
