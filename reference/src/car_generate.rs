//! Random scripts for a car: several stations on a line that loses, delays and damages frames.

use crate::amplitude;
use crate::car::{Car, Config, Network, State};
use crate::car_count::Counts;
use crate::car_script::{write_head, Event};
use crate::messages::MOST_CARRIERS;
use crate::messages::{Address, Body, Edition, Groups, Kind, Message, Nid, Nmk, RunId, Try};
use crate::random::Random;
use std::io::{self, Write};

/// From which message on the stations stay silent.
#[derive(Clone, Copy, PartialEq, Eq, PartialOrd, Ord)]
enum Silence {
    Confirming,
    Reporting,
    Matching,
    Never,
}

/// What an episode from start to start is like.
#[derive(Clone)]
struct Mood {
    stations: usize,    // how many of the stations are on the line
    pace: usize,        // the longest usual tick
    limits: usize,      // how many ticks in a hundred go to a limit
    damage: usize,      // how many frames in a hundred are damaged
    lost: usize,        // how many of the stations' frames in a hundred are lost
    early: usize,       // how many reports in a hundred come before the last sound
    silence: Silence,   // from which message on the stations stay silent
    totals: (u32, u32), // the least and the greatest total of a report
    links: bool,        // whether the link comes up
}

/// Elapsed times at, just below and just above the rules' limits.
const LIMITS: [u32; 24] = [
    0, 1, 39, 40, 41, 99, 100, 101, 199, 200, 201, 1_199, 1_200, 1_201, 11_999, 12_000, 12_001,
    59_999, 60_000, 60_001, 60_002, 61_200, 0x8000_0000, 0xFFFF_FFFF,
];

/// 58 values of 255.
const HIGHEST_TOTAL: u32 = 14_790;

/// How many frames are on their way at most.
const LONGEST_LINE: usize = 40;

/// Makes events, steered by a car of its own.
#[derive(Clone)]
struct Generator {
    random: Random,
    config: Config,
    car: Car,
    stations: [Network; 13],
    mood: Mood,
    /// The stations' frames that are on their way, also those of earlier runs.
    line: Vec<Message>,
    /// The last reading sent, also one that was refused.
    clock: u32,
}

/// `car-generate SEED EVENTS`.
pub fn generate(seed: u64, events: u32, script: &mut impl Write) -> io::Result<()> {
    let mut generator = Generator::new(Random::new(seed));
    let config = generator.written_config();
    write_head(script, &config, events)?;
    for _ in 0..events {
        let event = generator.event();
        if let Ok((_, octets)) = event.happen(&mut generator.car) {
            generator.hear(&octets);
        }
        event.write(script)?;
    }
    Ok(())
}

/// `car-cover` tries so many ways on, each of so many events at most.
const TRIES: usize = 32;
const STRETCH: usize = 64;

/// `car-cover SEED EVENTS`: as `car-generate` with a good configuration, but of several ways on it
/// takes the one that reaches most rows of the table.
pub fn cover(seed: u64, events: u32, script: &mut impl Write) -> io::Result<()> {
    let mut generator = Generator::new(Random::new(seed));
    let mut counts = Counts::new(generator.config);
    write_head(script, &generator.config, events)?;
    let mut left = usize::try_from(events).map_err(io::Error::other)?;
    while left > 0 {
        let longest = 1 + generator.random.below(STRETCH);
        let length = (1 + generator.random.below(longest)).min(left);
        let seeds: [u64; TRIES] = std::array::from_fn(|_| generator.random.next());
        let tries = seeds.into_iter().map(|seed| generator.go_on(seed, length, &counts));
        let Some(best) = tries.max_by_key(|(_, counts, _)| counts.reached()) else { break };
        let stretch;
        (generator, counts, stretch) = best;
        stretch.iter().try_for_each(|event| event.write(script))?;
        left -= length;
    }
    Ok(())
}

impl Generator {
    /// One way on: so many events by another seed.
    fn go_on(&self, seed: u64, length: usize, counts: &Counts) -> (Generator, Counts, Vec<Event>) {
        let mut generator = Generator { random: Random::new(seed), ..self.clone() };
        let mut counts = counts.clone();
        let stretch = (0..length).map(|_| {
            let event = generator.event();
            let before = generator.car.clone();
            let outcome = event.happen(&mut generator.car);
            counts.event(&event, &before, &generator.car, &outcome);
            if let Ok((_, octets)) = &outcome {
                generator.hear(octets);
            }
            event
        });
        let stretch = stretch.collect();
        (generator, counts, stretch)
    }

    fn new(mut random: Random) -> Generator {
        let any = random.below(256) as u32;
        let reference = random.pick(&[0, 0, 26, 26, 26, any, 1, 235, 236, 245, 246, 255], any);
        let config = Config { car: random.unicast(1), reference };
        let stations = std::array::from_fn(|place| {
            let mut nid = random.octets::<7>();
            nid[6] = random.pick(&[0, nid[6] & 0x3F, 0x3F], 0);
            let station = random.unicast(0xA0 + place as u8);
            Network { station, nid: Nid(nid), nmk: Nmk(random.octets()) }
        });
        let (car, _) = Car::configure(config);
        let mood = Mood {
            stations: 3,
            pace: 40,
            limits: 5,
            damage: 5,
            lost: 5,
            early: 5,
            silence: Silence::Never,
            totals: (0, HIGHEST_TOTAL),
            links: true,
        };
        Generator { random, config, car, stations, mood, line: Vec::new(), clock: 0 }
    }

    /// The configuration that goes into the script: now and then a bad one.
    fn written_config(&mut self) -> Config {
        let mut config = self.config;
        if self.random.chance(6) {
            let any = self.random.next() as u32;
            match self.random.below(7) {
                0 => config.car.0[0] |= 1,
                1 => config.car = Address([0; 6]),
                2 => config.car = Address::BROADCAST,
                3 => config.reference = 256,
                4 => config.reference += 256,
                5 => config.reference = any | 0x0001_0000,
                _ => config.reference = u32::MAX,
            }
        }
        config
    }

    fn event(&mut self) -> Event {
        match (self.car.state, self.random.below(1000)) {
            (State::Idle, 0..=499) => self.start(),
            (State::Idle, 500..=649) => self.frame(),
            (State::Idle, 650..=799) => self.tick(),
            (State::Sounding { .. }, 0..=699) if self.line.len() > 2 => self.frame(),
            (State::Sounding { .. }, 0..=479) => self.frame(),
            (State::Sounding { .. }, 480..=959) => self.tick(),
            (State::Joining { .. }, 0..=349) => self.frame(),
            (State::Joining { .. }, 350..=699) => self.tick(),
            (State::Joining { .. }, 700..=799) if self.mood.links => Event::LinkUp,
            (State::Matched { .. }, 0..=299) => self.frame(),
            (State::Matched { .. }, 300..=549) => self.tick(),
            (State::Matched { .. }, 550..=649) => Event::Terminate,
            (State::Asking { .. } | State::Confirmed { .. }, 0..=349) => self.frame(),
            (State::Asking { .. } | State::Confirmed { .. }, 350..=899) => self.tick(),
            (State::Requesting { .. }, 0..=499) => self.frame(),
            (State::Requesting { .. }, 500..=899) => self.tick(),
            _ => match self.random.below(100) {
                0..=11 => Event::Terminate,
                12..=39 => self.start(),
                40..=69 => Event::LinkUp,
                _ => Event::Query,
            },
        }
    }

    /// A start, mostly of a new run; where it is accepted, a new mood.
    fn start(&mut self) -> Event {
        let far = (self.random.next() as u32, self.random.below(3000) as u32);
        self.clock = self.random.pick(&[self.clock, far.0, far.1, 0u32.wrapping_sub(far.1)], 0);
        if self.car.state == State::Idle {
            self.mood = self.any_mood();
        }
        let run = match self.random.below(20) {
            0 | 1 => self.car.run,
            2 => RunId([0; 8]),
            _ => RunId(self.random.octets()),
        };
        let random = self.random.octets();
        Event::Start { run, random, reading: self.clock, room: self.room() }
    }

    fn any_mood(&mut self) -> Mood {
        let [found, potentially] = self.config.limits();
        let totals = [
            (0, HIGHEST_TOTAL),
            (0, 0),
            (0, found - 1),
            (found, potentially - 1),
            (potentially, HIGHEST_TOTAL),
            (found - 1, found + 1),
            (found - 1, found - 1),
            (found, found),
            (potentially - 1, potentially + 1),
            (potentially - 1, potentially - 1),
            (potentially, potentially),
        ];
        let silence = match self.random.below(20) {
            0 => Silence::Confirming,
            1 => Silence::Reporting,
            2..=4 => Silence::Matching,
            _ => Silence::Never,
        };
        Mood {
            stations: self.random.pick(&[1, 2, 3, 5, 10, 12, 13, 13], 3),
            pace: self.random.pick(&[5, 41, 60, 80, 120, 200], 40),
            limits: self.random.pick(&[1, 2, 5, 25], 2),
            damage: self.random.pick(&[0, 8, 16, 28], 5),
            lost: self.random.pick(&[0, 0, 5, 30], 5),
            early: self.random.pick(&[0, 2, 10, 30], 5),
            silence,
            totals: self.random.pick(&totals, (0, HIGHEST_TOTAL)),
            links: self.random.chance(60),
        }
    }

    fn tick(&mut self) -> Event {
        let elapsed = match self.car.state {
            State::Idle | State::Matched { .. } if self.random.chance(60) => {
                let (far, limit) = (self.random.below(60_002) as u32, self.limit());
                self.random.pick(&[far, limit], 0)
            }
            State::Sounding { sent: 13, .. } if self.line.len() < 3 && self.random.chance(20) => {
                self.limit()
            }
            State::Requesting { .. } | State::Joining { .. } if self.random.chance(25) => {
                self.limit()
            }
            State::Requesting { .. } | State::Joining { .. } if self.random.chance(15) => {
                60_000 + self.random.below(3) as u32
            }
            _ if self.random.chance(self.mood.limits) => self.limit(),
            _ if self.random.chance(2) => 60_000 + self.random.below(3) as u32,
            _ if self.random.chance(15) => 40,
            _ => self.random.below(self.mood.pace + 1) as u32,
        };
        let from = if self.random.chance(6) { self.clock } else { self.car.reading };
        self.clock = from.wrapping_add(elapsed);
        Event::Tick { reading: self.clock, room: self.room() }
    }

    /// An elapsed time at a limit: a remaining time of the car, or one of the rules'.
    fn limit(&mut self) -> u32 {
        if self.random.chance(15) {
            return self.random.pick(&LIMITS, 0);
        }
        let left = match self.car.state {
            State::Idle | State::Matched { .. } => 60_000,
            State::Asking { left, .. }
            | State::Confirmed { left }
            | State::Requesting { left, .. }
            | State::Joining { left, .. } => left,
            State::Sounding { sent: 13, left, .. } => left,
            State::Sounding { next, left, .. } => {
                self.random.pick(&[next, next, next, next, left], left)
            }
        };
        (left + self.random.below(3) as u32).saturating_sub(1)
    }

    /// Mostly enough; now and then short.
    fn room(&mut self) -> usize {
        match self.random.below(100) {
            0 => 0,
            1 => 84,
            2..=4 => self.random.below(85),
            5..=9 => 86 + self.random.below(4011),
            10 | 11 => 4096,
            _ => 85,
        }
    }

    /// What the stations on the line say to the car's frame; some of it gets lost.
    fn hear(&mut self, octets: &[u8]) {
        let Ok(Message { destination, body, .. }) = Message::read(octets, Edition::Iso) else {
            return;
        };
        let silence = self.mood.silence;
        for (place, Network { station, nid, nmk }) in self.stations.into_iter().enumerate() {
            let is_asked = station == destination;
            if place >= self.mood.stations && !is_asked {
                continue;
            }
            let reply = match body {
                Body::ParmReq { run } if silence > Silence::Confirming => {
                    Body::ParmCnf { run, attempt: Try::Iso }
                }
                Body::MnbcSound { run, count, .. } if silence > Silence::Reporting => {
                    if count > 0 && !self.random.chance(self.mood.early) {
                        continue;
                    }
                    self.report(run)
                }
                Body::AttenCharRsp { run, .. } if is_asked && self.random.chance(15) => {
                    self.report(run)
                }
                Body::MatchReq { run, .. } if is_asked && silence > Silence::Matching => {
                    Body::match_cnf(run, nid, nmk)
                }
                Body::MatchReq { run, .. } if !is_asked && self.random.chance(10) => {
                    Body::match_cnf(run, nid, nmk)
                }
                _ => continue,
            };
            if !self.random.chance(self.mood.lost) {
                self.line.push(reply.send(station, self.config.car));
            }
        }
        let over = self.line.len().saturating_sub(LONGEST_LINE);
        self.line.drain(..over);
    }

    /// An ATTEN_CHAR.IND with a total as the mood has it.
    fn report(&mut self, run: RunId) -> Body {
        let is_chosen = matches!(self.car.state, State::Requesting { .. });
        let is_full = self.car.reports().count() == 10;
        let sounds = match self.random.below(10) {
            0 => 0,
            1..=3 if is_chosen || is_full => 0,
            1 => self.random.next() as u8,
            _ => 10,
        };
        let any = self.random.chance(5);
        let (least, greatest) = if any { (0, HIGHEST_TOTAL) } else { self.mood.totals };
        let wide = greatest.saturating_sub(least) as usize;
        let total = least + self.random.below(wide + 1) as u32;
        Body::report(run, sounds, self.groups(total.min(HIGHEST_TOTAL) as usize))
    }

    /// Group values with that total: even ones, or shifted about.
    fn groups(&mut self, total: usize) -> Groups {
        let even = |group| total / 58 + usize::from(group < total % 58);
        let mut groups: Groups = std::array::from_fn(|group| even(group) as u8);
        for _ in 0..self.random.pick(&[0, 5, 200], 0) {
            let (from, to) = (self.random.below(58), self.random.below(58));
            let most = groups[from].min(u8::MAX - groups[to]);
            let moved = self.random.below(usize::from(most) + 1) as u8;
            groups[from] -= moved;
            groups[to] += moved;
        }
        groups
    }

    /// An amplitude map, mostly to us, of a few carriers or now and then of all.
    fn map_frame(&mut self) -> Event {
        let (us, station, other) =
            (self.config.car, self.station().station, self.random.unicast(0xCC));
        let ends = [(station, us), (station, us), (station, us), (station, other), (us, station)];
        let (source, destination) = self.random.pick(&ends, ends[0]);
        let few = 1 + self.random.below(90);
        let carriers = if self.random.chance(3) { usize::from(MOST_CARRIERS) } else { few };
        let values: Vec<u8> = (0..carriers).map(|_| self.random.below(16) as u8).collect();
        let mut octets = vec![0; 599];
        let written = amplitude::write(source, destination, &values, &mut octets);
        octets.truncate(written.unwrap_or(0));
        let (kind, ours) = (Kind::AmpMapReq, [us, station]);
        self.random.change(&mut octets, kind, carriers as u16, 2 * self.mood.damage, ours);
        Event::Frame { octets, room: self.room() }
    }

    fn frame(&mut self) -> Event {
        if self.random.chance(5) {
            return self.map_frame();
        }
        let message = match self.random.below(100) {
            0..=58 => self.next_message(),
            59..=79 => self.any_message(),
            80..=85 => self.stray_message(),
            _ => self.station_only_message(),
        };
        let ours = [self.config.car, self.station().station];
        let octets = self.random.frame(&message, Edition::Iso, self.mood.damage, ours);
        Event::Frame { octets, room: self.room() }
    }

    /// A frame that was on its way, the newest, the oldest or any; now and then it comes again.
    fn next_message(&mut self) -> Message {
        let (newest, any) = (self.line.len().saturating_sub(1), self.random.below(self.line.len()));
        let place = self.random.pick(&[newest, newest, 0, any], 0);
        match self.line.get(place).copied() {
            Some(message) if self.random.chance(10) => message,
            Some(_) => self.line.remove(place),
            None => self.any_message(),
        }
    }

    /// One of the stations, mostly the chosen one where there is one.
    fn station(&mut self) -> Network {
        let place = self.random.below(self.stations.len());
        let chosen = match self.car.state {
            State::Requesting { station, .. } => Some(station),
            State::Joining { network, .. } | State::Matched { network } => Some(network.station),
            _ => None,
        };
        let mut stations = self.stations.into_iter();
        match stations.find(|network| Some(network.station) == chosen) {
            Some(network) if self.random.chance(60) => network,
            _ => self.stations[place],
        }
    }

    /// Any message to the car, of its run or now and then another; where the stations stay silent,
    /// always another.
    fn any_message(&mut self) -> Message {
        let Network { station, nid, nmk } = self.station();
        let takes_none =
            matches!(self.car.state, State::Idle | State::Joining { .. } | State::Matched { .. });
        let kind = self.random.below(if takes_none { 7 } else { 5 });
        let silence = self.mood.silence;
        let silent = [Silence::Confirming, Silence::Reporting, Silence::Matching];
        let is_silent = silent.get(kind).is_some_and(|from| silence <= *from);
        let run = match self.random.chance(25) || is_silent {
            true => RunId(self.random.octets()),
            false => self.car.run,
        };
        let body = match kind {
            0 => Body::ParmCnf { run, attempt: Try::Iso },
            1 => self.report(run),
            2 => Body::match_cnf(run, nid, nmk),
            3 => Body::AmpMapCnf { result: self.random.below(2) as u8 },
            _ => {
                let result = self.random.below(5) as u8;
                Body::ValidateCnf { toggles: self.random.next() as u8, result }
            }
        };
        body.send(station, self.config.car)
    }

    /// A message to a car that isn't for this one: to another, or from ourselves.
    fn stray_message(&mut self) -> Message {
        let (message, us) = (self.any_message(), self.config.car);
        let other = self.random.unicast(0xCC);
        let ends = [(message.source, other), (us, us), (us, other), (us, message.source)];
        let (source, destination) = self.random.pick(&ends, ends[0]);
        Message { source, destination, ..message }
    }

    /// A message that only a station receives, from any end to any end.
    fn station_only_message(&mut self) -> Message {
        let (us, station, other) =
            (self.config.car, self.station().station, self.random.unicast(0xCC));
        let source = self.random.pick(&[other, station, us], other);
        let destination = self.random.pick(&[us, other, station], us);
        let (run, groups) = (self.car.run, [self.random.next() as u8; 58]);
        match self.random.below(8) {
            0 => Body::ParmReq { run }.broadcast(source),
            1 => Body::start(run).broadcast(source),
            2 => Body::sound(run, 9, self.car.random).broadcast(source),
            3 => Body::response(run).send(source, destination),
            4 => Body::match_req(run).send(source, destination),
            5 => Body::ValidateReq { timer: 0 }.send(source, destination),
            6 => Body::ValidateReq { timer: self.random.next() as u8 }.broadcast(source),
            _ => Body::profile(us, groups).send(source, destination),
        }
    }
}
