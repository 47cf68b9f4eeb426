//! Logs of sessions: made from a seed, replayed, damaged so that they are refused, and changed so
//! that an event differs.

use crate::generate::session;
use crate::log::{number, Cause, Event, Log, Reply, Settings, ENTRY, EVENTS, LONGEST};
use crate::log::{FRAME, LINK_UP, PILOT, TERMINATE, TICK};
use crate::random::Random;
use crate::script::{self, Answer};
use crate::station::{Station, LEAST_OUTPUT};
use std::io;

/// What a replay finds.
#[derive(Clone, Debug, PartialEq, Eq)]
pub enum Found {
    Refused(Cause),
    NoDifference,
    /// The first event that differs, from 1, with its recorded answer and the station's own.
    Difference {
        event: u32,
        recorded: Answer,
        came: Answer,
    },
}

impl Found {
    /// The number that is printed: the first event that differs, 0 if none does, or minus the
    /// cause where the log is refused.
    pub fn number(&self) -> i64 {
        match self {
            Found::Refused(cause) => -(*cause as i64),
            Found::NoDifference => 0,
            Found::Difference { event, .. } => i64::from(*event),
        }
    }
}

/// Runs a station by the log.
pub fn replay(log: &[u8]) -> Found {
    let log = match Log::read(log) {
        Ok(log) => log,
        Err(cause) => return Found::Refused(cause),
    };
    let (mut station, _) = Station::configure(log.settings.config());
    for (place, ((event, octets), (reply, frames))) in (1..).zip(log.events().zip(log.replies())) {
        let Reply { refusal, indication, .. } = reply;
        let recorded = Answer { refusal, indication, octets: frames.to_vec() };
        let came = answer(&event, octets, &mut station);
        if came.as_ref() != Some(&recorded) {
            let came = came.unwrap_or(Answer { refusal: 0, indication: 0, octets: Vec::new() });
            return Found::Difference { event: place, recorded, came };
        }
    }
    Found::NoDifference
}

/// The station's answer to an event of a log, with the least output that the calls ask for.
fn answer(event: &Event, octets: &[u8], station: &mut Station) -> Option<Answer> {
    let Event { kind, reading, .. } = *event;
    let event = script::Event::of(kind, reading, LEAST_OUTPUT, octets.to_vec()).ok()?;
    Some(Answer::from(event.happen(station)))
}

/// `log SEED EVENTS`: a random session of so many events, or fewer where the log would be too long.
pub fn log(seed: u64, events: u32) -> io::Result<Vec<u8>> {
    let (config, session) = session(seed, events);
    let (mut station, _) = Station::configure(config);
    let mut log = Log {
        settings: Settings::of(&config),
        events: Vec::new(),
        octets: Vec::new(),
        replies: Vec::new(),
        frames: Vec::new(),
    };
    let mut whole = log.length();
    for event in session {
        let Answer { refusal, indication, octets: frames } = event.happen(&mut station).into();
        let (kind, reading, octets) = event.parts();
        let lengths = [octets.len(), frames.len()].map(|length| length as u32);
        whole += 2 * ENTRY as u64 + u64::from(lengths[0]) + u64::from(lengths[1]);
        if whole > LONGEST as u64 {
            break;
        }
        log.events.push(Event { kind, reading, length: lengths[0] });
        log.octets.extend_from_slice(&octets);
        log.replies.push(Reply { refusal, indication, length: lengths[1] });
        log.frames.extend(frames);
    }
    let mut octets = vec![0; LONGEST];
    let written = log.write(&mut octets);
    octets.truncate(written.map_err(|cause| refused(cause as u32))?);
    Ok(octets)
}

fn refused(cause: u32) -> io::Error {
    io::Error::other(format!("the log is refused, cause {cause}"))
}

/// How often a change is tried.
const TRIES: usize = 1_000;

/// `damage-log CAUSE SEED`: the log with something wrong, so that it is refused for that cause;
/// now and then with more that is wrong behind it.
pub fn damage(log: &[u8], cause: u32, seed: u64) -> io::Result<Vec<u8>> {
    let log = Log::read(log).map_err(|cause| refused(cause as u32))?;
    let mut random = Random::new(seed);
    for _ in 0..TRIES {
        let mut causes = vec![cause];
        if random.chance(40) {
            causes.push(1 + random.below(14) as u32);
        }
        let mut changed = log.clone();
        causes.iter().for_each(|cause| change_fields(&mut changed, *cause, &mut random));
        let mut octets = changed.to_octets();
        causes.iter().for_each(|cause| change_places(&mut octets, *cause, &mut random));
        if Log::read(&octets).is_err_and(|found| found as u32 == cause) {
            return Ok(octets);
        }
    }
    Err(io::Error::other(format!("no log is refused for cause {cause}")))
}

/// `change-log EVENT SEED`: the log with another reply to that event, and now and then to a later
/// one.
pub fn change(log: &[u8], event: u32, seed: u64) -> io::Result<Vec<u8>> {
    let log = Log::read(log).map_err(|cause| refused(cause as u32))?;
    let mut random = Random::new(seed);
    for _ in 0..TRIES {
        let mut changed = log.clone();
        change_reply(&mut changed, event as usize, &mut random);
        if random.chance(30) {
            let later = 1 + random.below(changed.replies.len());
            change_reply(&mut changed, later, &mut random);
        }
        let octets = changed.to_octets();
        if replay(&octets).number() == i64::from(event) {
            return Ok(octets);
        }
    }
    Err(io::Error::other("no such event, or an earlier one differs"))
}

/// Changes the reply to that event, from 1.
fn change_reply(log: &mut Log, event: usize, random: &mut Random) {
    let place = event.wrapping_sub(1);
    let Some((mut reply, frames)) = log.replies().nth(place) else { return };
    let mut frames = frames.to_vec();
    let refusal = 1 + random.below(30) as u32;
    match random.below(6) {
        0 => reply.refusal = random.pick(&[0, refusal, u32::MAX], 1),
        1 => reply.indication = random.below(3) as u32,
        2 => frames.push(random.next() as u8),
        3 => frames.truncate(random.below(frames.len())),
        4 => frames.extend(frames.clone()),
        _ => {
            let (at, bit) = (random.below(frames.len()), 1 << random.below(8));
            frames.iter_mut().skip(at).take(1).for_each(|octet| *octet ^= bit);
        }
    }
    if reply.refusal != 0 {
        frames.clear();
        reply.indication = 0;
    }
    put_reply(log, place, reply, &frames);
}

/// Puts a reply and its frames in the place of another.
fn put_reply(log: &mut Log, place: usize, reply: Reply, frames: &[u8]) {
    let mut parts: Vec<Vec<u8>> = log.replies().map(|(_, frames)| frames.to_vec()).collect();
    let Some(part) = parts.get_mut(place) else { return };
    *part = frames.to_vec();
    log.replies[place] = Reply { length: frames.len() as u32, ..reply };
    log.frames = parts.concat();
}

/// Puts an event and its octets in the place of another.
fn put_event(log: &mut Log, place: usize, event: Event, octets: &[u8]) {
    let mut parts: Vec<Vec<u8>> = log.events().map(|(_, octets)| octets.to_vec()).collect();
    let Some(part) = parts.get_mut(place) else { return };
    *part = octets.to_vec();
    log.events[place] = Event { length: octets.len() as u32, ..event };
    log.octets = parts.concat();
}

/// A number that isn't small.
fn large(random: &mut Random) -> u32 {
    let any = random.next() as u32;
    random.pick(&[1 << 8, 1 << 16, 1 << 24, 1 << 31, u32::MAX, any], any)
}

/// Damage of the fields, causes 8 to 14, in some event or reply.
fn change_fields(log: &mut Log, cause: u32, random: &mut Random) {
    if log.events.is_empty() {
        log.events.push(Event { kind: TERMINATE, reading: 0, length: 0 });
        log.replies.push(Reply { refusal: 0, indication: 0, length: 0 });
    }
    let place = random.below(log.events.len());
    let Some((mut event, octets)) = log.events().nth(place) else { return };
    let octets = octets.to_vec();
    let large = large(random);
    let any = random.next() as u8;
    match cause {
        8 if random.chance(50) => log.settings.exempt = random.pick(&[2, 3, large], 2),
        8 => log.settings.edition = random.pick(&[2, 3, large], 2),
        9 => {
            event.kind = random.pick(&[5, 6, 7, large], 5);
            put_event(log, place, event, &octets);
        }
        10 => {
            let kind = random.pick(&[FRAME, TERMINATE, LINK_UP], FRAME);
            let reading = random.pick(&[1, large], 1);
            put_event(log, place, Event { kind, reading, length: 0 }, &octets);
        }
        11 => {
            let kind = random.pick(&[TICK, PILOT, PILOT, TERMINATE, LINK_UP], PILOT);
            let reading = if matches!(kind, TICK | PILOT) { large } else { 0 };
            let octets = vec![any % 8; random.pick(&[0, 1, 2, 60], 2)];
            put_event(log, place, Event { kind, reading, length: 0 }, &octets);
        }
        12 => {
            let octets = [random.pick(&[6, 7, 255, any], 6)];
            put_event(log, place, Event { kind: PILOT, reading: large, length: 1 }, &octets);
        }
        13 | 14 => {
            let refusal = random.pick(&[0, 1, 8, 11, 14, 17, large], 1);
            let indication = match cause {
                13 => random.pick(&[1, 2, 3, 4, large], 3),
                _ => random.pick(&[0, 0, 0, 1], 0),
            };
            let frames = vec![any; random.pick(&[0, 1, 60], 1)];
            put_reply(log, place, Reply { refusal, indication, length: 0 }, &frames);
        }
        _ => {}
    }
}

/// Damage of the places, causes 1 to 6.
fn change_places(log: &mut Vec<u8>, cause: u32, random: &mut Random) {
    let length = log.len();
    let second = number(log, 12).map_or(0, |place| place as usize);
    let mut starts = entries(log);
    let replies = starts.split_off(starts.len() / 2);
    let more = random.pick(&[1, 2, 12, 100], 1);
    let any = random.next() as u8;
    match (cause, random.below(6)) {
        (1, 0) => log.resize(LONGEST + 1, any),
        (1, _) => log.resize(LONGEST + more, any),
        (2, 0) => log.truncate(19),
        (2, 1) => log.clear(),
        (2, _) => log.truncate(random.below(20)),
        (3, 0..=2) => replace(log, 4, random),
        (3, _) => replace(log, 0, random),
        (4, _) => replace(log, 8, random),
        (5, 0 | 1) => replace(log, 12, random),
        (5, 2 | 3) => replace(log, random.pick(&starts, EVENTS) + 8, random),
        (5, 4) => log.truncate(EVENTS.max(random.below(second.max(1)))),
        (5, _) => {
            replace(log, 0, random);
            let events = number(log, 0).unwrap_or(0);
            put(log, 4, events);
        }
        (6, 0 | 1) => replace(log, 16, random),
        (6, 2 | 3) => replace(log, random.pick(&replies, second) + 8, random),
        (6, way) => {
            match way {
                4 => log.resize(length + more, any),
                _ => log.truncate(second.max(random.below(length))),
            }
            let length = log.len() as u32;
            if random.chance(50) {
                put(log, 16, length);
            }
        }
        _ => {}
    }
}

/// Where each event and each reply starts.
fn entries(log: &[u8]) -> Vec<usize> {
    let (mut places, mut place) = (Vec::new(), EVENTS);
    while let Some(length) = number(log, place + 8) {
        places.push(place);
        place += ENTRY + length as usize;
    }
    places
}

/// Another number at that place.
fn replace(log: &mut [u8], at: usize, random: &mut Random) {
    let old = number(log, at).unwrap_or(0);
    let any = random.next() as u32;
    let new = match random.below(8) {
        0 | 1 => old.wrapping_add(1),
        2 | 3 => old.wrapping_sub(1),
        4 => old ^ 1 << random.below(32),
        5 => random.below(LONGEST) as u32,
        6 => u32::MAX - random.below(16) as u32,
        _ => any,
    };
    put(log, at, new);
}

fn put(log: &mut [u8], at: usize, number: u32) {
    let octets = log.iter_mut().skip(at).zip(number.to_le_bytes());
    octets.for_each(|(octet, new)| *octet = new);
}
