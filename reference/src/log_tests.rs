//! The log: its octets, each cause for which one is refused, and replays.

use crate::log::{Cause, Event, Log, Reply, Settings, EVENTS, LONGEST};
use crate::log::{FRAME, LINK_UP, PILOT, TERMINATE, TICK};
use crate::log_count::Counts;
use crate::replay::{self, replay, Found};

const SETTINGS: Settings = Settings {
    station: 0x0200_0000_00AA,
    modem: 0x0200_0000_00BB,
    nid: 0x003F_0605_0403_0201,
    nmk: [0x4B; 16],
    exempt: 0,
    edition: 0,
    carriers: 0x395,
};

/// Octets as text; `5*EE` are five octets EE.
fn octets(text: &str) -> Vec<u8> {
    let octet = |text: &str| u8::from_str_radix(text, 16).unwrap();
    let part = |text: &str| match text.split_once('*') {
        Some((times, text)) => vec![octet(text); times.parse().unwrap()],
        None => vec![octet(text)],
    };
    text.split_whitespace().flat_map(part).collect()
}

const P1: &str = "6*FF 02 00 00 00 00 01 88 E1 01 64 60 00 00 00 00 01 02 03 04 05 06 07 08 31*00";
const P2: &str =
    "02 00 00 00 00 01 02 00 00 00 00 AA 88 E1 01 65 60 00 00 FF FF FF FF FF FF 0A 06 \
                  01 02 00 00 00 00 01 00 00 01 02 03 04 05 06 07 08 16*00";

fn log(events: &[(u32, u32, &[u8])], replies: &[(u32, u32, &[u8])]) -> Log {
    let length = |octets: &[u8]| octets.len() as u32;
    let event = |(kind, reading, octets): &(u32, u32, &[u8])| Event {
        kind: *kind,
        reading: *reading,
        length: length(octets),
    };
    let reply = |(refusal, indication, frames): &(u32, u32, &[u8])| Reply {
        refusal: *refusal,
        indication: *indication,
        length: length(frames),
    };
    Log {
        settings: SETTINGS,
        events: events.iter().map(event).collect(),
        octets: events.iter().flat_map(|(_, _, octets)| octets.to_vec()).collect(),
        replies: replies.iter().map(reply).collect(),
        frames: replies.iter().flat_map(|(_, _, frames)| frames.to_vec()).collect(),
    }
}

/// Plug-in, the request P1 with its reply P2, a tick, a link up that is refused, a terminate.
fn session() -> Log {
    let (p1, p2) = (octets(P1), octets(P2));
    log(
        &[
            (PILOT, 7, &[1]),
            (FRAME, 0, &p1),
            (TICK, 8, &[]),
            (LINK_UP, 0, &[]),
            (TERMINATE, 0, &[]),
        ],
        &[(0, 0, &[]), (0, 0, &p2), (0, 0, &[]), (8, 0, &[]), (0, 1, &[])],
    )
}

/// Where its replies start, and where it ends.
const REPLIES: usize = EVENTS + 121;
const TOTAL: usize = REPLIES + 120;

const SESSION: &str = "05 00 00 00 05 00 00 00 43 00 00 00 BC 00 00 00 34 01 00 00 \
    02 00 00 00 00 AA 02 00 00 00 00 BB 01 02 03 04 05 06 3F 16*4B 8*00 95 03 00 00 \
    02 00 00 00 07 00 00 00 01 00 00 00 01 \
    00 00 00 00 00 00 00 00 3C 00 00 00 \
    6*FF 02 00 00 00 00 01 88 E1 01 64 60 00 00 00 00 01 02 03 04 05 06 07 08 31*00 \
    01 00 00 00 08 00 00 00 00 00 00 00 \
    04 00 00 00 00 00 00 00 00 00 00 00 \
    03 00 00 00 00 00 00 00 00 00 00 00 \
    12*00 \
    00 00 00 00 00 00 00 00 3C 00 00 00 \
    02 00 00 00 00 01 02 00 00 00 00 AA 88 E1 01 65 60 00 00 FF FF FF FF FF FF 0A 06 \
    01 02 00 00 00 00 01 00 00 01 02 03 04 05 06 07 08 16*00 \
    12*00 \
    08 00 00 00 00 00 00 00 00 00 00 00 \
    00 00 00 00 01 00 00 00 00 00 00 00";

fn read(octets: &[u8]) -> Result<Log, u32> {
    Log::read(octets).map_err(|cause| cause as u32)
}

/// What is written, into an output that is longer by a few.
fn write(log: &Log) -> Result<Vec<u8>, u32> {
    let mut output = vec![0xEE; LONGEST + 3];
    match log.write(&mut output) {
        Ok(length) => {
            let rest = output.split_off(length);
            assert!(rest.iter().all(|octet| *octet == 0xEE));
            Ok(output)
        }
        Err(cause) => {
            assert!(output.iter().all(|octet| *octet == 0xEE));
            Err(cause as u32)
        }
    }
}

/// The session with the number at a place changed.
fn with(at: usize, number: u32) -> Vec<u8> {
    let mut log = octets(SESSION);
    log[at..at + 4].copy_from_slice(&number.to_le_bytes());
    log
}

#[test]
fn a_log_by_its_octets() {
    assert_eq!(write(&session()), Ok(octets(SESSION)));
    assert_eq!(read(&octets(SESSION)), Ok(session()));
    assert_eq!(session().length(), octets(SESSION).len() as u64);
    assert_eq!(replay(&octets(SESSION)), Found::NoDifference);
    let empty = log(&[], &[]);
    let whole = octets(
        "8*00 43 00 00 00 43 00 00 00 43 00 00 00 02 00 00 00 00 AA 02 00 00 00 00 BB 01 02 03 04 \
         05 06 3F 16*4B 8*00 95 03 00 00",
    );
    assert_eq!((write(&empty), read(&whole)), (Ok(whole.clone()), Ok(empty)));
    assert_eq!(replay(&whole).number(), 0);
}

#[test]
fn causes_of_reading() {
    let whole = octets(SESSION);
    // 1 and 2, the log as a whole.
    let mut long = whole.clone();
    long.resize(LONGEST, 0);
    assert_eq!(read(&long), Err(6));
    long.push(0);
    assert_eq!(read(&long), Err(1));
    for length in 0..whole.len() {
        let cause = match length {
            0..=19 => 2,
            _ if length < REPLIES => 5,
            _ => 6,
        };
        assert_eq!(read(&whole[..length]), Err(cause), "{length}");
    }
    // 3 to 6, the places.
    for number in [0, 4, 6, 0x105, u32::MAX] {
        assert_eq!((read(&with(4, number)), read(&with(0, number))), (Err(3), Err(3)));
    }
    for (at, right, cause) in [(8, EVENTS, 4), (12, REPLIES, 5), (16, TOTAL, 6)] {
        let right = right as u32;
        for number in [0, right - 1, right + 1, right << 8, right | 1 << 16, right | 1 << 31] {
            assert_eq!(read(&with(at, number)), Err(cause));
        }
        assert_eq!(read(&with(at, u32::MAX)), Err(cause));
    }
    // Lengths of events, then of replies; the last event could take the replies' octets.
    for (at, cause) in [
        (EVENTS + 8, 5),
        (EVENTS + 21, 5),
        (EVENTS + 93, 5),
        (EVENTS + 105, 5),
        (EVENTS + 117, 5),
        (EVENTS + 129, 6),
        (EVENTS + 141, 6),
        (EVENTS + 237, 6),
    ] {
        let old = u32::from_le_bytes(whole[at..at + 4].try_into().unwrap());
        for more in [1, 2, 12, 0x7FFF_FFFF, u32::MAX - 60] {
            assert_eq!(read(&with(at, old + more)), Err(cause), "{at}");
        }
        // One that would come back to the same place, if it wrapped.
        assert!(read(&with(at, old.wrapping_sub(12))).is_err());
    }
    // Both counts higher or lower: the events end elsewhere.
    for count in [0, 4, 6, 20, u32::MAX] {
        let mut log = with(0, count);
        log[4..8].copy_from_slice(&count.to_le_bytes());
        assert_eq!(read(&log), Err(5));
    }
    // The log's length is that of the octets read.
    let mut longer = whole.clone();
    longer.push(0);
    assert_eq!(read(&longer), Err(6));
    longer[16] += 1;
    assert_eq!(read(&longer), Err(6));
    // 8.
    for number in [2, 0x100, 0x8000_0000, u32::MAX] {
        assert_eq!((read(&with(55, number)), read(&with(59, number))), (Err(8), Err(8)));
    }
    assert_eq!(read(&with(55, 1)).map(|log| log.settings.exempt), Ok(1));
    assert_eq!(read(&with(59, 1)).map(|log| log.settings.edition), Ok(1));
    // Any number of carriers is no wrong field.
    for carriers in [0, 1, 1_155, 1_156, u32::MAX] {
        assert_eq!(read(&with(63, carriers)).map(|log| log.settings.carriers), Ok(carriers));
    }
    // 9 to 14 in single fields.
    for (at, number, cause) in [
        (EVENTS, 5, 9),
        (EVENTS, 0x102, 9),
        (EVENTS + 85, u32::MAX, 9),
        (EVENTS + 17, 1, 10),
        (EVENTS + 101, 0x100, 10),
        (EVENTS + 113, u32::MAX, 10),
        (EVENTS, 0, 10),
        (EVENTS, 1, 11),
        (EVENTS + 85, 2, 11),
        (EVENTS + 125, 3, 13),
        (EVENTS + 125, u32::MAX, 13),
        (EVENTS + 133, 0, 0),
        (EVENTS + 221, 1, 13),
        (EVENTS + 221, 3, 13),
        (EVENTS + 233, 3, 13),
        (EVENTS + 133, 1, 14),
        (EVENTS + 133, u32::MAX, 14),
    ] {
        let cause = if cause == 0 { Ok(()) } else { Err(cause) };
        assert_eq!(read(&with(at, number)).map(|_| ()), cause, "{at}, {number}");
    }
    for state in 0..=255 {
        let mut log = octets(SESSION);
        log[EVENTS + 12] = state;
        assert_eq!(read(&log).map(|_| ()), if state <= 5 { Ok(()) } else { Err(12) });
    }
    // An unknown refusal is no wrong field.
    assert!(read(&with(EVENTS + 217, 99)).is_ok() && read(&with(EVENTS + 217, u32::MAX)).is_ok());
}

#[test]
fn causes_in_their_order() {
    let rewritten = |events: &[(u32, u32, &[u8])], replies: &[(u32, u32, &[u8])]| {
        let log = log(events, replies);
        let read = read(&log.to_octets()).map(|_| ());
        assert_eq!(write(&log).map(|_| ()), read);
        read
    };
    let fine: [(u32, u32, &[u8]); 2] = [(0, 0, &[]), (0, 0, &[])];
    // Events one after the other, each by its lowest cause, then replies.
    assert_eq!(rewritten(&[(PILOT, 1, &[6]), (9, 0, &[])], &fine), Err(12));
    assert_eq!(rewritten(&[(PILOT, 1, &[6, 6]), (TICK, 0, &[])], &fine), Err(11));
    assert_eq!(rewritten(&[(TERMINATE, 1, &[6]), (9, 0, &[])], &fine), Err(10));
    assert_eq!(rewritten(&[(5, 1, &[6]), (9, 0, &[])], &fine), Err(9));
    assert_eq!(rewritten(&[(TICK, 5, &[]), (LINK_UP, 0, &[0])], &fine), Err(11));
    assert_eq!(rewritten(&[(PILOT, 5, &[]), (LINK_UP, 0, &[])], &fine), Err(11));
    assert_eq!(rewritten(&[(TICK, 5, &[]), (FRAME, 0, &[6, 6])], &fine), Ok(()));
    let good: [(u32, u32, &[u8]); 2] = [(PILOT, 1, &[5]), (FRAME, 0, &[])];
    let wrong: [(u32, u32, &[u8]); 2] = [(7, 3, &[1]), (0, 3, &[])];
    assert_eq!(rewritten(&[(PILOT, 1, &[5]), (FRAME, 2, &[])], &wrong), Err(10));
    assert_eq!(rewritten(&good, &wrong), Err(13));
    assert_eq!(rewritten(&good, &[(7, 0, &[1]), (0, 3, &[])]), Err(14));
    assert_eq!(rewritten(&good, &[(0, 2, &[1]), (0, 3, &[])]), Err(13));
    assert_eq!(rewritten(&good, &[(7, 1, &[]), (7, 0, &[])]), Err(13));
    assert_eq!(rewritten(&good, &[(0, 2, &[9, 9]), (u32::MAX, 0, &[])]), Ok(()));
    // 8 before them.
    let mut strange = log(&[(9, 9, &[9])], &[(1, 1, &[1])]);
    strange.settings.exempt = 2;
    assert_eq!((read(&strange.to_octets()), write(&strange)), (Err(8), Err(8)));
}

#[test]
fn causes_of_writing() {
    let set = |change: fn(&mut Log)| {
        let mut log = session();
        change(&mut log);
        write(&log)
    };
    // 1, by the lengths, before everything else, and without wrapping.
    for length in [65_536, u32::MAX] {
        let mut log = session();
        log.settings.station = u64::MAX;
        log.replies.pop();
        log.events[1].length = length;
        assert_eq!(write(&log), Err(1));
        log.replies[0].length = u32::MAX;
        assert_eq!(write(&log), Err(1));
    }
    let fill = LONGEST - EVENTS - 24;
    let full = |length: usize| log(&[(FRAME, 0, &vec![1; length])], &[(0, 0, &[])]);
    assert_eq!(write(&full(fill)).map(|log| log.len()), Ok(LONGEST));
    assert_eq!(write(&full(fill + 1)), Err(1));
    assert_eq!(read(&write(&full(fill)).unwrap()), Ok(full(fill)));
    // 3, 7 and 8.
    let fewer = |log: &mut Log| {
        log.replies.pop();
        log.settings.nid = u64::MAX;
    };
    assert_eq!(set(fewer), Err(3));
    assert_eq!(set(|log| log.events.push(log.events[4])), Err(3));
    for wide in [1 << 48, u64::MAX] {
        let mut log = session();
        (log.settings.station, log.settings.exempt) = (wide, 2);
        assert_eq!(write(&log), Err(7));
        (log.settings.station, log.settings.modem) = (0, wide);
        assert_eq!(write(&log), Err(7));
    }
    for (nid, written) in [(1 << 56, Err(7)), (u64::MAX, Err(7)), ((1 << 56) - 1, Ok(TOTAL))] {
        let mut log = session();
        log.settings.nid = nid;
        assert_eq!(write(&log).map(|log| log.len()), written);
    }
    assert_eq!(set(|log| log.settings.exempt = 2), Err(8));
    assert_eq!(set(|log| log.settings.edition = 2), Err(8));
    // A bad configuration is no wrong field.
    let bad = |log: &mut Log| (log.settings.station, log.settings.modem) = (0, (1 << 48) - 1);
    assert!(set(bad).is_ok());
    // 11 and 14 where the octets are not as many as the lengths say.
    assert_eq!(set(|log| log.octets.push(0)), Err(11));
    assert_eq!(set(|log| log.octets.truncate(60)), Err(11));
    assert_eq!(set(|log| log.events[1].length += 1), Err(11));
    assert_eq!(set(|log| log.octets.clear()), Err(11));
    assert_eq!(set(|log| log.frames.push(0)), Err(14));
    assert_eq!(set(|log| log.frames.clear()), Err(14));
    assert_eq!(set(|log| log.replies[1].length -= 1), Err(14));
    let mut none = log(&[], &[]);
    none.octets.push(0);
    assert_eq!(write(&none), Err(11));
    none.octets.clear();
    none.frames.push(0);
    assert_eq!(write(&none), Err(14));
    // An event's own lower cause comes first, a later event's does not.
    let kind = |log: &mut Log| {
        log.octets.clear();
        log.events[0].kind = 5;
    };
    assert_eq!(set(kind), Err(9));
    let later = |log: &mut Log| {
        log.octets.clear();
        log.events[3].kind = 5;
    };
    assert_eq!(set(later), Err(11));
    // 15, last of all.
    let mut output = vec![0xEE; TOTAL - 1];
    assert_eq!(session().write(&mut output), Err(Cause::Output));
    assert_eq!(output, vec![0xEE; TOTAL - 1]);
    let mut wrong = session();
    wrong.replies[4].indication = 3;
    assert_eq!(wrong.write(&mut []), Err(Cause::Indication));
}

#[test]
fn one_meaning_has_one_layout() {
    // Every log that differs in one bit is refused, or means something else.
    let whole = octets(SESSION);
    for (at, bit) in (0..whole.len()).flat_map(|at| (0..8).map(move |bit| (at, bit))) {
        let mut changed = whole.clone();
        changed[at] ^= 1 << bit;
        if let Ok(log) = read(&changed) {
            assert_ne!(log, session());
            assert_eq!(write(&log), Ok(changed));
        }
    }
    for seed in 0..20 {
        let log = replay::log(seed, 300).unwrap();
        assert_eq!(write(&read(&log).unwrap()), Ok(log));
    }
}

#[test]
fn replays_by_their_number() {
    let whole = octets(SESSION);
    assert_eq!(replay(&whole).number(), 0);
    assert_eq!(replay(&whole[..200]).number(), -6);
    assert_eq!(replay(&[]).number(), -2);
    // Refusal, indication and frames of each event.
    for (at, octet, event) in [
        (EVENTS + 217, 9, 4),
        (EVENTS + 121, 15, 1),
        (EVENTS + 233, 0, 5),
        (EVENTS + 125, 2, 1),
        (EVENTS + 145, 3, 2),
        (EVENTS + 196, 0xEE, 2),
    ] {
        let mut changed = whole.clone();
        changed[at] = octet;
        assert_eq!(replay(&changed).number(), event);
        // The first of two.
        changed[TOTAL - 8] = 2;
        assert_eq!(replay(&changed).number(), event);
    }
    // More frames, and fewer.
    let mut changed = session();
    changed.replies[2].length = 60;
    changed.frames.extend(octets(P2));
    assert_eq!(replay(&changed.to_octets()).number(), 3);
    let mut changed = session();
    changed.replies[1].length = 0;
    changed.frames.clear();
    assert_eq!(replay(&changed.to_octets()).number(), 2);
    // The station takes its reading from the log, and its configuration.
    assert_eq!(replay(&with(EVENTS + 89, 406)).number(), 0);
    assert_eq!(replay(&with(EVENTS + 89, 60_007)).number(), 3);
    assert_eq!(replay(&with(EVENTS + 89, 60_008)).number(), 3);
    assert_eq!(replay(&with(EVENTS + 4, u32::MAX)).number(), 0);
    let mut other = session();
    other.settings.station += 1;
    assert_eq!(replay(&other.to_octets()).number(), 2);
    // A bad configuration answers 16 to each event.
    other.settings.modem = other.settings.station;
    assert_eq!(replay(&other.to_octets()).number(), 1);
    other.replies.fill(Reply { refusal: 16, indication: 0, length: 0 });
    other.frames.clear();
    assert_eq!(replay(&other.to_octets()).number(), 0);
    assert!(other.settings.config().nid.is_valid());
    for settings in [
        Settings { nid: 1 << 54, ..SETTINGS },
        Settings { carriers: 0, ..SETTINGS },
        Settings { carriers: 1_156, ..SETTINGS },
    ] {
        other.settings = settings;
        assert_eq!(replay(&other.to_octets()).number(), 0);
    }
    assert_eq!(read(&other.to_octets()), Ok(other));
}

#[test]
fn a_validation_in_a_log() {
    let logs = (0..400).map(|seed| replay::log(seed, 400).unwrap());
    let (exempt, others): (Vec<_>, Vec<_>) = logs.partition(|log| log[55] == 1);
    assert!(exempt.len() > 20 && others.len() > 100);
    // The setting is the station's: with the other one a log with a validation differs.
    let differs = |log: &Vec<u8>| {
        let mut other = log.clone();
        other[55] ^= 1;
        replay(&other).number() > 0
    };
    assert!(exempt.iter().any(differs) && others.iter().any(differs));
}

#[test]
fn random_logs_reach_every_row() {
    let mut counts = Counts::new();
    for seed in 0..60 {
        let log = replay::log(seed, if seed == 0 { 0 } else { 60 + seed as u32 }).unwrap();
        assert_eq!(replay(&log).number(), 0);
        counts.log(&log);
        for cause in [1, 2, 3, 4, 5, 6, 8, 9, 10, 11, 12, 13, 14] {
            let damaged = replay::damage(&log, cause, seed).unwrap();
            assert_eq!(replay(&damaged).number(), -i64::from(cause));
            counts.log(&damaged);
        }
        let events = read(&log).unwrap().events.len() as u32;
        for event in
            [1, events / 3, events].into_iter().filter(|event| (1..=events).contains(event))
        {
            let changed = replay::change(&log, event, seed).unwrap();
            assert_eq!(replay(&changed).number(), i64::from(event));
            counts.log(&changed);
        }
        assert!(replay::change(&log, events + 1, seed).is_err());
    }
    for seed in 60..70 {
        let log = replay::log(seed, 5_000).unwrap();
        assert!(log.len() <= LONGEST && replay(&log).number() == 0);
        counts.log(&log);
    }
    for cause in [0, 7, 15, 16] {
        assert!(replay::damage(&octets(SESSION), cause, 1).is_err());
    }
    let table = counts.to_string();
    let zeros: Vec<&str> = table.lines().filter(|row| row.ends_with(" 0")).collect();
    assert!(zeros.is_empty(), "{zeros:?}");
    assert_eq!(table.lines().count(), Counts::new().to_string().lines().count());
}
