//! The log of a session: its layout, and which field of a log is wrong.

use std::ops::Range;

/// A log is at most so long.
pub const LONGEST: usize = 65_536;
/// Five numbers.
pub const HEAD: usize = 20;
/// The three numbers of an event or of a reply, before its octets.
const ENTRY: usize = 12;

/// The numbers of the head, in their order.
pub const HEAD_FIELDS: [&str; 5] = [
    "number of events", "number of replies", "where the events start", "where the replies start",
    "length of the log",
];

/// A field of the configuration.
pub struct Setting {
    pub name: &'static str,
    pub octets: usize,
    /// The greatest number that the log's layout allows, where it has a limit.
    pub greatest: Option<u32>,
}

const fn setting(name: &'static str, octets: usize, greatest: Option<u32>) -> Setting {
    Setting { name, octets, greatest }
}

/// The configuration, field by field; the events start behind the last one.
pub const SETTINGS: [Setting; 7] = [
    setting("address of the station", 6, None),
    setting("address of its modem", 6, None),
    setting("NID", 7, None),
    setting("NMK", 16, None),
    setting("validation not required", 4, Some(1)),
    setting("edition", 4, Some(1)),
    setting("carriers", 4, None),
];

/// Where a setting stands in the log.
pub fn setting_octets(at: usize) -> Range<usize> {
    let start = HEAD + SETTINGS.iter().take(at).map(|setting| setting.octets).sum::<usize>();
    start..start + SETTINGS.get(at).map_or(0, |setting| setting.octets)
}

/// Where the events start.
pub fn events_start() -> usize {
    setting_octets(SETTINGS.len()).start
}

#[derive(Clone, Copy, Debug, PartialEq, Eq)]
pub enum Kind {
    Frame,
    Tick,
    Pilot,
    Terminate,
    LinkUp,
}

const KINDS: [Kind; 5] = [Kind::Frame, Kind::Tick, Kind::Pilot, Kind::Terminate, Kind::LinkUp];

#[derive(Clone, Debug)]
pub struct Event {
    pub kind: Kind,
    pub reading: u32,
    pub octets: Vec<u8>,
}

/// What a station answers to an event: a refusal or 0, an indication or 0, and frames back to back.
#[derive(Clone, Debug, PartialEq, Eq)]
pub struct Answer {
    pub refusal: u32,
    pub indication: u32,
    pub frames: Vec<u8>,
}

#[derive(Clone, Debug)]
pub struct Log {
    /// The octets of each setting, in their order.
    pub settings: Vec<Vec<u8>>,
    pub events: Vec<Event>,
    pub replies: Vec<Answer>,
}

/// What a wrong field belongs to.
#[derive(Clone, Copy, Debug, PartialEq, Eq)]
pub enum Part {
    Whole,
    Head,
    Configuration,
    /// From 1, as in the replay.
    Event(usize),
    Reply(usize),
}

/// Why a log is refused.
#[derive(Clone, Debug, PartialEq, Eq)]
pub struct Wrong {
    pub cause: u32,
    pub part: Part,
    pub field: &'static str,
    /// The log's octets that the field takes; none where the whole log is wrong.
    pub octets: Option<Range<usize>>,
    /// What was found there, and what would be right.
    pub found: String,
}

type Checked<T> = Result<T, Wrong>;

/// An entry of a list, an event or a reply: where it starts, its three numbers, and its octets.
struct Entry<'a> {
    at: usize,
    numbers: [u32; 3],
    octets: &'a [u8],
}

pub fn number(octets: &[u8], at: usize) -> Option<u32> {
    octets.get(at..)?.first_chunk().copied().map(u32::from_le_bytes)
}

fn entry(log: &[u8], at: usize) -> Option<Entry<'_>> {
    let numbers = [number(log, at)?, number(log, at + 4)?, number(log, at + 8)?];
    let length = usize::try_from(numbers[2]).ok()?;
    let (octets, _) = log.get(at + ENTRY..)?.split_at_checked(length)?;
    Some(Entry { at, numbers, octets })
}

/// So many entries from a place on, and where they end; or the number, from 0, and the place of the
/// first one that does not end within the log.
fn entries(
    log: &[u8],
    start: usize,
    count: u32,
) -> Result<(Vec<Entry<'_>>, usize), (usize, usize)> {
    let (mut list, mut place) = (Vec::new(), start);
    for at in 0..count as usize {
        let entry = entry(log, place).ok_or((at, place))?;
        place += ENTRY + entry.octets.len();
        list.push(entry);
    }
    Ok((list, place))
}

fn whole(cause: u32, found: String) -> Wrong {
    Wrong { cause, part: Part::Whole, field: "the log's length", octets: None, found }
}

/// A wrong number of the head.
fn head(cause: u32, at: usize, found: String) -> Wrong {
    let octets = Some(4 * at..4 * at + 4);
    Wrong { cause, part: Part::Head, field: HEAD_FIELDS[at], octets, found }
}

/// Causes 1 to 6: lengths and places; gives the events and the replies.
fn lists(log: &[u8]) -> Checked<(Vec<Entry<'_>>, Vec<Entry<'_>>)> {
    if log.len() > LONGEST {
        return Err(whole(
            1,
            format!("It has {} octets; at most {LONGEST} are allowed.", log.len()),
        ));
    }
    if log.len() < HEAD {
        return Err(whole(2, format!("It has {} octets; its head alone has {HEAD}.", log.len())));
    }
    let at = |place: usize| number(log, 4 * place).unwrap_or(0);
    let (count, replies) = (at(0), at(1));
    if replies != count {
        return Err(head(3, 1, format!("It says {replies}; the number of events is {count}.")));
    }
    let start = events_start();
    if at(2) as usize != start {
        return Err(head(4, 2, format!("It says {}; the configuration ends at {start}.", at(2))));
    }
    let (events, second) = entries(log, start, count)
        .map_err(|(event, place)| head(5, 3, ends_nowhere("event", log, event, place)))?;
    if at(3) as usize != second {
        return Err(head(5, 3, format!("It says {}; the events end at {second}.", at(3))));
    }
    let (replies, end) = match entries(log, second, count) {
        _ if at(4) as usize != log.len() => {
            let found = format!("It says {}; the log has {} octets.", at(4), log.len());
            return Err(head(6, 4, found));
        }
        Err((reply, place)) => return Err(head(6, 4, ends_nowhere("reply", log, reply, place))),
        Ok(list) => list,
    };
    if end != log.len() {
        let found = format!("The replies end at {end}; the log has {} octets.", log.len());
        return Err(head(6, 4, found));
    }
    Ok((events, replies))
}

fn ends_nowhere(list: &str, log: &[u8], at: usize, place: usize) -> String {
    let length = number(log, place + 8)
        .map_or("does not stand whole in the log".into(), |length| {
            format!("has the length {length}")
        });
    format!(
        "{} {}, from octet {place} on, {length}; the log ends at octet {}.",
        if list == "event" { "Event" } else { "Reply" },
        at + 1,
        log.len()
    )
}

/// Cause 8.
fn settings(log: &[u8]) -> Checked<Vec<Vec<u8>>> {
    let part = |at| log.get(setting_octets(at)).unwrap_or_default().to_vec();
    for (at, setting) in SETTINGS.iter().enumerate() {
        let octets = setting_octets(at);
        let found = number(log, octets.start).unwrap_or(0);
        if setting.greatest.is_some_and(|greatest| found > greatest) {
            let found = format!("It says {found}; only 0 and 1 are allowed.");
            let (part, octets) = (Part::Configuration, Some(octets));
            return Err(Wrong { cause: 8, part, field: setting.name, octets, found });
        }
    }
    Ok((0..SETTINGS.len()).map(part).collect())
}

/// Causes 9 to 12.
fn event(at: usize, entry: &Entry) -> Checked<Event> {
    let [kind, reading, length] = entry.numbers;
    let wrong = |cause, field, place: usize, size: usize, found| {
        let octets = Some(entry.at + place..entry.at + place + size);
        Wrong { cause, part: Part::Event(at + 1), field, octets, found }
    };
    let Some(kind) = KINDS.get(kind as usize).copied() else {
        return Err(wrong(9, "kind", 0, 4, format!("It says {kind}; the greatest kind is 4.")));
    };
    if reading != 0 && !matches!(kind, Kind::Tick | Kind::Pilot) {
        let found = format!("It says {reading}; only ticks and pilot changes have a reading.");
        return Err(wrong(10, "reading", 4, 4, found));
    }
    let expected = match kind {
        Kind::Frame => length,
        Kind::Pilot => 1,
        _ => 0,
    };
    if length != expected {
        let found = format!("It says {length}; such an event has {expected}.");
        return Err(wrong(11, "length", 8, 4, found));
    }
    match entry.octets {
        [state, ..] if kind == Kind::Pilot && *state > 5 => {
            Err(wrong(12, "pilot state", ENTRY, 1, format!("It says {state}; F, 5, is the last.")))
        }
        octets => Ok(Event { kind, reading, octets: octets.to_vec() }),
    }
}

/// Causes 13 and 14.
fn reply(at: usize, entry: &Entry) -> Checked<Answer> {
    let [refusal, indication, length] = entry.numbers;
    let wrong = |cause, field, place: usize, found| {
        let octets = Some(entry.at + place..entry.at + place + 4);
        Wrong { cause, part: Part::Reply(at + 1), field, octets, found }
    };
    if refusal != 0 && indication != 0 {
        let found = format!("It says {indication}, beside the refusal {refusal}.");
        return Err(wrong(13, "indication", 4, found));
    }
    if indication > 2 {
        let found = format!("It says {indication}; the greatest one of a station is 2.");
        return Err(wrong(13, "indication", 4, found));
    }
    if refusal != 0 && length != 0 {
        let found = format!("It says {length}, beside the refusal {refusal}.");
        return Err(wrong(14, "length", 8, found));
    }
    Ok(Answer { refusal, indication, frames: entry.octets.to_vec() })
}

/// Reads a log: the whole is judged first, then the places, then the fields in their order.
///
/// # Errors
///
/// The first field that is wrong.
pub fn read(log: &[u8]) -> Result<Log, Wrong> {
    let (events, replies) = lists(log)?;
    let settings = settings(log)?;
    let events: Checked<Vec<Event>> =
        events.iter().enumerate().map(|(at, entry)| event(at, entry)).collect();
    let events = events?;
    let replies: Checked<Vec<Answer>> =
        replies.iter().enumerate().map(|(at, entry)| reply(at, entry)).collect();
    Ok(Log { settings, events, replies: replies? })
}

/// The sentence of a cause, as `docs/INTEGRATION.md` has it.
pub fn cause(number: u32) -> &'static str {
    match number {
        1 => "it is longer than 65,536 octets",
        2 => "it ends before its head does",
        3 => "the number of replies is not that of events",
        4 => "the events do not start where the configuration ends",
        5 => {
            "the replies do not start where the events end, or the events do not end within the log"
        }
        6 => {
            "the length in the head is not the log's, or the replies do not end where the log does"
        }
        8 => "a setting, or the edition, is neither 1 nor 0",
        9 => "an event's kind is over 4",
        10 => "a frame, terminate or link up has a reading",
        11 => "a pilot change has not one octet, or a tick, terminate or link up has any",
        12 => "a pilot state is over 5",
        13 => "an indication is over 2, or stands beside a refusal",
        _ => "frames stand beside a refusal",
    }
}

#[cfg(test)]
mod tests {
    use super::{events_start, number, read, setting_octets, Part, SETTINGS};

    /// A plug-in and a terminate, each accepted.
    fn log() -> Vec<u8> {
        let numbers = |list: &[u32]| list.iter().flat_map(|n| n.to_le_bytes()).collect::<Vec<u8>>();
        let first = u32::try_from(events_start()).unwrap();
        let configuration = vec![0; events_start() - 20];
        let events = [numbers(&[2, 7, 1]), vec![1], numbers(&[3, 0, 0])].concat();
        let head = numbers(&[2, 2, first, first + 25, first + 49]);
        [head, configuration, events, numbers(&[0, 0, 0]), numbers(&[8, 0, 0])].concat()
    }

    #[test]
    fn the_events_start_behind_the_carriers() {
        assert_eq!(events_start(), 67);
        assert_eq!(setting_octets(SETTINGS.len() - 1), 63..67);
    }

    #[test]
    fn a_good_log_is_read() {
        let read = read(&log()).unwrap();
        assert_eq!((read.events.len(), read.replies.len()), (2, 2));
        assert_eq!((read.events[0].reading, read.replies[1].refusal), (7, 8));
    }

    /// A number of the log is replaced: the cause, and where it is.
    #[test]
    fn each_wrong_field_has_its_cause_and_place() {
        let rows: [(usize, u32, u32, Part); 12] = [
            (4, 3, 3, Part::Head),
            (8, 68, 4, Part::Head),
            (12, 91, 5, Part::Head),
            (16, 1, 6, Part::Head),
            (55, 2, 8, Part::Configuration),
            (59, 9, 8, Part::Configuration),
            (67, 5, 9, Part::Event(1)),
            (84, 1, 10, Part::Event(2)),
            (67, 1, 11, Part::Event(1)),
            (96, 3, 13, Part::Reply(1)),
            (108, 1, 13, Part::Reply(2)),
            (67 + 8, 4_294_967_284, 5, Part::Head),
        ];
        for (place, value, cause, part) in rows {
            let mut log = log();
            log[place..place + 4].copy_from_slice(&value.to_le_bytes());
            let wrong = read(&log).unwrap_err();
            assert_eq!((wrong.cause, wrong.part), (cause, part), "{place} {value}");
            if cause != 11 && place < 75 || place > 80 {
                assert_eq!(wrong.octets.unwrap().start, place);
            }
        }
        assert_eq!(number(&[1, 0, 0], 0), None);
    }

    #[test]
    fn lengths_are_judged_first() {
        assert_eq!(read(&[0; 19]).unwrap_err().cause, 2);
        assert_eq!(read(&[0; 20]).unwrap_err().cause, 4);
        assert_eq!(read(&vec![0; 65_537]).unwrap_err().cause, 1);
        let mut log = log();
        log[79] = 6;
        let wrong = read(&log).unwrap_err();
        assert_eq!((wrong.cause, wrong.part, wrong.octets), (12, Part::Event(1), Some(79..80)));
    }
}
