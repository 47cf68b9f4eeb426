//! What a log reaches: for which cause it is refused and in which way, or what its replay finds.

use crate::count::Table;
use crate::log::{number, Cause, Log, EVENTS, LONGEST};
use crate::log::{FRAME, LINK_UP, PILOT, TERMINATE, TICK};
use crate::replay::{replay, Found};
use std::fmt;

const CAUSE: &str = "1 cause";
const ORDER: &str = "2 order";
const REPLAY: &str = "3 replay";

const CAUSES: [&str; 42] = [
    " 1: one octet too long", " 1: longer", " 2: no octet", " 2: 1 to 18 octets", " 2: 19 octets",
    " 3: more replies", " 3: fewer replies", " 4: too low", " 4: too high", " 5: too low",
    " 5: too high", " 5: nowhere, a head is cut", " 5: nowhere, octets are cut",
    " 5: nowhere, a length that would wrap", " 6: total too low", " 6: total too high",
    " 6: octets behind the replies", " 6: nowhere, a head is cut", " 6: nowhere, octets are cut",
    " 6: nowhere, a length that would wrap", " 8: validation not required", " 8: edition",
    " 9: kind 5", " 9: kind over 5", "10: frame", "10: terminate", "10: link up", "11: tick",
    "11: pilot, no octet", "11: pilot, more octets", "11: terminate", "11: link up", "12: pilot 6",
    "12: pilot over 6", "13: over 2, accepted", "13: over 2, refused", "13: 1 or 2, refused", "14",
    "at the first event", "at a later event", "at the first reply", "at a later reply",
];

/// Two causes that apply: the first one is given.
const ORDERS: [&str; 15] = [
    " 3 before  4",
    " 3 before  5",
    " 3 before  6",
    " 4 before  5",
    " 4 before  6",
    " 5 before  6",
    " 8 before an event's",
    " 8 before a reply's",
    " 9 before 10",
    "10 before 11",
    "11 before 12",
    "13 before 14",
    "an event's before a lower one of a later event",
    "an event's before a reply's",
    "a reply's before a lower one of a later reply",
];

const REPLAYS: [&str; 14] = [
    "no event", "no difference", "no difference, bad configuration",
    "a log of 65,536 octets less a few", "frame", "tick", "pilot", "terminate", "link up",
    "another refusal", "another indication", "other frames",
    "a refusal that the station never gives", "differs at the last event",
];

/// The table of a log.
pub struct Counts(Table);

impl Counts {
    /// A table of zeros.
    pub fn new() -> Counts {
        let mut table = Table::default();
        CAUSES.iter().for_each(|name| table.row(CAUSE, name));
        ORDERS.iter().for_each(|name| table.row(ORDER, name));
        REPLAYS.iter().for_each(|name| table.row(REPLAY, name));
        Counts(table)
    }

    /// Counts one log.
    pub fn log(&mut self, log: &[u8]) {
        match (replay(log), Log::read(log)) {
            (Found::Refused(cause), _) => self.refused(log, cause),
            (found, Ok(read)) => self.replayed(&read, log.len(), &found),
            _ => {}
        }
    }

    fn refused(&mut self, log: &[u8], cause: Cause) {
        let mut add = |name: &str| self.0.add(CAUSE, name);
        match cause {
            Cause::Long => add(match log.len() - LONGEST {
                1 => " 1: one octet too long",
                _ => " 1: longer",
            }),
            Cause::Short => add(match log.len() {
                0 => " 2: no octet",
                19 => " 2: 19 octets",
                _ => " 2: 1 to 18 octets",
            }),
            _ => {
                let places = places(log);
                let fields = if places.is_empty() { fields(log) } else { Vec::new() };
                if let Some((_, way)) = places.first() {
                    add(way);
                }
                if let Some(field) = fields.first() {
                    add(&field.way);
                    match (field.list, field.place) {
                        (1, 0) => add("at the first event"),
                        (1, _) => add("at a later event"),
                        (2, 0) => add("at the first reply"),
                        (2, _) => add("at a later reply"),
                        _ => {}
                    }
                }
                self.order(&places, &fields);
            }
        }
    }

    /// The pairs of causes that apply both, by the first one.
    fn order(&mut self, places: &[(u32, String)], fields: &[Field]) {
        let mut add = |name: &str| self.0.add(ORDER, name);
        if let [(first, _), rest @ ..] = places {
            for (second, _) in rest.iter().filter(|(second, _)| second != first) {
                add(&format!("{first:>2} before {second:>2}"));
            }
        }
        let [first, rest @ ..] = fields else { return };
        for second in rest {
            let same = (first.list, first.place) == (second.list, second.place);
            match (first.list, second.list) {
                (0, 0) => {}
                (0, 1) => add(" 8 before an event's"),
                (0, _) => add(" 8 before a reply's"),
                _ if same => add(&format!("{:>2} before {:>2}", first.cause, second.cause)),
                (1, 2) => add("an event's before a reply's"),
                (1, _) if second.cause < first.cause => {
                    add("an event's before a lower one of a later event");
                }
                (2, _) if second.cause < first.cause => {
                    add("a reply's before a lower one of a later reply");
                }
                _ => {}
            }
        }
    }

    fn replayed(&mut self, log: &Log, length: usize, found: &Found) {
        let mut add = |name: &str| self.0.add(REPLAY, name);
        match found {
            Found::Difference { event, recorded, came } => {
                if recorded.refusal != came.refusal {
                    add("another refusal");
                }
                if recorded.indication != came.indication {
                    add("another indication");
                }
                if recorded.octets != came.octets {
                    add("other frames");
                }
                if recorded.refusal > 100 {
                    add("a refusal that the station never gives");
                }
                if *event as usize == log.events.len() {
                    add("differs at the last event");
                }
            }
            _ if log.events.is_empty() => add("no event"),
            _ if log.replies.iter().all(|reply| reply.refusal == 16) => {
                add("no difference, bad configuration");
            }
            _ => {
                add("no difference");
                if LONGEST - length < 1_000 {
                    add("a log of 65,536 octets less a few");
                }
                for (kind, name) in kinds() {
                    if log.events.iter().any(|event| event.kind == kind) {
                        add(name);
                    }
                }
            }
        }
    }
}

fn kinds() -> [(u32, &'static str); 5] {
    [
        (FRAME, "frame"),
        (TICK, "tick"),
        (PILOT, "pilot"),
        (TERMINATE, "terminate"),
        (LINK_UP, "link up"),
    ]
}

/// The wrong numbers of the head and lengths: cause and way.
fn places(log: &[u8]) -> Vec<(u32, String)> {
    let head = |place: usize| u64::from(number(log, 4 * place).unwrap_or(0));
    let mut wrong = Vec::new();
    let mut add = |cause: u32, way: &str| wrong.push((cause, format!("{cause:>2}: {way}")));
    let level = |given: u64, right: u64| if given < right { "too low" } else { "too high" };
    if head(0) != head(1) {
        add(3, if head(1) > head(0) { "more replies" } else { "fewer replies" });
    }
    if head(2) != EVENTS as u64 {
        add(4, level(head(2), EVENTS as u64));
    }
    let events = walk(log, EVENTS as u64, head(0));
    match events {
        Ok(end) if end != head(3) => add(5, level(head(3), end)),
        Err(way) => add(5, way),
        Ok(_) => {}
    }
    let length = log.len() as u64;
    if head(4) != length {
        add(6, &format!("total {}", level(head(4), length)));
    }
    match events.and_then(|end| walk(log, end, head(1))) {
        Ok(end) if end < length => add(6, "octets behind the replies"),
        Err(way) if events.is_ok() => add(6, way),
        _ => {}
    }
    wrong
}

/// Where a list ends, or why nowhere.
fn walk(log: &[u8], start: u64, count: u64) -> Result<u64, &'static str> {
    let mut place = start;
    for _ in 0..count {
        let at = usize::try_from(place).unwrap_or(usize::MAX - 12);
        let Some(length) = number(log, at + 8) else { return Err("nowhere, a head is cut") };
        place += 12 + u64::from(length);
        if place >> 32 != 0 {
            return Err("nowhere, a length that would wrap");
        }
        if place > log.len() as u64 {
            return Err("nowhere, octets are cut");
        }
    }
    Ok(place)
}

/// A wrong field: 0 for the configuration, 1 for an event or 2 for a reply, its place, the cause
/// and the way.
struct Field {
    list: u8,
    place: usize,
    cause: u32,
    way: String,
}

/// All wrong fields, in the order in which they are judged.
fn fields(log: &[u8]) -> Vec<Field> {
    let mut wrong = Vec::new();
    let mut add = |list: u8, place: usize, cause: u32, way: &str| {
        let way = if way.is_empty() { format!("{cause:>2}") } else { format!("{cause:>2}: {way}") };
        wrong.push(Field { list, place, cause, way });
    };
    let at = |at: usize| number(log, at).unwrap_or(0);
    if at(EVENTS - 12) > 1 {
        add(0, 0, 8, "validation not required");
    }
    if at(EVENTS - 8) > 1 {
        add(0, 0, 8, "edition");
    }
    let mut start = EVENTS;
    for place in 0..at(0) as usize {
        let [kind, reading, length] = [0, 4, 8].map(|number| at(start + number));
        let name = kinds().iter().find(|(number, _)| *number == kind).map_or("", |(_, name)| name);
        let first = log.get(start + 12).copied().unwrap_or(0);
        if kind > LINK_UP {
            add(1, place, 9, if kind == 5 { "kind 5" } else { "kind over 5" });
        }
        if reading != 0 && kind != TICK && kind != PILOT {
            add(1, place, 10, name);
        }
        match (kind, length) {
            (PILOT, 0) => add(1, place, 11, "pilot, no octet"),
            (PILOT, 2..) => add(1, place, 11, "pilot, more octets"),
            (TICK | TERMINATE | LINK_UP, 1..) => add(1, place, 11, name),
            _ => {}
        }
        if kind == PILOT && length > 0 && first > 5 {
            add(1, place, 12, if first == 6 { "pilot 6" } else { "pilot over 6" });
        }
        start += 12 + length as usize;
    }
    for place in 0..at(0) as usize {
        let [refusal, indication, length] = [0, 4, 8].map(|number| at(start + number));
        match (refusal, indication) {
            (0, 3..) => add(2, place, 13, "over 2, accepted"),
            (1.., 3..) => add(2, place, 13, "over 2, refused"),
            (1.., 1..) => add(2, place, 13, "1 or 2, refused"),
            _ => {}
        }
        if refusal != 0 && length != 0 {
            add(2, place, 14, "");
        }
        start += 12 + length as usize;
    }
    wrong
}

impl fmt::Display for Counts {
    fn fmt(&self, f: &mut fmt::Formatter) -> fmt::Result {
        self.0.fmt(f)
    }
}
