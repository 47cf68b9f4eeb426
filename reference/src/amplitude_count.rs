//! What a script reaches of the rules on amplitude maps: requests, reductions and inspections.

use crate::count::{short, state, Table};
use crate::messages::{Address, Body, Kind, Message, MOST_CARRIERS};
use crate::refusal::Refusal;
use crate::script::{Event, Outcome};
use crate::station::{Config, State, Station};

const MAP: &str = "95 amplitude map";
const REDUCTION: &str = "96 reduction";
const INSPECTION: &str = "97 inspection";

const MAPS: [&str; 38] = [
    "REQ: 1, before n",
    "REQ: 1, payload short",
    "REQ: 1, payload short, wrong address",
    "REQ: 4",
    "REQ: 5, to",
    "REQ: 5, from",
    "REQ: 6, n of 0",
    "REQ: 6, n of 1,156",
    "REQ: 6, n over 1,156",
    "REQ: 6, wrong n, cut",
    "REQ: 6, wrong n, too long",
    "REQ: 6, wrong n, wrong address",
    "REQ: 6, unused half",
    "REQ: 15",
    "REQ: 7, to another",
    "REQ: 7, from us",
    "REQ: 7, from our modem",
    "REQ: 8 in Unmatched",
    "REQ: 8 in Matching",
    "REQ: 8 in Matching, of a car with a record",
    "REQ: 8 in Joining, of another car",
    "REQ: 8 in Joining, of the car",
    "REQ: 11",
    "REQ: 11 before 24",
    "REQ: 11, the car matched before",
    "REQ: 24, fewer carriers",
    "REQ: 24, more carriers",
    "REQ: n of 1",
    "REQ: n of 1,155",
    "REQ: n odd",
    "REQ: n even",
    "REQ: padding set",
    "REQ: accepted",
    "REQ: accepted after a pilot change",
    "CNF: 5",
    "CNF: 6",
    "CNF: 17, success",
    "CNF: 17, failure",
];

const REDUCTIONS: [&str; 31] = [
    "6, no value", "6, 1,156 values", "6, more values", "6, value of 16", "6, value over 16",
    "6 before 24", "6 before 16", "24, fewer levels", "24, more levels", "24 before 16",
    "24 before 15", "16, level of -129", "16, level of 1", "16, level below -129",
    "16, level over 1", "16 before 15", "15, no room", "15, one short", "1 value",
    "2 to 1,154 values", "1,155 values", "more room", "value of 0", "value of 15", "level of -128",
    "level of 0", "below the limit", "at the limit", "one over the limit", "reduction of 50 at 0",
    "reduction of 80",
];

/// A table's rows on amplitude maps.
#[derive(Clone)]
pub struct Maps {
    config: Config,
    /// Whether the pilot changed while the station was Matched.
    changed: bool,
    /// Cars that were matched before.
    earlier: Vec<Address>,
}

impl Maps {
    /// Rows of zero.
    pub fn new(config: Config, table: &mut Table) -> Maps {
        MAPS.iter().for_each(|name| table.row(MAP, name));
        REDUCTIONS.iter().for_each(|name| table.row(REDUCTION, name));
        for kind in Kind::ALL {
            if Maps::is_for_stations(kind) {
                table.row(MAP, &format!("Matched: 8, {}", short(kind)));
            }
        }
        for state in ["Unmatched", "Matching", "Joining", "Matched"] {
            table.row(INSPECTION, state);
        }
        Maps { config, changed: false, earlier: Vec::new() }
    }

    /// Messages that a station takes in another state than Matched.
    fn is_for_stations(kind: Kind) -> bool {
        !matches!(
            kind,
            Kind::ParmCnf
                | Kind::AttenChar
                | Kind::ValidateCnf
                | Kind::MatchCnf
                | Kind::AmpMapReq
                | Kind::AmpMapCnf
        )
    }

    /// Counts one event by the station before and after it.
    pub fn event(
        &mut self,
        table: &mut Table,
        event: &Event,
        before: &Station,
        after: &Station,
        outcome: &Outcome,
    ) {
        match (event, outcome) {
            (Event::Frame { octets, .. }, outcome) => {
                let refusal = outcome.as_ref().err().copied();
                let rows = self.frame(octets, before, refusal);
                rows.iter().for_each(|name| table.add(MAP, name));
            }
            (Event::Reduction { values, levels, room }, outcome) => {
                let rows = reduction(values, levels, *room, outcome);
                rows.iter().for_each(|name| table.add(REDUCTION, name));
            }
            (Event::Inspection, Ok(_)) => table.add(INSPECTION, state(before)),
            _ => {}
        }
        match (before.state, after.state) {
            (State::Matched { car }, State::Unmatched) => self.earlier.push(car),
            (State::Matched { .. }, State::Matched { .. }) => {
                self.changed |= before.pilot != after.pilot;
            }
            (_, State::Matched { .. }) => self.changed = false,
            _ => {}
        }
    }

    /// The rows of a frame, accepted or refused.
    fn frame(&self, frame: &[u8], before: &Station, refusal: Option<Refusal>) -> Vec<String> {
        let read = Message::read(frame, self.config.edition);
        let row = |name: &str| vec![name.to_string()];
        let Ok(message) = read else {
            return match (Kind::of(frame), read.err() == refusal) {
                (Some(Kind::AmpMapReq), true) => unread(frame, refusal),
                (Some(Kind::AmpMapCnf), true) => match refusal {
                    Some(Refusal::AddressKind) => row("CNF: 5"),
                    Some(Refusal::Octet) => row("CNF: 6"),
                    _ => Vec::new(),
                },
                _ => Vec::new(),
            };
        };
        match (message.body, refusal) {
            (Body::AmpMapCnf { result }, Some(Refusal::CarOnly)) => {
                row(if result == 0 { "CNF: 17, success" } else { "CNF: 17, failure" })
            }
            (Body::AmpMapReq { carriers }, _) => {
                self.request(&message, carriers, frame, before, refusal)
            }
            (body, Some(Refusal::State))
                if matches!(before.state, State::Matched { .. })
                    && Maps::is_for_stations(body.kind()) =>
            {
                row(&format!("Matched: 8, {}", short(body.kind())))
            }
            _ => Vec::new(),
        }
    }

    /// The rows of a request that can be read.
    fn request(
        &self,
        message: &Message,
        carriers: u16,
        frame: &[u8],
        before: &Station,
        refusal: Option<Refusal>,
    ) -> Vec<String> {
        let car = message.source;
        let mut rows = Vec::new();
        let mut add = |applies: bool, name: &str| {
            rows.extend(applies.then(|| format!("REQ: {name}")));
        };
        if refusal == Some(Refusal::Output) {
            add(true, "15");
            return rows;
        }
        add(carriers == 1, "n of 1");
        add(carriers == MOST_CARRIERS, "n of 1,155");
        add(true, if carriers.is_multiple_of(2) { "n even" } else { "n odd" });
        let padding = frame.iter().skip(Kind::AmpMapReq.shortest_with(carriers));
        add(padding.into_iter().any(|octet| *octet != 0), "padding set");
        let is_own = u32::from(carriers) == self.config.carriers;
        match (refusal, before.state) {
            (None, _) => {
                add(true, "accepted");
                add(self.changed, "accepted after a pilot change");
            }
            (Some(Refusal::NotOurs), _) => match car {
                _ if car == self.config.station => add(true, "7, from us"),
                _ if car == self.config.modem => add(true, "7, from our modem"),
                _ => add(true, "7, to another"),
            },
            (Some(Refusal::State), State::Matching { .. }) => {
                add(true, "8 in Matching");
                let is_held = before.record(car).is_some();
                add(is_held, "8 in Matching, of a car with a record");
            }
            (Some(Refusal::State), State::Joining { car: joining, .. }) => {
                let which = if car == joining { "the car" } else { "another car" };
                add(true, &format!("8 in Joining, of {which}"));
            }
            (Some(Refusal::State), _) => add(true, "8 in Unmatched"),
            (Some(Refusal::NoRecord), _) => {
                add(true, "11");
                add(!is_own, "11 before 24");
                add(self.earlier.contains(&car), "11, the car matched before");
            }
            (Some(Refusal::Carriers), _) => {
                let fewer = u32::from(carriers) < self.config.carriers;
                add(true, if fewer { "24, fewer carriers" } else { "24, more carriers" });
            }
            _ => {}
        }
        rows
    }
}

/// The rows of a request that cannot be read.
fn unread(frame: &[u8], refusal: Option<Refusal>) -> Vec<String> {
    let kind = Kind::AmpMapReq;
    let address = |at: usize| frame.get(at..)?.first_chunk().copied().map(Address);
    let to = address(0).is_none_or(Address::is_unicast);
    let from = address(6).is_none_or(Address::is_unicast);
    let mut rows = Vec::new();
    let mut add = |applies: bool, name: &str| rows.extend(applies.then(|| format!("REQ: {name}")));
    let n = frame.get(19..21).map(|octets| u16::from_le_bytes([octets[0], octets[1]]));
    let is_wrong = n.is_some_and(|n| !(1..=MOST_CARRIERS).contains(&n));
    match (refusal, n) {
        (Some(Refusal::Short), None) => add(frame.len() >= 19, "1, before n"),
        (Some(Refusal::Short), _) => {
            add(true, "1, payload short");
            add(!to || !from, "1, payload short, wrong address");
        }
        (Some(Refusal::Long), _) => add(true, "4"),
        (Some(Refusal::AddressKind), _) => add(true, if to { "5, from" } else { "5, to" }),
        (Some(Refusal::Octet), Some(n)) if is_wrong => {
            add(n == 0, "6, n of 0");
            add(n == 1_156, "6, n of 1,156");
            add(n > 1_156, "6, n over 1,156");
            add(frame.len() == 21, "6, wrong n, cut");
            add(frame.len() > kind.written_with(MOST_CARRIERS), "6, wrong n, too long");
            add(!to || !from, "6, wrong n, wrong address");
        }
        (Some(Refusal::Octet), _) => add(true, "6, unused half"),
        _ => {}
    }
    rows
}

/// The rows of a reduction, by its arguments.
fn reduction(values: &[u8], levels: &[i16], room: usize, outcome: &Outcome) -> Vec<String> {
    let mut rows = Vec::new();
    let mut add = |applies: bool, name: &str| rows.extend(applies.then(|| name.to_string()));
    let count = values.len();
    let is_out = |level: &i16| !(-128..=0).contains(level);
    match outcome {
        Err(Refusal::Octet) => {
            let is_count = (1..=1_155).contains(&count);
            add(count == 0, "6, no value");
            add(count == 1_156, "6, 1,156 values");
            add(count > 1_156, "6, more values");
            add(is_count && values.iter().all(|value| *value <= 16), "6, value of 16");
            add(is_count && values.iter().any(|value| *value > 16), "6, value over 16");
            add(levels.len() != count, "6 before 24");
            add(levels.iter().any(is_out), "6 before 16");
        }
        Err(Refusal::Carriers) => {
            add(levels.len() < count, "24, fewer levels");
            add(levels.len() > count, "24, more levels");
            add(levels.iter().any(is_out), "24 before 16");
            add(room < count, "24 before 15");
        }
        Err(Refusal::Configuration) => {
            add(levels.contains(&-129), "16, level of -129");
            add(levels.contains(&1), "16, level of 1");
            add(levels.iter().any(|level| *level < -129), "16, level below -129");
            add(levels.iter().any(|level| *level > 1), "16, level over 1");
            add(room < count, "16 before 15");
        }
        Err(Refusal::Output) => {
            add(room == 0, "15, no room");
            add(room + 1 == count, "15, one short");
        }
        Err(_) => {}
        Ok(_) => {
            add(count == 1, "1 value");
            add((2..1_155).contains(&count), "2 to 1,154 values");
            add(count == 1_155, "1,155 values");
            add(room > count, "more room");
            add(values.contains(&0), "value of 0");
            add(values.contains(&15), "value of 15");
            add(levels.contains(&-128), "level of -128");
            add(levels.contains(&0), "level of 0");
            let pairs = || values.iter().zip(levels);
            let over = |over: i16| {
                pairs().any(|(value, level)| level + 50 + 2 * i16::from(*value) == over)
            };
            add(
                pairs().any(|(value, level)| level + 50 + 2 * i16::from(*value) < 0),
                "below the limit",
            );
            add(over(0), "at the limit");
            add(over(1), "one over the limit");
            add(pairs().any(|pair| pair == (&0, &0)), "reduction of 50 at 0");
            add(over(80), "reduction of 80");
        }
    }
    rows
}
