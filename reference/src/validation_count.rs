//! What a script reaches of the rules on validation: requests, toggles, windows and their ends.

use crate::count::{end, phase, short, state, Table, ENDS};
use crate::messages::{Address, Body, Kind, Message, FAILURE, NOT_REQUIRED, READY};
use crate::refusal::Refusal;
use crate::script::{Event, Outcome};
use crate::station::{Config, Indication, Phase, Pilot, Record, State, Station, Step};

const REQUESTS: &str = "8 validation";
const WINDOWS: &str = "9 window";

const STEPS: [&str; 3] = ["ready", "counting", "success"];

/// Rows that only a station reaches that doesn't require validation.
pub const EXEMPT: [&str; 5] = [
    "first: 04", "first: 04, Awaiting's time running", "first again: 04 after 04",
    "second: 12 in Awaiting, after 04", "match in Awaiting, after 04",
];

const REACHED: [&str; 17] = [
    "first: 01", "first: 01, another in success", "first: 03, another ready",
    "first: 03, another counting", "first: 03, Awaiting's time running",
    "first again: 03 after 03", "first again: 01 after 03", "second: timer 0",
    "second: timer 1 to 9", "second: timer 10 to 254", "second: timer 255", "second: pilot B",
    "second: pilot C", "second: pilot D", "match in Awaiting, after 03",
    "MATCH.REQ: 11 in success", "CNF: 17",
];

/// Frames that cannot be read or aren't ours.
const UNREAD: [&str; 15] = [
    "REQ: 1", "REQ: 4", "REQ: 5, from", "REQ: 5, to", "REQ: 6, octet 0", "REQ: 6, octet 2",
    "REQ: 6, timer to one", "CNF: 5", "CNF: 6, octet 0", "CNF: 6, octet 2", "first: 7, to another",
    "first: 7, from us", "first: 7, from our modem", "second: 7, from us",
    "second: 7, from our modem",
];

const TOGGLES: [&str; 14] = [
    "B to C", "C to B, one begun", "C to B, one begun, 255 counted", "C to B, none begun",
    "C to D, one begun", "C to D, none begun", "B to D", "D to B", "D to C", "B again",
    "C again, one begun", "C again, none begun", "D again", "a reading that is not taken",
];

const ANSWERS: [&str; 17] = [
    "02 with 0 toggles", "02 with 1 toggle", "02 with 2 to 254 toggles", "02 with 255 toggles",
    "03 at C, one begun", "03 at C, none begun", "03 at D", "03 after a toggle",
    "CNF with no report", "CNF behind one report", "CNF behind more reports",
    "CNF of a place before a report's", "CNF of a place behind a report's", "03 with no link",
    "no link, ready fires", "no link, success fires", "02 beside another success",
];

/// A table's rows on validation.
#[derive(Clone)]
pub struct Validations {
    config: Config,
    /// What cars in Awaiting were last answered to a first request.
    answered: Vec<(Address, u8)>,
}

impl Validations {
    /// Rows of zero.
    pub fn new(config: Config, table: &mut Table) -> Validations {
        let mut row = |name: &str| table.row(REQUESTS, name);
        EXEMPT.iter().chain(&REACHED).chain(&UNREAD).for_each(|name| row(name));
        for which in ["first", "second"] {
            for state in ["Unmatched", "Joining", "Matched"] {
                row(&format!("{which}: 8 in {state}"));
            }
            row(&format!("{which}: 11"));
            for phase in ["Asked", "Sounding", "Reported", "counting", "success"] {
                row(&format!("{which}: 12 in {phase}"));
            }
        }
        row("first: 12 in ready");
        row("second: 12 in Awaiting");
        for step in STEPS {
            for kind in ["START_ATTEN_CHAR.IND", "MNBC_SOUND.IND", "ATTEN_PROFILE.IND"] {
                row(&format!("{kind}: 12 in {step}"));
            }
            row(&format!("ATTEN_CHAR.RSP: 12 in {step}"));
            match step {
                "success" => row("match in success"),
                _ => row(&format!("MATCH.REQ: 12 in {step}")),
            }
            for end in ["restart", "another car's match", "pilot loss", "terminate"] {
                row(&format!("{end} in {step}"));
            }
        }
        let mut row = |name: &str| table.row(WINDOWS, name);
        TOGGLES.iter().chain(&ANSWERS).for_each(|name| row(name));
        for step in STEPS {
            ENDS.iter().for_each(|end| row(&format!("{step}: {end}")));
            if step != "counting" {
                row(&format!("a pilot change in {step}"));
            }
        }
        Validations { config, answered: Vec::new() }
    }

    /// Counts one event by the station before and after it.
    pub fn event(
        &mut self,
        table: &mut Table,
        event: &Event,
        before: &Station,
        after: &Station,
        outcome: &Outcome,
    ) {
        let mut add = |name: &str| table.add(REQUESTS, name);
        match (event, outcome) {
            (Event::Frame { octets, .. }, Err(refusal)) => {
                self.refused(octets, before, *refusal).iter().for_each(|name| add(name));
            }
            (Event::Frame { octets, .. }, Ok((_, reply))) => {
                self.frame(octets, before, reply).iter().for_each(|name| add(name));
            }
            (Event::Pilot { to, reading }, Ok(_)) if to.is_plugged() => {
                let mut add = |name: &str| table.add(WINDOWS, name);
                for (step, record) in steps(before) {
                    match toggle(record, before.pilot, *to) {
                        Some(name) => add(&name),
                        None => add(&format!("a pilot change in {step}")),
                    }
                    if *reading != after.reading {
                        add("a reading that is not taken");
                    }
                }
            }
            (Event::Pilot { .. }, Ok(_)) => {
                steps(before).for_each(|(step, _)| add(&format!("pilot loss in {step}")));
            }
            (Event::Terminate, Ok(_)) => {
                steps(before).for_each(|(step, _)| add(&format!("terminate in {step}")));
            }
            (Event::Tick { reading, .. }, Ok((indication, reply))) => {
                tick(table, before, after, *reading, *indication, reply);
            }
            _ => {}
        }
        self.answered.retain(|(car, _)| is_awaiting(after, *car));
    }

    /// The rows of an accepted frame.
    fn frame(&mut self, frame: &[u8], before: &Station, reply: &[u8]) -> Vec<String> {
        let Ok(message) = Message::read(frame, self.config.edition) else { return Vec::new() };
        let car = message.source;
        let last = self.answered.iter().find(|(answered, _)| *answered == car);
        let last = last.map(|(_, result)| *result);
        let own = steps(before).find(|(_, record)| record.car == car).map(|(step, _)| step);
        let mut others = steps(before).filter(|(_, record)| record.car != car);
        match message.body {
            Body::ParmReq { .. } => {
                own.map(|step| format!("restart in {step}")).into_iter().collect()
            }
            Body::MatchReq { .. } if matches!(before.state, State::Matching { .. }) => {
                let another = others.map(|(step, _)| format!("another car's match in {step}"));
                let own = match (own, last) {
                    (Some(step), _) => Some(format!("match in {step}")),
                    (None, Some(last)) => Some(format!("match in Awaiting, after {last:02}")),
                    (None, None) => None,
                };
                another.chain(own).collect()
            }
            Body::ValidateReq { timer } if message.destination == Address::BROADCAST => {
                let range = match timer {
                    0 | 255 => timer.to_string(),
                    1..=9 => "1 to 9".into(),
                    10..=254 => "10 to 254".into(),
                };
                let pilot = format!("second: pilot {:?}", before.pilot);
                vec![format!("second: timer {range}"), pilot]
            }
            Body::ValidateReq { .. } => {
                let Ok(Message { body: Body::ValidateCnf { result, .. }, .. }) =
                    Message::read(reply, self.config.edition)
                else {
                    return Vec::new();
                };
                let mut rows = Vec::new();
                match (result, others.find(|(step, _)| (*step == "success") == (result == READY))) {
                    (READY, Some(_)) => rows.push("first: 01, another in success".into()),
                    (FAILURE, Some((step, _))) => rows.push(format!("first: 03, another {step}")),
                    _ => {}
                }
                if result != FAILURE {
                    rows.push(format!("first: {result:02}"));
                }
                if result != READY && before.record(car).is_some_and(|own| own.left < 10_000) {
                    rows.push(format!("first: {result:02}, Awaiting's time running"));
                }
                rows.extend(last.map(|last| format!("first again: {result:02} after {last:02}")));
                self.answered.retain(|(answered, _)| *answered != car);
                self.answered.push((car, result));
                rows
            }
            _ => Vec::new(),
        }
    }

    /// The rows of a refused frame.
    fn refused(&self, frame: &[u8], before: &Station, refusal: Refusal) -> Vec<String> {
        let Some(kind) = Kind::of(frame) else { return Vec::new() };
        let number = refusal.number();
        let name = match kind {
            Kind::ValidateReq => "REQ",
            Kind::ValidateCnf => "CNF",
            _ => short(kind),
        };
        let Ok(message) = Message::read(frame, self.config.edition) else {
            return match kind {
                Kind::ValidateReq | Kind::ValidateCnf => unread(name, kind, frame, number),
                _ => Vec::new(),
            };
        };
        let record = message.car().and_then(|car| before.record(car));
        match (message.body, refusal) {
            (_, Refusal::Output | Refusal::Configuration) => Vec::new(),
            (Body::ValidateReq { .. }, _) => {
                let which = match message.destination {
                    Address::BROADCAST => "second",
                    _ => "first",
                };
                self.refused_request(which, &message, before, refusal)
            }
            (Body::ValidateCnf { .. }, _) => vec![format!("CNF: {number}")],
            (_, Refusal::Phase) => {
                let step = record.and_then(step);
                step.map(|step| format!("{name}: 12 in {step}")).into_iter().collect()
            }
            (Body::MatchReq { .. }, Refusal::NoRecord)
                if record.and_then(step) == Some("success") =>
            {
                vec!["MATCH.REQ: 11 in success".into()]
            }
            _ => Vec::new(),
        }
    }

    /// The rows of a refused request that can be read.
    fn refused_request(
        &self,
        which: &str,
        message: &Message,
        before: &Station,
        refusal: Refusal,
    ) -> Vec<String> {
        let number = refusal.number();
        let car = message.source;
        let why = match refusal {
            Refusal::NotOurs if car == self.config.station => "from us",
            Refusal::NotOurs if car == self.config.modem => "from our modem",
            Refusal::NotOurs => "to another",
            Refusal::State => state(before),
            Refusal::Phase => before.record(car).map_or("no record", phase),
            _ => return vec![format!("{which}: {number}")],
        };
        let mut rows = match refusal {
            Refusal::NotOurs => vec![format!("{which}: {number}, {why}")],
            _ => vec![format!("{which}: {number} in {why}")],
        };
        if why == "Awaiting" && self.answered.contains(&(car, NOT_REQUIRED)) {
            rows.push("second: 12 in Awaiting, after 04".into());
        }
        rows
    }
}

/// The rows of a frame that cannot be read: the number, and by which part of it.
fn unread(name: &str, kind: Kind, frame: &[u8], number: u32) -> Vec<String> {
    let octet = |at: usize| frame.get(at).copied().unwrap_or(0);
    let address = |at: usize| Address(std::array::from_fn(|place| octet(at + place)));
    let is_request = kind == Kind::ValidateReq;
    let result = octet(21);
    let parts: &[(bool, &str)] = match number {
        1 | 4 if is_request => &[(true, "")],
        5 if is_request => &[
            (!kind.destination().allows(address(0)), ", to"),
            (!address(6).is_unicast(), ", from"),
        ],
        5 => &[(true, "")],
        6 => &[
            (octet(19) != 0, ", octet 0"),
            (if is_request { result != READY } else { result > NOT_REQUIRED }, ", octet 2"),
            (is_request && address(0).is_unicast() && octet(20) != 0, ", timer to one"),
        ],
        _ => &[],
    };
    let parts = parts.iter().filter(|(applies, _)| *applies);
    parts.map(|(_, part)| format!("{name}: {number}{part}")).collect()
}

/// A tick that was taken.
fn tick(
    table: &mut Table,
    before: &Station,
    after: &Station,
    reading: u32,
    indication: Option<Indication>,
    reply: &[u8],
) {
    let mut add = |name: &str| table.add(WINDOWS, name);
    let elapsed = reading.wrapping_sub(before.reading);
    let no_link = indication == Some(Indication::NoLink);
    for (step, record) in steps(before) {
        add(&format!("{step}: {}", end(record.left, elapsed)));
        if no_link && step != "counting" && record.left <= elapsed {
            add(&format!("no link, {step} fires"));
        }
    }
    let (messages, _) = Message::read_all(reply);
    let place = |car| before.records().position(|record| record.car == car);
    for message in &messages {
        let Body::ValidateCnf { toggles, result } = message.body else { continue };
        let car = message.destination;
        let Some(record) = before.record(car) else { continue };
        let Phase::Validating(Step::Counting { toggles: counted, begun }) = record.phase else {
            continue;
        };
        if result == FAILURE {
            add(match (before.pilot, begun) {
                (Pilot::C, true) => "03 at C, one begun",
                (Pilot::C, false) => "03 at C, none begun",
                _ => "03 at D",
            });
            if counted > 0 {
                add("03 after a toggle");
            }
            if no_link {
                add("03 with no link");
            }
        } else {
            add(match toggles {
                0 => "02 with 0 toggles",
                1 => "02 with 1 toggle",
                255 => "02 with 255 toggles",
                _ => "02 with 2 to 254 toggles",
            });
            if steps(after).filter(|(step, _)| *step == "success").count() > 1 {
                add("02 beside another success");
            }
        }
        let reports: Vec<Option<usize>> = messages
            .iter()
            .filter(|message| matches!(message.body, Body::AttenChar { .. }))
            .map(|message| place(message.destination))
            .collect();
        add(match reports.len() {
            0 => "CNF with no report",
            1 => "CNF behind one report",
            _ => "CNF behind more reports",
        });
        if reports.iter().any(|report| *report > place(car)) {
            add("CNF of a place before a report's");
        }
        if reports.iter().any(|report| *report < place(car)) {
            add("CNF of a place behind a report's");
        }
    }
}

/// The row of a pilot change among B, C and D in a record that counts.
fn toggle(record: &Record, from: Pilot, to: Pilot) -> Option<String> {
    let Phase::Validating(Step::Counting { toggles, begun }) = record.phase else { return None };
    let name = if begun { "one begun" } else { "none begun" };
    Some(match (from, to) {
        (Pilot::C, Pilot::C) => format!("C again, {name}"),
        (Pilot::C, Pilot::B) if begun && toggles == 255 => "C to B, one begun, 255 counted".into(),
        (Pilot::C, _) => format!("C to {to:?}, {name}"),
        _ if from == to => format!("{to:?} again"),
        _ => format!("{from:?} to {to:?}"),
    })
}

fn is_awaiting(station: &Station, car: Address) -> bool {
    station.record(car).is_some_and(|record| record.phase == Phase::Awaiting)
}

/// The records that validate, each with its step.
fn steps(station: &Station) -> impl Iterator<Item = (&'static str, &Record)> {
    station.records().filter_map(|record| Some((step(record)?, record)))
}

fn step(record: &Record) -> Option<&'static str> {
    match record.phase {
        Phase::Validating(step) => Some(named(step)),
        _ => None,
    }
}

pub fn named(step: Step) -> &'static str {
    match step {
        Step::Ready => STEPS[0],
        Step::Counting { .. } => STEPS[1],
        Step::Success => STEPS[2],
    }
}
