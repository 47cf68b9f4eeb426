//! What a car's script reaches: how often each refusal, indication, state, rule and limit occurs.

use crate::car::{total, Car, Config, Indication, Report, State};
use crate::car_script::Event;
use crate::count::{end, short, Table, ENDS};
use crate::messages::{Address, Body, Edition, Kind, Message};
use crate::refusal::{self, Refusal};
use crate::script::Outcome;
use std::fmt;

const STATES: [&str; 7] =
    ["Idle", "Asking", "Confirmed", "Sounding", "Requesting", "Joining", "Matched"];

/// The messages that aren't for a station alone, and the states that take them.
const TAKEN: [(Kind, &[&str]); 6] = [
    (Kind::ParmCnf, &["Asking", "Confirmed", "Sounding"]),
    (Kind::AttenChar, &["Sounding", "Requesting"]),
    (Kind::ValidateCnf, &[]),
    (Kind::MatchCnf, &["Requesting"]),
    (Kind::AmpMapReq, &[]),
    (Kind::AmpMapCnf, &[]),
];

/// The times that run down.
const TIMES: [&str; 6] =
    ["Asking", "Confirmed", "Sounding, next", "Sounding, gathering", "Requesting", "Joining"];

const ACCEPTED: [&str; 25] = [
    "start with an empty run",
    "start, the first",
    "start after no PARM.CNF",
    "start after no report",
    "start after not found",
    "start after no MATCH.CNF",
    "start after no link up",
    "start after terminate in Asking",
    "start after terminate in Confirmed",
    "start after terminate in Sounding",
    "start after terminate in Requesting",
    "start after terminate in Joining",
    "start after terminate in Matched",
    "link up",
    "key query in Joining",
    "key query in Matched",
    "PARM.CNF in Asking",
    "PARM.CNF in Confirmed",
    "PARM.CNF in Sounding",
    "ATTEN_CHAR.IND in Sounding, first",
    "ATTEN_CHAR.IND in Sounding, again",
    "ATTEN_CHAR.IND in Sounding, again, smaller",
    "ATTEN_CHAR.IND in Sounding, again, ten kept",
    "ATTEN_CHAR.IND in Requesting",
    "MATCH.CNF in Requesting",
];

const REFUSED: [&str; 32] = [
    "7 AMP_MAP.REQ, not to us",
    "7 AMP_MAP.REQ, from us",
    "7 AMP_MAP.CNF, not to us",
    "7 AMP_MAP.CNF, from us",
    "15 AMP_MAP.REQ",
    "15 AMP_MAP.CNF",
    "7 PARM.CNF, not to us",
    "7 PARM.CNF, from us",
    "7 ATTEN_CHAR.IND, not to us",
    "7 ATTEN_CHAR.IND, from us",
    "7 VALIDATE.CNF, not to us",
    "7 VALIDATE.CNF, from us",
    "7 MATCH.CNF, not to us",
    "7 MATCH.CNF, from us",
    "11 ATTEN_CHAR.IND in Requesting, other station",
    "11 MATCH.CNF in Requesting, other station",
    "15 start",
    "15 tick",
    "15 PARM.CNF",
    "15 ATTEN_CHAR.IND",
    "15 VALIDATE.CNF",
    "15 MATCH.CNF",
    "15 message to a station",
    "18 ATTEN_CHAR.IND in Sounding",
    "19 to all",
    "19 to another",
    "19 to us",
    "19 VALIDATE.REQ, first",
    "19 VALIDATE.REQ, second",
    "20 in Requesting",
    "20 in Sounding, first",
    "20 in Sounding, again",
];

/// Two refusals that apply at once: the first one is given.
const ORDER: [&str; 8] = [
    "start: 15 before 8", "frame: 15 before reading", "frame: 19 before 7", "frame: 7 before 8",
    "frame: 8 before 11", "frame: 11 before 20", "frame: 20 before 18", "tick: 15 before 14",
];

const TICKS: [&str; 17] = [
    "Idle takes the reading", "Matched takes the reading", "Asking fires, 2 retries",
    "Asking fires, 1 retries", "Asking fires, 0 retries", "Sounding, none due",
    "Sounding, START sent", "Sounding, SOUND sent", "Sounding, all sent",
    "Requesting fires, 2 retries", "Requesting fires, 1 retries", "Requesting fires, 0 retries",
    "the clock wraps", "a gap of 60,000", "a gap of 60,001", "after 14, a tick taken",
    "after 14, a start",
];

const CHOICES: [&str; 15] = [
    "no report", "one report", "the first is least", "a later one is least", "equal least totals",
    "ten reports", "before all 13 are sent", "where a frame is due", "after all 13 are sent",
    "58 * (10 + r) less one", "58 * (10 + r)", "58 * (20 + r) less one", "58 * (20 + r)",
    "total of 0", "of no more than one frame",
];

/// The car's table.
#[derive(Clone)]
pub struct Counts {
    table: Table,
    config: Config,
    /// How the car last came to Idle.
    ended: String,
    /// Whether the last tick was refused with 14, and no start came since.
    stuck: bool,
}

impl Counts {
    /// A table of zeros, so that what is never reached shows.
    pub fn new(config: Config) -> Counts {
        let mut table = Table::default();
        table.refusals(&refusal::OF_CARS);
        TAKEN.iter().for_each(|(kind, _)| table.reserved_rows(*kind));
        let mut row = |group, name: &str| table.row(group, name);
        for indication in 0..=6 {
            row("2 indication", &crate::compare::indicated(indication));
        }
        for state in ["Idle", "Confirmed", "Joining", "Matched"] {
            row("3 after the event", state);
        }
        for retries in 0..=2 {
            row("3 after the event", &format!("Asking, {retries} retries"));
            row("3 after the event", &format!("Requesting, {retries} retries"));
        }
        (1..=13).for_each(|sent| row("3 after the event", &format!("Sounding, {sent:>2} sent")));
        (0..=10).for_each(|kept| row("3 after the event", &format!("reports kept: {kept:>2}")));
        ACCEPTED.iter().for_each(|name| row("4 accepted", name));
        REFUSED.iter().chain(&ORDER).for_each(|name| row("7 refused", name));
        TICKS.iter().for_each(|name| row("8 tick", name));
        CHOICES.iter().for_each(|name| row("9 choice", name));
        for time in TIMES {
            for end in ENDS {
                row("8 tick", &format!("{time}: {end}"));
            }
        }
        for state in STATES {
            row("4 accepted", &format!("terminate in {state}"));
            row("7 refused", &format!("14 in {state}"));
            if state != "Idle" {
                row("7 refused", &format!("8 start in {state}"));
            }
            if state != "Joining" {
                row("7 refused", &format!("8 link up in {state}"));
            }
            if !["Joining", "Matched"].contains(&state) {
                row("7 refused", &format!("8 key query in {state}"));
            }
            for (kind, takers) in TAKEN {
                match takers.contains(&state) {
                    true => row("7 refused", &format!("11 {} in {state}, other run", short(kind))),
                    false => row("7 refused", &format!("8 {} in {state}", short(kind))),
                }
            }
        }
        for kind in Kind::ALL {
            if !TAKEN.iter().any(|(taken, _)| *taken == kind) {
                row("5 damaged", short(kind));
                row("7 refused", &format!("19 {}", short(kind)));
                continue;
            }
            for number in [1, 2, 4, 5, 6] {
                row("5 damaged", &format!("{}: {number}", short(kind)));
            }
        }
        row("5 damaged", "no known type");
        Counts { table, config, ended: "start, the first".into(), stuck: false }
    }

    /// How many rows are reached.
    pub fn reached(&self) -> usize {
        self.table.reached()
    }

    pub fn configured(&mut self, answer: Result<(), Refusal>) {
        if let Err(refusal) = answer {
            self.table.refused(refusal);
        }
    }

    /// Counts one event by the car before and after it.
    pub fn event(
        &mut self,
        event: &Event,
        before: &Car,
        after: &Car,
        outcome: &Outcome<Indication>,
    ) {
        match outcome {
            Ok((indication, _)) => {
                let number = indication.map_or(0, u32::from);
                self.table.add("2 indication", &crate::compare::indicated(number));
                self.accepted(event, before);
                if before.state != State::Idle && after.state == State::Idle {
                    self.ended = ended(event, &before.state, *indication);
                }
            }
            Err(refusal) => {
                self.table.refused(*refusal);
                self.refused(event, before, *refusal);
                if let Some(order) = self.order(event, before, *refusal) {
                    self.table.add("7 refused", order);
                }
            }
        }
        self.states(after);
    }

    fn states(&mut self, after: &Car) {
        let state = match after.state {
            State::Asking { retries, .. } => format!("Asking, {retries} retries"),
            State::Requesting { retries, .. } => format!("Requesting, {retries} retries"),
            State::Sounding { sent, .. } => format!("Sounding, {sent:>2} sent"),
            state => name(&state).into(),
        };
        self.table.add("3 after the event", &state);
        let kept = format!("reports kept: {:>2}", after.reports().count());
        self.table.add("3 after the event", &kept);
    }

    fn accepted(&mut self, event: &Event, before: &Car) {
        let state = name(&before.state);
        let what = match event {
            Event::Start { run, .. } => {
                if run.is_empty() {
                    self.table.add("4 accepted", "start with an empty run");
                }
                if std::mem::take(&mut self.stuck) {
                    self.table.add("8 tick", "after 14, a start");
                }
                self.ended.clone()
            }
            Event::Tick { reading, .. } => return self.tick(before, *reading),
            Event::Terminate => format!("terminate in {state}"),
            Event::LinkUp => "link up".into(),
            Event::Query => format!("key query in {state}"),
            Event::Frame { octets, .. } => {
                let Ok(message) = Message::read(octets, Edition::Iso) else { return };
                self.table.reserved(octets);
                format!("{} in {state}{}", short(message.body.kind()), repeated(&message, before))
            }
        };
        self.table.add("4 accepted", &what);
    }

    fn refused(&mut self, event: &Event, before: &Car, refusal: Refusal) {
        let (state, number) = (name(&before.state), refusal.number());
        let what = match event {
            _ if refusal == Refusal::Configuration => return,
            Event::Frame { octets, .. } => return self.refused_frame(octets, before, refusal),
            Event::Tick { reading, .. } if refusal == Refusal::TickGap => {
                self.stuck = true;
                if reading.wrapping_sub(before.reading) == 60_001 {
                    self.table.add("8 tick", "a gap of 60,001");
                }
                format!("14 in {state}")
            }
            Event::Tick { .. } => format!("{number} tick"),
            Event::Start { .. } if refusal == Refusal::Output => "15 start".into(),
            Event::Start { .. } => format!("{number} start in {state}"),
            Event::LinkUp => format!("{number} link up in {state}"),
            Event::Query => format!("{number} key query in {state}"),
            Event::Terminate => format!("{number} terminate in {state}"),
        };
        self.table.add("7 refused", &what);
    }

    fn refused_frame(&mut self, octets: &[u8], before: &Car, refusal: Refusal) {
        let (kind, number) = (Kind::of(octets), refusal.number());
        let is_taken = |kind| TAKEN.iter().any(|(taken, _)| *taken == kind);
        if number <= 6 {
            let what = match kind {
                None => "no known type".into(),
                Some(kind) if is_taken(kind) => format!("{}: {number}", short(kind)),
                Some(kind) => short(kind).into(),
            };
            return self.table.add("5 damaged", &what);
        }
        if refusal == Refusal::Output {
            let kind = kind.filter(|kind| is_taken(*kind));
            let what = kind.map_or("message to a station", short);
            return self.table.add("7 refused", &format!("15 {what}"));
        }
        let Ok(message) = Message::read(octets, Edition::Iso) else { return };
        let (state, kind) = (name(&before.state), short(message.body.kind()));
        let us = self.config.car;
        let what = match refusal {
            Refusal::OnlyForStations => {
                let to = match message.destination {
                    Address::BROADCAST => "all",
                    to if to == us => "us",
                    _ => "another",
                };
                self.table.add("7 refused", &format!("19 to {to}"));
                if let Body::ValidateReq { .. } = message.body {
                    let which = if to == "all" { "second" } else { "first" };
                    self.table.add("7 refused", &format!("19 {kind}, {which}"));
                }
                format!("19 {kind}")
            }
            Refusal::NotOurs if message.source == us => format!("7 {kind}, from us"),
            Refusal::NotOurs => format!("7 {kind}, not to us"),
            Refusal::NoRecord if run(&message) == Some(before.run.0) => {
                format!("11 {kind} in {state}, other station")
            }
            Refusal::NoRecord => format!("11 {kind} in {state}, other run"),
            Refusal::NoSounds => {
                let known = before.reports().any(|report| report.station == message.source);
                match (state, known) {
                    ("Sounding", false) => "20 in Sounding, first".into(),
                    ("Sounding", true) => "20 in Sounding, again".into(),
                    _ => format!("20 in {state}"),
                }
            }
            _ => format!("{number} {kind} in {state}"),
        };
        self.table.add("7 refused", &what);
    }

    /// The row of a refusal that was given before another that applies.
    fn order(&self, event: &Event, before: &Car, refusal: Refusal) -> Option<&'static str> {
        let (index, applies) = match (event, refusal) {
            (Event::Start { .. }, Refusal::Output) => (0, before.state != State::Idle),
            (Event::Tick { reading, .. }, Refusal::Output) => {
                (7, reading.wrapping_sub(before.reading) > 60_000)
            }
            (Event::Frame { octets, .. }, Refusal::Output) => {
                (1, Message::read(octets, Edition::Iso).is_err())
            }
            (Event::Frame { octets, .. }, _) => {
                let message = Message::read(octets, Edition::Iso).ok()?;
                let (us, state) = (self.config.car, name(&before.state));
                let to_us = message.destination == us && message.source != us;
                let takes = |(kind, takers): &(Kind, &[&str])| {
                    *kind == message.body.kind() && takers.contains(&state)
                };
                let is_empty = matches!(message.body, Body::AttenChar { sounds: 0, .. });
                match refusal {
                    Refusal::OnlyForStations => (2, !to_us),
                    Refusal::NotOurs => (3, !TAKEN.iter().any(takes)),
                    Refusal::State => (4, run(&message).is_some_and(|run| run != before.run.0)),
                    Refusal::NoRecord => (5, is_empty),
                    Refusal::NoSounds => (6, is_eleventh(&message, before)),
                    _ => return None,
                }
            }
            _ => return None,
        };
        applies.then_some(ORDER[index])
    }

    /// A tick that was taken, by the car before it.
    fn tick(&mut self, before: &Car, reading: u32) {
        let elapsed = reading.wrapping_sub(before.reading);
        let mut add = |name: &str| self.table.add("8 tick", name);
        if reading < before.reading {
            add("the clock wraps");
        }
        if elapsed == 60_000 {
            add("a gap of 60,000");
        }
        if std::mem::take(&mut self.stuck) {
            add("after 14, a tick taken");
        }
        let state = name(&before.state);
        match before.state {
            State::Idle | State::Matched { .. } => add(&format!("{state} takes the reading")),
            State::Asking { left, retries } | State::Requesting { left, retries, .. } => {
                add(&format!("{state}: {}", end(left, elapsed)));
                if left <= elapsed {
                    add(&format!("{state} fires, {retries} retries"));
                }
            }
            State::Confirmed { left } | State::Joining { left, .. } => {
                add(&format!("{state}: {}", end(left, elapsed)));
            }
            State::Sounding { sent, next, left } => {
                add(&format!("Sounding, gathering: {}", end(left, elapsed)));
                if left <= elapsed {
                    return self.choice(before, sent, next <= elapsed);
                }
                if sent < 13 {
                    add(&format!("Sounding, next: {}", end(next, elapsed)));
                }
                add(match sent {
                    13 => "Sounding, all sent",
                    _ if next > elapsed => "Sounding, none due",
                    1 | 2 => "Sounding, START sent",
                    _ => "Sounding, SOUND sent",
                });
            }
        }
    }

    /// The choice, by the car before it.
    fn choice(&mut self, before: &Car, sent: u8, is_due: bool) {
        let mut add = |name: &str| self.table.add("9 choice", name);
        add(if sent < 13 { "before all 13 are sent" } else { "after all 13 are sent" });
        if sent < 13 && is_due {
            add("where a frame is due");
        }
        if sent == 1 {
            add("of no more than one frame");
        }
        let reports: Vec<&Report> = before.reports().collect();
        let Some(total) = reports.iter().map(|report| report.total).min() else {
            return add("no report");
        };
        let is_least = |report: &&&Report| report.total == total;
        add(match reports[..] {
            [_] => "one report",
            [first, ..] if first.total == total => "the first is least",
            _ => "a later one is least",
        });
        if reports.iter().filter(is_least).count() > 1 {
            add("equal least totals");
        }
        if reports.len() == 10 {
            add("ten reports");
        }
        let [found, potentially] = self.config.limits();
        for (limit, words) in [
            (found - 1, "58 * (10 + r) less one"),
            (found, "58 * (10 + r)"),
            (potentially - 1, "58 * (20 + r) less one"),
            (potentially, "58 * (20 + r)"),
            (0, "total of 0"),
        ] {
            if total == limit {
                add(words);
            }
        }
    }
}

/// How a car came to Idle, as the next start's row.
fn ended(event: &Event, before: &State, indication: Option<Indication>) -> String {
    let why = match (event, before) {
        (Event::Terminate, _) => return format!("start after terminate in {}", name(before)),
        (_, State::Asking { .. }) => "no PARM.CNF",
        (_, State::Sounding { .. }) if indication == Some(Indication::NotFound) => "not found",
        (_, State::Sounding { .. }) => "no report",
        (_, State::Requesting { .. }) => "no MATCH.CNF",
        _ => "no link up",
    };
    format!("start after {why}")
}

/// Whether a report in Sounding finds ten kept of other stations.
fn is_eleventh(message: &Message, before: &Car) -> bool {
    let is_other = |report: &&Report| report.station != message.source;
    let is_sounding = matches!(before.state, State::Sounding { .. });
    is_sounding && before.reports().filter(is_other).count() == 10
}

/// Whether a report in Sounding is the station's first, or again, or again and smaller.
fn repeated(message: &Message, before: &Car) -> &'static str {
    let (State::Sounding { .. }, Body::AttenChar { groups, .. }) = (before.state, message.body)
    else {
        return "";
    };
    let total = total(&groups);
    match before.reports().find(|report| report.station == message.source) {
        None => ", first",
        Some(_) if before.reports().count() == 10 => ", again, ten kept",
        Some(kept) if kept.total > total => ", again, smaller",
        Some(_) => ", again",
    }
}

/// The run of a message to a car, where it has one.
fn run(message: &Message) -> Option<[u8; 8]> {
    match message.body {
        Body::ParmCnf { run, .. } | Body::AttenChar { run, .. } | Body::MatchCnf { run, .. } => {
            Some(run.0)
        }
        _ => None,
    }
}

fn name(state: &State) -> &'static str {
    match state {
        State::Idle => "Idle",
        State::Asking { .. } => "Asking",
        State::Confirmed { .. } => "Confirmed",
        State::Sounding { .. } => "Sounding",
        State::Requesting { .. } => "Requesting",
        State::Joining { .. } => "Joining",
        State::Matched { .. } => "Matched",
    }
}

impl fmt::Display for Counts {
    fn fmt(&self, f: &mut fmt::Formatter) -> fmt::Result {
        self.table.fmt(f)
    }
}
