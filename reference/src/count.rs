//! What a script reaches: how often each refusal, indication, state and accepted message occurs.

use crate::amplitude_count::Maps;
use crate::edition_count::Editions;
use crate::mean_count;
use crate::messages::{Body, Kind, Message};
use crate::refusal::{self, Refusal};
use crate::run_count::Runs;
use crate::script::{Event, Outcome};
use crate::spread_count::Spreads;
use crate::station::{Config, Indication, Phase, Record, State, Station, RECORDS};
use crate::validation_count::{named, Validations};
use std::cmp::Ordering;
use std::collections::BTreeMap;
use std::fmt;
use std::rc::Rc;

/// Counts by group and row, in the order of the table. Copies share the names of the rows.
#[derive(Clone, Default)]
pub struct Table {
    /// For each group its rows, with their places among the counts.
    groups: Rc<BTreeMap<&'static str, BTreeMap<String, usize>>>,
    counts: Vec<u64>,
}

impl Table {
    /// The place of a row, a new one where there is none.
    fn place(&mut self, group: &'static str, name: &str) -> usize {
        if let Some(place) = self.groups.get(group).and_then(|rows| rows.get(name)) {
            return *place;
        }
        let rows = Rc::make_mut(&mut self.groups).entry(group).or_default();
        rows.insert(name.into(), self.counts.len());
        self.counts.push(0);
        self.counts.len() - 1
    }

    /// A row of zero, so that what is never reached shows.
    pub fn row(&mut self, group: &'static str, name: &str) {
        self.place(group, name);
    }

    /// How many rows are reached.
    pub fn reached(&self) -> usize {
        self.counts.iter().filter(|count| **count > 0).count()
    }

    /// One more; a row of its own where there is none.
    pub fn add(&mut self, group: &'static str, name: &str) {
        let place = self.place(group, name);
        self.counts[place] += 1;
    }

    /// A row of zero for each of these refusals.
    pub fn refusals(&mut self, numbers: &[u32]) {
        numbers.iter().for_each(|number| self.row("1 refusal", &refused(*number)));
    }

    pub fn refused(&mut self, refusal: Refusal) {
        self.add("1 refusal", &refused(refusal.number()));
    }

    /// A row of zero for each run of reserved octets of an accepted message.
    pub fn reserved_rows(&mut self, kind: Kind) {
        kind.reserved().iter().for_each(|place| self.row("4 accepted", &set(kind, *place)));
    }

    /// Counts the runs of reserved octets that an accepted frame has set.
    pub fn reserved(&mut self, frame: &[u8]) {
        let Some(kind) = Kind::of(frame) else { return };
        for (from, to) in kind.reserved() {
            if frame.iter().take(19 + to).skip(19 + from).any(|octet| *octet != 0) {
                self.add("4 accepted", &set(kind, (*from, *to)));
            }
        }
    }
}

/// The row of reserved octets that are set.
fn set(kind: Kind, (from, to): (usize, usize)) -> String {
    match to - from {
        1 => format!("{}, octet {from} set", kind.name()),
        _ => format!("{}, octets {from}-{} set", kind.name(), to - 1),
    }
}

pub const ENDS: [&str; 4] =
    ["runs down", "one is left", "fires at its end", "fires with an excess"];

/// How a time ends, or does not.
pub fn end(left: u32, elapsed: u32) -> &'static str {
    match left.cmp(&elapsed) {
        Ordering::Less => ENDS[3],
        Ordering::Equal => ENDS[2],
        Ordering::Greater if left - elapsed == 1 => ENDS[1],
        Ordering::Greater => ENDS[0],
    }
}

/// Messages that a station never takes.
fn is_for_cars(kind: Kind) -> bool {
    matches!(
        kind,
        Kind::ParmCnf | Kind::AttenChar | Kind::ValidateCnf | Kind::MatchCnf | Kind::AmpMapCnf
    )
}

/// The state's name.
pub fn state(station: &Station) -> &'static str {
    match station.state {
        State::Unmatched => "Unmatched",
        State::Matching { .. } => "Matching",
        State::Joining { .. } => "Joining",
        State::Matched { .. } => "Matched",
    }
}

/// The name of a record's phase, or of its step where it validates.
pub fn phase(record: &Record) -> &'static str {
    match record.phase {
        Phase::Asked => "Asked",
        Phase::Sounding => "Sounding",
        Phase::Reported { .. } => "Reported",
        Phase::Awaiting => "Awaiting",
        Phase::Validating(step) => named(step),
    }
}

/// A message's name without its CM_ or CM_SLAC_.
pub fn short(kind: Kind) -> &'static str {
    let name = kind.name();
    name.strip_prefix("CM_SLAC_").or_else(|| name.strip_prefix("CM_")).unwrap_or(name)
}

/// The station's table.
#[derive(Clone)]
pub struct Counts {
    config: Config,
    table: Table,
    validations: Validations,
    spreads: Spreads,
    runs: Runs,
    editions: Editions,
    maps: Maps,
}

impl Counts {
    /// A table of zeros.
    pub fn new(config: Config) -> Counts {
        let mut table = Table::default();
        table.refusals(&refusal::OF_STATIONS);
        for kind in Kind::ALL {
            table.row("5 damaged", kind.name());
            table.row("6 short output", kind.name());
            if !is_for_cars(kind) {
                table.row("4 accepted", kind.name());
                table.reserved_rows(kind);
            }
        }
        let mut row = |group, name: &str| table.row(group, name);
        for name in ["tick", "pilot", "terminate", "link up", "query", "reduction", "inspection"] {
            row("4 accepted", name);
        }
        row("5 damaged", "unknown type");
        for name in ["tick", "unknown type"] {
            row("6 short output", name);
        }
        for name in ["none", "no link", "link established"] {
            row("2 indication", name);
        }
        for name in STATES {
            row("3 after the event", name);
        }
        for name in PASSAGES {
            row("7 passage", name);
        }
        for records in 0..=RECORDS {
            row("3 after the event", &held(records));
            row("7 passage", &reports(records));
        }
        let validations = Validations::new(config, &mut table);
        let spreads = Spreads::new(config, &mut table);
        let runs = Runs::new(config, &mut table);
        mean_count::rows(&mut table);
        let editions = Editions::new(config, &mut table);
        let maps = Maps::new(config, &mut table);
        Counts { config, table, validations, spreads, runs, editions, maps }
    }

    /// How many rows are reached.
    pub fn reached(&self) -> usize {
        self.table.reached()
    }

    fn add(&mut self, group: &'static str, name: &str) {
        self.table.add(group, name);
    }

    pub fn configured(&mut self, answer: Result<(), Refusal>) {
        if let Err(refusal) = answer {
            self.table.refused(refusal);
            self.add("7 passage", "bad configuration");
        }
    }

    /// Counts one event by the station before and after it.
    pub fn event(&mut self, event: &Event, before: &Station, after: &Station, outcome: &Outcome) {
        let kind = match event {
            Event::Frame { octets, .. } => Kind::of(octets).map_or("unknown type", Kind::name),
            Event::Tick { .. } => "tick",
            Event::Pilot { .. } => "pilot",
            Event::Terminate => "terminate",
            Event::LinkUp => "link up",
            Event::Query { .. } => "query",
            Event::Reduction { .. } => "reduction",
            Event::Inspection => "inspection",
        };
        match outcome {
            Ok((indication, _)) => {
                self.add("4 accepted", kind);
                if let Event::Frame { octets, .. } = event {
                    self.table.reserved(octets);
                }
                let indication = match indication {
                    None => "none",
                    Some(Indication::NoLink) => "no link",
                    Some(Indication::LinkEstablished) => "link established",
                };
                self.add("2 indication", indication);
            }
            Err(refusal) => {
                self.table.refused(*refusal);
                if matches!(event, Event::Reduction { .. }) {
                    // Its rows are elsewhere.
                } else if refusal.number() <= 6 {
                    self.add("5 damaged", kind);
                } else if *refusal == Refusal::Output {
                    self.add("6 short output", kind);
                }
            }
        }
        self.states(after);
        self.passages(event, before, after, outcome);
        self.validations.event(&mut self.table, event, before, after, outcome);
        self.spreads.event(&mut self.table, event, before, after, outcome);
        self.runs.event(&mut self.table, event, before, outcome);
        mean_count::event(&mut self.table, after, outcome);
        self.editions.event(&mut self.table, event, before, after, outcome);
        self.maps.event(&mut self.table, event, before, after, outcome);
    }

    fn states(&mut self, after: &Station) {
        let state = match after.state {
            State::Unmatched => "Unmatched",
            State::Matching { admission: 0 } => "Matching, admission closed",
            State::Matching { .. } => "Matching, admission open",
            State::Joining { .. } => "Joining",
            State::Matched { .. } => "Matched",
        };
        self.add("3 after the event", state);
        self.add("3 after the event", &format!("pilot {:?}", after.pilot));
        self.add("3 after the event", &held(after.records().count()));
        for record in after.records() {
            let phase = match record.phase {
                Phase::Reported { retries } => format!("record Reported, {retries} retries"),
                Phase::Validating(step) => format!("record Validating, {}", named(step)),
                phase => format!("record {phase:?}"),
            };
            self.add("3 after the event", &phase);
        }
    }

    /// Restarts, repeated confirmations, wraps and reports.
    fn passages(&mut self, event: &Event, before: &Station, after: &Station, outcome: &Outcome) {
        let Ok((_, octets)) = outcome else { return };
        let closed = before.state == State::Matching { admission: 0 };
        let passage = match event {
            Event::Frame { octets: frame, .. } => {
                let read = Message::read(frame, self.config.edition);
                let Ok(Message { source, body, .. }) = read else { return };
                match body {
                    Body::ParmReq { .. } if before.record(source).is_none() => return,
                    Body::ParmReq { .. } if closed => "restart, admission closed".into(),
                    Body::ParmReq { .. } => "restart, admission open".into(),
                    Body::AttenProfile { .. } if !octets.is_empty() => "closed by profiles".into(),
                    Body::MatchReq { .. } if before == after => "MATCH.CNF again".into(),
                    _ => return,
                }
            }
            Event::Tick { .. } => {
                if after.reading < before.reading {
                    self.add("7 passage", "the clock wraps");
                }
                let (messages, _) = Message::read_all(octets);
                let is_report = |message: &&Message| message.body.kind() == Kind::AttenChar;
                reports(messages.iter().filter(is_report).count())
            }
            _ => return,
        };
        self.add("7 passage", &passage);
    }
}

fn held(records: usize) -> String {
    format!("records held: {records:>2}")
}

fn reports(count: usize) -> String {
    format!("tick with {count:>2} reports")
}

const STATES: [&str; 20] = [
    "Unmatched", "Matching, admission open", "Matching, admission closed", "Joining", "Matched",
    "pilot A", "pilot B", "pilot C", "pilot D", "pilot E", "pilot F", "record Asked",
    "record Sounding", "record Reported, 0 retries", "record Reported, 1 retries",
    "record Reported, 2 retries", "record Awaiting", "record Validating, ready",
    "record Validating, counting", "record Validating, success",
];

const PASSAGES: [&str; 6] = [
    "bad configuration", "restart, admission open", "restart, admission closed",
    "closed by profiles", "MATCH.CNF again", "the clock wraps",
];

fn refused(number: u32) -> String {
    format!("{number:>2} {}", refusal::words(number))
}

impl fmt::Display for Counts {
    fn fmt(&self, f: &mut fmt::Formatter) -> fmt::Result {
        self.table.fmt(f)
    }
}

impl fmt::Display for Table {
    fn fmt(&self, f: &mut fmt::Formatter) -> fmt::Result {
        let names = self.groups.values().flat_map(BTreeMap::keys);
        let longest = names.map(String::len).max().unwrap_or(0).max(40);
        for (group, rows) in self.groups.iter() {
            let group = group.trim_start_matches(|c: char| c.is_ascii_digit()).trim_start();
            for (name, place) in rows {
                let count = self.counts[*place];
                writeln!(f, "{group:<16}  {name:<longest$}  {count:>9}")?;
            }
        }
        Ok(())
    }
}
