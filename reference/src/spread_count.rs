//! What a script reaches of the rules on the spread: values that change it, and service queries.

use crate::count::{phase, state, Table};
use crate::messages::{Address, Body, Groups, Message, MOST_GROUPS};
use crate::refusal::Refusal;
use crate::script::{Event, Outcome};
use crate::station::{Config, Record, State, Station};

const SPREAD: &str = "91 spread";

const ROWS: [&str; 35] = [
    "query: 11 in Unmatched",
    "query: 11 in Joining",
    "query: 11 in Matched",
    "query: 11, no record",
    "query: 11 in Asked",
    "query: 11 in Sounding",
    "query: 11, profiles before a restart",
    "query in Sounding",
    "query in Reported",
    "query in Awaiting",
    "query in ready",
    "query in counting",
    "query in success",
    "query: none heard",
    "query: some heard",
    "query: all heard",
    "query: one profile",
    "query: some profiles",
    "query: all profiles",
    "query: least 0",
    "query: least 255",
    "query: greatest 0",
    "query: greatest 255",
    "query: 0 and 255 in one group",
    "query after a restart, wider before",
    "query after the last lowered the least",
    "query after the last raised the greatest",
    "first profile",
    "later profile: least lowered",
    "later profile: greatest raised",
    "later profile: neither",
    "last profile: least lowered",
    "last profile: greatest raised",
    "SAE query after the last of a later try lowered the least",
    "SAE query after the last of a later try raised the greatest",
];

/// A table's rows on the spread.
#[derive(Clone)]
pub struct Spreads {
    /// What a car's record had when it was restarted, where it counted a profile.
    before: Vec<(Address, Groups, Groups)>,
    /// Cars whose last profile, which closed Sounding, lowered the least or raised the greatest
    /// value of a group.
    last: Vec<(Address, bool, bool)>,
    config: Config,
}

impl Spreads {
    /// Rows of zero.
    pub fn new(config: Config, table: &mut Table) -> Spreads {
        ROWS.iter().for_each(|name| table.row(SPREAD, name));
        Spreads { before: Vec::new(), last: Vec::new(), config }
    }

    /// Counts one event by the station before and after it.
    pub fn event(
        &mut self,
        table: &mut Table,
        event: &Event,
        before: &Station,
        after: &Station,
        outcome: &Outcome,
    ) {
        let rows = match (event, outcome) {
            (Event::Query { car }, Ok(_)) => {
                after.record(*car).map_or(Vec::new(), |record| self.answered(record))
            }
            (Event::Query { car }, Err(Refusal::NoRecord)) => self.refused(*car, before),
            (Event::Frame { octets, .. }, Ok(_)) => self.frame(octets, before, after),
            _ => Vec::new(),
        };
        rows.iter().for_each(|name| table.add(SPREAD, name));
        self.before.retain(|(car, ..)| after.record(*car).is_some());
        self.last.retain(|(car, ..)| after.record(*car).is_some_and(|own| own.profiles > 0));
    }

    /// The rows of a query that was answered.
    fn answered(&self, record: &Record) -> Vec<String> {
        let mut rows = vec![format!("query in {}", phase(record))];
        let mut add = |applies: bool, name: &str| rows.extend(applies.then(|| name.to_string()));
        let all = u32::from(self.config.attempt(record.later).sounds());
        add(
            true,
            match record.heard.count_ones() {
                0 => "query: none heard",
                heard if heard == all => "query: all heard",
                _ => "query: some heard",
            },
        );
        add(
            true,
            match u32::from(record.profiles) {
                1 => "query: one profile",
                profiles if profiles == all => "query: all profiles",
                _ => "query: some profiles",
            },
        );
        let counted = record.groups.unwrap_or(MOST_GROUPS).into();
        let groups = record.least.into_iter().zip(record.greatest).take(counted);
        let groups: Vec<(u8, u8)> = groups.collect();
        add(groups.iter().any(|(least, _)| *least == 0), "query: least 0");
        add(groups.iter().any(|(least, _)| *least == 255), "query: least 255");
        add(groups.iter().any(|(_, greatest)| *greatest == 0), "query: greatest 0");
        add(groups.iter().any(|(_, greatest)| *greatest == 255), "query: greatest 255");
        add(groups.contains(&(0, 255)), "query: 0 and 255 in one group");
        let own = |car: &Address| *car == record.car;
        if let Some((_, least, greatest)) = self.before.iter().find(|(car, ..)| own(car)) {
            let old = least.iter().zip(greatest);
            let is_wider =
                groups.iter().zip(old).any(|(now, old)| *old.0 < now.0 || *old.1 > now.1);
            add(is_wider, "query after a restart, wider before");
        }
        if let Some((_, lowered, raised)) = self.last.iter().find(|(car, ..)| own(car)) {
            add(*lowered, "query after the last lowered the least");
            add(*raised, "query after the last raised the greatest");
            let later = record.later;
            add(later && *lowered, "SAE query after the last of a later try lowered the least");
            add(later && *raised, "SAE query after the last of a later try raised the greatest");
        }
        rows
    }

    /// The rows of a query refused with 11.
    fn refused(&self, car: Address, before: &Station) -> Vec<String> {
        let why = match (before.state, before.record(car)) {
            (State::Matching { .. }, Some(record)) => format!(" in {}", phase(record)),
            (State::Matching { .. }, None) => ", no record".into(),
            _ => format!(" in {}", state(before)),
        };
        let restarted = self.before.iter().any(|(restarted, ..)| *restarted == car);
        let restarted = restarted.then(|| "query: 11, profiles before a restart".to_string());
        [format!("query: 11{why}")].into_iter().chain(restarted).collect()
    }

    /// The rows of an accepted frame.
    fn frame(&mut self, octets: &[u8], before: &Station, after: &Station) -> Vec<String> {
        let Ok(message) = Message::read(octets, self.config.edition) else { return Vec::new() };
        let car = message.car();
        let record = |station: &Station| car.and_then(|car| station.record(car).cloned());
        let (Some(old), Some(new)) = (record(before), record(after)) else { return Vec::new() };
        match message.body {
            Body::ParmReq { .. } if old.profiles > 0 => {
                self.before.retain(|(car, ..)| *car != old.car);
                self.before.push((old.car, old.least, old.greatest));
                Vec::new()
            }
            Body::AttenProfile { .. } if old.profiles == 0 => vec!["first profile".into()],
            Body::AttenProfile { .. } => {
                let lowered = old.least != new.least;
                let raised = old.greatest != new.greatest;
                let all = u16::from(self.config.attempt(new.later).sounds());
                let which = if new.profiles == all { "last" } else { "later" };
                if new.profiles == all {
                    self.last.push((old.car, lowered, raised));
                }
                let mut rows = Vec::new();
                rows.extend(lowered.then(|| format!("{which} profile: least lowered")));
                rows.extend(raised.then(|| format!("{which} profile: greatest raised")));
                rows.extend((!lowered && !raised).then(|| "later profile: neither".into()));
                rows
            }
            _ => Vec::new(),
        }
    }
}
