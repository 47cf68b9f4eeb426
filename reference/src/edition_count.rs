//! What a script reaches of the rules by which the editions differ. A row's first word is the
//! edition that reaches it.

use crate::count::{end, Table, ENDS};
use crate::messages::{Address, Body, Edition, Id, Kind, Message, Try, MOST_GROUPS, NO_ID};
use crate::refusal::Refusal;
use crate::script::{Event, Outcome};
use crate::station::{Config, Phase, Record, State, Station};

const EDITION: &str = "94 edition";

/// Frames of the other edition, or with something that only the other one takes.
const ISO: [&str; 16] = [
    "START of a first try: 6", "START of a later try: 6", "PARM.CNF of a first try: 6",
    "PARM.CNF of a later try: 6", "MNBC_SOUND.IND, IDs set: 6", "ATTEN_CHAR.IND, IDs set: 6",
    "ATTEN_CHAR.RSP, IDs set: 6", "MATCH.REQ, IDs set: 6", "MATCH.CNF, IDs set: 6",
    "ATTEN_CHAR.IND of fewer groups: 1", "ATTEN_CHAR.IND, another count: 6",
    "ATTEN_PROFILE.IND of fewer groups: 1", "ATTEN_PROFILE.IND, another count: 6",
    "wrong count, cut: 1", "wrong count, wrong address: 5", "wrong count, too long: 4",
];

const SAE: [&str; 69] = [
    "START, ISO's: 6", "START, pair of neither try: 6", "START, RESP_TYPE: 6", "START, FWD_STA: 6",
    "PARM.CNF, ISO's: 6", "PARM.CNF, pair of neither try: 6", "PARM.CNF, RESP_TYPE: 6",
    "PARM.CNF, FWD_STA: 6", "PARM.CNF, first try: 17", "PARM.CNF, later try: 17",
    "MNBC_SOUND.IND, IDs set", "ATTEN_CHAR.IND, IDs set: 17", "ATTEN_CHAR.RSP, IDs set",
    "ATTEN_CHAR.RSP, octet 50: 6", "MATCH.REQ, IDs set", "MATCH.CNF, IDs set: 17",
    "ATTEN_CHAR.IND, before the count: 1", "ATTEN_CHAR.IND, count 0: 6",
    "ATTEN_CHAR.IND, count over 58: 6", "ATTEN_CHAR.IND, wrong count, cut: 6",
    "ATTEN_CHAR.IND, payload short: 1", "ATTEN_CHAR.IND, too long: 4",
    "ATTEN_CHAR.IND, 1 group: 17", "ATTEN_CHAR.IND, 2 to 57 groups: 17",
    "ATTEN_CHAR.IND, 58 groups: 17", "ATTEN_PROFILE.IND, before the count: 1",
    "ATTEN_PROFILE.IND, count 0: 6", "ATTEN_PROFILE.IND, count over 58: 6",
    "ATTEN_PROFILE.IND, wrong count, cut: 6", "ATTEN_PROFILE.IND, payload short: 1",
    "ATTEN_PROFILE.IND, too long: 4", "ATTEN_PROFILE.IND, padding set",
    "ATTEN_PROFILE.IND, padding cut", "wrong count, wrong address: 6", "wrong count, too long: 6",
    "payload short, wrong address: 1", "first try", "later try after a first one",
    "later try after a later one", "first try after a later one", "START: 12 before 22",
    "START: 11 before 22", "count 7, first try", "count 8, first try: 13",
    "count 8 to 14, later try", "count 15, later try", "count 16, later try: 13",
    "heard already, first try: 13", "heard already, later try: 13", "profile: 1 group",
    "profile: 2 to 57 groups", "profile: 58 groups", "profile: more groups: 23",
    "profile: fewer groups: 23", "profile: 12 before 23", "profile: another count after a restart",
    "closed at 8 profiles", "closed at 16 profiles", "report of 72 octets",
    "report of 73 to 128 octets", "report of 129 octets", "tick: a shorter report first",
    "tick: a longer report first", "tick: CNF behind a short report", "MATCH.CNF with IDs",
    "MATCH.CNF again, other IDs", "query: zeros past the count", "query: 58 groups",
    "sounding, no profile, later try",
];

/// A table's rows on the editions.
#[derive(Clone)]
pub struct Editions {
    config: Config,
    /// Cars whose record was of a later try and is gone.
    later: Vec<Address>,
    /// The group counts that records had when they were restarted.
    counts: Vec<(Address, u8)>,
    /// The IDs of the match request that was answered last.
    ids: [Id; 2],
}

impl Editions {
    /// Rows of zero.
    pub fn new(config: Config, table: &mut Table) -> Editions {
        ISO.iter().for_each(|name| table.row(EDITION, &format!("ISO {name}")));
        SAE.iter().for_each(|name| table.row(EDITION, &format!("SAE {name}")));
        for end in ENDS {
            table.row(EDITION, &format!("ISO sounding: {end}"));
        }
        for attempt in ["first try", "later try"] {
            for end in ENDS {
                table.row(EDITION, &format!("SAE sounding, {attempt}: {end}"));
            }
            for phase in ["Asked", "Sounding"] {
                table.row(EDITION, &format!("SAE START in {phase}, {attempt}"));
                table.row(EDITION, &format!("SAE START in {phase}, {attempt}: 22"));
            }
        }
        Editions { config, later: Vec::new(), counts: Vec::new(), ids: [NO_ID; 2] }
    }

    /// Counts one event by the station before and after it.
    pub fn event(
        &mut self,
        table: &mut Table,
        event: &Event,
        before: &Station,
        after: &Station,
        outcome: &Outcome,
    ) {
        let edition = self.config.edition;
        let rows = match (event, outcome) {
            (Event::Frame { octets, .. }, Err(refusal)) => match Message::read(octets, edition) {
                Ok(message) => self.refused(&message, before, *refusal),
                Err(unread) if unread == *refusal => match edition {
                    Edition::Iso => unread_iso(octets, unread),
                    Edition::Sae => unread_sae(octets, unread),
                },
                Err(_) => Vec::new(),
            },
            (Event::Frame { octets, .. }, Ok((_, reply))) => {
                self.accepted(octets, before, after, reply)
            }
            (Event::Tick { reading, .. }, Ok((_, reply))) => self.tick(before, *reading, reply),
            (Event::Query { car }, Ok(_)) => match after.record(*car).and_then(|own| own.groups) {
                Some(MOST_GROUPS) => vec!["query: 58 groups".into()],
                Some(_) => vec!["query: zeros past the count".into()],
                None => Vec::new(),
            },
            _ => Vec::new(),
        };
        let prefix = if edition == Edition::Iso { "ISO" } else { "SAE" };
        rows.iter().for_each(|name| table.add(EDITION, &format!("{prefix} {name}")));
        for record in before.records().filter(|record| record.later) {
            if after.record(record.car).is_none() {
                self.later.push(record.car);
            }
        }
        self.counts.retain(|(car, _)| after.record(*car).is_some());
    }

    /// The rows of an accepted frame; the ISO edition has none.
    fn accepted(
        &mut self,
        octets: &[u8],
        before: &Station,
        after: &Station,
        reply: &[u8],
    ) -> Vec<String> {
        let Ok(message) = Message::read(octets, self.config.edition) else { return Vec::new() };
        let Some(car) = message.car().filter(|_| self.config.edition == Edition::Sae) else {
            return Vec::new();
        };
        let mut rows = ids(&message.body, "");
        let (old, new) = (before.record(car), after.record(car));
        match (message.body, old, new) {
            (Body::ParmReq { .. }, None, _) => {
                rows.push("first try".into());
                if self.later.contains(&car) {
                    self.later.retain(|later| *later != car);
                    rows.push("first try after a later one".into());
                }
            }
            (Body::ParmReq { .. }, Some(old), _) => {
                rows.push(format!("later try after a {} one", word(old)));
                if let Some(count) = old.groups {
                    self.counts.retain(|(counted, _)| *counted != car);
                    self.counts.push((car, count));
                }
            }
            (Body::StartAttenChar { .. }, Some(old), _) => {
                rows.push(format!("START in {:?}, {} try", old.phase, word(old)));
            }
            (Body::MnbcSound { count, .. }, Some(old), _) => match (old.later, count) {
                (false, 7) => rows.push("count 7, first try".into()),
                (true, 8..=14) => rows.push("count 8 to 14, later try".into()),
                (true, 15) => rows.push("count 15, later try".into()),
                _ => {}
            },
            (Body::AttenProfile { count, .. }, Some(old), Some(_)) => {
                rows.push(match count {
                    1 => "profile: 1 group".into(),
                    MOST_GROUPS => "profile: 58 groups".into(),
                    _ => "profile: 2 to 57 groups".into(),
                });
                let is_other =
                    |(counted, before): &(Address, u8)| *counted == car && *before != count;
                if old.profiles == 0 && self.counts.iter().any(is_other) {
                    rows.push("profile: another count after a restart".into());
                }
                if !reply.is_empty() {
                    rows.push(format!("closed at {} profiles", old.profiles + 1));
                    rows.push(report(reply.len()).into());
                }
                let shortest = Kind::AttenProfile.shortest_with(count.into());
                if octets.iter().skip(shortest).any(|octet| *octet != 0) {
                    rows.push("ATTEN_PROFILE.IND, padding set".into());
                }
                if octets.len() < Kind::AttenProfile.written_with(count.into()) {
                    rows.push("ATTEN_PROFILE.IND, padding cut".into());
                }
            }
            (Body::MatchReq { car_id, station_id, .. }, ..) => {
                let own = [car_id, station_id];
                rows.extend((own != [NO_ID; 2]).then(|| "MATCH.CNF with IDs".into()));
                let is_again = matches!(before.state, State::Joining { .. });
                if is_again && own != self.ids {
                    rows.push("MATCH.CNF again, other IDs".into());
                }
                self.ids = own;
            }
            _ => {}
        }
        rows
    }

    /// The rows of a refused frame that can be read; the ISO edition has none.
    fn refused(&self, message: &Message, before: &Station, refusal: Refusal) -> Vec<String> {
        if self.config.edition == Edition::Iso {
            return Vec::new();
        }
        let record = message.car().and_then(|car| before.record(car));
        match (message.body, refusal, record) {
            (Body::ParmCnf { attempt, .. }, Refusal::CarOnly, _) => {
                vec![format!("PARM.CNF, {} try: 17", named(attempt))]
            }
            (Body::AttenChar { count, .. }, Refusal::CarOnly, _) => {
                let range = match count {
                    1 => "1 group",
                    MOST_GROUPS => "58 groups",
                    _ => "2 to 57 groups",
                };
                let mut rows = ids(&message.body, ": 17");
                rows.push(format!("ATTEN_CHAR.IND, {range}: 17"));
                rows
            }
            (Body::MatchCnf { .. }, Refusal::CarOnly, _) => ids(&message.body, ": 17"),
            (Body::StartAttenChar { attempt, .. }, _, Some(record)) => {
                let is_other = attempt != self.config.attempt(record.later);
                match refusal {
                    Refusal::OtherTry => {
                        vec![format!("START in {:?}, {} try: 22", record.phase, word(record))]
                    }
                    Refusal::Phase if is_other => vec!["START: 12 before 22".into()],
                    Refusal::NoRecord if is_other => vec!["START: 11 before 22".into()],
                    _ => Vec::new(),
                }
            }
            (Body::MnbcSound { count, .. }, Refusal::SoundCount, Some(record)) => {
                let sounds = self.config.attempt(record.later).sounds();
                match count {
                    _ if count < sounds => vec![format!("heard already, {} try: 13", word(record))],
                    _ if count == sounds => {
                        vec![format!("count {count}, {} try: 13", word(record))]
                    }
                    _ => Vec::new(),
                }
            }
            (Body::AttenProfile { count, .. }, Refusal::GroupCount, Some(record)) => {
                match record.groups.is_some_and(|groups| groups < count) {
                    true => vec!["profile: more groups: 23".into()],
                    false => vec!["profile: fewer groups: 23".into()],
                }
            }
            (Body::AttenProfile { count, .. }, Refusal::Phase, Some(record))
                if record.groups.is_some_and(|groups| groups != count) =>
            {
                vec!["profile: 12 before 23".into()]
            }
            _ => Vec::new(),
        }
    }

    /// The rows of a tick that was taken.
    fn tick(&self, before: &Station, reading: u32, reply: &[u8]) -> Vec<String> {
        let elapsed = reading.wrapping_sub(before.reading);
        let is_sae = self.config.edition == Edition::Sae;
        let mut rows = Vec::new();
        for record in before.records().filter(|record| record.phase == Phase::Sounding) {
            let attempt = if is_sae { format!(", {} try", word(record)) } else { String::new() };
            rows.push(format!("sounding{attempt}: {}", end(record.left, elapsed)));
            if record.later && record.profiles == 0 && record.left <= elapsed {
                rows.push("sounding, no profile, later try".into());
            }
        }
        if !is_sae {
            return rows;
        }
        let mut last = 0;
        for message in Message::read_all(reply).0 {
            let length = message.body.kind().written_with(message.body.count());
            match message.body {
                Body::AttenChar { .. } => {
                    rows.push(report(length).into());
                    if last != 0 && last != length {
                        let which = if last < length { "shorter" } else { "longer" };
                        rows.push(format!("tick: a {which} report first"));
                    }
                    last = length;
                }
                Body::ValidateCnf { .. } if (1..129).contains(&last) => {
                    rows.push("tick: CNF behind a short report".into());
                }
                _ => {}
            }
        }
        rows
    }
}

fn word(record: &Record) -> &'static str {
    match record.later {
        false => "first",
        true => "later",
    }
}

fn named(attempt: Try) -> &'static str {
    match attempt {
        Try::Iso => "ISO",
        Try::First => "first",
        Try::Later => "later",
    }
}

fn report(length: usize) -> &'static str {
    match length {
        72 => "report of 72 octets",
        129 => "report of 129 octets",
        _ => "report of 73 to 128 octets",
    }
}

/// The row of a message with identifiers that are set.
fn ids(body: &Body, number: &str) -> Vec<String> {
    let ids = match body {
        Body::MnbcSound { sender_id, .. } => [sender_id, &NO_ID],
        Body::AttenChar { source_id, resp_id, .. }
        | Body::AttenCharRsp { source_id, resp_id, .. } => [source_id, resp_id],
        Body::MatchReq { car_id, station_id, .. } | Body::MatchCnf { car_id, station_id, .. } => {
            [car_id, station_id]
        }
        _ => return Vec::new(),
    };
    let name = crate::count::short(body.kind());
    let is_set = ids != [&NO_ID; 2];
    is_set.then(|| format!("{name}, IDs set{number}")).into_iter().collect()
}

/// Whether source, destination and PROFILE's car are of the right kind, as far as they are there.
fn has_addresses(kind: Kind, frame: &[u8]) -> bool {
    let address = |at: usize| frame.get(at..)?.first_chunk().copied().map(Address);
    let car = if kind == Kind::AttenProfile { address(19) } else { address(6) };
    address(0).is_none_or(|to| kind.destination().allows(to))
        && address(6).is_none_or(Address::is_unicast)
        && car.is_none_or(Address::is_unicast)
}

/// The group count of a frame that is wrong.
fn wrong_count(kind: Kind, frame: &[u8]) -> Option<u8> {
    let count = *frame.get(kind.count_place()?)?;
    (!(1..=MOST_GROUPS).contains(&count)).then_some(count)
}

/// The rows of a frame that the ISO edition doesn't read.
fn unread_iso(frame: &[u8], refusal: Refusal) -> Vec<String> {
    let Some(kind) = Kind::of(frame) else { return Vec::new() };
    let name = crate::count::short(kind);
    if wrong_count(kind, frame).is_some() {
        let is_whole = frame.len() == kind.shortest();
        return match refusal {
            Refusal::Short => vec!["wrong count, cut: 1".into()],
            Refusal::Long => vec!["wrong count, too long: 4".into()],
            Refusal::AddressKind if is_whole => vec!["wrong count, wrong address: 5".into()],
            Refusal::Octet => vec![format!("{name}, another count: 6")],
            _ => Vec::new(),
        };
    }
    let Ok(message) = Message::read(frame, Edition::Sae) else {
        let is_other =
            kind.count_place().is_some_and(|place| frame.get(place) != Some(&MOST_GROUPS));
        return match refusal {
            Refusal::Octet if is_other => vec![format!("{name}, another count: 6")],
            _ => Vec::new(),
        };
    };
    match (message.body, refusal) {
        (Body::StartAttenChar { attempt, .. }, Refusal::Octet) => {
            vec![format!("START of a {} try: 6", named(attempt))]
        }
        (Body::ParmCnf { attempt, .. }, Refusal::Octet) => {
            vec![format!("PARM.CNF of a {} try: 6", named(attempt))]
        }
        (_, Refusal::Short) => vec![format!("{name} of fewer groups: 1")],
        (body, Refusal::Octet) => ids(&body, ": 6"),
        _ => Vec::new(),
    }
}

/// The rows of a frame that the SAE edition doesn't read.
fn unread_sae(frame: &[u8], refusal: Refusal) -> Vec<String> {
    let Some(kind) = Kind::of(frame) else { return Vec::new() };
    let name = crate::count::short(kind);
    let octet = |at: usize| frame.get(at).copied().unwrap_or(0);
    match (kind, refusal) {
        (Kind::StartAttenChar, Refusal::Octet) if octet(19) == 0 && octet(20) == 0 => {
            wrong_try("START", frame, 21)
        }
        (Kind::ParmCnf, Refusal::Octet) if frame[19..25] == [0xFF; 6] => {
            wrong_try("PARM.CNF", frame, 25)
        }
        (Kind::AttenCharRsp, Refusal::Octet) if octet(69) != 0 => {
            vec!["ATTEN_CHAR.RSP, octet 50: 6".into()]
        }
        (Kind::AttenChar | Kind::AttenProfile, _) => {
            let place = kind.count_place().unwrap_or(0);
            let Some(count) = frame.get(place).copied() else {
                let is_short = refusal == Refusal::Short && frame.len() >= 19;
                return Vec::from_iter(is_short.then(|| format!("{name}, before the count: 1")));
            };
            let is_wrong = wrong_count(kind, frame).is_some();
            let mut rows = Vec::new();
            match refusal {
                Refusal::Octet if is_wrong => {
                    let range = if count == 0 { "0" } else { "over 58" };
                    rows.push(format!("{name}, count {range}: 6"));
                    if frame.len() < kind.shortest_with(1) {
                        rows.push(format!("{name}, wrong count, cut: 6"));
                    }
                    if !has_addresses(kind, frame) {
                        rows.push("wrong count, wrong address: 6".into());
                    }
                    if frame.len() > kind.shortest() {
                        rows.push("wrong count, too long: 6".into());
                    }
                }
                Refusal::Short => {
                    rows.push(format!("{name}, payload short: 1"));
                    if !has_addresses(kind, frame) {
                        rows.push("payload short, wrong address: 1".into());
                    }
                }
                Refusal::Long if frame.len() <= kind.shortest() => {
                    rows.push(format!("{name}, too long: 4"));
                }
                _ => {}
            }
            rows
        }
        _ => Vec::new(),
    }
}

/// The row of a pair, RESP_TYPE or FWD_STA that the SAE edition doesn't have.
fn wrong_try(name: &str, frame: &[u8], at: usize) -> Vec<String> {
    let why = match (&frame[at..at + 2], frame[at + 2]) {
        ([0x0A, 0x06], _) => "ISO's",
        ([0x08, 0x02] | [0x10, 0x0A], 0) => "FWD_STA",
        ([0x08, 0x02] | [0x10, 0x0A], _) => "RESP_TYPE",
        _ => "pair of neither try",
    };
    vec![format!("{name}, {why}: 6")]
}
