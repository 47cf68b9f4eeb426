//! What a script reaches of the rule on empty runs.

use crate::count::{phase, short, state, Table};
use crate::messages::{Address, Body, Message, RunId};
use crate::refusal::Refusal;
use crate::script::{Event, Outcome};
use crate::station::{Config, State, Station};

const EMPTY: &str = "92 empty run";

const ROWS: [&str; 20] = [
    "21, no record", "21 in Asked", "21 in Sounding", "21 in Reported", "21 in Awaiting",
    "21 in ready", "21 in counting", "21 in success", "21 before 9", "21 before 10",
    "8 in Unmatched", "8 in Joining", "8 in Matched", "7, from us", "7, from our modem",
    "START_ATTEN_CHAR.IND: 11", "MNBC_SOUND.IND: 11", "ATTEN_CHAR.RSP: 11", "MATCH.REQ: 11",
    "MATCH.REQ: 11 in Joining",
];

/// A table's rows on empty runs.
#[derive(Clone)]
pub struct Runs {
    config: Config,
}

impl Runs {
    /// Rows of zero.
    pub fn new(config: Config, table: &mut Table) -> Runs {
        ROWS.iter().for_each(|name| table.row(EMPTY, name));
        (0..8).for_each(|octet| table.row(EMPTY, &alone(octet)));
        Runs { config }
    }

    /// Counts one event by the station before it.
    pub fn event(&self, table: &mut Table, event: &Event, before: &Station, outcome: &Outcome) {
        let Event::Frame { octets, .. } = event else { return };
        let Ok(message) = Message::read(octets, self.config.edition) else { return };
        let mut add = |name: &str| table.add(EMPTY, name);
        match (message.body, outcome) {
            (Body::ParmReq { run }, Ok(_)) => {
                let set: Vec<usize> = (0..8).filter(|place| run.0[*place] != 0).collect();
                if let [octet] = set[..] {
                    add(&alone(octet));
                }
            }
            (Body::ParmReq { run }, Err(refusal)) if run.is_empty() => {
                self.refused(message.source, before, *refusal).iter().for_each(|name| add(name));
            }
            (body, Err(Refusal::NoRecord)) if run(&body).is_some_and(RunId::is_empty) => {
                let joins = matches!(before.state, State::Joining { .. });
                if joins || before.record(message.source).is_some() {
                    let place = if joins { " in Joining" } else { "" };
                    add(&format!("{}: 11{place}", short(body.kind())));
                }
            }
            _ => {}
        }
    }

    /// The rows of a refused request with an empty run.
    fn refused(&self, car: Address, before: &Station, refusal: Refusal) -> Vec<String> {
        let number = refusal.number();
        match refusal {
            Refusal::EmptyRun => {
                let Some(record) = before.record(car) else {
                    let closed = before.state == State::Matching { admission: 0 };
                    let orders = [(closed, "21 before 9"), (before.is_full(), "21 before 10")];
                    let orders = orders.iter().filter(|(applies, _)| *applies);
                    let orders = orders.map(|(_, name)| name.to_string());
                    return orders.chain(["21, no record".into()]).collect();
                };
                vec![format!("21 in {}", phase(record))]
            }
            Refusal::State => vec![format!("8 in {}", state(before))],
            Refusal::NotOurs if car == self.config.station => vec![format!("{number}, from us")],
            Refusal::NotOurs => vec![format!("{number}, from our modem")],
            _ => Vec::new(),
        }
    }
}

/// The row of a request whose run has no more than one octet that isn't zero.
fn alone(octet: usize) -> String {
    format!("taken, octet {octet} alone not zero")
}

/// The run of a message that a record has to have.
fn run(body: &Body) -> Option<RunId> {
    match body {
        Body::StartAttenChar { run, .. }
        | Body::MnbcSound { run, .. }
        | Body::AttenCharRsp { run, .. }
        | Body::MatchReq { run, .. } => Some(*run),
        _ => None,
    }
}
