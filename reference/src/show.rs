//! A readable line for each event of a script.

use crate::amplitude;
use crate::compare;
use crate::messages::{Address, Body, Edition, Kind, Message};
use crate::script::{Answer, Event};
use crate::station::{Phase, State, Station, Step};

pub const HEADING: &str = "      time  event                            car                \
state afterwards                          reply; indication";

/// Time, message or event, car, state afterwards, reply, indication.
pub fn line(event: &Event, station: &Station, answer: &Answer) -> String {
    let (name, car) = describe(event, station.edition());
    let reply = match (answer.refusal, event, answer.octets.first()) {
        (0, Event::Query { .. }, _) => service(&answer.octets),
        (0, Event::Reduction { .. }, _) => reductions(&answer.octets),
        (0, Event::Inspection, _) => match compare::inspection(&answer.octets) {
            Some(words) => words,
            None => compare::frames(&answer.octets),
        },
        (0, _, None) => "-".into(),
        (0, _, Some(_)) => compare::frames(&answer.octets),
        (refusal, ..) => compare::refused(refusal),
    };
    let indication = match answer.indication {
        0 => String::new(),
        indication => format!("; {}", compare::indicated(indication)),
    };
    let car_text = car.map_or("-".into(), |car| car.to_string());
    let state = state(station, car);
    format!("{:>10}  {name:<31}  {car_text:<17}  {state:<40}  {reply}{indication}", station.reading)
}

/// A query's answer in words: the sounds heard, and the values over all groups.
fn service(octets: &[u8]) -> String {
    let Some((heard, least, greatest)) = compare::spread(octets) else {
        return compare::frames(octets);
    };
    let (lowest, highest) = (least.iter().min(), greatest.iter().max());
    let (lowest, highest) = (lowest.copied().unwrap_or(0), highest.copied().unwrap_or(0));
    let widest = least.iter().zip(greatest).map(|(least, most)| most.saturating_sub(*least)).max();
    let widest = widest.unwrap_or(0);
    format!("{heard} sounds heard, values {lowest} to {highest}, widest spread {widest}")
}

/// Reductions in words.
fn reductions(octets: &[u8]) -> String {
    let (least, most) = (octets.iter().min(), octets.iter().max());
    format!("reductions {} to {}", least.copied().unwrap_or(0), most.copied().unwrap_or(0))
}

/// The event in words, and the car it names.
fn describe(event: &Event, edition: Edition) -> (String, Option<Address>) {
    match event {
        Event::Frame { octets, .. } => match Message::read(octets, edition) {
            Ok(message) => match message.body {
                Body::MnbcSound { count, .. } => {
                    (format!("CM_MNBC_SOUND.IND {count}"), message.car())
                }
                Body::ValidateReq { timer } => match message.destination {
                    Address::BROADCAST => {
                        (format!("CM_VALIDATE.REQ second, {timer}"), message.car())
                    }
                    _ => ("CM_VALIDATE.REQ first".into(), message.car()),
                },
                Body::AmpMapReq { carriers } => {
                    let mut values = vec![0; carriers.into()];
                    let asked = match amplitude::values(octets, &mut values) {
                        Ok(_) => values.iter().max().copied().unwrap_or(0),
                        Err(_) => 0,
                    };
                    (format!("CM_AMP_MAP.REQ {carriers}, most {asked}"), message.car())
                }
                body => (body.kind().name().into(), message.car()),
            },
            Err(_) => (format!("{} damaged", Kind::of(octets).map_or("frame", Kind::name)), None),
        },
        Event::Tick { reading, .. } => (format!("tick {reading}"), None),
        Event::Pilot { to, .. } => (format!("pilot {to:?}"), None),
        Event::Terminate => ("terminate".into(), None),
        Event::LinkUp => ("link up".into(), None),
        Event::Query { car } => ("service query".into(), Some(*car)),
        Event::Reduction { values, .. } => (format!("reduction, {} values", values.len()), None),
        Event::Inspection => ("inspection".into(), None),
    }
}

/// The station's state, and the car's record or how many records are held.
fn state(station: &Station, car: Option<Address>) -> String {
    let held = match car.and_then(|car| station.record(car)) {
        Some(record) => {
            let phase = match record.phase {
                Phase::Reported { retries } => format!("Reported ({retries} retries)"),
                Phase::Validating(Step::Ready) => "Validating, ready".into(),
                Phase::Validating(Step::Counting { toggles, begun }) => {
                    format!("Validating, {}", counted(toggles, begun))
                }
                Phase::Validating(Step::Success) => "Validating, success".into(),
                phase => format!("{phase:?}"),
            };
            let attempt = if record.later { ", later try" } else { "" };
            format!("{phase}{attempt}, {} ms", record.left)
        }
        None if car.is_some() => "no record".into(),
        None => {
            let counting = station.records().find_map(|record| match record.phase {
                Phase::Validating(Step::Counting { toggles, begun }) => {
                    Some(format!(", {}", counted(toggles, begun)))
                }
                _ => None,
            });
            format!("{} held{}", station.records().count(), counting.unwrap_or_default())
        }
    };
    match station.state {
        State::Unmatched => "Unmatched".into(),
        State::Matching { admission: 0 } => format!("Matching (closed): {held}"),
        State::Matching { .. } => format!("Matching: {held}"),
        State::Joining { left, .. } => format!("Joining, {left} ms"),
        State::Matched { car } => format!("Matched with {car}"),
    }
}

/// The toggles of a validation in words.
fn counted(toggles: u8, begun: bool) -> String {
    format!("toggles: {toggles}{}", if begun { ", one begun" } else { "" })
}
