//! Compares two outputs of one script, a station's or a car's.

use crate::messages::{Address, Body, Groups, Message, MAP_SUCCESS, RESULTS};
use crate::refusal;
use crate::script::{take_number, Answer};
use std::io::{self, BufReader, Read};

/// What a car's key query gives: station 6, NID 7, NMK 16. No frame is so short.
const KEY: usize = 29;

/// Writes what was found in words: `Ok` if all is equal, else the first difference.
pub fn compare(one: impl Read, other: impl Read) -> io::Result<Result<String, String>> {
    let (mut one, mut other) = (BufReader::new(one), BufReader::new(other));
    let differ = |place: String, a: String, b: String| Ok(Err(format!("{place}: {a} | {b}")));
    let (a, b) = (take_number(&mut one)?, take_number(&mut other)?);
    if a != b {
        return differ("configuring".into(), refused(a), refused(b));
    }
    for event in 1u64.. {
        let (a, b) = (Answer::take(&mut one)?, Answer::take(&mut other)?);
        if a != b {
            let words = |answer: &Option<Answer>| answer.as_ref().map_or("no answer".into(), words);
            return differ(format!("event {event}"), words(&a), words(&b));
        }
        if a.is_none() {
            return Ok(Ok(format!("{} events, no difference", event - 1)));
        }
    }
    Ok(Err("too many events".into()))
}

/// Accepted, or the refusal in words.
pub fn refused(number: u32) -> String {
    match number {
        0 => "accepted".into(),
        _ => format!("refused {number} ({})", refusal::words(number)),
    }
}

/// An answer in words.
pub fn words(Answer { refusal, indication, octets }: &Answer) -> String {
    let given = match octets[..] {
        _ if Message::read_all(octets).0.is_empty() && spread(octets).is_some() => service(octets),
        _ if inspection(octets).is_some() => inspection(octets).unwrap_or_default(),
        [a, b, c, d, e, f, ref key @ ..] if octets.len() == KEY => {
            format!("the key of {}: {}", Address([a, b, c, d, e, f]), hex(key))
        }
        _ => format!("{}: {}", frames(octets), hex(octets)),
    };
    format!("{}, {}, {given}", refused(*refusal), indicated(*indication))
}

/// What a station's inspection gives: the state's number, and the car. No frame is so short.
pub fn inspection(octets: &[u8]) -> Option<String> {
    let (state, car) = octets.split_first_chunk()?;
    let car = Address(car.try_into().ok()?);
    Some(format!("state {}, car {car}", u32::from_le_bytes(*state)))
}

/// What a station's service query gives: the sounds heard, the least and the greatest values.
pub fn spread(octets: &[u8]) -> Option<(u32, &Groups, &Groups)> {
    let (heard, values) = octets.split_first_chunk()?;
    let (least, greatest) = values.split_first_chunk()?;
    Some((u32::from_le_bytes(*heard), least, greatest.try_into().ok()?))
}

fn service(octets: &[u8]) -> String {
    let Some((heard, least, greatest)) = spread(octets) else { return hex(octets) };
    format!("{heard} sounds heard, least {}, greatest {}", hex(least), hex(greatest))
}

/// An indication in words.
pub fn indicated(indication: u32) -> String {
    match indication {
        0 => "no indication".into(),
        1 => "no link".into(),
        2 => "link established".into(),
        3 => "found".into(),
        4 => "potentially found".into(),
        5 => "not found".into(),
        6 => "key given".into(),
        other => format!("indication {other}"),
    }
}

fn hex(octets: &[u8]) -> String {
    octets.iter().map(|octet| format!("{octet:02X}")).collect::<Vec<_>>().join(" ")
}

/// The frames of an answer in words: those that stand back to back, and what else there is.
pub fn frames(octets: &[u8]) -> String {
    let (messages, left) = Message::read_all(octets);
    let name = |message: &Message| {
        let (name, to) = (message.body.kind().name(), message.destination);
        match message.body {
            Body::AttenChar { sounds, .. } => format!("{name} ({sounds} used) to {to}"),
            Body::ValidateCnf { toggles, result } => {
                let words = RESULTS.get(usize::from(result)).copied().unwrap_or("no such result");
                match toggles {
                    0 => format!("{name} ({words}) to {to}"),
                    _ => format!("{name} ({words}, {toggles} toggles) to {to}"),
                }
            }
            Body::AmpMapCnf { result } => {
                let words = if result == MAP_SUCCESS { "success" } else { "failure" };
                format!("{name} ({words}) to {to}")
            }
            _ => format!("{name} to {to}"),
        }
    };
    let mut words: Vec<String> = messages.iter().map(name).collect();
    if left > 0 {
        words.push(format!("{left} octets"));
    } else if words.is_empty() {
        words.push("no frame".into());
    }
    words.join(", ")
}
