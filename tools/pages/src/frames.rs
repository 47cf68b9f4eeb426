//! Frames for a person: the message, its fields and where each octet belongs.

use crate::html::digits;
use crate::messages::{Field, Length, Message, Shown, MESSAGES};
use crate::messages::{
    ATTEN_CHAR_IND, MATCH_CNF, PROFILE_IND, SOUND_IND, VALIDATE_CNF, VALIDATE_REQ,
};
use std::ops::Range;

pub type Address = [u8; 6];

pub const BROADCAST: Address = [0xFF; 6];
/// The octets before the payload.
pub const HEAD: usize = 19;
/// The octets of a report before its values; the last of them is their number.
const REPORT_HEAD: usize = 71;
const CONFIRMATION: usize = 60;
/// Ethertype and version of a `HomePlug` management message.
const MANAGEMENT: [u8; 3] = [0x88, 0xE1, 0x01];
/// The places of the NMK in a `CM_SLAC_MATCH.CNF`.
const KEY: Range<usize> = HEAD + 74..HEAD + 90;

/// A field of a frame, as it is shown.
#[derive(Clone, Debug, PartialEq, Eq)]
pub struct Row {
    pub name: &'static str,
    /// The frame's octets that it takes, as far as they are there.
    pub octets: Range<usize>,
    pub value: String,
}

pub fn destination(frame: &[u8]) -> Option<Address> {
    frame.first_chunk().copied()
}

pub fn source(frame: &[u8]) -> Option<Address> {
    frame.get(6..12)?.first_chunk().copied()
}

pub fn address(octets: &[u8]) -> String {
    digits(octets, ":")
}

/// The message of a frame by its type, whatever else is wrong with it.
pub fn message(frame: &[u8]) -> Option<&'static Message> {
    let kind = frame.get(12..17)?.strip_prefix(&MANAGEMENT)?;
    let number = u16::from_le_bytes([*kind.first()?, *kind.get(1)?]);
    MESSAGES.iter().find(|message| message.number == number)
}

/// The message's name, with what tells frames of one name apart.
pub fn name(frame: &[u8]) -> String {
    let Some(message) = message(frame) else {
        return "no SLAC message".into();
    };
    let payload = frame.get(HEAD..).unwrap_or_default();
    match (message.number, payload.get(19)) {
        (SOUND_IND, Some(count)) => format!("{} {count}", message.name),
        (VALIDATE_REQ, _) if destination(frame) == Some(BROADCAST) => {
            format!("{} second", message.name)
        }
        (VALIDATE_REQ, _) => format!("{} first", message.name),
        _ => message.name.into(),
    }
}

/// The car that a profile names.
pub fn profiled_car(frame: &[u8]) -> Option<Address> {
    let message = message(frame)?;
    frame.get(HEAD..)?.first_chunk().copied().filter(|_| message.number == PROFILE_IND)
}

/// The octets of the `RunID`, where the message has one and it is there.
pub fn run(frame: &[u8]) -> Option<&[u8]> {
    let field = message(frame)?.fields.iter().find(|field| field.name == "RunID")?;
    frame.get(HEAD + field.at..HEAD + field.at + 8)
}

/// The values of a report or of a profile.
pub fn groups(frame: &[u8]) -> &[u8] {
    let field = message(frame).and_then(|message| {
        message.fields.iter().find(|field| matches!(field.shown, Shown::Groups))
    });
    field.and_then(|field| frame.get(places(field, frame))).unwrap_or_default()
}

/// The frames of an answer, which stand back to back: each one's type tells its length.
pub fn split(octets: &[u8]) -> Vec<&[u8]> {
    let (mut frames, mut left) = (Vec::new(), octets);
    while !left.is_empty() {
        let length = match (message(left).map(|message| message.number), left.get(REPORT_HEAD - 1))
        {
            (Some(ATTEN_CHAR_IND), Some(groups)) => REPORT_HEAD + usize::from(*groups),
            (Some(VALIDATE_CNF), _) => CONFIRMATION,
            _ => left.len(),
        };
        let (frame, rest) = left.split_at(length.min(left.len()));
        frames.push(frame);
        left = rest;
    }
    frames
}

/// The frame's octets that a field takes, as far as they are there.
fn places(field: &Field, frame: &[u8]) -> Range<usize> {
    let payload = frame.get(HEAD..).unwrap_or_default();
    let octet = |at: usize| payload.get(at).map_or(0, |octet| usize::from(*octet));
    let length = match field.length {
        Length::Fixed(octets) => octets,
        Length::CountedAt(at) => octet(at),
        Length::HalfOfCarriers => (octet(0) + 256 * octet(1)).div_ceil(2),
    };
    let start = (HEAD + field.at).min(frame.len());
    start..(HEAD + field.at + length).clamp(start, frame.len())
}

fn value(field: &Field, octets: &[u8]) -> String {
    let number = || octets.iter().rev().fold(0u64, |number, octet| number << 8 | u64::from(*octet));
    let zeros = octets.len() > 8 && octets.iter().all(|octet| *octet == 0);
    match field.shown {
        _ if octets.is_empty() => "missing".into(),
        Shown::Key => "16 octets, not shown".into(),
        Shown::Address => address(octets),
        Shown::Number => number().to_string(),
        Shown::Words(words) => {
            let word = usize::try_from(number()).ok().and_then(|at| words.get(at));
            format!("{}, {}", number(), word.unwrap_or(&"no meaning"))
        }
        Shown::Octets if zeros => format!("{} zero octets", octets.len()),
        Shown::Octets => digits(octets, " "),
        Shown::Groups => {
            let values: Vec<String> = octets.iter().map(u8::to_string).collect();
            format!("{} dB", values.join(" "))
        }
    }
}

/// Every field of a frame, its head's too; what stands behind the last one is padding.
pub fn rows(frame: &[u8]) -> Vec<Row> {
    let part = |name, octets: Range<usize>, shown: fn(&[u8]) -> String| {
        let there = octets.start.min(frame.len())..octets.end.min(frame.len());
        let value = shown(&frame[there.clone()]);
        Row { name, octets: there, value }
    };
    let spaced = |octets: &[u8]| digits(octets, " ");
    let mut rows = vec![
        part("Destination", 0..6, address),
        part("Source", 6..12, address),
        part("Ethertype", 12..14, spaced),
        part("MMV", 14..15, spaced),
        part("MMTYPE", 15..17, |octets| octets.iter().rev().map(|o| format!("{o:02X}")).collect()),
        part("FMI", 17..19, spaced),
    ];
    let fields = message(frame).map_or(&[][..], |message| message.fields);
    rows.extend(fields.iter().map(|field| {
        let octets = places(field, frame);
        Row { name: field.name, value: value(field, &frame[octets.clone()]), octets }
    }));
    let end = rows.iter().map(|row| row.octets.end).max().unwrap_or(0);
    let rest = if fields.is_empty() { "Payload" } else { "Padding" };
    if end < frame.len() {
        rows.push(part(rest, end..frame.len(), |octets| format!("{} octets", octets.len())));
    }
    rows.retain(|row| !row.octets.is_empty() || row.octets.start >= HEAD);
    rows
}

/// What stands at an octet of a frame, in words.
pub fn place(frame: &[u8], octet: usize) -> String {
    let rows = rows(frame);
    let Some(row) = rows.iter().find(|row| row.octets.contains(&octet)) else {
        return "behind the frame's end".into();
    };
    match row.name {
        "AAG" => format!("AAG, group {}", octet - row.octets.start + 1),
        name => name.into(),
    }
}

/// Which octets are not shown: those of an NMK, where a frame's message has one, and wherever the one
/// of the configuration stands, unless it is zero.
pub fn secret(frame: &[u8], key: &[u8; 16]) -> Vec<bool> {
    let mut secret = vec![false; frame.len()];
    let mut hide = |octets: Range<usize>| {
        let end = octets.end.min(frame.len());
        secret[octets.start.min(end)..end].fill(true);
    };
    if message(frame).is_some_and(|message| message.number == MATCH_CNF) {
        hide(KEY);
    }
    let windows = frame.windows(key.len()).enumerate().filter(|_| *key != [0; 16]);
    for (at, _) in windows.filter(|(_, window)| window == key) {
        hide(at..at + key.len());
    }
    secret
}

#[cfg(test)]
mod tests {
    use super::{groups, name, place, rows, run, secret, split, HEAD, KEY};

    fn frame(kind: [u8; 2], length: usize) -> Vec<u8> {
        let mut frame = vec![0; length];
        frame[12..17].copy_from_slice(&[0x88, 0xE1, 0x01, kind[0], kind[1]]);
        frame
    }

    #[test]
    fn a_frame_is_named_by_its_type() {
        let mut sound = frame([0x76, 0x60], 71);
        sound[HEAD + 19] = 7;
        sound[HEAD + 20] = 9;
        assert_eq!(name(&sound), "CM_MNBC_SOUND.IND 7");
        assert_eq!(run(&sound), Some(&[9, 0, 0, 0, 0, 0, 0, 0][..]));
        assert_eq!(name(&sound[..16]), "no SLAC message");
        assert_eq!(name(&frame([0x01, 0x60], 60)), "no SLAC message");
    }

    #[test]
    fn frames_of_one_answer_are_told_apart() {
        let mut report = frame([0x6E, 0x60], 91);
        report[70] = 20;
        report[71] = 44;
        let answer = [&report[..], &frame([0x79, 0x60], 60)].concat();
        let frames = split(&answer);
        assert_eq!(frames.iter().map(|frame| frame.len()).collect::<Vec<_>>(), [91, 60]);
        assert_eq!((groups(frames[0]).len(), groups(frames[0])[0]), (20, 44));
        assert_eq!(place(frames[0], 72), "AAG, group 2");
        assert!(split(&[1, 2, 3]) == [&[1, 2, 3][..]] && split(&[]).is_empty());
    }

    /// Whatever is missing: no field is behind the frame's end, and every octet has a place.
    #[test]
    fn any_frame_has_rows() {
        for message in &crate::messages::MESSAGES {
            let whole = frame(message.number.to_le_bytes(), 140);
            for length in 0..whole.len() {
                let cut = &whole[..length];
                assert!(rows(cut).iter().all(|row| row.octets.end <= length));
                assert!((0..length).all(|octet| place(cut, octet) != place(cut, length)));
            }
        }
    }

    #[test]
    fn a_key_is_hidden() {
        let key = [7; 16];
        let confirmation = frame([0x7D, 0x60], 109);
        assert_eq!(secret(&confirmation, &key).iter().filter(|hidden| **hidden).count(), KEY.len());
        let other = [&[1, 2][..], &key, &[3]].concat();
        let hidden: Vec<usize> = (0..other.len()).filter(|at| secret(&other, &key)[*at]).collect();
        assert_eq!(hidden, (2..18).collect::<Vec<_>>());
    }
}
