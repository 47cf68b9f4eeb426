//! How a recorded answer differs from the library's, in words and octet by octet.

use super::details;
use super::log::Answer;
use super::replay::Step;
use crate::frames;
use crate::html::{count, escaped};
use lahzavar::{Indication, Refusal};
use std::fmt::Write;

/// How many octets that differ are named one by one.
const NAMED: usize = 8;

pub fn refusal(number: u32) -> String {
    Refusal::try_from(number).map_or("accepted".into(), |refusal| refusal.to_string())
}

pub fn indication(number: u32) -> String {
    Indication::try_from(number).map_or("none".into(), |indication| indication.to_string())
}

/// Which octets of a frame differ from those of another one; where one is longer, its rest does.
fn marks(frame: &[u8], other: &[u8]) -> Vec<bool> {
    frame.iter().enumerate().map(|(at, octet)| other.get(at) != Some(octet)).collect()
}

/// One octet that differs, in words.
fn octet(recorded: &[u8], given: &[u8], at: usize, key: &[u8; 16]) -> String {
    let place = frames::place(if at < given.len() { given } else { recorded }, at);
    let secret = |frame: &[u8]| frames::secret(frame, key).get(at).copied().unwrap_or(false);
    let shown = |frame: &[u8]| {
        frame.get(at).map_or("none".into(), |octet| format!("{octet:02X} ({octet})"))
    };
    if secret(recorded) || secret(given) {
        return format!("octet {at}, {place}: they differ, and the NMK is not shown");
    }
    let meaning = match (place.starts_with("AAG"), recorded.get(at), given.get(at)) {
        (true, Some(recorded), Some(given)) => {
            format!(
                "; the board reports {recorded} dB there, the mean of the profiles is {given} dB"
            )
        }
        _ => String::new(),
    };
    format!("octet {at}, {place}: recorded {}, given {}{meaning}", shown(recorded), shown(given))
}

/// How the frames of a place in both answers differ, one sentence for each octet.
fn frame_sentences(recorded: &[u8], given: &[u8], key: &[u8; 16]) -> Vec<String> {
    let longer = recorded.len().max(given.len());
    let differing: Vec<usize> =
        (0..longer).filter(|at| recorded.get(*at) != given.get(*at)).collect();
    let mut sentences: Vec<String> =
        differing.iter().take(NAMED).map(|at| octet(recorded, given, *at, key)).collect();
    if recorded.len() != given.len() {
        let lengths = format!(
            "recorded are {}, given {}",
            count(recorded.len(), "octet"),
            count(given.len(), "octet")
        );
        sentences.insert(0, lengths);
    }
    if differing.len() > NAMED {
        sentences.push(format!("and {} more", count(differing.len() - NAMED, "octet")));
    }
    sentences
}

/// What differs, one sentence each.
pub fn sentences(step: &Step, key: &[u8; 16]) -> Vec<String> {
    let (recorded, given) = (&step.recorded, &step.given);
    let mut said = Vec::new();
    if recorded.refusal != given.refusal {
        let (recorded, given) = (refusal(recorded.refusal), refusal(given.refusal));
        said.push(format!("The answer: recorded {recorded}; given {given}."));
    }
    if recorded.indication != given.indication {
        let (recorded, given) = (indication(recorded.indication), indication(given.indication));
        said.push(format!("The indication: recorded {recorded}; given {given}."));
    }
    let (before, now) = (frames::split(&recorded.frames), frames::split(&given.frames));
    if before.len() != now.len() {
        let (recorded, given) = (count(before.len(), "frame"), count(now.len(), "frame"));
        said.push(format!("The frames: recorded {recorded}; given {given}."));
    }
    for at in 0..before.len().max(now.len()) {
        let frame = |list: &[&'_ [u8]]| list.get(at).map_or(Vec::new(), |frame| frame.to_vec());
        let (old, new) = (frame(&before), frame(&now));
        let name = frames::name(if new.is_empty() { &old } else { &new });
        let differences = frame_sentences(&old, &new, key);
        said.extend(
            differences.into_iter().map(|words| format!("Frame {}, {name}: {words}.", at + 1)),
        );
    }
    said
}

/// What a difference of this kind asks for.
pub fn advice(step: &Step) -> &'static str {
    let (recorded, given) = (&step.recorded, &step.given);
    if recorded.refusal == 15 {
        "The board lent less output than the call asks for; the replay lends the least that is enough."
    } else if given.refusal == 16 {
        "The library refuses the configuration of this log, so that its station answers 16 to every \
         event."
    } else if recorded.refusal == 16 {
        "The board's station was wiped, or configured badly; the log says another configuration."
    } else if recorded.frames.len() == given.frames.len() && recorded.refusal == given.refusal {
        "Lengths agree and octets do not: look for output that was changed before it was sent or \
         logged, for two calls at once, for damaged memory, or for another version of the library."
    } else {
        "Look at the board: another version of the library, an event that is missing in the log, two \
         calls at once, or damaged memory."
    }
}

/// One side of the comparison.
fn side(title: &str, answer: &Answer, other: &Answer, key: &[u8; 16]) -> String {
    let others = frames::split(&other.frames);
    let mut frames_shown = String::new();
    for (at, frame) in frames::split(&answer.frames).into_iter().enumerate() {
        let marked = marks(frame, others.get(at).copied().unwrap_or_default());
        let _ = write!(
            frames_shown,
            "<h4>{} <small>{}</small></h4>{}{}",
            frames::name(frame),
            count(frame.len(), "octet"),
            details::octets(frame, key, &marked),
            details::bars(frame)
        );
    }
    let none = if frames_shown.is_empty() { "<p>no frames</p>" } else { "" };
    format!(
        "<section><h3>{title}</h3><p>{}; indication: {}</p>{frames_shown}{none}</section>",
        escaped(&refusal(answer.refusal)),
        indication(answer.indication)
    )
}

/// What differs, as a list.
pub fn list(step: &Step, key: &[u8; 16]) -> String {
    let said: String =
        sentences(step, key).iter().map(|said| format!("<li>{}</li>", escaped(said))).collect();
    format!("<ul class=\"differences\">{said}</ul>")
}

/// Recorded octets against given ones.
pub fn comparison(step: &Step, key: &[u8; 16]) -> String {
    format!(
        "{}<div class=\"sides\">{}{}</div>",
        list(step, key),
        side("Recorded by the board", &step.recorded, &step.given, key),
        side("Given by the library", &step.given, &step.recorded, key)
    )
}

#[cfg(test)]
mod tests {
    use super::{frame_sentences, marks};

    #[test]
    fn octets_are_compared_place_by_place() {
        assert_eq!(marks(&[1, 2, 3], &[1, 9]), [false, true, true]);
        let said = frame_sentences(&[1, 2], &[1, 9], &[0; 16]);
        assert_eq!(said, ["octet 1, Destination: recorded 02 (2), given 09 (9)"]);
        assert_eq!(frame_sentences(&[0; 40], &[1; 40], &[0; 16]).len(), 9);
        assert_eq!(frame_sentences(&[1], &[], &[0; 16])[0], "recorded are 1 octet, given 0 octets");
    }
}
