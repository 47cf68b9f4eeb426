//! What happened, in sentences.

use super::bay::{Start, Story};
use super::line::{Outcome, LIMIT};
use crate::html::count;
use lahzavar::{Indication, Refusal};

/// How a car has ended.
#[derive(Clone, Copy, Debug, PartialEq, Eq)]
pub enum End {
    OwnBay,
    OtherBay(usize),
    NotJoined,
}

impl End {
    pub fn class(self) -> &'static str {
        match self {
            End::OwnBay => "own",
            End::OtherBay(_) => "other",
            End::NotJoined => "none",
        }
    }
}

pub fn end(bay: usize, story: &Story) -> End {
    match story.joined.filter(|_| story.is_linked()) {
        None => End::NotJoined,
        Some(joined) if joined == bay => End::OwnBay,
        Some(joined) => End::OtherBay(joined),
    }
}

/// How many cars ended so.
pub struct Counts {
    pub own: usize,
    pub other: usize,
    pub none: usize,
}

pub fn counts(outcome: &Outcome) -> Counts {
    let ends: Vec<End> =
        outcome.stories.iter().enumerate().map(|(bay, story)| end(bay, story)).collect();
    let of = |class: &str| ends.iter().filter(|end| end.class() == class).count();
    Counts { own: of("own"), other: of("other"), none: of("none") }
}

/// Milliseconds as seconds.
pub fn seconds(time: u32) -> String {
    format!("{}.{} s", time / 1000, time % 1000 / 100)
}

/// Why a start did not lead to the own station.
fn reason(bay: usize, start: &Start) -> String {
    match start.own_refusal {
        Some(Refusal::WrongState) if start.own_joined.is_some() => {
            let joined = start.own_joined.unwrap_or(bay) + 1;
            format!("its own station had joined the car of bay {joined}")
        }
        _ if start.reports.contains(&bay) => "it heard another station better than its own".into(),
        _ if !start.own_heard => "its request did not reach its own station".into(),
        Some(Refusal::RecordsFull) => "its own station had no record left".into(),
        Some(Refusal::WrongState) => "its own station was not in matching".into(),
        Some(Refusal::AdmissionClosed) => "its own station admitted no car any more".into(),
        Some(refusal) => format!("its own station {refusal}"),
        None => "no report of its own station reached it in time".into(),
    }
}

/// What has become of one car that is not at its own station; nothing of any other.
fn trouble(outcome: &Outcome, bay: usize) -> Option<String> {
    let story = &outcome.stories[bay];
    let number = bay + 1;
    let last = story.starts.last();
    match end(bay, story) {
        End::OwnBay => None,
        End::OtherBay(joined) => {
            let over = outcome.attenuation.over(bay, joined);
            let why = last.map_or(String::new(), |start| format!(": {}", reason(bay, start)));
            Some(format!("The car of bay {number} joined bay {} ({over} dB){why}.", joined + 1))
        }
        End::NotJoined => {
            let starts = count(story.starts.len(), "start");
            let ended = last.and_then(|start| start.ended);
            let ended = ended.map_or("the last one goes on".into(), |ended| match ended {
                Indication::NotFound => "the last one found no station near enough".into(),
                other => format!("the last one ended with \"{other}\""),
            });
            Some(format!("The car of bay {number} has not joined after {starts}: {ended}."))
        }
    }
}

/// What has become of each car that is not at its own station.
pub fn troubles(outcome: &Outcome) -> Vec<String> {
    (0..outcome.stories.len()).filter_map(|bay| trouble(outcome, bay)).collect()
}

/// What is simulated.
pub fn conditions(outcome: &Outcome) -> String {
    let options = &outcome.options;
    let lost = match options.loss {
        0 => "no frame lost".into(),
        loss => format!("{loss} % of the frames lost"),
    };
    format!(
        "{}, {lost}, the next bay {} dB over the reference, seed {}",
        count(options.bays, "bay"),
        options.near,
        options.seed
    )
}

/// Where the cars have ended.
fn joined(outcome: &Outcome) -> String {
    let Counts { own, other, none } = counts(outcome);
    let all = outcome.stories.len();
    let (is_one, cars) = (all == 1, count(all, "car"));
    let mut said = match own {
        _ if is_one && own == 1 => "The car joined its own station".into(),
        _ if own == all => format!("All {cars} joined their own stations"),
        0 => format!("None of {cars} joined its own station"),
        _ => format!("{own} of {cars} joined their own stations"),
    };
    if other > 0 {
        said += &format!(", {other} joined another bay's");
    }
    if none > 0 {
        said += &format!(", {none} had not joined after {} s", LIMIT / 1000);
    }
    said + "."
}

/// How often cars started, and how long it took them.
fn effort(outcome: &Outcome) -> String {
    let stories = || outcome.stories.iter().filter(|story| story.is_linked());
    let times: Vec<u32> =
        stories().filter_map(|story| Some(story.key_at? - story.starts.first()?.at)).collect();
    let (Some(least), Some(most)) = (times.iter().min(), times.iter().max()) else {
        return String::new();
    };
    let at_first = stories().filter(|story| story.starts.len() == 1).count();
    let starts = stories().map(|story| story.starts.len()).max().unwrap_or(0);
    let firsts = match at_first {
        _ if at_first == times.len() && at_first == 1 => "It did so at its first start".into(),
        _ if at_first == times.len() => "Each did so at its first start".into(),
        1 => "1 of them did so at its first start".into(),
        number => format!("{number} of them did so at their first start"),
    };
    let more =
        if starts > 1 { format!(", the slowest one at start {starts}") } else { String::new() };
    let (least, most) = (seconds(*least), seconds(*most));
    let took = if least == most { least } else { format!("{least} to {most}") };
    format!(" {firsts}{more}; from the first start to the key it took {took}.")
}

/// What happened, in a sentence or two.
pub fn summary(outcome: &Outcome) -> String {
    joined(outcome) + &effort(outcome)
}
