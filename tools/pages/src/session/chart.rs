//! The rows of the chart, time downwards: each event with its arrows, the state beside the time, and
//! the library's answer. Ticks in a row that change nothing make one row.

use super::details;
use super::difference;
use super::lanes::{Lanes, MODEM, PILOT, STATION, WIDTH};
use super::log::Kind;
use super::replay::{Session, Step};
use crate::frames;
use crate::html::{count, escaped, grouped};
use lahzavar::{Pilot, State};
use std::fmt::Write;
use std::ops::Range;

/// The pixels of one arrow's line.
const LINE: usize = 24;

pub struct Chart<'a> {
    pub session: &'a Session,
    pub lanes: &'a Lanes,
    /// The first event that differs, from 0.
    pub marked: Option<usize>,
}

/// The steps of a row, and the lanes that it touches.
type Steps = Range<usize>;

impl Chart<'_> {
    fn steps(&self) -> &[Step] {
        &self.session.steps
    }

    /// Whether an event is a tick that changes nothing a person can see.
    fn is_quiet(&self, at: usize) -> bool {
        let step = &self.steps()[at];
        let before = at.checked_sub(1).map(|before| &self.steps()[before]);
        let same = before.is_some_and(|old| old.state == step.state && old.records == step.records);
        let given = &step.given;
        let silent = given.refusal == 0 && given.indication == 0 && given.frames.is_empty();
        step.event.kind == Kind::Tick && same && silent && !step.differs()
    }

    /// The events in rows.
    fn rows(&self) -> Vec<Steps> {
        let mut rows: Vec<Steps> = Vec::new();
        for at in 0..self.steps().len() {
            match rows.last_mut() {
                Some(row) if self.is_quiet(at) && self.is_quiet(row.start) => row.end = at + 1,
                _ => rows.push(at..at + 1),
            }
        }
        rows
    }

    pub fn html(&self) -> String {
        let rows: String = self.rows().into_iter().map(|row| self.row(row)).collect();
        let width = self.lanes.width();
        format!(
            "<div class=\"chart\" style=\"--lane:{WIDTH}px;--lanes:{width}px;--count:{}\">\n{}{rows}\
             </div>\n",
            self.lanes.count(),
            self.head()
        )
    }

    /// The lanes' names.
    fn head(&self) -> String {
        let mut lanes = String::new();
        for lane in 0..self.lanes.count() {
            let (title, below) = self.lanes.title(lane);
            let kind = self.lanes.kind(lane);
            let _ = write!(
                lanes,
                "<button class=\"lane {kind}\" data-lane=\"{lane}\" data-kind=\"{kind}\" \
                 title=\"show the events of this lane alone\"><b>{title}</b><small>{below}</small>\
                 </button>"
            );
        }
        format!(
            "<div class=\"head\"><span class=\"left\"><span class=\"number\">Event</span><span \
             class=\"time\">Clock, ms</span><span class=\"state\">State after it</span></span><span \
             class=\"lanes\">{lanes}</span><span class=\"answer\">Event, and the library's answer</span></div>\n"
        )
    }

    fn row(&self, row: Steps) -> String {
        if row.len() > 1 {
            return self.ticks(row);
        }
        let at = row.start;
        let step = &self.steps()[at];
        let is_marked = self.marked == Some(at);
        let kind = kind(step.event.kind);
        let refused = if step.given.refusal == 0 { "" } else { " refused" };
        let differs = if is_marked { " differs" } else { "" };
        let open = if is_marked { " open" } else { "" };
        let touched: Vec<String> = self.touched(step).iter().map(usize::to_string).collect();
        let number = at + 1;
        format!(
            "<details class=\"row {kind}{refused}{differs}\" id=\"event-{number}\" \
             data-event=\"{number}\" data-kind=\"{kind}\" data-touched=\"{}\"{open}><summary>{}{}<span \
             class=\"answer\">{}</span></summary><div class=\"more\">{}</div></details>\n",
            touched.join(" "),
            self.left(&number.to_string(), row),
            self.arrows(step),
            self.answer(at),
            self.more(at)
        )
    }

    /// Ticks that change nothing.
    fn ticks(&self, row: Steps) -> String {
        let (first, last) = (row.start + 1, row.end);
        let items = row.clone().fold(String::new(), |mut items, at| {
            let reading = grouped(u64::from(self.steps()[at].event.reading));
            let number = at + 1;
            let _ = write!(
                items,
                "<li id=\"event-{number}\" data-event=\"{number}\" data-kind=\"tick\">event {number}: \
                 reading {reading}</li>"
            );
            items
        });
        let ticks = count(row.len(), "tick");
        format!(
            "<details class=\"row ticks\" data-touched=\"{STATION}\"><summary>{}{}<span \
             class=\"answer\">{ticks}, nothing to send</span></summary><div class=\"more\">\
             <ul class=\"readings\">{items}</ul></div></details>\n",
            self.left(&format!("{first}-{last}"), row.clone()),
            self.arrows(&self.steps()[row.end - 1])
        )
    }

    /// Number, time and state.
    fn left(&self, number: &str, row: Steps) -> String {
        let step = &self.steps()[row.end - 1];
        let before = row.start.checked_sub(1).and_then(|before| self.steps()[before].reading);
        let passed = match (before, step.reading) {
            (Some(before), Some(now)) if before != now => {
                let (ahead, back) = (now.wrapping_sub(before), before.wrapping_sub(now));
                let (sign, most) = if ahead <= back { ("+", ahead) } else { ("-", back) };
                format!("<small>{sign}{}</small>", grouped(u64::from(most)))
            }
            _ => String::new(),
        };
        let same = if passed.is_empty() && before.is_some() { " same" } else { "" };
        let reading = step.reading.map_or("-".into(), |reading| grouped(u64::from(reading)));
        format!(
            "<span class=\"left\"><span class=\"number\">{number}</span><span class=\"time{same}\">\
             {reading}{passed}</span><span class=\"state {}\"><b>{}</b><small>{}</small></span></span>",
            step.state,
            title(step.state),
            self.held(step)
        )
    }

    /// How many records are held, or the car.
    fn held(&self, step: &Step) -> String {
        match step.state {
            State::Unmatched => String::new(),
            State::Matching => count(step.records, "record"),
            State::Joining | State::Matched => self.lanes.name(step.car),
        }
    }

    /// The lanes that an event and its answer touch.
    fn touched(&self, step: &Step) -> Vec<usize> {
        let mut lanes = vec![STATION];
        match step.event.kind {
            Kind::Frame => {
                lanes.push(self.lanes.of_address(frames::source(&step.event.octets)));
                let car = frames::profiled_car(&step.event.octets);
                lanes.extend(car.map(|car| self.lanes.of_address(Some(car))));
            }
            Kind::Pilot => lanes.push(PILOT),
            _ => {}
        }
        let replies = frames::split(&step.given.frames).into_iter();
        lanes.extend(replies.map(|frame| self.lanes.of_address(frames::destination(frame))));
        lanes.sort_unstable();
        lanes.dedup();
        lanes
    }

    /// The picture of an event: a line for the event, and one for each frame of the answer.
    fn arrows(&self, step: &Step) -> String {
        let replies = frames::split(&step.given.frames);
        let (width, height) = (self.lanes.width(), LINE * (1 + replies.len()));
        let mut drawn = self.event(step);
        for (line, frame) in replies.iter().enumerate() {
            let lane = self.lanes.of_address(frames::destination(frame));
            drawn += &arrow("reply", STATION, lane, line + 1);
            drawn += &label("reply", lane, line + 1, &frames::name(frame));
        }
        if step.given.indication != 0 {
            let words = difference::indication(step.given.indication);
            drawn += &format!(
                "<path class=\"indication\" d=\"M{} {}l6 6-6 6-6-6z\"/>",
                Lanes::x(STATION),
                LINE / 2 - 6
            );
            drawn += &label("indication", STATION, 0, &words);
        }
        let plugged = if is_plugged(step.pilot) { "plugged" } else { "loose" };
        format!(
            "<span class=\"lanes {plugged} {}\"><svg width=\"{width}\" height=\"{height}\">{drawn}\
             </svg></span>",
            step.state
        )
    }

    /// The event's own line.
    fn event(&self, step: &Step) -> String {
        let refused = if step.given.refusal == 0 { "" } else { " refused" };
        match step.event.kind {
            Kind::Frame => self.received(&step.event.octets, refused),
            Kind::Tick => {
                let x = Lanes::x(STATION);
                format!("<circle class=\"tick{refused}\" cx=\"{x}\" cy=\"{}\" r=\"3\"/>", LINE / 2)
            }
            Kind::Pilot => {
                let pilot = step.pilot.to_string();
                arrow("pilot", PILOT, STATION, 0) + &badge(PILOT, &pilot)
            }
            Kind::Terminate => label("call", STATION, 0, "terminate"),
            Kind::LinkUp if step.given.indication != 0 => String::new(),
            Kind::LinkUp => label(&format!("call{refused}"), STATION, 0, "link up"),
        }
    }

    /// A frame that the station was handed.
    fn received(&self, frame: &[u8], refused: &str) -> String {
        let lane = self.lanes.of_address(frames::source(frame));
        let mut words = frames::name(frame);
        if let Some(car) = frames::profiled_car(frame).filter(|_| lane == MODEM) {
            let _ = write!(words, ", {}", self.lanes.name(Some(car)));
        }
        if lane == STATION {
            words += ", from our own address";
        }
        let class = format!("event{refused}");
        arrow(&class, lane, STATION, 0) + &label(&class, lane, 0, &words)
    }

    /// The event in words.
    fn what(&self, step: &Step) -> String {
        let frame = &step.event.octets;
        match step.event.kind {
            Kind::Frame => {
                let of = frames::profiled_car(frame).or(frames::source(frame));
                format!("{} of {}", frames::name(frame), self.lanes.name(of))
            }
            Kind::Tick => "tick".into(),
            Kind::Pilot => format!("pilot goes to {}", step.pilot),
            Kind::Terminate => "terminate".into(),
            Kind::LinkUp => "link up".into(),
        }
    }

    /// The event, and what the library answers.
    fn answer(&self, at: usize) -> String {
        let step = &self.steps()[at];
        let given = &step.given;
        let mut words = format!("<span class=\"what\">{}</span>", escaped(&self.what(step)));
        if self.marked == Some(at) {
            words += "<em class=\"tag differs\">differs from the record</em> ";
        } else if step.differs() {
            words += "<em class=\"tag later\">differs too</em> ";
        }
        if given.indication != 0 {
            let _ = write!(
                words,
                "<em class=\"tag\">{}</em> ",
                difference::indication(given.indication)
            );
        }
        let replies = frames::split(&given.frames);
        let sent: Vec<String> = replies
            .iter()
            .map(|frame| {
                let to = self.lanes.name(frames::destination(frame));
                format!("{} to {to}", frames::name(frame))
            })
            .collect();
        words
            + &match (given.refusal, sent.is_empty()) {
                (0, true) if given.indication != 0 => String::new(),
                (0, true) => "accepted".into(),
                (0, false) => format!("sends {}", escaped(&sent.join(", "))),
                (refusal, _) => {
                    format!("<span class=\"no\">{}</span>", escaped(&difference::refusal(refusal)))
                }
            }
    }

    /// What there is on demand.
    fn more(&self, at: usize) -> String {
        let step = &self.steps()[at];
        let key = &self.session.configuration.nmk;
        let mut parts = String::new();
        let is_marked = self.marked == Some(at);
        if is_marked {
            parts += &difference::comparison(step, key);
        } else if step.differs() {
            parts += &difference::list(step, key);
        }
        if step.event.kind == Kind::Frame {
            let title = format!("Received: {}", frames::name(&step.event.octets));
            parts += &details::frame(&title, &step.event.octets, key);
        } else {
            let kind = kind(step.event.kind);
            let reading = grouped(u64::from(step.event.reading));
            let _ = match step.event.kind {
                Kind::Tick => write!(parts, "<p>Event {}: {kind}, reading {reading}.</p>", at + 1),
                Kind::Pilot => write!(
                    parts,
                    "<p>Event {}: the pilot goes to {}, reading {reading}.</p>",
                    at + 1,
                    step.pilot
                ),
                _ => write!(parts, "<p>Event {}: {kind}.</p>", at + 1),
            };
        }
        if !is_marked {
            for frame in frames::split(&step.given.frames) {
                parts += &details::frame(&format!("Sent: {}", frames::name(frame)), frame, key);
            }
        }
        parts
    }
}

/// Whether the pilot says that a car is plugged in.
fn is_plugged(pilot: Pilot) -> bool {
    matches!(pilot, Pilot::B | Pilot::C | Pilot::D)
}

pub fn kind(kind: Kind) -> &'static str {
    match kind {
        Kind::Frame => "frame",
        Kind::Tick => "tick",
        Kind::Pilot => "pilot",
        Kind::Terminate => "terminate",
        Kind::LinkUp => "link up",
    }
}

fn title(state: State) -> &'static str {
    match state {
        State::Unmatched => "Unmatched",
        State::Matching => "Matching",
        State::Joining => "Joining",
        State::Matched => "Matched",
    }
}

fn middle(line: usize) -> usize {
    LINE * line + LINE / 2
}

/// An arrow from one lane to another; one from a lane to itself has no length.
fn arrow(class: &str, from: usize, to: usize, line: usize) -> String {
    let (start, end, y) = (Lanes::x(from), Lanes::x(to), middle(line));
    if from == to {
        return format!("<circle class=\"{class}\" cx=\"{start}\" cy=\"{y}\" r=\"4\"/>");
    }
    let (tip, back) = if start > end { (end + 4, 7) } else { (end - 4, -7) };
    let head = if class.contains("refused") {
        let x = if start > end { end + 12 } else { end - 12 };
        format!("M{} {}l8 8m0-8l-8 8", x - 4, y - 4)
    } else {
        format!("M{tip} {y}l{back} -4v8z")
    };
    format!("<path class=\"line {class}\" d=\"M{start} {y}H{tip}\"/><path class=\"tip {class}\" d=\"{head}\"/>")
}

/// Words to the right of a lane's middle.
fn label(class: &str, of: usize, line: usize, words: &str) -> String {
    format!(
        "<text class=\"{class}\" x=\"{}\" y=\"{}\">{}</text>",
        Lanes::x(of) + 9,
        middle(line) + 4,
        escaped(words)
    )
}

/// A letter in a circle.
fn badge(lane: usize, letter: &str) -> String {
    let (x, y) = (Lanes::x(lane), middle(0));
    format!(
        "<circle class=\"badge\" cx=\"{x}\" cy=\"{y}\" r=\"9\"/><text class=\"badge\" x=\"{x}\" \
         y=\"{}\">{letter}</text>",
        y + 4
    )
}
