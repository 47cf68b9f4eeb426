//! The whole page of a log.

use super::chart::Chart;
use super::difference;
use super::lanes::Lanes;
use super::log::{self, Kind};
use super::refused;
use super::replay::{replay, Session};
use crate::frames;
use crate::html::{self, count, digits, escaped, Page};
use std::collections::BTreeMap;
use std::fmt::Write;

const STYLE: &str = include_str!("session.css");
const SCRIPT: &str = include_str!("session.js");

/// A page, and what is said of it on standard error.
pub struct Made {
    pub html: String,
    pub said: String,
}

/// The page of a log of this name: its chart, or which field of it is wrong.
pub fn page(name: &str, octets: &[u8]) -> Made {
    match log::read(octets) {
        Err(wrong) => Made {
            html: refused::page(name, octets, &wrong),
            said: format!(
                "-{}: the log is refused, {}: {} ({})",
                wrong.cause,
                refused::place(&wrong),
                log::cause(wrong.cause),
                wrong.field
            ),
        },
        Ok(log) => chart_page(name, octets.len(), &replay(log)),
    }
}

fn chart_page(name: &str, length: usize, session: &Session) -> Made {
    let lanes = Lanes::of(session);
    let first = session.first_difference();
    let chart = Chart { session, lanes: &lanes, marked: first.map(|number| number - 1) };
    let body = format!(
        "<header><h1>{}</h1><p class=\"subtitle\">log of a session, {}: {} of {}</p></header>\n{}{}{}{}",
        escaped(name),
        count(length, "octet"),
        count(session.steps.len(), "event"),
        count(lanes.cars.len(), "car"),
        verdict(session),
        facts(session, &lanes),
        legend(),
        chart.html()
    );
    let number = first.unwrap_or(0);
    let data = [
        ("number", number.to_string()),
        ("events", session.steps.len().to_string()),
        ("cars", lanes.cars.len().to_string()),
    ];
    let title = match first {
        Some(number) => format!("{name}: event {number} differs"),
        None => format!("{name}: no event differs"),
    };
    let said = match first {
        Some(number) => {
            format!("{number}: the recorded answer to event {number} is not the library's")
        }
        None => "0: every recorded answer is the library's".into(),
    };
    let page = Page { title: &title, data: &data, style: STYLE, body: &body, script: SCRIPT };
    Made { html: page.html(), said }
}

/// What the replay has found.
fn verdict(session: &Session) -> String {
    let Some(number) = session.first_difference() else {
        return "<section class=\"verdict good\" id=\"verdict\"><h2>No event differs</h2><p>The \
                library's station, given the same events, answers as the board's did. If the session \
                went wrong, look at what the board was given: frames that are missing or late, the \
                clock, the pilot.</p></section>\n"
            .into();
    };
    let step = &session.steps[number - 1];
    let key = &session.configuration.nmk;
    let later = session.steps.iter().filter(|step| step.differs()).count() - 1;
    let more = match later {
        0 => "No later event differs.".into(),
        1 => "One later event differs too.".into(),
        _ => format!("{later} later events differ too."),
    };
    format!(
        "<section class=\"verdict bad\" id=\"verdict\"><h2><a href=\"#event-{number}\">Event {number}\
         </a> differs, and no earlier one</h2><p>{} {more}</p>{}</section>\n",
        difference::advice(step),
        difference::comparison(step, key)
    )
}

/// The configuration, and what came how often.
fn facts(session: &Session, lanes: &Lanes) -> String {
    let settings = &session.configuration;
    let validation = if settings.validation_not_required { "not required" } else { "required" };
    let bad =
        if session.configured { "" } else { " <em class=\"tag\">refused by the library</em>" };
    let rows = [
        ("Station", frames::address(&settings.address)),
        ("Modem", frames::address(&settings.modem)),
        ("NID", digits(&settings.nid, " ")),
        ("NMK", "16 octets, not shown".into()),
        ("Validation", validation.into()),
        ("Edition", settings.edition.to_string()),
        ("Carriers", settings.carriers.to_string()),
    ];
    let rows = rows.iter().fold(String::new(), |mut rows, (name, value)| {
        let _ = write!(rows, "<dt>{name}</dt><dd>{value}</dd>");
        rows
    });
    format!(
        "<div class=\"facts\"><section><h2>Configuration{bad}</h2><dl>{rows}</dl></section><section>\
         <h2>Events</h2><dl>{}</dl></section><section><h2>Refused</h2>{}</section></div>\n",
        counts(session, lanes),
        refusals(session)
    )
}

fn counts(session: &Session, lanes: &Lanes) -> String {
    let kinds = |kind: Kind| session.steps.iter().filter(|step| step.event.kind == kind).count();
    let sent: usize =
        session.steps.iter().map(|step| frames::split(&step.given.frames).len()).sum();
    let indications = session.steps.iter().filter(|step| step.given.indication != 0).count();
    let rows = [
        ("frames", "Frames received", kinds(Kind::Frame)),
        ("ticks", "Ticks", kinds(Kind::Tick)),
        ("pilots", "Pilot changes", kinds(Kind::Pilot)),
        ("terminates", "Terminate", kinds(Kind::Terminate)),
        ("links", "Link up", kinds(Kind::LinkUp)),
        ("sent", "Frames sent", sent),
        ("indications", "Indications", indications),
        ("lanes", "Cars", lanes.cars.len()),
    ];
    rows.iter().fold(String::new(), |mut all, (id, name, number)| {
        let _ = write!(all, "<dt>{name}</dt><dd id=\"count-{id}\">{number}</dd>");
        all
    })
}

/// Which refusals came how often.
fn refusals(session: &Session) -> String {
    let mut times: BTreeMap<u32, usize> = BTreeMap::new();
    for step in session.steps.iter().filter(|step| step.given.refusal != 0) {
        *times.entry(step.given.refusal).or_default() += 1;
    }
    if times.is_empty() {
        return "<p>No event was refused.</p>".into();
    }
    let rows = times.iter().fold(String::new(), |mut rows, (number, count)| {
        let sentence = difference::refusal(*number);
        let sentence = sentence.split_once(": ").map_or("", |(_, sentence)| sentence);
        let _ = write!(
            rows,
            "<tr data-refusal=\"{number}\"><td>{count}</td><th>{number}</th><td>{}</td></tr>",
            escaped(sentence)
        );
        rows
    });
    format!(
        "<table class=\"refusals\"><thead><tr><th>Times</th><th>No.</th><th>Because</th></tr></thead>\
         <tbody>{rows}</tbody></table>"
    )
}

/// The signs of the chart.
const SIGNS: [(&str, &str); 9] = [
    ("event", "frame to the station"),
    ("refused", "refused frame"),
    ("reply", "frame that the station sends"),
    ("indication", "indication"),
    ("tick", "tick"),
    ("plugged", "pilot at B, C or D"),
    ("matching", "matching"),
    ("joining", "joining"),
    ("matched", "matched"),
];

fn legend() -> String {
    format!(
        "<section class=\"legend\"><h2>How to read the chart</h2>{}<p>Time goes downwards. A frame \
         happens at the last clock reading. Open a row for the fields and octets of its frames; a lane's \
         name shows the events of that lane alone. Every answer is the one that the library gave when \
         this page was made.</p><p class=\"controls\" hidden><button id=\"open\">Open all rows</button> \
         <button id=\"close\">Close all rows</button> <label><input type=\"checkbox\" id=\"quiet\"> hide \
         ticks without an answer</label> <label><input type=\"checkbox\" id=\"accepted\"> hide refused \
         events</label></p></section>\n",
        html::legend(&SIGNS)
    )
}
