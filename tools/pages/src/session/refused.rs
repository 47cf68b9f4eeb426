//! The page of a log that is refused: which field is wrong, and where.

use super::log::{self, Part, Wrong, HEAD_FIELDS, SETTINGS};
use crate::frames;
use crate::html::{count, digits, escaped, grouped, Page};
use std::fmt::Write;
use std::ops::Range;

/// The octets of a line, and the lines that are shown before and behind the wrong field.
const LINE: usize = 16;
const AROUND: usize = 3;

const STYLE: &str = include_str!("session.css");

pub fn part(part: Part) -> String {
    match part {
        Part::Whole => "the log as a whole".into(),
        Part::Head => "the head".into(),
        Part::Configuration => "the configuration".into(),
        Part::Event(number) => format!("event {number}"),
        Part::Reply(number) => format!("reply {number}"),
    }
}

/// Where the field stands, in words.
pub fn place(wrong: &Wrong) -> String {
    let part = part(wrong.part);
    match &wrong.octets {
        None => part,
        Some(octets) => format!("{part}, octet {}", octets.start),
    }
}

/// Which octets of the log are the NMK's: in the configuration, and wherever it stands again.
fn secret(log: &[u8]) -> Vec<bool> {
    let place = SETTINGS.iter().position(|setting| setting.name == "NMK");
    let octets = log::setting_octets(place.unwrap_or(0));
    let key = log.get(octets.clone()).and_then(|key| key.first_chunk()).copied();
    let mut secret = frames::secret(log, &key.unwrap_or([0; 16]));
    secret.iter_mut().take(octets.end).skip(octets.start).for_each(|hidden| *hidden = true);
    secret
}

/// The octets around the wrong field.
fn octets(log: &[u8], field: &Range<usize>) -> String {
    let first = (field.start / LINE).saturating_sub(AROUND) * LINE;
    let last = ((field.end / LINE + 1 + AROUND) * LINE).min(log.len());
    let secret = secret(log);
    let mut lines = String::from("<pre class=\"octets\">");
    for (at, octet) in log.iter().enumerate().take(last).skip(first) {
        if at % LINE == 0 {
            let _ = write!(lines, "{}<i>{at:>5}</i> ", if at == first { "" } else { "\n" });
        }
        let shown = if secret[at] { "··".into() } else { format!("{octet:02X}") };
        let _ = if field.contains(&at) {
            write!(lines, " <mark>{shown}</mark>")
        } else {
            write!(lines, " {shown}")
        };
    }
    lines + "</pre>"
}

/// A row of the layout's table.
fn row(name: &str, octets: &Range<usize>, value: &str, is_wrong: bool) -> String {
    let class = if is_wrong { " class=\"wrong\"" } else { "" };
    let place = format!("{}-{}", octets.start, octets.end - 1);
    format!("<tr{class}><th>{name}</th><td>{place}</td><td>{}</td></tr>", escaped(value))
}

/// Head and configuration, field by field, as far as they are there.
fn layout(octets: &[u8], wrong: &Wrong) -> String {
    let is_wrong = |place: &Range<usize>| wrong.octets.as_ref() == Some(place);
    let heads = HEAD_FIELDS.iter().enumerate().map(|(at, name)| {
        let place = 4 * at..4 * at + 4;
        let value = log::number(octets, place.start);
        let value = value.map_or("missing".into(), |number| grouped(u64::from(number)));
        row(name, &place, &value, is_wrong(&place))
    });
    let settings = SETTINGS.iter().enumerate().map(|(at, setting)| {
        let place = log::setting_octets(at);
        let value = match octets.get(place.clone()) {
            None => "missing".into(),
            Some(_) if setting.name == "NMK" => "16 octets, not shown".into(),
            Some(_) if setting.octets == 4 => {
                grouped(u64::from(log::number(octets, place.start).unwrap_or(0)))
            }
            Some(octets) => digits(octets, " "),
        };
        row(setting.name, &place, &value, is_wrong(&place))
    });
    let rows: String = heads.chain(settings).collect();
    format!(
        "<table class=\"fields\"><thead><tr><th>Field</th><th>Octets</th><th>Value</th></tr></thead>\
         <tbody>{rows}</tbody></table>"
    )
}

pub fn page(name: &str, log: &[u8], wrong: &Wrong) -> String {
    let place = place(wrong);
    let around = wrong
        .octets
        .as_ref()
        .map_or(String::new(), |field| format!("<h2>The octets there</h2>{}", octets(log, field)));
    let body = format!(
        "<main class=\"refused\"><header><h1>{}</h1><p class=\"subtitle\">log of a session, {}</p></header>\n\
         <section class=\"verdict bad\" id=\"refused\"><h2>The log is refused with cause {}: {}</h2>\
         <dl><dt>Where</dt><dd>{place}</dd><dt>Field</dt><dd>{}</dd><dt>Found</dt><dd>{}</dd></dl>\
         <p>No event was given to the library. Look at the program that wrote the log.</p></section>\n\
         {around}<h2>Head and configuration</h2>{}</main>\n",
        escaped(name),
        count(log.len(), "octet"),
        wrong.cause,
        log::cause(wrong.cause),
        wrong.field,
        escaped(&wrong.found),
        layout(log, wrong)
    );
    let octet = wrong.octets.as_ref().map_or(String::new(), |octets| octets.start.to_string());
    let data = [
        ("number", format!("-{}", wrong.cause)),
        ("cause", wrong.cause.to_string()),
        ("octet", octet),
        ("place", place),
    ];
    let title = format!("{name}: refused with cause {}", wrong.cause);
    Page { title: &title, data: &data, style: STYLE, body: &body, script: "" }.html()
}
