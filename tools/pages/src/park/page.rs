//! The whole page of a park.

use super::attenuation::REFERENCE;
use super::bay::Heard;
use super::heat;
use super::line::Outcome;
use super::plan::Plan;
use super::story::{self, seconds, Counts, End};
use super::timeline;
use crate::html::{self, count, digits, escaped, grouped, Page};
use lahzavar::Refusal;
use std::fmt::Write;

const STYLE: &str = include_str!("park.css");
const SCRIPT: &str = include_str!("park.js");
/// How many cars that are not at their own station are told of one by one.
const TOLD: usize = 6;

fn verdict(outcome: &Outcome) -> String {
    let Counts { own, other, none } = story::counts(outcome);
    let class = match (other, none) {
        (0, 0) => "good",
        (0, _) => "warn",
        _ => "bad",
    };
    let troubles = story::troubles(outcome);
    let told: String =
        troubles.iter().take(TOLD).map(|said| format!("<li>{}</li>", escaped(said))).collect();
    let more = troubles.len().saturating_sub(TOLD);
    let more =
        if more == 0 { String::new() } else { format!("<li>and {} more</li>", count(more, "car")) };
    let list = if told.is_empty() { String::new() } else { format!("<ul>{told}{more}</ul>") };
    format!(
        "<section class=\"verdict {class}\" id=\"verdict\"><h2>{}</h2>{list}<p class=\"counts\"><b \
         class=\"own\">{own}</b> at the own station <b class=\"other\">{other}</b> at another one <b \
         class=\"none\">{none}</b> not joined</p></section>\n",
        escaped(&story::summary(outcome))
    )
}

/// The signs of the plan: classes of attenuation over the reference, and how cars have ended.
const PLAN_SIGNS: [(&str, &str); 8] = [
    ("class0", "below 10 dB over the reference: found"),
    ("class1", "10 to 19: potentially found"),
    ("class2", "20 to 29: not found"),
    ("class3", "30 to 44"),
    ("class4", "45 and more"),
    ("own", "joined its own station"),
    ("other", "joined another bay's"),
    ("none", "not joined"),
];
const PAIR_SIGNS: [(&str, &str); 3] = [
    ("mean", "mean, as reported"),
    ("band", "from the least to the greatest value of the sounds"),
    ("limit", "thresholds of 10 and 20 dB"),
];
const TIME_SIGNS: [(&str, &str); 3] =
    [("given", "start that gave the key"), ("failed", "start that failed"), ("link", "link")];

fn choices(bays: usize, id: &str, what: &str) -> String {
    let options = (0..bays).fold(String::new(), |mut options, bay| {
        let _ = write!(options, "<option value=\"{bay}\">{what} of bay {}</option>", bay + 1);
        options
    });
    format!("<select id=\"{id}\" aria-label=\"{what}\">{options}</select>")
}

fn pair(outcome: &Outcome) -> String {
    let bays = outcome.stories.len();
    format!(
        "<section class=\"panel pair\"><h2>One pair, group by group</h2><p>{} at the {}</p><p \
         id=\"told\"></p><svg id=\"groups\" class=\"groups\" viewBox=\"0 0 620 300\" width=\"620\" \
         height=\"300\" role=\"img\" aria-label=\"attenuation of each carrier group\"></svg>{}</section>\n",
        choices(bays, "car", "car"),
        choices(bays, "station", "station"),
        html::legend(&PAIR_SIGNS)
    )
}

fn time(at: Option<u32>) -> String {
    at.map_or("-".into(), seconds)
}

fn table_row(outcome: &Outcome, bay: usize) -> String {
    let story = &outcome.stories[bay];
    let end = story::end(bay, story);
    let joined = match end {
        End::OwnBay => "own".into(),
        End::OtherBay(joined) => format!("bay {}", joined + 1),
        End::NotJoined => "-".into(),
    };
    let choice = story.starts.last().and_then(|start| start.choice);
    let found = choice.map_or("-".into(), |(_, found)| found.to_string());
    let over =
        story.joined.map_or("-".into(), |joined| outcome.attenuation.over(bay, joined).to_string());
    let first = story.starts.first().map(|start| start.at);
    let taken = match outcome.joined_by[bay] {
        None => "-".into(),
        Some(car) if car == bay => "own".into(),
        Some(car) => format!("bay {}", car + 1),
    };
    format!(
        "<tr class=\"{}\" data-car=\"{bay}\"><th>{}</th><td>{}</td><td>{}</td><td>{}</td><td>{found}</td>\
         <td>{}</td><td>{}</td><td class=\"joined\">{joined}</td><td>{over}</td><td>{taken}</td><td>{}</td></tr>\n",
        end.class(),
        bay + 1,
        seconds(story.plugged),
        time(first),
        story.starts.len(),
        time(story.key_at),
        time(story.link_at),
        outcome.heard[bay].iter().flatten().count()
    )
}

fn table(outcome: &Outcome) -> String {
    let rows: String = (0..outcome.stories.len()).map(|bay| table_row(outcome, bay)).collect();
    format!(
        "<table id=\"cars\" class=\"cars\"><thead><tr><th>Bay</th><th>Plugged in</th><th>First start</th>\
         <th>Starts</th><th>Last choice</th><th>Key given</th><th>Link</th><th>Joined</th><th>dB over</th><th>Car at its station</th>\
         <th>Stations that reported</th></tr></thead><tbody>{rows}</tbody></table>\n"
    )
}

/// What was refused, and how often.
fn refusals(outcome: &Outcome) -> String {
    let rows = outcome.refusals.iter().fold(String::new(), |mut rows, (number, times)| {
        let text = Refusal::try_from(*number).map_or("", Refusal::text);
        let _ = write!(
            rows,
            "<tr><td>{}</td><th>{number}</th><td>{}</td></tr>",
            grouped(*times),
            escaped(text)
        );
        rows
    });
    format!(
        "<details class=\"panel\"><summary>{} sent, {} lost on the way to a receiver; what stations and \
         cars refused</summary><table><thead><tr><th>Times</th><th>No.</th><th>Because</th></tr></thead>\
         <tbody>{rows}</tbody></table></details>\n",
        count(usize::try_from(outcome.frames).unwrap_or(0), "frame"),
        grouped(outcome.lost)
    )
}

/// The numbers that the script shows: attenuation, and what was measured of each pair.
fn data(outcome: &Outcome) -> String {
    let bays = outcome.stories.len();
    let rows: Vec<String> = (0..bays)
        .map(|car| {
            let row = (0..bays).map(|station| outcome.attenuation.over(car, station).to_string());
            format!("[{}]", row.collect::<Vec<_>>().join(","))
        })
        .collect();
    let mut heard = Vec::new();
    for (car, row) in outcome.heard.iter().enumerate() {
        for (station, told) in row.iter().enumerate() {
            if let Some(Heard { sounds, mean, least, greatest }) = told {
                heard.push(format!(
                    "\"{car},{station}\":[{sounds},\"{}\",\"{}\",\"{}\"]",
                    digits(mean, ""),
                    digits(least, ""),
                    digits(greatest, "")
                ));
            }
        }
    }
    let joined: Vec<String> = outcome
        .stories
        .iter()
        .map(|story| match story.joined.filter(|_| story.is_linked()) {
            Some(joined) => joined.to_string(),
            None => "-1".into(),
        })
        .collect();
    format!(
        "<script type=\"application/json\" id=\"data\">{{\"reference\":{REFERENCE},\"limits\":{:?},\
         \"over\":[{}],\"joined\":[{}],\"heard\":{{{}}}}}</script>\n",
        heat::CLASSES,
        rows.join(","),
        joined.join(","),
        heard.join(",\n")
    )
}

pub fn page(outcome: &Outcome) -> String {
    let Counts { own, other, none } = story::counts(outcome);
    let conditions = story::conditions(outcome);
    let body = format!(
        "<header><h1>Car park</h1><p class=\"subtitle\">{}; cars and stations of the library on one line, \
         {} simulated</p></header>\n{}<section class=\"panel\"><h2>The bays</h2><p>At each wall a station, \
         before it a car. Choose a car: each station then shows how many dB over the car's reference it \
         hears it with. Choose a station for the pair.</p>{}{}</section>\n<div class=\"beside\">{}<section \
         class=\"panel\"><h2>Who hears whom how well</h2>{}<p class=\"legend\">A row for each car, a column \
         for each station. A dot: the station reported to the car. Outlined: joined.</p></section></div>\n\
         <section class=\"panel\"><h2>Times and starts of each car</h2>{}{}{}</section>\n{}{}",
        escaped(&conditions),
        seconds(outcome.time),
        verdict(outcome),
        html::legend(&PLAN_SIGNS),
        Plan::of(outcome.stories.len()).svg(outcome),
        pair(outcome),
        heat::svg(outcome),
        html::legend(&TIME_SIGNS),
        timeline::svg(outcome),
        table(outcome),
        refusals(outcome),
        data(outcome)
    );
    let data = [
        ("bays", outcome.stories.len().to_string()),
        ("own", own.to_string()),
        ("other", other.to_string()),
        ("none", none.to_string()),
    ];
    let title = format!("Car park: {conditions}");
    Page { title: &title, data: &data, style: STYLE, body: &body, script: SCRIPT }.html()
}
