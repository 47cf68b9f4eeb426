//! What a script reaches of the rule on means: how many profiles a report has, and how it is rounded.

use crate::count::Table;
use crate::messages::{Body, Message, MOST_GROUPS};
use crate::script::Outcome;
use crate::station::Station;
use std::cmp::Ordering;

const MEAN: &str = "93 mean";
/// The most profiles of a report: in the ISO edition, and in the SAE edition.
const PROFILES: u16 = 10;
const SAE_PROFILES: u16 = 16;

/// A table's rows on means, of zero.
pub fn rows(table: &mut Table) {
    for profiles in 1..=SAE_PROFILES {
        let mut add = |what: &str| table.row(MEAN, &row(profiles, what));
        add("exact");
        if profiles > 2 {
            add("down");
            add("up");
        }
        if profiles % 2 == 0 {
            add("a half");
        }
    }
    ["a mean of 0", "a mean of 255"].iter().for_each(|name| table.row(MEAN, name));
}

/// Counts the reports of one event by the station after it.
pub fn event(table: &mut Table, after: &Station, outcome: &Outcome) {
    let Ok((_, octets)) = outcome else { return };
    for message in Message::read_all(octets).0 {
        let Body::AttenChar { groups, .. } = message.body else { continue };
        let Some(record) = after.record(message.destination) else { continue };
        let counted = record.groups.unwrap_or(MOST_GROUPS).into();
        let groups = &groups[..counted];
        let mut found: Vec<String> = record
            .sums
            .iter()
            .take(counted)
            .map(|sum| row(record.profiles, rounded(*sum, record.profiles)))
            .collect();
        found.sort();
        found.dedup();
        found.extend(groups.contains(&0).then(|| "a mean of 0".into()));
        found.extend(groups.contains(&255).then(|| "a mean of 255".into()));
        found.iter().for_each(|name| table.add(MEAN, name));
    }
}

fn rounded(sum: u16, profiles: u16) -> &'static str {
    let rest = sum % profiles.max(1);
    match (rest, (2 * rest).cmp(&profiles)) {
        (0, _) => "exact",
        (_, Ordering::Less) => "down",
        (_, Ordering::Equal) => "a half",
        (_, Ordering::Greater) => "up",
    }
}

/// The row, with the edition where only one reaches it.
fn row(profiles: u16, what: &str) -> String {
    let edition = if profiles > PROFILES { "SAE " } else { "" };
    format!("{edition}{profiles:>2} profiles: {what}")
}
