//! The numbers of a park as plain text.

use super::line::Outcome;
use super::story::{self, seconds, Counts, End};
use crate::html::grouped;
use std::fmt::Write;

fn time(at: Option<u32>) -> String {
    at.map_or("-".into(), seconds)
}

/// Refusals by their numbers.
fn refusals(outcome: &Outcome) -> String {
    let list: Vec<String> = outcome
        .refusals
        .iter()
        .map(|(number, times)| format!("{} with {number}", grouped(*times)))
        .collect();
    if list.is_empty() {
        "none".into()
    } else {
        list.join(", ")
    }
}

fn row(outcome: &Outcome, bay: usize) -> String {
    let story = &outcome.stories[bay];
    let joined = match story::end(bay, story) {
        End::OwnBay => "own".into(),
        End::OtherBay(joined) => format!("bay {}", joined + 1),
        End::NotJoined => "none".into(),
    };
    let over = outcome.attenuation.over(bay, story.joined.unwrap_or(bay));
    let heard = outcome.heard[bay].iter().flatten().count();
    format!(
        "{:>4} {:>10} {:>12} {:>7} {:>10} {:>10} {joined:>8} {over:>7} {heard:>9}",
        bay + 1,
        seconds(story.plugged),
        time(story.starts.first().map(|start| start.at)),
        story.starts.len(),
        time(story.key_at),
        time(story.link_at)
    )
}

/// Conditions, what happened, and a line for each car.
pub fn text(outcome: &Outcome) -> String {
    let Counts { own, other, none } = story::counts(outcome);
    let mut text = format!(
        "{}\n{}\nown station: {own}, another: {other}, not joined: {none}\n",
        story::conditions(outcome),
        story::summary(outcome)
    );
    for trouble in story::troubles(outcome) {
        let _ = writeln!(text, "{trouble}");
    }
    let _ = writeln!(
        text,
        "frames sent: {}; losses at receivers: {}; refused: {}; simulated: {}",
        grouped(outcome.frames),
        grouped(outcome.lost),
        refusals(outcome),
        seconds(outcome.time)
    );
    let _ = writeln!(
        text,
        " bay plugged in  first start  starts  key given       link   joined dB over  reported"
    );
    for bay in 0..outcome.stories.len() {
        let _ = writeln!(text, "{}", row(outcome, bay));
    }
    text
}
