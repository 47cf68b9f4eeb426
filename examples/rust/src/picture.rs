//! The picture of a session: mean, least and greatest value of each carrier group, as SVG.

use lahzavar::{Spread, GROUPS};

/// What the station tells of a car after a profile, and the mean that it would report then.
pub struct Step {
    pub spread: Spread,
    pub mean: [u8; GROUPS],
}

/// Below the first a car finds the station, below the second potentially, from there on not; it takes
/// the mean over all groups, less its reference.
const THRESHOLDS: [u8; 2] = [10, 20];
/// The attenuation at the upper edge of a chart, in dB; what is over it is drawn there.
const TOP: u8 = 70;
#[allow(clippy::cast_possible_truncation, reason = "58 is a small number")]
const LAST_GROUP: u32 = GROUPS as u32 - 1;

const LEAST: &str = "#0072b2";
const MEAN: &str = "#000000";
const GREATEST: &str = "#d55e00";
const BAND: &str = "#e6e6e6";
const GRID: &str = "#eeeeee";
const FRAME: &str = "#999999";
const THRESHOLD: &str = "#666666";

/// Where a chart stands: its left and lower edge, and the pixels of a group and of a dB.
struct Chart {
    left: u32,
    bottom: u32,
    group: u32,
    db: u32,
}

const LARGE: Chart = Chart { left: 60, bottom: 440, group: 13, db: 5 };

/// The chart after one of the profiles, counted from 0.
fn small(profile: u32) -> Chart {
    Chart { left: 60 + 76 * profile, bottom: 594, group: 1, db: 1 }
}

impl Chart {
    fn x(&self, group: u32) -> u32 {
        self.left + self.group * group
    }

    fn y(&self, value: u8) -> u32 {
        self.bottom - self.db * u32::from(value.min(TOP))
    }

    fn points(&self, values: &[u8; GROUPS]) -> Vec<String> {
        let place = |(group, value): (u32, &u8)| format!("{},{}", self.x(group), self.y(*value));
        (0..).zip(values).map(place).collect()
    }

    fn curve(&self, values: &[u8; GROUPS], color: &str, width: &str) -> String {
        let points = self.points(values).join(" ");
        format!(
            "<polyline points='{points}' fill='none' stroke='{color}' stroke-width='{width}'/>\n"
        )
    }

    /// What lies between the least and the greatest values.
    fn band(&self, spread: &Spread) -> String {
        let back = self.points(&spread.greatest).into_iter().rev();
        let points: Vec<String> = self.points(&spread.least).into_iter().chain(back).collect();
        format!("<polygon points='{}' fill='{BAND}'/>\n", points.join(" "))
    }

    /// A line across the chart at an attenuation.
    fn level(&self, value: u8, color: &str, dashes: &str) -> String {
        let (left, right, y) = (self.x(0), self.x(LAST_GROUP), self.y(value));
        format!(
            "<line x1='{left}' y1='{y}' x2='{right}' y2='{y}' stroke='{color}' \
             stroke-dasharray='{dashes}'/>\n"
        )
    }

    fn frame(&self) -> String {
        let (left, top, right, bottom) = (self.x(0), self.y(TOP), self.x(LAST_GROUP), self.y(0));
        let (width, height) = (right - left, bottom - top);
        format!(
            "<rect x='{left}' y='{top}' width='{width}' height='{height}' fill='none' \
             stroke='{FRAME}'/>\n"
        )
    }

    /// All of it that has no words.
    fn drawn(&self, step: &Step, width: &str) -> String {
        let thresholds = THRESHOLDS.map(|value| self.level(value, THRESHOLD, "6 4")).concat();
        [
            self.band(&step.spread),
            thresholds,
            self.curve(&step.spread.greatest, GREATEST, width),
            self.curve(&step.spread.least, LEAST, width),
            self.curve(&step.mean, MEAN, width),
            self.frame(),
        ]
        .concat()
    }
}

fn text(x: u32, y: u32, size: u32, anchor: &str, words: &str) -> String {
    format!("<text x='{x}' y='{y}' font-size='{size}' text-anchor='{anchor}'>{words}</text>\n")
}

/// The axes of the large chart: dB to the left, groups below, and the thresholds to the right.
fn axes() -> String {
    let (left, right) = (LARGE.x(0), LARGE.x(LAST_GROUP));
    let db = (0..=TOP).step_by(10).map(|value| {
        let label = text(left - 8, LARGE.y(value) + 4, 12, "end", &value.to_string());
        LARGE.level(value, GRID, "none") + &label
    });
    let groups = [1, 10, 20, 30, 40, 50, LAST_GROUP + 1].map(|number| {
        text(LARGE.x(number - 1), LARGE.bottom + 18, 12, "middle", &number.to_string())
    });
    let thresholds = THRESHOLDS.map(|value| {
        text(right + 8, LARGE.y(value) + 4, 12, "start", &format!("threshold {value} dB"))
    });
    let unit = text(left - 8, LARGE.y(TOP) - 12, 12, "end", "dB");
    let below = text(right, LARGE.bottom + 36, 12, "end", "carrier group");
    db.chain(groups).chain(thresholds).chain([unit, below]).collect()
}

/// Which line is which.
fn legend() -> String {
    let rows = [("greatest", GREATEST), ("mean, as reported", MEAN), ("least", LEAST)];
    let row = |(at, (words, color)): (u32, (&str, &str))| {
        let (x, y) = (LARGE.x(0) + 200 * at, 58);
        let right = x + 30;
        let line = format!(
            "<line x1='{x}' y1='{y}' x2='{right}' y2='{y}' stroke='{color}' stroke-width='3'/>\n"
        );
        line + &text(right + 8, y + 4, 13, "start", words)
    };
    (0..).zip(rows).map(row).collect()
}

/// The chart after each profile, with its number.
fn strip(steps: &[Step]) -> String {
    let head = text(LARGE.left, 512, 13, "start", "After each profile");
    let charts = (0..).zip(steps).map(|(profile, step)| {
        let chart = small(profile);
        let number = (profile + 1).to_string();
        chart.drawn(step, "1")
            + &text(chart.x(LAST_GROUP / 2), chart.bottom + 16, 12, "middle", &number)
    });
    [head].into_iter().chain(charts).collect()
}

/// The whole file.
pub fn svg(title: &str, steps: &[Step], last: &Step) -> String {
    [
        "<svg xmlns='http://www.w3.org/2000/svg' width='920' height='630' viewBox='0 0 920 630' \
         font-family='sans-serif'>\n<rect width='920' height='630' fill='#ffffff'/>\n",
        &text(LARGE.left, 30, 18, "start", title),
        &legend(),
        &axes(),
        &LARGE.drawn(last, "2"),
        &text(LARGE.left, LARGE.bottom + 36, 12, "start", &words(last)),
        &strip(steps),
        "</svg>\n",
    ]
    .concat()
}

fn range(values: &[u8; GROUPS]) -> String {
    let low = values.iter().min().unwrap_or(&0);
    let high = values.iter().max().unwrap_or(&0);
    format!("{low} to {high} dB")
}

/// What the picture shows, in a line.
pub fn words(step: &Step) -> String {
    let Step { spread: Spread { sounds, least, greatest }, mean } = step;
    let (least, mean, greatest) = (range(least), range(mean), range(greatest));
    format!("{sounds} sounds heard, least {least}, mean {mean}, greatest {greatest}")
}
