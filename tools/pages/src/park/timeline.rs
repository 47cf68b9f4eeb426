//! Times and starts of each car, from its plug-in to its link.

use super::bay::{Start, Story};
use super::line::Outcome;
use super::story::{self, seconds};
use lahzavar::Indication;
use std::fmt::Write;

const LEFT: usize = 64;
const WIDTH: usize = 900;
const ROW: usize = 18;
const TOP: usize = 26;

struct Scale {
    /// Milliseconds that the picture shows.
    time: u32,
}

impl Scale {
    fn x(&self, at: u32) -> usize {
        LEFT + WIDTH * at as usize / self.time.max(1) as usize
    }

    /// Seconds between two lines, so that there are at most ten.
    fn step(&self) -> u32 {
        let steps = [1, 2, 5, 10, 20, 30, 60];
        steps.into_iter().find(|step| self.time / (1000 * step) <= 10).unwrap_or(60)
    }

    fn grid(&self, height: usize) -> String {
        let step = 1000 * self.step();
        (0..=self.time / step).fold(String::new(), |mut grid, line| {
            let x = self.x(line * step);
            let _ = write!(
                grid,
                "<path class=\"grid\" d=\"M{x} {TOP}V{height}\"/><text class=\"second\" x=\"{x}\" \
                 y=\"{}\">{} s</text>",
                TOP - 8,
                line * step / 1000
            );
            grid
        })
    }

    /// The bar of one start.
    fn start(&self, at: usize, start: &Start, y: usize, now: u32) -> String {
        let (x, end) = (self.x(start.at), self.x(start.end.unwrap_or(now)));
        let given = start.ended == Some(Indication::KeyGiven);
        format!(
            "<rect class=\"start {}\" data-start=\"{at}\" x=\"{x}\" y=\"{}\" width=\"{}\" height=\"{}\" \
             rx=\"2\"><title>start {} at {}</title></rect>",
            if given { "given" } else { "failed" },
            y + 4,
            (end - x).max(3),
            ROW - 8,
            at + 1,
            seconds(start.at)
        )
    }

    /// One car: from plug-in to link, with a bar for each start.
    fn row(&self, bay: usize, story: &Story, now: u32) -> String {
        let y = TOP + ROW * bay;
        let middle = y + ROW / 2;
        let class = story::end(bay, story).class();
        let last = story.link_at.unwrap_or(now);
        let mut row = format!(
            "<g class=\"row {class}\" data-car=\"{bay}\"><rect class=\"back\" x=\"0\" y=\"{y}\" width=\"{}\" \
             height=\"{ROW}\"/><text x=\"{}\" y=\"{}\">bay {}</text><path class=\"plugged\" d=\"M{} \
             {middle}H{}\"/>",
            LEFT + WIDTH + 20,
            LEFT - 10,
            middle + 4,
            bay + 1,
            self.x(story.plugged),
            self.x(last)
        );
        for (at, start) in story.starts.iter().enumerate() {
            row += &self.start(at, start, y, now);
        }
        if let Some(link) = story.link_at {
            let _ = write!(
                row,
                "<circle class=\"link\" cx=\"{}\" cy=\"{middle}\" r=\"5\"><title>link at {}</title></circle>",
                self.x(link),
                seconds(link)
            );
        }
        row + "</g>\n"
    }
}

pub fn svg(outcome: &Outcome) -> String {
    let scale = Scale { time: outcome.time };
    let height = TOP + ROW * outcome.stories.len() + 8;
    let width = LEFT + WIDTH + 20;
    let rows: String = outcome
        .stories
        .iter()
        .enumerate()
        .map(|(bay, story)| scale.row(bay, story, outcome.time))
        .collect();
    format!(
        "<svg id=\"times\" class=\"times\" viewBox=\"0 0 {width} {height}\" width=\"{width}\" \
         height=\"{height}\" role=\"img\" aria-label=\"times and starts of each car\">{}{rows}</svg>\n",
        scale.grid(height - 4)
    )
}
