//! Who hears whom how well: a cell for each car at each station.

use super::line::Outcome;
use super::story;
use std::fmt::Write;

/// Classes of attenuation over the reference: below each number, and the last one above all.
pub const CLASSES: [u32; 4] = [10, 20, 30, 45];
const SIDE: usize = 520;
const CELL: (usize, usize) = (8, 34);
const MARGIN: usize = 34;

pub fn class(over: u32) -> usize {
    CLASSES.iter().position(|limit| over < *limit).unwrap_or(CLASSES.len())
}

/// The numbers along both edges, as many as there is room for.
fn edges(bays: usize, cell: usize) -> String {
    let step = 20usize.div_ceil(cell).max(1);
    let shown = (0..bays).filter(|bay| *bay == 0 || (bay + 1) % step == 0);
    shown.fold(String::new(), |mut edges, bay| {
        let middle = MARGIN + bay * cell + cell / 2;
        let number = bay + 1;
        let _ = write!(
            edges,
            "<text class=\"across\" x=\"{middle}\" y=\"{}\">{number}</text><text class=\"down\" x=\"{}\" \
             y=\"{}\">{number}</text>",
            MARGIN - 5,
            MARGIN - 6,
            middle + 4
        );
        edges
    })
}

pub fn svg(outcome: &Outcome) -> String {
    let bays = outcome.stories.len();
    let cell = (SIDE / bays).clamp(CELL.0, CELL.1);
    let mut paths = vec![String::new(); CLASSES.len() + 1];
    let (mut dots, mut joined) = (String::new(), String::new());
    for car in 0..bays {
        let story = &outcome.stories[car];
        for station in 0..bays {
            let (x, y) = (MARGIN + station * cell, MARGIN + car * cell);
            let side = cell - 1;
            let path = &mut paths[class(outcome.attenuation.over(car, station))];
            let _ = write!(path, "M{x} {y}h{side}v{side}h-{side}z");
            if outcome.heard[car][station].is_some() {
                let _ = write!(dots, "M{} {}h2v2h-2z", x + side / 2 - 1, y + side / 2 - 1);
            }
            if story.joined == Some(station) && story.is_linked() {
                let end = story::end(car, story).class();
                let _ = write!(
                    joined,
                    "<rect class=\"joined {end}\" x=\"{x}\" y=\"{y}\" width=\"{side}\" height=\"{side}\"/>"
                );
            }
        }
    }
    let cells = paths.iter().enumerate().fold(String::new(), |mut cells, (class, path)| {
        let _ = write!(cells, "<path class=\"class{class}\" d=\"{path}\"/>");
        cells
    });
    let side = MARGIN + bays * cell + 4;
    format!(
        "<svg id=\"heat\" class=\"heat\" data-cell=\"{cell}\" data-margin=\"{MARGIN}\" viewBox=\"0 0 \
         {side} {side}\" width=\"{side}\" height=\"{side}\" role=\"img\" aria-label=\"attenuation of each \
         car at each station\">{}<text class=\"axis\" x=\"{MARGIN}\" y=\"12\">station</text><text \
         class=\"axis\" x=\"2\" y=\"{MARGIN}\">car</text>{cells}<path class=\"dots\" d=\"{dots}\"/>{joined}\
         <rect id=\"cell\" class=\"cell\" width=\"{cell}\" height=\"{cell}\"/></svg>\n",
        edges(bays, cell)
    )
}

#[cfg(test)]
mod tests {
    use super::class;

    #[test]
    fn thresholds_begin_a_class() {
        assert_eq!([0, 9, 10, 19, 20, 44, 45, 70].map(class), [0, 0, 1, 1, 2, 3, 4, 4]);
    }
}
