//! The plan of the bays: rows that face an aisle, each bay with its station at the wall and its car.

use super::line::Outcome;
use super::story::{self, End};

const HEIGHT: usize = 104;
const AISLE: usize = 54;
const BLOCKS_APART: usize = 22;
const STATION: usize = 24;
const MARGIN: usize = 10;
/// How far a line to another bay bends.
const BEND: usize = 70;
/// The width of the plan, and the least and the greatest one of a bay.
const WIDTH: usize = 1060;
const BAY: (usize, usize) = (62, 140);

pub struct Plan {
    columns: usize,
    rows: usize,
    bay: usize,
}

/// Where a bay stands: its left upper corner, and whether its station is at the upper edge.
struct Place {
    x: usize,
    y: usize,
    is_upper: bool,
}

impl Plan {
    pub fn of(bays: usize) -> Plan {
        let rows = match bays {
            0..=8 => 1,
            9..=32 => 2,
            _ => 4,
        };
        let columns = bays.div_ceil(rows);
        Plan { columns, rows, bay: (WIDTH / columns).clamp(BAY.0, BAY.1) }
    }

    fn place(&self, bay: usize) -> Place {
        let (row, column) = (bay / self.columns, bay % self.columns);
        let above = (row / 2) * (2 * HEIGHT + AISLE + BLOCKS_APART);
        let y = MARGIN + above + (row % 2) * (HEIGHT + AISLE);
        Place { x: MARGIN + column * self.bay, y, is_upper: row % 2 == 0 }
    }

    fn width(&self) -> usize {
        self.columns * self.bay + 2 * MARGIN
    }

    fn height(&self) -> usize {
        let last = self.place(self.columns * self.rows - 1);
        last.y + HEIGHT + MARGIN
    }

    /// The middle of a bay's station, and of its car.
    fn middles(&self, bay: usize) -> ((usize, usize), (usize, usize)) {
        let Place { x, y, is_upper } = self.place(bay);
        let middle = x + self.bay / 2;
        let (near, far) = (STATION / 2 + 6, STATION + 12 + (HEIGHT - STATION - 14) / 2);
        let at = |depth: usize| if is_upper { y + depth } else { y + HEIGHT - depth };
        ((middle, at(near)), (middle, at(far)))
    }

    /// One bay, its station and its car.
    fn bay(&self, outcome: &Outcome, bay: usize) -> String {
        let Place { x, y, is_upper } = self.place(bay);
        let ((station_x, station_y), (car_x, car_y)) = self.middles(bay);
        let (box_width, car_width) = (self.bay - 14, (self.bay - 20).min(46));
        let car_height = HEIGHT - STATION - 22;
        let end = story::end(bay, &outcome.stories[bay]);
        let (class, number) = (end.class(), bay + 1);
        let (wall, aisle) = if is_upper { (y, y + HEIGHT) } else { (y + HEIGHT, y) };
        let below = match end {
            End::OtherBay(joined) => format!("to {}", joined + 1),
            End::OwnBay => "joined".into(),
            End::NotJoined => "no link".into(),
        };
        format!(
            "<g class=\"bay {class}\" data-bay=\"{bay}\"><path class=\"wall\" d=\"M{x} {wall}V{aisle}M{} \
             {wall}V{aisle}\"/><g class=\"station\" data-station=\"{bay}\" tabindex=\"0\" role=\"button\" \
             aria-label=\"station of bay {number}\"><rect x=\"{}\" y=\"{}\" width=\"{box_width}\" \
             height=\"{STATION}\" rx=\"5\"/><text x=\"{station_x}\" y=\"{}\"></text></g><g class=\"car\" \
             data-car=\"{bay}\" tabindex=\"0\" role=\"button\" aria-label=\"car of bay {number}\"><rect \
             x=\"{}\" y=\"{}\" width=\"{car_width}\" height=\"{car_height}\" rx=\"11\"/><text \
             class=\"number\" x=\"{car_x}\" y=\"{}\">{number}</text><text class=\"ended\" x=\"{car_x}\" \
             y=\"{}\">{below}</text></g></g>\n",
            x + self.bay,
            station_x - box_width / 2,
            station_y - STATION / 2,
            station_y + 4,
            car_x - car_width / 2,
            car_y - car_height / 2,
            car_y + 1,
            car_y + 16
        )
    }

    /// The line from a car to the station of another bay that it joined: it ends at the station's edge
    /// and bends towards the aisle.
    fn link(&self, bay: usize, joined: usize) -> String {
        let (_, (from_x, from_y)) = self.middles(bay);
        let ((to_x, to_y), _) = self.middles(joined);
        let to_y =
            if self.place(joined).is_upper { to_y + STATION / 2 } else { to_y - STATION / 2 };
        let middle_x = (from_x + to_x) / 2;
        let level = (from_y + to_y) / 2;
        let bend = if self.place(bay).is_upper { level + BEND } else { level.saturating_sub(BEND) };
        format!(
            "<path class=\"wrong\" data-from=\"{bay}\" data-to=\"{joined}\" d=\"M{from_x} {from_y}Q{middle_x} \
             {bend} {to_x} {to_y}\"/><circle class=\"wrong\" cx=\"{to_x}\" cy=\"{to_y}\" r=\"5\"/>\n"
        )
    }

    pub fn svg(&self, outcome: &Outcome) -> String {
        let mut drawn = String::new();
        for (bay, story) in outcome.stories.iter().enumerate() {
            if let End::OtherBay(joined) = story::end(bay, story) {
                drawn += &self.link(bay, joined);
            }
        }
        drawn += "<path id=\"pair\" class=\"pair\" d=\"\"/>\n";
        for bay in 0..outcome.stories.len() {
            drawn += &self.bay(outcome, bay);
        }
        let (width, height) = (self.width(), self.height());
        format!(
            "<svg id=\"plan\" class=\"plan\" viewBox=\"0 0 {width} {height}\" width=\"{width}\" \
             height=\"{height}\" role=\"group\" aria-label=\"plan of the bays\">\n{drawn}</svg>\n"
        )
    }
}

#[cfg(test)]
mod tests {
    use super::Plan;

    /// No two bays overlap, and all of them are within the plan.
    #[test]
    fn every_bay_has_a_place_of_its_own() {
        for bays in 1..=64 {
            let plan = Plan::of(bays);
            let places: Vec<_> = (0..bays).map(|bay| plan.place(bay)).collect();
            for (at, one) in places.iter().enumerate() {
                assert!(one.x + plan.bay <= plan.width() && one.y + super::HEIGHT <= plan.height());
                assert!(places[..at].iter().all(|other| {
                    one.x.abs_diff(other.x) >= plan.bay || one.y.abs_diff(other.y) >= super::HEIGHT
                }));
            }
        }
    }
}
