//! How well each station hears each car.
//!
//! Stations stand along one line. A car's own station hears it with 3 to 7 dB over the car's
//! reference, the station of the next bay with the given attenuation and up to 3 dB more, and each
//! further bay with 2 dB more than the one before. Carrier groups lie up to 3 dB above and below that
//! by a pattern that each pair has of its own; each sound adds up to 3 dB in each group, and now and
//! then noise is measured in some groups.

use super::random::Random;
use lahzavar::GROUPS;

/// The attenuation that every car takes as its zero, as in the standard's example.
pub const REFERENCE: u32 = 26;
const OWN: (u32, u32) = (3, 7);
const VARIATION: u32 = 3;
const STEP: u32 = 2;
/// The greatest attenuation over the reference.
const MOST: u32 = 70;
/// How often, per cent, a sound is measured with noise, over how many groups, and how much.
const NOISY: u32 = 4;
const NOISE_GROUPS: usize = 12;
const NOISE: u32 = 14;

pub struct Attenuation {
    /// Of each car at each station, over the reference, before the pattern of groups.
    over: Vec<Vec<u32>>,
    /// The first group and the period of each pair's pattern.
    patterns: Vec<Vec<(usize, usize)>>,
}

impl Attenuation {
    pub fn draw(bays: usize, near: u32, random: &mut Random) -> Attenuation {
        let mut over = vec![vec![0; bays]; bays];
        let mut patterns = vec![vec![(0, 1); bays]; bays];
        for car in 0..bays {
            for station in 0..bays {
                let bays_away = u32::try_from(car.abs_diff(station)).unwrap_or(u32::MAX);
                let value = match bays_away {
                    0 => random.between(OWN.0, OWN.1),
                    away => near + STEP * (away - 1) + random.between(0, VARIATION),
                };
                over[car][station] = value.min(MOST);
                let period = random.between(14, 40) as usize;
                patterns[car][station] = (random.between(0, 39) as usize, period);
            }
        }
        Attenuation { over, patterns }
    }

    /// In dB over the reference.
    pub fn over(&self, car: usize, station: usize) -> u32 {
        self.over[car][station]
    }

    /// What a modem measures of one sound.
    pub fn measured(&self, car: usize, station: usize, random: &mut Random) -> [u8; GROUPS] {
        let (first, period) = self.patterns[car][station];
        let noise = random.per_cent(NOISY).then(|| {
            let start = random.between(0, 45) as usize;
            start..start + NOISE_GROUPS
        });
        std::array::from_fn(|group| {
            let extra =
                if noise.as_ref().is_some_and(|noise| noise.contains(&group)) { NOISE } else { 0 };
            let plain = REFERENCE + self.over(car, station) + random.between(0, VARIATION) + extra;
            let value = plain + pattern(group + first, period);
            u8::try_from(value.saturating_sub(VARIATION + 1)).unwrap_or(u8::MAX)
        })
    }
}

/// A wave between 0 and 6 over the groups.
fn pattern(place: usize, period: usize) -> u32 {
    let phase = place % period;
    let up = 2 * phase.min(period - phase) * 6 / period;
    u32::try_from(up.min(6)).unwrap_or(0)
}

#[cfg(test)]
mod tests {
    use super::{pattern, Attenuation, REFERENCE};
    use crate::park::random::Random;

    #[test]
    fn the_own_station_hears_best_where_the_next_bay_is_far() {
        let mut random = Random::new(7);
        let drawn = Attenuation::draw(10, 12, &mut random);
        for car in 0..10 {
            for station in 0..10 {
                let over = drawn.over(car, station);
                assert!(if car == station { over <= 7 } else { over >= 12 });
            }
        }
        assert!(drawn.over(0, 9) > drawn.over(0, 1));
        let values = drawn.measured(0, 0, &mut random);
        let sum: u32 = values.iter().map(|value| u32::from(*value)).sum();
        assert!((REFERENCE..REFERENCE + 10).contains(&(sum / 58)));
        assert!((0..200).all(|place| pattern(place, 14) <= 6));
    }
}
