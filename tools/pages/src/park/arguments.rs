//! What is simulated.

use std::fmt::Display;
use std::ops::RangeInclusive;
use std::str::FromStr;

pub const USAGE: &str = "usage: car_park [--bays N] [--loss P] [--near DB] [--seed S] > page.html
  --bays N   bays of the park, each with a station and a car, 1 to 64 (12)
  --loss P   per cent of the frames that do not reach a receiver, 0 to 100 (5)
  --near DB  attenuation of a car at the bay next to its own, in dB over the car's reference, 0 to 60 (16)
  --seed S   from which everything else is drawn, a whole number (1)";

const BAYS: RangeInclusive<usize> = 1..=64;
const LOSS: RangeInclusive<u32> = 0..=100;
const NEAR: RangeInclusive<u32> = 0..=60;

#[derive(Clone, Copy, Debug, PartialEq, Eq)]
pub struct Options {
    pub bays: usize,
    /// Per cent of the frames that would reach a receiver.
    pub loss: u32,
    /// In dB over the car's reference.
    pub near: u32,
    pub seed: u64,
}

impl Default for Options {
    fn default() -> Options {
        Options { bays: 12, loss: 5, near: 16, seed: 1 }
    }
}

fn number<T>(name: &str, value: Option<String>, range: &RangeInclusive<T>) -> Result<T, String>
where
    T: FromStr + PartialOrd + Display,
{
    let value = value.ok_or_else(|| format!("{name} has no number behind it"))?;
    let (least, most) = (range.start(), range.end());
    let plain = !value.is_empty() && value.bytes().all(|digit| digit.is_ascii_digit());
    let number = value.parse().ok().filter(|number| plain && range.contains(number));
    number.ok_or_else(|| {
        format!("{name} takes a whole number from {least} to {most}, and not \"{value}\"")
    })
}

impl Options {
    /// # Errors
    ///
    /// A sentence that says which argument is wrong.
    pub fn parse(arguments: impl IntoIterator<Item = String>) -> Result<Options, String> {
        let mut arguments = arguments.into_iter();
        let mut options = Options::default();
        let mut seen: Vec<String> = Vec::new();
        while let Some(name) = arguments.next() {
            if seen.contains(&name) {
                return Err(format!("{name} is given twice"));
            }
            match name.as_str() {
                "--bays" => options.bays = number(&name, arguments.next(), &BAYS)?,
                "--loss" => options.loss = number(&name, arguments.next(), &LOSS)?,
                "--near" => options.near = number(&name, arguments.next(), &NEAR)?,
                "--seed" => options.seed = number(&name, arguments.next(), &(0..=u64::MAX))?,
                _ => return Err(format!("there is no argument \"{name}\"")),
            }
            seen.push(name);
        }
        Ok(options)
    }
}

#[cfg(test)]
mod tests {
    use super::Options;

    fn parse(words: &str) -> Result<Options, String> {
        Options::parse(words.split_whitespace().map(String::from))
    }

    #[test]
    fn arguments_are_taken() {
        assert_eq!(parse(""), Ok(Options::default()));
        let all = Options { bays: 64, loss: 100, near: 0, seed: u64::MAX };
        let words = format!("--seed {} --near 0 --loss 100 --bays 64", u64::MAX);
        assert_eq!(parse(&words), Ok(all));
    }

    #[test]
    fn bad_arguments_are_refused_by_name() {
        for (words, said) in [
            ("--bays 0", "--bays takes a whole number from 1 to 64, and not \"0\""),
            ("--bays 65", "--bays takes a whole number from 1 to 64, and not \"65\""),
            ("--bays +5", "--bays takes a whole number from 1 to 64, and not \"+5\""),
            ("--loss 101", "--loss takes a whole number from 0 to 100, and not \"101\""),
            ("--loss 5%", "--loss takes a whole number from 0 to 100, and not \"5%\""),
            ("--near -3", "--near takes a whole number from 0 to 60, and not \"-3\""),
            ("--seed", "--seed has no number behind it"),
            ("--seed 1 --seed 2", "--seed is given twice"),
            ("12", "there is no argument \"12\""),
        ] {
            assert_eq!(parse(words), Err(said.into()));
        }
    }
}
