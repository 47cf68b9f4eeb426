//! A picture for field service: one car's matching over a bad cable, or with one noisy sound. After
//! each profile the station is asked for the least and the greatest value of each carrier group; one
//! SVG file shows them with the mean, large after the last profile and small after each one.
//!
//! `spread_picture cable FILE` or `spread_picture noise FILE`

mod frames;
mod picture;

use frames::{Address, Car};
use lahzavar::{Configuration, Edition, Pilot, Station, GROUPS, LEAST_OUTPUT};
use picture::Step;
use std::env::args_os;
use std::error::Error;
use std::ffi::OsString;
use std::fs;
use std::path::Path;
use std::process::ExitCode;

const STATION: Address = [2, 0, 0, 0, 0, 0xAA];
const MODEM: Address = [2, 0, 0, 0, 0, 0xBB];
const CAR: Car = Car { address: [2, 0, 0, 0, 0, 1], run: [1, 2, 3, 4, 5, 6, 7, 8] };

const SOUNDS: u8 = 10;
/// The sound during which there is noise.
const NOISY: u8 = 3;
/// How many dB both troubles add to the mean, which alone does not tell them apart.
const RAISED: u8 = 6;
/// The time of a sounding, in milliseconds; then the station reports what it has.
const SOUNDING: u32 = 600;

/// What is wrong on the line.
#[derive(Clone, Copy)]
enum Trouble {
    /// Every sound arrives weaker.
    Cable,
    /// One sound is measured while something else is on the line.
    Noise,
}

impl Trouble {
    fn named(name: &OsString) -> Option<Trouble> {
        match name.to_str()? {
            "cable" => Some(Trouble::Cable),
            "noise" => Some(Trouble::Noise),
            _ => None,
        }
    }

    fn title(self) -> &'static str {
        match self {
            Trouble::Cable => "A bad cable: least, mean and greatest are raised together",
            Trouble::Noise => {
                "One noisy sound: the greatest values are far off, the least ones good"
            }
        }
    }

    /// How many dB the trouble adds to one sound.
    fn added(self, sound: u8) -> u8 {
        match self {
            Trouble::Cable => RAISED,
            Trouble::Noise if sound == NOISY => RAISED * SOUNDS,
            Trouble::Noise => 0,
        }
    }

    /// What the modem measures of a sound: a good cable's 4 to 6 dB, more in the upper groups, the
    /// line's unrest, and the trouble.
    fn values(self, sound: u8) -> [u8; GROUPS] {
        let mut values = [4 + self.added(sound); GROUPS];
        for (value, group) in values.iter_mut().zip(0..) {
            *value += group / 20 + unrest(group, sound);
        }
        values
    }
}

/// 0 to 3 dB that differ from sound to sound and from group to group, the same in every run of the
/// program.
fn unrest(group: u8, sound: u8) -> u8 {
    let mixed = u32::from_be_bytes([0, 0, sound, group]).wrapping_mul(0x9E37_79B9);
    (mixed ^ mixed >> 15).wrapping_mul(0x85EB_CA6B).to_be_bytes()[0] >> 6
}

/// The group values that the car is told if no more profiles come: those that a copy of the station
/// reports when its time has run out.
fn mean_so_far(station: &Station) -> Result<[u8; GROUPS], Box<dyn Error>> {
    let mut out = [0; LEAST_OUTPUT];
    let done = station.clone().tick(SOUNDING, &mut out)?;
    Ok(done.frames().find_map(frames::reported).ok_or("the station makes no report")?)
}

/// A car's matching until its report, as the station tells of it after each profile.
fn session(trouble: Trouble) -> Result<Vec<Step>, Box<dyn Error>> {
    let mut station = Station::new(&Configuration {
        address: STATION,
        modem: MODEM,
        nid: [1, 2, 3, 4, 5, 6, 7],
        nmk: *b"a key for tests.",
        validation_not_required: false,
        edition: Edition::Iso,
        carriers: 1155,
    })?;
    let (mut out, mut steps) = ([0; LEAST_OUTPUT], Vec::new());
    let mut hear =
        |station: &mut Station, frame: Vec<u8>| station.frame(&frame, &mut out).map(drop);
    station.pilot(Pilot::B, 0).map(drop)?;
    hear(&mut station, CAR.parm_req())?;
    hear(&mut station, CAR.start())?;
    for sound in 0..SOUNDS {
        hear(&mut station, CAR.sound(SOUNDS - 1 - sound))?;
        let values = trouble.values(sound);
        hear(&mut station, frames::profile_of(MODEM, STATION, CAR.address, &values))?;
        steps.push(Step { spread: station.query(CAR.address)?, mean: mean_so_far(&station)? });
    }
    Ok(steps)
}

/// Writes the picture, and says in a line what it shows.
fn draw(trouble: Trouble, file: &Path) -> Result<(), Box<dyn Error>> {
    let steps = session(trouble)?;
    let last = steps.last().ok_or("there was no profile")?;
    fs::write(file, picture::svg(trouble.title(), &steps, last))?;
    println!("{}: {}", file.display(), picture::words(last));
    Ok(())
}

fn main() -> ExitCode {
    let words: Vec<OsString> = args_os().skip(1).collect();
    let asked = match words.as_slice() {
        [name, file] => Trouble::named(name).map(|trouble| (trouble, Path::new(file))),
        _ => None,
    };
    let Some((trouble, file)) = asked else {
        eprintln!("usage: spread_picture cable FILE, or spread_picture noise FILE");
        return ExitCode::from(2);
    };
    match draw(trouble, file) {
        Ok(()) => ExitCode::SUCCESS,
        Err(error) => {
            eprintln!("{}: {error}", file.display());
            ExitCode::FAILURE
        }
    }
}
