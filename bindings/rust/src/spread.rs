//! What the service query tells of a car's run.

use crate::GROUPS;

/// How far apart the modem's values of a car's run lie: the answer to [`Station::query`].
///
/// A group's mean is in the report to the car, and least and greatest say what it is made of. A bad
/// cable raises all three. One noisy sound raises the greatest values, and the means by a small part
/// of that (a tenth in the ISO edition), and leaves the least ones as they were.
///
/// [`Station::query`]: crate::Station::query
#[derive(Clone, Copy, Debug, PartialEq, Eq, Hash)]
pub struct Spread {
    /// How many sounds of the run were heard.
    pub sounds: u32,
    /// The least value that each carrier group had in the profiles counted; 0 in groups that they do
    /// not have, which is in SAE alone.
    pub least: [u8; GROUPS],
    /// The greatest one.
    pub greatest: [u8; GROUPS],
}
