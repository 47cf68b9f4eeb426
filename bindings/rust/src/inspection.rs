//! What the inspection tells of a station.

use crate::State;

/// The state of a station, and its car: the answer to [`Station::inspect`].
///
/// [`Station::inspect`]: crate::Station::inspect
#[derive(Clone, Copy, Debug, PartialEq, Eq, Hash)]
pub struct Inspection {
    /// The state; one that this wrapper does not know counts as Unmatched.
    pub state: State,
    /// The address of the car that joins or has joined; none in Unmatched and Matching.
    pub car: Option<[u8; 6]>,
}
