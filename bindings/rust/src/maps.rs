//! Amplitude maps: their two messages, and how far a map asks to lower the power of each carrier.
//!
//! A `CM_AMP_MAP.REQ` has a value from 0 to 15 for each carrier, in the order of the carriers: a
//! value a asks for at most -50 - 2a dBm/Hz. Its receiver answers by `CM_AMP_MAP.CNF`, and lowers
//! the power of each carrier that is above. A [`Station`](crate::Station) answers the request of the
//! matched car by itself; what is asked for is taken out of the same frame:
//!
//! ```
//! use lahzavar::maps::{self, Message};
//! use lahzavar::{Refusal, CARRIERS, CONFIRMATION_OCTETS, MAP_OCTETS};
//!
//! // The example of ISO 15118-3, A.9.6.1: at most -78 dBm/Hz on carriers 2 and 3 of six.
//! let (car, station) = ([2, 0, 0, 0, 0, 1], [2, 0, 0, 0, 0, 0xAA]);
//! let mut out = [0; MAP_OCTETS];
//! let frame = maps::request(car, station, &[0, 14, 14, 0, 0, 0], &mut out)?;
//!
//! let message = maps::read(frame)?;
//! assert_eq!(message, Message::Request { receiver: car, sender: station, carriers: 6 });
//! let mut values = [0; CARRIERS];
//! let values = maps::values(frame, &mut values)?;
//! let levels = [-75, -75, -77, -77, -75, -75]; // our own, in dBm/Hz
//! let mut reductions = [0; CARRIERS];
//! assert_eq!(maps::reduce(values, &levels, &mut reductions)?, [0, 3, 1, 0, 0, 0]);
//!
//! let mut answer = [0; CONFIRMATION_OCTETS];
//! let answer = maps::confirm(station, car, true, &mut answer)?;
//! let message = maps::read(answer)?;
//! assert_eq!(message, Message::Confirmation { receiver: station, sender: car, success: true });
//! # Ok::<(), Refusal>(())
//! ```
//!
//! These functions work on what they are lent alone. A refused one leaves the slice that it would
//! fill; an accepted one changes the part that it gives, which starts at the first place, and
//! nothing behind it.

use crate::answers::accepted;
use crate::octets::{address, number};
use crate::raw::{self, Counted};
use crate::Refusal;

/// The types of the two messages.
const REQUEST: u32 = 0x601C;
const CONFIRMATION: u32 = 0x601D;

/// What a frame of amplitude maps says; addresses are octets as they stand in frames.
#[derive(Clone, Copy, Debug, PartialEq, Eq, Hash)]
pub enum Message {
    /// `CM_AMP_MAP.REQ`, whose values [`values`] gives.
    Request {
        /// The frame's destination.
        receiver: [u8; 6],
        /// Its source.
        sender: [u8; 6],
        /// How many carriers it has a value for.
        carriers: usize,
    },
    /// `CM_AMP_MAP.CNF`.
    Confirmation {
        /// The frame's destination.
        receiver: [u8; 6],
        /// Its source.
        sender: [u8; 6],
        /// Whether the request is met.
        success: bool,
    },
}

/// The places that a call has filled.
fn filled<'a>(counted: &Counted, places: &'a [u8]) -> Result<&'a [u8], Refusal> {
    accepted(counted.refusal)?;
    Ok(places.get(..counted.count as usize).unwrap_or_default())
}

/// Reads a frame, from its destination address on and without its check sequence.
///
/// # Errors
///
/// In this order: [`Refusal::TooShort`] where it ends in its head, [`Refusal::BadHead`],
/// [`Refusal::UnknownType`] where it is none of the two messages, [`Refusal::TooShort`] where it ends
/// before the number of its carriers, [`Refusal::BadOctet`] where that is not 1 to
/// [`CARRIERS`](crate::CARRIERS), [`Refusal::TooShort`], [`Refusal::TooLong`],
/// [`Refusal::BadAddress`], [`Refusal::BadOctet`].
pub fn read(octets: &[u8]) -> Result<Message, Refusal> {
    // SAFETY: the slice is lent whole.
    let read = unsafe { raw::lahzavar_read_map(octets.as_ptr(), octets.len()) };
    accepted(read.refusal)?;
    let (receiver, sender) = (address(read.receiver), address(read.sender));
    match read.kind {
        REQUEST => Ok(Message::Request { receiver, sender, carriers: read.carriers as usize }),
        CONFIRMATION => Ok(Message::Confirmation { receiver, sender, success: read.result == 0 }),
        _ => Err(Refusal::UnknownType),
    }
}

/// The values of a `CM_AMP_MAP.REQ`, one for each carrier, which fill the lent slice;
/// [`CARRIERS`](crate::CARRIERS) places always are enough.
///
/// # Errors
///
/// Those of [`read`], [`Refusal::UnknownType`] for a `CM_AMP_MAP.CNF`, which has none, and
/// [`Refusal::OutputTooShort`].
pub fn values<'a>(octets: &[u8], values: &'a mut [u8]) -> Result<&'a [u8], Refusal> {
    let (place, room) = (values.as_mut_ptr(), values.len());
    // SAFETY: both slices are lent whole, and a `&mut` overlaps nothing else.
    let counted =
        unsafe { raw::lahzavar_values_of_map(octets.as_ptr(), octets.len(), place, room) };
    filled(&counted, values)
}

/// Writes a `CM_AMP_MAP.REQ` with a value for each carrier; [`MAP_OCTETS`](crate::MAP_OCTETS) always
/// are room enough. Gives the frame.
///
/// # Errors
///
/// In this order: [`Refusal::BadAddress`] where an address is not unicast, [`Refusal::BadOctet`] for
/// a number of carriers outside 1 to [`CARRIERS`](crate::CARRIERS) or a value over 15,
/// [`Refusal::OutputTooShort`].
pub fn request<'a>(
    receiver: [u8; 6],
    sender: [u8; 6],
    values: &[u8],
    out: &'a mut [u8],
) -> Result<&'a [u8], Refusal> {
    let (receiver, sender) = (number(&receiver), number(&sender));
    let (place, room) = (out.as_mut_ptr(), out.len());
    // SAFETY: as in `values`.
    let counted = unsafe {
        raw::lahzavar_request_map(receiver, sender, values.as_ptr(), values.len(), place, room)
    };
    filled(&counted, out)
}

/// Writes a `CM_AMP_MAP.CNF`, of [`CONFIRMATION_OCTETS`](crate::CONFIRMATION_OCTETS). Gives the
/// frame.
///
/// # Errors
///
/// [`Refusal::BadAddress`] where an address is not unicast, or [`Refusal::OutputTooShort`].
pub fn confirm(
    receiver: [u8; 6],
    sender: [u8; 6],
    success: bool,
    out: &mut [u8],
) -> Result<&[u8], Refusal> {
    let (receiver, sender) = (number(&receiver), number(&sender));
    let (place, room) = (out.as_mut_ptr(), out.len());
    // SAFETY: the slice is lent whole, and a `&mut` overlaps nothing else.
    let counted =
        unsafe { raw::lahzavar_confirm_map(receiver, sender, u32::from(success), place, room) };
    filled(&counted, out)
}

/// By how many dB the power of each carrier is to be lowered, for the values of a `CM_AMP_MAP.REQ`
/// and our levels in dBm/Hz, one for each carrier: the level less -50 - 2a where that is positive,
/// else 0.
///
/// # Errors
///
/// In this order: [`Refusal::BadOctet`] for a number of values outside 1 to
/// [`CARRIERS`](crate::CARRIERS) or a value over 15, [`Refusal::OtherCarrierCount`] where there are
/// not as many levels, [`Refusal::BadConfiguration`] for a level outside -128 to 0,
/// [`Refusal::OutputTooShort`].
///
/// ```
/// use lahzavar::{maps, Refusal};
/// let mut reductions = [0; 2];
/// assert_eq!(maps::reduce(&[14, 0], &[-75, 0], &mut reductions), Ok(&[3, 50][..]));
/// assert_eq!(maps::reduce(&[14], &[-129], &mut reductions), Err(Refusal::BadConfiguration));
/// assert_eq!(maps::reduce(&[14], &[], &mut reductions), Err(Refusal::OtherCarrierCount));
/// ```
pub fn reduce<'a>(
    values: &[u8],
    levels: &[i16],
    reductions: &'a mut [u8],
) -> Result<&'a [u8], Refusal> {
    let (place, room) = (reductions.as_mut_ptr(), reductions.len());
    // SAFETY: the slices are lent whole, and a `&mut` overlaps nothing else.
    let counted = unsafe {
        raw::lahzavar_reduce_map(
            values.as_ptr(),
            values.len(),
            levels.as_ptr(),
            levels.len(),
            place,
            room,
        )
    };
    filled(&counted, reductions)
}
