//! What an accepted event gives.

use crate::raw::Answered;
use crate::{Indication, Refusal, CONFIRMATION_OCTETS, REPORT_HEAD};
use core::fmt;
use core::iter::FusedIterator;

/// The answer to an event.
pub type Answer<'a> = Result<Done<'a>, Refusal>;

/// An accepted event: the frames to send, which stand in the output that was lent to the call.
///
/// The output stays lent while they are in use:
///
/// ```compile_fail,E0499
/// # use lahzavar::{Refusal, Station};
/// # fn two(station: &mut Station, out: &mut [u8]) -> Result<(), Refusal> {
/// let done = station.frame(&[], out)?;
/// station.tick(10, out)?; // would write over the frames
/// for reply in done.frames() {}
/// # Ok(())
/// # }
/// ```
#[derive(Clone, Copy, PartialEq, Eq)]
#[must_use = "it has the frames to send and the indication"]
pub struct Done<'a> {
    octets: &'a [u8],
    frames: usize,
    /// What the charge controller is to be told.
    pub indication: Option<Indication>,
}

impl<'a> Done<'a> {
    /// The frames to send, one by one, each at its own length: those of one tick may differ in it.
    pub fn frames(&self) -> Frames<'a> {
        Frames { octets: self.octets, left: self.frames }
    }

    /// The same frames back to back, from the output's first octet.
    #[must_use]
    pub fn octets(&self) -> &'a [u8] {
        self.octets
    }
}

/// The refusal of a number; 0 is none.
pub(crate) fn accepted(refusal: u32) -> Result<(), Refusal> {
    Refusal::try_from(refusal).map_or(Ok(()), Err)
}

/// An answer of the library, whose frames stand from the output's first octet.
pub(crate) fn answer<'a>(answered: &Answered, out: &'a [u8]) -> Answer<'a> {
    accepted(answered.refusal)?;
    Ok(Done {
        octets: out.get(..answered.octets as usize).unwrap_or_default(),
        frames: answered.frames as usize,
        indication: Indication::try_from(answered.indication).ok(),
    })
}

/// Shows how many octets there are and not which: the NMK may be among them.
impl fmt::Debug for Done<'_> {
    fn fmt(&self, f: &mut fmt::Formatter) -> fmt::Result {
        let mut shown = f.debug_struct("Done");
        shown.field("frames", &self.frames).field("octets", &self.octets.len());
        shown.field("indication", &self.indication).finish()
    }
}

/// The octets of the first of the frames that stand here back to back: its type tells them, a
/// report's group count too. Reports and `CM_VALIDATE.CNF` may stand in one answer, any other frame,
/// `CM_AMP_MAP.CNF` too, is alone in its.
fn frame_octets(frames: &[u8]) -> usize {
    let told = match (frames.get(15..17), frames.get(REPORT_HEAD - 1)) {
        (Some([0x6E, 0x60]), Some(groups)) => REPORT_HEAD + usize::from(*groups),
        (Some([0x79, 0x60]), _) => CONFIRMATION_OCTETS,
        _ => frames.len(),
    };
    told.min(frames.len())
}

/// The frames of an accepted event, in the order in which they stand in the output.
#[derive(Clone)]
#[must_use]
pub struct Frames<'a> {
    octets: &'a [u8],
    left: usize,
}

impl<'a> Iterator for Frames<'a> {
    type Item = &'a [u8];

    fn next(&mut self) -> Option<&'a [u8]> {
        self.left = self.left.checked_sub(1)?;
        let (frame, rest) = self.octets.split_at(frame_octets(self.octets));
        self.octets = rest;
        Some(frame)
    }

    fn size_hint(&self) -> (usize, Option<usize>) {
        (self.left, Some(self.left))
    }
}

impl ExactSizeIterator for Frames<'_> {}
impl FusedIterator for Frames<'_> {}

/// Shows how many frames are left.
impl fmt::Debug for Frames<'_> {
    fn fmt(&self, f: &mut fmt::Formatter) -> fmt::Result {
        f.debug_struct("Frames").field("left", &self.left).finish_non_exhaustive()
    }
}

#[cfg(test)]
mod tests {
    use super::{answer, Answered, Frames, CONFIRMATION_OCTETS};
    use crate::REPORT_OCTETS;

    /// Writes the start of a report of so many groups.
    fn report(frame: &mut [u8], groups: u8) {
        frame[15..17].copy_from_slice(&[0x6E, 0x60]);
        frame[70] = groups;
    }

    #[test]
    fn each_frame_has_its_own_length() {
        let mut out = [0xEE; 91 + 129 + 60 + 5];
        report(&mut out, 20);
        report(&mut out[91..], 58);
        out[91 + 129..][15..17].copy_from_slice(&[0x79, 0x60]);
        let answered = Answered { refusal: 0, indication: 0, frames: 3, octets: 91 + 129 + 60 };
        let done = answer(&answered, &out).unwrap();
        assert!(done.frames().map(<[u8]>::len).eq([91, REPORT_OCTETS, CONFIRMATION_OCTETS]));
        assert!(done.frames().flatten().eq(done.octets()));
    }

    /// Whatever the octets: as many frames as are told, back to back, and none past the end.
    #[test]
    fn no_frame_is_longer_than_what_is_there() {
        for groups in [0, 1, 58, 59, 255] {
            let mut octets = [0; 400];
            report(&mut octets, groups);
            report(&mut octets[71 + usize::from(groups)..], groups.wrapping_mul(3));
            for length in 0..=octets.len() {
                let frames = Frames { octets: &octets[..length], left: 3 };
                assert_eq!(frames.clone().count(), 3);
                assert!(frames.flatten().eq(&octets[..length]));
            }
        }
    }
}
