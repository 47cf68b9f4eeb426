//! The car.

use crate::answers::{accepted, answer};
use crate::octets::{self, halves, number};
use crate::raw::{self, CarWords};
use crate::{library_fits, Answer, CarState, Key, Refusal, CAR_WORDS};
use core::fmt;

/// A car: plain memory of its own, in which the NMK stands too once a station has given it. It is
/// wiped on drop.
#[derive(Clone)]
pub struct Car {
    words: CarWords,
}

impl Car {
    /// A car that is Idle, with no run and no reports and the clock reading 0.
    ///
    /// The reference is the attenuation that the car takes as its zero, in dB: -50 dBm/Hz less the
    /// car's own level at its inlet, or 0 to take reports as they are.
    ///
    /// # Errors
    ///
    /// [`Refusal::BadConfiguration`] unless the address is unicast and the reference at most 255.
    ///
    /// # Panics
    ///
    /// Where the linked library is not the one that this wrapper describes, since its cars may be
    /// larger.
    ///
    /// ```
    /// use lahzavar::{Car, Refusal};
    /// let address = [2, 0, 0, 0, 0, 1];
    /// assert!(Car::new(address, 26).is_ok());
    /// assert_eq!(Car::new(address, 256).err(), Some(Refusal::BadConfiguration));
    /// ```
    pub fn new(address: [u8; 6], reference: u32) -> Result<Car, Refusal> {
        assert!(library_fits(), "another version of the library is linked");
        let mut car = Car { words: [0; CAR_WORDS] };
        car.configure(address, reference)?;
        Ok(car)
    }

    /// Configures the car anew in its place: afterwards it is as [`Car::new`] gives it.
    ///
    /// # Errors
    ///
    /// Those of [`Car::new`]; the car then answers [`Refusal::BadConfiguration`] to everything.
    pub fn configure(&mut self, address: [u8; 6], reference: u32) -> Result<(), Refusal> {
        let address = number(&address);
        // SAFETY: the array is ours and of the library's length.
        let answered = unsafe { raw::lahzavar_configure_car(&mut self.words, address, reference) };
        accepted(answered.refusal)
    }

    /// Wipes the car, its key too; it answers [`Refusal::BadConfiguration`] to everything until it
    /// is configured again.
    ///
    /// ```
    /// use lahzavar::{Car, Refusal};
    /// let mut car = Car::new([2, 0, 0, 0, 0, 1], 0)?;
    /// car.wipe();
    /// assert_eq!(car.terminate(), Err(Refusal::BadConfiguration));
    /// # Ok::<(), Refusal>(())
    /// ```
    pub fn wipe(&mut self) {
        // SAFETY: the array is ours and of the library's length.
        unsafe { raw::lahzavar_wipe_car(&mut self.words) }
    }

    /// Starts a matching in Idle, at the clock's reading; the frame is `CM_SLAC_PARM.REQ`. The
    /// `RunID` and the octets of the sounds are random, and new at each start.
    ///
    /// # Errors
    ///
    /// [`Refusal::BadConfiguration`], [`Refusal::OutputTooShort`], or [`Refusal::WrongState`] where
    /// the car is not Idle; car and output are as they were.
    ///
    /// ```
    /// use lahzavar::{Car, CarState, Refusal, CAR_LEAST_OUTPUT};
    /// # let (run, random) = ([1, 2, 3, 4, 5, 6, 7, 8], [9; 16]);
    /// let mut car = Car::new([2, 0, 0, 0, 0, 1], 0)?;
    /// let mut out = [0; CAR_LEAST_OUTPUT];
    /// assert_eq!(car.start(run, random, 1000, &mut out)?.octets().len(), 60);
    /// assert_eq!(car.state(), CarState::Asking);
    /// assert_eq!(car.start(run, random, 1000, &mut out), Err(Refusal::WrongState));
    /// # Ok::<(), Refusal>(())
    /// ```
    pub fn start<'a>(
        &mut self,
        run: [u8; 8],
        random: [u8; 16],
        reading: u32,
        out: &'a mut [u8],
    ) -> Answer<'a> {
        let (run, (first, last)) = (number(&run), halves(&random));
        let (place, room) = (out.as_mut_ptr(), out.len());
        // SAFETY: the array is ours and of the library's length; the slice is lent whole, and a
        // `&mut` overlaps nothing else.
        let answered = unsafe {
            raw::lahzavar_start_car(&mut self.words, run, first, last, reading, place, room)
        };
        answer(&answered, out)
    }

    /// A frame from the modem, from its destination address on and without its check sequence.
    ///
    /// # Errors
    ///
    /// In this order: [`Refusal::BadConfiguration`], [`Refusal::OutputTooShort`], one from 1 to 6
    /// for octets that are no message, [`Refusal::OnlyForStations`], [`Refusal::NotForUs`],
    /// [`Refusal::WrongState`], [`Refusal::NoRecord`] for another run or station,
    /// [`Refusal::NoSounds`], [`Refusal::ReportsFull`]. Car and output are as they were.
    pub fn frame<'a>(&mut self, octets: &[u8], out: &'a mut [u8]) -> Answer<'a> {
        let (place, room) = (out.as_mut_ptr(), out.len());
        // SAFETY: as in `start`, and the octets are lent whole.
        let answered = unsafe {
            raw::lahzavar_frame_car(&mut self.words, octets.as_ptr(), octets.len(), place, room)
        };
        answer(&answered, out)
    }

    /// A reading of a free-running millisecond clock that wraps at 2^32: every 5 ms or less from the
    /// start until the key is given; less often is enough until the link is up.
    ///
    /// # Errors
    ///
    /// [`Refusal::BadConfiguration`], [`Refusal::OutputTooShort`] or [`Refusal::TickGap`]; car and
    /// output are as they were.
    ///
    /// ```
    /// use lahzavar::{Car, Refusal, CAR_LEAST_OUTPUT};
    /// let mut car = Car::new([2, 0, 0, 0, 0, 1], 0)?;
    /// let mut out = [0; CAR_LEAST_OUTPUT];
    /// assert!(car.tick(60_000, &mut out).is_ok());
    /// assert_eq!(car.tick(120_001, &mut out), Err(Refusal::TickGap));
    /// assert_eq!(car.tick(60_005, &mut []), Err(Refusal::OutputTooShort));
    /// # Ok::<(), Refusal>(())
    /// ```
    pub fn tick<'a>(&mut self, reading: u32, out: &'a mut [u8]) -> Answer<'a> {
        let (place, room) = (out.as_mut_ptr(), out.len());
        // SAFETY: as in `start`.
        let answered = unsafe { raw::lahzavar_tick_car(&mut self.words, reading, place, room) };
        answer(&answered, out)
    }

    /// The modem has a link in the station's network. There are no frames.
    ///
    /// # Errors
    ///
    /// [`Refusal::WrongState`] where no link is awaited, [`Refusal::BadConfiguration`] after a
    /// wipe.
    pub fn link_up(&mut self) -> Answer<'static> {
        // SAFETY: the array is ours and of the library's length.
        let answered = unsafe { raw::lahzavar_link_up_car(&mut self.words) };
        answer(&answered, &[])
    }

    /// Ends the matching or the link; a new matching begins with the next start. There are no
    /// frames.
    ///
    /// # Errors
    ///
    /// [`Refusal::BadConfiguration`] after a wipe.
    pub fn terminate(&mut self) -> Answer<'static> {
        // SAFETY: the array is ours and of the library's length.
        let answered = unsafe { raw::lahzavar_terminate_car(&mut self.words) };
        answer(&answered, &[])
    }

    /// The station that the car joins or has joined, its NID and its NMK.
    ///
    /// # Errors
    ///
    /// [`Refusal::WrongState`] where no key is given, [`Refusal::BadConfiguration`] after a wipe.
    pub fn key(&self) -> Result<Key, Refusal> {
        // SAFETY: the array is ours and of the library's length.
        let told = unsafe { raw::lahzavar_key_of_car(&self.words) };
        accepted(told.refusal)?;
        let [nid @ .., _] = told.nid.to_le_bytes();
        let nmk = u128::from(told.nmk_first) << 64 | u128::from(told.nmk_last);
        Ok(Key { station: octets::address(told.station), nid, nmk: nmk.to_be_bytes() })
    }

    /// The state; one that this wrapper does not know counts as Idle.
    #[must_use]
    pub fn state(&self) -> CarState {
        // SAFETY: the array is ours and of the library's length.
        let number = unsafe { raw::lahzavar_state_of_car(&self.words) };
        CarState::try_from(number).unwrap_or(CarState::Idle)
    }
}

impl Drop for Car {
    fn drop(&mut self) {
        self.wipe();
    }
}

/// Shows the state and not the key.
impl fmt::Debug for Car {
    fn fmt(&self, f: &mut fmt::Formatter) -> fmt::Result {
        f.debug_struct("Car").field("state", &self.state()).finish_non_exhaustive()
    }
}

#[cfg(test)]
mod tests {
    use super::{Car, CAR_WORDS};
    use crate::octets::after_drop;
    use core::ptr::addr_of;

    #[test]
    fn a_dropped_car_is_wiped() {
        let mut car = Car::new([2; 6], 0).unwrap();
        assert!(car.start([0x4B; 8], [0x4B; 16], 5, &mut [0; 85]).is_ok());
        assert!(car.words.contains(&0x4B4B_4B4B_4B4B_4B4B));
        // SAFETY: numbers stay numbers.
        let words = after_drop(car, |car| unsafe { addr_of!((*car).words).read_volatile() });
        assert_eq!(words, [0; CAR_WORDS]);
    }
}
