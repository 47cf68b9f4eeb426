//! The station.

use crate::answers::{accepted, answer};
use crate::octets::{address, halves, number};
use crate::raw::{self, Spreads, Sums, Words};
use crate::{library_fits, Answer, Configuration, Inspection, Pilot, Refusal, Spread, State};
use crate::{GROUPS, SPREAD, SUMS, WORDS};
use core::fmt;

/// A station: plain memory of its own, in which the NMK stands too. It is wiped on drop.
#[derive(Clone)]
pub struct Station {
    words: Words,
    sums: Sums,
    spread: Spreads,
}

impl Station {
    /// A station that is Unmatched, with the pilot at A and the clock reading 0.
    ///
    /// # Errors
    ///
    /// [`Refusal::BadConfiguration`] unless both addresses are unicast and differ, the NID is below
    /// 2^54 and the carriers are 1 to [`CARRIERS`](crate::CARRIERS).
    ///
    /// # Panics
    ///
    /// Where the linked library is not the one that this wrapper describes, since its stations may
    /// be larger.
    ///
    /// ```
    /// use lahzavar::{Configuration, Edition, Refusal, Station};
    /// let good = Configuration {
    ///     address: [2, 0, 0, 0, 0, 0xAA],
    ///     modem: [2, 0, 0, 0, 0, 0xBB],
    ///     nid: [0; 7],
    ///     nmk: [0; 16],
    ///     validation_not_required: false,
    ///     edition: Edition::Iso,
    ///     carriers: 1155,
    /// };
    /// assert!(Station::new(&good).is_ok());
    /// let bad = Configuration { modem: good.address, ..good };
    /// assert_eq!(Station::new(&bad).err(), Some(Refusal::BadConfiguration));
    /// ```
    pub fn new(configuration: &Configuration) -> Result<Station, Refusal> {
        assert!(library_fits(), "another version of the library is linked");
        let mut station = Station { words: [0; WORDS], sums: [0; SUMS], spread: [0; SPREAD] };
        station.configure(configuration)?;
        Ok(station)
    }

    /// Configures the station anew in its place, for the next plug-in: afterwards it is as
    /// [`Station::new`] gives it.
    ///
    /// # Errors
    ///
    /// Those of [`Station::new`]; the station then answers [`Refusal::BadConfiguration`] to
    /// everything.
    pub fn configure(&mut self, configuration: &Configuration) -> Result<(), Refusal> {
        let Configuration { address, modem, nid, nmk, validation_not_required, edition, carriers } =
            configuration;
        let (address, modem) = (number(address), number(modem));
        let nid = nid.iter().rev().fold(0, |number, octet| number << 8 | u64::from(*octet));
        let (first, last) = halves(nmk);
        let (exempt, edition) = (u32::from(*validation_not_required), u32::from(*edition));
        let Station { words, sums, spread } = self;
        // SAFETY: the arrays are ours and of the library's lengths.
        let answered = unsafe {
            raw::lahzavar_configure(
                words, sums, spread, address, modem, nid, first, last, exempt, edition, *carriers,
            )
        };
        accepted(answered.refusal)
    }

    /// Wipes the station, its NMK too; it answers [`Refusal::BadConfiguration`] to everything until
    /// it is configured again.
    ///
    /// ```
    /// use lahzavar::{Configuration, Refusal, Station};
    /// # let configuration = Configuration {
    /// #     address: [2, 0, 0, 0, 0, 0xAA],
    /// #     modem: [2, 0, 0, 0, 0, 0xBB],
    /// #     nid: [0; 7],
    /// #     nmk: [0; 16],
    /// #     validation_not_required: false,
    /// #     edition: lahzavar::Edition::Iso,
    /// #     carriers: 1155,
    /// # };
    /// let mut station = Station::new(&configuration)?;
    /// station.wipe();
    /// assert_eq!(station.terminate(), Err(Refusal::BadConfiguration));
    /// # Ok::<(), Refusal>(())
    /// ```
    pub fn wipe(&mut self) {
        // SAFETY: the arrays are ours and of the library's lengths.
        unsafe { raw::lahzavar_wipe(&mut self.words, &mut self.sums, &mut self.spread) }
    }

    /// A frame from the modem, from its destination address on and without its check sequence.
    ///
    /// A `CM_AMP_MAP.REQ` of the matched car with as many carriers as ours is answered by a
    /// `CM_AMP_MAP.CNF` for success, and changes nothing; [`maps::values`](crate::maps::values) takes
    /// its values out of the same frame.
    ///
    /// # Errors
    ///
    /// Any refusal from 1 to 17 but [`Refusal::TickGap`], or from 21 to 24; station and output are as
    /// they were.
    pub fn frame<'a>(&mut self, octets: &[u8], out: &'a mut [u8]) -> Answer<'a> {
        let Station { words, sums, spread } = self;
        // SAFETY: the arrays are ours and of the library's lengths; the slices are lent whole, and
        // a `&mut` overlaps nothing else.
        let answered = unsafe {
            raw::lahzavar_frame(
                words,
                sums,
                spread,
                octets.as_ptr(),
                octets.len(),
                out.as_mut_ptr(),
                out.len(),
            )
        };
        answer(&answered, out)
    }

    /// A reading of a free-running millisecond clock that wraps at 2^32: every 10 ms or less, since a
    /// frame happens at the last tick, and a first try in SAE has 200 ms alone. An ISO station may be
    /// told more seldom, but at least every 100 ms while a car validates.
    ///
    /// The frames are reports, of 71 octets and one for each carrier group, and behind them what a
    /// validation has come to, a `CM_VALIDATE.CNF` of
    /// [`CONFIRMATION_OCTETS`](crate::CONFIRMATION_OCTETS). A report has at most
    /// [`REPORT_OCTETS`](crate::REPORT_OCTETS), in the ISO edition always.
    ///
    /// # Errors
    ///
    /// [`Refusal::BadConfiguration`], [`Refusal::OutputTooShort`] or [`Refusal::TickGap`]; station
    /// and output are as they were.
    ///
    /// ```
    /// use lahzavar::{Configuration, Refusal, Station, LEAST_OUTPUT};
    /// # let configuration = Configuration {
    /// #     address: [2, 0, 0, 0, 0, 0xAA],
    /// #     modem: [2, 0, 0, 0, 0, 0xBB],
    /// #     nid: [0; 7],
    /// #     nmk: [0; 16],
    /// #     validation_not_required: false,
    /// #     edition: lahzavar::Edition::Iso,
    /// #     carriers: 1155,
    /// # };
    /// let mut station = Station::new(&configuration)?;
    /// let mut out = [0; LEAST_OUTPUT];
    /// assert!(station.tick(60_000, &mut out).is_ok());
    /// assert_eq!(station.tick(120_001, &mut out), Err(Refusal::TickGap));
    /// assert_eq!(station.tick(60_010, &mut []), Err(Refusal::OutputTooShort));
    /// # Ok::<(), Refusal>(())
    /// ```
    pub fn tick<'a>(&mut self, reading: u32, out: &'a mut [u8]) -> Answer<'a> {
        let Station { words, sums, spread } = self;
        // SAFETY: as in `frame`.
        let answered = unsafe {
            raw::lahzavar_tick(words, sums, spread, reading, out.as_mut_ptr(), out.len())
        };
        answer(&answered, out)
    }

    /// The control pilot's state with the clock's reading: at each change, also among B, C and D, at
    /// once and in the order of what else happens. There are no frames.
    ///
    /// While a car validates, the changes from B to C and back are counted that come before the tick
    /// which ends its time; the pilot has to be at B then.
    ///
    /// # Errors
    ///
    /// [`Refusal::BadConfiguration`] after a wipe.
    pub fn pilot(&mut self, pilot: Pilot, reading: u32) -> Answer<'static> {
        let Station { words, sums, spread } = self;
        // SAFETY: the arrays are ours and of the library's lengths.
        let answered = unsafe { raw::lahzavar_pilot(words, sums, spread, pilot.into(), reading) };
        answer(&answered, &[])
    }

    /// Ends the matching or the link; a new matching begins with the next plug-in. There are no
    /// frames.
    ///
    /// # Errors
    ///
    /// [`Refusal::BadConfiguration`] after a wipe.
    pub fn terminate(&mut self) -> Answer<'static> {
        let Station { words, sums, spread } = self;
        // SAFETY: the arrays are ours and of the library's lengths.
        let answered = unsafe { raw::lahzavar_terminate(words, sums, spread) };
        answer(&answered, &[])
    }

    /// The modem has a link in the station's network. There are no frames.
    ///
    /// # Errors
    ///
    /// [`Refusal::WrongState`] where no link is awaited, [`Refusal::BadConfiguration`] after a
    /// wipe.
    pub fn link_up(&mut self) -> Answer<'static> {
        let Station { words, sums, spread } = self;
        // SAFETY: the arrays are ours and of the library's lengths.
        let answered = unsafe { raw::lahzavar_link_up(words, sums, spread) };
        answer(&answered, &[])
    }

    /// The service query: how many sounds of a car's run were heard, and the least and the greatest
    /// value that each carrier group had in the profiles counted since the car's last
    /// `CM_SLAC_PARM.REQ`. In SAE both values are 0 for the groups that the profiles do not have.
    ///
    /// A match takes the records away: ask when the report is sent.
    ///
    /// # Errors
    ///
    /// [`Refusal::NoRecord`] where the car holds no record or its record counts no profile yet,
    /// [`Refusal::BadConfiguration`] after a wipe.
    ///
    /// ```
    /// use lahzavar::{Refusal, Station};
    ///
    /// /// The groups in which the values of a car lie more than 20 dB apart.
    /// fn noisy(station: &Station, car: [u8; 6]) -> Result<usize, Refusal> {
    ///     let spread = station.query(car)?;
    ///     let groups = spread.least.iter().zip(&spread.greatest);
    ///     Ok(groups.filter(|(least, greatest)| greatest.abs_diff(**least) > 20).count())
    /// }
    /// # let configuration = lahzavar::Configuration {
    /// #     address: [2, 0, 0, 0, 0, 0xAA],
    /// #     modem: [2, 0, 0, 0, 0, 0xBB],
    /// #     nid: [0; 7],
    /// #     nmk: [0; 16],
    /// #     validation_not_required: false,
    /// #     edition: lahzavar::Edition::Iso,
    /// #     carriers: 1155,
    /// # };
    ///
    /// let station = Station::new(&configuration)?;
    /// assert_eq!(noisy(&station, [2, 0, 0, 0, 0, 1]), Err(Refusal::NoRecord)); // no car has asked
    /// # Ok::<(), Refusal>(())
    /// ```
    pub fn query(&self, car: [u8; 6]) -> Result<Spread, Refusal> {
        let Station { words, sums, spread } = self;
        let (mut least, mut greatest) = ([0; GROUPS], [0; GROUPS]);
        // SAFETY: the arrays are ours and of the library's lengths.
        let heard = unsafe {
            raw::lahzavar_query(words, sums, spread, number(&car), &mut least, &mut greatest)
        };
        accepted(heard.refusal)?;
        Ok(Spread { sounds: heard.sounds, least, greatest })
    }

    /// The inspection: the state, and in Joining and Matched the car. It changes nothing.
    ///
    /// # Errors
    ///
    /// [`Refusal::BadConfiguration`] after a wipe.
    ///
    /// ```
    /// use lahzavar::{Configuration, Inspection, Pilot, Refusal, State, Station};
    /// # let configuration = Configuration {
    /// #     address: [2, 0, 0, 0, 0, 0xAA],
    /// #     modem: [2, 0, 0, 0, 0, 0xBB],
    /// #     nid: [0; 7],
    /// #     nmk: [0; 16],
    /// #     validation_not_required: false,
    /// #     edition: lahzavar::Edition::Iso,
    /// #     carriers: 1155,
    /// # };
    /// let mut station = Station::new(&configuration)?;
    /// assert!(station.pilot(Pilot::B, 1000).is_ok());
    /// assert_eq!(station.inspect(), Ok(Inspection { state: State::Matching, car: None }));
    /// station.wipe();
    /// assert_eq!(station.inspect(), Err(Refusal::BadConfiguration));
    /// # Ok::<(), Refusal>(())
    /// ```
    pub fn inspect(&self) -> Result<Inspection, Refusal> {
        // SAFETY: the array is ours and of the library's length.
        let told = unsafe { raw::lahzavar_inspect(&self.words) };
        accepted(told.refusal)?;
        let state = State::try_from(told.state).unwrap_or(State::Unmatched);
        let has_car = matches!(state, State::Joining | State::Matched);
        Ok(Inspection { state, car: has_car.then(|| address(told.car)) })
    }

    /// The state alone; Unmatched where the inspection is refused.
    #[must_use]
    pub fn state(&self) -> State {
        self.inspect().map_or(State::Unmatched, |told| told.state)
    }

    /// How many records cars hold.
    #[must_use]
    pub fn records_held(&self) -> usize {
        // SAFETY: the array is ours and of the library's length.
        unsafe { raw::lahzavar_records_held(&self.words) as usize }
    }
}

impl Drop for Station {
    fn drop(&mut self) {
        self.wipe();
    }
}

/// Shows the state and not the key.
impl fmt::Debug for Station {
    fn fmt(&self, f: &mut fmt::Formatter) -> fmt::Result {
        let mut shown = f.debug_struct("Station");
        shown.field("state", &self.state()).field("records_held", &self.records_held());
        shown.finish_non_exhaustive()
    }
}

#[cfg(test)]
mod tests {
    use super::{Configuration, Pilot, Station, SPREAD, SUMS, WORDS};
    use crate::octets::after_drop;
    use crate::Edition;
    use core::ptr::addr_of;

    #[test]
    fn a_dropped_station_is_wiped() {
        let configuration = Configuration {
            address: [2; 6],
            modem: [4; 6],
            nid: [6; 7],
            nmk: [0x4B; 16],
            validation_not_required: false,
            edition: Edition::Iso,
            carriers: 1155,
        };
        let mut station = Station::new(&configuration).unwrap();
        assert!(station.pilot(Pilot::B, 5).is_ok());
        assert!(station.words.contains(&0x4B4B_4B4B_4B4B_4B4B));
        // SAFETY: numbers stay numbers.
        let held = after_drop(station, |dropped| unsafe {
            (
                addr_of!((*dropped).words).read_volatile(),
                addr_of!((*dropped).sums).read_volatile(),
                addr_of!((*dropped).spread).read_volatile(),
            )
        });
        assert_eq!(held, ([0; WORDS], [0; SUMS], [0; SPREAD]));
    }
}
