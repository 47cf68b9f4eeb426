//! Both ends of SLAC matching (ISO 15118-3), the charging station's and the car's: a safe wrapper
//! of the proved library. A station may be of the SAE edition (SAE J2931/4) instead; a car is of
//! the ISO one.
//!
//! A station's driver keeps one [`Station`] for each outlet and hands it every event: frames from
//! the modem, clock readings, pilot states, terminate and link up. A car's driver keeps one
//! [`Car`], starts it, and hands it frames, clock readings, terminate and link up. Every call comes
//! back, for any octets, any length and any number, with what is to be done or a [`Refusal`]; a
//! refused call changes neither station, car nor output, and a driver may well ignore it. The
//! functions of [`maps`] read and write amplitude maps, and say how far a map asks to lower the
//! power of each carrier.
//!
//! # The station
//!
//! ```
//! use lahzavar::{Configuration, Edition, Indication, Pilot, State, Station, LEAST_OUTPUT};
//!
//! let mut station = Station::new(&Configuration {
//!     address: [2, 0, 0, 0, 0, 0xAA],
//!     modem: [2, 0, 0, 0, 0, 0xBB],
//!     nid: [1, 2, 3, 4, 5, 6, 7],
//!     nmk: [0x4B; 16],
//!     validation_not_required: false,
//!     edition: Edition::Iso,
//!     carriers: 1155,
//! })?;
//! let mut out = [0; LEAST_OUTPUT];
//!
//! assert_eq!(station.pilot(Pilot::B, 1000)?.indication, None); // a car is plugged in
//! assert_eq!(station.state(), State::Matching);
//!
//! // A car's CM_SLAC_PARM.REQ, from 02:00:00:00:00:01.
//! let mut request = [0; 60];
//! request[..6].fill(0xFF);
//! request[6..12].copy_from_slice(&[2, 0, 0, 0, 0, 1]);
//! request[12..17].copy_from_slice(&[0x88, 0xE1, 0x01, 0x64, 0x60]);
//! request[21..29].copy_from_slice(&[1, 2, 3, 4, 5, 6, 7, 8]);
//!
//! let done = station.frame(&request, &mut out)?;
//! for reply in done.frames() {
//!     assert_eq!(reply[..6], [2, 0, 0, 0, 0, 1]); // hand it to the modem
//! }
//! if done.indication == Some(Indication::LinkEstablished) {
//!     // tell the charge controller
//! }
//! assert_eq!((done.frames().len(), done.octets().len()), (1, 60));
//! # Ok::<(), lahzavar::Refusal>(())
//! ```
//!
//! # The car
//!
//! ```
//! use lahzavar::{Car, CarState, Indication, CAR_LEAST_OUTPUT};
//!
//! let mut car = Car::new([2, 0, 0, 0, 0, 1], 0)?;
//! let mut out = [0; CAR_LEAST_OUTPUT];
//!
//! // In a car both are random, and new at each start.
//! let (run, random) = ([1, 2, 3, 4, 5, 6, 7, 8], [9; 16]);
//! for request in car.start(run, random, 1000, &mut out)?.frames() {
//!     assert_eq!(request[..6], [0xFF; 6]); // hand it to the modem: CM_SLAC_PARM.REQ
//! }
//! assert_eq!(car.state(), CarState::Asking);
//!
//! // Each frame from the modem goes to `car.frame`, and every 5 ms a reading to `car.tick`.
//! let done = car.tick(1005, &mut out)?;
//! match done.indication {
//!     Some(Indication::KeyGiven) => {
//!         let key = car.key()?; // hand its NID and NMK to the modem
//!     }
//!     Some(Indication::LinkEstablished) => {} // the answer to `car.link_up`
//!     Some(Indication::NoLink | Indication::NotFound) => {} // start again
//!     _ => assert_eq!(done.frames().len(), 0), // no station has answered yet
//! }
//! # Ok::<(), lahzavar::Refusal>(())
//! ```
//!
//! # Memory and threads
//!
//! The crate is `no_std`, has no dependencies and allocates nothing; no call blocks. A station is
//! about five kilobytes of its owner's memory, a car less than a third of one. Both are
//! [`Send`]: they may be handed to another thread. Their events take `&mut`, so that no two of them
//! run on one station or car at the same time; on two they may.
//!
//! # The key
//!
//! A [`Station`] and a [`Car`] are wiped when they are dropped, and so is the NMK of a
//! [`Configuration`] and of a [`Key`]; none of them is shown by `Debug`. Some copies are left to
//! the caller: the `CM_SLAC_MATCH.CNF` that stands in a station's output, or was received by a car,
//! holds the NMK, calls leave parts of it on the stack, and moving a station, a car or a key leaves
//! its octets in the place that it left. A program that minds the last gives its station or car a
//! place first and then configures it there, with [`Station::configure`] or [`Car::configure`].
//!
//! # Linking
//!
//! The library, `liblahzavar.a`, is built by `make`, or by `tools/proved lahzavar`, in the
//! repository's folder, which writes it to `target/staticlib`. From there this crate links it, or
//! from the folder that the environment variable `LAHZAVAR_LIB_DIR` names when the crate is built.
//! A relative folder is taken from where cargo was started, or else from this crate's own folder.
//! A project names it once in its `.cargo/config.toml`, there relative to the project:
//!
//! ```toml
//! [env]
//! LAHZAVAR_LIB_DIR = { value = "vendor/lahzavar/lib", relative = true }
//! ```

#![no_std]
#![deny(missing_docs, unsafe_op_in_unsafe_fn)]

mod answers;
mod car;
mod configuration;
mod inspection;
mod key;
pub mod maps;
mod numbers;
mod octets;
mod raw;
mod spread;
mod station;

pub use answers::{Answer, Done, Frames};
pub use car::Car;
pub use configuration::Configuration;
pub use inspection::Inspection;
pub use key::Key;
pub use numbers::{CarState, Edition, Indication, Pilot, Refusal, State, UnknownNumber};
pub use spread::Spread;
pub use station::Station;

/// The most cars that are in matching at once.
pub const RECORDS: usize = 16;
/// The most carrier groups of an attenuation profile; in the ISO edition each one has so many.
pub const GROUPS: usize = 58;
/// The most octets of a report, `CM_ATTEN_CHAR.IND`, which has 71 and one for each carrier group; in
/// the ISO edition each one has so many.
pub const REPORT_OCTETS: usize = REPORT_HEAD + GROUPS;
/// The octets of one confirmation: of a validation, `CM_VALIDATE.CNF`, or of an amplitude map,
/// `CM_AMP_MAP.CNF`.
pub const CONFIRMATION_OCTETS: usize = 60;
/// The most carriers of a modem, and of an amplitude map.
pub const CARRIERS: usize = 1155;
/// The most octets of a request with an amplitude map, `CM_AMP_MAP.REQ`: 21 and half an octet for
/// each carrier, 60 at least.
pub const MAP_OCTETS: usize = 21 + CARRIERS.div_ceil(2);
/// The least room that [`Station::frame`] and [`Station::tick`] ask for: a longest report to every
/// car.
pub const LEAST_OUTPUT: usize = REPORT_OCTETS * RECORDS;
/// The most stations whose reports a car keeps.
pub const STATIONS: usize = 10;
/// The least room that [`Car::start`], [`Car::frame`] and [`Car::tick`] ask for: a
/// `CM_SLAC_MATCH.REQ`.
pub const CAR_LEAST_OUTPUT: usize = 85;
/// The version of the library that this wrapper describes, 0.8.0: 65536 times its first number, 256
/// times its second, and its third.
pub const VERSION: u32 = 256 * 8;

/// The octets of a report before its values; the last of them is the group count.
const REPORT_HEAD: usize = 71;
const WORDS: usize = 15 + 10 * RECORDS;
const SUMS: usize = GROUPS * RECORDS;
const SPREAD: usize = 2 * GROUPS * RECORDS;
const CAR_WORDS: usize = 16 + 2 * STATIONS;

/// Whether the library is the one that this wrapper describes; [`Station::new`] and [`Car::new`]
/// ask this too.
///
/// ```
/// assert!(lahzavar::library_fits());
/// ```
#[must_use]
pub fn library_fits() -> bool {
    // SAFETY: these seven take nothing and give a number.
    unsafe {
        raw::lahzavar_version() == VERSION
            && raw::lahzavar_words() as usize == WORDS
            && raw::lahzavar_sums() as usize == SUMS
            && raw::lahzavar_spread() as usize == SPREAD
            && raw::lahzavar_least_output() as usize == LEAST_OUTPUT
            && raw::lahzavar_words_of_car() as usize == CAR_WORDS
            && raw::lahzavar_least_output_of_car() as usize == CAR_LEAST_OUTPUT
    }
}
