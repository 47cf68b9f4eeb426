//! The frames that a modem hands to its station, and the addresses of the park.

use crate::frames::Address;
use lahzavar::GROUPS;

/// Whose address it is; the last octet of an address is the bay.
#[derive(Clone, Copy, Debug, PartialEq, Eq)]
pub enum Side {
    Car = 1,
    Station = 2,
    Modem = 3,
}

pub fn address(side: Side, bay: usize) -> Address {
    let [bay, ..] = bay.to_le_bytes();
    [2, 0, 0, 0, side as u8, bay]
}

/// The bay of an address, where it is of that side.
pub fn bay_of(address: Option<Address>, side: Side) -> Option<usize> {
    let found = address?;
    let bay = usize::from(found[5]);
    (found == self::address(side, bay)).then_some(bay)
}

/// `CM_ATTEN_PROFILE.IND`: what the modem of a bay has measured of a car's sound.
pub fn profile(station: usize, car: usize, values: &[u8; GROUPS]) -> Vec<u8> {
    let (to, from) = (address(Side::Station, station), address(Side::Modem, station));
    let head = [&to[..], &from, &[0x88, 0xE1, 0x01, 0x86, 0x60, 0, 0]].concat();
    let named = address(Side::Car, car);
    let [count, ..] = GROUPS.to_le_bytes();
    [&head[..], &named, &[count, 0], values].concat()
}
