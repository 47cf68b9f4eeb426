//! The frames that cars and the modem send to a station; a driver needs none of this.

#![allow(dead_code, reason = "each program uses a part of it")]

use lahzavar::GROUPS;

pub type Address = [u8; 6];

pub const PARM_CNF: u16 = 0x6065;
pub const ATTEN_CHAR_IND: u16 = 0x606E;
pub const SOUND_IND: u16 = 0x6076;
pub const VALIDATE_CNF: u16 = 0x6079;
pub const MATCH_CNF: u16 = 0x607D;
const MAP_REQ: u16 = 0x601C;
const MAP_CNF: u16 = 0x601D;

pub const BROADCAST: Address = [0xFF; 6];
const HEAD: usize = 19;
const LEAST: usize = 60;

/// One car: its address and the run number of its matching run.
#[derive(Clone, Copy)]
pub struct Car {
    pub address: Address,
    pub run: [u8; 8],
}

/// The message type of a frame, or 0 where it has none.
pub fn message_type(frame: &[u8]) -> u16 {
    match frame {
        [_, _, _, _, _, _, _, _, _, _, _, _, _, _, _, low, high, ..] => {
            u16::from_le_bytes([*low, *high])
        }
        _ => 0,
    }
}

/// A frame, zero padded.
fn frame(to: Address, from: Address, kind: u16, payload: &[&[u8]]) -> Vec<u8> {
    let head = [&to[..], &from, &[0x88, 0xE1, 0x01], &kind.to_le_bytes(), &[0, 0]].concat();
    let mut frame = [head, payload.concat()].concat();
    assert!(frame.len() >= HEAD);
    frame.resize(frame.len().max(LEAST), 0);
    frame
}

/// What the modem measured of one sound of a car, the same value in every group.
pub fn profile(modem: Address, station: Address, car: Address, value: u8) -> Vec<u8> {
    profile_of(modem, station, car, &[value; GROUPS])
}

/// The same with a value for each group: 58 in the ISO edition, 1 to 58 in the SAE edition.
pub fn profile_of(modem: Address, station: Address, car: Address, values: &[u8]) -> Vec<u8> {
    let [count, ..] = values.len().to_le_bytes();
    frame(station, modem, 0x6086, &[&car, &[count, 0], values])
}

/// What a station answers to an amplitude map: 0 for success, 1 for failure.
pub fn map_cnf(car: Address, station: Address, result: u8) -> Vec<u8> {
    frame(car, station, MAP_CNF, &[&[result]])
}

/// The group values of a report, `CM_ATTEN_CHAR.IND`, of 58 groups; none of any other frame.
pub fn reported(frame: &[u8]) -> Option<[u8; GROUPS]> {
    let payload = frame.get(HEAD..).filter(|_| message_type(frame) == ATTEN_CHAR_IND)?;
    payload.get(52..52 + GROUPS)?.try_into().ok()
}

impl Car {
    pub fn parm_req(&self) -> Vec<u8> {
        frame(BROADCAST, self.address, 0x6064, &[&[0; 2], &self.run])
    }

    pub fn start(&self) -> Vec<u8> {
        let payload: &[&[u8]] = &[&[0, 0, 0x0A, 0x06, 0x01], &self.address, &self.run];
        frame(BROADCAST, self.address, 0x606A, payload)
    }

    /// The start of the SAE edition, with the values of the first try or of a later one.
    pub fn sae_start(&self, later: bool) -> Vec<u8> {
        let values = if later { [0x10, 0x0A, 0] } else { [0x08, 0x02, 0] };
        frame(BROADCAST, self.address, 0x606A, &[&[0; 2], &values, &[0; 6], &self.run])
    }

    pub fn sound(&self, count: u8) -> Vec<u8> {
        let payload: &[&[u8]] = &[&[0; 19], &[count], &self.run, &[0; 8], &[count; 16]];
        frame(BROADCAST, self.address, SOUND_IND, payload)
    }

    pub fn rsp(&self, station: Address) -> Vec<u8> {
        let payload: &[&[u8]] = &[&[0; 2], &self.address, &self.run, &[0; 35]];
        frame(station, self.address, 0x606F, payload)
    }

    /// The first request of a validation, to its station, with the timer 0, or the second one, to
    /// all: the station then counts for 100 ms times the timer and one more.
    pub fn validate_req(&self, to: Address, timer: u8) -> Vec<u8> {
        frame(to, self.address, 0x6078, &[&[0, timer, 1]])
    }

    pub fn match_req(&self, station: Address) -> Vec<u8> {
        let ids: [&[u8]; 4] = [&[0; 17], &self.address, &[0; 17], &station];
        let payload = [&[0, 0, 0x3E, 0][..], &ids.concat(), &self.run, &[0; 8]];
        frame(station, self.address, 0x607C, &payload)
    }

    /// The amplitude map of a car, with a value for each carrier.
    pub fn map_req(&self, station: Address, values: &[u8]) -> Vec<u8> {
        let [low, high, ..] = values.len().to_le_bytes();
        let pair = |pair: &[u8]| pair.iter().rev().fold(0, |octet, value| octet << 4 | value);
        let octets: Vec<u8> = values.chunks(2).map(pair).collect();
        frame(station, self.address, MAP_REQ, &[&[low, high], &octets])
    }
}
