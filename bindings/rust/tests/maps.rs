//! Amplitude maps against the library: both messages there and back, values, reductions, and each
//! refusal.

#[path = "../../../examples/rust/src/frames.rs"]
mod frames;

use frames::{Address, Car};
use lahzavar::maps::{self, Message};
use lahzavar::{Refusal, CARRIERS, CONFIRMATION_OCTETS, MAP_OCTETS};

const STATION: Address = [2, 0, 0, 0, 0, 0xAA];
const CAR: Car = Car { address: [2, 0, 0, 0, 0, 1], run: [0; 8] };
const COUNTS: [usize; 5] = [1, 2, 6, 1154, 1155];

/// Other values for each number of carriers.
fn some_values(carriers: usize) -> Vec<u8> {
    (0..).map(|at| ((7 * at + carriers) % 16).to_le_bytes()[0]).take(carriers).collect()
}

/// A refused call leaves the slice that it was lent, of so many places.
fn refused(
    room: usize,
    refusal: Refusal,
    call: impl for<'a> Fn(&'a mut [u8]) -> Result<&'a [u8], Refusal>,
) {
    let mut lent = vec![0xEE; room];
    assert_eq!(call(&mut lent), Err(refusal));
    assert_eq!(lent, vec![0xEE; room]);
}

/// An accepted call fills these places, and none behind them.
fn filled(expected: &[u8], call: impl for<'a> Fn(&'a mut [u8]) -> Result<&'a [u8], Refusal>) {
    let mut lent = vec![0xEE; expected.len() + 3];
    let start = lent.as_ptr();
    let places = call(&mut lent).unwrap();
    assert_eq!((places.as_ptr(), places), (start, expected));
    assert_eq!(lent[expected.len()..], [0xEE; 3]);
}

/// Neither reading takes a frame.
fn not_read(frame: &[u8], refusal: Refusal) {
    assert_eq!(maps::read(frame), Err(refusal));
    refused(CARRIERS, refusal, |lent| maps::values(frame, lent));
}

#[test]
fn requests_there_and_back() {
    assert_eq!((CARRIERS, MAP_OCTETS), (1155, 599));
    for carriers in COUNTS {
        let values = some_values(carriers);
        let frame = CAR.map_req(STATION, &values);
        assert_eq!(frame.len(), 60.max(21 + carriers.div_ceil(2)));
        filled(&frame, |lent| maps::request(STATION, CAR.address, &values, lent));
        refused(frame.len() - 1, Refusal::OutputTooShort, |lent| {
            maps::request(STATION, CAR.address, &values, lent)
        });
        let read = Message::Request { receiver: STATION, sender: CAR.address, carriers };
        assert_eq!(maps::read(&frame), Ok(read));
        assert_eq!(maps::read(&frame[..21 + carriers.div_ceil(2)]), Ok(read));
        filled(&values, |lent| maps::values(&frame, lent));
        refused(carriers - 1, Refusal::OutputTooShort, |lent| maps::values(&frame, lent));
        not_read(&frame[..20 + carriers.div_ceil(2)], Refusal::TooShort);
        not_read(&[&frame[..], &[0]].concat(), Refusal::TooLong);
    }
}

#[test]
fn confirmations_there_and_back() {
    for success in [true, false] {
        let frame = frames::map_cnf(CAR.address, STATION, u8::from(!success));
        assert_eq!(frame.len(), CONFIRMATION_OCTETS);
        filled(&frame, |lent| maps::confirm(CAR.address, STATION, success, lent));
        refused(CONFIRMATION_OCTETS - 1, Refusal::OutputTooShort, |lent| {
            maps::confirm(CAR.address, STATION, success, lent)
        });
        let read = Message::Confirmation { receiver: CAR.address, sender: STATION, success };
        assert_eq!((maps::read(&frame), maps::read(&frame[..20])), (Ok(read), Ok(read)));
        refused(CARRIERS, Refusal::UnknownType, |lent| maps::values(&frame, lent));
        not_read(&frame[..19], Refusal::TooShort);
    }
    not_read(&frames::map_cnf(CAR.address, STATION, 2), Refusal::BadOctet);
}

#[test]
fn refusals_of_reading() {
    let good = CAR.map_req(STATION, &[3; 6]);
    let with = |at: usize, octet: u8| {
        let mut frame = good.clone();
        frame[at] = octet;
        frame
    };
    not_read(&[], Refusal::TooShort);
    not_read(&with(12, 0)[..18], Refusal::TooShort);
    not_read(&with(12, 0), Refusal::BadHead);
    not_read(&with(15, 0x1E), Refusal::UnknownType);
    not_read(&CAR.parm_req(), Refusal::UnknownType);
    not_read(&with(19, 0)[..20], Refusal::TooShort);
    not_read(&with(19, 0)[..21], Refusal::BadOctet);
    not_read(&[&good[..19], &[0x84, 0x04]].concat(), Refusal::BadOctet);
    not_read(&[&good[..19], &[0x83, 0x04]].concat(), Refusal::TooShort);
    not_read(&with(6, 1), Refusal::BadAddress);
    not_read(&with(0, 0xFF), Refusal::BadAddress);
    not_read(&with(19, 5), Refusal::BadOctet);
    assert!(maps::read(&with(24, 1)).is_ok());
}

#[test]
fn refusals_of_writing() {
    let bad: [Address; 3] = [[0; 6], [0xFF; 6], [1, 0, 0, 0, 0, 0]];
    for address in bad {
        refused(0, Refusal::BadAddress, |lent| maps::request(address, STATION, &[], lent));
        refused(0, Refusal::BadAddress, |lent| maps::request(STATION, address, &[], lent));
        refused(0, Refusal::BadAddress, |lent| maps::confirm(address, STATION, true, lent));
        refused(60, Refusal::BadAddress, |lent| maps::confirm(STATION, address, false, lent));
    }
    for values in [&[][..], &[15; 1156], &[16], &[15, 15, 15, 255], &[255, 0]] {
        for room in [0, MAP_OCTETS] {
            refused(room, Refusal::BadOctet, |lent| {
                maps::request(STATION, CAR.address, values, lent)
            });
            refused(room, Refusal::BadOctet, |lent| maps::reduce(values, &[0; 3], lent));
        }
    }
}

#[test]
fn every_value_with_every_level() {
    for value in 0..=15 {
        for level in -128..=0 {
            let over = level + 50 + 2 * i16::from(value);
            let reduction = u8::try_from(over.max(0)).unwrap();
            filled(&[reduction], |lent| maps::reduce(&[value], &[level], lent));
        }
    }
    filled(&[0, 1, 0], |lent| maps::reduce(&[5, 5, 5], &[-60, -59, -61], lent));
    filled(&[3, 1, 0, 50], |lent| maps::reduce(&[14, 14, 0, 0], &[-75, -77, -50, 0], lent));
    filled(&[80, 0], |lent| maps::reduce(&[15, 15], &[0, -128], lent));
}

#[test]
fn each_carrier_has_its_own_reduction() {
    for carriers in COUNTS {
        let values = some_values(carriers);
        let levels: Vec<i16> = (0..129).map(|at| -at).cycle().take(carriers).collect();
        let reductions: Vec<u8> = values
            .iter()
            .zip(&levels)
            .map(|(value, level)| (level + 50 + 2 * i16::from(*value)).max(0).to_le_bytes()[0])
            .collect();
        filled(&reductions, |lent| maps::reduce(&values, &levels, lent));
        refused(carriers - 1, Refusal::OutputTooShort, |lent| maps::reduce(&values, &levels, lent));
    }
}

#[test]
fn refusals_of_reducing() {
    for level in [-129, 1, i16::MIN, i16::MAX, 128] {
        for levels in [[level, 0, 0], [0, level, 0], [0, 0, level]] {
            for room in [0, 3] {
                for values in [&[15; 2][..], &[15; 4]] {
                    refused(room, Refusal::OtherCarrierCount, |lent| {
                        maps::reduce(values, &levels, lent)
                    });
                }
                refused(room, Refusal::BadConfiguration, |lent| {
                    maps::reduce(&[15; 3], &levels, lent)
                });
            }
        }
    }
    refused(3, Refusal::OtherCarrierCount, |lent| maps::reduce(&[0; 3], &[], lent));
}
