//! Amplitude maps: the values of a request, and the reductions that they ask for ("Amplitude maps").

use crate::messages::{check_addresses, write_head};
use crate::messages::{Address, Body, Edition, Kind, Message, MOST_CARRIERS};
use crate::refusal::Refusal;

/// The highest value of a carrier, which has four bits.
const HIGHEST_VALUE: u8 = 15;
/// Own levels in dBm/Hz.
const LOWEST_LEVEL: i16 = -128;
const HIGHEST_LEVEL: i16 = 0;
/// A value asks for at most so much, less twice the value, in dBm/Hz.
const LIMIT: i16 = -50;

/// How many values there are, where none is over 15; else 6.
fn carriers(values: &[u8]) -> Result<u16, Refusal> {
    let carriers = u16::try_from(values.len()).map_err(|_| Refusal::Octet)?;
    let are_good = values.iter().all(|value| *value <= HIGHEST_VALUE);
    let is_good = (1..=MOST_CARRIERS).contains(&carriers) && are_good;
    is_good.then_some(carriers).ok_or(Refusal::Octet)
}

/// Writes a CM_AMP_MAP.REQ from the output's first octet and gives its length: "5, then n outside 1
/// to 1,155 or a value over 15 (6), then 15".
pub fn write(
    source: Address,
    destination: Address,
    values: &[u8],
    output: &mut [u8],
) -> Result<usize, Refusal> {
    let kind = Kind::AmpMapReq;
    check_addresses(kind, destination, source, source)?;
    let carriers = carriers(values)?;
    let length = kind.written_with(carriers);
    let frame = output.get_mut(..length).ok_or(Refusal::Output)?;
    write_head(kind, destination, source, frame);
    frame[19..21].copy_from_slice(&carriers.to_le_bytes());
    // The earlier carrier of two has the low half.
    for (octet, pair) in frame[21..].iter_mut().zip(values.chunks(2)) {
        *octet = pair[0] | pair.get(1).copied().unwrap_or(0) << 4;
    }
    Ok(length)
}

/// The values of a CM_AMP_MAP.REQ, one to an octet from the output's first place, and how many they
/// are: reading's refusals, then 15 where the output is shorter.
pub fn values(frame: &[u8], output: &mut [u8]) -> Result<usize, Refusal> {
    let Body::AmpMapReq { carriers } = Message::read(frame, Edition::Iso)?.body else {
        return Err(Refusal::Type);
    };
    let carriers = usize::from(carriers);
    let values = output.get_mut(..carriers).ok_or(Refusal::Output)?;
    for (carrier, value) in values.iter_mut().enumerate() {
        let octet = frame[21 + carrier / 2];
        *value = if carrier % 2 == 0 { octet & 0x0F } else { octet >> 4 };
    }
    Ok(carriers)
}

/// The reduction on each carrier, an octet each from the output's first place, and how many they
/// are: own level less the limit that the value asks for, where that is positive, else 0. Refusals:
/// "a count of values outside 1 to 1,155 or a value over 15 (6), not as many levels (24), a level
/// outside -128 to 0 (16), the slice too short (15)".
pub fn reduce(values: &[u8], levels: &[i16], output: &mut [u8]) -> Result<usize, Refusal> {
    let carriers = usize::from(carriers(values)?);
    if levels.len() != carriers {
        return Err(Refusal::Carriers);
    }
    if levels.iter().any(|level| !(LOWEST_LEVEL..=HIGHEST_LEVEL).contains(level)) {
        return Err(Refusal::Configuration);
    }
    let reductions = output.get_mut(..carriers).ok_or(Refusal::Output)?;
    for (reduction, (value, level)) in reductions.iter_mut().zip(values.iter().zip(levels)) {
        let limit = LIMIT - 2 * i16::from(*value);
        *reduction = u8::try_from(level - limit).unwrap_or(0);
    }
    Ok(carriers)
}
