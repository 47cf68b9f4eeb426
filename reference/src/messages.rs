//! The thirteen messages in both editions: frames read and written ("Frame head and sizes",
//! "Payload octets", "The SAE edition", "Amplitude maps").

use crate::refusal::Refusal;
use std::fmt;

/// An Ethernet address.
#[derive(Clone, Copy, Debug, PartialEq, Eq)]
pub struct Address(pub [u8; 6]);

/// The RunID of one matching run.
#[derive(Clone, Copy, Debug, PartialEq, Eq)]
pub struct RunId(pub [u8; 8]);

/// The network ID, low octet first.
#[derive(Clone, Copy, Debug, PartialEq, Eq)]
pub struct Nid(pub [u8; 7]);

/// The network membership key.
#[derive(Clone, Copy, Debug, PartialEq, Eq)]
pub struct Nmk(pub [u8; 16]);

/// How many carrier groups there are at most; in the ISO edition always.
pub const MOST_GROUPS: u8 = 58;

/// How many carriers an amplitude map has at most.
pub const MOST_CARRIERS: u16 = 1_155;

/// One value for each of the 58 carrier groups of an ATTEN_PROFILE.
pub type Groups = [u8; MOST_GROUPS as usize];

/// An identifier: SENDER_ID, SOURCE_ID, RESP_ID, or one of the two IDs of a match message. Zeros in
/// the ISO edition.
pub type Id = [u8; 17];

/// An identifier of zeros.
pub const NO_ID: Id = [0; 17];

/// By which standard the messages are laid out.
#[derive(Clone, Copy, Debug, PartialEq, Eq)]
pub enum Edition {
    Iso,
    Sae,
}

/// The try that a PARM.CNF or START belongs to: ISO's only one, or one of the SAE edition's two.
#[derive(Clone, Copy, Debug, PartialEq, Eq)]
pub enum Try {
    Iso,
    First,
    Later,
}

impl Try {
    /// NUM_SOUNDS, TIME_OUT and RESP_TYPE.
    pub const fn octets(self) -> [u8; 3] {
        match self {
            Try::Iso => [0x0A, 0x06, 0x01],
            Try::First => [0x08, 0x02, 0x00],
            Try::Later => [0x10, 0x0A, 0x00],
        }
    }

    /// How many sounds there are.
    pub const fn sounds(self) -> u8 {
        self.octets()[0]
    }

    /// TIME_OUT in milliseconds.
    pub const fn time(self) -> u32 {
        100 * self.octets()[1] as u32
    }

    /// The edition that has this try.
    pub fn edition(self) -> Edition {
        match self {
            Try::Iso => Edition::Iso,
            Try::First | Try::Later => Edition::Sae,
        }
    }

    /// The edition's try with these octets.
    fn of(edition: Edition, octets: &[u8]) -> Option<Try> {
        let tries = [Try::Iso, Try::First, Try::Later];
        let mut tries = tries.into_iter().filter(|own| own.edition() == edition);
        tries.find(|own| own.octets() == octets)
    }
}

impl Address {
    pub const BROADCAST: Address = Address([0xFF; 6]);

    /// "A unicast address has an even first octet and isn't all zero."
    pub fn is_unicast(self) -> bool {
        self.0[0].is_multiple_of(2) && self.0 != [0; 6]
    }
}

impl fmt::Display for Address {
    fn fmt(&self, f: &mut fmt::Formatter) -> fmt::Result {
        let text = self.0.map(|octet| format!("{octet:02X}")).join(":");
        f.pad(&text)
    }
}

impl RunId {
    /// Eight zero octets.
    pub fn is_empty(self) -> bool {
        self.0 == [0; 8]
    }
}

impl Nid {
    /// Below 2^54: the last octet is at most 3F.
    pub fn is_valid(self) -> bool {
        self.0[6] <= 0x3F
    }
}

/// A row of the table of messages.
#[derive(Clone, Copy, Debug, PartialEq, Eq)]
pub enum Kind {
    ParmReq,
    ParmCnf,
    StartAttenChar,
    AttenChar,
    AttenCharRsp,
    MnbcSound,
    ValidateReq,
    ValidateCnf,
    MatchReq,
    MatchCnf,
    AttenProfile,
    AmpMapReq,
    AmpMapCnf,
}

/// To whom a message goes.
#[derive(Clone, Copy, Debug, PartialEq, Eq)]
pub enum Destination {
    Broadcast,
    Unicast,
    Either,
}

impl Destination {
    /// Whether the address is of this kind.
    pub fn allows(self, to: Address) -> bool {
        match self {
            Destination::Broadcast => to == Address::BROADCAST,
            Destination::Unicast => to.is_unicast(),
            Destination::Either => to == Address::BROADCAST || to.is_unicast(),
        }
    }
}

impl Kind {
    pub const ALL: [Kind; 13] = [
        Kind::ParmReq,
        Kind::ParmCnf,
        Kind::StartAttenChar,
        Kind::AttenChar,
        Kind::AttenCharRsp,
        Kind::MnbcSound,
        Kind::ValidateReq,
        Kind::ValidateCnf,
        Kind::MatchReq,
        Kind::MatchCnf,
        Kind::AttenProfile,
        Kind::AmpMapReq,
        Kind::AmpMapCnf,
    ];

    /// Name, type, payload length without groups or carriers, and destination.
    fn row(self) -> (&'static str, u16, usize, Destination) {
        use Destination::{Broadcast, Either, Unicast};
        match self {
            Kind::ParmReq => ("CM_SLAC_PARM.REQ", 0x6064, 10, Broadcast),
            Kind::ParmCnf => ("CM_SLAC_PARM.CNF", 0x6065, 25, Unicast),
            Kind::StartAttenChar => ("CM_START_ATTEN_CHAR.IND", 0x606A, 19, Broadcast),
            Kind::AttenChar => ("CM_ATTEN_CHAR.IND", 0x606E, 52, Unicast),
            Kind::AttenCharRsp => ("CM_ATTEN_CHAR.RSP", 0x606F, 51, Unicast),
            Kind::MnbcSound => ("CM_MNBC_SOUND.IND", 0x6076, 52, Broadcast),
            Kind::ValidateReq => ("CM_VALIDATE.REQ", 0x6078, 3, Either),
            Kind::ValidateCnf => ("CM_VALIDATE.CNF", 0x6079, 3, Unicast),
            Kind::MatchReq => ("CM_SLAC_MATCH.REQ", 0x607C, 66, Unicast),
            Kind::MatchCnf => ("CM_SLAC_MATCH.CNF", 0x607D, 90, Unicast),
            Kind::AttenProfile => ("CM_ATTEN_PROFILE.IND", 0x6086, 8, Unicast),
            Kind::AmpMapReq => ("CM_AMP_MAP.REQ", 0x601C, 2, Unicast),
            Kind::AmpMapCnf => ("CM_AMP_MAP.CNF", 0x601D, 1, Unicast),
        }
    }

    pub fn name(self) -> &'static str {
        self.row().0
    }

    pub fn type_number(self) -> u16 {
        self.row().1
    }

    /// Where in the frame the group count stands.
    pub fn count_place(self) -> Option<usize> {
        match self {
            Kind::AttenChar => Some(19 + 51),
            Kind::AttenProfile => Some(19 + 6),
            _ => None,
        }
    }

    /// Head and payload with so many groups or carriers, where there are any.
    pub fn shortest_with(self, count: u16) -> usize {
        let more = match self {
            Kind::AttenChar | Kind::AttenProfile => count,
            Kind::AmpMapReq => count.div_ceil(2),
            _ => 0,
        };
        19 + self.row().2 + usize::from(more)
    }

    /// Head and payload with all groups or one carrier, where there are any.
    pub fn shortest(self) -> usize {
        self.shortest_with(if self == Kind::AmpMapReq { 1 } else { MOST_GROUPS.into() })
    }

    /// "A written frame is the larger of 60 and 19 + payload long": the most that is read.
    pub fn written_with(self, count: u16) -> usize {
        self.shortest_with(count).max(60)
    }

    pub fn destination(self) -> Destination {
        self.row().3
    }

    /// The payload's octets that the ISO tables call RSVD, from a place up to another: "not looked
    /// at when read", and "zero when written".
    pub fn reserved(self) -> &'static [(usize, usize)] {
        match self {
            Kind::MnbcSound => &[(28, 36)],
            Kind::MatchReq => &[(58, 66)],
            Kind::MatchCnf => &[(58, 66), (73, 74)],
            Kind::AttenProfile => &[(7, 8)],
            _ => &[],
        }
    }

    /// The message that the octets' type names, whatever else they hold.
    pub fn of(frame: &[u8]) -> Option<Kind> {
        let number = u16::from_le_bytes([*frame.get(15)?, *frame.get(16)?]);
        Kind::ALL.into_iter().find(|kind| kind.type_number() == number)
    }
}

/// What a message says, apart from who sends it to whom. A group count goes with 58 values, zeros
/// past the count.
#[derive(Clone, Copy, Debug, PartialEq, Eq)]
pub enum Body {
    ParmReq {
        run: RunId,
    },
    ParmCnf {
        run: RunId,
        attempt: Try,
    },
    StartAttenChar {
        run: RunId,
        attempt: Try,
    },
    AttenChar {
        run: RunId,
        sounds: u8,
        count: u8,
        groups: Groups,
        source_id: Id,
        resp_id: Id,
    },
    AttenCharRsp {
        run: RunId,
        source_id: Id,
        resp_id: Id,
    },
    MnbcSound {
        run: RunId,
        count: u8,
        random: [u8; 16],
        sender_id: Id,
    },
    /// To a station the first request, with the timer 0; to all the second.
    ValidateReq {
        timer: u8,
    },
    ValidateCnf {
        toggles: u8,
        result: u8,
    },
    MatchReq {
        run: RunId,
        car_id: Id,
        station_id: Id,
    },
    MatchCnf {
        run: RunId,
        nid: Nid,
        nmk: Nmk,
        car_id: Id,
        station_id: Id,
    },
    AttenProfile {
        car: Address,
        count: u8,
        groups: Groups,
    },
    /// Its values are not part of it: `amplitude` reads and writes them.
    AmpMapReq {
        carriers: u16,
    },
    AmpMapCnf {
        result: u8,
    },
}

#[derive(Clone, Copy, Debug, PartialEq, Eq)]
pub struct Message {
    pub destination: Address,
    pub source: Address,
    pub body: Body,
}

/// The results of a CM_AMP_MAP.CNF.
pub const MAP_SUCCESS: u8 = 0;
pub const MAP_FAILURE: u8 = 1;

/// The results of a CM_VALIDATE.CNF, by their numbers.
pub const RESULTS: [&str; 5] = ["not ready", "ready", "success", "failure", "not required"];
pub const READY: u8 = 1;
pub const SUCCESS: u8 = 2;
pub const FAILURE: u8 = 3;
pub const NOT_REQUIRED: u8 = 4;

impl Body {
    /// A START of the ISO edition.
    pub const fn start(run: RunId) -> Body {
        Body::StartAttenChar { run, attempt: Try::Iso }
    }

    /// A sound without a SENDER_ID.
    pub const fn sound(run: RunId, count: u8, random: [u8; 16]) -> Body {
        Body::MnbcSound { run, count, random, sender_id: NO_ID }
    }

    /// A profile of all groups.
    pub const fn profile(car: Address, groups: Groups) -> Body {
        Body::AttenProfile { car, count: MOST_GROUPS, groups }
    }

    /// A report of all groups without IDs.
    pub const fn report(run: RunId, sounds: u8, groups: Groups) -> Body {
        let (source_id, resp_id) = (NO_ID, NO_ID);
        Body::AttenChar { run, sounds, count: MOST_GROUPS, groups, source_id, resp_id }
    }

    /// A response to a report, without IDs.
    pub const fn response(run: RunId) -> Body {
        Body::AttenCharRsp { run, source_id: NO_ID, resp_id: NO_ID }
    }

    /// A match request without IDs.
    pub const fn match_req(run: RunId) -> Body {
        Body::MatchReq { run, car_id: NO_ID, station_id: NO_ID }
    }

    /// A match confirmation without IDs.
    pub const fn match_cnf(run: RunId, nid: Nid, nmk: Nmk) -> Body {
        Body::MatchCnf { run, nid, nmk, car_id: NO_ID, station_id: NO_ID }
    }

    /// How many groups or carriers the message has.
    pub fn count(&self) -> u16 {
        match self {
            Body::AttenChar { count, .. } | Body::AttenProfile { count, .. } => (*count).into(),
            Body::AmpMapReq { carriers } => *carriers,
            _ => 0,
        }
    }

    pub fn send(self, source: Address, destination: Address) -> Message {
        Message { destination, source, body: self }
    }

    pub fn broadcast(self, source: Address) -> Message {
        self.send(source, Address::BROADCAST)
    }

    pub fn kind(&self) -> Kind {
        match self {
            Body::ParmReq { .. } => Kind::ParmReq,
            Body::ParmCnf { .. } => Kind::ParmCnf,
            Body::StartAttenChar { .. } => Kind::StartAttenChar,
            Body::AttenChar { .. } => Kind::AttenChar,
            Body::AttenCharRsp { .. } => Kind::AttenCharRsp,
            Body::MnbcSound { .. } => Kind::MnbcSound,
            Body::ValidateReq { .. } => Kind::ValidateReq,
            Body::ValidateCnf { .. } => Kind::ValidateCnf,
            Body::MatchReq { .. } => Kind::MatchReq,
            Body::MatchCnf { .. } => Kind::MatchCnf,
            Body::AttenProfile { .. } => Kind::AttenProfile,
            Body::AmpMapReq { .. } => Kind::AmpMapReq,
            Body::AmpMapCnf { .. } => Kind::AmpMapCnf,
        }
    }

    /// What the payload's free octets say.
    fn found(kind: Kind, edition: Edition, payload: &[u8]) -> Option<Body> {
        let run = |at| octets(payload, at).map(RunId);
        let octet = |at| payload.get(at).copied();
        let id = |at| octets::<17>(payload, at);
        let attempt = |at: usize| Try::of(edition, payload.get(at..at + 3)?);
        let groups = |at: usize, count: u8| {
            let mut groups = [0; MOST_GROUPS as usize];
            let values = payload.get(at..at + usize::from(count))?;
            groups.get_mut(..values.len())?.copy_from_slice(values);
            Some(groups)
        };
        Some(match kind {
            Kind::ParmReq => Body::ParmReq { run: run(2)? },
            Kind::ParmCnf => Body::ParmCnf { run: run(17)?, attempt: attempt(6)? },
            Kind::StartAttenChar => Body::StartAttenChar { run: run(11)?, attempt: attempt(2)? },
            Kind::AttenChar => {
                let count = octet(51)?;
                Body::AttenChar {
                    run: run(8)?,
                    sounds: octet(50)?,
                    count,
                    groups: groups(52, count)?,
                    source_id: id(16)?,
                    resp_id: id(33)?,
                }
            }
            Kind::AttenCharRsp => {
                Body::AttenCharRsp { run: run(8)?, source_id: id(16)?, resp_id: id(33)? }
            }
            Kind::MnbcSound => Body::MnbcSound {
                run: run(20)?,
                count: octet(19)?,
                random: octets(payload, 36)?,
                sender_id: id(2)?,
            },
            Kind::ValidateReq => Body::ValidateReq { timer: octet(1)? },
            Kind::ValidateCnf => Body::ValidateCnf { toggles: octet(1)?, result: octet(2)? },
            Kind::MatchReq => Body::MatchReq { run: run(50)?, car_id: id(4)?, station_id: id(27)? },
            Kind::MatchCnf => Body::MatchCnf {
                run: run(50)?,
                nid: Nid(octets(payload, 66)?),
                nmk: Nmk(octets(payload, 74)?),
                car_id: id(4)?,
                station_id: id(27)?,
            },
            Kind::AttenProfile => {
                let (car, count) = (Address(octets(payload, 0)?), octet(6)?);
                Body::AttenProfile { car, count, groups: groups(8, count)? }
            }
            Kind::AmpMapReq => {
                Body::AmpMapReq { carriers: u16::from_le_bytes(octets(payload, 0)?) }
            }
            Kind::AmpMapCnf => Body::AmpMapCnf { result: octet(0)? },
        })
    }
}

impl Message {
    /// The car that the frame names; none in a message that only a car receives.
    pub fn car(&self) -> Option<Address> {
        match self.body {
            Body::AttenProfile { car, .. } => Some(car),
            Body::ParmCnf { .. }
            | Body::AttenChar { .. }
            | Body::ValidateCnf { .. }
            | Body::MatchCnf { .. }
            | Body::AmpMapCnf { .. } => None,
            _ => Some(self.source),
        }
    }

    /// "Reading order: under 19 (1), 2, 3, payload short (1), 4, 5, 6." In the SAE edition a message
    /// with groups ends before the count (1) or has a wrong one (6) before its payload is short; so
    /// does an amplitude map in both.
    pub fn read(frame: &[u8], edition: Edition) -> Result<Message, Refusal> {
        let (head, payload) = frame.split_first_chunk::<19>().ok_or(Refusal::Short)?;
        if head[12..15] != [0x88, 0xE1, 0x01] || head[17..] != [0, 0] {
            return Err(Refusal::Head);
        }
        let kind = Kind::of(head).ok_or(Refusal::Type)?;
        let count = count(kind, edition, frame)?;
        if frame.len() < kind.shortest_with(count) {
            return Err(Refusal::Short);
        }
        if frame.len() > kind.written_with(count) {
            return Err(Refusal::Long);
        }
        let address = |at| octets(frame, at).map(Address).ok_or(Refusal::Short);
        let (to, from) = (address(0)?, address(6)?);
        let car = if kind == Kind::AttenProfile { address(19)? } else { from };
        check_addresses(kind, to, from, car)?;
        if !is_fixed(kind, edition, payload, &to.0, &from.0) {
            return Err(Refusal::Octet);
        }
        let body = Body::found(kind, edition, payload).ok_or(Refusal::Octet)?;
        Ok(body.send(from, to))
    }

    /// A frame of either edition.
    pub fn read_any(frame: &[u8]) -> Result<Message, Refusal> {
        Message::read(frame, Edition::Iso).or_else(|_| Message::read(frame, Edition::Sae))
    }

    /// The written frames of either edition that stand back to back, up to one that cannot be
    /// read, and how many octets are left.
    pub fn read_all(mut octets: &[u8]) -> (Vec<Message>, usize) {
        let mut messages = Vec::new();
        let next = |octets: &[u8]| {
            let kind = Kind::of(octets)?;
            let length = kind.written_with(count(kind, Edition::Sae, octets).ok()?);
            Some((Message::read_any(octets.get(..length)?).ok()?, length))
        };
        while let Some((message, length)) = next(octets) {
            messages.push(message);
            octets = &octets[length..];
        }
        (messages, octets.len())
    }

    /// The written frame, zero padded; "Writing: 5, 6".
    pub fn to_frame(self, edition: Edition) -> Result<Vec<u8>, Refusal> {
        let mut frame = vec![0; 19 + 110];
        let length = self.write(edition, &mut frame)?;
        frame.truncate(length);
        Ok(frame)
    }

    /// Writes the frame from the output's first octet and gives its length: "5, 6, then 15".
    pub fn write(&self, edition: Edition, output: &mut [u8]) -> Result<usize, Refusal> {
        let Message { destination, source, body } = self;
        let kind = body.kind();
        check_addresses(kind, *destination, *source, self.car().unwrap_or(*source))?;
        if !is_limited(body, edition, *destination) {
            return Err(Refusal::Octet);
        }
        let length = kind.written_with(body.count());
        let frame = output.get_mut(..length).ok_or(Refusal::Output)?;
        write_head(kind, *destination, *source, frame);
        write_payload(body, &mut frame[19..], &destination.0, &source.0);
        Ok(length)
    }
}

/// Writes the head of a frame, and zeros behind it.
pub fn write_head(kind: Kind, destination: Address, source: Address, frame: &mut [u8]) {
    frame.fill(0);
    frame[..6].copy_from_slice(&destination.0);
    frame[6..12].copy_from_slice(&source.0);
    frame[12..15].copy_from_slice(&[0x88, 0xE1, 0x01]);
    frame[15..17].copy_from_slice(&kind.type_number().to_le_bytes());
}

/// Whether a group count is one of 1 to 58.
fn is_count(count: u8) -> bool {
    (1..=MOST_GROUPS).contains(&count)
}

/// How many groups or carriers the frame of a message has, where its length goes by them: 1 where it
/// ends before the count, 6 where the count is out of range.
fn count(kind: Kind, edition: Edition, frame: &[u8]) -> Result<u16, Refusal> {
    let (count, most) = match (kind, kind.count_place(), edition) {
        (Kind::AmpMapReq, ..) => {
            let carriers = octets(frame, 19).ok_or(Refusal::Short)?;
            (u16::from_le_bytes(carriers), MOST_CARRIERS)
        }
        (_, Some(place), Edition::Sae) => {
            let count = *frame.get(place).ok_or(Refusal::Short)?;
            (count.into(), MOST_GROUPS.into())
        }
        (_, Some(_), Edition::Iso) => return Ok(MOST_GROUPS.into()),
        (_, None, _) => return Ok(0),
    };
    (1..=most).contains(&count).then_some(count).ok_or(Refusal::Octet)
}

/// Whether what a message to be written has is what its edition has.
fn is_limited(body: &Body, edition: Edition, to: Address) -> bool {
    let are_ids = |ids: [&Id; 2]| edition == Edition::Sae || ids == [&NO_ID; 2];
    let are_groups = |count: u8, groups: &Groups| match edition {
        Edition::Iso => count == MOST_GROUPS,
        Edition::Sae => is_count(count) && groups[usize::from(count)..].iter().all(|v| *v == 0),
    };
    match body {
        Body::ParmReq { .. } => true,
        Body::ParmCnf { attempt, .. } | Body::StartAttenChar { attempt, .. } => {
            attempt.edition() == edition
        }
        Body::AttenChar { count, groups, source_id, resp_id, .. } => {
            are_ids([source_id, resp_id]) && are_groups(*count, groups)
        }
        Body::AttenCharRsp { source_id, resp_id, .. } => are_ids([source_id, resp_id]),
        Body::MnbcSound { sender_id, .. } => are_ids([sender_id, &NO_ID]),
        Body::ValidateReq { timer } => to == Address::BROADCAST || *timer == 0,
        Body::ValidateCnf { result, .. } => *result <= NOT_REQUIRED,
        Body::MatchReq { car_id, station_id, .. } => are_ids([car_id, station_id]),
        Body::MatchCnf { nid, car_id, station_id, .. } => {
            nid.is_valid() && are_ids([car_id, station_id])
        }
        Body::AttenProfile { count, groups, .. } => are_groups(*count, groups),
        // It has no values here.
        Body::AmpMapReq { .. } => false,
        Body::AmpMapCnf { result } => *result <= MAP_FAILURE,
    }
}

/// Refusal 5: "source, destination or PROFILE's car of the wrong kind".
pub fn check_addresses(
    kind: Kind,
    to: Address,
    from: Address,
    car: Address,
) -> Result<(), Refusal> {
    let good = kind.destination().allows(to) && from.is_unicast() && car.is_unicast();
    good.then_some(()).ok_or(Refusal::AddressKind)
}

/// Whether every fixed, equal-to and limited octet of the payload is right; reserved ones are not
/// looked at.
fn is_fixed(kind: Kind, edition: Edition, p: &[u8], to: &[u8], from: &[u8]) -> bool {
    let is_sae = edition == Edition::Sae;
    let zero = |from: usize, to: usize| p[from..to].iter().all(|octet| *octet == 0);
    let id = |from: usize, to: usize| is_sae || zero(from, to);
    let fwd_sta = |at: usize, car: &[u8]| match edition {
        Edition::Iso => p[at..at + 6] == *car,
        Edition::Sae => zero(at, at + 6),
    };
    let attempt = |at: usize| Try::of(edition, &p[at..at + 3]).is_some();
    let matching = |length: u8, car: &[u8], station: &[u8]| {
        zero(0, 2)
            && p[2..4] == [length, 0]
            && id(4, 21)
            && p[21..27] == *car
            && id(27, 44)
            && p[44..50] == *station
    };
    match kind {
        Kind::ParmReq => zero(0, 2),
        Kind::ParmCnf => p[..6] == [0xFF; 6] && attempt(6) && fwd_sta(9, to) && zero(15, 17),
        Kind::StartAttenChar => zero(0, 2) && attempt(2) && fwd_sta(5, from),
        Kind::AttenChar => {
            zero(0, 2) && p[2..8] == *to && id(16, 50) && (is_sae || p[51] == MOST_GROUPS)
        }
        Kind::AttenCharRsp => zero(0, 2) && p[2..8] == *from && id(16, 50) && p[50] == 0,
        Kind::MnbcSound => zero(0, 2) && id(2, 19),
        Kind::ValidateReq => {
            let is_second = *to == Address::BROADCAST.0;
            p[0] == 0 && (is_second || p[1] == 0) && p[2] == READY
        }
        Kind::ValidateCnf => p[0] == 0 && p[2] <= NOT_REQUIRED,
        Kind::MatchReq => matching(0x3E, from, to),
        Kind::MatchCnf => matching(0x56, to, from) && p[72] <= 0x3F,
        Kind::AttenProfile => is_sae || p[6] == MOST_GROUPS,
        // The unused half of the last octet, where the number of carriers is odd.
        Kind::AmpMapReq => {
            let carriers = usize::from(u16::from_le_bytes([p[0], p[1]]));
            carriers % 2 == 0 || p[2 + carriers / 2] <= 0x0F
        }
        Kind::AmpMapCnf => p[0] <= MAP_FAILURE,
    }
}

/// Writes the payload's octets that are not zero.
fn write_payload(body: &Body, payload: &mut [u8], to: &[u8], from: &[u8]) {
    let parts: &[(usize, &[u8])] = match body {
        Body::ParmReq { run } => &[(2, &run.0)],
        Body::ParmCnf { run, attempt } => {
            &[(0, &[0xFF; 6]), (6, &attempt.octets()), (9, fwd_sta(*attempt, to)), (17, &run.0)]
        }
        Body::StartAttenChar { run, attempt } => {
            &[(2, &attempt.octets()), (5, fwd_sta(*attempt, from)), (11, &run.0)]
        }
        Body::AttenChar { run, sounds, count, groups, source_id, resp_id } => &[
            (2, to),
            (8, &run.0),
            (16, source_id),
            (33, resp_id),
            (50, &[*sounds, *count]),
            (52, counted(*count, groups)),
        ],
        Body::AttenCharRsp { run, source_id, resp_id } => {
            &[(2, from), (8, &run.0), (16, source_id), (33, resp_id)]
        }
        Body::MnbcSound { run, count, random, sender_id } => {
            &[(2, sender_id), (19, &[*count]), (20, &run.0), (36, random)]
        }
        Body::ValidateReq { timer } => &[(1, &[*timer, READY])],
        Body::ValidateCnf { toggles, result } => &[(1, &[*toggles, *result])],
        Body::MatchReq { run, car_id, station_id } => {
            &[(2, &[0x3E]), (4, car_id), (21, from), (27, station_id), (44, to), (50, &run.0)]
        }
        Body::MatchCnf { run, nid, nmk, car_id, station_id } => &[
            (2, &[0x56]),
            (4, car_id),
            (21, to),
            (27, station_id),
            (44, from),
            (50, &run.0),
            (66, &nid.0),
            (74, &nmk.0),
        ],
        Body::AttenProfile { car, count, groups } => {
            &[(0, &car.0), (6, &[*count]), (8, counted(*count, groups))]
        }
        Body::AmpMapReq { carriers } => &[(0, &carriers.to_le_bytes())],
        Body::AmpMapCnf { result } => &[(0, &[*result])],
    };
    for (at, octets) in parts {
        payload[*at..*at + octets.len()].copy_from_slice(octets);
    }
}

/// FWD_STA: the car, in the SAE edition zeros.
fn fwd_sta(attempt: Try, car: &[u8]) -> &[u8] {
    match attempt {
        Try::Iso => car,
        Try::First | Try::Later => &[],
    }
}

/// The values that are counted.
fn counted(count: u8, groups: &Groups) -> &[u8] {
    groups.get(..usize::from(count)).unwrap_or_default()
}

/// So many octets from the given place on.
fn octets<const N: usize>(from: &[u8], at: usize) -> Option<[u8; N]> {
    from.get(at..)?.first_chunk().copied()
}
