//! The SAE edition: the additions' cases S1 to S9, and each of its sentences at least once.

use crate::messages::{Address, Body, Edition, Groups, Id, Kind, Message, Nid, Nmk, RunId, Try};
use crate::messages::{MOST_GROUPS, NO_ID};
use crate::refusal::Refusal;
use crate::station::{Config, Indication, Phase, Pilot, Service, State, Station, Step};
use crate::station::{LEAST_OUTPUT, RECORDS};

const fn address(last: u8) -> Address {
    Address([2, 0, 0, 0, 0, last])
}

const SAE: Edition = Edition::Sae;
const CAR: Address = address(1);
const OTHER: Address = address(2);
const US: Address = address(0xAA);
const MODEM: Address = address(0xBB);
const RUN: RunId = RunId([1, 2, 3, 4, 5, 6, 7, 8]);
const NID: Nid = Nid([1, 2, 3, 4, 5, 6, 0x3F]);
const NMK: Nmk = Nmk([0x4B; 16]);
const CONFIG: Config = Config {
    station: US,
    modem: MODEM,
    nid: NID,
    nmk: NMK,
    exempt: false,
    edition: SAE,
    carriers: 9,
};
const REQUEST: Body = Body::ParmReq { run: RUN };
const FIRST: Body = Body::StartAttenChar { run: RUN, attempt: Try::First };
const LATER: Body = Body::StartAttenChar { run: RUN, attempt: Try::Later };
const RESPONSE: Body = Body::response(RUN);
const ONE: Id = [0x11; 17];
const TWO: Id = [0xEF; 17];

/// Octets as text; `5*EE` are five octets EE.
fn octets(text: &str) -> Vec<u8> {
    let octet = |text: &str| u8::from_str_radix(text, 16).unwrap();
    let part = |text: &str| match text.split_once('*') {
        Some((times, text)) => vec![octet(text); times.parse().unwrap()],
        None => vec![octet(text)],
    };
    text.split_whitespace().flat_map(part).collect()
}

/// So many groups of one value, zeros behind them.
fn flat(count: u8, value: u8) -> Groups {
    std::array::from_fn(|group| if group < usize::from(count) { value } else { 0 })
}

fn sound(count: u8) -> Body {
    Body::sound(RUN, count, [0; 16])
}

fn profile(car: Address, count: u8, value: u8) -> Message {
    Body::AttenProfile { car, count, groups: flat(count, value) }.send(MODEM, US)
}

fn report(car: Address, sounds: u8, count: u8, value: u8) -> Message {
    let groups = flat(count, value);
    let (source_id, resp_id) = (NO_ID, NO_ID);
    Body::AttenChar { run: RUN, sounds, count, groups, source_id, resp_id }.send(US, car)
}

fn cnf(car: Address, attempt: Try) -> Message {
    Body::ParmCnf { run: RUN, attempt }.send(US, car)
}

type Seen = Result<(Vec<u8>, Option<Indication>), u32>;
const NOTHING: Seen = Ok((Vec::new(), None));

fn replies(messages: &[Message]) -> Seen {
    Ok((messages.iter().flat_map(|message| message.to_frame(SAE).unwrap()).collect(), None))
}

#[derive(Clone)]
struct Bench(Station);

impl Bench {
    fn plugged() -> Bench {
        let (mut station, answer) = Station::configure(CONFIG);
        assert_eq!(answer, Ok(()));
        assert!(station.change_pilot(Pilot::B, 0).is_ok());
        Bench(station)
    }

    /// A call, which changes only the octets it reports, and nothing at all where it refuses.
    fn octets(&mut self, frame: &[u8]) -> Seen {
        let (before, mut output) = (self.0.clone(), vec![0xEE; LEAST_OUTPUT]);
        let answer = self.0.receive(frame, &mut output);
        seen(answer, output, self.0 == before)
    }

    fn hear(&mut self, message: Message) -> Seen {
        self.octets(&message.to_frame(SAE).unwrap())
    }

    fn car(&mut self, body: Body) -> Seen {
        let to_all = matches!(body.kind(), Kind::ParmReq | Kind::StartAttenChar | Kind::MnbcSound);
        self.hear(body.send(CAR, if to_all { Address::BROADCAST } else { US }))
    }

    fn tick(&mut self, elapsed: u32) -> Seen {
        let (before, mut output) = (self.0.clone(), vec![0xEE; LEAST_OUTPUT]);
        let reading = before.reading.wrapping_add(elapsed);
        let answer = self.0.tick(reading, &mut output);
        seen(answer, output, self.0 == before)
    }

    fn phase(&self, car: Address) -> Option<(Phase, u32)> {
        self.0.record(car).map(|record| (record.phase, record.left))
    }

    fn service(&self, car: Address) -> Result<Service, u32> {
        self.0.service(car).map_err(Refusal::number)
    }

    fn asked() -> Bench {
        let mut bench = Bench::plugged();
        assert_eq!(bench.car(REQUEST), replies(&[cnf(CAR, Try::First)]));
        bench
    }

    fn sounding() -> Bench {
        let mut bench = Bench::asked();
        assert_eq!(bench.car(FIRST), NOTHING);
        bench
    }

    /// Sounding in a later try.
    fn later() -> Bench {
        let mut bench = Bench::sounding();
        assert_eq!(bench.car(REQUEST), replies(&[cnf(CAR, Try::Later)]));
        assert_eq!(bench.car(LATER), NOTHING);
        bench
    }

    fn reported() -> Bench {
        let mut bench = Bench::sounding();
        assert_eq!(bench.hear(profile(CAR, 20, 40)), NOTHING);
        assert_eq!(bench.tick(200), replies(&[report(CAR, 1, 20, 40)]));
        bench
    }

    fn awaiting() -> Bench {
        let mut bench = Bench::reported();
        assert_eq!(bench.car(RESPONSE), NOTHING);
        bench
    }
}

fn seen(
    answer: Result<crate::station::Accepted, Refusal>,
    mut output: Vec<u8>,
    is_same: bool,
) -> Seen {
    let written = answer.map_or(0, |accepted| accepted.written);
    let rest = output.split_off(written);
    assert!(rest.iter().all(|octet| *octet == 0xEE));
    assert!(answer.is_ok() || is_same);
    answer.map(|accepted| (output, accepted.indication)).map_err(Refusal::number)
}

const P1: &str = "6*FF 02 00 00 00 00 01 88 E1 01 64 60 00 00 00 00 01 02 03 04 05 06 07 08 31*00";

/// A START with this pair, RESP_TYPE and FWD_STA.
fn start_octets(rest: &str) -> Vec<u8> {
    octets(&format!(
        "6*FF 02 00 00 00 00 01 88 E1 01 6A 60 00 00 00 00 {rest} 01 02 03 04 05 06 07 08 22*00"
    ))
}

#[test]
fn s1_requests_and_their_tries() {
    let reply = |pair: &str| {
        octets(&format!(
            "02 00 00 00 00 01 02 00 00 00 00 AA 88 E1 01 65 60 00 00 6*FF {pair} 00 6*00 00 00 \
             01 02 03 04 05 06 07 08 16*00"
        ))
    };
    let mut bench = Bench::plugged();
    assert_eq!(bench.octets(&octets(P1)), Ok((reply("08 02"), None)));
    assert_eq!(bench.octets(&octets(P1)), Ok((reply("10 0A"), None)));
    assert_eq!(bench.octets(&octets(P1)), Ok((reply("10 0A"), None)));
    assert_eq!(bench.phase(CAR), Some((Phase::Asked, 400)));
    // A freed record is no restart.
    assert_eq!((bench.tick(399), bench.tick(1), bench.phase(CAR)), (NOTHING, NOTHING, None));
    assert_eq!(bench.octets(&octets(P1)), Ok((reply("08 02"), None)));
}

#[test]
fn s2_starts() {
    let start = "6*FF 02 00 00 00 00 01 88 E1 01 6A 60 00 00 00 00 08 02 00 6*00 \
                 01 02 03 04 05 06 07 08 22*00";
    assert_eq!(FIRST.broadcast(CAR).to_frame(SAE), Ok(octets(start)));
    for mut bench in [Bench::asked(), Bench::sounding()] {
        assert_eq!(bench.octets(&start_octets("10 0A 00 6*00")), Err(22));
        for wrong in [
            "0A 06 00 6*00", "0A 06 01 02 00 00 00 00 01", "08 0A 00 6*00", "10 02 00 6*00",
            "08 02 01 6*00", "08 02 00 02 00 00 00 00 01", "08 02 00 00 00 00 00 00 01",
            "02 08 00 6*00",
        ] {
            assert_eq!(bench.octets(&start_octets(wrong)), Err(6), "{wrong}");
        }
        assert_eq!(bench.octets(&start_octets("08 02 00 6*00")), NOTHING);
        assert_eq!(bench.phase(CAR), Some((Phase::Sounding, 200)));
    }
    let mut bench = Bench::sounding();
    assert!(bench.car(REQUEST).is_ok());
    assert_eq!((bench.car(FIRST), bench.car(LATER)), (Err(22), NOTHING));
    assert_eq!((bench.tick(100), bench.car(FIRST), bench.car(LATER)), (NOTHING, Err(22), NOTHING));
    assert_eq!(bench.phase(CAR), Some((Phase::Sounding, 900)));
    // 11 and 12 come before 22.
    let other = |attempt| Body::StartAttenChar { run: RunId([9; 8]), attempt };
    assert_eq!((bench.car(other(Try::First)), bench.car(other(Try::Later))), (Err(11), Err(11)));
    assert_eq!(bench.hear(LATER.broadcast(OTHER)), Err(11));
    for mut bench in [Bench::reported(), Bench::awaiting()] {
        assert_eq!((bench.car(FIRST), bench.car(LATER)), (Err(12), Err(12)));
    }
}

#[test]
fn s3_eight_profiles_of_twenty_groups() {
    let mut bench = Bench::sounding();
    for round in 1..8 {
        assert_eq!(bench.hear(profile(CAR, 20, round)), NOTHING);
    }
    let seen = bench.hear(profile(CAR, 20, 8));
    assert_eq!(seen.clone().map(|(octets, _)| octets.len()), Ok(91));
    // 36 in eight: 4.5.
    assert_eq!(seen, replies(&[report(CAR, 8, 20, 5)]));
    let text = "02 00 00 00 00 01 02 00 00 00 00 AA 88 E1 01 6E 60 00 00 00 00 02 00 00 00 00 01 \
                01 02 03 04 05 06 07 08 34*00 08 14 20*05";
    assert_eq!(seen, Ok((octets(text), None)));
    assert_eq!(bench.phase(CAR), Some((Phase::Reported { retries: 2 }, 200)));
    assert_eq!(bench.hear(profile(CAR, 20, 8)), Err(12));
    // In a later try sixteen.
    let mut bench = Bench::later();
    for _ in 1..16 {
        assert_eq!(bench.hear(profile(CAR, 58, 255)), NOTHING);
    }
    assert_eq!(bench.hear(profile(CAR, 58, 254)), replies(&[report(CAR, 16, 58, 255)]));
}

#[test]
fn s4_another_group_count() {
    let mut bench = Bench::sounding();
    assert_eq!(bench.0.record(CAR).and_then(|record| record.groups), None);
    assert_eq!(bench.hear(profile(CAR, 20, 9)), NOTHING);
    assert_eq!(bench.0.record(CAR).and_then(|record| record.groups), Some(20));
    for count in [1, 19, 21, 58] {
        assert_eq!(bench.hear(profile(CAR, count, 9)), Err(23));
    }
    assert_eq!(bench.hear(profile(CAR, 20, 10)), NOTHING);
    // Another car has its own count.
    assert!(bench.hear(REQUEST.broadcast(OTHER)).is_ok());
    assert_eq!(bench.hear(FIRST.broadcast(OTHER)), NOTHING);
    assert_eq!(bench.hear(profile(OTHER, 21, 9)), NOTHING);
    assert_eq!(bench.hear(profile(OTHER, 20, 9)), Err(23));
    // A restart clears the count; in another phase it is 12, whatever the count.
    assert!(bench.car(REQUEST).is_ok());
    assert_eq!(bench.0.record(CAR).and_then(|record| record.groups), None);
    assert_eq!(bench.hear(profile(CAR, 21, 9)), Err(12));
    assert_eq!((bench.car(LATER), bench.hear(profile(CAR, 21, 9))), (NOTHING, NOTHING));
    assert_eq!(bench.hear(profile(CAR, 20, 9)), Err(23));
    assert_eq!(Bench::reported().hear(profile(CAR, 21, 9)), Err(12));
    assert_eq!(bench.hear(profile(address(9), 21, 9)), Err(11));
}

#[test]
fn s5_the_count_comes_first() {
    let messages = [profile(CAR, 20, 7), report(CAR, 1, 20, 7)];
    for (message, place) in messages.into_iter().zip([25, 70]) {
        let frame = message.to_frame(SAE).unwrap();
        assert_eq!(message.body.kind().count_place(), Some(place));
        for count in [0, 59, 60, 128, 255] {
            let mut wrong = frame.clone();
            wrong[place] = count;
            // Whatever its length, behind the count, and whatever its addresses.
            let mut long = wrong.clone();
            long.resize(4096, 0);
            for length in place + 1..=wrong.len() {
                assert_eq!(Message::read(&wrong[..length], SAE), Err(Refusal::Octet));
            }
            assert_eq!(Message::read(&long, SAE), Err(Refusal::Octet));
            wrong[0] |= 1;
            wrong[6] |= 1;
            assert_eq!(Message::read(&wrong, SAE), Err(Refusal::Octet));
            // The frame's head and its type come before.
            wrong[17] = 1;
            assert_eq!(Message::read(&wrong, SAE), Err(Refusal::Head));
        }
        for length in 19..=place {
            assert_eq!(Message::read(&frame[..length], SAE), Err(Refusal::Short));
        }
        let mut strange = frame[..place + 1].to_vec();
        strange[0] |= 1;
        assert_eq!(Message::read(&strange, SAE), Err(Refusal::Short));
    }
    let mut bench = Bench::sounding();
    let mut frame = profile(CAR, 20, 7).to_frame(SAE).unwrap();
    for count in [0, 59] {
        frame[25] = count;
        assert_eq!((bench.octets(&frame), bench.octets(&frame[..26])), (Err(6), Err(6)));
        assert_eq!(bench.octets(&frame[..25]), Err(1));
    }
}

#[test]
fn lengths_by_the_group_count() {
    for count in 1..=58 {
        for message in [profile(CAR, count, 7), report(CAR, 3, count, 7)] {
            let frame = message.to_frame(SAE).unwrap();
            let payload = match message.body.kind() {
                Kind::AttenProfile => 8 + usize::from(count),
                _ => 52 + usize::from(count),
            };
            assert_eq!(frame.len(), (19 + payload).max(60));
            let place = message.body.kind().count_place().unwrap();
            for length in place + 1..frame.len() + 70 {
                let mut frame = frame.clone();
                frame.resize(length.max(frame.len()), 0);
                let read = Message::read(&frame[..length], SAE);
                match length {
                    _ if length < 19 + payload => assert_eq!(read, Err(Refusal::Short)),
                    _ if length > (19 + payload).max(60) => assert_eq!(read, Err(Refusal::Long)),
                    _ => assert_eq!(read, Ok(message)),
                }
            }
            // What stands behind the counted values is not looked at.
            let mut padded = frame.clone();
            padded[19 + payload..].fill(0xA5);
            assert_eq!(Message::read(&padded, SAE), Ok(message));
        }
    }
}

#[test]
fn s6_reports_of_unlike_lengths() {
    let mut bench = Bench::plugged();
    for (car, count) in [(CAR, 20), (OTHER, 58), (address(3), 1)] {
        assert!(bench.hear(REQUEST.broadcast(car)).is_ok());
        assert_eq!(bench.hear(FIRST.broadcast(car)), NOTHING);
        assert_eq!(bench.hear(profile(car, count, car.0[5])), NOTHING);
    }
    let reports = [report(CAR, 1, 20, 1), report(OTHER, 1, 58, 2), report(address(3), 1, 1, 3)];
    let seen = bench.tick(200);
    assert_eq!(seen, replies(&reports));
    let (frames, _) = seen.unwrap();
    assert_eq!(frames.len(), 91 + 129 + 72);
    assert_eq!(Message::read_all(&frames), (reports.to_vec(), 0));
    // All records, each with 58 groups, fill the least output.
    let mut bench = Bench::plugged();
    for last in 1..=RECORDS as u8 {
        assert!(bench.hear(REQUEST.broadcast(address(last))).is_ok());
        assert_eq!(bench.hear(FIRST.broadcast(address(last))), NOTHING);
        assert_eq!(bench.hear(profile(address(last), 58, last)), NOTHING);
    }
    assert_eq!(bench.tick(200).map(|(frames, _)| frames.len()), Ok(LEAST_OUTPUT));
}

#[test]
fn s7_sound_counts() {
    let mut bench = Bench::sounding();
    for count in 0..8 {
        assert_eq!(bench.car(sound(count)), NOTHING);
    }
    for count in 0..=255 {
        assert_eq!(bench.car(sound(count)), Err(13));
    }
    let mut bench = Bench::later();
    for count in 0..16 {
        assert_eq!(bench.car(sound(count)), NOTHING);
        assert_eq!(bench.car(sound(count)), Err(13));
    }
    for count in 16..=255 {
        assert_eq!(bench.car(sound(count)), Err(13));
    }
    assert_eq!(bench.hear(profile(CAR, 5, 3)), NOTHING);
    assert_eq!(bench.service(CAR).map(|service| service.heard), Ok(16));
    // In Asked it is 12.
    assert_eq!((Bench::asked().car(sound(8)), Bench::asked().car(sound(0))), (Err(12), Err(12)));
}

#[test]
fn s8_the_ids_of_a_match() {
    let request = |car_id, station_id| Body::MatchReq { run: RUN, car_id, station_id };
    let cnf = |car_id, station_id| {
        Body::MatchCnf { run: RUN, nid: NID, nmk: NMK, car_id, station_id }.send(US, CAR)
    };
    let mut bench = Bench::awaiting();
    for (one, two) in [(ONE, TWO), (ONE, TWO), (TWO, NO_ID), (NO_ID, NO_ID), (NO_ID, ONE)] {
        assert_eq!(bench.car(request(one, two)), replies(&[cnf(one, two)]));
        assert_eq!(bench.0.state, State::Joining { left: 12_000, car: CAR, run: RUN });
    }
    let text = "02 00 00 00 00 01 02 00 00 00 00 AA 88 E1 01 7D 60 00 00 00 00 56 00 17*11 \
                02 00 00 00 00 01 17*EF 02 00 00 00 00 AA 01 02 03 04 05 06 07 08 8*00 \
                01 02 03 04 05 06 3F 00 16*4B";
    assert_eq!(cnf(ONE, TWO).to_frame(SAE), Ok(octets(text)));
    let other = Body::MatchReq { run: RunId([9; 8]), car_id: ONE, station_id: TWO };
    assert_eq!(
        (bench.car(other), bench.hear(request(ONE, TWO).send(OTHER, US))),
        (Err(11), Err(11))
    );
}

#[test]
fn s9_an_iso_station_and_sae_frames() {
    let (mut station, _) = Station::configure(Config { edition: Edition::Iso, ..CONFIG });
    assert!(station.change_pilot(Pilot::B, 0).is_ok());
    let mut bench = Bench(station);
    let reply = Body::ParmCnf { run: RUN, attempt: Try::Iso }.send(US, CAR);
    assert_eq!(bench.car(REQUEST), Ok((reply.to_frame(Edition::Iso).unwrap(), None)));
    assert_eq!(bench.octets(&start_octets("08 02 00 6*00")), Err(6));
    assert_eq!(bench.octets(&start_octets("10 0A 00 6*00")), Err(6));
    assert_eq!(bench.octets(&start_octets("0A 06 01 02 00 00 00 00 01")), NOTHING);
    assert_eq!(bench.phase(CAR), Some((Phase::Sounding, 600)));
    // Its restart has the same values, and its record keeps the first try and no count.
    assert_eq!(bench.car(REQUEST), Ok((reply.to_frame(Edition::Iso).unwrap(), None)));
    assert_eq!(bench.octets(&start_octets("0A 06 01 02 00 00 00 00 01")), NOTHING);
    assert_eq!(bench.hear(profile(CAR, 58, 7)), NOTHING);
    let record = bench.0.record(CAR).unwrap();
    assert_eq!((record.later, record.groups), (false, None));
    assert_eq!(bench.hear(profile(CAR, 20, 7)), Err(1));
    let mut frame = profile(CAR, 58, 7).to_frame(SAE).unwrap();
    frame[25] = 57;
    assert_eq!(bench.octets(&frame), Err(6));
    let ids = [
        Body::MnbcSound { run: RUN, count: 0, random: [0; 16], sender_id: ONE }.broadcast(CAR),
        Body::AttenCharRsp { run: RUN, source_id: ONE, resp_id: NO_ID }.send(CAR, US),
        Body::AttenCharRsp { run: RUN, source_id: NO_ID, resp_id: ONE }.send(CAR, US),
        Body::MatchReq { run: RUN, car_id: ONE, station_id: NO_ID }.send(CAR, US),
        Body::MatchReq { run: RUN, car_id: NO_ID, station_id: ONE }.send(CAR, US),
        cnf(CAR, Try::First),
    ];
    ids.into_iter().for_each(|message| assert_eq!(bench.hear(message), Err(6)));
    // The wrong count comes last there.
    frame[25] = 0;
    assert_eq!(bench.octets(&frame[..84]), Err(1));
    frame[6] |= 1;
    assert_eq!(bench.octets(&frame), Err(5));
}

#[test]
fn sounding_lasts_by_the_try() {
    for (bench, time) in [(Bench::sounding(), 200), (Bench::later(), 1_000)] {
        let mut silent = bench.clone();
        assert_eq!(silent.tick(time - 1), NOTHING);
        assert_eq!(silent.phase(CAR), Some((Phase::Sounding, 1)));
        assert_eq!((silent.tick(1), silent.phase(CAR)), (NOTHING, None));
        let mut bench = bench.clone();
        assert_eq!(bench.hear(profile(CAR, 3, 9)), NOTHING);
        assert_eq!(bench.tick(time - 1), NOTHING);
        assert_eq!(bench.tick(1), replies(&[report(CAR, 1, 3, 9)]));
        for _ in 0..2 {
            assert_eq!(bench.tick(200), replies(&[report(CAR, 1, 3, 9)]));
        }
        assert_eq!((bench.tick(200), bench.phase(CAR)), (NOTHING, None));
    }
}

#[test]
fn a_restart_is_a_later_try_in_every_phase() {
    let mut success = Bench::awaiting();
    let first = Body::ValidateReq { timer: 0 };
    let cnf_of = |result| Body::ValidateCnf { toggles: 0, result }.send(US, CAR);
    assert_eq!(success.hear(first.send(CAR, US)), replies(&[cnf_of(1)]));
    let ready = success.clone();
    assert_eq!(success.hear(first.broadcast(CAR)), NOTHING);
    let counting = success.clone();
    assert_eq!(success.tick(100), replies(&[cnf_of(2)]));
    assert_eq!(success.phase(CAR), Some((Phase::Validating(Step::Success), 10_000)));
    for mut bench in [
        Bench::asked(),
        Bench::sounding(),
        Bench::reported(),
        Bench::awaiting(),
        ready,
        counting,
        success,
        Bench::later(),
    ] {
        // An empty run makes no try.
        let before = bench.0.clone();
        assert_eq!(bench.car(Body::ParmReq { run: RunId([0; 8]) }), Err(21));
        assert_eq!(bench.0, before);
        for _ in 0..2 {
            assert_eq!(bench.car(REQUEST), replies(&[cnf(CAR, Try::Later)]));
            let record = bench.0.record(CAR).unwrap();
            assert_eq!((record.later, record.groups, record.profiles), (true, None, 0));
        }
        // After a plug-in it is a first one.
        assert!(bench.0.change_pilot(Pilot::A, 0).is_ok());
        assert!(bench.0.change_pilot(Pilot::B, 0).is_ok());
        assert_eq!(bench.car(REQUEST), replies(&[cnf(CAR, Try::First)]));
    }
}

#[test]
fn a_query_gives_zeros_past_the_count() {
    let mut bench = Bench::sounding();
    assert_eq!(bench.service(CAR), Err(11));
    assert_eq!((bench.hear(profile(CAR, 20, 9)), bench.car(sound(7))), (NOTHING, NOTHING));
    assert_eq!(bench.hear(profile(CAR, 20, 4)), NOTHING);
    let service = Service { heard: 1, least: flat(20, 4), greatest: flat(20, 9) };
    assert_eq!(bench.service(CAR), Ok(service));
    // Refused profiles change nothing.
    assert_eq!(bench.hear(profile(CAR, 58, 200)), Err(23));
    assert_eq!(bench.service(CAR), Ok(service));
    // 13 in two: 6.5.
    assert_eq!(bench.tick(200), replies(&[report(CAR, 2, 20, 7)]));
    assert_eq!(bench.service(CAR), Ok(service));
}

#[test]
fn confirmations_stand_behind_short_reports() {
    let mut bench = Bench::awaiting();
    let first = Body::ValidateReq { timer: 0 };
    assert!(bench.hear(REQUEST.broadcast(OTHER)).is_ok());
    assert_eq!(bench.hear(FIRST.broadcast(OTHER)), NOTHING);
    assert_eq!(bench.hear(profile(OTHER, 1, 6)), NOTHING);
    assert!(bench.hear(first.send(CAR, US)).is_ok());
    assert_eq!(bench.hear(first.broadcast(CAR)), NOTHING);
    let success = Body::ValidateCnf { toggles: 0, result: 2 }.send(US, CAR);
    let seen = bench.tick(200);
    assert_eq!(seen, replies(&[report(OTHER, 1, 1, 6), success]));
    assert_eq!(seen.map(|(frames, _)| frames.len()), Ok(72 + 60));
}

/// Each of the eleven messages, with everything that may vary set.
fn eleven() -> [Message; 11] {
    let (run, count) = (RUN, 20);
    let groups: Groups = std::array::from_fn(|group| if group < 20 { group as u8 + 1 } else { 0 });
    let (source_id, resp_id, car_id, station_id) = (ONE, TWO, ONE, TWO);
    [
        REQUEST.broadcast(CAR),
        cnf(CAR, Try::Later),
        FIRST.broadcast(CAR),
        Body::AttenChar { run, sounds: 10, count, groups, source_id, resp_id }.send(US, CAR),
        Body::AttenCharRsp { run, source_id, resp_id }.send(CAR, US),
        Body::MnbcSound { run, count: 9, random: [0xA5; 16], sender_id: ONE }.broadcast(CAR),
        Body::ValidateReq { timer: 9 }.broadcast(CAR),
        Body::ValidateCnf { toggles: 3, result: 2 }.send(US, CAR),
        Body::MatchReq { run, car_id, station_id }.send(CAR, US),
        Body::MatchCnf { run, nid: NID, nmk: NMK, car_id, station_id }.send(US, CAR),
        Body::AttenProfile { car: CAR, count, groups }.send(MODEM, US),
    ]
}

#[test]
fn every_octet_but_the_reserved_ones_is_looked_at() {
    let is_reserved = |kind: Kind, at: usize| {
        kind.reserved().iter().any(|(from, to)| (19 + from..19 + to).contains(&at))
    };
    for (message, kind) in eleven().into_iter().zip(Kind::ALL) {
        let frame = message.to_frame(SAE).unwrap();
        let shortest = kind.shortest_with(message.body.count());
        assert_eq!((message.body.kind(), Message::read(&frame, SAE)), (kind, Ok(message)));
        for (at, bit) in (0..frame.len()).flat_map(|at| (0..8).map(move |bit| (at, bit))) {
            let mut changed = frame.clone();
            changed[at] ^= 1 << bit;
            let read = Message::read(&changed, SAE);
            assert_eq!(read == Ok(message), at >= shortest || is_reserved(kind, at));
            if let Ok(other) = read {
                // What was read is written again, with zeros in reserved octets and padding.
                changed[kind.shortest_with(other.body.count())..].fill(0);
                (0..changed.len())
                    .filter(|at| is_reserved(kind, *at))
                    .for_each(|at| changed[at] = 0);
                assert_eq!(other.to_frame(SAE).unwrap(), changed);
            }
        }
    }
}

#[test]
fn what_may_be_written() {
    let octet = |message: Message, edition| message.write(edition, &mut []) == Err(Refusal::Octet);
    let output =
        |message: Message, edition| message.write(edition, &mut []) == Err(Refusal::Output);
    let [_, cnf, start, report, response, sound, .., request, confirmation, profile] = eleven();
    // The ISO edition writes no ID, no other count and no try of the other one.
    for message in [cnf, start, report, response, sound, request, confirmation, profile] {
        assert!(octet(message, Edition::Iso) && output(message, SAE));
    }
    let groups = [0; MOST_GROUPS as usize];
    for message in [
        Body::report(RUN, 1, groups).send(US, CAR),
        RESPONSE.send(CAR, US),
        Body::sound(RUN, 1, [0; 16]).broadcast(CAR),
        Body::match_req(RUN).send(CAR, US),
        Body::match_cnf(RUN, NID, NMK).send(US, CAR),
        Body::profile(CAR, groups).send(MODEM, US),
        REQUEST.broadcast(CAR),
    ] {
        assert!(output(message, Edition::Iso) && output(message, SAE));
        assert_eq!(message.to_frame(Edition::Iso), message.to_frame(SAE));
    }
    // The SAE edition writes no ISO try, no count outside 1 to 58, and no value past the count.
    for message in [
        Body::start(RUN).broadcast(CAR),
        Body::ParmCnf { run: RUN, attempt: Try::Iso }.send(US, CAR),
    ] {
        assert!(octet(message, SAE) && output(message, Edition::Iso));
    }
    let (source_id, resp_id) = (NO_ID, NO_ID);
    for (count, value, written) in [
        (0, 0, false),
        (59, 0, false),
        (255, 0, false),
        (58, 7, true),
        (57, 7, false),
        (1, 0, true),
    ] {
        let mut groups = [0; 58];
        groups[57] = value;
        let profile = Body::AttenProfile { car: CAR, count, groups }.send(MODEM, US);
        let report = Body::AttenChar { run: RUN, sounds: 1, count, groups, source_id, resp_id };
        let report = report.send(US, CAR);
        for message in [profile, report] {
            assert_eq!((octet(message, SAE), output(message, SAE)), (!written, written));
            assert_eq!(octet(message, Edition::Iso), count != 58);
        }
        // The addresses come first.
        let strange = Message { source: Address::BROADCAST, ..report };
        assert_eq!(strange.write(SAE, &mut []), Err(Refusal::AddressKind));
    }
    // 15 is the frame's own length, and nothing is changed.
    let mut lent = [0xEE; 91];
    let message = report_of_twenty();
    assert_eq!(message.write(SAE, &mut lent[..90]), Err(Refusal::Output));
    assert_eq!(lent, [0xEE; 91]);
    assert_eq!(message.write(SAE, &mut lent), Ok(91));
}

fn report_of_twenty() -> Message {
    report(CAR, 8, 20, 5)
}

#[test]
fn a_whole_matching() {
    let mut bench = Bench::later();
    assert_eq!((bench.car(sound(15)), bench.hear(profile(CAR, 30, 12))), (NOTHING, NOTHING));
    assert_eq!(bench.tick(1_000), replies(&[report(CAR, 1, 30, 12)]));
    let response = Body::AttenCharRsp { run: RUN, source_id: ONE, resp_id: TWO };
    assert_eq!(bench.car(response), NOTHING);
    assert_eq!(bench.phase(CAR), Some((Phase::Awaiting, 10_000)));
    assert!(bench.car(Body::match_req(RUN)).is_ok());
    assert!(bench.0.link_up().is_ok());
    // Cars alone receive these.
    for message in [cnf(CAR, Try::First), cnf(US, Try::Later), report_of_twenty()] {
        assert_eq!(bench.hear(message), Err(17));
    }
}
