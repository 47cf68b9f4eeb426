//! The paper's bench cases P1 to P12 and V1 to V10, and each of its rules at least once.

use crate::messages::{Address, Body, Destination, Edition, Kind, Message, Nid, Nmk, RunId, Try};
use crate::refusal::Refusal;
use crate::script::{write_head, Event};
use crate::station::{Answer, Config, Indication, Phase, Pilot, Service, State, Station, Step};
use crate::station::{LEAST_OUTPUT, RECORDS};
use crate::{compare, count, generate, show, station, validation_count};

const fn address(last: u8) -> Address {
    Address([2, 0, 0, 0, 0, last])
}

const ISO: Edition = Edition::Iso;
const CAR: Address = address(1);
const OTHER: Address = address(2);
const US: Address = address(0xAA);
const MODEM: Address = address(0xBB);
const RUN: RunId = RunId([1, 2, 3, 4, 5, 6, 7, 8]);
const NID: Nid = Nid([1, 2, 3, 4, 5, 6, 0x3F]);
const CONFIG: Config = Config {
    station: US,
    modem: MODEM,
    nid: NID,
    nmk: Nmk([0x4B; 16]),
    exempt: false,
    edition: Edition::Iso,
    carriers: 917,
};
const REQUEST: Body = Body::ParmReq { run: RUN };
const START: Body = Body::start(RUN);
const MATCH: Body = Body::match_req(RUN);
const RESPONSE: Body = Body::response(RUN);
const FIRST: Body = Body::ValidateReq { timer: 0 };
const OTHER_RUN: Body = Body::match_req(RunId([0; 8]));

/// Each of the eleven messages, as a station would see it.
fn eleven() -> [Message; 11] {
    let (run, groups) = (RUN, std::array::from_fn(|group| group as u8));
    [
        REQUEST.broadcast(CAR),
        Body::ParmCnf { run, attempt: Try::Iso }.send(US, CAR),
        START.broadcast(CAR),
        Body::report(run, 10, groups).send(US, CAR),
        RESPONSE.send(CAR, US),
        Body::sound(run, 9, [0xA5; 16]).broadcast(CAR),
        second(9).broadcast(CAR),
        Body::ValidateCnf { toggles: 3, result: 2 }.send(US, CAR),
        MATCH.send(CAR, US),
        match_cnf(),
        Body::profile(CAR, groups).send(MODEM, US),
    ]
}

fn match_cnf() -> Message {
    Body::match_cnf(RUN, NID, CONFIG.nmk).send(US, CAR)
}

/// The second validate request, to all.
fn second(timer: u8) -> Body {
    Body::ValidateReq { timer }
}

/// The answer to a validate request.
fn validated(car: Address, result: u8, toggles: u8) -> Message {
    Body::ValidateCnf { toggles, result }.send(US, car)
}

fn sound(count: u8) -> Body {
    Body::sound(RUN, count, [0; 16])
}

fn octets(start: &str, zeros: usize) -> Vec<u8> {
    let octet = |text| u8::from_str_radix(text, 16).unwrap();
    start.split_whitespace().map(octet).chain(std::iter::repeat_n(0, zeros)).collect()
}

fn p1() -> Vec<u8> {
    let head = "FF FF FF FF FF FF 02 00 00 00 00 01 88 E1 01 64 60 00 00";
    octets(&[head, "00 00 01 02 03 04 05 06 07 08"].join(" "), 31)
}

/// The frames of an accepted call with its indication, or the refusal's number.
type Seen = Result<(Vec<u8>, Option<Indication>), u32>;
const NOTHING: Seen = Ok((Vec::new(), None));
const NO_LINK: Seen = Ok((Vec::new(), Some(Indication::NoLink)));

fn replies(messages: &[Message]) -> Seen {
    Ok((messages.iter().flat_map(|message| message.to_frame(ISO).unwrap()).collect(), None))
}

#[derive(Clone)]
struct Bench(Station);

impl Bench {
    fn with(config: Config) -> Bench {
        let (station, answer) = Station::configure(config);
        assert_eq!(answer, Ok(()));
        Bench(station)
    }

    fn new() -> Bench {
        Bench::with(CONFIG)
    }

    fn plugged() -> Bench {
        let mut bench = Bench::new();
        assert_eq!(bench.pilot(Pilot::B, 0), NOTHING);
        bench
    }

    /// A call, which changes only the octets it reports, and nothing at all where it refuses.
    fn call(&mut self, room: usize, call: impl Fn(&mut Station, &mut [u8]) -> Answer) -> Seen {
        let (before, mut output) = (self.0.clone(), vec![0xEE; room]);
        match call(&mut self.0, &mut output) {
            Ok(accepted) => {
                let rest = output.split_off(accepted.written);
                assert!(rest.iter().all(|octet| *octet == 0xEE));
                Ok((output, accepted.indication))
            }
            Err(refusal) => {
                assert!(self.0 == before && output.iter().all(|octet| *octet == 0xEE));
                Err(refusal.number())
            }
        }
    }

    fn pilot(&mut self, to: Pilot, reading: u32) -> Seen {
        self.call(0, |station, _| station.change_pilot(to, reading))
    }

    fn octets(&mut self, frame: &[u8]) -> Seen {
        self.call(LEAST_OUTPUT, |station, output| station.receive(frame, output))
    }

    fn hear(&mut self, message: Message) -> Seen {
        self.octets(&message.to_frame(ISO).unwrap())
    }

    /// A message of the first car; a validate request is the first one.
    fn car(&mut self, body: Body) -> Seen {
        let to_all = body.kind().destination() == Destination::Broadcast;
        self.hear(body.send(CAR, if to_all { Address::BROADCAST } else { US }))
    }

    /// Each of these messages of the first car gets that refusal.
    fn refuses(&mut self, number: u32, bodies: &[Body]) {
        bodies.iter().for_each(|body| assert_eq!(self.car(*body), Err(number)));
    }

    fn link_up(&mut self) -> Seen {
        self.call(0, |station, _| station.link_up())
    }

    fn terminate(&mut self) -> Seen {
        self.call(0, |station, _| station.terminate())
    }

    fn profile(&mut self, car: Address, value: u8) -> Seen {
        self.hear(Body::profile(car, [value; 58]).send(MODEM, US))
    }

    fn tick(&mut self, elapsed: u32) -> Seen {
        let reading = self.0.reading.wrapping_add(elapsed);
        self.call(LEAST_OUTPUT, |station, output| station.tick(reading, output))
    }

    fn service(&self, car: Address) -> Result<Service, u32> {
        self.0.service(car).map_err(Refusal::number)
    }

    fn phase(&self, car: Address) -> Option<(Phase, u32)> {
        self.0.record(car).map(|record| (record.phase, record.left))
    }

    fn sounding() -> Bench {
        let mut bench = Bench::plugged();
        assert!(bench.car(REQUEST).is_ok());
        assert_eq!(bench.car(START), NOTHING);
        bench
    }

    fn reported() -> Bench {
        let mut bench = Bench::sounding();
        assert_eq!(bench.profile(CAR, 40), NOTHING);
        assert_eq!(bench.tick(600), replies(&[report(CAR, 1, 40)]));
        bench
    }

    fn awaiting() -> Bench {
        let mut bench = Bench::reported();
        assert_eq!(bench.car(RESPONSE), NOTHING);
        bench
    }

    /// Two cars in Awaiting, the pilot at B.
    fn two_awaiting() -> Bench {
        let mut bench = Bench::plugged();
        bench.bring_to_awaiting(&[CAR, OTHER]);
        bench
    }

    fn bring_to_awaiting(&mut self, cars: &[Address]) {
        for car in cars {
            assert!(self.hear(REQUEST.broadcast(*car)).is_ok());
            assert_eq!(self.hear(START.broadcast(*car)), NOTHING);
            assert_eq!(self.profile(*car, 40), NOTHING);
        }
        assert!(self.tick(600).is_ok());
        cars.iter().for_each(|car| assert_eq!(self.hear(RESPONSE.send(*car, US)), NOTHING));
    }

    /// The first car is ready.
    fn ready() -> Bench {
        let mut bench = Bench::two_awaiting();
        assert_eq!(bench.car(FIRST), replies(&[validated(CAR, 1, 0)]));
        bench
    }

    /// The first car counts, for so long.
    fn counting(timer: u8) -> Bench {
        let mut bench = Bench::ready();
        assert_eq!(bench.hear(second(timer).broadcast(CAR)), NOTHING);
        bench
    }

    /// The first car has had its success, without a toggle.
    fn success() -> Bench {
        let mut bench = Bench::counting(0);
        assert_eq!(bench.tick(100), replies(&[validated(CAR, 2, 0)]));
        bench
    }

    /// Pilot changes among B, C and D; their readings aren't looked at.
    fn toggle(&mut self, states: &[Pilot]) {
        for (to, reading) in states.iter().zip([7, 4_000_000_000, 0].into_iter().cycle()) {
            let before = self.0.reading;
            assert_eq!((self.pilot(*to, reading), self.0.reading), (NOTHING, before));
        }
    }

    fn step(&self, car: Address) -> Option<(Step, u32)> {
        match self.phase(car) {
            Some((Phase::Validating(step), left)) => Some((step, left)),
            _ => None,
        }
    }

    fn joining() -> Bench {
        let mut bench = Bench::awaiting();
        assert_eq!(bench.car(MATCH), replies(&[match_cnf()]));
        bench
    }
}

/// A query's answer with the same values in every group.
fn service(heard: u32, least: u8, greatest: u8) -> Result<Service, u32> {
    Ok(Service { heard, least: [least; 58], greatest: [greatest; 58] })
}

fn report(car: Address, sounds: u8, value: u8) -> Message {
    Body::report(RUN, sounds, [value; 58]).send(US, car)
}

#[test]
fn p1_p2_a_request_and_its_reply() {
    assert_eq!(REQUEST.broadcast(CAR).to_frame(ISO), Ok(p1()));
    assert_eq!(Message::read(&p1(), ISO), Ok(REQUEST.broadcast(CAR)));
    let start =
        "02 00 00 00 00 01 02 00 00 00 00 AA 88 E1 01 65 60 00 00 FF FF FF FF FF FF 0A 06 01 \
                 02 00 00 00 00 01 00 00 01 02 03 04 05 06 07 08";
    let mut bench = Bench::plugged();
    assert_eq!(bench.octets(&p1()), Ok((octets(start, 16), None)));
    assert_eq!(bench.phase(CAR), Some((Phase::Asked, 400)));
}

#[test]
fn p3_to_p6_lengths() {
    let long: Vec<u8> = [&p1()[..], &[0]].concat();
    assert_eq!(Message::read(&p1()[..29], ISO), Ok(REQUEST.broadcast(CAR)));
    assert_eq!(Message::read(&p1()[..28], ISO), Err(Refusal::Short));
    assert_eq!(Message::read(&long, ISO), Err(Refusal::Long));
    assert_eq!(Message::read(&p1()[..18], ISO), Err(Refusal::Short));
}

#[test]
fn p7_the_report_is_the_nearest_mean() {
    let mut bench = Bench::sounding();
    assert_eq!((bench.profile(CAR, 10), bench.profile(CAR, 11)), (NOTHING, NOTHING));
    assert_eq!(bench.tick(600), replies(&[report(CAR, 2, 11)]));
    assert_eq!(bench.phase(CAR), Some((Phase::Reported { retries: 2 }, 200)));
}

#[test]
fn the_mean_is_the_nearest_and_a_half_goes_up() {
    for count in 1..=16_u32 {
        for sum in 0..=255 * count {
            let mean = u32::from(station::mean(sum as u16, count as u16));
            let off = (count * mean).abs_diff(sum);
            assert!(2 * off <= count && mean <= 255);
            assert!(2 * off < count || count * mean > sum, "{sum} by {count}");
        }
    }
    // Each group by itself, with values that differ.
    let mut bench = Bench::sounding();
    for values in [[10, 10, 0, 255, 1], [11, 10, 1, 255, 0], [11, 11, 0, 254, 0]] {
        let groups = std::array::from_fn(|group| values[group % 5]);
        assert_eq!(bench.hear(Body::profile(CAR, groups).send(MODEM, US)), NOTHING);
    }
    let groups = std::array::from_fn(|group| [11, 10, 0, 255, 0][group % 5]);
    let report = Body::report(RUN, 3, groups).send(US, CAR);
    assert_eq!((bench.tick(600), bench.tick(200)), (replies(&[report]), replies(&[report])));
}

#[test]
fn p8_p9_the_clock_wraps_and_gaps_are_refused() {
    let mut bench = Bench::new();
    assert_eq!(bench.pilot(Pilot::B, 4_294_967_290), NOTHING);
    assert_eq!(bench.call(LEAST_OUTPUT, |station, output| station.tick(4, output)), NOTHING);
    assert_eq!(bench.0.state, State::Matching { admission: 49_990 });
    assert_eq!((bench.tick(60_001), bench.0.reading), (Err(14), 4));
    assert_eq!(
        bench.call(LEAST_OUTPUT - 1, |station, output| station.tick(70_000, output)),
        Err(15)
    );
    assert_eq!(bench.tick(u32::MAX), Err(14));
    assert_eq!((bench.tick(60_000), bench.0.reading), (NO_LINK, 60_004));
    assert_eq!((bench.tick(60_001), bench.tick(60_000)), (Err(14), NOTHING));
    assert_eq!(Bench::new().call(LEAST_OUTPUT, |s, output| s.tick(60_001, output)), Err(14));
}

#[test]
fn p10_a_full_house() {
    let mut bench = Bench::plugged();
    for last in 1..=16 {
        let reply = Body::ParmCnf { run: RUN, attempt: Try::Iso }.send(US, address(last));
        assert_eq!(bench.hear(REQUEST.broadcast(address(last))), replies(&[reply]));
    }
    assert_eq!(bench.hear(REQUEST.broadcast(address(17))), Err(10));
    assert_eq!((bench.tick(100), bench.car(START)), (NOTHING, NOTHING));
    assert_eq!((bench.car(sound(3)), bench.profile(CAR, 9)), (NOTHING, NOTHING));
    let run = RunId([9; 8]);
    assert!(bench.car(Body::ParmReq { run }).is_ok());
    let record = bench.0.record(CAR).unwrap();
    assert_eq!((record.run, record.heard, record.profiles, record.sums), (run, 0, 0, [0; 58]));
    assert_eq!((record.least, record.greatest), ([255; 58], [0; 58]));
    assert_eq!(bench.phase(CAR), Some((Phase::Asked, 400)));
    let held: Vec<u8> = bench.0.records().map(|record| record.car.0[5]).collect();
    assert_eq!(held, (1..=16).collect::<Vec<_>>());
    assert_eq!(bench.car(START), Err(11));
}

#[test]
fn p11_p12_times_that_free_a_record() {
    let mut bench = Bench::plugged();
    assert!(bench.car(REQUEST).is_ok());
    assert_eq!((bench.tick(399), bench.phase(CAR)), (NOTHING, Some((Phase::Asked, 1))));
    assert_eq!((bench.tick(1), bench.phase(CAR)), (NOTHING, None));
    let mut bench = Bench::sounding();
    assert_eq!((bench.tick(599), bench.phase(CAR)), (NOTHING, Some((Phase::Sounding, 1))));
    assert_eq!((bench.tick(1), bench.phase(CAR)), (NOTHING, None));
    let mut bench = Bench::awaiting();
    assert_eq!((bench.tick(9_999), bench.phase(CAR)), (NOTHING, Some((Phase::Awaiting, 1))));
    assert_eq!((bench.tick(1), bench.phase(CAR)), (NOTHING, None));
}

/// Whether the octet of a frame is one of the reserved ones.
fn is_reserved(kind: Kind, at: usize) -> bool {
    kind.reserved().iter().any(|(from, to)| (19 + from..19 + to).contains(&at))
}

#[test]
fn every_octet_but_the_reserved_ones_is_looked_at() {
    for (message, kind) in eleven().into_iter().zip(Kind::ALL) {
        let frame = message.to_frame(ISO).unwrap();
        assert_eq!((message.body.kind(), frame.len()), (kind, kind.written_with(58)));
        for length in 0..=frame.len() + 1 {
            let lengthened = [&frame[..], &[0]].concat();
            let read = Message::read(&lengthened[..length], ISO);
            match length {
                _ if length < kind.shortest() => assert_eq!(read, Err(Refusal::Short)),
                _ if length > kind.written_with(58) => assert_eq!(read, Err(Refusal::Long)),
                _ => assert_eq!(read, Ok(message)),
            }
        }
        for (at, bit) in (0..frame.len()).flat_map(|at| (0..8).map(move |bit| (at, bit))) {
            let mut changed = frame.clone();
            changed[at] ^= 1 << bit;
            let read = Message::read(&changed, ISO);
            assert_eq!(read == Ok(message), at >= kind.shortest() || is_reserved(kind, at));
            if let Ok(other) = read {
                // What is written again has zeros in reserved octets and padding.
                changed[kind.shortest()..].fill(0);
                (0..changed.len())
                    .filter(|at| is_reserved(kind, *at))
                    .for_each(|at| changed[at] = 0);
                assert_eq!(other.to_frame(ISO).unwrap(), changed);
            }
        }
    }
}

#[test]
fn reserved_octets_are_skipped_and_the_identifiers_are_not() {
    // SOUND 28-35, MATCH.REQ 58-65, MATCH.CNF 58-65 and 73, PROFILE 7.
    for (message, places) in eleven().into_iter().zip([
        vec![],
        vec![],
        vec![],
        vec![],
        vec![],
        (28..=35).collect(),
        vec![],
        vec![],
        (58..=65).collect(),
        (58..=65).chain([73]).collect(),
        vec![7],
    ]) {
        let (frame, kind) = (message.to_frame(ISO).unwrap(), message.body.kind());
        let found: Vec<usize> = (0..90).filter(|at| is_reserved(kind, 19 + at)).collect();
        assert_eq!(found, places);
        let mut filled = frame.clone();
        places.iter().for_each(|at| filled[19 + at] = 0xFF);
        assert_eq!(Message::read(&filled, ISO), Ok(message));
        assert_eq!(Message::read(&filled[..kind.shortest()], ISO), Ok(message));
    }
    let matching = [(8, 4..=20), (8, 27..=43), (9, 4..=20), (9, 27..=43)];
    let zeros = [(5, 2..=18), (3, 16..=49), (4, 16..=50)].into_iter().chain(matching);
    for (message, at) in zeros.flat_map(|(message, run)| run.map(move |at| (message, at))) {
        let mut frame = eleven()[message].to_frame(ISO).unwrap();
        frame[19 + at] = 1;
        assert_eq!(Message::read(&frame, ISO), Err(Refusal::Octet));
    }
}

#[test]
fn a_newer_car_is_taken() {
    let mut bench = Bench::sounding();
    let set = |message: Message, from: usize, to: usize| {
        let mut frame = message.to_frame(ISO).unwrap();
        frame[19 + from..19 + to].fill(0xA5);
        frame
    };
    assert_eq!(bench.octets(&set(sound(4).broadcast(CAR), 28, 36)), NOTHING);
    let profile = Body::profile(CAR, [40; 58]).send(MODEM, US);
    assert_eq!(bench.octets(&set(profile, 7, 8)), NOTHING);
    assert_eq!(bench.tick(600), replies(&[report(CAR, 1, 40)]));
    assert_eq!(bench.car(RESPONSE), NOTHING);
    // The reply has zeros there.
    assert_eq!(bench.octets(&set(MATCH.send(CAR, US), 58, 66)), replies(&[match_cnf()]));
    assert_eq!(bench.octets(&set(MATCH.send(CAR, US), 58, 66)), replies(&[match_cnf()]));
    assert_eq!(match_cnf().to_frame(ISO).unwrap()[19 + 58..19 + 66], [0; 8]);
}

#[test]
fn the_order_of_reading() {
    let mut frame = eleven()[10].to_frame(ISO).unwrap();
    for (at, octet, number) in [(19 + 6, 0x3B, 6), (19, 3, 5), (6, 3, 5), (0, 3, 5)] {
        frame[at] = octet;
        assert_eq!(Message::read(&frame, ISO).map_err(Refusal::number), Err(number));
    }
    frame.push(0);
    assert_eq!(Message::read(&frame, ISO), Err(Refusal::Long));
    frame.truncate(84);
    assert_eq!(Message::read(&frame, ISO), Err(Refusal::Short));
    frame[15] = 0x63;
    assert_eq!(Message::read(&frame, ISO), Err(Refusal::Type));
    frame[18] = 1;
    assert_eq!(Message::read(&frame, ISO), Err(Refusal::Head));
    assert_eq!(Message::read(&frame[..18], ISO), Err(Refusal::Short));
}

#[test]
fn addresses_of_the_wrong_kind() {
    let bad = [Address([0; 6]), Address([1, 0, 0, 0, 0, 0]), Address::BROADCAST];
    for message in eleven().into_iter().chain([FIRST.send(CAR, US)]) {
        let allowed = message.body.kind().destination();
        let mut cases: Vec<_> = bad.iter().map(|bad| Message { source: *bad, ..message }).collect();
        let ends = match allowed {
            Destination::Broadcast => vec![US, bad[0], bad[1]],
            Destination::Unicast => bad.to_vec(),
            Destination::Either => bad[..2].to_vec(),
        };
        cases.extend(ends.iter().map(|end| Message { destination: *end, ..message }));
        for case in cases {
            assert_eq!(case.to_frame(ISO), Err(Refusal::AddressKind));
            let mut frame = message.to_frame(ISO).unwrap();
            frame[..6].copy_from_slice(&case.destination.0);
            frame[6..12].copy_from_slice(&case.source.0);
            assert_eq!(Message::read(&frame, ISO), Err(Refusal::AddressKind));
        }
    }
}

#[test]
fn the_order_of_writing() {
    let body = Body::match_cnf(RUN, Nid([0, 0, 0, 0, 0, 0, 0x40]), CONFIG.nmk);
    let mut output = [0xEE; 109];
    assert_eq!(body.send(US, Address::BROADCAST).write(ISO, &mut []), Err(Refusal::AddressKind));
    assert_eq!(body.send(US, CAR).write(ISO, &mut []), Err(Refusal::Octet));
    assert_eq!(match_cnf().write(ISO, &mut output[..108]), Err(Refusal::Output));
    assert_eq!(output, [0xEE; 109]);
    assert_eq!(match_cnf().write(ISO, &mut output), Ok(109));
}

#[test]
fn the_order_of_a_frame_to_the_station() {
    let (mut bad, answer) = Station::configure(Config { modem: US, ..CONFIG });
    assert_eq!(answer, Err(Refusal::Configuration));
    assert_eq!(bad.receive(&[], &mut []), Err(Refusal::Configuration));
    let mut bench = Bench::new();
    assert_eq!(
        bench.call(LEAST_OUTPUT - 1, |station, output| station.receive(&[], output)),
        Err(15)
    );
    assert_eq!(bench.octets(&[]), Err(1));
    assert_eq!(
        bench.hear(Body::ParmCnf { run: RUN, attempt: Try::Iso }.send(CAR, address(2))),
        Err(17)
    );
    assert_eq!(bench.hear(MATCH.send(CAR, MODEM)), Err(7));
    assert_eq!(bench.car(MATCH), Err(8));
    let mut bench = Bench::plugged();
    bench.refuses(11, &[MATCH, START, RESPONSE, sound(10)]);
    assert!(bench.car(REQUEST).is_ok());
    bench.refuses(11, &[OTHER_RUN]);
    bench.refuses(12, &[MATCH, RESPONSE, sound(10)]);
    assert_eq!(bench.profile(CAR, 1), Err(12));
    assert_eq!((bench.car(START), bench.car(sound(9))), (NOTHING, NOTHING));
    bench.refuses(13, &[sound(10), sound(255), sound(9)]);
}

#[test]
fn frames_that_are_not_ours() {
    let mut bench = Bench::sounding();
    for strange in [US, MODEM] {
        assert_eq!(bench.hear(REQUEST.broadcast(strange)), Err(7));
        assert_eq!(bench.hear(START.broadcast(strange)), Err(7));
        assert_eq!(bench.profile(strange, 1), Err(7));
    }
    let profile = Body::profile(CAR, [1; 58]);
    for (from, to) in [(CAR, US), (US, US), (address(9), US), (MODEM, address(9)), (MODEM, MODEM)] {
        assert_eq!(bench.hear(profile.send(from, to)), Err(7));
    }
    assert_eq!(bench.hear(RESPONSE.send(CAR, address(9))), Err(7));
}

#[test]
fn sounding() {
    let mut bench = Bench::sounding();
    assert_eq!((bench.tick(100), bench.car(START)), (NOTHING, NOTHING));
    assert_eq!(bench.phase(CAR), Some((Phase::Sounding, 500)));
    assert_eq!(bench.profile(address(2), 50), Err(11));
    assert_eq!((bench.car(sound(0)), bench.car(sound(7))), (NOTHING, NOTHING));
    for _ in 0..9 {
        assert_eq!(bench.profile(CAR, 255), NOTHING);
        assert_eq!(bench.service(CAR), service(2, 255, 255));
    }
    assert_eq!(bench.profile(CAR, 250), replies(&[report(CAR, 10, 255)]));
    assert_eq!(bench.phase(CAR), Some((Phase::Reported { retries: 2 }, 200)));
    assert_eq!((bench.profile(CAR, 1), bench.car(START)), (Err(12), Err(12)));
    assert_eq!((bench.car(RESPONSE), bench.car(RESPONSE)), (NOTHING, Err(12)));
    assert_eq!(bench.phase(CAR), Some((Phase::Awaiting, 10_000)));
}

#[test]
fn three_reports_and_no_more() {
    let mut bench = Bench::reported();
    assert_eq!((bench.tick(199), bench.tick(0)), (NOTHING, NOTHING));
    for retries in [1, 0] {
        assert_eq!(bench.tick(20_000), replies(&[report(CAR, 1, 40)]));
        assert_eq!(bench.phase(CAR), Some((Phase::Reported { retries }, 200)));
    }
    assert_eq!((bench.tick(200), bench.phase(CAR)), (NOTHING, None));
}

#[test]
fn reports_of_one_tick_stand_in_record_order() {
    let mut bench = Bench::plugged();
    let cars = [3, 1, 5, 2, 4, 16, 7, 8, 15, 10, 11, 14, 13, 12, 9, 6].map(address);
    assert_eq!((cars.len(), LEAST_OUTPUT), (RECORDS, 2_064));
    for car in cars {
        assert!(bench.hear(REQUEST.broadcast(car)).is_ok());
        assert_eq!(bench.hear(START.broadcast(car)), NOTHING);
        assert_eq!(bench.profile(car, car.0[5]), NOTHING);
    }
    let reports = cars.map(|car| report(car, 1, car.0[5]));
    assert_eq!(bench.call(2_063, |station, output| station.tick(600, output)), Err(15));
    assert_eq!(bench.tick(600), replies(&reports));
    assert_eq!(bench.hear(RESPONSE.send(cars[2], US)), NOTHING);
    assert_eq!(bench.tick(60_000), replies(&[&reports[..2], &reports[3..]].concat()));
    assert_eq!((bench.phase(cars[2]), bench.0.state), (None, State::Matching { admission: 0 }));
}

#[test]
fn the_end_of_admission() {
    let mut bench = Bench::plugged();
    assert_eq!((bench.tick(49_999), bench.tick(0)), (NOTHING, NOTHING));
    assert!(bench.car(REQUEST).is_ok());
    assert_eq!((bench.tick(1), bench.0.state), (NOTHING, State::Matching { admission: 0 }));
    assert_eq!(bench.hear(REQUEST.broadcast(address(2))), Err(9));
    assert!(bench.car(REQUEST).is_ok());
    assert_eq!((bench.tick(399), bench.tick(1)), (NOTHING, NO_LINK));
    assert_eq!((bench.0.state, bench.0.pilot), (State::Unmatched, Pilot::B));
    assert_eq!(Bench::plugged().tick(50_000), NO_LINK);
    let mut bench = Bench::plugged();
    (1..=16).for_each(|last| assert!(bench.hear(REQUEST.broadcast(address(last))).is_ok()));
    assert_eq!((bench.tick(400), bench.0.records().count()), (NOTHING, 0));
}

#[test]
fn joining_and_link_up() {
    let mut bench = Bench::joining();
    assert_eq!((bench.0.records().count(), bench.service(CAR)), (0, Err(11)));
    assert_eq!(bench.tick(11_999), NOTHING);
    assert_eq!(bench.car(MATCH), replies(&[match_cnf()]));
    assert_eq!(bench.0.state, State::Joining { left: 1, car: CAR, run: RUN });
    bench.refuses(8, &[REQUEST, START, RESPONSE, sound(1)]);
    bench.refuses(11, &[OTHER_RUN]);
    assert_eq!(bench.hear(MATCH.send(address(2), US)), Err(11));
    assert_eq!((bench.tick(1), bench.0.state), (NO_LINK, State::Unmatched));
    let mut bench = Bench::joining();
    let linked = Ok((Vec::new(), Some(Indication::LinkEstablished)));
    assert_eq!(bench.link_up(), linked);
    assert_eq!(bench.link_up(), Err(8));
    bench.refuses(8, &[MATCH, REQUEST]);
    assert_eq!((bench.tick(60_000), bench.0.state), (NOTHING, State::Matched { car: CAR }));
    assert_eq!(bench.pilot(Pilot::E, 7), NOTHING);
    assert_eq!((bench.0.state, bench.0.reading), (State::Unmatched, 7));
    assert_eq!(Bench::awaiting().link_up(), Err(8));
}

#[test]
fn pilot_changes() {
    for (from, to) in Pilot::ALL.iter().flat_map(|from| Pilot::ALL.map(|to| (*from, to))) {
        let mut bench = Bench::new();
        assert_eq!(bench.pilot(from, 5), NOTHING);
        if from.is_plugged() {
            assert!(bench.car(REQUEST).is_ok());
        }
        let held = bench.0.records().count();
        let answer = bench.pilot(to, 9);
        let after = (bench.0.state, bench.0.reading, bench.0.records().count(), bench.0.pilot);
        let matching = State::Matching { admission: 50_000 };
        let (expected, lost) = match (from.is_plugged(), to.is_plugged()) {
            (false, true) => ((matching, 9, 0, to), NOTHING),
            (true, true) => ((matching, 5, held, to), NOTHING),
            (true, false) => ((State::Unmatched, 9, 0, to), NO_LINK),
            (false, false) => ((State::Unmatched, 9, 0, to), NOTHING),
        };
        assert_eq!((after, answer), (expected, lost));
    }
}

#[test]
fn terminate_keeps_reading_and_pilot() {
    for (mut bench, answer) in
        [(Bench::new(), NOTHING), (Bench::awaiting(), NO_LINK), (Bench::joining(), NO_LINK)]
    {
        let kept = (bench.0.reading, bench.0.pilot);
        assert_eq!(bench.terminate(), answer);
        assert_eq!((bench.0.reading, bench.0.pilot), kept);
        assert_eq!((bench.0.state, bench.0.records().count()), (State::Unmatched, 0));
        assert_eq!(bench.terminate(), NOTHING);
        assert_eq!(
            (bench.pilot(Pilot::C, 1), bench.0.state == State::Unmatched),
            (NOTHING, kept.1.is_plugged())
        );
    }
}

#[test]
fn a_bad_configuration_answers_16_to_everything() {
    let (zero, group) = (Address([0; 6]), Address([1; 6]));
    for config in [
        Config { station: zero, ..CONFIG },
        Config { station: group, ..CONFIG },
        Config { modem: zero, ..CONFIG },
        Config { modem: Address::BROADCAST, ..CONFIG },
        Config { modem: US, ..CONFIG },
        Config { nid: Nid([0, 0, 0, 0, 0, 0, 0x40]), ..CONFIG },
    ] {
        let (station, answer) = Station::configure(config);
        assert_eq!((answer, station.state), (Err(Refusal::Configuration), State::Unmatched));
        let mut bench = Bench(station);
        assert_eq!((bench.octets(&[]), bench.tick(70_000)), (Err(16), Err(16)));
        assert_eq!((bench.terminate(), bench.link_up()), (Err(16), Err(16)));
        assert_eq!(bench.pilot(Pilot::B, 1), Err(16));
        assert_eq!(bench.call(0, |station, output| station.tick(0, output)), Err(16));
        assert_eq!((bench.service(CAR), bench.service(US)), (Err(16), Err(16)));
    }
}

#[test]
fn the_spread_of_each_group() {
    let mut bench = Bench::plugged();
    assert_eq!(bench.service(CAR), Err(11));
    for car in [CAR, OTHER] {
        assert!(bench.hear(REQUEST.broadcast(car)).is_ok());
        assert_eq!(bench.hear(START.broadcast(car)), NOTHING);
    }
    // Sounds alone count no profile.
    assert_eq!((bench.car(sound(3)), bench.service(CAR)), (NOTHING, Err(11)));
    let (mut least, mut greatest) = ([255; 58], [0; 58]);
    for round in 0..10_u8 {
        let values = std::array::from_fn(|group| match group {
            0 => round,
            1 => 9 - round,
            2 => [0, 255][usize::from(round % 2)],
            3 => 255,
            4 => 0,
            5 => {
                if round == 9 {
                    200
                } else {
                    100
                }
            }
            6 => {
                if round == 9 {
                    0
                } else {
                    100
                }
            }
            _ => round.wrapping_mul(37).wrapping_add(group as u8),
        });
        let profile = Body::profile(CAR, values);
        assert!(bench.hear(profile.send(MODEM, US)).is_ok());
        for group in 0..58 {
            least[group] = least[group].min(values[group]);
            greatest[group] = greatest[group].max(values[group]);
        }
        assert_eq!(bench.service(CAR), Ok(Service { heard: 1, least, greatest }));
        assert_eq!(bench.service(OTHER), Err(11));
    }
    // The tenth counts too, and the values stay while the record is held.
    let ends: Vec<(u8, u8)> = least.into_iter().zip(greatest).take(7).collect();
    assert_eq!(ends, [(0, 9), (0, 9), (0, 255), (255, 255), (0, 0), (100, 200), (0, 100)]);
    assert_eq!((bench.profile(CAR, 0), bench.profile(OTHER, 8)), (Err(12), NOTHING));
    assert_eq!((bench.car(RESPONSE), bench.tick(500)), (NOTHING, NOTHING));
    assert_eq!(bench.service(CAR), Ok(Service { heard: 1, least, greatest }));
    assert_eq!(bench.service(OTHER), service(0, 8, 8));
    // A restart clears them, and so does a record that is taken anew.
    assert!(bench.car(REQUEST).is_ok());
    assert_eq!((bench.service(CAR), bench.service(OTHER)), (Err(11), service(0, 8, 8)));
    assert_eq!((bench.car(START), bench.service(CAR)), (NOTHING, Err(11)));
    assert_eq!((bench.profile(CAR, 77), bench.service(CAR)), (NOTHING, service(0, 77, 77)));
    assert_eq!((bench.pilot(Pilot::A, 0), bench.pilot(Pilot::B, 0)), (NO_LINK, NOTHING));
    assert_eq!((bench.car(REQUEST).is_ok(), bench.car(START)), (true, NOTHING));
    assert_eq!((bench.profile(CAR, 5), bench.profile(CAR, 6)), (NOTHING, NOTHING));
    assert_eq!(bench.service(CAR), service(0, 5, 6));
    // A refused frame changes nothing, nor does the query.
    assert_eq!(bench.profile(address(9), 200), Err(11));
    assert_eq!((bench.service(CAR), bench.service(address(9))), (service(0, 5, 6), Err(11)));
}

#[test]
fn an_empty_run_is_refused() {
    const EMPTY: RunId = RunId([0; 8]);
    let empty = Body::ParmReq { run: EMPTY };
    // Reading and writing accept it.
    let frame = octets("FF FF FF FF FF FF 02 00 00 00 00 01 88 E1 01 64 60", 43);
    assert_eq!(empty.broadcast(CAR).to_frame(ISO), Ok(frame.clone()));
    assert_eq!(Message::read(&frame[..29], ISO), Ok(empty.broadcast(CAR)));
    // 16, 15, reading and 7 come before, and so does 8.
    let (mut bad, _) = Station::configure(Config { modem: US, ..CONFIG });
    assert_eq!(bad.receive(&frame, &mut [0; LEAST_OUTPUT]), Err(Refusal::Configuration));
    let mut bench = Bench::new();
    assert_eq!(
        bench.call(LEAST_OUTPUT - 1, |station, output| station.receive(&frame, output)),
        Err(15)
    );
    assert_eq!(bench.octets(&frame[..28]), Err(1));
    assert_eq!((bench.car(empty), Bench::joining().car(empty)), (Err(8), Err(8)));
    let mut matched = Bench::joining();
    assert!(matched.link_up().is_ok());
    assert_eq!(matched.car(empty), Err(8));
    let mut bench = Bench::plugged();
    for strange in [US, MODEM] {
        assert_eq!(bench.hear(empty.broadcast(strange)), Err(7));
    }
    // A car without a record, with admission open, then with no free record, then closed.
    assert_eq!(bench.car(empty), Err(21));
    for last in 2..=17 {
        assert!(bench.hear(REQUEST.broadcast(address(last))).is_ok());
    }
    assert_eq!((bench.car(REQUEST), bench.car(empty)), (Err(10), Err(21)));
    let mut bench = Bench::plugged();
    assert_eq!(bench.tick(49_999), NOTHING);
    assert!(bench.hear(REQUEST.broadcast(OTHER)).is_ok());
    assert_eq!((bench.tick(1), bench.car(REQUEST), bench.car(empty)), (NOTHING, Err(9), Err(21)));
    assert_eq!(bench.hear(empty.broadcast(OTHER)), Err(21));
    // A held record stays as it is, in every phase.
    let mut asked = Bench::plugged();
    assert!(asked.car(REQUEST).is_ok());
    for mut bench in [
        asked,
        Bench::sounding(),
        Bench::reported(),
        Bench::awaiting(),
        Bench::ready(),
        Bench::counting(3),
        Bench::success(),
    ] {
        let before = bench.0.clone();
        bench.refuses(21, &[empty]);
        assert_eq!(bench.0, before);
    }
    // Other messages with such a run are of another run.
    let others = [
        Body::start(EMPTY),
        Body::sound(EMPTY, 0, [0; 16]),
        Body::response(EMPTY),
        Body::match_req(EMPTY),
    ];
    Bench::sounding().refuses(11, &others);
    // One octet that isn't zero is enough.
    for octet in 0..8 {
        let mut run = [0; 8];
        run[octet] = 1;
        let run = RunId(run);
        let reply = replies(&[Body::ParmCnf { run, attempt: Try::Iso }.send(US, CAR)]);
        assert_eq!(Bench::sounding().car(Body::ParmReq { run }), reply);
    }
}

#[test]
fn a_query_in_words() {
    let mut bench = Bench::sounding();
    assert_eq!((bench.profile(CAR, 12), bench.profile(CAR, 15)), (NOTHING, NOTHING));
    let event = Event::Query { car: CAR };
    let answer = crate::script::Answer::from(event.happen(&mut bench.0));
    assert_eq!(answer.octets.len(), 120);
    let line = show::line(&event, &bench.0, &answer);
    assert!(line.contains("0 sounds heard, values 12 to 15, widest spread 3"), "{line}");
    let output = |octets: &[u8]| {
        let length = (octets.len() as u32).to_le_bytes();
        [&[0; 12][..], &length, octets].concat()
    };
    let other = vec![9; 120];
    let words = compare::compare(&output(&answer.octets)[..], &output(&other)[..]).unwrap();
    let words = words.unwrap_err();
    assert!(words.contains("0 sounds heard, least 0C 0C"), "{words}");
    assert!(
        words.contains("| accepted, no indication, 151587081 sounds heard, least 09"),
        "{words}"
    );
    // Two frames of 60 octets are no query's answer.
    let frames =
        [validated(CAR, 1, 0), validated(OTHER, 2, 0)].map(|cnf| cnf.to_frame(ISO).unwrap());
    let words = compare::compare(&output(&frames.concat())[..], &output(&other)[..]).unwrap();
    assert!(words.unwrap_err().contains("CM_VALIDATE.CNF (ready) to 02:00:00:00:00:01, CM_"));
}

fn script(events: &[Event]) -> Vec<u8> {
    let mut script = Vec::new();
    write_head(&mut script, &CONFIG, events.len() as u32).unwrap();
    events.iter().for_each(|event| event.write(&mut script).unwrap());
    script
}

#[test]
fn a_script_is_answered_event_by_event() {
    let frame = |room| Event::Frame { octets: p1(), room };
    let hear = |message: Message| Event::Frame {
        octets: message.to_frame(ISO).unwrap(),
        room: LEAST_OUTPUT,
    };
    let profile = |value| Body::profile(CAR, [value; 58]).send(MODEM, US);
    let plug = Event::Pilot { to: Pilot::B, reading: 1 };
    let query = Event::Query { car: CAR };
    let start = hear(START.broadcast(CAR));
    let whole = script(&[
        plug,
        frame(LEAST_OUTPUT),
        frame(LEAST_OUTPUT - 1),
        query.clone(),
        start,
        hear(sound(1).broadcast(CAR)),
        hear(profile(7)),
        hear(profile(3)),
        query,
        Event::Terminate,
        Event::LinkUp,
    ]);
    let mut output = Vec::new();
    assert!(crate::run(&whole[..], &mut output).unwrap());
    let reply = Body::ParmCnf { run: RUN, attempt: Try::Iso }.send(US, CAR).to_frame(ISO).unwrap();
    let number = |number: u32| number.to_le_bytes().to_vec();
    let head = |numbers: [u32; 3]| numbers.map(number).concat();
    let answers = [
        number(0),
        head([0, 0, 0]),
        head([0, 0, 60]),
        reply,
        head([15, 0, 0]),
        head([11, 0, 0]),
        head([0, 0, 0]).repeat(4),
        head([0, 0, 120]),
        number(1),
        vec![3; 58],
        vec![7; 58],
        head([0, 1, 0]),
        head([8, 0, 0]),
    ];
    assert_eq!(output, answers.concat());
    for length in 0..whole.len() {
        let mut part = Vec::new();
        assert!(crate::run(&whole[..length], &mut part).is_err());
        assert!(output.starts_with(&part) && part.is_empty() == (length < 51));
    }
    assert!(crate::run(&[&whole[..], &[0]].concat()[..], &mut Vec::new()).is_err());
    for (at, octet) in [(51, 8), (60, 0x10), (64, 0x10), (67, 6), (63, 2)] {
        let (mut broken, mut output) = (whole.clone(), Vec::new());
        broken[at] = octet;
        broken[at + 1] |= u8::from(octet == 0x10);
        assert!(crate::run(&broken[..], &mut output).is_err());
        assert_eq!(output, number(0));
    }
    // The settings behind the NMK are numbers, 1 or 0; another breaks the layout.
    for at in [35, 39] {
        let mut set = whole.clone();
        set[at] = 1;
        assert!(crate::run(&set[..], &mut Vec::new()).unwrap());
    }
    for (at, octet) in [(35, 2), (35, 0xFF), (36, 1), (38, 0x80), (39, 2), (40, 1), (42, 0x80)] {
        let (mut broken, mut output) = (whole.clone(), Vec::new());
        broken[at] = octet;
        assert!(crate::run(&broken[..], &mut output).is_err() && output.is_empty());
    }
}

#[test]
fn random_scripts_come_from_their_seed_and_compare_equal() {
    let outputs = [1, 1, 3].map(|seed| {
        let mut output = Vec::new();
        assert!(crate::run(&random_script(seed, 5000)[..], &mut output).unwrap());
        output
    });
    let compare = |a: usize, b: usize| compare::compare(&outputs[a][..], &outputs[b][..]).unwrap();
    assert_eq!(compare(0, 1), Ok("5000 events, no difference".into()));
    assert!(compare(0, 2).is_err_and(|words| words.starts_with("event ")));
}

/// Seeds and how many events of them. The first two are covered: an ISO and an SAE station, each
/// of which reaches every row but 16, the other edition's and those of a station that doesn't
/// require validation; the third is covered and reaches these; the last has a bad configuration.
const FULL: (u64, u32) = (18, 2_600);
const SAE: (u64, u32) = (72, 2_700);
const EXEMPT: (u64, u32) = (7, 700);
const BAD: (u64, u32) = (67, 250);

fn random_script(seed: u64, events: u32) -> Vec<u8> {
    let mut script = Vec::new();
    generate::generate(seed, events, &mut script).unwrap();
    script
}

fn covered_script((seed, events): (u64, u32)) -> Vec<u8> {
    let mut script = Vec::new();
    generate::cover(seed, events, &mut script).unwrap();
    script
}

/// The rows of the table of a script.
fn counted(script: &[u8]) -> Vec<String> {
    let mut counted = Vec::new();
    assert!(crate::count(script, &mut counted).unwrap());
    String::from_utf8(counted).unwrap().lines().map(String::from).collect()
}

#[test]
fn a_random_script_reaches_every_row() {
    let is_exempt = |row: &String| {
        validation_count::EXEMPT.iter().any(|name| row.contains(&format!(" {name}  ")))
    };
    let is_sae = |row: &String| {
        [" SAE ", "  22 START of the other try", "  23 another group count"]
            .iter()
            .any(|name| row.contains(name))
    };
    let is_iso = |row: &String| row.contains(" ISO ");
    // A row that the table did not foresee would be one more.
    let rows = count::Counts::new(CONFIG).to_string().lines().count();
    for (script, edition) in [(FULL, Edition::Iso), (SAE, Edition::Sae)] {
        let script = covered_script(script);
        assert_eq!(script[39], u8::from(edition == Edition::Sae));
        let full = counted(&script);
        let zeros: Vec<&String> = full.iter().filter(|row| row.ends_with(" 0")).collect();
        let (exempt, others): (Vec<&String>, Vec<&String>) =
            zeros.into_iter().partition(|row| is_exempt(row));
        assert_eq!(exempt.len(), validation_count::EXEMPT.len());
        let is_own = |row: &&&String| match edition {
            Edition::Iso => !is_sae(row),
            Edition::Sae => !is_iso(row),
        };
        let own: Vec<&&String> = others.iter().filter(is_own).collect();
        assert!(matches!(own[..], [row] if row.contains("passage  ")), "{own:?}");
        assert!(own[0].contains("  bad configuration  "));
        assert_eq!(full.len(), rows);
    }
    let reached = counted(&covered_script(EXEMPT));
    assert!(reached.iter().filter(|row| is_exempt(row)).all(|row| !row.ends_with(" 0")));
    // A badly configured station accepts nothing; reductions are no calls of it.
    let bad = counted(&random_script(BAD.0, BAD.1));
    let ends =
        |name: &str, end: &str| bad.iter().any(|row| row.contains(name) && row.ends_with(end));
    assert!(ends(" 16 bad configuration ", " 246") && ends("  bad configuration  ", " 1"));
    let accepted = bad.iter().filter(|row| row.starts_with("accepted") && !row.ends_with(" 0"));
    assert!(accepted.into_iter().all(|row| row.contains(" reduction ")));
    assert_eq!((reached.len(), bad.len()), (rows, rows));
}

/// What one random script may miss, many reach.
#[test]
fn random_scripts_together_reach_every_row() {
    let mut reached: Vec<bool> = Vec::new();
    let mut rows = Vec::new();
    for seed in 1..=60 {
        rows = counted(&random_script(seed, 5_000));
        reached.resize(rows.len(), false);
        rows.iter().zip(&mut reached).for_each(|(row, reached)| *reached |= !row.ends_with(" 0"));
    }
    let zeros: Vec<_> = rows.iter().zip(&reached).filter(|(_, reached)| !**reached).collect();
    assert!(zeros.is_empty(), "{zeros:?}");
}

#[test]
fn the_demo_ends_in_link_established() {
    let (mut script, mut shown) = (Vec::new(), Vec::new());
    generate::demo(&mut script).unwrap();
    assert!(crate::show(&script[..], None, &mut shown).unwrap());
    let shown = String::from_utf8(shown).unwrap();
    assert!(shown.contains("CM_VALIDATE.CNF (success, 2 toggles)"));
    assert!(shown.ends_with("link established\n"));
}

#[test]
fn v1_the_first_request_and_a_second_car() {
    let mut bench = Bench::two_awaiting();
    let frame = "02 00 00 00 00 AA 02 00 00 00 00 01 88 E1 01 78 60 00 00 00 00 01";
    assert_eq!(FIRST.send(CAR, US).to_frame(ISO), Ok(octets(frame, 38)));
    let reply = "02 00 00 00 00 01 02 00 00 00 00 AA 88 E1 01 79 60 00 00 00 00 01";
    assert_eq!(bench.octets(&octets(frame, 38)), Ok((octets(reply, 38), None)));
    assert_eq!(bench.step(CAR), Some((Step::Ready, 400)));
    let before = bench.0.clone();
    for _ in 0..2 {
        assert_eq!(bench.hear(FIRST.send(OTHER, US)), replies(&[validated(OTHER, 3, 0)]));
        assert_eq!(bench.0, before);
    }
    // It is free again behind the result, and so is a station with a success.
    assert_eq!(bench.hear(second(0).broadcast(CAR)), NOTHING);
    assert_eq!(bench.hear(FIRST.send(OTHER, US)), replies(&[validated(OTHER, 3, 0)]));
    assert_eq!(bench.tick(100), replies(&[validated(CAR, 2, 0)]));
    assert_eq!(bench.hear(FIRST.send(OTHER, US)), replies(&[validated(OTHER, 1, 0)]));
    assert_eq!(bench.step(CAR), Some((Step::Success, 10_000)));
}

#[test]
fn v2_two_toggles() {
    let mut bench = Bench::counting(9);
    assert_eq!(bench.step(CAR), Some((Step::Counting { toggles: 0, begun: false }, 1_000)));
    assert_eq!((bench.car(MATCH), bench.tick(500)), (Err(12), NOTHING));
    bench.toggle(&[Pilot::C, Pilot::B, Pilot::C]);
    assert_eq!(bench.step(CAR), Some((Step::Counting { toggles: 1, begun: true }, 500)));
    bench.toggle(&[Pilot::B]);
    assert_eq!((bench.tick(499), bench.car(MATCH)), (NOTHING, Err(12)));
    assert_eq!(bench.tick(1), replies(&[validated(CAR, 2, 2)]));
    let reply = "02 00 00 00 00 01 02 00 00 00 00 AA 88 E1 01 79 60 00 00 00 02 02";
    assert_eq!(validated(CAR, 2, 2).to_frame(ISO), Ok(octets(reply, 38)));
    assert_eq!(bench.car(MATCH), replies(&[match_cnf()]));
    assert_eq!(bench.0.state, State::Joining { left: 12_000, car: CAR, run: RUN });
    assert_eq!(bench.0.records().count(), 0);
}

#[test]
fn v3_the_pilot_at_c_when_the_window_ends() {
    for state in [Pilot::C, Pilot::D] {
        let mut bench = Bench::counting(1);
        bench.toggle(&[Pilot::C, Pilot::B, state]);
        assert_eq!(bench.tick(200), replies(&[validated(CAR, 3, 0)]));
        assert_eq!(bench.phase(CAR), None);
        assert_eq!(bench.phase(OTHER), Some((Phase::Awaiting, 9_800)));
    }
}

#[test]
fn v4_v7_v8_v9_what_is_a_toggle() {
    use Pilot::{B, C, D};
    let cases: [(&[Pilot], u8); 11] = [
        (&[C, D, C, B], 0),
        (&[C, C, B], 1),
        (&[], 0),
        (&[B, B], 0),
        (&[C, B, B, C, C, C, B], 2),
        (&[D, B, C, B], 1),
        (&[D, C, B], 0),
        (&[C, D, B], 0),
        (&[C, B, D, C, B, C, B], 2),
        (&[C, D, D, C, B], 0),
        (&[C, B, C, D, C, B], 1),
    ];
    for (states, toggles) in cases {
        let mut bench = Bench::counting(0);
        bench.toggle(states);
        assert_eq!(bench.tick(100), replies(&[validated(CAR, 2, toggles)]));
        assert_eq!(bench.step(CAR), Some((Step::Success, 10_000)));
        assert_eq!(bench.car(MATCH), replies(&[match_cnf()]));
    }
    // Changes before the second request don't count, nor does one that it finds begun.
    let mut bench = Bench::ready();
    bench.toggle(&[C, B, C]);
    assert_eq!(bench.hear(second(0).broadcast(CAR)), NOTHING);
    bench.toggle(&[C, B]);
    assert_eq!(bench.step(CAR), Some((Step::Counting { toggles: 0, begun: false }, 100)));
    bench.toggle(&[C, B]);
    assert_eq!(bench.tick(100), replies(&[validated(CAR, 2, 1)]));
    // Nor do changes behind the result.
    bench.toggle(&[C, B, D]);
    assert_eq!(bench.step(CAR), Some((Step::Success, 10_000)));
}

#[test]
fn toggles_count_up_to_255() {
    let mut bench = Bench::counting(255);
    assert_eq!(bench.step(CAR).map(|(_, left)| left), Some(25_600));
    for count in 1..=300_u16 {
        bench.toggle(&[Pilot::C, Pilot::B]);
        let toggles = count.min(255) as u8;
        assert_eq!(bench.step(CAR), Some((Step::Counting { toggles, begun: false }, 25_600)));
    }
    assert_eq!(bench.tick(25_599), NOTHING);
    assert_eq!(bench.tick(1), replies(&[validated(CAR, 2, 255)]));
}

#[test]
fn v5_no_second_request() {
    let mut bench = Bench::ready();
    assert_eq!((bench.tick(399), bench.step(CAR)), (NOTHING, Some((Step::Ready, 1))));
    assert_eq!((bench.tick(1), bench.phase(CAR)), (NOTHING, None));
    assert_eq!(bench.hear(second(0).broadcast(CAR)), Err(11));
    let mut bench = Bench::success();
    bench.toggle(&[Pilot::C]);
    assert_eq!((bench.tick(9_999), bench.step(CAR)), (NOTHING, Some((Step::Success, 1))));
    assert_eq!((bench.tick(1), bench.phase(CAR)), (NOTHING, None));
}

#[test]
fn v6_not_required() {
    let mut bench = Bench::with(Config { exempt: true, ..CONFIG });
    assert_eq!(bench.pilot(Pilot::B, 0), NOTHING);
    bench.bring_to_awaiting(&[CAR, OTHER]);
    assert_eq!(bench.tick(10), NOTHING);
    for car in [CAR, CAR, OTHER] {
        assert_eq!(bench.hear(FIRST.send(car, US)), replies(&[validated(car, 4, 0)]));
        assert_eq!(bench.phase(car), Some((Phase::Awaiting, 9_990)));
        assert_eq!(bench.hear(second(0).broadcast(car)), Err(12));
    }
    assert_eq!(bench.hear(FIRST.send(address(3), US)), Err(11));
    assert_eq!(bench.car(MATCH), replies(&[match_cnf()]));
    bench.refuses(8, &[FIRST]);
}

#[test]
fn v10_failure_and_no_link_in_one_tick() {
    let late = |car: Address| {
        let mut bench = Bench::plugged();
        assert_eq!(bench.tick(49_000), NOTHING);
        bench.bring_to_awaiting(&[car]);
        assert_eq!(bench.hear(FIRST.send(car, US)), replies(&[validated(car, 1, 0)]));
        bench
    };
    let mut bench = late(CAR);
    assert_eq!(bench.hear(second(3).broadcast(CAR)), NOTHING);
    bench.toggle(&[Pilot::C]);
    assert_eq!((bench.tick(399), bench.0.state), (NOTHING, State::Matching { admission: 1 }));
    let failed = validated(CAR, 3, 0).to_frame(ISO).unwrap();
    assert_eq!(bench.tick(1), Ok((failed, Some(Indication::NoLink))));
    assert_eq!((bench.0.state, bench.0.pilot), (State::Unmatched, Pilot::C));
    // Ready that fires, and a success that stays and then fires.
    assert_eq!(late(CAR).tick(400), NO_LINK);
    let mut bench = late(CAR);
    assert_eq!(bench.hear(second(3).broadcast(CAR)), NOTHING);
    assert_eq!(bench.tick(60_000), replies(&[validated(CAR, 2, 0)]));
    assert_eq!(bench.0.state, State::Matching { admission: 0 });
    assert_eq!((bench.tick(9_999), bench.tick(1)), (NOTHING, NO_LINK));
}

#[test]
fn confirmations_stand_behind_reports() {
    // The first record validates, the others report.
    let mut bench = Bench::plugged();
    bench.bring_to_awaiting(&[CAR]);
    let others = [OTHER, address(3)];
    for car in others {
        assert!(bench.hear(REQUEST.broadcast(car)).is_ok());
        assert_eq!(bench.hear(START.broadcast(car)), NOTHING);
        assert_eq!(bench.profile(car, car.0[5]), NOTHING);
    }
    assert_eq!(bench.car(FIRST), replies(&[validated(CAR, 1, 0)]));
    assert_eq!(bench.hear(second(4).broadcast(CAR)), NOTHING);
    let reports = others.map(|car| report(car, 1, car.0[5]));
    let success = validated(CAR, 2, 0);
    let mut together = bench.clone();
    assert_eq!(together.tick(600), replies(&[reports[0], reports[1], success]));
    assert_eq!(together.call(LEAST_OUTPUT - 1, |station, output| station.tick(0, output)), Err(15));
    bench.toggle(&[Pilot::C]);
    let failure = validated(CAR, 3, 0);
    let (octets, _) = bench.tick(600).unwrap();
    assert_eq!(Message::read_all(&octets), (vec![reports[0], reports[1], failure], 0));
    assert_eq!(octets.len(), 2 * 129 + 60);
    assert_eq!(bench.tick(200), replies(&reports));
}

#[test]
fn requests_in_other_phases() {
    let mut bench = Bench::plugged();
    let both = [FIRST.send(CAR, US), second(7).broadcast(CAR)];
    let refused = |bench: &mut Bench, numbers: [u32; 2]| {
        let seen = both.map(|message| bench.hear(message));
        assert_eq!(seen, numbers.map(Err));
    };
    refused(&mut Bench::new(), [8, 8]);
    refused(&mut bench, [11, 11]);
    assert!(bench.car(REQUEST).is_ok());
    refused(&mut bench, [12, 12]);
    refused(&mut Bench::sounding(), [12, 12]);
    refused(&mut Bench::reported(), [12, 12]);
    assert_eq!(Bench::awaiting().hear(both[1]), Err(12));
    assert_eq!(Bench::ready().hear(both[0]), Err(12));
    refused(&mut Bench::counting(0), [12, 12]);
    refused(&mut Bench::success(), [12, 12]);
    let mut joining = Bench::joining();
    refused(&mut joining, [8, 8]);
    assert!(joining.link_up().is_ok());
    refused(&mut joining, [8, 8]);
    // 7 before 8, and 17 before both.
    for strange in [US, MODEM] {
        assert_eq!(bench.hear(FIRST.send(strange, US)), Err(7));
        assert_eq!(bench.hear(second(0).broadcast(strange)), Err(7));
    }
    for to in [OTHER, MODEM] {
        assert_eq!(Bench::new().hear(FIRST.send(CAR, to)), Err(7));
    }
    assert_eq!(Bench::new().hear(validated(US, 1, 0)), Err(17));
    assert_eq!(Bench::ready().hear(validated(CAR, 0, 255)), Err(17));
}

#[test]
fn other_messages_while_a_car_validates() {
    let steps = [Bench::ready(), Bench::counting(0), Bench::success()];
    for (mut bench, is_success) in steps.into_iter().zip([false, false, true]) {
        bench.refuses(12, &[START, RESPONSE, sound(0), sound(10)]);
        assert_eq!(bench.profile(CAR, 1), Err(12));
        bench.refuses(11, &[OTHER_RUN]);
        assert_eq!(bench.service(CAR), service(0, 40, 40));
        match is_success {
            true => assert_eq!(bench.clone().car(MATCH), replies(&[match_cnf()])),
            false => bench.refuses(12, &[MATCH]),
        }
        // A restart, another car's match, a pilot loss and terminate send no confirmation.
        let cnf = Body::ParmCnf { run: RUN, attempt: Try::Iso }.send(US, CAR);
        let mut restarted = bench.clone();
        assert_eq!(restarted.car(REQUEST), replies(&[cnf]));
        assert_eq!(restarted.phase(CAR), Some((Phase::Asked, 400)));
        assert_eq!(restarted.hear(FIRST.send(OTHER, US)), replies(&[validated(OTHER, 1, 0)]));
        let mut matched = bench.clone();
        let reply = Body::match_cnf(RUN, NID, CONFIG.nmk).send(US, OTHER);
        assert_eq!(matched.hear(MATCH.send(OTHER, US)), replies(&[reply]));
        assert_eq!((matched.0.records().count(), matched.tick(400)), (0, NOTHING));
        for lost in [Pilot::A, Pilot::E, Pilot::F] {
            let mut bench = bench.clone();
            assert_eq!(bench.pilot(lost, 5), NO_LINK);
            assert_eq!((bench.0.records().count(), bench.tick(400)), (0, NOTHING));
            assert_eq!((bench.pilot(Pilot::B, 6), bench.phase(CAR)), (NOTHING, None));
        }
        assert_eq!((bench.terminate(), bench.0.records().count()), (NO_LINK, 0));
    }
}

#[test]
fn validation_is_one_firing_a_tick() {
    let mut bench = Bench::ready();
    assert_eq!((bench.tick(300), bench.hear(second(0).broadcast(CAR))), (NOTHING, NOTHING));
    assert_eq!((bench.tick(0), bench.tick(99)), (NOTHING, NOTHING));
    // The excess is dropped: the 10,000 start at the tick.
    bench.toggle(&[Pilot::C, Pilot::B]);
    let after = bench.0.reading.wrapping_add(20_000);
    let seen = bench.call(LEAST_OUTPUT, |station, output| station.tick(after, output));
    assert_eq!(seen, replies(&[validated(CAR, 2, 1)]));
    assert_eq!(bench.step(CAR), Some((Step::Success, 10_000)));
    assert_eq!(bench.phase(OTHER), None);
    // A refused tick ends no window.
    let mut bench = Bench::counting(0);
    let before = bench.0.clone();
    assert_eq!((bench.tick(60_001), &bench.0), (Err(14), &before));
    assert_eq!(bench.call(LEAST_OUTPUT - 1, |station, output| station.tick(700, output)), Err(15));
    assert_eq!(bench.0, before);
}

#[test]
fn validate_messages_are_read_and_written() {
    let read = |frame: &[u8]| Message::read(frame, ISO).map_err(Refusal::number);
    for timer in 0..=255 {
        let message = second(timer).broadcast(CAR);
        let frame = message.to_frame(ISO).unwrap();
        assert_eq!((frame.len(), read(&frame[..22])), (60, Ok(message)));
        let (single, seen) =
            (second(timer).send(CAR, US), if timer == 0 { Ok(()) } else { Err(6) });
        assert_eq!(single.to_frame(ISO).map(|_| ()).map_err(Refusal::number), seen);
        let mut frame = frame.clone();
        frame[..6].copy_from_slice(&US.0);
        assert_eq!(read(&frame), seen.map(|()| single));
        // The address comes before the timer.
        frame[0] = 1;
        assert_eq!(read(&frame), Err(5));
        for result in 0..=6 {
            let message = validated(CAR, result, timer);
            let mut frame = validated(CAR, 0, timer).to_frame(ISO).unwrap();
            frame[21] = result;
            match result {
                0..=4 => {
                    assert_eq!((read(&frame), message.to_frame(ISO)), (Ok(message), Ok(frame)));
                }
                _ => {
                    assert_eq!(
                        (read(&frame), message.to_frame(ISO)),
                        (Err(6), Err(Refusal::Octet))
                    );
                }
            }
        }
    }
    for message in [FIRST.send(CAR, US), FIRST.broadcast(CAR)] {
        for (at, octet) in [(19, 1), (21, 0), (21, 2)] {
            let mut frame = message.to_frame(ISO).unwrap();
            frame[at] = octet;
            assert_eq!(read(&frame), Err(6));
        }
    }
    let mut output = [0xEE; 60];
    assert_eq!(second(1).send(CAR, US).write(ISO, &mut []), Err(Refusal::Octet));
    assert_eq!(validated(CAR, 5, 0).write(ISO, &mut []), Err(Refusal::Octet));
    assert_eq!(validated(Address::BROADCAST, 5, 0).write(ISO, &mut []), Err(Refusal::AddressKind));
    assert_eq!(FIRST.send(CAR, US).write(ISO, &mut output[..59]), Err(Refusal::Output));
    assert_eq!(output, [0xEE; 60]);
    assert_eq!(FIRST.send(CAR, US).car(), Some(CAR));
    assert_eq!(validated(CAR, 1, 0).car(), None);
}

#[test]
fn at_most_one_car_validates() {
    for seed in 0..30 {
        let random = random_script(seed, 3_000);
        let mut script = crate::script::Script::open(&random[..]).unwrap();
        let (mut station, _) = Station::configure(script.config);
        while let Some(event) = script.next_event().unwrap() {
            let _ = event.happen(&mut station);
            assert!(station.records().filter(|record| record.is_validating()).count() <= 1);
            assert!(!script.config.exempt || station.records().all(|record| !is_validated(record)));
        }
    }
}

fn is_validated(record: &crate::station::Record) -> bool {
    matches!(record.phase, Phase::Validating(_))
}

#[test]
fn validation_in_words() {
    let (mut bench, hear) = (Bench::ready(), second(2).broadcast(CAR).to_frame(ISO).unwrap());
    let event = Event::Frame { octets: hear, room: LEAST_OUTPUT };
    let answer = crate::script::Answer::from(event.happen(&mut bench.0));
    let line = show::line(&event, &bench.0, &answer);
    assert!(line.contains("CM_VALIDATE.REQ second, 2"), "{line}");
    assert!(line.contains("Validating, toggles: 0, 300 ms"), "{line}");
    bench.toggle(&[Pilot::C]);
    let event = Event::Pilot { to: Pilot::B, reading: 0 };
    let answer = crate::script::Answer::from(event.happen(&mut bench.0));
    assert!(show::line(&event, &bench.0, &answer).contains("2 held, toggles: 1"));
    let octets = bench.tick(300).unwrap().0;
    let words = "CM_VALIDATE.CNF (success, 1 toggles) to 02:00:00:00:00:01";
    assert_eq!(compare::frames(&octets), words);
    assert_eq!(compare::frames(&[&octets[..], &[1, 2]].concat()), format!("{words}, 2 octets"));
    assert_eq!(
        (compare::frames(&[]), compare::frames(&[9])),
        ("no frame".into(), "1 octets".into())
    );
}
