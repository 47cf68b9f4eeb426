//! The additions' cases C1 to C10 by their octets, and each sentence on the car at least once.

use crate::car::{Answer, Car, Config, Indication, Network, Report, State};
use crate::car_script::{write_head, Event, Script};
use crate::messages::{Address, Body, Edition, Message, Nid, Nmk, RunId, Try};
use crate::refusal::Refusal;
use crate::script::{self, write_entry};
use crate::station::{self, Pilot, Station};
use crate::{amplitude, car_count, car_generate, compare};

const fn address(last: u8) -> Address {
    Address([2, 0, 0, 0, 0, last])
}

const ISO: Edition = Edition::Iso;
const US: Address = address(1);
const STATION: Address = address(0xAA);
const OTHER: Address = address(0xAB);
const RUN: RunId = RunId([1, 2, 3, 4, 5, 6, 7, 8]);
const WRONG_RUN: RunId = RunId([1, 2, 3, 4, 5, 6, 7, 9]);
const RANDOM: [u8; 16] = [0xA5; 16];
const CONFIG: Config = Config { car: US, reference: 0 };
const NETWORK: Network =
    Network { station: STATION, nid: Nid([1, 2, 3, 4, 5, 6, 0x3F]), nmk: Nmk([0x4B; 16]) };

/// Octets as text; `5*EE` are five octets EE.
fn octets(text: &str) -> Vec<u8> {
    let octet = |text: &str| u8::from_str_radix(text, 16).unwrap();
    let part = |text: &str| match text.split_once('*') {
        Some((times, text)) => vec![octet(text); times.parse().unwrap()],
        None => vec![octet(text)],
    };
    text.split_whitespace().flat_map(part).collect()
}

/// The additions' P1, P2 and the car's other frames, by the tables of the paper.
const P1: &str = "6*FF 02 00 00 00 00 01 88 E1 01 64 60 00 00 00 00 01 02 03 04 05 06 07 08 31*00";
const P2: &str =
    "02 00 00 00 00 01 02 00 00 00 00 AA 88 E1 01 65 60 00 00 FF FF FF FF FF FF 0A 06 \
                  01 02 00 00 00 00 01 00 00 01 02 03 04 05 06 07 08 16*00";
const START: &str = "6*FF 02 00 00 00 00 01 88 E1 01 6A 60 00 00 00 00 0A 06 01 02 00 00 00 00 01 \
                     01 02 03 04 05 06 07 08 22*00";

fn sound_octets(count: u8) -> Vec<u8> {
    octets(&format!(
        "6*FF 02 00 00 00 00 01 88 E1 01 76 60 00 00 19*00 {count:02X} 01 02 03 04 05 06 07 08 \
         8*00 16*A5"
    ))
}

/// A report of so many sounds, with its 58 values as text.
fn report_octets(station: u8, sounds: u8, values: &str) -> Vec<u8> {
    octets(&format!(
        "02 00 00 00 00 01 02 00 00 00 00 {station:02X} 88 E1 01 6E 60 00 00 00 00 \
         02 00 00 00 00 01 01 02 03 04 05 06 07 08 34*00 {sounds:02X} 3A {values}"
    ))
}

fn response_octets(station: u8) -> Vec<u8> {
    octets(&format!(
        "02 00 00 00 00 {station:02X} 02 00 00 00 00 01 88 E1 01 6F 60 00 00 00 00 \
         02 00 00 00 00 01 01 02 03 04 05 06 07 08 35*00"
    ))
}

fn match_octets(station: u8) -> Vec<u8> {
    octets(&format!(
        "02 00 00 00 00 {station:02X} 02 00 00 00 00 01 88 E1 01 7C 60 00 00 00 00 3E 00 17*00 \
         02 00 00 00 00 01 17*00 02 00 00 00 00 {station:02X} 01 02 03 04 05 06 07 08 8*00"
    ))
}

fn match_cnf_octets(station: u8) -> Vec<u8> {
    octets(&format!(
        "02 00 00 00 00 01 02 00 00 00 00 {station:02X} 88 E1 01 7D 60 00 00 00 00 56 00 17*00 \
         02 00 00 00 00 01 17*00 02 00 00 00 00 {station:02X} 01 02 03 04 05 06 07 08 8*00 \
         01 02 03 04 05 06 3F 00 16*4B"
    ))
}

/// The frame of an accepted call with its indication, or the refusal's number.
type Seen = Result<(Vec<u8>, Option<Indication>), u32>;
const NOTHING: Seen = Ok((Vec::new(), None));
const NO_LINK: Seen = Ok((Vec::new(), Some(Indication::NoLink)));
const NOT_FOUND: Seen = Ok((Vec::new(), Some(Indication::NotFound)));
const KEY_GIVEN: Seen = Ok((Vec::new(), Some(Indication::KeyGiven)));
const LINKED: Seen = Ok((Vec::new(), Some(Indication::LinkEstablished)));

fn sends(frame: &[u8]) -> Seen {
    Ok((frame.to_vec(), None))
}

fn matches(station: u8, indication: Indication) -> Seen {
    Ok((match_octets(station), Some(indication)))
}

const CONFIRMATION: Body = Body::ParmCnf { run: RUN, attempt: Try::Iso };
const MATCH_CNF: Body = Body::match_cnf(RUN, NETWORK.nid, NETWORK.nmk);

const VALIDATED: Body = Body::ValidateCnf { toggles: 2, result: 2 };

fn report(sounds: u8, value: u8) -> Body {
    Body::report(RUN, sounds, [value; 58])
}

#[derive(Clone)]
struct Bench(Car);

impl Bench {
    fn with_reference(reference: u32) -> Bench {
        let (car, answer) = Car::configure(Config { reference, ..CONFIG });
        assert_eq!(answer, Ok(()));
        Bench(car)
    }

    fn idle() -> Bench {
        Bench::with_reference(0)
    }

    /// A call, which changes only the octets it reports, and nothing at all where it refuses.
    fn call(&mut self, room: usize, call: impl Fn(&mut Car, &mut [u8]) -> Answer) -> Seen {
        let (before, mut output) = (self.0.clone(), vec![0xEE; room]);
        match call(&mut self.0, &mut output) {
            Ok(accepted) => {
                let rest = output.split_off(accepted.written);
                assert!(rest.iter().all(|octet| *octet == 0xEE));
                Ok((output, accepted.indication))
            }
            Err(refusal) => {
                assert!(self.0 == before && output.iter().all(|octet| *octet == 0xEE));
                Err(refusal.number())
            }
        }
    }

    fn start_at(&mut self, reading: u32) -> Seen {
        self.call(85, |car, output| car.start(RUN, RANDOM, reading, output))
    }

    fn start(&mut self) -> Seen {
        self.start_at(self.0.reading)
    }

    fn octets(&mut self, frame: &[u8]) -> Seen {
        self.call(85, |car, output| car.receive(frame, output))
    }

    fn hear(&mut self, message: Message) -> Seen {
        self.octets(&message.to_frame(ISO).unwrap())
    }

    /// A message of the first station to us.
    fn station(&mut self, body: Body) -> Seen {
        self.hear(body.send(STATION, US))
    }

    fn tick(&mut self, elapsed: u32) -> Seen {
        let reading = self.0.reading.wrapping_add(elapsed);
        self.call(85, |car, output| car.tick(reading, output))
    }

    fn link_up(&mut self) -> Seen {
        self.call(0, |car, _| car.link_up())
    }

    fn terminate(&mut self) -> Seen {
        self.call(0, |car, _| car.terminate())
    }

    fn key(&self) -> Result<Network, u32> {
        self.0.network().map_err(Refusal::number)
    }

    fn reports(&self) -> Vec<(u8, u32)> {
        self.0.reports().map(|Report { station, total }| (station.0[5], *total)).collect()
    }

    fn asking_with(reference: u32) -> Bench {
        let mut bench = Bench::with_reference(reference);
        assert_eq!(bench.start(), sends(&octets(P1)));
        bench
    }

    fn asking() -> Bench {
        Bench::asking_with(0)
    }

    fn confirmed() -> Bench {
        let mut bench = Bench::asking();
        assert_eq!(bench.octets(&octets(P2)), NOTHING);
        bench
    }

    fn sounding_with(reference: u32) -> Bench {
        let mut bench = Bench::asking_with(reference);
        assert_eq!(bench.octets(&octets(P2)), NOTHING);
        assert_eq!(bench.tick(100), sends(&octets(START)));
        bench
    }

    fn sounding() -> Bench {
        Bench::sounding_with(0)
    }

    /// One station has reported, and it is found.
    fn requesting() -> Bench {
        let mut bench = Bench::sounding();
        assert_eq!(bench.station(report(10, 9)), sends(&response_octets(0xAA)));
        assert_eq!(bench.tick(1_200), matches(0xAA, Indication::Found));
        bench
    }

    fn joining() -> Bench {
        let mut bench = Bench::requesting();
        assert_eq!(bench.octets(&match_cnf_octets(0xAA)), KEY_GIVEN);
        bench
    }

    fn matched() -> Bench {
        let mut bench = Bench::joining();
        assert_eq!(bench.link_up(), LINKED);
        bench
    }

    /// A car in each of the states, in the paper's order.
    fn all() -> [Bench; 7] {
        [
            Bench::idle(),
            Bench::asking(),
            Bench::confirmed(),
            Bench::sounding(),
            Bench::requesting(),
            Bench::joining(),
            Bench::matched(),
        ]
    }
}

#[test]
fn c1_start_sends_the_request() {
    let mut bench = Bench::idle();
    assert_eq!(bench.start_at(77), sends(&octets(P1)));
    assert_eq!(octets(P1).len(), 60);
    assert_eq!(bench.0.state, State::Asking { left: 200, retries: 2 });
    assert_eq!((bench.0.reading, bench.0.run, bench.0.random), (77, RUN, RANDOM));
}

#[test]
fn c2_the_confirmation_and_the_first_start() {
    let mut bench = Bench::asking();
    assert_eq!(bench.octets(&octets(P2)), NOTHING);
    assert_eq!(bench.0.state, State::Confirmed { left: 100 });
    assert_eq!((bench.tick(99), bench.0.state), (NOTHING, State::Confirmed { left: 1 }));
    assert_eq!(bench.tick(1), sends(&octets(START)));
    assert_eq!(bench.0.state, State::Sounding { sent: 1, next: 40, left: 1_200 });
}

#[test]
fn c3_thirteen_frames() {
    let mut bench = Bench::sounding();
    let frames = [octets(START), octets(START)].into_iter().chain((0..10).rev().map(sound_octets));
    for (sent, frame) in (2..).zip(frames) {
        assert_eq!((bench.tick(39), bench.tick(1)), (NOTHING, sends(&frame)));
        let left = 1_200 - 40 * (u32::from(sent) - 1);
        assert_eq!(bench.0.state, State::Sounding { sent, next: 40, left });
    }
    assert_eq!(sound_octets(0).len(), 71);
    assert_eq!(bench.0.state, State::Sounding { sent: 13, next: 40, left: 720 });
    for left in (1..720).rev() {
        assert_eq!(bench.tick(1), NOTHING);
        assert_eq!(bench.0.state, State::Sounding { sent: 13, next: 40, left });
    }
    assert_eq!((bench.tick(1), bench.0.state), (NO_LINK, State::Idle));
}

#[test]
fn c4_the_thresholds() {
    use Indication::{Found, PotentiallyFound};
    let requesting = State::Requesting { left: 200, retries: 2, station: STATION };
    for (reference, values, answer, state) in [
        (0, "57*0A 09", matches(0xAA, Found), requesting),
        (0, "58*0A", matches(0xAA, PotentiallyFound), requesting),
        (0, "57*14 13", matches(0xAA, PotentiallyFound), requesting),
        (0, "58*14", NOT_FOUND, State::Idle),
        (26, "57*24 23", matches(0xAA, Found), requesting),
        (26, "58*24", matches(0xAA, PotentiallyFound), requesting),
        (26, "57*2E 2D", matches(0xAA, PotentiallyFound), requesting),
        (26, "58*2E", NOT_FOUND, State::Idle),
        (0, "58*00", matches(0xAA, Found), requesting),
        (0, "58*FF", NOT_FOUND, State::Idle),
        (0, "02 44 02 FF 54*00", matches(0xAA, Found), requesting),
        (234, "58*FF", NOT_FOUND, State::Idle),
        (235, "57*FF FE", matches(0xAA, PotentiallyFound), requesting),
        (235, "58*FF", NOT_FOUND, State::Idle),
        (236, "58*FF", matches(0xAA, PotentiallyFound), requesting),
        (245, "FE 57*FF", matches(0xAA, Found), requesting),
        (245, "58*FF", matches(0xAA, PotentiallyFound), requesting),
        (246, "58*FF", matches(0xAA, Found), requesting),
        (255, "58*FF", matches(0xAA, Found), requesting),
    ] {
        let mut bench = Bench::sounding_with(reference);
        let answered = bench.octets(&report_octets(0xAA, 10, values));
        assert_eq!(answered, sends(&response_octets(0xAA)));
        assert_eq!((bench.tick(1_200), bench.0.state), (answer, state), "{reference}, {values}");
    }
    for (values, total) in
        [("57*0A 09", 579), ("58*0A", 580), ("57*14 13", 1_159), ("58*14", 1_160)]
    {
        let mut bench = Bench::sounding();
        assert!(bench.octets(&report_octets(0xAA, 10, values)).is_ok());
        assert_eq!(bench.reports(), [(0xAA, total)]);
    }
    let mut bench = Bench::sounding_with(26);
    assert!(bench.octets(&report_octets(0xAA, 10, "57*24 23")).is_ok());
    assert!(bench.octets(&report_octets(0xAB, 10, "58*24")).is_ok());
    assert_eq!(bench.reports(), [(0xAA, 2_087), (0xAB, 2_088)]);
}

#[test]
fn c5_the_least_total_and_the_first_of_equals() {
    let hears = |bench: &mut Bench, station, values| {
        let answer = bench.octets(&report_octets(station, 10, values));
        assert_eq!(answer, sends(&response_octets(station)));
    };
    for stations in [[0xAA, 0xAB], [0xAB, 0xAA]] {
        let mut bench = Bench::sounding();
        hears(&mut bench, stations[0], "08 56*09 0A");
        hears(&mut bench, stations[1], "58*09");
        assert_eq!(bench.tick(1_200), matches(stations[0], Indication::Found));
        let mut bench = Bench::sounding();
        hears(&mut bench, stations[0], "58*09");
        hears(&mut bench, stations[1], "57*09 08");
        assert_eq!(bench.tick(1_200), matches(stations[1], Indication::Found));
        // Smaller, but it is not the station's first.
        let mut bench = Bench::sounding();
        hears(&mut bench, stations[0], "58*09");
        hears(&mut bench, stations[1], "58*0A");
        let before = bench.0.clone();
        hears(&mut bench, stations[1], "58*00");
        hears(&mut bench, stations[0], "58*FF");
        assert_eq!(bench.0, before);
        assert_eq!(bench.tick(1_200), matches(stations[0], Indication::Found));
    }
}

#[test]
fn c6_reports_and_frames_that_are_refused() {
    let mut bench = Bench::sounding();
    for station in 0xA0..=0xA9 {
        let answer = bench.octets(&report_octets(station, 10, "58*0B"));
        assert_eq!(answer, sends(&response_octets(station)));
    }
    assert_eq!(bench.octets(&report_octets(0xAA, 10, "58*00")), Err(18));
    assert_eq!(bench.octets(&report_octets(0xA9, 10, "58*00")), sends(&response_octets(0xA9)));
    assert_eq!(bench.reports(), (0xA0..=0xA9).map(|last| (last, 638)).collect::<Vec<_>>());
    assert_eq!(bench.tick(1_200), matches(0xA0, Indication::PotentiallyFound));

    let mut bench = Bench::sounding();
    assert_eq!(bench.octets(&report_octets(0xAA, 0, "58*01")), Err(20));
    assert_eq!(bench.octets(&report_octets(0xAA, 1, "58*05")), sends(&response_octets(0xAA)));
    assert_eq!(bench.reports(), [(0xAA, 290)]);
    assert_eq!(bench.octets(&report_octets(0xAA, 0, "58*01")), Err(20));
    let mut wrong = report_octets(0xAA, 10, "58*01");
    wrong[19 + 15] = 9;
    assert_eq!(bench.octets(&wrong), Err(11));
    let request = "6*FF 02 00 00 00 00 02 88 E1 01 64 60 00 00 00 00 01 02 03 04 05 06 07 08 31*00";
    assert_eq!(bench.octets(&octets(request)), Err(19));
}

#[test]
fn c7_nobody_answers() {
    let mut bench = Bench::sounding();
    assert_eq!((bench.tick(1_200), bench.0.state), (NO_LINK, State::Idle));
    let mut bench = Bench::asking();
    for retries in [1, 0] {
        assert_eq!((bench.tick(199), bench.tick(1)), (NOTHING, sends(&octets(P1))));
        assert_eq!(bench.0.state, State::Asking { left: 200, retries });
    }
    assert_eq!((bench.tick(199), bench.tick(1)), (NOTHING, NO_LINK));
    assert_eq!((bench.0.state, bench.0.reading), (State::Idle, 600));
}

#[test]
fn c8_the_match_and_the_key() {
    let mut bench = Bench::requesting();
    assert_eq!(bench.octets(&match_cnf_octets(0xAB)), Err(11));
    assert_eq!(bench.key(), Err(8));
    assert_eq!(bench.octets(&match_cnf_octets(0xAA)), KEY_GIVEN);
    assert_eq!(bench.0.state, State::Joining { left: 12_000, network: NETWORK });
    assert_eq!(bench.key(), Ok(NETWORK));
    assert_eq!((bench.link_up(), bench.0.state), (LINKED, State::Matched { network: NETWORK }));
    assert_eq!((bench.key(), bench.link_up()), (Ok(NETWORK), Err(8)));
    assert_eq!(match_cnf_octets(0xAA).len(), 109);
}

#[test]
fn c9_reports_in_requesting() {
    let mut bench = Bench::requesting();
    let before = bench.0.clone();
    assert_eq!(bench.octets(&report_octets(0xAA, 10, "58*00")), sends(&response_octets(0xAA)));
    assert_eq!(bench.octets(&report_octets(0xAB, 10, "58*00")), Err(11));
    assert_eq!(bench.octets(&report_octets(0xAA, 0, "58*00")), Err(20));
    assert_eq!(bench.octets(&report_octets(0xAB, 0, "58*00")), Err(11));
    assert_eq!(bench.0, before);
    // Another station's is 11, kept or not.
    let mut bench = Bench::sounding();
    assert!(bench.octets(&report_octets(0xAA, 10, "58*01")).is_ok());
    assert!(bench.octets(&report_octets(0xAB, 10, "58*02")).is_ok());
    assert_eq!(bench.tick(1_200), matches(0xAA, Indication::Found));
    assert_eq!(bench.octets(&report_octets(0xAB, 10, "58*02")), Err(11));
    assert_eq!(response_octets(0xAA).len(), 70);
}

#[test]
fn c10_the_end_of_gathering() {
    // Every tick of 40 sends a frame, then the last one is due with the choice.
    let mut bench = Bench::sounding();
    assert!(bench.octets(&report_octets(0xAA, 10, "58*01")).is_ok());
    assert_eq!(bench.tick(1_160), sends(&octets(START)));
    assert_eq!(bench.tick(39), NOTHING);
    assert_eq!(bench.0.state, State::Sounding { sent: 2, next: 1, left: 1 });
    assert_eq!(bench.tick(1), matches(0xAA, Indication::Found));
    assert_eq!(bench.0.state, State::Requesting { left: 200, retries: 2, station: STATION });
    // In one step, and where none is due.
    for elapsed in [1_200, 1_201, 60_000] {
        let mut bench = Bench::sounding();
        assert!(bench.octets(&report_octets(0xAA, 10, "58*01")).is_ok());
        assert_eq!(bench.tick(elapsed), matches(0xAA, Indication::Found));
    }
    let mut bench = Bench::sounding();
    assert!(bench.octets(&report_octets(0xAA, 10, "58*01")).is_ok());
    for _ in 0..12 {
        assert!(bench.tick(40).is_ok_and(|(frame, _)| !frame.is_empty()));
    }
    assert_eq!((bench.tick(719), bench.tick(1)), (NOTHING, matches(0xAA, Indication::Found)));
    assert_eq!(match_octets(0xAA).len(), 85);
}

#[test]
fn a_bad_configuration_answers_16_to_everything() {
    for config in [
        Config { car: Address([0; 6]), ..CONFIG },
        Config { car: Address([1, 0, 0, 0, 0, 1]), ..CONFIG },
        Config { car: Address::BROADCAST, ..CONFIG },
        Config { reference: 256, ..CONFIG },
        Config { reference: 256 + 26, ..CONFIG },
        Config { reference: u32::MAX, ..CONFIG },
    ] {
        let (car, answer) = Car::configure(config);
        assert_eq!((answer, car.state), (Err(Refusal::Configuration), State::Idle));
        let mut bench = Bench(car);
        assert_eq!((bench.start(), bench.tick(70_000), bench.tick(0)), (Err(16), Err(16), Err(16)));
        assert_eq!((bench.octets(&[]), bench.octets(&octets(P2))), (Err(16), Err(16)));
        assert_eq!((bench.terminate(), bench.link_up(), bench.key()), (Err(16), Err(16), Err(16)));
        assert_eq!(bench.call(0, |car, output| car.start(RUN, RANDOM, 0, output)), Err(16));
        assert_eq!(bench.call(0, |car, output| car.tick(0, output)), Err(16));
        assert_eq!(bench.call(0, |car, output| car.receive(&[], output)), Err(16));
    }
    for reference in [0, 26, 255] {
        assert_eq!(Car::configure(Config { reference, ..CONFIG }).1, Ok(()));
    }
}

#[test]
fn a_fresh_car() {
    let Bench(car) = Bench::idle();
    assert_eq!((car.state, car.reading), (State::Idle, 0));
    assert_eq!((car.run, car.random), (RunId([0; 8]), [0; 16]));
    assert_eq!(car.reports().count(), 0);
    // Idle takes no frame, the run that it has before the first start included.
    let mut bench = Bench(car);
    let run = RunId([0; 8]);
    assert_eq!(bench.station(Body::ParmCnf { run, attempt: Try::Iso }), Err(8));
    assert_eq!((bench.tick(60_000), bench.tick(60_001)), (NOTHING, Err(14)));
    // A run of zeros is one like any other.
    let start = |car: &mut Car, output: &mut [u8]| car.start(run, [0; 16], 5, output);
    let request = Body::ParmReq { run }.broadcast(US).to_frame(ISO).unwrap();
    assert_eq!(bench.call(85, start), sends(&request));
    assert_eq!(bench.station(Body::ParmCnf { run, attempt: Try::Iso }), NOTHING);
}

#[test]
fn the_order_of_a_start() {
    for (place, mut bench) in Bench::all().into_iter().enumerate() {
        for room in [0, 60, 84] {
            let short = bench.call(room, |car, output| car.start(RUN, RANDOM, 9, output));
            assert_eq!(short, Err(15));
        }
        let expected = if place == 0 { sends(&octets(P1)) } else { Err(8) };
        assert_eq!(bench.start_at(9), expected);
    }
}

#[test]
fn a_start_takes_an_empty_run() {
    let mut bench = Bench::idle();
    let run = RunId([0; 8]);
    let request = octets("6*FF 02 00 00 00 00 01 88 E1 01 64 60 43*00");
    let seen = bench.call(85, |car, output| car.start(run, RANDOM, 5, output));
    assert_eq!(seen, sends(&request));
    assert_eq!(bench.station(CONFIRMATION), Err(11));
    assert_eq!(bench.station(Body::ParmCnf { run, attempt: Try::Iso }), NOTHING);
}

#[test]
fn a_start_takes_all_anew() {
    let mut bench = Bench::sounding();
    assert!(bench.station(report(10, 20)).is_ok());
    assert_eq!((bench.tick(1_200), bench.reports().len()), (NOT_FOUND, 1));
    let (run, random) = (WRONG_RUN, [7; 16]);
    let start = |car: &mut Car, output: &mut [u8]| car.start(run, random, 4_000_000_000, output);
    let request = Body::ParmReq { run }.broadcast(US).to_frame(ISO).unwrap();
    assert_eq!(bench.call(4_096, start), sends(&request));
    assert_eq!((bench.0.reading, bench.0.run, bench.0.random), (4_000_000_000, run, random));
    assert_eq!((bench.reports(), bench.0.state), (vec![], State::Asking { left: 200, retries: 2 }));
    assert_eq!(bench.station(CONFIRMATION), Err(11));
    assert_eq!(bench.station(Body::ParmCnf { run, attempt: Try::Iso }), NOTHING);
    let first = Body::start(run).broadcast(US).to_frame(ISO).unwrap();
    assert_eq!(bench.tick(100), sends(&first));
    for _ in 0..2 {
        assert!(bench.tick(40).is_ok());
    }
    let sound = Body::sound(run, 9, random).broadcast(US);
    assert_eq!(bench.tick(40), sends(&sound.to_frame(ISO).unwrap()));
}

#[test]
fn the_order_of_a_frame() {
    let us_to = |body: Body, to| body.send(US, to).to_frame(ISO).unwrap();
    let mut bench = Bench::idle();
    // 15 before reading, reading before 19, 19 before 7, 7 before 8.
    for room in [0, 70, 84] {
        assert_eq!(bench.call(room, |car, output| car.receive(&[], output)), Err(15));
    }
    let request = Body::match_req(WRONG_RUN);
    let mut damaged = us_to(request, US);
    assert_eq!(bench.octets(&damaged), Err(19));
    damaged[20] = 1;
    assert_eq!(bench.octets(&damaged), Err(6));
    assert_eq!(
        bench.octets(&us_to(Body::ParmCnf { run: WRONG_RUN, attempt: Try::Iso }, US)),
        Err(7)
    );
    assert_eq!(bench.station(Body::ParmCnf { run: WRONG_RUN, attempt: Try::Iso }), Err(8));
    // 8 before 11.
    let mut bench = Bench::requesting();
    assert_eq!(
        bench.hear(Body::ParmCnf { run: WRONG_RUN, attempt: Try::Iso }.send(OTHER, US)),
        Err(8)
    );
    // 11 before 20, 20 before 18.
    let mut bench = Bench::sounding();
    for last in 0xA0..=0xA9 {
        assert!(bench.hear(report(1, 1).send(address(last), US)).is_ok());
    }
    let none = Body::report(WRONG_RUN, 0, [0; 58]);
    assert_eq!(bench.station(none), Err(11));
    assert_eq!(bench.station(report(0, 0)), Err(20));
    assert_eq!(bench.station(report(255, 0)), Err(18));
}

#[test]
fn reading_comes_before_the_rest() {
    let frames = [octets(P2), report_octets(0xAA, 10, "58*09"), match_cnf_octets(0xAA)];
    for (mut bench, frame) in
        [Bench::asking(), Bench::sounding(), Bench::requesting()].into_iter().zip(frames)
    {
        let payload = if frame.len() == 60 { 44 } else { frame.len() };
        assert_eq!(bench.octets(&frame[..18]), Err(1));
        assert_eq!(bench.octets(&frame[..payload - 1]), Err(1));
        assert_eq!(bench.octets(&[&frame[..], &[0]].concat()), Err(4));
        for (at, octet, number) in
            [(12, 0x89, 2), (14, 0, 2), (17, 1, 2), (15, 0x99, 3), (0, 3, 5), (6, 3, 5)]
        {
            let mut damaged = frame.clone();
            damaged[at] = octet;
            assert_eq!(bench.octets(&damaged), Err(number));
        }
        // Every octet of the payload: fixed, or of a run, or any.
        for at in 19..payload {
            let mut damaged = frame.clone();
            damaged[at] ^= 0x40;
            let seen = bench.clone().octets(&damaged);
            let free = match (frame.len(), at - 19) {
                (60, at) => (17..25).contains(&at).then_some(Err(11)),
                (129, 8..=15) => Some(Err(11)),
                (129, 50 | 52..=109) => Some(sends(&response_octets(0xAA))),
                (109, 50..=57) => Some(Err(11)),
                (109, 58..=65 | 66..=71 | 73 | 74..=89) => Some(KEY_GIVEN),
                _ => None,
            };
            assert_eq!(seen, free.unwrap_or(Err(6)), "octet {at}");
        }
        // Padding is not looked at, and may be missing.
        let mut padded = frame.clone();
        padded[payload..].fill(0xFF);
        assert!(bench.clone().octets(&padded).is_ok());
        assert!(bench.clone().octets(&frame[..payload]).is_ok());
    }
}

#[test]
fn messages_that_only_a_station_receives() {
    let (run, groups) = (RUN, [1; 58]);
    for mut bench in Bench::all() {
        for from in [address(2), STATION, US] {
            assert_eq!(bench.hear(Body::ParmReq { run }.broadcast(from)), Err(19));
            assert_eq!(bench.hear(Body::start(run).broadcast(from)), Err(19));
            let sound = Body::sound(run, 0, RANDOM);
            assert_eq!(bench.hear(sound.broadcast(from)), Err(19));
            for to in [US, STATION, address(2)] {
                assert_eq!(bench.hear(Body::response(run).send(from, to)), Err(19));
                assert_eq!(bench.hear(Body::match_req(run).send(from, to)), Err(19));
                let profile = Body::profile(US, groups);
                assert_eq!(bench.hear(profile.send(from, to)), Err(19));
                let first = Body::ValidateReq { timer: 0 };
                assert_eq!(bench.hear(first.send(from, to)), Err(19));
            }
            let second = Body::ValidateReq { timer: 200 };
            assert_eq!(bench.hear(second.broadcast(from)), Err(19));
        }
    }
}

#[test]
fn frames_that_are_not_ours() {
    for mut bench in Bench::all() {
        for body in [CONFIRMATION, report(10, 1), VALIDATED, MATCH_CNF] {
            for (from, to) in [(STATION, OTHER), (STATION, address(2)), (US, US), (US, STATION)] {
                assert_eq!(bench.hear(body.send(from, to)), Err(7));
            }
        }
    }
}

#[test]
fn what_each_state_takes() {
    let wrong = Body::match_cnf(WRONG_RUN, NETWORK.nid, NETWORK.nmk);
    let wrong = [
        Body::ParmCnf { run: WRONG_RUN, attempt: Try::Iso },
        Body::report(WRONG_RUN, 10, [1; 58]),
        wrong,
    ];
    let taken = [
        [false, false, false],
        [true, false, false],
        [true, false, false],
        [true, true, false],
        [false, true, true],
        [false, false, false],
        [false, false, false],
    ];
    for (bench, taken) in Bench::all().into_iter().zip(taken) {
        let bodies = [CONFIRMATION, report(10, 1), MATCH_CNF].into_iter().zip(wrong);
        for ((right, wrong), is_taken) in bodies.zip(taken) {
            let mut bench = bench.clone();
            let expected = if is_taken { Err(11) } else { Err(8) };
            assert_eq!(bench.station(wrong), expected);
            assert_eq!(bench.hear(wrong.send(OTHER, US)), expected);
            match is_taken {
                true => assert!(bench.station(right).is_ok()),
                false => assert_eq!(bench.station(right), Err(8)),
            }
        }
    }
}

#[test]
fn no_state_takes_a_validate_confirmation() {
    for mut bench in Bench::all() {
        for result in 0..=4 {
            let body = Body::ValidateCnf { toggles: 255, result };
            assert_eq!(bench.station(body), Err(8));
            assert_eq!(bench.hear(body.send(OTHER, US)), Err(8));
            // 7 before 8, reading before both, 15 before reading.
            assert_eq!(bench.hear(body.send(STATION, OTHER)), Err(7));
            let mut frame = body.send(STATION, US).to_frame(ISO).unwrap();
            frame[19] = 1;
            assert_eq!(bench.octets(&frame), Err(6));
            assert_eq!(bench.call(84, |car, output| car.receive(&frame, output)), Err(15));
        }
        let mut frame = VALIDATED.send(STATION, US).to_frame(ISO).unwrap();
        frame[21] = 5;
        assert_eq!(bench.octets(&frame), Err(6));
        // A request to one with a timer can't be read, so it isn't 19.
        let mut frame = Body::ValidateReq { timer: 0 }.send(OTHER, US).to_frame(ISO).unwrap();
        frame[20] = 1;
        assert_eq!(bench.octets(&frame), Err(6));
    }
}

#[test]
fn no_state_takes_an_amplitude_map() {
    let request = |source: Address, destination: Address, values: &[u8]| {
        let mut frame = vec![0; 599];
        let length = amplitude::write(source, destination, values, &mut frame).unwrap();
        frame.truncate(length);
        frame
    };
    for mut bench in Bench::all() {
        for values in [&[3; 1][..], &[3; 58], &[3; 1_155]] {
            for station in [STATION, OTHER] {
                assert_eq!(bench.octets(&request(station, US, values)), Err(8));
                assert_eq!(bench.octets(&request(station, address(9), values)), Err(7));
            }
            assert_eq!(bench.octets(&request(US, US, values)), Err(7));
            let mut frame = request(STATION, US, values);
            frame[20] = 0x80;
            assert_eq!(bench.octets(&frame), Err(6));
            assert_eq!(bench.octets(&frame[..20]), Err(1));
            assert_eq!(bench.call(84, |car, output| car.receive(&frame, output)), Err(15));
        }
        for result in [0, 1] {
            let body = Body::AmpMapCnf { result };
            assert_eq!((bench.station(body), bench.hear(body.send(OTHER, US))), (Err(8), Err(8)));
            assert_eq!(bench.hear(body.send(STATION, OTHER)), Err(7));
            assert_eq!(bench.hear(body.send(US, OTHER)), Err(7));
        }
    }
    let (mut bad, _) = Car::configure(Config { reference: 256, ..CONFIG });
    assert_eq!(bad.receive(&request(STATION, US, &[1]), &mut []), Err(Refusal::Configuration));
}

#[test]
fn random_scripts_together_reach_every_row() {
    let mut reached: Vec<bool> = Vec::new();
    let mut rows = Vec::new();
    for seed in 1..=60 {
        let counted = counted(&random_script(seed, 4_000));
        rows = counted.lines().map(String::from).collect();
        reached.resize(rows.len(), false);
        rows.iter().zip(&mut reached).for_each(|(row, reached)| *reached |= !row.ends_with(" 0"));
    }
    let zeros: Vec<_> = rows.iter().zip(&reached).filter(|(_, reached)| !**reached).collect();
    assert!(zeros.is_empty(), "{zeros:?}");
}

#[test]
fn confirmations_of_any_station() {
    let mut bench = Bench::asking();
    assert_eq!(bench.tick(150), NOTHING);
    assert_eq!(bench.hear(CONFIRMATION.send(OTHER, US)), NOTHING);
    assert_eq!(bench.0.state, State::Confirmed { left: 100 });
    assert_eq!(bench.tick(60), NOTHING);
    let before = bench.0.clone();
    assert_eq!((bench.station(CONFIRMATION), &bench.0), (NOTHING, &before));
    assert_eq!(bench.tick(40), sends(&octets(START)));
    assert_eq!(bench.tick(7), NOTHING);
    let before = bench.0.clone();
    assert_eq!((bench.station(CONFIRMATION), &bench.0), (NOTHING, &before));
}

#[test]
fn reports_stay_in_the_order_of_the_first_ones() {
    let mut bench = Bench::sounding();
    for (last, value) in [(0xA3, 3), (0xA1, 1), (0xA2, 2), (0xA1, 0), (0xA3, 9)] {
        let answer = bench.hear(report(10, value).send(address(last), US));
        assert_eq!(answer, sends(&response_octets(last)));
    }
    assert_eq!(bench.reports(), [(0xA3, 174), (0xA1, 58), (0xA2, 116)]);
    assert_eq!(bench.0.state, State::Sounding { sent: 1, next: 40, left: 1_200 });
    assert_eq!(bench.tick(1_200), matches(0xA1, Indication::Found));
    assert_eq!(bench.reports(), [(0xA3, 174), (0xA1, 58), (0xA2, 116)]);
}

#[test]
fn the_key_is_of_the_confirmation() {
    let mut bench = Bench::requesting();
    let (nid, nmk) = (Nid([0xFF, 0, 0, 0, 0, 0, 0]), Nmk([9; 16]));
    assert_eq!(bench.station(Body::match_cnf(RUN, nid, nmk)), KEY_GIVEN);
    assert_eq!(bench.key(), Ok(Network { station: STATION, nid, nmk }));
    // A second one comes too late.
    assert_eq!(bench.station(MATCH_CNF), Err(8));
    assert_eq!(bench.key(), Ok(Network { station: STATION, nid, nmk }));
}

#[test]
fn key_queries_and_link_up_in_each_state() {
    for (place, mut bench) in Bench::all().into_iter().enumerate() {
        let before = bench.0.clone();
        let expected = if place >= 5 { Ok(NETWORK) } else { Err(8) };
        assert_eq!((bench.key(), &bench.0), (expected, &before));
        let expected = if place == 5 { LINKED } else { Err(8) };
        assert_eq!(bench.link_up(), expected);
    }
}

#[test]
fn terminate_keeps_all_but_the_state() {
    for (place, mut bench) in Bench::all().into_iter().enumerate() {
        let mut kept = bench.0.clone();
        let expected = if place == 0 || place == 6 { NOTHING } else { NO_LINK };
        assert_eq!(bench.terminate(), expected);
        kept.state = State::Idle;
        assert_eq!(bench.0, kept);
        assert_eq!((bench.key(), bench.link_up(), bench.terminate()), (Err(8), Err(8), NOTHING));
        assert_eq!(bench.start(), sends(&octets(P1)));
    }
}

#[test]
fn a_car_that_falls_to_idle_keeps_the_rest() {
    for (mut bench, elapsed) in [(Bench::requesting(), 200), (Bench::joining(), 12_000)] {
        let mut kept = bench.0.clone();
        let mut seen = bench.tick(elapsed);
        while seen == sends(&match_octets(0xAA)) {
            seen = bench.tick(elapsed);
        }
        assert_eq!(seen, NO_LINK);
        (kept.state, kept.reading) = (State::Idle, bench.0.reading);
        assert_eq!(bench.0, kept);
        assert_eq!((bench.reports(), bench.key()), (vec![(0xAA, 522)], Err(8)));
    }
}

#[test]
fn the_order_of_a_tick() {
    for mut bench in Bench::all() {
        for room in [0, 84] {
            assert_eq!(bench.call(room, |car, output| car.tick(u32::MAX, output)), Err(15));
        }
        let reading = bench.0.reading;
        for elapsed in [60_001, 0x8000_0000, u32::MAX] {
            assert_eq!((bench.tick(elapsed), bench.0.reading), (Err(14), reading));
        }
        assert!(bench.tick(60_000).is_ok());
        assert_eq!(bench.0.reading, reading + 60_000);
    }
}

#[test]
fn the_clock_wraps() {
    let mut bench = Bench::idle();
    assert_eq!(bench.start_at(4_294_967_290), sends(&octets(P1)));
    assert_eq!(bench.call(85, |car, output| car.tick(4, output)), NOTHING);
    assert_eq!((bench.0.state, bench.0.reading), (State::Asking { left: 190, retries: 2 }, 4));
}

#[test]
fn a_gap_stays_until_a_start_or_a_smaller_one() {
    let mut bench = Bench::asking();
    let tick = |bench: &mut Bench, reading| bench.call(85, |car, output| car.tick(reading, output));
    assert_eq!((tick(&mut bench, 60_001), tick(&mut bench, 60_002)), (Err(14), Err(14)));
    assert_eq!(bench.start_at(70_000), Err(8));
    assert_eq!((bench.terminate(), tick(&mut bench, 70_000)), (NO_LINK, Err(14)));
    assert_eq!((bench.start_at(70_000), tick(&mut bench, 70_001)), (sends(&octets(P1)), NOTHING));
    assert_eq!(bench.0.state, State::Asking { left: 199, retries: 2 });
    // All the way round.
    assert_eq!((tick(&mut bench, 0), tick(&mut bench, 70_000)), (Err(14), Err(14)));
    assert_eq!(tick(&mut bench, 70_002), NOTHING);
    assert_eq!(bench.0.state, State::Asking { left: 198, retries: 2 });
}

#[test]
fn idle_and_matched_only_take_the_reading() {
    for mut bench in [Bench::idle(), Bench::matched()] {
        let mut kept = bench.0.clone();
        assert_eq!((bench.tick(12_000), bench.tick(60_000)), (NOTHING, NOTHING));
        kept.reading += 72_000;
        assert_eq!(bench.0, kept);
    }
}

#[test]
fn one_firing_a_tick_and_the_excess_is_dropped() {
    let mut bench = Bench::asking();
    assert_eq!(bench.tick(60_000), sends(&octets(P1)));
    assert_eq!(bench.0.state, State::Asking { left: 200, retries: 1 });
    let mut bench = Bench::confirmed();
    assert_eq!(bench.tick(60_000), sends(&octets(START)));
    assert_eq!(bench.0.state, State::Sounding { sent: 1, next: 40, left: 1_200 });
    assert_eq!(bench.tick(1_199), sends(&octets(START)));
    assert_eq!(bench.0.state, State::Sounding { sent: 2, next: 40, left: 1 });
    let mut bench = Bench::sounding();
    assert_eq!((bench.tick(0), bench.tick(39), bench.tick(0)), (NOTHING, NOTHING, NOTHING));
    assert_eq!(bench.0.state, State::Sounding { sent: 1, next: 1, left: 1_161 });
    assert_eq!(bench.tick(5), sends(&octets(START)));
    assert_eq!(bench.0.state, State::Sounding { sent: 2, next: 40, left: 1_156 });
    let mut bench = Bench::requesting();
    for retries in [1, 0] {
        assert_eq!((bench.tick(199), bench.tick(7)), (NOTHING, sends(&match_octets(0xAA))));
        assert_eq!(bench.0.state, State::Requesting { left: 200, retries, station: STATION });
    }
    assert_eq!((bench.tick(199), bench.tick(1)), (NOTHING, NO_LINK));
    assert_eq!(bench.0.state, State::Idle);
    let mut bench = Bench::joining();
    assert_eq!((bench.tick(11_999), bench.key()), (NOTHING, Ok(NETWORK)));
    assert_eq!((bench.tick(1), bench.0.state, bench.key()), (NO_LINK, State::Idle, Err(8)));
}

#[test]
fn a_retry_leaves_the_chosen_station_and_still_takes_its_answer() {
    let mut bench = Bench::requesting();
    assert_eq!(bench.tick(200), sends(&match_octets(0xAA)));
    assert_eq!(bench.octets(&match_cnf_octets(0xAB)), Err(11));
    assert_eq!(bench.octets(&match_cnf_octets(0xAA)), KEY_GIVEN);
    let mut bench = Bench::asking();
    assert_eq!(bench.tick(200), sends(&octets(P1)));
    assert_eq!(bench.octets(&octets(P2)), NOTHING);
    assert_eq!(bench.0.state, State::Confirmed { left: 100 });
}

fn script(events: &[Event]) -> Vec<u8> {
    let mut script = Vec::new();
    write_head(&mut script, &CONFIG, events.len() as u32).unwrap();
    events.iter().for_each(|event| event.write(&mut script).unwrap());
    script
}

fn number(number: u32) -> Vec<u8> {
    number.to_le_bytes().to_vec()
}

fn head(numbers: [u32; 3]) -> Vec<u8> {
    numbers.map(number).concat()
}

/// A whole run, up to link established.
fn whole_run() -> Vec<Event> {
    let room = 85;
    let frame = |octets| Event::Frame { octets, room };
    vec![
        Event::Start { run: RUN, random: RANDOM, reading: 4_000_000_000, room },
        frame(octets(P2)),
        Event::Query,
        Event::Tick { reading: 4_000_000_100, room },
        frame(report_octets(0xAA, 10, "58*09")),
        Event::Tick { reading: 4_000_001_300, room: 84 },
        Event::Tick { reading: 4_000_001_300, room },
        frame(match_cnf_octets(0xAA)),
        Event::Query,
        Event::LinkUp,
        Event::Terminate,
    ]
}

#[test]
fn a_script_by_its_octets() {
    let start = Event::Start { run: RUN, random: RANDOM, reading: 0x0102_0304, room: 85 };
    let expected = "02 00 00 00 00 01 00 00 00 00 02 00 00 00 \
                    02 00 00 00 04 03 02 01 55 00 00 00 18 00 00 00 \
                    01 02 03 04 05 06 07 08 16*A5 \
                    05 00 00 00 12*00";
    assert_eq!(script(&[start, Event::Query]), octets(expected));
    let mut output = Vec::new();
    assert!(crate::car_run(&octets(expected)[..], &mut output).unwrap());
    let answers = [number(0), head([0, 0, 60]), octets(P1), head([8, 0, 0])];
    assert_eq!(output, answers.concat());
}

#[test]
fn a_script_is_answered_event_by_event() {
    let whole = script(&whole_run());
    let mut output = Vec::new();
    assert!(crate::car_run(&whole[..], &mut output).unwrap());
    let answers = [
        number(0),
        head([0, 0, 60]),
        octets(P1),
        head([0, 0, 0]),
        head([8, 0, 0]),
        head([0, 0, 60]),
        octets(START),
        head([0, 0, 70]),
        response_octets(0xAA),
        head([15, 0, 0]),
        head([0, 3, 85]),
        match_octets(0xAA),
        head([0, 6, 0]),
        head([0, 0, 29]),
        octets("02 00 00 00 00 AA 01 02 03 04 05 06 3F 16*4B"),
        head([0, 2, 0]),
        head([0, 0, 0]),
    ];
    assert_eq!(output, answers.concat());
    for length in 0..whole.len() {
        let mut part = Vec::new();
        assert!(crate::car_run(&whole[..length], &mut part).is_err());
        assert!(output.starts_with(&part) && part.is_empty() == (length < 14));
    }
    let (longer, mut part) = ([&whole[..], &[0]].concat(), Vec::new());
    assert!(crate::car_run(&longer[..], &mut part).is_err());
    assert_eq!(part, output);
}

#[test]
fn events_that_break_the_layout_are_not_carried_out() {
    let entry = |kind, room, octets: &[u8]| {
        let mut entry = Vec::new();
        write_entry(&mut entry, kind, 0, room, octets).unwrap();
        entry
    };
    let run = |entries: &[Vec<u8>]| {
        let mut script = Vec::new();
        write_head(&mut script, &CONFIG, entries.len() as u32).unwrap();
        script.extend(entries.concat());
        let mut output = Vec::new();
        (crate::car_run(&script[..], &mut output).is_ok(), output)
    };
    let good = entry(3, 0, &[]);
    let answered = [number(0), head([0, 0, 0])].concat();
    let mut long = entry(0, 85, &[]);
    long[12..16].copy_from_slice(&4_097u32.to_le_bytes());
    long.extend([0; 4_097]);
    for broken in [
        entry(2, 85, &[0; 23]),
        entry(2, 85, &[0; 25]),
        entry(2, 85, &[]),
        entry(1, 85, &[0]),
        entry(3, 0, &[0]),
        entry(4, 0, &[0]),
        entry(5, 0, &[0]),
        entry(6, 0, &[]),
        entry(u32::MAX, 85, &[]),
        entry(0, 4_097, &[]),
        entry(3, 4_097, &[]),
        long,
    ] {
        assert_eq!(run(&[good.clone(), broken, good.clone()]), (false, answered.clone()));
    }
    let large = entry(0, 4_096, &[0; 4_096]);
    let answers = [answered, head([2, 0, 0]), head([0, 0, 0])].concat();
    assert_eq!(run(&[good.clone(), large, good]), (true, answers));
}

#[test]
fn a_bad_configuration_in_a_script() {
    for (car, reference) in [(US, 256), (US, u32::MAX), (Address([0; 6]), 0), (Address([1; 6]), 0)]
    {
        let mut script = Vec::new();
        let events = whole_run();
        write_head(&mut script, &Config { car, reference }, events.len() as u32).unwrap();
        events.iter().for_each(|event| event.write(&mut script).unwrap());
        let mut output = Vec::new();
        assert!(crate::car_run(&script[..], &mut output).unwrap());
        assert_eq!(output, [number(16), head([16, 0, 0]).repeat(events.len())].concat());
    }
}

fn random_script(seed: u64, events: u32) -> Vec<u8> {
    let mut script = Vec::new();
    car_generate::generate(seed, events, &mut script).unwrap();
    script
}

#[test]
fn random_scripts_come_from_their_seed_and_compare_equal() {
    let outputs = [1, 1, 3].map(|seed| {
        let mut output = Vec::new();
        assert!(crate::car_run(&random_script(seed, 5_000)[..], &mut output).unwrap());
        output
    });
    let compare = |a: usize, b: usize| compare::compare(&outputs[a][..], &outputs[b][..]).unwrap();
    assert_eq!(compare(0, 1), Ok("5000 events, no difference".into()));
    assert!(compare(0, 2).is_err_and(|words| words.starts_with("event ")));
}

#[test]
fn differences_are_told_in_words() {
    let mut output = Vec::new();
    assert!(crate::car_run(&script(&whole_run())[..], &mut output).unwrap());
    let key = output.len() - 2 * 12 - 29;
    for (at, words) in [
        (key - 8, "event 9: accepted, no indication, the key of 02:00:00:00:00:AA: 01 02 03"),
        (key, "event 9: accepted, no indication, the key of 02:00:00:00:00:AA: 01 02 03"),
        (key - 12 - 8, "event 8: accepted, key given, no frame"),
        (key - 12 - 12 - 85, "event 7: accepted, found, CM_SLAC_MATCH.REQ to 02:00:00:00:00:AA"),
    ] {
        let mut changed = output.clone();
        changed[at] ^= 1;
        let found = compare::compare(&output[..], &changed[..]).unwrap();
        assert!(found.clone().is_err_and(|found| found.starts_with(words)), "{found:?}");
    }
}

/// "Unless its octets read as PARM.CNF, ATTEN_CHAR.IND or MATCH.CNF to us and not from us, with the
/// run that the car has when it comes, and in Requesting, Joining and Matched from the chosen
/// station; in Idle every frame call is one."
fn is_foreign(car: &Car, us: Address, frame: &[u8]) -> bool {
    let Ok(Message { destination, source, body }) = Message::read(frame, ISO) else { return true };
    let (Body::ParmCnf { run, attempt: Try::Iso }
    | Body::AttenChar { run, .. }
    | Body::MatchCnf { run, .. }) = body
    else {
        return true;
    };
    let settled = match car.state {
        State::Idle => return true,
        State::Requesting { station, .. } => Some(station),
        State::Joining { network, .. } | State::Matched { network } => Some(network.station),
        State::Asking { .. } | State::Confirmed { .. } | State::Sounding { .. } => None,
    };
    let is_ours = destination == us && source != us && run == car.run;
    !is_ours || settled.is_some_and(|station| station != source)
}

#[test]
fn foreign_frames_change_nothing() {
    let mut left_out = 0;
    for seed in 0..20 {
        let random = random_script(seed, 3_000);
        let mut script = Script::open(&random[..]).unwrap();
        let (mut car, _) = Car::configure(script.config);
        // The second car gets no foreign frame, the third every other one.
        let (mut without, mut some) = (car.clone(), car.clone());
        while let Some(event) = script.next_event().unwrap() {
            let foreign = match &event {
                Event::Frame { octets, .. } => is_foreign(&car, script.config.car, octets),
                _ => false,
            };
            left_out += u32::from(foreign);
            let outcome = event.happen(&mut car);
            if !foreign {
                assert_eq!(event.happen(&mut without), outcome);
            }
            if !foreign || left_out % 2 == 0 {
                assert_eq!(event.happen(&mut some), outcome);
            }
            assert!(without == car && some == car);
        }
    }
    assert!(left_out > 10_000);
}

/// A seed and how many events of it, covered, reach every row but 16, and seeds of bad
/// configurations: a reference of 256, and a first octet that is odd.
const FULL: (u64, u32) = (2, 3_500);
const BAD: [u64; 2] = [45, 90];

fn counted(script: &[u8]) -> String {
    let mut counted = Vec::new();
    assert!(crate::car_count(script, &mut counted).unwrap());
    String::from_utf8(counted).unwrap()
}

#[test]
fn a_random_script_reaches_every_row() {
    let mut script = Vec::new();
    car_generate::cover(FULL.0, FULL.1, &mut script).unwrap();
    let full = counted(&script);
    let zeros: Vec<&str> = full.lines().filter(|row| row.ends_with(" 0")).collect();
    assert!(matches!(zeros[..], [row] if row.contains("16 bad configuration")), "{zeros:?}");
    // A row that the table did not foresee would be one more.
    let rows = car_count::Counts::new(CONFIG).to_string().lines().count();
    assert_eq!(full.lines().count(), rows);
    for seed in BAD {
        let script = random_script(seed, 300);
        assert!(Car::configure(Script::open(&script[..]).unwrap().config).1.is_err());
        let bad = counted(&script);
        let row = bad.lines().find(|row| row.contains("16 bad configuration")).unwrap();
        assert!(row.ends_with(" 301") && bad.lines().count() == rows);
    }
}

/// A second station at a bay, and how far the car is from it.
struct Bay {
    station: Station,
    address: Address,
    modem: Address,
    attenuation: u8,
}

impl Bay {
    fn plugged(last: u8, attenuation: u8) -> Bay {
        let (address, modem) = (address(last), Address([2, 0, 0, 0, 1, last]));
        let nid = Nid([last, 0, 0, 0, 0, 0, 0]);
        let nmk = Nmk([last; 16]);
        let config = station::Config {
            station: address,
            modem,
            nid,
            nmk,
            exempt: false,
            edition: Edition::Iso,
            carriers: 917,
        };
        let (mut station, answer) = Station::configure(config);
        assert_eq!(answer, Ok(()));
        assert!(station.change_pilot(Pilot::B, 0).is_ok());
        Bay { station, address, modem, attenuation }
    }

    /// The frames that the station answers to a frame; a sound is measured by its modem.
    fn hears(&mut self, frame: &[u8]) -> Vec<Vec<u8>> {
        let mut frames = vec![frame.to_vec()];
        if let Ok(Message { source, body: Body::MnbcSound { .. }, .. }) = Message::read(frame, ISO)
        {
            let profile = Body::profile(source, [self.attenuation; 58]);
            frames.push(profile.send(self.modem, self.address).to_frame(ISO).unwrap());
        }
        let answer = |frame: Vec<u8>| {
            let happened = script::Event::Frame { octets: frame, room: station::LEAST_OUTPUT };
            happened.happen(&mut self.station).map_or(Vec::new(), |(_, octets)| octets)
        };
        frames.into_iter().map(answer).filter(|octets| !octets.is_empty()).collect()
    }
}

#[test]
fn the_car_and_second_stations_meet() {
    for tick in [1, 5, 10] {
        let mut bays = [(0xA0, 45), (0xA1, 30), (0xA2, 38)].map(|(a, b)| Bay::plugged(a, b));
        let mut bench = Bench::with_reference(26);
        let (mut line, mut seen) = (vec![bench.start().unwrap().0], Vec::new());
        for _ in 0..3_000 / tick {
            while let Some(frame) = line.pop() {
                for bay in &mut bays {
                    for reply in bay.hears(&frame) {
                        let (answer, indication) = bench.octets(&reply).unwrap_or_default();
                        line.extend((!answer.is_empty()).then_some(answer));
                        seen.extend(indication);
                    }
                }
            }
            for bay in &mut bays {
                let event = script::Event::Tick {
                    reading: bay.station.reading + tick,
                    room: station::LEAST_OUTPUT,
                };
                event.happen(&mut bay.station).unwrap();
            }
            let (frame, indication) = bench.tick(tick).unwrap();
            line.extend((!frame.is_empty()).then_some(frame));
            seen.extend(indication);
        }
        assert_eq!(seen, [Indication::Found, Indication::KeyGiven]);
        assert_eq!(bench.reports(), [(0xA0, 45 * 58), (0xA1, 30 * 58), (0xA2, 38 * 58)]);
        let key = bench.key().unwrap();
        assert_eq!((key.station, key.nmk), (address(0xA1), Nmk([0xA1; 16])));
        assert_eq!((bench.link_up(), bays[1].station.link_up().is_ok()), (LINKED, true));
    }
}
