//! The calls on a car against the library, by itself and with a station of the library.

#[path = "../../../examples/rust/src/frames.rs"]
mod frames;

use frames::Address;
use lahzavar::{Answer, Car, CarState, Configuration, Edition, Indication, Pilot, Refusal, State};
use lahzavar::{Station, CAR_LEAST_OUTPUT, LEAST_OUTPUT, STATIONS};

const CAR: Address = [2, 0, 0, 0, 0, 1];
const STATION: Address = [2, 0, 0, 0, 0, 0xAA];
const MODEM: Address = [2, 0, 0, 0, 0, 0xBB];
const NID: [u8; 7] = [1, 2, 3, 4, 5, 6, 7];
const NMK: [u8; 16] = *b"0123456789ABCDEF";
const RUN: [u8; 8] = [11, 12, 13, 14, 15, 16, 17, 18];
const RANDOM: [u8; 16] = *b"abcdefghijklmnop";
/// The reading at the start; the clock wraps during the matching.
const START: u32 = 0xFFFF_FF00;

fn plugged_station() -> Station {
    let configuration = Configuration {
        address: STATION,
        modem: MODEM,
        nid: NID,
        nmk: NMK,
        validation_not_required: false,
        edition: Edition::Iso,
        carriers: 1155,
    };
    let mut station = Station::new(&configuration).unwrap();
    assert!(station.pilot(Pilot::B, START).is_ok());
    station
}

/// A report of a station to a car, with the same value in every group.
fn report(from: Address, to: Address, run: [u8; 8], sounds: u8) -> Vec<u8> {
    let head = [&to[..], &from, &[0x88, 0xE1, 0x01, 0x6E, 0x60, 0, 0]].concat();
    [&head[..], &[0; 2], &to, &run, &[0; 34], &[sounds, 58], &[7; 58]].concat()
}

/// A station's answer to a validate request of a car.
fn validate_cnf(from: Address, to: Address, toggles: u8, result: u8) -> Vec<u8> {
    let head = [&to[..], &from, &[0x88, 0xE1, 0x01, 0x79, 0x60, 0, 0]].concat();
    [&head[..], &[0, toggles, result], &[0; 38]].concat()
}

/// A car that was started and the output that is lent to it.
struct Bench {
    car: Car,
    out: [u8; CAR_LEAST_OUTPUT],
}

impl Bench {
    fn asking() -> Bench {
        let mut car = Car::new(CAR, 0).unwrap();
        assert!(car.start(RUN, RANDOM, START, &mut [0; CAR_LEAST_OUTPUT]).is_ok());
        Bench { car, out: [0xEE; CAR_LEAST_OUTPUT] }
    }

    /// 100 ms after a station has answered.
    fn sounding() -> Bench {
        let (mut bench, mut out) = (Bench::asking(), [0; LEAST_OUTPUT]);
        let request = frames::Car { address: CAR, run: RUN }.parm_req();
        let confirmed = plugged_station().frame(&request, &mut out).unwrap();
        assert!(bench.hear(confirmed.octets()).is_ok());
        assert_eq!(bench.car.state(), CarState::Confirmed);
        assert!(bench.tick(START.wrapping_add(100)).is_ok());
        assert_eq!(bench.car.state(), CarState::Sounding);
        bench.out.fill(0xEE);
        bench
    }

    fn start(&mut self) -> Answer<'_> {
        self.car.start(RUN, RANDOM, START, &mut self.out)
    }

    fn hear(&mut self, octets: &[u8]) -> Answer<'_> {
        self.car.frame(octets, &mut self.out)
    }

    fn tick(&mut self, reading: u32) -> Answer<'_> {
        self.car.tick(reading, &mut self.out)
    }
}

/// A car and a station on one line; the station's modem measures each sound of the car.
struct Meeting {
    car: Car,
    station: Station,
    attenuation: u8,
    reading: u32,
    /// What the car has sent and indicated.
    sent: Vec<Vec<u8>>,
    indicated: Vec<Indication>,
}

impl Meeting {
    /// From the start until the car has a key or is Idle again.
    fn of(attenuation: u8, reference: u32) -> Meeting {
        let (car, station) = (Car::new(CAR, reference).unwrap(), plugged_station());
        let (sent, indicated) = (Vec::new(), Vec::new());
        let mut meeting = Meeting { car, station, attenuation, reading: START, sent, indicated };
        let mut out = [0; CAR_LEAST_OUTPUT];
        let answer = meeting.car.start(RUN, RANDOM, START, &mut out);
        meeting.car_answers(answer);
        while !matches!(meeting.car.state(), CarState::Idle | CarState::Joining) {
            meeting.tick();
        }
        meeting
    }

    fn tick(&mut self) {
        self.reading = self.reading.wrapping_add(5);
        let (mut out, mut car_out) = ([0; LEAST_OUTPUT], [0; CAR_LEAST_OUTPUT]);
        let answer = self.station.tick(self.reading, &mut out);
        self.station_answers(answer);
        let answer = self.car.tick(self.reading, &mut car_out);
        self.car_answers(answer);
    }

    fn car_answers(&mut self, answer: Answer<'_>) {
        let done = answer.unwrap();
        self.indicated.extend(done.indication);
        for frame in done.frames() {
            self.sent.push(frame.to_vec());
            self.station_hears(frame);
            if frames::message_type(frame) == frames::SOUND_IND {
                self.station_hears(&frames::profile(MODEM, STATION, CAR, self.attenuation));
            }
        }
    }

    fn station_hears(&mut self, frame: &[u8]) {
        let mut out = [0; LEAST_OUTPUT];
        let answer = self.station.frame(frame, &mut out);
        self.station_answers(answer);
    }

    fn station_answers(&mut self, answer: Answer<'_>) {
        for frame in answer.unwrap().frames() {
            let mut out = [0; CAR_LEAST_OUTPUT];
            let answer = self.car.frame(frame, &mut out);
            self.car_answers(answer);
        }
    }
}

#[test]
fn a_car_and_a_station_meet() {
    let Meeting { mut car, mut station, reading, indicated, .. } = Meeting::of(8, 0);
    assert_eq!(indicated, [Indication::Found, Indication::KeyGiven]);
    assert_eq!(reading.wrapping_sub(START), 100 + 1200);
    assert_eq!((car.state(), station.state()), (CarState::Joining, State::Joining));
    let key = car.key().unwrap();
    assert_eq!((key.station, key.nid, key.nmk), (STATION, NID, NMK));
    let linked = Some(Indication::LinkEstablished);
    assert_eq!(car.link_up().unwrap().indication, linked);
    assert_eq!(station.link_up().unwrap().indication, linked);
    assert_eq!((car.state(), station.state()), (CarState::Matched, State::Matched));
    assert_eq!(car.key().unwrap().nmk, NMK);
    assert_eq!(car.terminate().unwrap().indication, None);
    assert_eq!((car.state(), car.key().err()), (CarState::Idle, Some(Refusal::WrongState)));
}

#[test]
fn what_the_car_sends() {
    let sent = Meeting::of(8, 0).sent;
    let types: Vec<u16> = sent.iter().map(|frame| frames::message_type(frame)).collect();
    let (starts, sounds) = ([0x606A; 3], [frames::SOUND_IND; 10]);
    assert_eq!(types, [&[0x6064][..], &starts, &sounds, &[0x606F, 0x607C]].concat());
    assert_eq!(sent[0], frames::Car { address: CAR, run: RUN }.parm_req());
    for (sound, count) in sent[4..14].iter().zip((0..10).rev()) {
        assert_eq!((sound[19 + 19], &sound[19 + 20..19 + 28]), (count, &RUN[..]));
        assert_eq!(sound[19 + 36..], RANDOM);
    }
}

#[test]
fn the_choice() {
    use Indication::{Found, KeyGiven, NotFound, PotentiallyFound};
    for (attenuation, reference, choice) in [
        (9, 0, Found),
        (10, 0, PotentiallyFound),
        (19, 0, PotentiallyFound),
        (20, 0, NotFound),
        (35, 26, Found),
        (36, 26, PotentiallyFound),
        (46, 26, NotFound),
    ] {
        let Meeting { car, indicated, .. } = Meeting::of(attenuation, reference);
        let (state, expected) = match choice {
            NotFound => (CarState::Idle, vec![choice]),
            _ => (CarState::Joining, vec![choice, KeyGiven]),
        };
        assert_eq!((car.state(), indicated), (state, expected));
    }
}

#[test]
fn a_car_without_a_station() {
    let mut bench = Bench::asking();
    for retry in 1..=2 {
        let done = bench.tick(START.wrapping_add(200 * retry)).unwrap();
        assert_eq!((done.frames().len(), done.indication), (1, None));
    }
    let done = bench.tick(START.wrapping_add(600)).unwrap();
    assert_eq!((done.frames().len(), done.indication), (0, Some(Indication::NoLink)));
    assert_eq!(bench.car.state(), CarState::Idle);
    assert!(bench.start().is_ok());
    assert_eq!(bench.car.terminate().unwrap().indication, Some(Indication::NoLink));
}

#[test]
fn the_frames_stand_in_the_output() {
    let (mut car, mut out) = (Car::new(CAR, 0).unwrap(), [0xEE; CAR_LEAST_OUTPUT]);
    let start = out.as_ptr();
    let sent = car.start(RUN, RANDOM, START, &mut out).unwrap().octets();
    assert_eq!((sent.as_ptr(), sent.len()), (start, 60));
    assert_eq!(out[60..], [0xEE; CAR_LEAST_OUTPUT - 60]);
}

#[test]
fn refusals_change_nothing() {
    let mut bench = Bench::asking();
    let neighbour = frames::Car { address: [2; 6], run: RUN };
    assert_eq!(bench.start(), Err(Refusal::WrongState));
    assert_eq!(bench.hear(&[]), Err(Refusal::TooShort));
    assert_eq!(bench.hear(&[0; 60]), Err(Refusal::BadHead));
    assert_eq!(bench.hear(&neighbour.parm_req()), Err(Refusal::OnlyForStations));
    let validation = neighbour.validate_req(frames::BROADCAST, 9);
    assert_eq!(bench.hear(&validation), Err(Refusal::OnlyForStations));
    assert_eq!(bench.hear(&report(STATION, neighbour.address, RUN, 10)), Err(Refusal::NotForUs));
    assert_eq!(bench.hear(&report(STATION, CAR, RUN, 10)), Err(Refusal::WrongState));
    assert_eq!(bench.hear(&validate_cnf(STATION, CAR, 2, 2)), Err(Refusal::WrongState));
    assert_eq!(bench.tick(START.wrapping_add(60_001)), Err(Refusal::TickGap));
    assert_eq!(bench.car.link_up(), Err(Refusal::WrongState));
    assert_eq!(bench.car.key().err(), Some(Refusal::WrongState));
    assert_eq!((bench.car.state(), bench.out), (CarState::Asking, [0xEE; CAR_LEAST_OUTPUT]));
}

#[test]
fn a_short_output_is_left_as_it_was() {
    let mut car = Car::new(CAR, 0).unwrap();
    let mut short = [0xEE; CAR_LEAST_OUTPUT - 1];
    assert_eq!(car.start(RUN, RANDOM, START, &mut short), Err(Refusal::OutputTooShort));
    assert_eq!(car.state(), CarState::Idle);
    let mut car = Bench::sounding().car;
    let heard = car.frame(&report(STATION, CAR, RUN, 10), &mut short);
    assert_eq!(heard, Err(Refusal::OutputTooShort));
    assert_eq!(car.tick(START.wrapping_add(140), &mut short), Err(Refusal::OutputTooShort));
    assert_eq!(short, [0xEE; CAR_LEAST_OUTPUT - 1]);
}

#[test]
fn reports_of_many_stations() {
    let mut bench = Bench::sounding();
    let stations = || (1..).map(|last| [4, 0, 0, 0, 0, last]);
    for station in stations().take(STATIONS) {
        assert_eq!(bench.hear(&report(station, CAR, [9; 8], 10)), Err(Refusal::NoRecord));
        assert_eq!(bench.hear(&report(station, CAR, RUN, 0)), Err(Refusal::NoSounds));
        let response = bench.hear(&report(station, CAR, RUN, 10)).unwrap().octets();
        assert_eq!(response, frames::Car { address: CAR, run: RUN }.rsp(station));
    }
    let one_more = stations().nth(STATIONS).unwrap();
    assert_eq!(bench.hear(&report(one_more, CAR, RUN, 10)), Err(Refusal::ReportsFull));
}

#[test]
fn bad_configurations() {
    for (address, reference) in [([1, 0, 0, 0, 0, 0], 0), ([0; 6], 0), (CAR, 256)] {
        assert_eq!(Car::new(address, reference).err(), Some(Refusal::BadConfiguration));
        let mut bench = Bench::asking();
        assert_eq!(bench.car.configure(address, reference), Err(Refusal::BadConfiguration));
        answers_16_to_everything(&mut bench);
    }
}

fn answers_16_to_everything(bench: &mut Bench) {
    let bad = Refusal::BadConfiguration;
    assert_eq!(bench.start(), Err(bad));
    assert_eq!(bench.car.start(RUN, RANDOM, START, &mut []), Err(bad));
    assert_eq!(bench.hear(&report(STATION, CAR, RUN, 10)), Err(bad));
    assert_eq!(bench.hear(&[]), Err(bad));
    assert_eq!(bench.tick(10), Err(bad));
    assert_eq!(bench.car.tick(99_999, &mut []), Err(bad));
    assert_eq!(bench.car.link_up(), Err(bad));
    assert_eq!(bench.car.terminate(), Err(bad));
    assert_eq!(bench.car.key().err(), Some(bad));
    assert_eq!((bench.car.state(), bench.out), (CarState::Idle, [0xEE; CAR_LEAST_OUTPUT]));
}

#[test]
fn a_wiped_car() {
    let mut bench = Bench { car: Meeting::of(8, 0).car, out: [0xEE; CAR_LEAST_OUTPUT] };
    assert!(bench.car.key().is_ok());
    bench.car.wipe();
    answers_16_to_everything(&mut bench);
    assert_eq!(bench.car.configure(CAR, 0), Ok(()));
    assert!(bench.start().is_ok());
}

#[test]
fn configuring_anew_forgets_the_matching() {
    let mut car = Meeting::of(8, 0).car;
    assert_eq!(car.configure(CAR, 0), Ok(()));
    assert_eq!((car.state(), car.key().err()), (CarState::Idle, Some(Refusal::WrongState)));
}

#[test]
fn the_key_is_not_shown() {
    let car = Meeting::of(8, 0).car;
    assert_eq!(format!("{car:?}"), "Car { state: Joining, .. }");
    let shown = "Key { station: [2, 0, 0, 0, 0, 170], nid: [1, 2, 3, 4, 5, 6, 7], .. }";
    assert_eq!(format!("{:?}", car.key().unwrap()), shown);
}

#[test]
fn a_car_may_go_to_another_thread() {
    let mut bench = Bench::asking();
    let ended = std::thread::spawn(move || bench.car.terminate().unwrap().indication);
    assert_eq!(ended.join().unwrap(), Some(Indication::NoLink));
}
