//! The calls on a station against the library.

#[path = "../../../examples/rust/src/frames.rs"]
mod frames;

use frames::{Address, Car};
use lahzavar::{maps, REPORT_OCTETS};
use lahzavar::{Answer, Configuration, Edition, Indication, Inspection, Pilot, Refusal, Spread};
use lahzavar::{State, Station, CARRIERS, CONFIRMATION_OCTETS, GROUPS, LEAST_OUTPUT, RECORDS};

const STATION: Address = [2, 0, 0, 0, 0, 0xAA];
const MODEM: Address = [2, 0, 0, 0, 0, 0xBB];

fn configuration() -> Configuration {
    Configuration {
        address: STATION,
        modem: MODEM,
        nid: [1, 2, 3, 4, 5, 6, 7],
        nmk: [0x4B; 16],
        validation_not_required: false,
        edition: Edition::Iso,
        carriers: 6,
    }
}

fn car(last: u8) -> Car {
    Car { address: [2, 0, 0, 0, 0, last], run: [last; 8] }
}

/// Accepted, with no frame and no indication.
fn nothing(answer: Answer<'_>) -> bool {
    answer.is_ok_and(|done| done.frames().len() == 0 && done.indication.is_none())
}

/// A station in Matching and the output that is lent to it.
struct Bench {
    station: Station,
    out: [u8; LEAST_OUTPUT],
}

impl Bench {
    fn plugged() -> Bench {
        Bench::plugged_with(&configuration())
    }

    fn plugged_with(configuration: &Configuration) -> Bench {
        let mut station = Station::new(configuration).unwrap();
        assert!(nothing(station.pilot(Pilot::B, 5)));
        Bench { station, out: [0xEE; LEAST_OUTPUT] }
    }

    fn hear(&mut self, octets: &[u8]) -> Answer<'_> {
        self.station.frame(octets, &mut self.out)
    }

    /// The frames outlive what the call gave; it is the output that they borrow.
    fn replies(&mut self, octets: &[u8]) -> Vec<&[u8]> {
        self.hear(octets).unwrap().frames().collect()
    }

    fn sounded(&mut self, car: &Car, profiles: u8) {
        assert_eq!(self.replies(&car.parm_req()).len(), 1);
        assert!(nothing(self.hear(&car.start())));
        for count in 0..profiles {
            assert!(nothing(self.hear(&car.sound(count))));
            let profile = frames::profile(MODEM, STATION, car.address, 10 + count);
            assert!(self.hear(&profile).is_ok());
        }
    }

    /// The modem measures one sound of a car.
    fn measured(&mut self, car: &Car, values: &[u8; GROUPS]) {
        assert!(self.hear(&frames::profile_of(MODEM, STATION, car.address, values)).is_ok());
    }

    /// A car has its report and has answered it.
    fn awaited(&mut self, car: &Car) {
        self.sounded(car, 10);
        assert!(nothing(self.hear(&car.rsp(STATION))));
    }

    /// A car that is matched.
    fn matched(configuration: &Configuration, car: &Car) -> Bench {
        let mut bench = Bench::plugged_with(configuration);
        bench.awaited(car);
        assert_eq!(bench.replies(&car.match_req(STATION)).len(), 1);
        assert!(bench.station.link_up().is_ok());
        bench.out.fill(0xEE);
        bench
    }

    /// What the inspection tells: the state and the car.
    fn inspected(&self, state: State, car: Option<Address>) -> bool {
        let told = self.station.inspect();
        told == Ok(Inspection { state, car }) && self.station.state() == state
    }

    /// The toggles and the result that a first request is answered with.
    fn asked_to_validate(&mut self, car: &Car) -> (u8, u8) {
        let replies = self.replies(&car.validate_req(STATION, 0));
        assert_eq!(replies.len(), 1);
        confirmed(replies[0], car)
    }

    fn toggle(&mut self, times: usize) {
        for pilot in [Pilot::C, Pilot::B].into_iter().cycle().take(2 * times) {
            assert!(nothing(self.station.pilot(pilot, 0)));
        }
    }
}

/// The toggles and the result of a `CM_VALIDATE.CNF` to a car.
fn confirmed(frame: &[u8], car: &Car) -> (u8, u8) {
    assert_eq!(frames::message_type(frame), frames::VALIDATE_CNF);
    assert_eq!((&frame[..6], &frame[6..12]), (&car.address[..], &STATION[..]));
    assert_eq!((frame.len(), frame[19]), (CONFIRMATION_OCTETS, 0));
    (frame[20], frame[21])
}

#[test]
fn a_whole_matching() {
    let (mut bench, car) = (Bench::plugged(), car(1));
    bench.sounded(&car, 9);
    assert_eq!(bench.station.query(car.address), Ok(even(9, 10, 18)));
    assert!(nothing(bench.hear(&car.sound(9))));
    let report = bench.replies(&frames::profile(MODEM, STATION, car.address, 21));
    assert_eq!((report.len(), report[0].len()), (1, REPORT_OCTETS));
    assert_eq!((report[0][19 + 50], report[0][19 + 52]), (10, 15));
    assert_eq!(frames::reported(report[0]), Some([15; GROUPS]));
    assert_eq!(bench.station.query(car.address), Ok(even(10, 10, 21)));
    assert!(nothing(bench.hear(&car.rsp(STATION))));
    let confirmed = bench.replies(&car.match_req(STATION));
    assert_eq!(frames::message_type(confirmed[0]), frames::MATCH_CNF);
    assert_eq!(confirmed[0][19 + 66..19 + 73], [1, 2, 3, 4, 5, 6, 7]);
    assert_eq!(confirmed[0][19 + 74..], [0x4B; 16]);
    assert_eq!((bench.station.state(), bench.station.records_held()), (State::Joining, 0));
    let linked = bench.station.link_up().unwrap();
    assert_eq!(linked.indication, Some(Indication::LinkEstablished));
    assert_eq!(bench.station.state(), State::Matched);
    assert!(nothing(bench.station.terminate()));
}

#[test]
fn the_inspection_in_each_state() {
    let (mut bench, car) = (Bench::plugged(), car(1));
    let joined = Some(car.address);
    assert!(bench.inspected(State::Matching, None));
    bench.awaited(&car);
    assert!(bench.inspected(State::Matching, None));
    assert_eq!(bench.replies(&car.match_req(STATION)).len(), 1);
    assert!(bench.inspected(State::Joining, joined));
    assert!(bench.station.link_up().is_ok());
    for pilot in [Pilot::B, Pilot::C, Pilot::D, Pilot::B] {
        assert!(nothing(bench.station.pilot(pilot, 0)));
        assert!(bench.inspected(State::Matched, joined));
    }
    assert!(nothing(bench.station.pilot(Pilot::A, 0)));
    assert!(bench.inspected(State::Unmatched, None));
    let mut bench = Bench::matched(&configuration(), &car);
    assert!(nothing(bench.station.terminate()));
    assert!(bench.inspected(State::Unmatched, None));
}

/// The confirmation of an amplitude map, for success.
fn confirmation_of(car: &Car) -> Vec<u8> {
    let mut out = [0; CONFIRMATION_OCTETS];
    maps::confirm(car.address, STATION, true, &mut out).unwrap().to_vec()
}

#[test]
fn the_matched_car_has_its_map_confirmed() {
    let car = car(1);
    for carriers in [1, 2, 6, 1154, CARRIERS] {
        let number = u32::try_from(carriers).unwrap();
        let configured = Configuration { carriers: number, ..configuration() };
        let mut bench = Bench::matched(&configured, &car);
        let values: Vec<u8> = (0..16).cycle().take(carriers).collect();
        let request = car.map_req(STATION, &values);
        for _ in 0..2 {
            let done = bench.hear(&request).unwrap();
            assert_eq!((done.frames().len(), done.indication), (1, None));
            assert_eq!(done.octets(), confirmation_of(&car));
            assert_eq!(done.octets().len(), 60);
        }
        assert_eq!(bench.out[60..], [0xEE; LEAST_OUTPUT - 60]);
        assert!(bench.inspected(State::Matched, Some(car.address)));
        assert_eq!(maps::values(&request, &mut [0; CARRIERS]), Ok(&values[..]));
    }
}

#[test]
fn other_maps_are_refused() {
    let (ours, other) = (car(1), car(2));
    let map = ours.map_req(STATION, &[3; 6]);
    let mut bench = Bench::plugged();
    assert_eq!(bench.hear(&map), Err(Refusal::WrongState));
    bench.awaited(&ours);
    assert_eq!(bench.hear(&map), Err(Refusal::WrongState));
    assert_eq!(bench.replies(&ours.match_req(STATION)).len(), 1);
    assert_eq!(bench.hear(&map), Err(Refusal::WrongState));
    let mut bench = Bench::matched(&configuration(), &ours);
    for carriers in [1, 5, 7, CARRIERS] {
        let map = ours.map_req(STATION, &vec![3; carriers]);
        assert_eq!(bench.hear(&map), Err(Refusal::OtherCarrierCount));
        let map = other.map_req(STATION, &vec![3; carriers]);
        assert_eq!(bench.hear(&map), Err(Refusal::NoRecord));
    }
    assert_eq!(bench.hear(&other.map_req(STATION, &[3; 6])), Err(Refusal::NoRecord));
    assert_eq!(bench.hear(&ours.map_req(MODEM, &[3; 6])), Err(Refusal::NotForUs));
    assert_eq!(bench.hear(&ours.map_req(STATION, &[])), Err(Refusal::BadOctet));
    assert_eq!(bench.hear(&confirmation_of(&ours)), Err(Refusal::OnlyForCars));
    assert_eq!(bench.hear(&ours.parm_req()), Err(Refusal::WrongState));
    assert_eq!(bench.out, [0xEE; LEAST_OUTPUT]);
    assert_eq!(bench.hear(&map).unwrap().octets(), confirmation_of(&ours));
    assert!(nothing(bench.station.terminate()));
    assert_eq!(bench.hear(&map), Err(Refusal::WrongState));
}

/// What the query gives where every group has the same values.
fn even(sounds: u32, least: u8, greatest: u8) -> Spread {
    Spread { sounds, least: [least; GROUPS], greatest: [greatest; GROUPS] }
}

#[test]
fn the_spread_follows_each_profile() {
    let (mut bench, car) = (Bench::plugged(), car(1));
    let query = |bench: &Bench| bench.station.query(car.address);
    assert_eq!(query(&bench), Err(Refusal::NoRecord));
    bench.sounded(&car, 0);
    assert!(nothing(bench.hear(&car.sound(0))));
    assert_eq!(query(&bench), Err(Refusal::NoRecord));
    for (value, least, greatest) in [(30, 30, 30), (31, 30, 31), (255, 30, 255), (0, 0, 255)] {
        bench.measured(&car, &[value; GROUPS]);
        assert_eq!(query(&bench), Ok(even(1, least, greatest)));
    }
    assert_eq!(bench.replies(&car.parm_req()).len(), 1);
    assert_eq!(query(&bench), Err(Refusal::NoRecord));
    assert!(nothing(bench.hear(&car.start())));
    bench.measured(&car, &[40; GROUPS]);
    assert_eq!(query(&bench), Ok(even(0, 40, 40)));
}

#[test]
fn the_spread_of_each_car_and_group() {
    let (mut bench, first, second) = (Bench::plugged(), car(1), car(2));
    bench.sounded(&first, 0);
    bench.sounded(&second, 0);
    let up: [u8; GROUPS] = std::array::from_fn(|group| u8::try_from(group).unwrap());
    let down = up.map(|value| 57 - value);
    bench.measured(&first, &up);
    bench.measured(&second, &[99; GROUPS]);
    assert_eq!(
        bench.station.query(first.address),
        Ok(Spread { sounds: 0, least: up, greatest: up })
    );
    bench.measured(&first, &down);
    let spread = bench.station.query(first.address).unwrap();
    for (group, (low, high)) in up.into_iter().zip(down).enumerate() {
        assert_eq!((spread.least[group], spread.greatest[group]), (low.min(high), low.max(high)));
    }
    assert_eq!(bench.station.query(second.address), Ok(even(0, 99, 99)));
    assert_eq!(bench.station.query(STATION), Err(Refusal::NoRecord));
}

#[test]
fn the_spread_lasts_until_the_match() {
    let (mut bench, ours, other) = (Bench::plugged(), car(1), car(2));
    bench.awaited(&ours);
    bench.sounded(&other, 2);
    assert_eq!(bench.station.query(ours.address), Ok(even(10, 10, 19)));
    assert_eq!(bench.station.query(other.address), Ok(even(2, 10, 11)));
    assert_eq!(bench.replies(&ours.match_req(STATION)).len(), 1);
    for car in [ours, other] {
        assert_eq!(bench.station.query(car.address), Err(Refusal::NoRecord));
    }
}

#[test]
fn an_empty_run_is_refused_and_leaves_the_record() {
    let (mut bench, ours) = (Bench::plugged(), car(1));
    bench.sounded(&ours, 2);
    for address in [ours.address, car(2).address] {
        let empty = Car { address, run: [0; 8] };
        assert_eq!(bench.hear(&empty.parm_req()), Err(Refusal::EmptyRun));
    }
    assert_eq!(bench.station.records_held(), 1);
    assert_eq!(bench.station.query(ours.address), Ok(even(2, 10, 11)));
}

#[test]
fn reports_of_one_tick_stand_back_to_back() {
    let mut bench = Bench::plugged();
    let cars: Vec<u8> = (1..).take(RECORDS).collect();
    for last in &cars {
        bench.sounded(&car(*last), 1);
    }
    assert_eq!(bench.station.records_held(), RECORDS);
    assert_eq!(bench.hear(&car(99).parm_req()), Err(Refusal::RecordsFull));
    let done = bench.station.tick(605, &mut bench.out).unwrap();
    assert_eq!(done.octets().len(), LEAST_OUTPUT);
    let mut frames = done.frames();
    for left in (0..RECORDS).rev() {
        let report = frames.next().unwrap();
        assert_eq!((report.len(), frames.len()), (REPORT_OCTETS, left));
    }
    assert_eq!((frames.next(), frames.next()), (None, None));
    assert!(done.frames().map(|report| report[5]).eq(cars));
    assert!(done.frames().flatten().eq(done.octets()));
}

#[test]
fn a_validation() {
    let (mut bench, ours, other) = (Bench::plugged(), car(1), car(2));
    bench.awaited(&ours);
    bench.awaited(&other);
    assert_eq!(bench.asked_to_validate(&ours), (0, 1));
    assert_eq!(bench.asked_to_validate(&other), (0, 3));
    let (first, second) = (ours.validate_req(STATION, 0), ours.validate_req(frames::BROADCAST, 9));
    assert_eq!(bench.hear(&first), Err(Refusal::WrongPhase));
    assert!(nothing(bench.hear(&second)));
    assert_eq!(bench.hear(&second), Err(Refusal::WrongPhase));
    assert_eq!(bench.hear(&ours.match_req(STATION)), Err(Refusal::WrongPhase));
    bench.toggle(3);
    assert!(nothing(bench.station.tick(5 + 999, &mut bench.out)));
    let done = bench.station.tick(5 + 1000, &mut bench.out).unwrap();
    assert_eq!((done.frames().len(), done.indication), (1, None));
    assert_eq!(confirmed(done.octets(), &ours), (3, 2));
    assert_eq!(bench.asked_to_validate(&other), (0, 1));
    assert_eq!(bench.replies(&ours.match_req(STATION)).len(), 1);
    assert_eq!(bench.station.state(), State::Joining);
}

#[test]
fn a_validation_with_the_pilot_at_c() {
    let (mut bench, car) = (Bench::plugged(), car(1));
    bench.awaited(&car);
    assert_eq!(bench.asked_to_validate(&car), (0, 1));
    assert!(nothing(bench.hear(&car.validate_req(frames::BROADCAST, 0))));
    bench.toggle(1);
    assert!(nothing(bench.station.pilot(Pilot::C, 0)));
    let done = bench.station.tick(5 + 100, &mut bench.out).unwrap();
    assert_eq!(confirmed(done.octets(), &car), (0, 3));
    assert_eq!((bench.station.state(), bench.station.records_held()), (State::Matching, 0));
}

#[test]
fn a_validation_that_is_not_required() {
    let exempt = Configuration { validation_not_required: true, ..configuration() };
    let (mut bench, car) = (Bench::plugged_with(&exempt), car(1));
    bench.awaited(&car);
    assert_eq!(bench.asked_to_validate(&car), (0, 4));
    assert_eq!(bench.asked_to_validate(&car), (0, 4));
    let second = car.validate_req(frames::BROADCAST, 9);
    assert_eq!(bench.hear(&second), Err(Refusal::WrongPhase));
    assert_eq!(bench.replies(&car.match_req(STATION)).len(), 1);
}

/// The first car's window ends when the second one's report is sent again.
#[test]
fn frames_of_one_tick_may_differ_in_length() {
    let (mut bench, first, second) = (Bench::plugged(), car(1), car(2));
    bench.awaited(&first);
    bench.sounded(&second, 10);
    assert_eq!(bench.asked_to_validate(&first), (0, 1));
    assert!(nothing(bench.hear(&first.validate_req(frames::BROADCAST, 1))));
    let done = bench.station.tick(5 + 200, &mut bench.out).unwrap();
    let lengths: Vec<usize> = done.frames().map(<[u8]>::len).collect();
    assert_eq!(lengths, [REPORT_OCTETS, CONFIRMATION_OCTETS]);
    let frames: Vec<&[u8]> = done.frames().collect();
    assert_eq!(frames::message_type(frames[0]), frames::ATTEN_CHAR_IND);
    assert_eq!((frames[0][5], confirmed(frames[1], &first)), (2, (0, 2)));
    assert!(done.frames().flatten().eq(done.octets()));
}

#[test]
fn the_frames_stand_in_the_output() {
    let mut bench = Bench::plugged();
    let start = bench.out.as_ptr();
    let reply = bench.replies(&car(1).parm_req())[0];
    assert_eq!((reply.as_ptr(), reply.len()), (start, 60));
    assert_eq!(bench.out[60..], [0xEE; LEAST_OUTPUT - 60]);
}

#[test]
fn refusals_change_nothing() {
    let mut bench = Bench::plugged();
    assert_eq!(bench.hear(&[]), Err(Refusal::TooShort));
    assert_eq!(bench.hear(&[0; 60]), Err(Refusal::BadHead));
    assert_eq!(bench.hear(&car(1).start()), Err(Refusal::NoRecord));
    assert_eq!(bench.hear(&car(1).rsp(MODEM)), Err(Refusal::NotForUs));
    assert_eq!(bench.station.link_up(), Err(Refusal::WrongState));
    assert_eq!(bench.station.query([2; 6]), Err(Refusal::NoRecord));
    let short = &mut [0; LEAST_OUTPUT - 1];
    assert_eq!(bench.station.frame(&car(1).parm_req(), short), Err(Refusal::OutputTooShort));
    assert_eq!(bench.out, [0xEE; LEAST_OUTPUT]);
    assert_eq!((bench.station.state(), bench.station.records_held()), (State::Matching, 0));
}

#[test]
fn pilots_and_indications() {
    for (pilot, plugged) in [Pilot::A, Pilot::B, Pilot::C, Pilot::D, Pilot::E, Pilot::F]
        .into_iter()
        .zip([false, true, true, true, false, false])
    {
        let mut bench = Bench::plugged();
        let lost = bench.station.pilot(pilot, 6).unwrap().indication;
        assert_eq!(lost, (!plugged).then_some(Indication::NoLink));
        let state = if plugged { State::Matching } else { State::Unmatched };
        assert_eq!(bench.station.state(), state);
    }
}

#[test]
fn bad_configurations() {
    let good = configuration();
    let group = Configuration { address: [1, 0, 0, 0, 0, 0], ..good.clone() };
    let nid = Configuration { nid: [0, 0, 0, 0, 0, 0, 0x40], ..good.clone() };
    let same = Configuration { modem: STATION, ..good.clone() };
    let exempt = Configuration { modem: STATION, validation_not_required: true, ..good.clone() };
    let [none, more, many] =
        [0, 1156, u32::MAX].map(|carriers| Configuration { carriers, ..good.clone() });
    for bad in [group, nid, same, exempt, none, more, many] {
        assert_eq!(Station::new(&bad).err(), Some(Refusal::BadConfiguration));
        let mut bench = Bench::plugged();
        assert_eq!(bench.station.configure(&bad), Err(Refusal::BadConfiguration));
        answers_16_to_everything(&mut bench);
    }
}

fn answers_16_to_everything(bench: &mut Bench) {
    let bad = Refusal::BadConfiguration;
    assert_eq!(bench.hear(&car(1).parm_req()), Err(bad));
    assert_eq!(bench.hear(&[]), Err(bad));
    assert_eq!(bench.station.tick(10, &mut bench.out), Err(bad));
    assert_eq!(bench.station.tick(99_999, &mut []), Err(bad));
    assert_eq!(bench.station.pilot(Pilot::A, 10), Err(bad));
    assert_eq!(bench.station.pilot(Pilot::B, 10), Err(bad));
    assert_eq!(bench.station.terminate(), Err(bad));
    assert_eq!(bench.station.link_up(), Err(bad));
    assert_eq!(bench.station.query(car(1).address), Err(bad));
    assert_eq!(bench.station.inspect(), Err(bad));
    assert_eq!((bench.station.state(), bench.station.records_held()), (State::Unmatched, 0));
    assert_eq!(bench.out, [0xEE; LEAST_OUTPUT]);
}

#[test]
fn a_wiped_station() {
    let mut bench = Bench::plugged();
    bench.sounded(&car(1), 3);
    bench.out.fill(0xEE);
    bench.station.wipe();
    answers_16_to_everything(&mut bench);
    assert_eq!(bench.station.configure(&configuration()), Ok(()));
    assert!(nothing(bench.station.pilot(Pilot::B, 5)));
    assert_eq!(bench.replies(&car(1).parm_req()).len(), 1);
}

#[test]
fn configuring_anew_forgets_the_matching() {
    let mut bench = Bench::plugged();
    bench.sounded(&car(1), 3);
    assert_eq!(bench.station.configure(&configuration()), Ok(()));
    assert_eq!((bench.station.state(), bench.station.records_held()), (State::Unmatched, 0));
    assert_eq!(bench.hear(&car(1).parm_req()), Err(Refusal::WrongState));
}

#[test]
fn the_key_is_not_shown() {
    let mut bench = Bench::plugged();
    let shown = format!("{:?}", bench.station);
    assert_eq!(shown, "Station { state: Matching, records_held: 0, .. }");
    let done = bench.hear(&car(1).parm_req()).unwrap();
    assert_eq!(format!("{done:?}"), "Done { frames: 1, octets: 60, indication: None }");
    assert!(!format!("{:?}", configuration()).contains("75"));
}

#[test]
fn a_station_may_go_to_another_thread() {
    let mut bench = Bench::plugged();
    let held = std::thread::spawn(move || {
        bench.sounded(&car(1), 1);
        bench.station.records_held()
    });
    assert_eq!(held.join().unwrap(), 1);
}
