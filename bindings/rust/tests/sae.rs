//! A station of the SAE edition against the library.

#[path = "../../../examples/rust/src/frames.rs"]
mod frames;

use frames::{Address, Car};
use lahzavar::{Answer, Configuration, Edition, Indication, Pilot, Refusal, Spread, State};
use lahzavar::{Station, CONFIRMATION_OCTETS, GROUPS, LEAST_OUTPUT, RECORDS, REPORT_OCTETS};

const STATION: Address = [2, 0, 0, 0, 0, 0xAA];
const MODEM: Address = [2, 0, 0, 0, 0, 0xBB];
/// The octets of a report of 20 groups.
const SHORT_REPORT: usize = 71 + 20;

fn car(last: u8) -> Car {
    Car { address: [2, 0, 0, 0, 0, last], run: [last; 8] }
}

/// Accepted, with no frame and no indication.
fn nothing(answer: Answer<'_>) -> bool {
    answer.is_ok_and(|done| done.frames().len() == 0 && done.indication.is_none())
}

/// A station in Matching and the output that is lent to it.
struct Bench {
    station: Station,
    out: [u8; LEAST_OUTPUT],
}

impl Bench {
    fn plugged(edition: Edition) -> Bench {
        let mut station = Station::new(&Configuration {
            address: STATION,
            modem: MODEM,
            nid: [1, 2, 3, 4, 5, 6, 7],
            nmk: [0x4B; 16],
            validation_not_required: false,
            edition,
            carriers: 1155,
        })
        .unwrap();
        assert!(nothing(station.pilot(Pilot::B, 0)));
        Bench { station, out: [0; LEAST_OUTPUT] }
    }

    fn hear(&mut self, octets: &[u8]) -> Answer<'_> {
        self.station.frame(octets, &mut self.out)
    }

    fn reply(&mut self, octets: &[u8]) -> &[u8] {
        let mut frames = self.hear(octets).unwrap().frames();
        assert_eq!(frames.len(), 1);
        frames.next().unwrap()
    }

    /// The modem measures one sound of a car, the same value in so many groups.
    fn measured(&mut self, car: &Car, value: u8, groups: usize) -> Answer<'_> {
        let values = &[value; GROUPS][..groups];
        self.hear(&frames::profile_of(MODEM, STATION, car.address, values))
    }

    /// A car begins its first try and is measured so often.
    fn sounded(&mut self, car: &Car, profiles: u8, groups: usize) {
        let asked = self.reply(&car.parm_req());
        assert_eq!(frames::message_type(asked), frames::PARM_CNF);
        assert!(nothing(self.hear(&car.sae_start(false))));
        for count in 0..profiles {
            assert!(nothing(self.hear(&car.sound(count))));
            assert!(self.measured(car, 10 + count, groups).is_ok());
        }
    }

    /// The lengths of the frames of a tick, which are all its octets.
    fn lengths(&mut self, reading: u32) -> Vec<usize> {
        let done = self.station.tick(reading, &mut self.out).unwrap();
        assert!(done.frames().flatten().eq(done.octets()));
        done.frames().map(<[u8]>::len).collect()
    }
}

#[test]
fn a_whole_matching() {
    let (mut bench, car) = (Bench::plugged(Edition::Sae), car(1));
    bench.sounded(&car, 7, 20);
    let report = bench.measured(&car, 30, 20).unwrap().octets();
    assert_eq!(frames::message_type(report), frames::ATTEN_CHAR_IND);
    assert_eq!((report.len(), report[19 + 50], report[19 + 51]), (SHORT_REPORT, 8, 20));
    assert_eq!(report[19 + 52..], [15; 20]); // 121 / 8
    let (mut least, mut greatest) = ([0; GROUPS], [0; GROUPS]);
    least[..20].fill(10);
    greatest[..20].fill(30);
    assert_eq!(bench.station.query(car.address), Ok(Spread { sounds: 7, least, greatest }));
    assert!(nothing(bench.hear(&car.rsp(STATION))));
    let mut request = car.match_req(STATION);
    request[19 + 4..19 + 21].fill(0xC1);
    request[19 + 27..19 + 44].fill(0xC2);
    let confirmed = bench.reply(&request);
    assert_eq!(frames::message_type(confirmed), frames::MATCH_CNF);
    assert_eq!(confirmed[19 + 4..19 + 50], request[19 + 4..19 + 50]);
    assert_eq!(bench.station.state(), State::Joining);
    let linked = bench.station.link_up().unwrap();
    assert_eq!(linked.indication, Some(Indication::LinkEstablished));
}

#[test]
fn the_first_try_and_a_later_one() {
    let (mut bench, car) = (Bench::plugged(Edition::Sae), car(1));
    assert_eq!(bench.reply(&car.parm_req())[19 + 6..19 + 9], [0x08, 0x02, 0]);
    assert_eq!(bench.hear(&car.sae_start(true)), Err(Refusal::OtherTry));
    assert!(nothing(bench.hear(&car.sae_start(false))));
    assert!(nothing(bench.hear(&car.sound(7))));
    assert_eq!(bench.hear(&car.sound(8)), Err(Refusal::BadSoundCount));
    assert_eq!(bench.reply(&car.parm_req())[19 + 6..19 + 9], [0x10, 0x0A, 0]);
    assert_eq!(bench.hear(&car.sae_start(false)), Err(Refusal::OtherTry));
    assert!(nothing(bench.hear(&car.sae_start(true))));
    assert!(nothing(bench.hear(&car.sound(15))));
    assert_eq!(bench.hear(&car.sound(16)), Err(Refusal::BadSoundCount));
}

#[test]
fn the_first_profile_fixes_the_group_count() {
    let (mut bench, car) = (Bench::plugged(Edition::Sae), car(1));
    bench.sounded(&car, 1, 20);
    for groups in [1, 19, 21, GROUPS] {
        assert_eq!(bench.measured(&car, 9, groups), Err(Refusal::OtherGroupCount));
    }
    assert_eq!(bench.measured(&car, 9, 0), Err(Refusal::BadOctet));
    assert!(nothing(bench.measured(&car, 9, 20)));
}

#[test]
fn each_report_of_a_tick_has_its_own_length() {
    let mut bench = Bench::plugged(Edition::Sae);
    bench.sounded(&car(1), 8, 1);
    assert!(nothing(bench.hear(&car(1).rsp(STATION))));
    bench.sounded(&car(2), 1, 20);
    bench.sounded(&car(3), 1, GROUPS);
    assert_eq!(bench.reply(&car(1).validate_req(STATION, 0))[21], 1);
    assert!(nothing(bench.hear(&car(1).validate_req(frames::BROADCAST, 1))));
    assert_eq!(bench.lengths(199), [0; 0]);
    assert_eq!(bench.lengths(200), [SHORT_REPORT, REPORT_OCTETS, CONFIRMATION_OCTETS]);
}

#[test]
fn a_report_to_every_car() {
    let mut bench = Bench::plugged(Edition::Sae);
    for last in (1..).take(RECORDS) {
        bench.sounded(&car(last), 1, if last == 9 { 1 } else { GROUPS });
    }
    let mut expected = [REPORT_OCTETS; RECORDS];
    expected[8] = 72;
    assert_eq!(bench.lengths(200), expected);
}

#[test]
fn cars_of_the_other_edition_are_refused() {
    let (mut bench, ours) = (Bench::plugged(Edition::Sae), car(1));
    bench.reply(&ours.parm_req());
    assert_eq!(bench.hear(&ours.start()), Err(Refusal::BadOctet));
    let mut bench = Bench::plugged(Edition::Iso);
    bench.reply(&ours.parm_req());
    assert_eq!(bench.hear(&ours.sae_start(false)), Err(Refusal::BadOctet));
    assert!(nothing(bench.hear(&ours.start())));
    assert_eq!(bench.measured(&ours, 9, 20), Err(Refusal::TooShort));
}
