//! Amplitude maps: the additions' cases M1 to M7, and each of their sentences at least once.

use crate::amplitude;
use crate::messages::{Address, Body, Edition, Kind, Message, Nid, Nmk, RunId};
use crate::refusal::Refusal;
use crate::script::{write_entry, write_head, Event};
use crate::station::{Config, Indication, Pilot, State, Station, LEAST_OUTPUT};

const fn address(last: u8) -> Address {
    Address([2, 0, 0, 0, 0, last])
}

const CAR: Address = address(1);
const OTHER: Address = address(2);
const US: Address = address(0xAA);
const MODEM: Address = address(0xBB);
const RUN: RunId = RunId([1, 2, 3, 4, 5, 6, 7, 8]);
const CONFIG: Config = Config {
    station: US,
    modem: MODEM,
    nid: Nid([1, 2, 3, 4, 5, 6, 0x3F]),
    nmk: Nmk([0x4B; 16]),
    exempt: true,
    edition: Edition::Iso,
    carriers: 5,
};
const EDITIONS: [Edition; 2] = [Edition::Iso, Edition::Sae];

/// Octets as text; `5*EE` are five octets EE.
fn octets(text: &str) -> Vec<u8> {
    let octet = |text: &str| u8::from_str_radix(text, 16).unwrap();
    let part = |text: &str| match text.split_once('*') {
        Some((times, text)) => vec![octet(text); times.parse().unwrap()],
        None => vec![octet(text)],
    };
    text.split_whitespace().flat_map(part).collect()
}

/// A request with these values.
fn request(source: Address, destination: Address, values: &[u8]) -> Result<Vec<u8>, u32> {
    let mut output = vec![0xEE; 700];
    match amplitude::write(source, destination, values, &mut output) {
        Ok(length) => {
            let rest = output.split_off(length);
            assert!(rest.iter().all(|octet| *octet == 0xEE));
            Ok(output)
        }
        Err(refusal) => {
            assert!(output.iter().all(|octet| *octet == 0xEE));
            Err(refusal.number())
        }
    }
}

/// The car's request of so many carriers.
fn of(carriers: usize) -> Vec<u8> {
    let values: Vec<u8> = (0..carriers).map(|carrier| (carrier % 16) as u8).collect();
    request(CAR, US, &values).unwrap()
}

/// What is read, in both editions.
fn read(frame: &[u8]) -> Result<Message, u32> {
    let [iso, sae] = EDITIONS.map(|edition| Message::read(frame, edition));
    assert_eq!(iso, sae);
    iso.map_err(Refusal::number)
}

/// The values of a frame, in an output with so much room.
fn values(frame: &[u8], room: usize) -> Result<Vec<u8>, u32> {
    let mut output = vec![0xEE; room];
    match amplitude::values(frame, &mut output) {
        Ok(count) => {
            let rest = output.split_off(count);
            assert!(rest.iter().all(|octet| *octet == 0xEE));
            Ok(output)
        }
        Err(refusal) => {
            assert!(output.iter().all(|octet| *octet == 0xEE));
            Err(refusal.number())
        }
    }
}

/// The reductions, in an output with so much room.
fn reduced(values: &[u8], levels: &[i16], room: usize) -> Result<Vec<u8>, u32> {
    let mut output = vec![0xEE; room];
    match amplitude::reduce(values, levels, &mut output) {
        Ok(count) => {
            let rest = output.split_off(count);
            assert!(rest.iter().all(|octet| *octet == 0xEE));
            Ok(output)
        }
        Err(refusal) => {
            assert!(output.iter().all(|octet| *octet == 0xEE));
            Err(refusal.number())
        }
    }
}

type Seen = Result<(Vec<u8>, Option<Indication>), u32>;

fn hear(station: &mut Station, frame: &[u8]) -> Seen {
    let (before, mut output) = (station.clone(), vec![0xEE; LEAST_OUTPUT]);
    let answer = station.receive(frame, &mut output);
    let rest = output.split_off(answer.map_or(0, |accepted| accepted.written));
    assert!(rest.iter().all(|octet| *octet == 0xEE));
    assert!(answer.is_ok() || *station == before);
    answer.map(|accepted| (output, accepted.indication)).map_err(Refusal::number)
}

/// A station that is Joining with the car, and one that is Matched.
fn joining(config: Config) -> Station {
    let (mut station, answer) = Station::configure(config);
    assert_eq!(answer, Ok(()));
    assert!(station.change_pilot(Pilot::B, 0).is_ok());
    let later = config.attempt(false);
    let messages = [
        Body::ParmReq { run: RUN }.broadcast(CAR),
        Body::StartAttenChar { run: RUN, attempt: later }.broadcast(CAR),
        Body::profile(CAR, [9; 58]).send(MODEM, US),
    ];
    let send = |message: Message, station: &mut Station| {
        assert!(hear(station, &message.to_frame(config.edition).unwrap()).is_ok());
    };
    messages.into_iter().for_each(|message| send(message, &mut station));
    assert!(station.tick(600, &mut [0; LEAST_OUTPUT]).is_ok());
    send(Body::response(RUN).send(CAR, US), &mut station);
    send(Body::match_req(RUN).send(CAR, US), &mut station);
    station
}

fn matched(config: Config) -> Station {
    let mut station = joining(config);
    assert!(station.link_up().is_ok());
    assert_eq!(station.state, State::Matched { car: CAR });
    station
}

#[test]
fn m1_m2_reductions() {
    for (value, level, reduction) in [
        (14, -75, 3),
        (14, -77, 1),
        (0, -50, 0),
        (0, 0, 50),
        (14, -78, 0),
        (14, -79, 0),
        (15, 0, 80),
        (15, -128, 0),
        (0, -128, 0),
        (0, -49, 1),
        (15, -80, 0),
        (15, -79, 1),
    ] {
        assert_eq!(reduced(&[value], &[level], 1), Ok(vec![reduction]), "{value}, {level}");
    }
    for value in 0..=15 {
        for level in -128..=0 {
            let limit = -50 - 2 * i32::from(value);
            let expected = (i32::from(level) - limit).max(0) as u8;
            assert_eq!(reduced(&[value, 0], &[level, -50], 5), Ok(vec![expected, 0]));
        }
    }
}

#[test]
fn m3_one_carrier() {
    let frame = octets("02 00 00 00 00 AA 02 00 00 00 00 01 88 E1 01 1C 60 00 00 01 00 0E 38*00");
    assert_eq!((request(CAR, US, &[14]), frame.len()), (Ok(frame.clone()), 60));
    let message = Body::AmpMapReq { carriers: 1 }.send(CAR, US);
    for length in 22..=60 {
        assert_eq!(read(&frame[..length]), Ok(message));
    }
    assert_eq!(read(&frame[..21]), Err(1));
    assert_eq!(values(&frame, 1), Ok(vec![14]));
    for bit in 4..8 {
        let mut wrong = frame.clone();
        wrong[21] |= 1 << bit;
        assert_eq!((read(&wrong), values(&wrong, 1)), (Err(6), Err(6)));
    }
    // Two carriers use both halves, the earlier one the low half.
    let frame = request(CAR, US, &[14, 3]).unwrap();
    assert_eq!((&frame[19..23], frame.len()), (&[2, 0, 0x3E, 0][..], 60));
    assert_eq!(values(&frame, 2), Ok(vec![14, 3]));
    assert_eq!(message.car(), Some(CAR));
}

#[test]
fn m4_all_carriers() {
    let all: Vec<u8> = (0..1_155).map(|carrier| (carrier * 7 % 16) as u8).collect();
    let frame = request(CAR, US, &all).unwrap();
    assert_eq!((frame.len(), &frame[19..21]), (599, &[0x83, 0x04][..]));
    assert_eq!(read(&frame), Ok(Body::AmpMapReq { carriers: 1_155 }.send(CAR, US)));
    assert_eq!(values(&frame, 1_155), Ok(all.clone()));
    assert_eq!((values(&frame, 1_154), values(&frame, 4_096)), (Err(15), Ok(all)));
    assert_eq!(read(&frame[..598]), Err(1));
    let longer = [&frame[..], &[0]].concat();
    assert_eq!(read(&longer), Err(4));
    let mut wrong = frame.clone();
    wrong[598] |= 0x80;
    assert_eq!(read(&wrong), Err(6));
}

#[test]
fn m5_a_wrong_number_of_carriers() {
    let frame = of(1_155);
    for carriers in [0, 1_156, 1_157, 0x8000, 0xFFFF_u16] {
        let mut wrong = frame.clone();
        wrong[19..21].copy_from_slice(&carriers.to_le_bytes());
        for length in [21, 22, 60, 61, 599] {
            assert_eq!(read(&wrong[..length]), Err(6));
        }
        wrong.resize(4_096, 0);
        assert_eq!(read(&wrong), Err(6));
        // It comes before the addresses, and behind the type.
        wrong[0] |= 1;
        assert_eq!((read(&wrong), values(&wrong, 0)), (Err(6), Err(6)));
        wrong[15] = 0x1B;
        assert_eq!(read(&wrong), Err(3));
        wrong[12] = 0;
        assert_eq!(read(&wrong), Err(2));
    }
    for length in 0..21 {
        assert_eq!((read(&frame[..length]), values(&frame[..length], 9)), (Err(1), Err(1)));
    }
}

#[test]
fn requests_of_every_length() {
    for carriers in 1..=1_155_usize {
        let values_of: Vec<u8> = (0..carriers).map(|carrier| (carrier * 5 % 16) as u8).collect();
        let frame = request(CAR, US, &values_of).unwrap();
        let shortest = 21 + carriers.div_ceil(2);
        assert_eq!(frame.len(), shortest.max(60));
        assert_eq!(
            read(&frame[..shortest]),
            Ok(Body::AmpMapReq { carriers: carriers as u16 }.send(CAR, US))
        );
        assert_eq!(read(&frame[..shortest - 1]), Err(1));
        assert_eq!(read(&[&frame[..], &[0]].concat()), Err(4));
        let mut padded = frame.clone();
        padded[shortest..].fill(0xA5);
        assert_eq!(values(&padded, carriers), Ok(values_of));
    }
}

#[test]
fn the_order_of_reading_and_writing() {
    // The payload's length comes before the addresses, and these before the unused half.
    let mut frame = of(5);
    frame[23] |= 0x10;
    frame[6] |= 1;
    assert_eq!((read(&frame), read(&frame[..23])), (Err(5), Err(1)));
    frame.push(0);
    assert_eq!(read(&frame), Err(4));
    frame.pop();
    frame[6] &= 0xFE;
    assert_eq!(read(&frame), Err(6));
    // Every bit of the values but the unused half, and nothing of the padding.
    let frame = of(5);
    for (at, bit) in (21..60).flat_map(|at| (0..8).map(move |bit| (at, bit))) {
        let mut changed = frame.clone();
        changed[at] ^= 1 << bit;
        match (at, bit) {
            (23, 4..) => assert_eq!(read(&changed), Err(6)),
            (21..=23, _) => assert_ne!(values(&changed, 5), values(&frame, 5)),
            _ => assert_eq!(values(&changed, 5), values(&frame, 5)),
        }
    }
    // Writing: 5, then 6, then 15.
    for wrong in [Address([0; 6]), Address([1, 0, 0, 0, 0, 1]), Address::BROADCAST] {
        assert_eq!((request(wrong, US, &[]), request(CAR, wrong, &[16])), (Err(5), Err(5)));
        let mut frame = of(5);
        frame[..6].copy_from_slice(&wrong.0);
        assert_eq!(read(&frame), Err(5));
    }
    assert_eq!((request(CAR, US, &[]), request(CAR, US, &[3; 1_156])), (Err(6), Err(6)));
    assert_eq!((request(CAR, US, &[3, 16]), request(CAR, US, &[255; 9])), (Err(6), Err(6)));
    assert_eq!(amplitude::write(CAR, US, &[16], &mut []), Err(Refusal::Octet));
    assert_eq!(amplitude::write(CAR, US, &[15], &mut [0; 59]), Err(Refusal::Output));
    assert_eq!(amplitude::write(CAR, US, &[15; 1_155], &mut [0; 598]), Err(Refusal::Output));
    assert_eq!(amplitude::write(CAR, US, &[15; 1_155], &mut [0; 599]), Ok(599));
    // Another message has no values.
    let other = Body::ParmReq { run: RUN }.broadcast(CAR).to_frame(Edition::Iso).unwrap();
    assert_eq!(values(&other, 9), Err(3));
}

#[test]
fn confirmations_are_read_and_written() {
    let cnf = |result| Body::AmpMapCnf { result }.send(US, CAR);
    let frame = octets("02 00 00 00 00 01 02 00 00 00 00 AA 88 E1 01 1D 60 00 00 01 40*00");
    for edition in EDITIONS {
        assert_eq!(cnf(1).to_frame(edition), Ok(frame.clone()));
        assert_eq!(cnf(2).to_frame(edition), Err(Refusal::Octet));
        let strange = Body::AmpMapCnf { result: 2 }.send(US, Address::BROADCAST);
        assert_eq!(strange.write(edition, &mut []), Err(Refusal::AddressKind));
        assert_eq!(cnf(0).write(edition, &mut [0; 59]), Err(Refusal::Output));
    }
    for result in 0..=255 {
        let mut frame = frame.clone();
        frame[19] = result;
        let expected = if result <= 1 { Ok(cnf(result)) } else { Err(6) };
        assert_eq!((read(&frame), read(&frame[..20])), (expected, expected));
    }
    assert_eq!((read(&frame[..19]), read(&[&frame[..], &[0]].concat())), (Err(1), Err(4)));
    assert_eq!(cnf(0).car(), None);
}

#[test]
fn m6_the_matched_car() {
    let success = Body::AmpMapCnf { result: 0 }.send(US, CAR).to_frame(Edition::Iso).unwrap();
    assert_eq!(success, octets("02 00 00 00 00 01 02 00 00 00 00 AA 88 E1 01 1D 60 00 00 41*00"));
    for edition in EDITIONS {
        for carriers in [1, 2, 5, 1_154, 1_155] {
            let config = Config { edition, carriers, ..CONFIG };
            let own = carriers as usize;
            let mut station = matched(config);
            let before = station.clone();
            for _ in 0..2 {
                assert_eq!(hear(&mut station, &of(own)), Ok((success.clone(), None)));
                assert_eq!(station, before);
            }
            for other in [1, 2, 4, 6, 1_153, 1_154, 1_155] {
                if other != own {
                    assert_eq!(hear(&mut station, &of(other)), Err(24));
                    let foreign = request(OTHER, US, &vec![3; other]).unwrap();
                    assert_eq!(hear(&mut station, &foreign), Err(11));
                }
            }
            let foreign = request(OTHER, US, &vec![3; own]).unwrap();
            assert_eq!(hear(&mut station, &foreign), Err(11));
        }
    }
    // The other states take none, whoever sends it.
    let (mut unmatched, _) = Station::configure(CONFIG);
    assert_eq!(hear(&mut unmatched, &of(5)), Err(8));
    assert_eq!(hear(&mut unmatched, &of(6)), Err(8));
    let mut matching = unmatched.clone();
    assert!(matching.change_pilot(Pilot::B, 0).is_ok());
    let parm = Body::ParmReq { run: RUN }.broadcast(CAR).to_frame(Edition::Iso).unwrap();
    assert!(hear(&mut matching, &parm).is_ok());
    assert_eq!((hear(&mut matching, &of(5)), hear(&mut matching, &of(6))), (Err(8), Err(8)));
    assert_eq!(hear(&mut joining(CONFIG), &of(5)), Err(8));
    assert_eq!(hear(&mut joining(CONFIG), &request(OTHER, US, &[1]).unwrap()), Err(8));
}

#[test]
fn the_order_of_a_request_to_the_station() {
    let (mut bad, answer) = Station::configure(Config { carriers: 0, ..CONFIG });
    assert_eq!(answer, Err(Refusal::Configuration));
    assert_eq!(bad.receive(&of(5), &mut []), Err(Refusal::Configuration));
    let mut station = matched(CONFIG);
    let short = station.receive(&[], &mut [0; LEAST_OUTPUT - 1]);
    assert_eq!(short, Err(Refusal::Output));
    assert_eq!(hear(&mut station, &of(5)[..23]), Err(1));
    for (from, to) in [(CAR, OTHER), (CAR, MODEM), (US, US), (MODEM, US)] {
        for station in [&mut station, &mut joining(CONFIG)] {
            assert_eq!(hear(station, &request(from, to, &[1; 5]).unwrap()), Err(7));
        }
    }
    // Confirmations are for cars, to whomever they go.
    for (result, to) in [(0, CAR), (1, US), (1, OTHER)] {
        let cnf = Body::AmpMapCnf { result }.send(CAR, to).to_frame(Edition::Iso).unwrap();
        assert_eq!(hear(&mut station, &cnf), Err(17));
    }
    // Matched takes nothing else.
    let first = Body::ValidateReq { timer: 0 };
    for message in [
        Body::ParmReq { run: RUN }.broadcast(CAR),
        Body::start(RUN).broadcast(CAR),
        Body::sound(RUN, 0, [0; 16]).broadcast(CAR),
        Body::profile(CAR, [1; 58]).send(MODEM, US),
        Body::response(RUN).send(CAR, US),
        Body::match_req(RUN).send(CAR, US),
        first.send(CAR, US),
        first.broadcast(CAR),
    ] {
        assert_eq!(hear(&mut station, &message.to_frame(Edition::Iso).unwrap()), Err(8));
    }
}

#[test]
fn the_car_is_kept_and_forgotten() {
    let mut station = matched(CONFIG);
    assert_eq!(station.inspect(), Ok((3, Some(CAR))));
    for to in [Pilot::C, Pilot::D, Pilot::D, Pilot::B, Pilot::C] {
        assert!(station.change_pilot(to, 77).is_ok());
        assert_eq!(
            (station.state, station.inspect()),
            (State::Matched { car: CAR }, Ok((3, Some(CAR))))
        );
        assert!(hear(&mut station, &of(5)).is_ok());
    }
    let reading = station.reading.wrapping_add(60_000);
    assert!(station.tick(reading, &mut [0; LEAST_OUTPUT]).is_ok());
    assert!(hear(&mut station, &of(5)).is_ok());
    for lost in [Pilot::A, Pilot::E, Pilot::F] {
        let mut station = station.clone();
        assert!(station.change_pilot(lost, 0).is_ok());
        assert_eq!(station.inspect(), Ok((0, None)));
        assert_eq!(hear(&mut station, &of(5)), Err(8));
        assert!(station.change_pilot(Pilot::B, 0).is_ok());
        assert_eq!((station.inspect(), hear(&mut station, &of(5))), (Ok((1, None)), Err(8)));
    }
    assert!(station.terminate().is_ok());
    assert_eq!((station.inspect(), hear(&mut station, &of(5))), (Ok((0, None)), Err(8)));
    let joining = joining(CONFIG);
    assert_eq!(joining.inspect(), Ok((2, Some(CAR))));
    let (fresh, _) = Station::configure(CONFIG);
    assert_eq!(fresh.inspect(), Ok((0, None)));
}

#[test]
fn carriers_of_a_configuration() {
    for (carriers, is_good) in
        [(0, false), (1, true), (1_155, true), (1_156, false), (0x1_0005, false), (u32::MAX, false)]
    {
        let (station, answer) = Station::configure(Config { carriers, ..CONFIG });
        assert_eq!((answer.is_ok(), station.inspect().is_ok()), (is_good, is_good));
        let expected = if is_good { Ok((0, None)) } else { Err(Refusal::Configuration) };
        assert_eq!(station.inspect(), expected);
    }
}

#[test]
fn m7_the_order_of_a_reduction() {
    for level in [-129, 1, i16::MIN, i16::MAX] {
        assert_eq!(reduced(&[3, 3], &[-60, level], 2), Err(16));
        // 16 before 15, 24 before 16, 6 before 24.
        assert_eq!(reduced(&[3, 3], &[-60, level], 1), Err(16));
        assert_eq!(reduced(&[3], &[-60, level], 0), Err(24));
        assert_eq!(reduced(&[3, 16], &[level], 0), Err(6));
    }
    assert_eq!((reduced(&[], &[], 0), reduced(&[0; 1_156], &[0; 1_156], 1_156)), (Err(6), Err(6)));
    assert_eq!(reduced(&[0; 4_000], &[], 0), Err(6));
    for wrong in [16, 17, 255] {
        assert_eq!(reduced(&[0, wrong], &[0, 0], 2), Err(6));
    }
    assert_eq!((reduced(&[1, 2], &[0], 2), reduced(&[1, 2], &[0; 3], 2)), (Err(24), Err(24)));
    assert_eq!((reduced(&[1, 2], &[], 2), reduced(&[1, 2], &[0; 2], 1)), (Err(24), Err(15)));
    assert_eq!((reduced(&[1], &[0], 0), reduced(&[1], &[0], 9)), (Err(15), Ok(vec![52])));
    assert_eq!(reduced(&[0; 1_155], &[0; 1_155], 1_155), Ok(vec![50; 1_155]));
    assert_eq!(reduced(&[0; 1_155], &[0; 1_155], 1_154), Err(15));
}

/// A script of these events, and what it is answered.
fn answers(config: &Config, events: &[Event]) -> Vec<u8> {
    let (mut script, mut output) = (Vec::new(), Vec::new());
    write_head(&mut script, config, events.len() as u32).unwrap();
    events.iter().for_each(|event| event.write(&mut script).unwrap());
    assert!(crate::run(&script[..], &mut output).unwrap());
    output
}

#[test]
fn reductions_and_inspections_in_a_script() {
    let reduction = Event::Reduction { values: vec![14, 14], levels: vec![-75, -77], room: 3 };
    let mut entry = Vec::new();
    reduction.write(&mut entry).unwrap();
    let text = "06 00 00 00 00 00 00 00 03 00 00 00 0A 00 00 00 02 00 00 00 0E 0E B5 FF B3 FF";
    assert_eq!(entry, octets(text));
    let mut inspection = Vec::new();
    Event::Inspection.write(&mut inspection).unwrap();
    assert_eq!(inspection, octets("07 00 00 00 12*00"));
    let plug = Event::Pilot { to: Pilot::C, reading: 3 };
    let events = [reduction.clone(), Event::Inspection, plug, Event::Inspection];
    let expected = "00 00 00 00 8*00 02 00 00 00 03 01 8*00 0A 00 00 00 10*00 12*00 \
                    8*00 0A 00 00 00 01 00 00 00 6*00";
    assert_eq!(answers(&CONFIG, &events), octets(expected));
    // The reduction is no call of the station, the inspection is.
    let bad = Config { carriers: 0, ..CONFIG };
    let expected = "10 00 00 00 8*00 02 00 00 00 03 01 10 00 00 00 8*00";
    assert_eq!(answers(&bad, &events[..2]), octets(expected));
    // As many levels as are left, in pairs of octets.
    let run = |octets: &[u8]| {
        let (mut script, mut output) = (Vec::new(), Vec::new());
        write_head(&mut script, &CONFIG, 1).unwrap();
        write_entry(&mut script, 6, 9, 4_096, octets).unwrap();
        crate::run(&script[..], &mut output).map(|_| output[4..8].to_vec()).ok()
    };
    let number = |number: u32| number.to_le_bytes().to_vec();
    assert_eq!(run(&[0, 0, 0, 0]), Some(number(6)));
    assert_eq!(run(&[1, 0, 0, 0, 7]), Some(number(24)));
    assert_eq!(run(&[1, 0, 0, 0, 7, 0, 0, 0, 0]), Some(number(24)));
    assert_eq!(run(&[1, 0, 0, 0, 7, 0, 0]), Some(number(0)));
    assert_eq!(run(&[1, 0, 0, 0, 7, 0, 1]), Some(number(16)));
    for broken in [&[][..], &[0, 0, 0], &[1, 0, 0, 0], &[1, 0, 0, 0, 7, 0], &[0, 0, 0, 1]] {
        assert_eq!(run(broken), None);
    }
    let mut script = Vec::new();
    write_head(&mut script, &CONFIG, 1).unwrap();
    for (kind, octets) in [(7, &[0][..]), (8, &[])] {
        let mut broken = script.clone();
        write_entry(&mut broken, kind, 0, 0, octets).unwrap();
        assert!(crate::run(&broken[..], &mut Vec::new()).is_err());
    }
    // The head's last setting is any number.
    assert_eq!(&script[43..47], &[5, 0, 0, 0]);
    assert_eq!(Kind::AmpMapReq.shortest(), 22);
}
