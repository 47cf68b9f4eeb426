//! A station's driver loop: interrupts put frames, clock readings and pilot states into a small
//! queue; the loop takes them out one by one, hands them to the station, and puts the replies into a
//! send queue. Here a thread with two simulated cars stands in for the interrupts and the line: one
//! car matches with this station, the other is heard as well but matches with the next station. With
//! `--log FILE` the session's log is in that file at the end, for the program `replay`.

mod frames;
mod session_log;

use frames::{Address, Car};
use lahzavar::{Answer, Configuration, Done, Edition, Indication, Pilot, Refusal, State, Station};
use lahzavar::{GROUPS, LEAST_OUTPUT};
use session_log::SessionLog;
use std::collections::BTreeMap;
use std::ffi::{OsStr, OsString};
use std::process::ExitCode;
use std::sync::mpsc::{sync_channel, Receiver, SyncSender};
use std::thread;
use std::time::Duration;

const STATION: Address = [2, 0, 0, 0, 0, 0xAA];
const MODEM: Address = [2, 0, 0, 0, 0, 0xBB];
/// Of our modem, as its manual says; they decide about amplitude maps alone.
const CARRIERS: u32 = 1155;
const NEXT_STATION: Address = [2, 0, 0, 0, 0, 0xCC];
const OUR_CAR: Car = Car { address: [2, 0, 0, 0, 0, 1], run: [1, 2, 3, 4, 5, 6, 7, 8] };
const NEIGHBOUR: Car = Car { address: [2, 0, 0, 0, 0, 2], run: [9; 8] };

/// What an interrupt hands over.
enum Event {
    Frame(Vec<u8>),
    /// Every 10 ms.
    Clock(u32),
    /// Every change, also among B, C and D: a car may validate by them. They stand in the same queue
    /// as the clock's readings, so that their order is kept.
    Pilot(Pilot, u32),
    LinkUp,
}

/// What comes of the answers.
struct Outcome {
    send: SyncSender<Vec<u8>>,
    indication: Option<Indication>,
    /// How often each refusal came, by its number.
    refusals: BTreeMap<u32, u32>,
}

impl Outcome {
    /// Puts each frame into the send queue, at its own length, keeps the indication, and counts a
    /// refusal.
    fn obey(&mut self, answer: Answer) {
        match answer {
            // A refused event changed nothing, so that the loop goes on.
            Err(refusal) => self.count(refusal),
            Ok(done) => {
                for reply in done.frames() {
                    // A full send queue drops the frame, and cars repeat themselves.
                    let _ = self.send.try_send(reply.to_vec());
                }
                self.indication = done.indication.or(self.indication);
            }
        }
    }

    /// Says a refusal's sentence the first time.
    fn count(&mut self, refusal: Refusal) {
        let count = self.refusals.entry(refusal.number()).or_default();
        if *count == 0 {
            eprintln!("{refusal}");
        }
        *count += 1;
    }

    fn report(&self) {
        let counts = self.refusals.iter().map(|(number, count)| format!("{count} with {number}"));
        eprintln!("refused: {}", counts.collect::<Vec<_>>().join(", "));
    }
}

/// How many carrier groups a frame tells of, where it is a report, `CM_ATTEN_CHAR.IND`: always all in
/// the ISO edition.
fn reported_groups(frame: &[u8]) -> Option<usize> {
    let report = frame.get(15..17) == Some(&[0x6E, 0x60]);
    frame.get(70).filter(|_| report).map(|groups| GROUPS.min(usize::from(*groups)))
}

/// For field service: the lowest and the highest value of each car that gets its report now; a match
/// takes them away.
fn log_spreads(station: &Station, answer: Answer) {
    for frame in answer.iter().flat_map(Done::frames) {
        let (Some(groups), Some(car)) = (reported_groups(frame), frame.first_chunk()) else {
            continue;
        };
        if let Ok(spread) = station.query(*car) {
            let low = spread.least[..groups].iter().min().unwrap_or(&0);
            let high = spread.greatest[..groups].iter().max().unwrap_or(&0);
            eprintln!("car {car:02X?}: {} sounds heard, {low} to {high} dB", spread.sounds);
        }
    }
}

/// The driver loop: ends with the first indication, or with the queue. Each event goes into the log
/// with its answer.
fn drive(
    station: &mut Station,
    log: &mut SessionLog,
    events: Receiver<Event>,
    outcome: &mut Outcome,
) {
    let (mut out, mut pilot_now) = ([0; LEAST_OUTPUT], Pilot::A);
    for event in events {
        match event {
            Event::Frame(octets) => {
                let answer = station.frame(&octets, &mut out);
                log.frame(&octets, answer);
                log_spreads(station, answer);
                outcome.obey(answer);
            }
            Event::Clock(reading) => {
                let timed = matches!(station.state(), State::Matching | State::Joining);
                let answer = station.tick(reading, &mut out);
                // After a gap of more than 60 seconds in a matching it is not known what happened
                // meanwhile, so that it ends and begins anew; else the gap does no harm, since the
                // next plug-in or loss takes a reading. For the same reason the log needs no ticks
                // while no time runs; with them it would be full before a car comes.
                if timed {
                    log.tick(reading, answer);
                }
                log_spreads(station, answer);
                outcome.obey(answer);
                if answer == Err(Refusal::TickGap) && timed {
                    for pilot in [Pilot::A, pilot_now] {
                        let answer = station.pilot(pilot, reading);
                        log.pilot(pilot, reading, answer);
                        outcome.obey(answer);
                    }
                }
            }
            Event::Pilot(pilot, reading) => {
                pilot_now = pilot;
                let answer = station.pilot(pilot, reading);
                log.pilot(pilot, reading, answer);
                outcome.obey(answer);
            }
            Event::LinkUp => {
                let answer = station.link_up();
                log.link_up(answer);
                outcome.obey(answer);
            }
        }
        if outcome.indication.is_some() {
            return;
        }
    }
}

/// What a car does with one frame from the station.
fn car_hears(frame: &[u8]) -> Vec<Event> {
    let ours = frame.starts_with(&OUR_CAR.address);
    let (car, chosen, attenuation) =
        if ours { (OUR_CAR, STATION, 12) } else { (NEIGHBOUR, NEXT_STATION, 55) };
    let frames = match frames::message_type(frame) {
        frames::PARM_CNF => {
            let sounds = (0..10).rev().flat_map(|count| {
                [car.sound(count), frames::profile(MODEM, STATION, car.address, attenuation)]
            });
            [car.start()].into_iter().chain(sounds).collect()
        }
        frames::ATTEN_CHAR_IND => vec![car.rsp(STATION), car.match_req(chosen)],
        frames::MATCH_CNF => return vec![Event::LinkUp],
        _ => Vec::new(),
    };
    frames.into_iter().map(Event::Frame).collect()
}

/// The line: plug-in, both cars' requests, then an answer to each frame and 10 ms more; ends when
/// the station is silent.
fn line(events: &SyncSender<Event>, replies: &Receiver<Vec<u8>>) {
    let mut reading = 0xFFFF_FF00;
    let first = [
        Event::Pilot(Pilot::B, reading),
        Event::Frame(NEIGHBOUR.parm_req()),
        Event::Frame(OUR_CAR.parm_req()),
    ];
    let put = |event| events.send(event).is_ok();
    let mut heard = first.into_iter().all(put);
    while heard {
        let Ok(frame) = replies.recv_timeout(Duration::from_secs(1)) else { return };
        reading = u32::wrapping_add(reading, 10);
        heard = car_hears(&frame).into_iter().all(put) && put(Event::Clock(reading));
    }
}

/// Writes the session's log to a file. Gives whether that is done.
fn write_log(log: &SessionLog, name: &OsStr) -> bool {
    let name = std::path::Path::new(name);
    let written = std::fs::write(name, log.octets());
    let more = if log.is_full() { ", and no room for more" } else { "" };
    match &written {
        Ok(()) => eprintln!("{}: {} events{more}", name.display(), log.count()),
        Err(error) => eprintln!("{}: {error}", name.display()),
    }
    written.is_ok()
}

fn main() -> ExitCode {
    let arguments: Vec<OsString> = std::env::args_os().skip(1).collect();
    let log_name = match &arguments[..] {
        [] => None,
        [option, name] if option == "--log" => Some(name),
        _ => {
            eprintln!("usage: station [--log FILE]");
            return ExitCode::from(2);
        }
    };
    let configuration = Configuration {
        address: STATION,
        modem: MODEM,
        nid: [1, 2, 3, 4, 5, 6, 7],
        nmk: *b"a key for tests.",
        validation_not_required: false,
        edition: Edition::Iso,
        carriers: CARRIERS,
    };
    let mut station = match Station::new(&configuration) {
        Ok(station) => station,
        Err(refusal) => {
            eprintln!("the configuration was {refusal}");
            return ExitCode::FAILURE;
        }
    };
    let mut log = SessionLog::new(&configuration);
    let (put, events) = sync_channel(32);
    let (send, replies) = sync_channel(32);
    thread::spawn(move || line(&put, &replies));
    let mut outcome = Outcome { send, indication: None, refusals: BTreeMap::new() };
    drive(&mut station, &mut log, events, &mut outcome);
    outcome.report();
    let logged = log_name.is_none_or(|name| write_log(&log, name));
    if outcome.indication != Some(Indication::LinkEstablished) {
        eprintln!("no link");
        return ExitCode::FAILURE;
    }
    println!("link established");
    if logged {
        ExitCode::SUCCESS
    } else {
        ExitCode::FAILURE
    }
}
