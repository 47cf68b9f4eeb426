//! The second station's side of the speed measurement; tests/c/speed.c has the library's, with the
//! same commands. A last argument `sae` makes it a station of the SAE edition.

#[allow(dead_code)]
#[path = "../../../reference/src/messages.rs"]
mod messages;
#[allow(dead_code)]
#[path = "../../../reference/src/refusal.rs"]
mod refusal;
#[allow(dead_code)]
#[path = "../../../reference/src/station.rs"]
mod station;

use messages::{Address, Body, Edition, Nid, Nmk, RunId, Try};
use station::{Answer, Config, Pilot, Station, LEAST_OUTPUT, RECORDS};
use std::hint::black_box;
use std::io;
use std::time::Instant;

const US: Address = Address([2, 0, 0, 0, 0, 0xAA]);
const MODEM: Address = Address([2, 0, 0, 0, 0, 0xBB]);
const TICKS: usize = 1001;

fn plugged(edition: Edition) -> Station {
    let mut nmk = [0; 16];
    nmk[0] = 0x4B;
    let (nid, nmk) = (Nid([1, 2, 3, 4, 5, 6, 7]), Nmk(nmk));
    let config = Config { station: US, modem: MODEM, nid, nmk, exempt: false, edition, carriers: 1155 };
    let (mut station, _) = Station::configure(config);
    let _ = station.change_pilot(Pilot::B, 0);
    station
}

/// The end of our car's matching, and the next plug-in.
fn plug_in_again(station: &mut Station) {
    let _ = station.link_up();
    let _ = station.change_pilot(Pilot::A, 0);
    let _ = station.change_pilot(Pilot::B, 0);
}

/// Splits the input at its next frame.
fn next_frame(input: &[u8]) -> Option<(&[u8], &[u8])> {
    let (length, rest) = input.split_first_chunk()?;
    rest.split_at_checked(usize::from(u16::from_le_bytes(*length)))
}

/// Hands every frame to the station, and every answer with its output to `then`.
#[inline(always)]
fn each_frame(station: &mut Station, mut input: &[u8], mut then: impl FnMut(Answer, &[u8])) {
    let mut out = [0; LEAST_OUTPUT];
    while let Some((frame, rest)) = next_frame(input) {
        if frame.is_empty() {
            plug_in_again(station);
        } else {
            let answer = station.receive(black_box(frame), &mut out);
            then(answer, &out);
        }
        input = rest;
    }
}

/// All frames, and nothing else that takes time.
#[no_mangle]
#[inline(never)]
pub fn run_frames(station: &mut Station, input: &[u8]) {
    each_frame(station, input, |answer, _| {
        let _ = black_box(answer);
    });
}

/// How often each refusal comes, and a sum that the library must give too.
fn check(edition: Edition, input: &[u8]) {
    let (mut sum, mut counts) = (0xCBF2_9CE4_8422_2325_u64, [0; 25]);
    let mut add = |value: u64| sum = (sum ^ value).wrapping_mul(0x100_0000_01B3);
    each_frame(&mut plugged(edition), input, |answer, out| {
        let refusal = answer.map_or_else(|refusal| refusal.number(), |_| 0);
        let written = answer.map_or(0, |accepted| accepted.written);
        counts[refusal as usize] += 1;
        add(refusal.into());
        add(written as u64);
        out[..written].iter().for_each(|octet| add((*octet).into()));
    });
    println!("sum {sum:016x}");
    for (number, count) in counts.iter().enumerate().filter(|(_, count)| **count > 0) {
        println!("{number} {count}");
    }
}

/// Once before, once to measure.
fn measure_frames(edition: Edition, input: &[u8]) {
    let mut frames = 0;
    each_frame(&mut plugged(edition), input, |_, _| frames += 1);
    run_frames(&mut plugged(edition), input);
    let (mut station, start) = (plugged(edition), Instant::now());
    run_frames(&mut station, input);
    println!("{:.2}", start.elapsed().as_nanos() as f64 / f64::from(frames));
}

/// The try that a car begins with.
fn first_try(edition: Edition) -> Try {
    match edition {
        Edition::Iso => Try::Iso,
        Edition::Sae => Try::First,
    }
}

/// A station with every record held, all profiles but one counted in each: nine in the ISO edition.
fn all_held(edition: Edition) -> Station {
    let (mut station, mut out) = (plugged(edition), [0; LEAST_OUTPUT]);
    let attempt = first_try(edition);
    for last in (1..).take(RECORDS) {
        let (car, run) = (Address([2, 0, 0, 0, 0, last]), RunId([last, 0, 0, 0, 0, 0, 0, 0]));
        let profile = |value| Body::profile(car, [value; 58]).send(MODEM, US);
        let opening = [Body::ParmReq { run }, Body::StartAttenChar { run, attempt }];
        let opening = opening.map(|body| body.broadcast(car));
        let profiles = (200..).map(profile).take(usize::from(attempt.sounds()) - 1);
        for message in opening.into_iter().chain(profiles) {
            let mut frame = [0; 129];
            if let Ok(length) = message.write(edition, &mut frame) {
                let _ = station.receive(&frame[..length], &mut out);
            }
        }
    }
    station
}

#[no_mangle]
#[inline(never)]
pub fn run_tick(station: &mut Station, reading: u32, out: &mut [u8]) -> Answer {
    station.tick(reading, out)
}

/// The tick reports to every car, since the time of the sounding is over.
fn measure_tick(edition: Edition) {
    let (full, mut out, mut times) = (all_held(edition), [0; LEAST_OUTPUT], [0; TICKS]);
    let reading = first_try(edition).time();
    for time in &mut times {
        let mut station = full.clone();
        let start = Instant::now();
        let _ = black_box(run_tick(&mut station, reading, &mut out));
        *time = start.elapsed().as_nanos();
    }
    times.sort_unstable();
    println!("{} {}", times[TICKS / 2], times[TICKS - 1]);
}

fn main() -> io::Result<()> {
    let mut arguments: Vec<String> = std::env::args().skip(1).collect();
    let sae = arguments.pop_if(|last| last == "sae").is_some();
    let edition = if sae { Edition::Sae } else { Edition::Iso };
    let input = arguments.get(1).map_or(Ok(Vec::new()), std::fs::read)?;
    match arguments.first().map(String::as_str) {
        Some("check") => check(edition, &input),
        Some("time") => measure_frames(edition, &input),
        Some("frames") => run_frames(&mut plugged(edition), &input),
        Some("tick") => measure_tick(edition),
        Some("one-tick") => {
            let (mut station, reading) = (all_held(edition), first_try(edition).time());
            let _ = black_box(run_tick(&mut station, reading, &mut [0; LEAST_OUTPUT]));
        }
        Some("size") => println!("{}", size_of::<Station>()),
        _ => {
            let usage =
                "check | time | frames INPUT, tick | one-tick | size; sae behind it for SAE";
            return Err(io::Error::other(usage));
        }
    }
    Ok(())
}
