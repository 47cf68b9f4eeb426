//! A car's driver loop, from plug-in to plug-out: it starts the car, hands it frames, clock readings
//! and link up, sends what an answer reports, and acts on the indications. What it asks of its board
//! is the trait `Board`. Here a simulated line with a charging station (line.rs) stands in for it.

mod frames;
mod line;

use lahzavar::{Answer, Car, CarState, Indication, Key, Refusal, CAR_LEAST_OUTPUT};
use line::{Line, CAR, PLUG_IN};
use std::collections::BTreeSet;
use std::process::ExitCode;

/// ISO 15118-3: the wait between a failed matching and the next start, in milliseconds.
const TT_MATCHING_RATE: u32 = 400;
/// ISO 15118-3: how long after plug-in a matching may start.
const TT_MATCHING_REPETITION: u32 = 10_000;

/// What the board hands over.
enum Event {
    /// A frame from the modem, from its destination address on and without its check sequence.
    Frame(Vec<u8>),
    /// A reading of a free-running millisecond clock: every 5 ms, or more often.
    Clock(u32),
    /// The modem has a link in the station's network.
    LinkUp,
}

/// What the driver asks of its board.
trait Board {
    /// Waits for the next event; there is none after plug-out.
    fn event(&mut self) -> Option<Event>;
    /// Has the modem send a frame at once.
    fn send(&mut self, frame: &[u8]);
    /// Gives the modem the NID and the NMK of the station's network, by `CM_SET_KEY.REQ`.
    fn set_key(&mut self, key: &Key);
    /// Octets from a random source, which nobody can foretell.
    fn random<const N: usize>(&mut self) -> [u8; N];
}

/// The driver of one plug-in.
struct Driver<B> {
    car: Car,
    board: B,
    /// The clock's readings: the last one, at plug-in, and at the last failure.
    now: u32,
    plugged_in: u32,
    failed: u32,
    linked: bool,
    /// The numbers of the refusals that were said.
    said: BTreeSet<u32>,
}

impl<B: Board> Driver<B> {
    fn new(car: Car, board: B, now: u32) -> Driver<B> {
        // As if a matching had failed so long ago that a start is due.
        let failed = now.wrapping_sub(TT_MATCHING_RATE);
        Driver { car, board, now, plugged_in: now, failed, linked: false, said: BTreeSet::new() }
    }

    /// The loop: ends with plug-out, and tells whether there was a link.
    fn drive(&mut self) -> bool {
        let mut out = [0; CAR_LEAST_OUTPUT];
        while let Some(event) = self.board.event() {
            let answer = match event {
                Event::Frame(octets) => self.car.frame(&octets, &mut out),
                Event::Clock(reading) => self.clock(reading, &mut out),
                Event::LinkUp => self.car.link_up(),
            };
            self.obey(answer);
        }
        let ended = self.car.terminate();
        self.obey(ended);
        self.linked
    }

    /// Starts the car where that is due; else the car gets the reading.
    fn clock<'a>(&mut self, reading: u32, out: &'a mut [u8]) -> Answer<'a> {
        self.now = reading;
        if self.start_is_due() {
            // The RunID, and the octets of the sounds: new ones at each start.
            let (run, random) = (self.board.random(), self.board.random());
            return self.car.start(run, random, reading, out);
        }
        match self.car.tick(reading, out) {
            // After a gap of more than 60 seconds in a matching it is not known what happened
            // meanwhile, so that it ends with "no link"; in Matched the gap does no harm.
            Err(Refusal::TickGap) if self.car.state() != CarState::Matched => self.car.terminate(),
            answer => answer,
        }
    }

    fn start_is_due(&self) -> bool {
        self.car.state() == CarState::Idle
            && self.now.wrapping_sub(self.failed) >= TT_MATCHING_RATE
            && self.now.wrapping_sub(self.plugged_in) < TT_MATCHING_REPETITION
    }

    /// Sends the frames of an answer and acts on its indication.
    fn obey(&mut self, answer: Answer) {
        match answer {
            Ok(done) => {
                for frame in done.frames() {
                    self.board.send(frame);
                }
                if let Some(indication) = done.indication {
                    self.act(indication);
                }
            }
            Err(refusal) => self.say(refusal),
        }
    }

    fn act(&mut self, indication: Indication) {
        eprintln!("{} ms: {indication}", self.now.wrapping_sub(self.plugged_in));
        match indication {
            // The request for the key was the answer's frame. A car that wants a validation of a
            // station that is potentially found does not send it, and terminates.
            Indication::Found | Indication::PotentiallyFound => {}
            Indication::KeyGiven => match self.car.key() {
                Ok(key) => self.board.set_key(&key),
                Err(refusal) => self.say(refusal),
            },
            Indication::LinkEstablished => self.linked = true,
            // The car is Idle: the clock starts it again.
            Indication::NotFound | Indication::NoLink => self.failed = self.now,
        }
    }

    /// A refused event changed nothing, so that the loop goes on. Each refusal is said once.
    fn say(&mut self, refusal: Refusal) {
        if self.said.insert(refusal.number()) {
            eprintln!("{refusal}");
        }
    }
}

/// Drives a car that takes reports as they are, on the simulated line.
fn plug_in() -> Result<bool, Refusal> {
    Ok(Driver::new(Car::new(CAR, 0)?, Line::new()?, PLUG_IN).drive())
}

fn main() -> ExitCode {
    match plug_in() {
        Ok(true) => {
            println!("link established");
            return ExitCode::SUCCESS;
        }
        Ok(false) => eprintln!("no link"),
        Err(refusal) => eprintln!("the configuration was {refusal}"),
    }
    ExitCode::FAILURE
}
