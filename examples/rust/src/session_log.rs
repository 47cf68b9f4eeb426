//! The log of a station's session, which its driver writes while it runs: the configuration, every
//! event, and what the station answered. The program `replay` runs a station by it and names the
//! first answer that differs. `docs/INTEGRATION.md`, "The log of a session", says when to begin one
//! and what to send.

use lahzavar::{Answer, Configuration, Pilot};

/// The most octets of a log.
const MOST: usize = 65_536;
/// Five numbers.
const HEAD: usize = 20;

/// A log that is being written; it holds the NMK.
///
/// An event that does not fit whole is left out, and so is every later one: the log then ends with
/// the last event that fits.
pub struct SessionLog {
    configuration: Vec<u8>,
    events: Vec<u8>,
    replies: Vec<u8>,
    count: usize,
    full: bool,
}

impl SessionLog {
    /// Begins a log with what [`lahzavar::Station::new`] is given: at the same time, so that no event
    /// is missing.
    pub fn new(configuration: &Configuration) -> SessionLog {
        let Configuration { address, modem, nid, nmk, validation_not_required, edition, carriers } =
            configuration;
        let settings = [u32::from(*validation_not_required), u32::from(*edition), *carriers];
        let settings = settings.map(u32::to_le_bytes);
        SessionLog {
            configuration: [&address[..], modem, nid, nmk, &settings.concat()].concat(),
            events: Vec::new(),
            replies: Vec::new(),
            count: 0,
            full: false,
        }
    }

    pub fn frame(&mut self, octets: &[u8], answer: Answer) {
        self.event(0, 0, octets, answer);
    }

    /// Where no time runs, before the call, a tick may be left out: that is in `State::Unmatched` and
    /// in `State::Matched`. Else a log is full after half a minute of ticks.
    pub fn tick(&mut self, reading: u32, answer: Answer) {
        self.event(1, reading, &[], answer);
    }

    pub fn pilot(&mut self, pilot: Pilot, reading: u32, answer: Answer) {
        let [state, ..] = u32::from(pilot).to_le_bytes();
        self.event(2, reading, &[state], answer);
    }

    #[allow(dead_code, reason = "this driver never terminates")]
    pub fn terminate(&mut self, answer: Answer) {
        self.event(3, 0, &[], answer);
    }

    pub fn link_up(&mut self, answer: Answer) {
        self.event(4, 0, &[], answer);
    }

    fn event(&mut self, kind: u32, reading: u32, octets: &[u8], answer: Answer) {
        let (refusal, indication, frames) = match &answer {
            Ok(done) => (0, done.indication.map_or(0, u32::from), done.octets()),
            Err(refusal) => (refusal.number(), 0, &[][..]),
        };
        let event = entry(kind, reading, octets);
        let reply = entry(refusal, indication, frames);
        self.full = self.full || MOST - self.length() < event.len() + reply.len();
        if !self.full {
            self.events.extend(event);
            self.replies.extend(reply);
            self.count += 1;
        }
    }

    fn length(&self) -> usize {
        HEAD + self.configuration.len() + self.events.len() + self.replies.len()
    }

    /// Whether an event was left out, since it did not fit.
    pub fn is_full(&self) -> bool {
        self.full
    }

    /// How many events it has.
    pub fn count(&self) -> usize {
        self.count
    }

    /// The log's octets: its head, then the parts back to back.
    pub fn octets(&self) -> Vec<u8> {
        let events_start = HEAD + self.configuration.len();
        let replies_start = events_start + self.events.len();
        let head = [self.count, self.count, events_start, replies_start, self.length()];
        let parts = [&self.configuration[..], &self.events, &self.replies];
        [head.map(number).concat(), parts.concat()].concat()
    }
}

/// A number in four octets, low one first.
fn number(number: usize) -> [u8; 4] {
    // A longer event or reply does not fit, so that its number is in no log.
    u32::try_from(number).unwrap_or(u32::MAX).to_le_bytes()
}

/// An event or a reply: three numbers, and its octets.
fn entry(first: u32, second: u32, octets: &[u8]) -> Vec<u8> {
    let numbers = [first.to_le_bytes(), second.to_le_bytes(), number(octets.len())];
    [&numbers.concat()[..], octets].concat()
}

#[cfg(test)]
mod tests {
    use super::{SessionLog, MOST};
    use lahzavar::{Configuration, Edition, Pilot, Refusal};

    fn begun(validation_not_required: bool, edition: Edition) -> SessionLog {
        let configuration = Configuration {
            address: [2, 0, 0, 0, 0, 0xAA],
            modem: [2, 0, 0, 0, 0, 0xBB],
            nid: [1, 2, 3, 4, 5, 6, 0x3F],
            nmk: [0x4B; 16],
            validation_not_required,
            edition,
            carriers: 0x0102_0304,
        };
        SessionLog::new(&configuration)
    }

    fn empty() -> SessionLog {
        begun(true, Edition::Iso)
    }

    #[test]
    fn each_setting_has_its_number() {
        let settings = [0, 0, 0, 0, 1, 0, 0, 0, 4, 3, 2, 1];
        assert_eq!(begun(false, Edition::Sae).octets()[55..], settings);
    }

    #[test]
    fn a_log_by_its_octets() {
        let mut log = empty();
        log.pilot(Pilot::F, 0x0102_0304, Err(Refusal::BadConfiguration));
        log.frame(&[9, 8], Err(Refusal::Other(0x8000_0001)));
        log.terminate(Err(Refusal::WrongState));
        log.tick(7, Err(Refusal::TickGap));
        log.link_up(Err(Refusal::WrongState));
        let head = [5, 0, 0, 0, 5, 0, 0, 0, 67, 0, 0, 0, 130, 0, 0, 0, 190, 0, 0, 0];
        let places = [2, 0, 0, 0, 0, 0xAA, 2, 0, 0, 0, 0, 0xBB, 1, 2, 3, 4, 5, 6, 0x3F];
        let rest = [&[0x4B; 16][..], &[1, 0, 0, 0, 0, 0, 0, 0, 4, 3, 2, 1]].concat();
        let events: [&[u8]; 5] = [
            &[2, 0, 0, 0, 4, 3, 2, 1, 1, 0, 0, 0, 5],
            &[0, 0, 0, 0, 0, 0, 0, 0, 2, 0, 0, 0, 9, 8],
            &[3, 0, 0, 0, 0, 0, 0, 0, 0, 0, 0, 0],
            &[1, 0, 0, 0, 7, 0, 0, 0, 0, 0, 0, 0],
            &[4, 0, 0, 0, 0, 0, 0, 0, 0, 0, 0, 0],
        ];
        let replies = [[16, 0, 0, 0], [1, 0, 0, 0x80], [8, 0, 0, 0], [14, 0, 0, 0], [8, 0, 0, 0]]
            .map(|refusal| [&refusal[..], &[0; 8]].concat());
        let whole = [&head[..], &places, &rest, &events.concat(), &replies.concat()].concat();
        assert_eq!(log.octets(), whole);
    }

    #[test]
    fn what_does_not_fit_whole_is_left_out() {
        let most = MOST - empty().octets().len() - 24;
        for (length, left) in [(most - 24, 1), (most - 23, 0), (most, 0), (most + 1, 0)] {
            let mut log = empty();
            log.frame(&vec![1; length], Err(Refusal::BadHead));
            let fits = length <= most;
            assert_eq!((log.is_full(), log.count()), (!fits, usize::from(fits)));
            log.terminate(Err(Refusal::BadConfiguration));
            log.frame(&[], Err(Refusal::TooShort));
            assert!(log.is_full());
            assert_eq!(log.count(), usize::from(fits) + left);
            let length = if fits { MOST - most + length + 24 * left } else { MOST - most - 24 };
            assert_eq!(log.octets().len(), length);
        }
    }
}
