//! A second SLAC station and a second car, written from the scope paper alone: it runs bench
//! scripts, makes random ones and compares outputs.

mod amplitude;
mod amplitude_count;
#[cfg(test)]
mod amplitude_tests;
mod car;
mod car_count;
mod car_generate;
mod car_script;
#[cfg(test)]
mod car_tests;
mod compare;
mod count;
mod edition_count;
mod generate;
mod log;
mod log_count;
#[cfg(test)]
mod log_tests;
mod mean_count;
mod messages;
mod random;
mod refusal;
mod replay;
mod run_count;
#[cfg(test)]
mod sae_tests;
mod script;
mod show;
mod spread_count;
mod station;
#[cfg(test)]
mod tests;
mod validation_count;

use car::Car;
use count::Counts;
use script::{Answer, Script};
use station::Station;
use std::ffi::OsString;
use std::fs::File;
use std::io::{self, BufReader, BufWriter, Read, Write};
use std::process::ExitCode;

const USAGE: &str = "usage: reference run | show [REPLIES] | count (a script on standard input) \
                     | generate SEED EVENTS | cover SEED EVENTS | demo | compare A B \
                     | log SEED EVENTS | replay | log-count (a log on standard input) \
                     | damage-log CAUSE SEED | change-log EVENT SEED (a log on standard input) \
                     | car-run | car-count (a car's script on standard input) \
                     | car-generate SEED EVENTS | car-cover SEED EVENTS";

fn main() -> ExitCode {
    let arguments: Vec<OsString> = std::env::args_os().skip(1).collect();
    let words: Vec<&str> = arguments.iter().map(|word| word.to_str().unwrap_or("")).collect();
    let (input, mut out) = (io::stdin().lock(), BufWriter::new(io::stdout().lock()));
    let done = match (&words[..], &arguments[..]) {
        (["run"], _) => run(input, &mut out),
        (["show"], _) => show(input, None, &mut out),
        (["show", ..], [_, replies]) => {
            File::open(replies).and_then(|replies| show(input, Some(replies), &mut out))
        }
        (["count"], _) => count(input, &mut out),
        (["demo"], _) => generate::demo(&mut out).map(|()| true),
        (["generate", seed, events], _) => numbers(seed, events)
            .and_then(|(seed, events)| generate::generate(seed, events, &mut out))
            .map(|()| true),
        (["cover", seed, events], _) => numbers(seed, events)
            .and_then(|(seed, events)| generate::cover(seed, events, &mut out))
            .map(|()| true),
        (["log", seed, events], _) => numbers(seed, events)
            .and_then(|(seed, events)| replay::log(seed, events))
            .and_then(|log| out.write_all(&log))
            .map(|()| true),
        (["replay"], _) => replay_log(input, &mut out),
        (["log-count"], _) => count_log(input, &mut out),
        (["damage-log", cause, seed], _) => rewrite(input, (seed, cause), replay::damage, &mut out),
        (["change-log", event, seed], _) => rewrite(input, (seed, event), replay::change, &mut out),
        (["car-run"], _) => car_run(input, &mut out),
        (["car-count"], _) => car_count(input, &mut out),
        (["car-generate", seed, events], _) => numbers(seed, events)
            .and_then(|(seed, events)| car_generate::generate(seed, events, &mut out))
            .map(|()| true),
        (["car-cover", seed, events], _) => numbers(seed, events)
            .and_then(|(seed, events)| car_generate::cover(seed, events, &mut out))
            .map(|()| true),
        (["compare", ..], [_, a, b]) => compare_files(a, b, &mut out),
        _ => Err(io::Error::other(USAGE)),
    };
    // What was answered before an error stays.
    match done.and_then(|equal| out.flush().map(|()| equal)) {
        Ok(true) => ExitCode::SUCCESS,
        Ok(false) => ExitCode::FAILURE,
        Err(error) => {
            let flushed = out.flush();
            let _ = writeln!(io::stderr(), "reference: {}", flushed.err().unwrap_or(error));
            ExitCode::FAILURE
        }
    }
}

/// SEED and EVENTS.
fn numbers(seed: &str, events: &str) -> io::Result<(u64, u32)> {
    match (seed.parse(), events.parse()) {
        (Ok(seed), Ok(events)) => Ok((seed, events)),
        _ => Err(io::Error::other("an argument that is no number")),
    }
}

/// `run`: answers each event before it waits for the next.
fn run(input: impl Read, out: &mut impl Write) -> io::Result<bool> {
    let mut script = Script::open(input)?;
    let (mut station, answer) = Station::configure(script.config);
    script::write_configured(out, answer)?;
    loop {
        if script.is_waiting() {
            out.flush()?;
        }
        let Some(event) = script.next_event()? else { return Ok(true) };
        Answer::from(event.happen(&mut station)).write(out)?;
    }
}

/// `show`: a readable line for each event; with the replies of another station where they are given, and equal to
/// this one's.
fn show(input: impl Read, replies: Option<File>, out: &mut impl Write) -> io::Result<bool> {
    let mut script = Script::open(input)?;
    let (mut station, answer) = Station::configure(script.config);
    let mut replies = replies.map(BufReader::new);
    if let Some(replies) = &mut replies {
        script::take_number(replies)?;
    }
    if answer.is_err() {
        writeln!(out, "bad configuration")?;
    }
    writeln!(out, "{}", show::HEADING)?;
    while let Some(event) = script.next_event()? {
        let own = Answer::from(event.happen(&mut station));
        let given = match &mut replies {
            Some(replies) => {
                Answer::take(replies)?.ok_or_else(|| script::broken("no more replies"))?
            }
            None => own.clone(),
        };
        writeln!(out, "{}", show::line(&event, &station, &given))?;
        if given != own {
            writeln!(out, "differs: {}", show::line(&event, &station, &own))?;
            return Ok(false);
        }
    }
    Ok(true)
}

/// `count`: a table of what the script reaches.
fn count(input: impl Read, out: &mut impl Write) -> io::Result<bool> {
    let mut script = Script::open(input)?;
    let (mut station, answer) = Station::configure(script.config);
    let mut counts = Counts::new(script.config);
    counts.configured(answer);
    while let Some(event) = script.next_event()? {
        let before = station.clone();
        let outcome = event.happen(&mut station);
        counts.event(&event, &before, &station, &outcome);
    }
    write!(out, "{counts}")?;
    Ok(true)
}

/// `car-run`: answers each event before it waits for the next.
fn car_run(input: impl Read, out: &mut impl Write) -> io::Result<bool> {
    let mut script = car_script::Script::open(input)?;
    let (mut car, answer) = Car::configure(script.config);
    script::write_configured(out, answer)?;
    loop {
        if script.is_waiting() {
            out.flush()?;
        }
        let Some(event) = script.next_event()? else { return Ok(true) };
        Answer::from(event.happen(&mut car)).write(out)?;
    }
}

/// `car-count`: a table of what the car's script reaches.
fn car_count(input: impl Read, out: &mut impl Write) -> io::Result<bool> {
    let mut script = car_script::Script::open(input)?;
    let (mut car, answer) = Car::configure(script.config);
    let mut counts = car_count::Counts::new(script.config);
    counts.configured(answer);
    while let Some(event) = script.next_event()? {
        let before = car.clone();
        let outcome = event.happen(&mut car);
        counts.event(&event, &before, &car, &outcome);
    }
    write!(out, "{counts}")?;
    Ok(true)
}

/// The whole of a log.
fn take_log(mut input: impl Read) -> io::Result<Vec<u8>> {
    let mut log = Vec::new();
    input.read_to_end(&mut log)?;
    Ok(log)
}

/// `log-count`: a table of what the log reaches.
fn count_log(input: impl Read, out: &mut impl Write) -> io::Result<bool> {
    let mut counts = log_count::Counts::new();
    counts.log(&take_log(input)?);
    write!(out, "{counts}")?;
    Ok(true)
}

/// `replay`: the number of the first event that differs, 0, or minus the cause; for a person, what
/// differs, on standard error.
fn replay_log(input: impl Read, out: &mut impl Write) -> io::Result<bool> {
    let found = replay::replay(&take_log(input)?);
    writeln!(out, "{}", found.number())?;
    if let replay::Found::Difference { event, recorded, came } = &found {
        let (recorded, came) = (compare::words(recorded), compare::words(came));
        writeln!(io::stderr(), "event {event}: recorded {recorded} | came {came}")?;
    }
    Ok(true)
}

/// `damage-log` and `change-log`: writes a log anew.
fn rewrite(
    input: impl Read,
    (seed, what): (&str, &str),
    rewritten: fn(&[u8], u32, u64) -> io::Result<Vec<u8>>,
    out: &mut impl Write,
) -> io::Result<bool> {
    let (seed, what) = numbers(seed, what)?;
    out.write_all(&rewritten(&take_log(input)?, what, seed)?)?;
    Ok(true)
}

/// `compare A B`: equal, or the first event that differs.
fn compare_files(a: &OsString, b: &OsString, out: &mut impl Write) -> io::Result<bool> {
    let found = compare::compare(File::open(a)?, File::open(b)?)?;
    let (Ok(words) | Err(words)) = &found;
    writeln!(out, "{words}")?;
    Ok(found.is_ok())
}
