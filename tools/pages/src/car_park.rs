//! Writes the page of a simulated car park to standard output, and its numbers as plain text to
//! standard error.

use pages::park::{page, run, text, Options, USAGE};
use std::env::args_os;
use std::io::{self, Write};
use std::process::ExitCode;

fn main() -> ExitCode {
    let arguments = args_os().skip(1).map(|word| word.to_string_lossy().into_owned());
    let options = match Options::parse(arguments) {
        Ok(options) => options,
        Err(wrong) => {
            eprintln!("car_park: {wrong}\n{USAGE}");
            return ExitCode::from(2);
        }
    };
    let outcome = match run(options) {
        Ok(outcome) => outcome,
        Err(refusal) => {
            eprintln!("car_park: the library has {refusal}");
            return ExitCode::FAILURE;
        }
    };
    if let Err(error) = io::stdout().write_all(page(&outcome).as_bytes()) {
        eprintln!("car_park: {error}");
        return ExitCode::FAILURE;
    }
    eprint!("{}", text(&outcome));
    ExitCode::SUCCESS
}
