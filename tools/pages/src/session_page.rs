//! Writes the page of a session's log to standard output: `session_page LOG`. On standard error it
//! says the number that `replay` prints of the same log, and what the number means.

use pages::session::page;
use std::env::args_os;
use std::fs;
use std::io::{self, Write};
use std::path::Path;
use std::process::ExitCode;

fn main() -> ExitCode {
    let arguments: Vec<_> = args_os().skip(1).collect();
    let [log] = &arguments[..] else {
        eprintln!("usage: session_page LOG > page.html");
        return ExitCode::from(2);
    };
    let path = Path::new(log);
    let octets = match fs::read(path) {
        Ok(octets) => octets,
        Err(error) => {
            eprintln!("session_page: {}: {error}", path.display());
            return ExitCode::from(2);
        }
    };
    let name = path.file_name().unwrap_or(log).to_string_lossy();
    let made = page(&name, &octets);
    if let Err(error) = io::stdout().write_all(made.html.as_bytes()) {
        eprintln!("session_page: {error}");
        return ExitCode::FAILURE;
    }
    eprintln!("{}", made.said);
    ExitCode::SUCCESS
}
