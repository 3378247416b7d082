//! The program `record`: watches a real program, or turns a log of strace into records. See `docs/RECORD.md`.

use std::env;
use std::ffi::OsString;
use std::io::{self, Write};
use std::process::ExitCode;

use record::{run, status, Options, HELP};

fn main() -> ExitCode {
    let arguments: Vec<OsString> = env::args_os().skip(1).collect();
    let word = arguments.first().and_then(|word| word.to_str());
    if let Some(text) = match word {
        Some("help" | "--help" | "-h") => Some(HELP.to_string()),
        Some("--version") => Some(format!("record {}\n", env!("CARGO_PKG_VERSION"))),
        _ => None,
    } {
        return match io::stdout().write_all(text.as_bytes()) {
            Ok(()) => ExitCode::SUCCESS,
            Err(error) => failed(&format!("standard output: {error}"), status::FAILED),
        };
    }
    let options = match Options::read(arguments.into_iter()) {
        Ok(options) => options,
        Err(wrong) => return failed(&format!("{wrong}; see record help"), status::FAILED),
    };
    match run(&options) {
        Ok(status) => status.into(),
        Err(failure) => failed(&failure.message, failure.status),
    }
}

fn failed(message: &str, status: u8) -> ExitCode {
    eprintln!("record: {message}");
    status.into()
}
