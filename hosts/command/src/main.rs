//! The command `yaslaurel`: runs the programs of Yaslaurel, which are proved (`watch`, `month`, `explain`) or hosts themselves (`policy`,
//! `record`), tests whether what they print is whole, and gives an exit status; `report` writes a page and `matrix` asks the library itself
//! (`docs/ANALYSIS.md`). It is no part of what is proved: what it adds is the arguments, the status, the lines of JSON and the page. `docs/COMMAND.md`
//! has them.

#![warn(missing_docs)]

mod arguments;
mod explanations;
mod figures;
mod inputs;
mod line;
mod listing;
mod matrix;
mod page;
mod pass;
mod program;
mod signals;
mod status;

use std::env;
use std::ffi::OsString;
use std::io::{self, Write};
use std::path::{Path, PathBuf};
use std::process::ExitCode;

use clap::error::ErrorKind;
use clap::ArgMatches;

use crate::inputs::{Form, Inputs};
use crate::line::Reader;
use crate::status::{Failure, Outcome};

/// The folder of which `watch --report` makes a page, and where that goes; nothing if no page is asked for.
fn asked_page<'a>(paths: &'a [OsString], matches: &'a ArgMatches) -> Result<Option<(&'a Path, &'a Path)>, Failure> {
    let Ok(Some(file)) = matches.try_get_one::<PathBuf>("report") else { return Ok(None) };
    let folder = match paths {
        [] => Path::new("."),
        [folder] => Path::new(folder),
        _ => return Err(Failure::new("--report makes its page of a FOLDER, and POLICY TRACE are named")),
    };
    Ok(Some((folder, file)))
}

/// Runs one of the proved programs on the inputs of its arguments.
fn run_proved(name: &str, matches: &ArgMatches) -> Result<Outcome, Failure> {
    let paths: Vec<OsString> = matches.get_many("inputs").map_or_else(Vec::new, |paths| paths.cloned().collect());
    let page = asked_page(&paths, matches)?;
    let json = matches.get_flag("json");
    let program = program::find(name)?;
    let form = if name == "month" { Form::Month } else { Form::Trace };
    let inputs = Inputs::open(&paths, form)?;
    let mut reader: Box<dyn Reader> = match name {
        "watch" => Box::new(listing::Listing::new(json)),
        "month" => Box::new(figures::Figures::new(inputs.traces())),
        _ => Box::new(explanations::Explanations::default()),
    };
    let complete = program::run(name, &program, &inputs, reader.as_mut(), json)?;
    if !complete {
        status::tell(&format!("{name}: incomplete: its last line is missing"));
    }
    let mut outcome = reader.outcome();
    outcome.gaps |= !complete || inputs.misfit();
    if let Some((folder, file)) = page.filter(|_| !outcome.policy_refused) {
        outcome.gaps |= page::add(folder, file)?;
    }
    Ok(outcome)
}

/// Prints the completions of a shell.
fn print_completions(matches: &ArgMatches) -> Result<Outcome, Failure> {
    let shell = *matches.get_one::<clap_complete::Shell>("shell").expect("clap asks for it");
    let mut text = Vec::new();
    clap_complete::generate(shell, &mut arguments::command(), "yaslaurel", &mut text);
    print_text(&text)
}

/// Writes the page of a folder.
fn write_page(matches: &ArgMatches) -> Result<Outcome, Failure> {
    let (line, outcome) = page::write(matches)?;
    print_text(line.as_bytes())?;
    Ok(outcome)
}

/// Prints a text to standard output.
fn print_text(text: &[u8]) -> Result<Outcome, Failure> {
    let mut out = io::stdout().lock();
    out.write_all(text).and_then(|()| out.flush()).map_err(Failure::output)?;
    Ok(Outcome::default())
}

/// Answers a question to matrices, by the functions of the library themselves.
fn run_matrix(matches: &ArgMatches) -> Result<Outcome, Failure> {
    let status = match matrix::run(matches) {
        Ok((text, good)) => {
            print_text(text.as_bytes())?;
            u8::from(!good)
        }
        Err(matrix::Stop::Refused(message)) => {
            status::tell(&message);
            status::REFUSED
        }
        Err(matrix::Stop::Failed(failure)) => return Err(failure),
    };
    Ok(Outcome { own: Some(status), ..Outcome::default() })
}

/// Does what the arguments ask for.
fn run(arguments: &[OsString]) -> Result<Outcome, Failure> {
    // What these two are told is theirs, word for word.
    if let [_, name, rest @ ..] = arguments {
        if name == "policy" || name == "record" {
            return pass::run(&name.to_string_lossy(), rest);
        }
    }
    match arguments::command().try_get_matches_from(arguments) {
        Ok(matches) => match matches.subcommand() {
            Some(("completions", matches)) => print_completions(matches),
            Some(("matrix", matches)) => run_matrix(matches),
            Some(("report", matches)) => write_page(matches),
            Some((name, matches)) => run_proved(name, matches),
            None => Err(Failure::new("a subcommand is missing; see yaslaurel --help")),
        },
        Err(error) if matches!(error.kind(), ErrorKind::DisplayHelp | ErrorKind::DisplayVersion) => {
            print_text(error.render().to_string().as_bytes())
        }
        Err(error) => Err(Failure::arguments(&error)),
    }
}

/// Ends with the status of what was done, and tells a failure.
fn main() -> ExitCode {
    let arguments: Vec<OsString> = env::args_os().collect();
    match run(&arguments) {
        Ok(outcome) => outcome.status().into(),
        Err(failure) => {
            status::tell(&failure.message);
            status::FAILED.into()
        }
    }
}
