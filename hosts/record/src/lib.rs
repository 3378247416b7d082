//! Watches a real program: turns what its tasks do, or what a log of strace says of it, into operation records, and reports them
//! to the monitor. It is a host,
//! outside of what is proved; `docs/RECORD.md` says what each call means and what is not seen.

mod calls;
mod containers;
mod controls;
mod event;
mod event_list;
mod explain;
mod files;
mod filter;
mod follow;
mod guard;
mod ledger;
mod line;
mod lines;
mod look;
mod meaning;
mod memory;
mod monitor;
mod names;
mod numbers;
mod opens;
mod options;
mod order;
mod output;
mod path;
mod plan;
mod process;
mod recorder;
mod report;
mod resolve;
mod save;
mod sockets;
mod state;
mod stops;
mod sys;
mod table;

use std::ffi::OsString;
use std::fs::File;
use std::io::{self, BufReader};
use std::os::unix::ffi::OsStringExt;
use std::os::unix::fs::MetadataExt;
use std::path::{Path, PathBuf};

use event::Event;
use follow::Follower;
use ledger::Ledger;
use lines::Lines;
use plan::{How, Plan};
use recorder::{Recorder, Start};
use report::Report;
use state::State;
use stops::{Ended, Tracer};

pub use options::{Options, HELP};
pub use report::status;

/// Why the program does not come to a summary.
pub struct Failure {
    pub message: String,
    pub status: u8,
}

impl Failure {
    fn failed(message: impl ToString) -> Failure {
        Failure { message: message.to_string(), status: status::FAILED }
    }

    /// The same, about a file.
    fn at(path: &Path, error: io::Error) -> Failure {
        Failure::failed(format!("{}: {error}", path.display()))
    }

    fn story(message: impl ToString) -> Failure {
        Failure { message: message.to_string(), status: status::STORY }
    }
}

/// Does what the options say, and gives the exit status.
pub fn run(options: &Options) -> Result<u8, Failure> {
    match &options.log {
        Some(log) => run_log(options, log),
        None => run_live(options),
    }
}

fn run_log(options: &Options, log: &Path) -> Result<u8, Failure> {
    let said = |error: io::Error| Failure::at(log, error);
    let mut lines = Lines::new(BufReader::new(File::open(log).map_err(said)?));
    lines.look_ahead(1).map_err(said)?;
    if lines.first_is(event_list::HEADER) {
        return run_events(options, lines, said);
    }
    run_strace(options, lines, said)
}

/// Follows an event list.
fn run_events(options: &Options, mut lines: Lines, said: impl Fn(io::Error) -> Failure) -> Result<u8, Failure> {
    let mut report = Report::new(Box::new(io::stdout()), false, options.json);
    lines.look_ahead(2).map_err(&said)?;
    let (folder, user) = match lines.event(1) {
        Some(Event::First { folder, user, .. }) => (folder, user),
        _ => {
            return Err(said(io::Error::new(
                io::ErrorKind::InvalidData,
                "its second line is not the first event of a list",
            )))
        }
    };
    let first = PathBuf::from(OsString::from_vec(folder));
    let plan = plan(options, Some(&first), Some(user), How { guard: options.guard, follow: false }, &mut report)?;
    let run = Start { guard: options.guard, ..beginning(options) };
    let mut ledger = Ledger::start(plan, report, run).map_err(Failure::story)?;
    follow::events(&mut lines, &mut ledger, options.strict).map_err(&said)?;
    finish(options, Followed::Events(Box::new(ledger)), &[])
}

/// Follows a log of strace. The folder in which its first process starts is looked for in the first lines.
fn run_strace(options: &Options, mut lines: Lines, said: impl Fn(io::Error) -> Failure) -> Result<u8, Failure> {
    lines.look_ahead(follow::FOLDER_LINES).map_err(&said)?;
    let named = lines.first_folder().map(|path| PathBuf::from(OsString::from_vec(path)));
    let mut follower = start(options, named.as_deref())?;
    follow::log(&mut lines, &mut follower).map_err(&said)?;
    finish(options, Followed::Log(Box::new(follower)), &[])
}

fn run_live(options: &Options) -> Result<u8, Failure> {
    let here = std::env::current_dir().map_err(Failure::failed)?;
    let uid = std::fs::metadata("/proc/self").map_err(Failure::failed)?.uid();
    let mut report = Report::new(Box::new(io::stderr()), true, options.json);
    let plan = plan(options, Some(&here), Some(uid), How { guard: options.guard, follow: false }, &mut report)?;
    let kept = match &options.keep {
        Some(path) => Some(output::event_list(path).map_err(|error| Failure::at(path, error))?),
        None => None,
    };
    let folder = here.into_os_string().into_vec();
    let run = Start { uid: Some(uid), folder: Some(folder.clone()), guard: options.guard, ..beginning(options) };
    let ledger = Ledger::start(plan, report, run).map_err(Failure::story)?;
    let mut tracer = Tracer::new(ledger, options.guard, options.strict, kept);
    if let Some(path) = &options.state {
        tracer.state = State::read(path).map_err(|error| Failure::at(path, error))?;
    }
    let command = options.command.first().map(Path::new).unwrap_or(Path::new(""));
    let ended = tracer.run(&options.command, uid, folder).map_err(|error| Failure::at(command, error))?;
    let words = match ended {
        Ended::Exit(status) => format!("the command ended with exit status: {status}"),
        Ended::Signal(signal) => format!("the command ended with signal: {signal}"),
    };
    if let Some(path) = &options.state {
        tracer.holdings().write(path).map_err(|error| Failure::at(path, error))?;
    }
    let status = finish(options, Followed::Events(Box::new(tracer.ledger)), &[words])?;
    Ok(match ended {
        Ended::Exit(own) if options.pass_status && status == status::QUIET => own as u8,
        Ended::Signal(signal) if options.pass_status && status == status::QUIET => (128 + signal) as u8,
        _ => status,
    })
}

/// The plan of a run whose first process starts in a folder.
fn plan(
    options: &Options,
    first: Option<&Path>,
    uid: Option<u32>,
    how: How,
    report: &mut Report,
) -> Result<Plan, Failure> {
    let folder = options.folder.as_deref().or(first);
    let plan = follow::plan(&options.story, folder, how)?;
    if plan.names_uids() && uid.is_none() {
        return Err(Failure::failed("the story names user ids, so --uid must say that of the first process"));
    }
    if !plan.guarded.is_empty() && !how.guard {
        report.line(&format!(
            "nothing is stopped here, guarded files are watched as plain ones: {}",
            plan.guarded.join(", ")
        ));
    }
    Ok(plan)
}

/// A follower at the start of a log of strace.
fn start(options: &Options, first: Option<&Path>) -> Result<Follower, Failure> {
    let mut report = Report::new(Box::new(io::stdout()), false, options.json);
    let plan = plan(options, first, options.uid, How { guard: false, follow: true }, &mut report)?;
    let folder = first.map(|first| first.as_os_str().to_os_string().into_vec());
    let run = Start { uid: options.uid, folder, ..beginning(options) };
    Follower::start(plan, report, run, options.strict).map_err(Failure::story)
}

/// What the options say of a run.
fn beginning(options: &Options) -> Start {
    let allowed = options.allow_missing.iter().cloned().collect();
    let (keep, state) = (options.out.is_some(), options.state.is_some());
    Start { keep, why: options.why, explain: !options.quiet_why, allowed, state, ..Start::default() }
}

/// What has come to its end.
enum Followed {
    Log(Box<Follower>),
    Events(Box<Ledger>),
}

impl Followed {
    fn end(self) -> Recorder {
        match self {
            Followed::Log(mut follower) => {
                follower.end();
                follower.recorder
            }
            Followed::Events(mut ledger) => {
                ledger.end();
                ledger.recorder.tell_story();
                ledger.recorder
            }
        }
    }
}

fn finish(options: &Options, followed: Followed, last: &[String]) -> Result<u8, Failure> {
    let mut recorder = followed.end();
    for line in last {
        recorder.report.line(line);
    }
    recorder.summary();
    if let Some(folder) = &options.out {
        recorder.save(folder).map_err(Failure::failed)?;
    }
    match recorder.report.failure() {
        Some(error) => Err(Failure::failed(format!("the report: {error}"))),
        None => Ok(recorder.report.status()),
    }
}
