//! The programs that have arguments and exit statuses of their own: `policy` and `record`.

use std::ffi::OsString;
use std::io::{self, Write};
use std::os::unix::process::CommandExt;
use std::path::{Path, PathBuf};
use std::process::{Command, Stdio};

use serde_json::Value;

use crate::page;
use crate::program;
use crate::signals;
use crate::status::{tell, Failure, Outcome};

/// A run that is recorded into a folder, of which a page is made at the end.
struct Recorded {
    folder: PathBuf,
    page: PathBuf,
    /// What is left for `record`.
    arguments: Vec<OsString>,
}

/// What `--report FILE`, an option of the command and not of `record`, asks for; nothing if it is not there.
fn recorded(arguments: &[OsString]) -> Result<Option<Recorded>, Failure> {
    let end = arguments.iter().position(|argument| argument == "--").unwrap_or(arguments.len());
    let (options, command) = arguments.split_at(end);
    let Some(at) = options.iter().position(|option| option == "--report") else { return Ok(None) };
    let page = options.get(at + 1).ok_or_else(|| Failure::new("--report: the file is missing"))?.into();
    let mut options = options.to_vec();
    options.drain(at..at + 2);
    let out = options.iter().position(|option| option == "--out");
    let folder = out.and_then(|at| options.get(at + 1)).map(PathBuf::from);
    let folder =
        folder.ok_or_else(|| Failure::new("--report makes its page of the folder of --out, and none is named"))?;
    Ok(Some(Recorded { folder, page, arguments: [&options, command].concat() }))
}

/// Runs `record`, then makes the page of its folder, unless it was refused or has failed. The status is that of `record`, and what is not in the
/// page counts as not followed.
fn record(path: &Path, run: &Recorded) -> Result<Outcome, Failure> {
    let child = Command::new(path).arg0("record").args(&run.arguments).spawn();
    let mut child = child.map_err(|error| Failure::file(path, error))?;
    signals::leave_to(child.id());
    let status = child.wait().map_err(|error| Failure::file(path, error))?;
    signals::ended();
    let Some(own @ 0..=255) = status.code() else {
        return Err(program::ended_badly("record", status).unwrap_or_else(|| Failure::new("record failed")));
    };
    let mut own = own as u8;
    if matches!(own, 4 | 5) {
        tell("no page is written");
    } else if page::add(&run.folder, &run.page)? && own < 2 {
        own += 2;
    }
    Ok(Outcome { own: Some(own), ..Outcome::default() })
}

/// Runs a program in the place of this one. Only `policy explain --json`, which prints a list, is printed anew: an object a line; and
/// `record --report` is waited for.
pub fn run(name: &str, arguments: &[OsString]) -> Result<Outcome, Failure> {
    let path = program::find(name)?;
    let json = arguments.iter().any(|argument| argument == "--json");
    if name == "policy" && json && arguments.first().is_some_and(|word| word == "explain") {
        return explain(&path, arguments);
    }
    if name == "record" {
        if let Some(run) = recorded(arguments)? {
            return record(&path, &run);
        }
    }
    // It comes back only if the program cannot be run.
    Err(Failure::file(&path, Command::new(&path).arg0(name).args(arguments).exec()))
}

/// Prints the list of `policy explain --json` as an object a line. The status is that of the program.
fn explain(path: &Path, arguments: &[OsString]) -> Result<Outcome, Failure> {
    let done = Command::new(path).args(arguments).stdin(Stdio::inherit()).stderr(Stdio::inherit()).output();
    let done = done.map_err(|error| Failure::file(path, error))?;
    if let Some(status @ 1..=5) = done.status.code() {
        return Ok(Outcome { own: Some(status as u8), ..Outcome::default() });
    }
    if let Some(failure) = program::ended_badly("policy", done.status) {
        return Err(failure);
    }
    let list: Vec<Value> = serde_json::from_slice(&done.stdout)
        .map_err(|error| Failure::new(format!("policy printed something else than a list of JSON: {error}")))?;
    let text: String = list.iter().map(|object| format!("{object}\n")).collect();
    let mut out = io::stdout().lock();
    out.write_all(text.as_bytes()).and_then(|()| out.flush()).map_err(Failure::output)?;
    Ok(Outcome::default())
}
