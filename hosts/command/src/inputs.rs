//! What a proved program reads: files by their names in its working folder. It takes a missing one for an empty one; here a missing one is
//! told.

use std::collections::BTreeSet;
use std::env;
use std::ffi::OsString;
use std::fs::{self, DirBuilder, File};
use std::io::{self, Read};
use std::os::fd::AsRawFd;
use std::os::unix::fs::{symlink, DirBuilderExt};
use std::path::{Path, PathBuf};
use std::process;

use policy_text::{fit, Fit};

use crate::status::{tell, Failure};

const POLICY: &str = "policy.bin";
const TRACE: &str = "trace.bin";
/// How many traces the month program reads.
const TRACES: usize = 64;
/// How much of a policy is read for its digest: more than any policy has.
const POLICY_LIMIT: u64 = 1 << 20;

/// What a program reads beside its policy.
#[derive(Clone, Copy, Debug, PartialEq, Eq)]
pub enum Form {
    /// `trace.bin`.
    Trace,
    /// `00.bin` and so on.
    Month,
}

/// The name of a trace of a month.
fn month_name(number: usize) -> String {
    format!("{number:02}.bin")
}

/// One input.
struct Input {
    /// What the program calls it.
    name: String,
    /// What the arguments call it.
    path: PathBuf,
    /// Nothing for standard input.
    file: Option<File>,
}

impl Input {
    /// Opens a file, or takes standard input for `-`.
    fn open(name: String, path: PathBuf) -> Result<Input, Failure> {
        if path.as_os_str() == "-" {
            return Ok(Input { name, path, file: None });
        }
        let file = File::open(&path).map_err(|error| Failure::file(&path, error))?;
        let kind = file.metadata().map_err(|error| Failure::file(&path, error))?;
        if kind.is_dir() {
            return Err(Failure::file(&path, "is a folder, expected a file"));
        }
        Ok(Input { name, path, file: Some(file) })
    }

    /// Whether it is a file that can be read twice.
    fn is_regular(&self) -> bool {
        self.file.as_ref().is_some_and(|file| file.metadata().is_ok_and(|kind| kind.is_file()))
    }

    /// The folder in which a regular file stands.
    fn folder(&self) -> Option<&Path> {
        let folder = self.path.parent().filter(|_| self.is_regular())?;
        Some(if folder.as_os_str().is_empty() { Path::new(".") } else { folder })
    }

    /// Where the program finds the input: behind a descriptor that it inherits, so that nothing can take the file away in between.
    fn link(&self) -> io::Result<PathBuf> {
        let descriptor = self.file.as_ref().map_or(0, AsRawFd::as_raw_fd);
        if descriptor != 0 {
            // SAFETY: the descriptor is that of an open file; F_SETFD takes an int, and touches no memory.
            let done = unsafe { libc::fcntl(descriptor, libc::F_SETFD, 0) };
            if done == -1 {
                return Err(io::Error::last_os_error());
            }
        }
        Ok(PathBuf::from(format!("/proc/self/fd/{descriptor}")))
    }
}

/// The inputs of a run, in a folder of its own that goes with this.
pub struct Inputs {
    folder: PathBuf,
    policy: Input,
    traces: Vec<Input>,
    misfit: bool,
}

impl Inputs {
    /// The inputs that the arguments name: a folder, this one if there is none, or a policy and traces.
    pub fn open(paths: &[OsString], form: Form) -> Result<Inputs, Failure> {
        let mut misfit = false;
        let (policy, traces) = match paths {
            [] => of_folder(Path::new("."), form, &mut misfit)?,
            [folder] => of_folder(Path::new(folder), form, &mut misfit)?,
            [policy, traces @ ..] => of_files(Path::new(policy), traces, form)?,
        };
        let folder = private_folder()?;
        let mut inputs = Inputs { folder, policy, traces, misfit };
        if inputs.all().filter(|input| input.file.is_none()).count() > 1 {
            return Err(Failure::new("- is there twice, expected one input from standard input"));
        }
        for input in inputs.all() {
            let said = |error| Failure::file(&input.path, format!("cannot be handed on: {error}"));
            let link = inputs.folder.join(&input.name);
            input.link().and_then(|target| symlink(target, &link)).and_then(|()| fs::metadata(&link)).map_err(said)?;
        }
        inputs.misfit |= inputs.tell_misfits()?;
        Ok(inputs)
    }

    /// The policy and the traces.
    fn all(&self) -> impl Iterator<Item = &Input> {
        [&self.policy].into_iter().chain(&self.traces)
    }

    /// The folder in which the program finds its inputs.
    pub fn folder(&self) -> &Path {
        &self.folder
    }

    /// Whether one of the inputs is standard input.
    pub fn has_standard_input(&self) -> bool {
        self.all().any(|input| input.file.is_none())
    }

    /// What the program calls its inputs, and what the arguments call them.
    pub fn names(&self) -> Vec<(String, String)> {
        let called =
            |path: &Path| if path.as_os_str() == "-" { "standard input".into() } else { path.display().to_string() };
        self.all().map(|input| (input.name.clone(), called(&input.path))).collect()
    }

    /// What the arguments call the traces.
    pub fn traces(&self) -> Vec<String> {
        self.traces.iter().map(|trace| trace.path.display().to_string()).collect()
    }

    /// Whether something of the inputs does not fit, and was told.
    pub fn misfit(&self) -> bool {
        self.misfit
    }

    /// Tells of each folder of traces whether these were made for the policy, once; whether some were made for another one.
    fn tell_misfits(&self) -> Result<bool, Failure> {
        // What comes from a pipe is read once, by the program.
        if !self.policy.is_regular() {
            return Ok(false);
        }
        let mut image = Vec::new();
        let again = File::open(self.folder.join(POLICY));
        let read = again.and_then(|again| again.take(POLICY_LIMIT).read_to_end(&mut image));
        read.map_err(|error| Failure::file(&self.policy.path, error))?;
        let folders: BTreeSet<&Path> = self.traces.iter().filter_map(Input::folder).collect();
        let mut misfit = false;
        for folder in folders {
            let (shown, policy) = (folder.display(), self.policy.path.display());
            match fit(folder, &image).map_err(|error| Failure::new(error.to_string()))? {
                Fit::Same => {}
                Fit::Other => {
                    misfit = true;
                    let why = format!("policy.sha256 has not the digest of {policy}");
                    tell(&format!("not followed: {shown}: its traces were made for another policy: {why}"));
                }
                Fit::Unknown => {
                    let what = format!("whether its traces were made for {policy} is not known");
                    tell(&format!("note: {shown} has no policy.sha256: {what}"));
                }
            }
        }
        Ok(misfit)
    }
}

impl Drop for Inputs {
    fn drop(&mut self) {
        // A folder of links is no loss where it stays.
        let _ = fs::remove_dir_all(&self.folder);
    }
}

/// The policy and the traces of a folder; traces that the program would pass over are told.
fn of_folder(folder: &Path, form: Form, misfit: &mut bool) -> Result<(Input, Vec<Input>), Failure> {
    let kind = fs::metadata(folder).map_err(|error| Failure::file(folder, error))?;
    if !kind.is_dir() {
        return Err(Failure::file(folder, "is no folder, expected one, or a policy and a trace"));
    }
    let policy = Input::open(POLICY.into(), folder.join(POLICY))?;
    if form == Form::Trace {
        return Ok((policy, vec![Input::open(TRACE.into(), folder.join(TRACE))?]));
    }
    let there = |number: &usize| fs::symlink_metadata(folder.join(month_name(*number))).is_ok();
    let count = (0..TRACES).take_while(there).count().max(1);
    let names = (0..count).map(month_name);
    let traces = names.map(|name| Input::open(name.clone(), folder.join(name))).collect::<Result<_, _>>()?;
    if let Some(behind) = (count..=TRACES).find(there) {
        *misfit = true;
        let why =
            if behind < TRACES { format!("{} is missing", month_name(count)) } else { "there are 64 before it".into() };
        tell(&format!("not followed: {}, since {why}", folder.join(month_name(behind)).display()));
    }
    Ok((policy, traces))
}

/// A policy and traces, each a file.
fn of_files(policy: &Path, traces: &[OsString], form: Form) -> Result<(Input, Vec<Input>), Failure> {
    let policy = Input::open(POLICY.into(), policy.into())?;
    let named = traces.iter().enumerate().map(|(place, path)| {
        let name = if form == Form::Month { month_name(place) } else { TRACE.into() };
        Input::open(name, path.into())
    });
    Ok((policy, named.collect::<Result<_, _>>()?))
}

/// A new folder that only this user may enter.
fn private_folder() -> Result<PathBuf, Failure> {
    let place = env::temp_dir();
    let mut last = io::Error::from(io::ErrorKind::AlreadyExists);
    for turn in 0..100 {
        let folder = place.join(format!("yaslaurel-{}-{turn}", process::id()));
        match DirBuilder::new().mode(0o700).create(&folder) {
            Ok(()) => return Ok(folder),
            Err(error) => last = error,
        }
    }
    Err(Failure::file(&place, format!("no folder can be made: {last}")))
}
