//! The programs that the command runs.

use std::env;
use std::io::{self, BufRead, BufReader, BufWriter, Read, Write};
use std::os::unix::process::ExitStatusExt;
use std::path::{Path, PathBuf};
use std::process::{Child, ChildStderr, ChildStdin, ChildStdout, Command, ExitStatus, Stdio};
use std::sync::{Arc, Mutex};
use std::thread;

use crate::inputs::Inputs;
use crate::line::Reader;
use crate::signals;
use crate::status::{tell, Failure};

/// How much of standard input is handed on at once.
const PIECE: usize = 1 << 16;

/// Where a program is: what its variable names, or in the folder libexec/yaslaurel beside the command's folder, or beside the command.
pub fn find(name: &str) -> Result<PathBuf, Failure> {
    let variable = format!("YASLAUREL_{}", name.to_uppercase());
    if let Some(path) = env::var_os(&variable).map(PathBuf::from) {
        // The program runs in another folder.
        return path.canonicalize().map_err(|error| Failure::file(&path, format!("{error}, but {variable} names it")));
    }
    let command = env::current_exe().map_err(|error| Failure::new(format!("where this command is: {error}")))?;
    let folder = command.parent().unwrap_or(Path::new("/"));
    let places = [folder.with_file_name("libexec").join("yaslaurel").join(name), folder.join(name)];
    let found = places.iter().find(|place| place.is_file());
    found.cloned().ok_or_else(|| {
        let [first, second] = places.each_ref().map(|place| place.display());
        Failure::new(format!("the program {name} is missing: neither {first} nor {second}, and {variable} names none"))
    })
}

/// What a program that has ended is told with, if it did not end by itself and well.
pub fn ended_badly(name: &str, status: ExitStatus) -> Option<Failure> {
    match (status.code(), status.signal()) {
        (Some(0), _) => None,
        (Some(code), _) => Some(Failure::new(format!("{name} failed: exit status {code}"))),
        (None, Some(signal)) => Some(Failure::new(format!("{name} was ended by signal {signal}"))),
        (None, None) => Some(Failure::new(format!("{name} failed: {status}"))),
    }
}

/// What a program prints.
type Lines = BufReader<ChildStdout>;

/// What went wrong with standard input, where something did.
type InputFault = Arc<Mutex<Option<io::Error>>>;

/// Hands standard input on to a program, until one of them ends.
fn hand_on(mut to: ChildStdin, fault: &InputFault) {
    let (mut input, mut piece) = (io::stdin().lock(), vec![0; PIECE]);
    loop {
        match input.read(&mut piece) {
            Ok(0) => return,
            // A program that has ended takes no more: what it has printed says whether it was enough.
            Ok(length) if to.write_all(&piece[..length]).is_err() => return,
            Ok(_) => {}
            Err(error) if error.kind() == io::ErrorKind::Interrupted => {}
            Err(error) => {
                // Before the program sees the end of its input.
                *fault.lock().unwrap_or_else(|poisoned| poisoned.into_inner()) = Some(error);
                return;
            }
        }
    }
}

/// Tells what a program says on standard error, with the inputs called as the arguments call them.
fn tell_lines(said: ChildStderr, names: &[(String, String)]) {
    for line in BufReader::new(said).split(b'\n').map_while(Result::ok) {
        let line = String::from_utf8_lossy(&line);
        let (name, rest) = line.split_once(':').unwrap_or((&line, ""));
        match names.iter().find(|(known, _)| known == name) {
            Some((_, path)) => tell(&format!("{path}:{rest}")),
            None => tell(&line),
        }
    }
}

/// Ends a program whose lines are of no more use.
fn stop(child: &mut Child) {
    let _ = child.kill();
    let _ = child.wait();
    signals::ended();
}

/// Runs a proved program on its inputs, and prints its lines, or what the reader makes of them. Whether the last line has come.
pub fn run(name: &str, program: &Path, inputs: &Inputs, reader: &mut dyn Reader, json: bool) -> Result<bool, Failure> {
    let piped = inputs.has_standard_input();
    let mut child = Command::new(program)
        .current_dir(inputs.folder())
        .stdin(if piped { Stdio::piped() } else { Stdio::null() })
        .stdout(Stdio::piped())
        .stderr(Stdio::piped())
        .spawn()
        .map_err(|error| Failure::file(program, error))?;
    signals::end_instead(child.id());
    let fault = InputFault::default();
    if let Some(to) = child.stdin.take() {
        let fault = Arc::clone(&fault);
        thread::spawn(move || hand_on(to, &fault));
    }
    let (said, names) = (child.stderr.take().expect("it is piped"), inputs.names());
    let teller = thread::spawn(move || tell_lines(said, &names));
    let mut lines = BufReader::with_capacity(PIECE, child.stdout.take().expect("it is piped"));
    if let Err(failure) = print_lines(name, &mut lines, reader, json) {
        // While its output is open: a program that finds it closed would tell that too.
        stop(&mut child);
        return Err(failure);
    }
    let status = child.wait().map_err(|error| Failure::file(program, error))?;
    signals::ended();
    // What it has told comes before what is told of it.
    let _ = teller.join();
    if let Some(failure) = ended_badly(name, status) {
        return Err(failure);
    }
    let fault = fault.lock().unwrap_or_else(|poisoned| poisoned.into_inner()).take();
    fault.map_or(Ok(reader.complete()), |error| Err(Failure::new(format!("standard input: {error}"))))
}

/// Prints the lines of a program as they come, or their objects.
fn print_lines(name: &str, lines: &mut Lines, reader: &mut dyn Reader, json: bool) -> Result<(), Failure> {
    let mut out = BufWriter::with_capacity(PIECE, io::stdout().lock());
    let mut line = Vec::new();
    loop {
        let length = lines.read_until(b'\n', &mut line);
        if length.map_err(|error| Failure::new(format!("{name}: its output: {error}")))? == 0 {
            return out.flush().map_err(Failure::output);
        }
        if !json {
            out.write_all(&line).map_err(Failure::output)?;
        }
        // What is cut off is no line.
        if line.last() == Some(&b'\n') {
            let text = String::from_utf8_lossy(&line[..line.len() - 1]);
            let objects = reader.take(&text).map_err(|expected| {
                Failure::new(format!("{name} printed a line that is none of its own, `{text}`: {expected}"))
            })?;
            let mut shown = objects.iter().filter(|_| json);
            shown.try_for_each(|object| writeln!(out, "{object}")).map_err(Failure::output)?;
        }
        line.clear();
        if lines.buffer().is_empty() {
            out.flush().map_err(Failure::output)?;
        }
    }
}
