//! The program `policy`: policies for operators, text in and text out.

mod questions;

use std::env;
use std::ffi::OsString;
use std::fs::{self, File};
use std::io::{self, IsTerminal, Read, Write};
use std::path::{Path, PathBuf};
use std::process::ExitCode;

use policy_text::{
    digraph, emptied, fit, input_fault, limit_fault, list, name_paths, profile_paths, read_consent, read_holders,
    read_names, show, source_names, text_form, trim_trace, upgraded, write_folder, ExplainError, Explanations, Fit,
    LineError, NamesBeside, Story, TrimError,
};
use yaslaurel::{compose_into, normalise, profiles_policy, Policy, Refusal, OUTPUT_LENGTH};

const HELP: &str = "\
policy check IMAGE                  says whether a policy image is accepted, and what it has
policy normal IMAGE [-n FOLDER] [-o FILE]
                                    writes the normal image, to standard output without -o
policy show IMAGE [-n FOLDER]       prints sources, rules, containers and users, with the names that FOLDER has
policy profiles TEXT [-o FILE]      writes the image of a text of profiles, or tells the line at fault
policy upgrade OLD [-n FOLDER] [-o FILE]
                                    writes the image of an earlier edition (one that begins with 4) as one of this, without owners
policy compose FIRST SECOND CONSENT [-n FOLDER] [-o FILE]
                                    writes what two policies permit together: CONSENT has 32 bytes, 1 for each source whose owner
                                    consents, or the names of these sources, one in a line; warns of places without mixtures
policy trim IMAGE TRACE [--at STEP] [-n FOLDER] [-o FILE]
                                    prints the few records of a trace that lead to its first alert, or to the one at a step, and writes
                                    them as a trace
policy explain FOLDER [--step N] [--all] [--json | --dot]
                                    says of each alert and blocked access in FOLDER's trace.bin, or of the one at a step, which rule of
                                    policy.bin forbids it, what that lacks, and how this came there (--all: how all that is there came
                                    there), in words, as a list in JSON or as a digraph for dot; FOLDER has the names too, as policy make and
                                    record --out write them. Each explanation takes time in proportion to the records before it
policy make STORY [-o FOLDER]       writes policy.bin, trace.bin and the names of a story into FOLDER, or this folder
policy ask POLICY [-n FOLDER] [--steps N] [--json] may [run] SOURCE reach CONTAINER
policy ask POLICY [-n FOLDER] [--steps N] [--json] which sources may come into CONTAINER
                                    says whether a source, or its content executed (run), can come into a container: never, only with an
                                    alert, quietly, or not found within N steps (8 without --steps), with a shortest chain of operations
policy diff FIRST SECOND [-n FOLDER] [--json]
                                    says how two policies differ, by names, and of each rule which mixtures it gains and loses
policy lint STORY [--disk FOLDER] [--json]
                                    says what a story has that does nothing, or hardly what was meant; with --disk also which names
                                    are missing in FOLDER
policy help, policy --version

A file called - is standard input. FOLDER's policy.sha256 has the digests of the images that its names and its trace are of: names of
another policy are refused. normal, upgrade, compose and profiles write the names and the digest beside FILE; normal, upgrade and compose take
them from FOLDER, or from the folder of their first file if its digests have that.

POLICY, FIRST and SECOND are images, stories, or folders as policy make writes them.

Exit status: 0 done, for ask never, for diff equal, for lint nothing told; 1 for ask quietly or with an alert, for diff a difference, for lint something
told; 2 for ask not found; 4 the image, the text or the story is refused, names are of another policy, or the step is none to trim or
explain; 5 a failure: wrong arguments, a file that cannot be read, an output that cannot be written. What is refused or fails is told on
standard error.
";

/// Why the program does not end with status 0.
enum Failure {
    /// Status 4.
    Refused(String),
    /// Status 5.
    Failed(String),
}

use Failure::{Failed, Refused};

/// How long an image or a text may be that is read, and how long a trace.
const LENGTH_LIMIT: u64 = 1 << 20;
const TRACE_LIMIT: u64 = 1 << 28;

/// How many lines at fault are told of a story.
const TOLD_LIMIT: usize = 20;

/// The arguments behind the word.
struct Arguments {
    file: PathBuf,
    /// What stands behind the option.
    option: Option<PathBuf>,
}

/// Says something on standard error. Where that cannot be written, what is written is there all the same.
fn tell(what: impl std::fmt::Display) {
    let _ = writeln!(io::stderr(), "{what}");
}

/// What is wrong with the arguments behind a word.
fn wrong(word: &str, what: impl std::fmt::Display) -> Failure {
    Failed(format!("policy {word}: {what}; see policy help"))
}

/// So many files, and what stands behind each of the options that there are.
fn files_and_options<const FILES: usize, const OPTIONS: usize>(
    word: &str,
    arguments: &[OsString],
    options: [&str; OPTIONS],
) -> Result<([PathBuf; FILES], [Option<OsString>; OPTIONS]), Failure> {
    let (mut files, mut values) = (Vec::new(), options.map(|_| None));
    let mut rest = arguments.iter();
    while let Some(argument) = rest.next() {
        let shown = argument.to_string_lossy();
        let option = options.iter().position(|option| argument == option).filter(|&place| values[place].is_none());
        if let Some(place) = option {
            values[place] = Some(rest.next().ok_or_else(|| wrong(word, format!("nothing is behind {shown}")))?.clone());
        } else if files.len() < FILES && (argument == "-" || !shown.starts_with('-')) {
            files.push(PathBuf::from(argument));
        } else {
            return Err(wrong(word, format!("{shown} is too much")));
        }
    }
    let files = files.try_into().map_err(|_| wrong(word, "a file is missing"))?;
    Ok((files, values))
}

impl Arguments {
    /// One file, and the option if the word has one.
    fn read(word: &str, arguments: &[OsString], option: Option<&str>) -> Result<Arguments, Failure> {
        let ([file], [value]) = match option {
            Some(option) => files_and_options(word, arguments, [option])?,
            None => {
                let (file, []) = files_and_options(word, arguments, [])?;
                (file, [None])
            }
        };
        Ok(Arguments { file, option: value.map(PathBuf::from) })
    }

    /// What is said of the file.
    fn said(&self, what: impl std::fmt::Display) -> String {
        format!("{}: {what}", self.file.display())
    }

    fn load(&self) -> Result<Vec<u8>, Failure> {
        self.load_up_to(LENGTH_LIMIT)
    }

    /// What a file has, which may be one without an end.
    fn load_up_to(&self, limit: u64) -> Result<Vec<u8>, Failure> {
        let mut bytes = Vec::new();
        let read = match self.file.to_str() {
            Some("-") => io::stdin().take(limit + 1).read_to_end(&mut bytes),
            _ => File::open(&self.file).and_then(|file| file.take(limit + 1).read_to_end(&mut bytes)),
        };
        match read {
            Ok(length) if length as u64 > limit => {
                Err(Refused(self.said(format!("over {limit} bytes, expected fewer"))))
            }
            Ok(_) => Ok(bytes),
            Err(error) => Err(Failed(self.said(error))),
        }
    }

    /// The bytes of the file are refused; what they are, if they are a text that becomes an image.
    fn refused(&self, bytes: &[u8], refusal: impl std::fmt::Display) -> Failure {
        let form = text_form(bytes).map_or_else(String::new, |form| format!("; {form}"));
        Refused(self.said(format!("{refusal}{form}")))
    }

    /// The folder of the file, if it is one of a folder.
    fn folder(&self) -> Option<&Path> {
        let folder = self.file.parent().filter(|_| self.file.is_file())?;
        Some(if folder.as_os_str().is_empty() { Path::new(".") } else { folder })
    }

    /// Writes an image to the file behind -o, or to standard output, which must not be a terminal.
    fn write_image(&self, image: &[u8]) -> Result<(), Failure> {
        match &self.option {
            Some(path) => fs::write(path, image).map_err(|error| Failed(format!("{}: {error}", path.display()))),
            None if io::stdout().is_terminal() => {
                Err(Failed("standard output is a terminal, expected a file (-o FILE) or a pipe".into()))
            }
            None => print(image),
        }
    }
}

fn print(bytes: &[u8]) -> Result<(), Failure> {
    let mut out = io::stdout().lock();
    let written = out.write_all(bytes).and_then(|()| out.flush());
    written.map_err(|error| Failed(format!("standard output: {error}")))
}

/// `1 container`, `2 containers`.
fn count(number: usize, word: &str) -> String {
    format!("{number} {word}{}", if number == 1 { "" } else { "s" })
}

/// Gives a policy the names of a folder, which are refused if they are of other images than these.
fn take_names(folder: &Path, images: &[(&Arguments, &[u8])], policy: &mut Policy) -> Result<(), Failure> {
    let failed = |error: io::Error| Failed(error.to_string());
    let fits = images.iter().map(|(_, image)| fit(folder, image)).collect::<io::Result<Vec<Fit>>>().map_err(failed)?;
    let files: Vec<String> = images.iter().map(|(file, _)| file.file.display().to_string()).collect();
    let (files, shown) = (files.join(" or "), folder.display());
    if fits.iter().all(|fit| *fit == Fit::Other) {
        return Err(Refused(format!(
            "{shown}: names of another policy: its policy.sha256 has not the digest of {files}"
        )));
    }
    read_names(folder, policy).map_err(failed)?;
    if fits.contains(&Fit::Unknown) {
        tell(format!("note: {shown} has no policy.sha256: whether its names are of {files} is not known"));
    }
    Ok(())
}

/// The folder that has the names of an image: one that was named, or the image's own if its digests have the image.
fn names_folder<'a>(image: &'a Arguments, bytes: &[u8], named: Option<&'a Path>) -> Result<Option<&'a Path>, Failure> {
    let Some(folder) = image.folder().filter(|_| named.is_none()) else { return Ok(named) };
    let found = fit(folder, bytes).map_err(|error| Failed(error.to_string()))?;
    Ok(Some(folder).filter(|_| found == Fit::Same))
}

/// Writes an image to the file behind -o, and beside it its names, if these are known; or the image to standard output.
fn write_named(arguments: &Arguments, image: &[u8], policy: Option<&Policy>) -> Result<(), Failure> {
    let beside = match (&arguments.option, policy) {
        (Some(file), Some(policy)) => match NamesBeside::prepare(file, image, policy) {
            Ok(beside) => Some(beside),
            Err(error) => {
                tell(format!("warning: {error}: no names are written"));
                None
            }
        },
        _ => None,
    };
    arguments.write_image(image)?;
    beside.map_or(Ok(()), |beside| beside.write()).map_err(|error| Failed(error.to_string()))
}

/// Writes an image that was made of another one with the same containers and users, and its names.
fn write_made(old: (&Arguments, &[u8]), image: &[u8], named: Option<&Path>) -> Result<(), Failure> {
    let mut policy = Policy::from_image(image).map_err(|refusal| old.0.refused(image, refusal))?;
    let folder = names_folder(old.0, old.1, named)?;
    if let Some(folder) = folder {
        take_names(folder, &[old], &mut policy)?;
    }
    write_named(old.0, image, folder.map(|_| &policy))
}

/// Says whether an image is accepted, and what it has.
fn check(arguments: &Arguments) -> Result<(), Failure> {
    let image = arguments.load()?;
    let policy = Policy::from_image(&image).map_err(|refusal| arguments.refused(&image, refusal))?;
    let normal = normalise(&image).map_err(|refusal| arguments.refused(&image, refusal))? == image;
    let has = [
        count(policy.source_names().len(), "source"),
        count(policy.rules().len(), "rule"),
        count(policy.containers().len(), "container"),
        count(policy.users().len(), "user"),
    ];
    let form = if normal { "normal" } else { "not normal" };
    print(format!("{}\n", arguments.said(format!("accepted, {form}: {}", has.join(", ")))).as_bytes())
}

/// One image, a folder of names and the file for what is made of it.
fn image_arguments(word: &str, arguments: &[OsString]) -> Result<(Arguments, Option<PathBuf>), Failure> {
    let ([file], [names, out]) = files_and_options(word, arguments, ["-n", "-o"])?;
    if names.is_some() && out.is_none() {
        return Err(wrong(word, "-n is for the names beside the file behind -o"));
    }
    Ok((Arguments { file, option: out.map(PathBuf::from) }, names.map(PathBuf::from)))
}

/// Writes the normal image of an image.
fn normal(arguments: &[OsString]) -> Result<(), Failure> {
    let (arguments, names) = image_arguments("normal", arguments)?;
    let old = arguments.load()?;
    let image = normalise(&old).map_err(|refusal| arguments.refused(&old, refusal))?;
    write_made((&arguments, &old), &image, names.as_deref())
}

/// Prints an image as a story.
fn show_image(arguments: &Arguments) -> Result<(), Failure> {
    let image = arguments.load()?;
    print(show(&named_policy(arguments, &image, arguments.option.as_deref())?).as_bytes())
}

/// Writes the image of a text of profiles, with its paths as names.
fn profiles(arguments: &Arguments) -> Result<(), Failure> {
    let text = arguments.load()?;
    let paths = profile_paths(&text);
    let image = profiles_policy(&text).map_err(|refusal| match &paths {
        Err(fault) if fault.refusal == refusal => Refused(format!("{}:{fault}", arguments.file.display())),
        _ => Refused(arguments.said(refusal)),
    })?;
    let mut policy = Policy::from_image(&image).map_err(|refusal| Refused(arguments.said(refusal)))?;
    let paths = paths.map_err(|fault| Failed(format!("{}:{fault}", arguments.file.display())))?;
    name_paths(&mut policy, &paths).map_err(|error| Failed(arguments.said(error)))?;
    write_named(arguments, &image, Some(&policy))
}

/// Writes an image of the edition before owners as one of this.
fn upgrade(arguments: &[OsString]) -> Result<(), Failure> {
    let (arguments, names) = image_arguments("upgrade", arguments)?;
    let old = arguments.load()?;
    let image = upgraded(&old).map_err(|error| arguments.refused(&old, error))?;
    write_made((&arguments, &old), &image, names.as_deref())
}

/// The lines of a file that are at fault, as many as are told.
fn at_fault(arguments: &Arguments, errors: &[LineError]) -> Failure {
    let file = arguments.file.display();
    let mut lines: Vec<String> = errors.iter().take(TOLD_LIMIT).map(|error| format!("{file}:{error}")).collect();
    if errors.len() > TOLD_LIMIT {
        lines.push(format!("{file}: {} more lines are at fault", errors.len() - TOLD_LIMIT));
    }
    Refused(lines.join("\n"))
}

/// Writes the files of a story, or tells its lines at fault.
fn make(arguments: &Arguments) -> Result<(), Failure> {
    let story = Story::read_all(&arguments.load()?).map_err(|errors| at_fault(arguments, &errors))?;
    let folder = arguments.option.as_deref().unwrap_or(Path::new("."));
    let written = write_folder(folder, story.policy(), &story.trace(), story.holders());
    written.map_err(|error| Failed(error.to_string()))
}

/// A policy from a file's bytes, with the names that a folder has.
fn named_policy(file: &Arguments, image: &[u8], names: Option<&Path>) -> Result<Policy, Failure> {
    let mut policy = Policy::from_image(image).map_err(|refusal| file.refused(image, refusal))?;
    if let Some(folder) = names {
        take_names(folder, &[(file, image)], &mut policy)?;
    }
    Ok(policy)
}

/// The names of the sources that a folder has, or those of sources without names.
fn sources(names: Option<&Path>) -> Result<Vec<String>, Failure> {
    match names {
        Some(folder) => source_names(folder).map_err(|error| Failed(error.to_string())),
        None => Ok((0..32).map(|atom| format!("source-{atom}")).collect()),
    }
}

/// Two policies to compose, with the names that a folder has, which are those of one of them.
fn both_policies(
    first: (&Arguments, &[u8]),
    second: (&Arguments, &[u8]),
    names: Option<&Path>,
) -> Result<[Policy; 2], Failure> {
    let mut one = named_policy(first.0, first.1, None)?;
    let mut other = named_policy(second.0, second.1, None)?;
    if let Some(folder) = names {
        take_names(folder, &[first, second], &mut one)?;
        read_names(folder, &mut other).map_err(|error| Failed(error.to_string()))?;
    }
    Ok([one, other])
}

/// Who consents, from a file.
fn read_consenting(consent: &Arguments, names: Option<&Path>) -> Result<Vec<u8>, Failure> {
    let text = consent.load()?;
    if text.is_empty() {
        tell(format!("warning: {} is empty, so nobody consents", consent.file.display()));
    }
    let bytes = read_consent(&text, &sources(names)?);
    bytes.map_err(|error| Refused(format!("{}:{error}", consent.file.display())))
}

/// Writes what two policies permit together.
fn compose(arguments: &[OsString]) -> Result<(), Failure> {
    let ([first, second, consent], [names, out]) = files_and_options("compose", arguments, ["-n", "-o"])?;
    let first = Arguments { file: first, option: out.map(PathBuf::from) };
    let [second, consent] = [second, consent].map(|file| Arguments { file, option: None });
    let names = names.as_ref().map(Path::new);
    let (first_image, second_image) = (first.load()?, second.load()?);
    let [one, other] = both_policies((&first, &first_image), (&second, &second_image), names)?;
    let bytes = read_consenting(&consent, names)?;
    let mut out = vec![0; OUTPUT_LENGTH];
    let length = compose_into(&first_image, &second_image, &bytes, &mut out).map_err(|refusal| {
        let why = match refusal {
            Refusal::CompositionInput => input_fault(&one, &other, &bytes),
            Refusal::CompositionLimit => limit_fault(&one, &other, &bytes),
            _ => None,
        };
        let both = format!("{} with {}", first.file.display(), second.file.display());
        Refused(why.map_or(format!("{both}: {refusal}"), |why| format!("{both}: refused {}: {why}", refusal.number())))
    })?;
    let mut composed = named_policy(&first, &out[..length], None)?;
    let emptied = emptied(&one, &other, &composed);
    let folder = names_folder(&first, &first_image, names)?;
    if let Some(folder) = folder {
        read_names(folder, &mut composed).map_err(|error| Failed(error.to_string()))?;
    }
    write_named(&first, &out[..length], folder.map(|_| &composed))?;
    emptied.iter().for_each(|place| tell(format!("warning: {place} has no mixtures now, so nothing may be there")));
    Ok(())
}

/// Tells if the folder of a trace says that it was made for another policy.
fn tell_other_policy(trace: &Arguments, image: &Arguments, bytes: &[u8]) -> Result<(), Failure> {
    let Some(folder) = trace.folder() else { return Ok(()) };
    if fit(folder, bytes).map_err(|error| Failed(error.to_string()))? == Fit::Other {
        let (shown, image) = (folder.display(), image.file.display());
        let what = format!("made for another policy: {shown} has in policy.sha256 not the digest of {image}");
        tell(format!("warning: {}", trace.said(what)));
    }
    Ok(())
}

/// Trims a trace to its first alert, or to the one at a step, and says which records lead to it.
fn trim(arguments: &[OsString]) -> Result<(), Failure> {
    let ([image, trace], [at, names, out]) = files_and_options("trim", arguments, ["--at", "-n", "-o"])?;
    let step = |text: OsString| text.to_str().and_then(|text| text.parse().ok()).filter(|&step: &usize| step > 0);
    let at =
        at.map(|text| step(text).ok_or_else(|| wrong("trim", "a step's number is not behind --at"))).transpose()?;
    let image = Arguments { file: image, option: None };
    let trace = Arguments { file: trace, option: out.map(PathBuf::from) };
    let bytes = image.load()?;
    let names = names.as_ref().map(Path::new);
    let policy = named_policy(&image, &bytes, names)?;
    let holders = names.map_or(Ok(Vec::new()), read_holders).map_err(|error| Failed(error.to_string()))?;
    let records = trace.load_up_to(TRACE_LIMIT)?;
    tell_other_policy(&trace, &image, &bytes)?;
    let cut = trim_trace(&policy, &bytes, &holders, &records, at).map_err(|error| match error {
        TrimError::Policy(refusal) => image.refused(&bytes, refusal),
        error => Refused(trace.said(error)),
    })?;
    let mut text: String = cut.steps.iter().map(|(step, words)| format!("step {step}: {words}\n")).collect();
    if cut.refused + cut.blocked > 0 {
        let left = [count(cut.refused, "refused record"), count(cut.blocked, "blocked record")].join(" and ");
        text += &format!("left out first: {left}, which changed nothing\n");
    }
    if trace.option.is_some() {
        trace.write_image(&cut.trace)?;
    }
    print(text.as_bytes())
}

/// How explanations are told.
#[derive(Clone, Copy, PartialEq, Eq)]
enum Form {
    Text,
    Json,
    Dot,
}

/// The arguments of `policy explain`.
struct Explained {
    folder: PathBuf,
    step: Option<usize>,
    all: bool,
    form: Form,
}

impl Explained {
    fn read(arguments: &[OsString]) -> Result<Explained, Failure> {
        let wrong = |what: String| Failed(format!("policy explain: {what}; see policy help"));
        let (mut folder, mut step, mut all, mut form) = (None, None, false, Form::Text);
        let mut rest = arguments.iter();
        while let Some(argument) = rest.next() {
            let shown = argument.to_string_lossy();
            match &*shown {
                "--step" if step.is_none() => {
                    let number = rest.next().and_then(|text| text.to_str()?.parse().ok()).filter(|&step| step > 0);
                    step = Some(number.ok_or_else(|| wrong("a step's number is not behind --step".into()))?);
                }
                "--all" if !all => all = true,
                "--json" if form == Form::Text => form = Form::Json,
                "--dot" if form == Form::Text => form = Form::Dot,
                "--json" | "--dot" if form != Form::Text => {
                    return Err(wrong(format!("{shown} is too much: one form is told")));
                }
                _ if folder.is_none() && !shown.starts_with('-') => folder = Some(PathBuf::from(argument)),
                _ => return Err(wrong(format!("{shown} is too much"))),
            }
        }
        let folder = folder.ok_or_else(|| wrong("a folder is missing".into()))?;
        Ok(Explained { folder, step, all, form })
    }
}

/// What is told if there is nothing to explain.
fn nothing(records: usize) -> String {
    format!("nothing to explain: none of {} is answered by an alert or blocked\n", count(records, "record"))
}

fn explain(arguments: &[OsString]) -> Result<(), Failure> {
    let Explained { folder, step, all, form } = Explained::read(arguments)?;
    let [image, trace] = ["policy.bin", "trace.bin"].map(|name| Arguments { file: folder.join(name), option: None });
    let (image_bytes, bytes) = (image.load()?, trace.load_up_to(TRACE_LIMIT)?);
    let policy = named_policy(&image, &image_bytes, Some(&folder))?;
    let holders = read_holders(&folder).map_err(|error| Failed(error.to_string()))?;
    let refused = |error: ExplainError| match error {
        ExplainError::Policy(refusal) => image.refused(&image_bytes, refusal),
        error => Refused(trace.said(error)),
    };
    let told = Explanations::new(&policy, &image_bytes, &holders, &bytes, all).map_err(refused)?;
    let records = told.records();
    let mut found = Vec::new();
    match step {
        Some(step) => found.push(told.at(step).map_err(refused)?),
        None if form == Form::Text => {
            // Each at once: a long trace may have many.
            let mut some = false;
            for explanation in told {
                some = true;
                print(explanation.map_err(refused)?.to_string().as_bytes())?;
            }
            return if some { Ok(()) } else { print(nothing(records).as_bytes()) };
        }
        None => found = told.collect::<Result<_, _>>().map_err(refused)?,
    }
    let text = match form {
        Form::Text => found.iter().map(ToString::to_string).collect(),
        Form::Json => list(&found),
        Form::Dot => digraph(&found),
    };
    print(text.as_bytes())
}

/// Does what the arguments ask for, and gives the exit status.
fn run(arguments: &[OsString]) -> Result<u8, Failure> {
    let (word, rest) = arguments.split_first().ok_or_else(|| Failed(format!("what is wanted?\n\n{HELP}")))?;
    let word = &*word.to_string_lossy();
    let read = |option| Arguments::read(word, rest, option);
    let done = match word {
        "ask" => return questions::ask(rest),
        "diff" => return questions::diff(rest),
        "lint" => return questions::lint(rest),
        "check" => check(&read(None)?),
        "normal" => normal(rest),
        "show" => show_image(&read(Some("-n"))?),
        "profiles" => profiles(&read(Some("-o"))?),
        "upgrade" => upgrade(rest),
        "compose" => compose(rest),
        "trim" => trim(rest),
        "explain" => explain(rest),
        "make" => make(&read(Some("-o"))?),
        "help" | "--help" => print(HELP.as_bytes()),
        "--version" => print(concat!("policy ", env!("CARGO_PKG_VERSION"), "\n").as_bytes()),
        _ => Err(Failed(format!("policy has no {word}\n\n{HELP}"))),
    };
    done.map(|()| 0)
}

fn main() -> ExitCode {
    let arguments: Vec<OsString> = env::args_os().skip(1).collect();
    let (message, status) = match run(&arguments) {
        Ok(status) => return ExitCode::from(status),
        Err(Refused(message)) => (message, 4),
        Err(Failed(message)) => (message, 5),
    };
    // If standard error cannot be written either, the status is all that is left.
    let _ = writeln!(io::stderr(), "{message}");
    ExitCode::from(status)
}
