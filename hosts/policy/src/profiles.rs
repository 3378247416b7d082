//! Texts of profiles: their paths, and where a text that is refused is at fault.
//!
//! The library alone says whether a text is refused, and by which number. What stands here is for the message.

use std::error::Error;
use std::fmt;

use yaslaurel::layout::profiles::{PATHS, PATH_LIMIT, TEXT_LIMIT};
use yaslaurel::layout::session::RULE_MIXTURES;
use yaslaurel::{Mixture, Policy, PolicyError, Refusal, Source};

use crate::LineError;

/// Where a text of profiles is at fault.
#[derive(Clone, Debug, PartialEq, Eq)]
#[non_exhaustive]
pub struct ProfileFault {
    /// By what the library refuses the text: [`Refusal::ProfileText`] or [`Refusal::ProfileLimit`].
    pub refusal: Refusal,
    /// The line, and what was expected there.
    pub error: LineError,
}

/// `LINE: MESSAGE (refused NUMBER)`.
impl fmt::Display for ProfileFault {
    fn fmt(&self, f: &mut fmt::Formatter<'_>) -> fmt::Result {
        write!(f, "{} (refused {})", self.error, self.refusal.number())
    }
}

impl Error for ProfileFault {}

/// The paths of a text of profiles, in the order of the files of its policy.
///
/// ```
/// use policy_text::profile_paths;
/// assert_eq!(profile_paths(b"profile /bin/a {\n/etc/b r,\n}\n"), Ok(vec!["/bin/a".into(), "/etc/b".into()]));
/// let fault = profile_paths(b"profile /bin/a {\n/etc/b x,\n}\n").unwrap_err();
/// let expected = "2: column 8: found `x`, expected a mode (r w a l m ix px Px ux Ux) (refused 16)";
/// assert_eq!(fault.to_string(), expected);
/// ```
///
/// # Errors
///
/// The place where the text is at fault, and what was expected there. By 16: the first line with which nothing that follows
/// could make a text of the grammar within its length; for a path that is profiled twice, the second profile. By 17: the line
/// of the 33rd path; else the line that brings the ninth mixture of a rule.
pub fn profile_paths(text: &[u8]) -> Result<Vec<String>, ProfileFault> {
    let profiles = read(text).map_err(|error| ProfileFault { refusal: Refusal::ProfileText, error })?;
    within_limits(&profiles).map_err(|error| ProfileFault { refusal: Refusal::ProfileLimit, error })
}

/// Gives the files and sources of a policy from profiles their paths as names.
///
/// # Errors
///
/// A path that is there twice, or one too many.
pub fn name_paths(policy: &mut Policy, paths: &[String]) -> Result<(), PolicyError> {
    for (number, path) in (0..).zip(paths) {
        policy.rename_container(number, path)?;
        policy.rename_source(Source::from_atom(number.into()).ok_or(PolicyError::NotThere(number))?, path)?;
    }
    Ok(())
}

/// The paths, if they are not too many and no rule has too many mixtures.
fn within_limits(profiles: &[Profile]) -> Result<Vec<String>, LineError> {
    let mut paths: Vec<String> = Vec::new();
    let named = profiles.iter().flat_map(Profile::named);
    for (line, path) in named {
        if !paths.contains(path) {
            paths.push(path.clone());
        }
        if paths.len() > PATHS {
            return at(line, format!("`{path}` is path {}, expected at most {PATHS} different paths", paths.len()));
        }
    }
    for path in &paths {
        check_rules(profiles, &paths, path)?;
    }
    Ok(paths)
}

fn at<T>(line: usize, message: String) -> Result<T, LineError> {
    Err(LineError { line, message })
}

/// A profile of the text.
struct Profile {
    line: usize,
    path: String,
    entries: Vec<Entry>,
}

/// A line of a profile.
struct Entry {
    line: usize,
    path: String,
    modes: Vec<&'static str>,
}

impl Entry {
    fn has(&self, modes: &[&str]) -> bool {
        self.modes.iter().any(|mode| modes.contains(mode))
    }
}

impl Profile {
    /// The paths that it names, with their lines.
    fn named(&self) -> impl Iterator<Item = (usize, &String)> {
        let entries = self.entries.iter().map(|entry| (entry.line, &entry.path));
        std::iter::once((self.line, &self.path)).chain(entries)
    }

    /// Its run mixture: itself running, what it may read, and what it may execute.
    fn run_mixture(&self, paths: &[String]) -> Mixture {
        let source = |path: &String| {
            let place = paths.iter().position(|other| other == path);
            Source::from_atom(place.expect("every path is in the list") as u32).expect("there are at most 32")
        };
        let of = |modes: &'static [&str]| {
            self.entries.iter().filter(|entry| entry.has(modes)).map(|entry| source(&entry.path))
        };
        Mixture::of(of(&["r", "m"])).running([source(&self.path)]).running(of(&["ix", "px", "Px", "ux", "Ux"]))
    }
}

/// A mixture that a line brings to a rule, and the program whose it is.
struct Brought<'a> {
    line: usize,
    program: &'a str,
    mixture: Mixture,
}

/// At fault at the line of the ninth mixture that counts: one that no other holds, and of equal ones the first.
fn check_rule(name: &str, brought: &[Brought<'_>]) -> Result<(), LineError> {
    let counts = |place: &usize| {
        let own = brought[*place].mixture;
        let held = |(other, by): (usize, Mixture)| by.holds(own) && (by != own || other < *place);
        !brought.iter().map(|brought| brought.mixture).enumerate().any(held)
    };
    let counted: Vec<&Brought> = (0..brought.len()).filter(counts).map(|place| &brought[place]).collect();
    let Some(over) = counted.get(RULE_MIXTURES) else { return Ok(()) };
    let programs: Vec<&str> = counted.iter().map(|brought| brought.program).collect();
    let number = RULE_MIXTURES + 1;
    let programs = programs.join(", ");
    at(
        over.line,
        format!("{name} has mixture {number} here, expected at most {RULE_MIXTURES}; its programs: {programs}"),
    )
}

/// Checks the rules of a path that may have many mixtures: its permit rule, by those that write it, and without a profile of
/// its own its run rule, by those that execute it under their own profile.
fn check_rules(profiles: &[Profile], paths: &[String], path: &str) -> Result<(), LineError> {
    let naming = |modes: &'static [&str], more: u64| {
        let found = profiles.iter().filter_map(move |profile| {
            let entry = profile.entries.iter().find(|entry| entry.path == path && entry.has(modes))?;
            let mixture = Mixture::from_bits(profile.run_mixture(paths).bits() | more);
            Some(Brought { line: entry.line, program: &profile.path, mixture })
        });
        found.collect::<Vec<_>>()
    };
    // The file's own atom is in each mixture of its permit rule.
    let own = paths.iter().position(|other| other == path).map_or(0, |place| 1 << place);
    check_rule(&format!("the permit rule of `{path}`"), &naming(&["w", "a"], own))?;
    if profiles.iter().any(|profile| profile.path == path) || !naming(&["ux", "Ux"], 0).is_empty() {
        return Ok(());
    }
    check_rule(&format!("the run rule of `{path}`"), &naming(&["ix"], 0))
}

/// The profiles of a text of the grammar, in which no path is profiled twice, and which is not too long.
fn read(text: &[u8]) -> Result<Vec<Profile>, LineError> {
    let mut profiles: Vec<Profile> = Vec::new();
    let mut open = false;
    let mut scanner = Scanner { text, place: 0, line: 1 };
    while open || scanner.place < text.len() {
        let line = scanner.line;
        scanner.whole_line_fits(open)?;
        if !open {
            let path = scanner.heading()?;
            if let Some(other) = profiles.iter().find(|profile| profile.path == path) {
                let message =
                    format!("`{path}` has a profile at line {} already, expected one profile for a path", other.line);
                return at(line, message);
            }
            profiles.push(Profile { line, path, entries: Vec::new() });
            open = true;
        } else if scanner.peek() == Some(b'}') {
            scanner.literal("}")?;
            scanner.end_of_line()?;
            open = false;
        } else {
            let (path, modes) = scanner.entry()?;
            profiles.last_mut().expect("one is open").entries.push(Entry { line, path, modes });
        }
    }
    Ok(profiles)
}

/// What a profile begins with.
const HEADING: &str = "profile ";

/// Whether a text goes on with a profile.
pub(crate) fn is_heading(text: &[u8]) -> bool {
    text.starts_with(HEADING.as_bytes())
}

/// Where a text is read.
struct Scanner<'a> {
    text: &'a [u8],
    place: usize,
    line: usize,
}

impl Scanner<'_> {
    fn peek(&self) -> Option<u8> {
        self.text.get(self.place).copied()
    }

    /// What is wrong at the place that is read.
    fn wrong<T>(&self, expected: &str) -> Result<T, LineError> {
        let found = match self.peek() {
            None => "the end of the text".into(),
            Some(b'\n') => "the end of the line".into(),
            Some(b' ') => "a space".into(),
            Some(b'\t') => "a tab".into(),
            Some(byte) if byte.is_ascii_graphic() => format!("`{}`", char::from(byte)),
            Some(byte) => format!("byte {byte}"),
        };
        let begin = self.text[..self.place].iter().rposition(|byte| *byte == b'\n').map_or(0, |place| place + 1);
        at(self.line, format!("column {}: found {found}, expected {expected}", self.place - begin + 1))
    }

    fn literal(&mut self, wanted: &str) -> Result<(), LineError> {
        for byte in wanted.bytes() {
            if self.peek() != Some(byte) {
                return self.wrong(&format!("`{wanted}`"));
            }
            self.place += 1;
        }
        Ok(())
    }

    fn end_of_line(&mut self) -> Result<(), LineError> {
        if self.peek() != Some(b'\n') {
            return self.wrong("the end of the line (byte 10)");
        }
        self.place += 1;
        self.line += 1;
        Ok(())
    }

    /// `profile PATH {`
    fn heading(&mut self) -> Result<String, LineError> {
        if is_heading(&self.text[self.place..]) {
            self.literal(HEADING)?;
        } else {
            return self.wrong("`profile PATH {` or the end of the text");
        }
        let path = self.path("a path")?;
        self.no_other_letter()?;
        self.literal(" {")?;
        self.end_of_line()?;
        Ok(path)
    }

    /// `PATH MODES,`
    fn entry(&mut self) -> Result<(String, Vec<&'static str>), LineError> {
        let path = self.path("`PATH MODES,` or `}`")?;
        self.no_other_letter()?;
        if self.peek() != Some(b' ') {
            return self.wrong("a space and modes behind the path");
        }
        self.place += 1;
        let mut modes = vec![self.mode("")?];
        while self.peek() != Some(b',') {
            modes.push(self.mode(", or `,`")?);
        }
        self.literal(",")?;
        self.end_of_line()?;
        Ok((path, modes))
    }

    fn path(&mut self, expected: &str) -> Result<String, LineError> {
        if self.peek() != Some(b'/') {
            return self.wrong(expected);
        }
        let in_path = |byte: &u8| byte.is_ascii_alphanumeric() || *byte == b'.' || *byte == b'/';
        let length = self.text[self.place..].iter().take_while(|byte| in_path(byte)).count();
        let path = &self.text[self.place..self.place + length];
        self.place += length.min(PATH_LIMIT);
        if length < 2 {
            self.no_other_letter()?;
            return self.wrong("a letter, digit, dot or slash of a path");
        }
        if length > PATH_LIMIT {
            return self.wrong(&format!("at most {PATH_LIMIT} bytes in a path"));
        }
        Ok(String::from_utf8_lossy(path).into_owned())
    }

    /// At fault if a path goes on with a letter that paths of files often have, and paths of profiles never.
    fn no_other_letter(&self) -> Result<(), LineError> {
        match self.peek() {
            Some(b'-' | b'_') => self.wrong("a letter, digit, dot or slash: `-` and `_` may not stand in a path"),
            _ => Ok(()),
        }
    }

    fn mode(&mut self, or: &str) -> Result<&'static str, LineError> {
        const MODES: [&str; 10] = ["r", "w", "a", "l", "m", "ix", "px", "Px", "ux", "Ux"];
        let rest = &self.text[self.place..];
        let Some(mode) = MODES.into_iter().find(|mode| rest.starts_with(mode.as_bytes())) else {
            return self.wrong(&format!("a mode (r w a l m ix px Px ux Ux){or}"));
        };
        self.place += mode.len();
        Ok(mode)
    }

    /// At fault if the text, with what must follow this line, is over the limit.
    fn whole_line_fits(&self, open: bool) -> Result<(), LineError> {
        let rest = &self.text[self.place..];
        let length = rest.iter().position(|byte| *byte == b'\n').map_or(rest.len(), |place| place + 1);
        let closing = if open && rest.starts_with(b"}") { 0 } else { 2 };
        if self.place + length + closing <= TEXT_LIMIT {
            return Ok(());
        }
        at(self.line, format!("the text is over {TEXT_LIMIT} bytes here, expected at most as many"))
    }
}

#[cfg(test)]
mod tests {
    use super::*;
    use yaslaurel::profiles_policy;

    /// So many programs that write `/f`, of which the first two execute each other and so have equal mixtures.
    fn writers(count: usize) -> String {
        let other = |number: usize| if number < 2 { format!("/p{} px,\n", 1 - number) } else { String::new() };
        (0..count).map(|number| format!("profile /p{number} {{\n{}/f w,\n}}\n", other(number))).collect()
    }

    #[test]
    fn equal_mixtures_count_once() {
        assert!(profiles_policy(writers(9).as_bytes()).is_ok());
        assert_eq!(profile_paths(writers(9).as_bytes()).map(|paths| paths.len()), Ok(10));
        assert_eq!(profiles_policy(writers(10).as_bytes()), Err(Refusal::ProfileLimit));
        // Two profiles of four lines, then the tenth program's line is the second of the eighth profile of three.
        let fault = profile_paths(writers(10).as_bytes()).unwrap_err();
        assert_eq!((fault.refusal, fault.error.line), (Refusal::ProfileLimit, 2 * 4 + 7 * 3 + 2));
    }
}
