//! Change request No. 1, "Our hosts already carry profiles": a text of profiles and the policy that it stands for.

use crate::image::{Container, Kind, Policy};
use crate::normal::{encode, put};
use crate::numbers::{
    DATA_ATOMS, LONGEST_NORMAL, LONGEST_PATH, LONGEST_TEXT, PROFILE_PATHS, RULE_MIXTURES, UNRESTRICTED,
};
use crate::rules::{normal, unrestricted, Rule};

/// "modes are letters of source document 001's figure (r w a l m ix px Px ux Ux)"
#[derive(Clone, Copy, Debug, PartialEq, Eq, Hash)]
pub enum Mode {
    R,
    W,
    A,
    L,
    M,
    Ix,
    Px,
    PX,
    Ux,
    UX,
}

/// The modes as they are spelled.
pub const MODES: [(&str, Mode); 10] = [
    ("r", Mode::R),
    ("w", Mode::W),
    ("a", Mode::A),
    ("l", Mode::L),
    ("m", Mode::M),
    ("ix", Mode::Ix),
    ("px", Mode::Px),
    ("Px", Mode::PX),
    ("ux", Mode::Ux),
    ("Ux", Mode::UX),
];

impl Mode {
    /// "files it may read (r, m)"
    fn reads(self) -> bool {
        matches!(self, Mode::R | Mode::M)
    }

    /// "each program with w or a on it"
    fn writes(self) -> bool {
        matches!(self, Mode::W | Mode::A)
    }

    /// "those it may execute (any x mode)"
    fn executes(self) -> bool {
        self.inherits() || self.unrestricted() || self.discrete()
    }

    /// "naming it by ix"
    fn inherits(self) -> bool {
        self == Mode::Ix
    }

    /// "if some ux or Ux names it"
    fn unrestricted(self) -> bool {
        matches!(self, Mode::Ux | Mode::UX)
    }

    /// "if px or Px names it"
    fn discrete(self) -> bool {
        matches!(self, Mode::Px | Mode::PX)
    }
}

/// A line `PATH MODES,`.
#[derive(Clone, Debug, PartialEq, Eq)]
pub struct Entry {
    pub path: Vec<u8>,
    pub modes: Vec<Mode>,
}

/// "each a line `profile PATH {`, any number of lines `PATH MODES,` and a line `}`"
#[derive(Clone, Debug, PartialEq, Eq)]
pub struct Profile {
    pub path: Vec<u8>,
    pub entries: Vec<Entry>,
}

/// Why a text is refused, "in that order".
#[derive(Clone, Copy, Debug, PartialEq, Eq)]
pub enum Refused {
    /// "16 when the text is too long,"
    TooLong,
    /// "breaks the grammar"
    Grammar,
    /// "or profiles a path twice"
    ProfiledTwice,
    /// "17 when it has over 32 paths"
    Paths,
    /// "or a rule over 8 mixtures in normal form": a permit rule, a run rule.
    PermitRule,
    RunRule,
}

impl Refused {
    pub fn number(self) -> u32 {
        match self {
            Refused::TooLong | Refused::Grammar | Refused::ProfiledTwice => 16,
            Refused::Paths | Refused::PermitRule | Refused::RunRule => 17,
        }
    }
}

/// "a path is `/` and 1 to 63 letters, digits, dots or slashes"
fn is_path(word: &[u8]) -> bool {
    let Some((b'/', rest)) = word.split_first() else { return false };
    (1..LONGEST_PATH).contains(&rest.len())
        && rest.iter().all(|byte| byte.is_ascii_alphanumeric() || [b'.', b'/'].contains(byte))
}

/// "at least one, run together, read left to right"
fn modes(mut word: &[u8]) -> Option<Vec<Mode>> {
    let mut found = Vec::new();
    while !word.is_empty() {
        let (spelled, mode) = MODES.iter().find(|(spelled, _)| word.starts_with(spelled.as_bytes()))?;
        found.push(*mode);
        word = &word[spelled.len()..];
    }
    (!found.is_empty()).then_some(found)
}

/// A line `profile PATH {`, "with single spaces as shown".
fn opening(line: &[u8]) -> Option<Vec<u8>> {
    let path = line.strip_prefix(b"profile ")?.strip_suffix(b" {")?;
    is_path(path).then(|| path.to_vec())
}

/// A line `PATH MODES,`.
fn entry(line: &[u8]) -> Option<Entry> {
    let line = line.strip_suffix(b",")?;
    let space = line.iter().position(|&byte| byte == b' ')?;
    let (path, rest) = (&line[..space], &line[space + 1..]);
    is_path(path).then_some(())?;
    Some(Entry { path: path.to_vec(), modes: modes(rest)? })
}

/// "A text is any number of profiles": the profiles of a text of the grammar.
pub fn reading(text: &[u8]) -> Option<Vec<Profile>> {
    let mut profiles = Vec::new();
    if text.is_empty() {
        return Some(profiles);
    }
    // "byte 10 after every line"
    let mut lines = text.strip_suffix(b"\n")?.split(|&byte| byte == b'\n');
    while let Some(line) = lines.next() {
        let mut profile = Profile { path: opening(line)?, entries: vec![] };
        loop {
            match lines.next()? {
                b"}" => break,
                line => profile.entries.push(entry(line)?),
            }
        }
        profiles.push(profile);
    }
    Some(profiles)
}

/// The text that a list of profiles is spelled as: "A text has a reading exactly when it is of this grammar, and only
/// one."
pub fn spelled(profiles: &[Profile]) -> Vec<u8> {
    let mut text = Vec::new();
    for profile in profiles {
        text.extend([b"profile ", &profile.path[..], b" {\n"].concat());
        for entry in &profile.entries {
            text.extend([&entry.path[..], b" "].concat());
            for mode in &entry.modes {
                text.extend(MODES.iter().find(|(_, named)| named == mode).expect("every mode is spelled").0.bytes());
            }
            text.extend(b",\n");
        }
        text.extend(b"}\n");
    }
    text
}

/// The paths of a text, "in order of first appearance".
pub fn paths(profiles: &[Profile]) -> Vec<&[u8]> {
    let mut found: Vec<&[u8]> = Vec::new();
    for profile in profiles {
        for path in std::iter::once(&profile.path).chain(profile.entries.iter().map(|entry| &entry.path)) {
            if !found.contains(&&path[..]) {
                found.push(path);
            }
        }
    }
    found
}

/// Whether some path is profiled twice.
fn profiled_twice(profiles: &[Profile]) -> bool {
    profiles.iter().enumerate().any(|(place, profile)| profiles[..place].iter().any(|other| other.path == profile.path))
}

/// "a path's lines within a profile add up": whether one of its modes on a path is such a one.
fn has(profile: &Profile, path: &[u8], such: fn(Mode) -> bool) -> bool {
    profile.entries.iter().any(|entry| entry.path == path && entry.modes.iter().any(|&mode| such(mode)))
}

/// "A program's run mixture is its own twin, the atoms of files it may read (r, m) and the twins of those it may execute
/// (any x mode)": "Each path becomes a file with the next atom in order of first appearance."
fn run_mixture(program: &Profile, paths: &[&[u8]]) -> u64 {
    let mut mixture = 0;
    for (atom, path) in paths.iter().enumerate() {
        if has(program, path, Mode::reads) {
            mixture |= 1 << atom;
        }
        if program.path == *path || has(program, path, Mode::executes) {
            mixture |= 1 << (atom + usize::from(DATA_ATOMS));
        }
    }
    mixture
}

/// The programs, each with its run mixture.
struct Programs<'a>(Vec<(&'a Profile, u64)>);

impl Programs<'_> {
    /// The run mixtures of the programs that name a path with such a mode.
    fn naming(&self, path: &[u8], such: fn(Mode) -> bool) -> Rule {
        self.0.iter().filter(|(profile, _)| has(profile, path, such)).map(|&(_, mixture)| mixture).collect()
    }

    /// "A file's permit rule has, for each program with w or a on it, that program's run mixture with the file's atom
    /// added; with none, its own atom."
    fn permit(&self, path: &[u8], atom: usize) -> Rule {
        let writers = self.naming(path, Mode::writes);
        if writers.is_empty() {
            return vec![1 << atom];
        }
        writers.into_iter().map(|mixture| mixture | 1 << atom).collect()
    }

    /// "that mixture is a profiled path's run rule"; "A path without a profile is unrestricted to run if some ux or Ux
    /// names it, else takes the run mixtures of programs naming it by ix, else has no mixture if px or Px names it,
    /// else is unrestricted."
    fn run(&self, path: &[u8]) -> Rule {
        if let Some(&(_, mixture)) = self.0.iter().find(|(profile, _)| profile.path == path) {
            return vec![mixture];
        }
        if !self.naming(path, Mode::unrestricted).is_empty() {
            return unrestricted();
        }
        let inherited = self.naming(path, Mode::inherits);
        if !inherited.is_empty() {
            return inherited;
        }
        if !self.naming(path, Mode::discrete).is_empty() {
            return vec![];
        }
        unrestricted()
    }
}

/// The policy that a text stands for, or why it is refused.
pub fn policy(text: &[u8]) -> Result<Policy, Refused> {
    // "profile text of up to 16,384 bytes"
    if text.len() > LONGEST_TEXT {
        return Err(Refused::TooLong);
    }
    let profiles = reading(text).ok_or(Refused::Grammar)?;
    if profiled_twice(&profiles) {
        return Err(Refused::ProfiledTwice);
    }
    let paths = paths(&profiles);
    if paths.len() > PROFILE_PATHS {
        return Err(Refused::Paths);
    }
    let programs = Programs(profiles.iter().map(|profile| (profile, run_mixture(profile, &paths))).collect());
    // "One unrestricted user and, behind the files, one initial process are added"
    let mut policy = Policy { containers: vec![], users: vec![UNRESTRICTED], rules: vec![], owners: vec![] };
    for (atom, path) in paths.iter().enumerate() {
        let (permit, run) = (programs.permit(path, atom), programs.run(path));
        if normal(&permit).len() > RULE_MIXTURES {
            return Err(Refused::PermitRule);
        }
        if normal(&run).len() > RULE_MIXTURES {
            return Err(Refused::RunRule);
        }
        let number = policy.rules.len() as u16;
        policy.rules.extend([permit, run]);
        let file = Container { kind: Kind::File, atom: Some(atom as u8), permit: number, run: number + 1 };
        policy.containers.push(file);
    }
    let process = Container { kind: Kind::Process, atom: None, permit: UNRESTRICTED, run: UNRESTRICTED };
    policy.containers.push(process);
    Ok(policy)
}

/// The policy of a text: the length of its image, or the number of the refusal, "in that order after 9, which covers
/// this output too".
pub fn derive(text: &[u8], out: &mut [u8]) -> u32 {
    if out.len() < LONGEST_NORMAL {
        return 9;
    }
    match policy(text) {
        // "and the normal image is written"
        Ok(policy) => put(&encode(&policy), out),
        Err(refused) => refused.number(),
    }
}

#[cfg(test)]
mod tests {
    use super::*;
    use crate::image::read;

    /// The policy as its normal image has it.
    fn written(text: &str) -> Policy {
        let mut out = vec![0; LONGEST_NORMAL];
        let length = derive(text.as_bytes(), &mut out) as usize;
        read(&out[..length]).expect("the image is accepted")
    }

    /// The run rule of the path that the text names as its place says.
    fn run_rule(text: &str, place: usize) -> Rule {
        let policy = written(text);
        policy.rule(policy.containers[place].run)
    }

    fn permit_rule(text: &str, place: usize) -> Rule {
        let policy = written(text);
        policy.rule(policy.containers[place].permit)
    }

    fn refusal(text: &str) -> Result<(), Refused> {
        policy(text.as_bytes()).map(|_| ())
    }

    /// Source document 001's example, its lines in its order.
    #[test]
    fn document_001() {
        let text = "profile /usr/bin/apache {\n/etc/apache2.conf w,\n/etc/apache2.conf r,\n/www/index.php r,\n\
            /usr/bin/ftpd px,\n}\nprofile /usr/bin/ftpd {\n/etc/ftpd.conf w,\n/etc/ftpd.conf r,\n/home/ftpd/data w,\n}\n";
        assert_eq!(encode(&policy(text.as_bytes()).unwrap()).len(), 146);
        assert_eq!(run_rule(text, 0), [0x9_0000_0006]);
        assert_eq!(run_rule(text, 3), [0x8_0000_0010]);
        assert_eq!(permit_rule(text, 0), [1]);
        assert_eq!(permit_rule(text, 1), [0x9_0000_0006]);
        assert_eq!(permit_rule(text, 2), [4]);
        assert_eq!(permit_rule(text, 5), [0x8_0000_0030]);
        assert_eq!(run_rule(text, 5), unrestricted());
    }

    /// "A text is any number of profiles": also none.
    #[test]
    fn empty_text() {
        let policy = written("");
        assert_eq!((policy.containers.len(), policy.users.len(), policy.rules.len()), (1, 1, 0));
        assert_eq!(encode(&policy).len(), 26);
    }

    #[test]
    fn grammar() {
        let good =
            ["profile /a {\n}\n", "profile // {\n/. rrr,\n}\n", "profile /a {\n/b lixpxPxuxUxramw,\n/a ix,\n}\n"];
        for text in good {
            let profiles = reading(text.as_bytes()).expect(text);
            assert_eq!(spelled(&profiles), text.as_bytes());
        }
        for text in [
            "\n",
            "profile /a {\n}",
            "profile /a {\n",
            "profile /a {",
            "profile /a {\n}\n\n",
            "profile /a {\n\n}\n",
            "profile /a  {\n}\n",
            "profile /a {\n/b  r,\n}\n",
            "profile /a {\n/b r, \n}\n",
            "profile /a {\n/b\tr,\n}\n",
            "profile /a {\n /b r,\n}\n",
            "profile /a {\n/b ,\n}\n",
            "profile /a {\n/b r\n}\n",
            "profile /a {\n/b x,\n}\n",
            "profile /a {\n/b rx,\n}\n",
            "profile /a {\n/b i,\n}\n",
            "profile /a {\n/b pux,\n}\n",
            "profile /a {\n/b ixx,\n}\n",
            "profile /a {\n/b R,\n}\n",
            "profile /a {\n/b Ix,\n}\n",
            "profile /a {\n/b-c r,\n}\n",
            "profile /a {\n/é r,\n}\n",
            "profile /a {\nb r,\n}\n",
            "profile / {\n}\n",
            "profile a {\n}\n",
            "Profile /a {\n}\n",
            "profile /a{\n}\n",
            "profile /a {\r\n}\r\n",
            "}\n",
            "/b r,\n",
            "profile /a {\nprofile /b {\n}\n}\n",
            "# none\n",
        ] {
            assert_eq!(refusal(text), Err(Refused::Grammar), "{text:?}");
        }
        let path = |length: usize| format!("profile /{} {{\n}}\n", "a".repeat(length - 1));
        assert_eq!([2, 64, 65].map(|length| refusal(&path(length)).is_ok()), [true, true, false]);
    }

    /// Modes as the request has them; each of a text `profile /a {`, `/b MODES,`.
    #[test]
    fn every_mode() {
        let with = |modes: &str| format!("profile /a {{\n/b {modes},\n}}\n");
        let twin = 1 << 32;
        for (modes, mixture, permit, run) in [
            ("l", twin, 2, unrestricted()),
            ("r", twin | 2, 2, unrestricted()),
            ("m", twin | 2, 2, unrestricted()),
            ("w", twin, twin | 2, unrestricted()),
            ("a", twin, twin | 2, unrestricted()),
            ("ix", 3 * twin, 2, vec![3 * twin]),
            ("px", 3 * twin, 2, vec![]),
            ("Px", 3 * twin, 2, vec![]),
            ("ux", 3 * twin, 2, unrestricted()),
            ("Ux", 3 * twin, 2, unrestricted()),
            ("ixux", 3 * twin, 2, unrestricted()),
            ("pxix", 3 * twin, 2, vec![3 * twin]),
            ("rwix", (3 * twin) | 2, (3 * twin) | 2, vec![(3 * twin) | 2]),
        ] {
            assert_eq!(run_rule(&with(modes), 0), [mixture], "{modes}");
            assert_eq!(permit_rule(&with(modes), 1), [permit], "{modes}");
            assert_eq!(run_rule(&with(modes), 1), run, "{modes}");
        }
        // A profiled path runs by its own profile, whatever names it.
        let both = "profile /a {\n/b uxixpx,\n}\nprofile /b {\n/a r,\n/b w,\n}\n";
        assert_eq!(run_rule(both, 1), [2 << 32 | 1]);
        assert_eq!(permit_rule(both, 1), [2 << 32 | 3]);
    }

    /// "a path's lines within a profile add up"
    #[test]
    fn lines_add_up() {
        let one = "profile /a {\n/b rw,\n/c Ux,\n}\n";
        let several = "profile /a {\n/b r,\n/c l,\n/b w,\n/b r,\n/c Ux,\n}\n";
        assert_eq!(written(one), written(several));
    }

    /// So many programs, each of which writes and inherits to the two paths that come first.
    fn programs(count: usize, modes: &str) -> String {
        let mut text = String::from("profile /p {\n/f l,\n}\n");
        for number in 0..count {
            text += &format!("profile /p{number} {{\n/f {modes},\n}}\n");
        }
        text
    }

    #[test]
    fn limits() {
        assert_eq!(permit_rule(&programs(8, "w"), 1).len(), 8);
        assert_eq!(refusal(&programs(9, "w")), Err(Refused::PermitRule));
        assert_eq!(run_rule(&programs(8, "ix"), 1).len(), 8);
        assert_eq!(refusal(&programs(9, "ix")), Err(Refused::RunRule));
        // A profile of its own, or ux, and the run rule is another.
        assert_eq!(refusal(&(programs(9, "ix") + "profile /f {\n}\n")), Ok(()));
        // Nine mixtures, of which one is held by another.
        let held = programs(9, "w") + "profile /q {\n/p0 ix,\n/p1 ix,\n/f w,\n}\n";
        assert_eq!(permit_rule(&held, 1).len(), 8);

        assert_eq!(refusal(&programs(30, "l")), Ok(()));
        assert_eq!(refusal(&programs(31, "l")), Err(Refused::Paths));
        // "in that order": twice, beyond the 32nd path and beside too many mixtures.
        assert_eq!(refusal(&(programs(40, "w") + "profile /p39 {\n}\n")), Err(Refused::ProfiledTwice));
        assert_eq!(refusal(&(programs(40, "w") + "}\n")), Err(Refused::Grammar));
        let long = "profile /a {\n".to_string() + &"/b r,\n".repeat((LONGEST_TEXT - 15) / 6) + "}\n";
        assert_eq!((long.len() % 6, LONGEST_TEXT % 6), (3, 4));
        let longest = long.replacen("/b r,", "/b rr,", 1);
        assert_eq!((longest.len(), refusal(&longest)), (LONGEST_TEXT, Ok(())));
        let longer = long.replacen("/b r,", "/b rrr,", 1);
        assert_eq!((longer.len(), refusal(&longer)), (LONGEST_TEXT + 1, Err(Refused::TooLong)));
        assert_eq!(derive(b"\n", &mut vec![0; LONGEST_NORMAL - 1]), 9);
    }
}
