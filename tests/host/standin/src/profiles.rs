//! Policies from profiles, written a second time, with the planted faults inside. Without one it must give what the
//! judge gives: the comparison that finds the faults shows that too.

use judge::image::{Container, Kind, Policy};
use judge::normal;
use judge::numbers::{
    DATA_ATOMS, LONGEST_NORMAL, LONGEST_PATH, LONGEST_TEXT, PROFILE_PATHS, RULE_MIXTURES, UNRESTRICTED,
};
use judge::rules;

use crate::faults::{planted, Fault};

/// What a program has on a path.
const READ: u8 = 1;
const WRITE: u8 = 2;
const INHERIT: u8 = 4;
const DISCRETE: u8 = 8;
const UNCONFINED: u8 = 16;
const EXECUTE: u8 = INHERIT | DISCRETE | UNCONFINED;

/// The path that a line goes on with, and the rest.
fn path(line: &[u8]) -> Option<(&[u8], &[u8])> {
    let inside = |byte: &&u8| matches!(byte, b'a'..=b'z' | b'A'..=b'Z' | b'0'..=b'9' | b'.' | b'/');
    let length = line.iter().take_while(inside).count();
    let most = LONGEST_PATH + usize::from(planted(Fault::PathOf65));
    (line.first() == Some(&b'/') && (2..=most).contains(&length)).then(|| line.split_at(length))
}

/// The rights of ` MODES,`.
fn modes(rest: &[u8]) -> Option<u8> {
    let mut rest = rest.strip_prefix(b" ")?;
    let (mut rights, mut count) = (0, 0);
    loop {
        let (right, length) = match rest {
            [b','] => return (count > 0 || planted(Fault::LineWithoutMode)).then_some(rights),
            [b'r' | b'm', ..] => (READ, 1),
            [b'w' | b'a', ..] => (WRITE, 1),
            [b'l', ..] => (0, 1),
            [b'i', b'x', ..] => (INHERIT, 2),
            [b'p' | b'P', b'x', ..] => (DISCRETE, 2),
            [b'u' | b'U', b'x', ..] => (UNCONFINED, 2),
            [b'x', ..] if planted(Fault::ModeXAlone) => (INHERIT, 1),
            _ => return None,
        };
        rights |= right;
        count += 1;
        rest = &rest[length..];
    }
}

/// What has been read of a text: the paths by first appearance, and by their places the programs and what they have.
#[derive(Default)]
struct Reading<'a> {
    paths: Vec<&'a [u8]>,
    programs: Vec<usize>,
    /// Program, path, rights.
    rights: Vec<(usize, usize, u8)>,
}

impl<'a> Reading<'a> {
    fn place(&mut self, path: &'a [u8]) -> usize {
        self.paths.iter().position(|&other| other == path).unwrap_or_else(|| {
            self.paths.push(path);
            self.paths.len() - 1
        })
    }

    /// Reads a text: whether it is of the grammar.
    fn read(&mut self, text: &'a [u8]) -> bool {
        let mut open = None;
        let mut left = text;
        while !left.is_empty() {
            let end = match left.iter().position(|&byte| byte == 10) {
                Some(end) => end,
                None if planted(Fault::NoLastByte10) => left.len(),
                None => return false,
            };
            let line = &left[..end];
            left = &left[left.len().min(end + 1)..];
            match open {
                None => {
                    let Some((name, b" {")) = line.strip_prefix(b"profile ").and_then(path) else { return false };
                    let program = self.place(name);
                    self.programs.push(program);
                    open = Some(program);
                }
                Some(_) if line == b"}" => open = None,
                Some(program) => {
                    let Some((name, rest)) = path(line) else { return false };
                    let Some(rights) = modes(rest) else { return false };
                    let place = self.place(name);
                    self.rights.push((program, place, rights));
                }
            }
        }
        open.is_none() || planted(Fault::OpenProfileAtEnd)
    }

    fn repeats(&self) -> bool {
        let repeated = |place: usize| {
            let before = &self.programs[..place];
            let before = if planted(Fault::RepeatOnlyNext) { &before[place.saturating_sub(1)..] } else { before };
            let looked = !(planted(Fault::RepeatBeyond32Unseen) && self.programs[place] >= PROFILE_PATHS);
            looked && before.contains(&self.programs[place])
        };
        (0..self.programs.len()).any(repeated)
    }

    /// Moves the paths that have a profile before the others.
    fn profiled_first(&mut self) {
        let (first, last): (Vec<usize>, Vec<usize>) =
            (0..self.paths.len()).partition(|place| self.programs.contains(place));
        let order = [first, last].concat();
        let moved = |place: usize| order.iter().position(|&old| old == place).expect("every place is in the order");
        self.programs = self.programs.iter().map(|&program| moved(program)).collect();
        self.rights = self.rights.iter().map(|&(p, f, rights)| (moved(p), moved(f), rights)).collect();
    }

    /// The rights of a program on a path: its lines add up.
    fn on(&self, program: usize, path: usize) -> u8 {
        let lines = self.rights.iter().filter(|line| line.0 == program && line.1 == path);
        lines.fold(0, |sum, line| if planted(Fault::LaterLineReplaces) { line.2 } else { sum | line.2 })
    }
}

/// The running atom of a data atom.
fn twin(atom: usize) -> u64 {
    1 << (atom + usize::from(DATA_ATOMS))
}

/// What a program may hold.
fn mixture(reading: &Reading<'_>, program: usize) -> u64 {
    let own = if planted(Fault::RunLacksOwnAtom) { 0 } else { twin(program) };
    (0..reading.paths.len()).fold(own, |set, path| {
        let rights = reading.on(program, path);
        let data = if rights & READ != 0 { 1 << path } else { 0 };
        let code = match rights & EXECUTE {
            0 => 0,
            _ if planted(Fault::ExecuteAsData) => 1 << path,
            _ => twin(path),
        };
        set | data | code
    })
}

/// The permit and run rule of each path, none for the unrestricted rule.
fn rules_of(reading: &Reading<'_>) -> Vec<(Vec<u64>, Option<Vec<u64>>)> {
    let programs = reading.programs.iter();
    let mixtures: Vec<(usize, u64)> = programs.map(|&program| (program, mixture(reading, program))).collect();
    let with = |path: usize, right: u8| -> Vec<u64> {
        mixtures.iter().filter(|(program, _)| reading.on(*program, path) & right != 0).map(|&(_, set)| set).collect()
    };
    let rule = |path: usize| {
        let own = 1u64 << path;
        let added = if planted(Fault::PermitLacksOwnAtom) { 0 } else { own };
        let mut permit: Vec<u64> = with(path, WRITE).into_iter().map(|set| set | added).collect();
        if permit.is_empty() {
            permit.push(own);
        }
        let (inherited, discrete) = (with(path, INHERIT), with(path, DISCRETE));
        let before_unconfined = planted(Fault::InheritBeforeUnconfined) && !inherited.is_empty();
        let unconfined = !with(path, UNCONFINED).is_empty() && !before_unconfined;
        let run = match mixtures.iter().find(|(program, _)| *program == path) {
            Some(&(_, set)) => Some(vec![set]),
            None if unconfined => None,
            None if !inherited.is_empty() => Some(inherited),
            None if !discrete.is_empty() && !planted(Fault::DiscreteUnrestricted) => Some(vec![]),
            None => None,
        };
        (permit, run)
    };
    (0..reading.paths.len()).map(rule).collect()
}

/// The number of a rule in a policy.
fn numbered(policy: &mut Policy, rule: Option<Vec<u64>>) -> u16 {
    rule.map_or(UNRESTRICTED, |rule| {
        policy.rules.push(rule);
        policy.rules.len() as u16 - 1
    })
}

pub fn derive(text: &[u8], out: &mut [u8]) -> u32 {
    if out.len() < LONGEST_NORMAL {
        return 9;
    }
    let mut reading = Reading::default();
    let good = text.len() <= LONGEST_TEXT && reading.read(text) && !reading.repeats();
    let many = reading.paths.len() > PROFILE_PATHS;
    if many && (good || planted(Fault::PathsBeforeGrammar)) {
        return 17;
    }
    if !good {
        if planted(Fault::RefusedTextClears) {
            out.fill(0);
        }
        return 16;
    }
    if planted(Fault::AtomsByProfiles) {
        reading.profiled_first();
    }
    let mut policy = Policy { containers: vec![], users: vec![UNRESTRICTED], rules: vec![], owners: vec![] };
    for (atom, (permit, run)) in rules_of(&reading).into_iter().enumerate() {
        let raw = planted(Fault::MixturesBeforeNormalForm);
        let count = |rule: &Vec<u64>| if raw { rule.len() } else { rules::normal(rule).len() };
        let over = |rule: &Vec<u64>| count(rule) > RULE_MIXTURES;
        if over(&permit) || run.as_ref().is_some_and(over) {
            return 17;
        }
        let (permit, run) = (numbered(&mut policy, Some(permit)), numbered(&mut policy, run));
        policy.containers.push(Container { kind: Kind::File, atom: Some(atom as u8), permit, run });
    }
    let process = Container { kind: Kind::Process, atom: None, permit: UNRESTRICTED, run: UNRESTRICTED };
    policy.containers.push(process);
    normal::put(&normal::encode(&policy), out)
}
