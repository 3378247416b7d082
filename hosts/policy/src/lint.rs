//! What a story says that does nothing, or hardly what was meant.

use std::collections::{HashMap, HashSet};
use std::path::Path;

use yaslaurel::layout::session::RULE_MIXTURES;

use crate::explain::spelled as json_text;
use crate::statement::{statement, Part, Statement};
use crate::{quoted, LineError, Story};

/// Why a story cannot be looked through.
#[derive(Clone, Debug, PartialEq, Eq)]
pub struct LintError {
    /// The lines at fault.
    pub lines: Vec<LineError>,
}

/// A source in a mixture.
type Atom = (bool, String);

/// The mixtures of a line, in its order.
fn mixtures(found: &Statement) -> &[Vec<Part>] {
    match found {
        Statement::Rule { mixtures: Some(mixtures), .. } | Statement::Permit { mixtures, .. } => mixtures,
        _ => &[],
    }
}

/// The atoms of a mixture.
fn atoms(mixture: &[Part]) -> HashSet<Atom> {
    mixture.iter().map(|part| (part.running, part.name.clone())).collect()
}

/// A mixture as a story spells it.
fn spelled(mixture: &[Part]) -> String {
    let part = |part: &Part| format!("{}{}", if part.running { "run " } else { "" }, quoted(&part.name));
    format!("{{{}}}", mixture.iter().map(part).collect::<Vec<_>>().join(", "))
}

/// The lines of a story that say something.
struct Lines {
    found: Vec<(usize, Statement)>,
    told: Vec<LineError>,
}

impl Lines {
    /// Notes something about a line.
    fn tell(&mut self, line: usize, message: String) {
        self.told.push(LineError { line, message });
    }

    /// A mixture that another one of its rule holds: it counts for nothing. Whether the others are at most 8.
    fn swallowed(&mut self) -> Vec<(usize, usize)> {
        let mut rest = Vec::new();
        let lines: Vec<(usize, Vec<Vec<Part>>)> =
            self.found.iter().map(|(line, found)| (*line, mixtures(found).to_vec())).collect();
        for (line, mixtures) in lines {
            let sets: Vec<HashSet<Atom>> = mixtures.iter().map(|mixture| atoms(mixture)).collect();
            let mut left = sets.len();
            for (place, set) in sets.iter().enumerate() {
                let holds = |other: &usize| {
                    *other != place && sets[*other].is_superset(set) && (sets[*other] != *set || *other < place)
                };
                if let Some(other) = (0..sets.len()).find(holds) {
                    let (small, large) = (spelled(&mixtures[place]), spelled(&mixtures[other]));
                    self.tell(line, format!("the mixture {small} is held by {large} and counts for nothing"));
                    left -= 1;
                }
            }
            rest.push((line, left));
        }
        rest
    }

    /// A rule of over 8 mixtures, with the remedy. The lines of these.
    fn too_many(&mut self, rest: &[(usize, usize)]) -> Vec<usize> {
        let distinct = |found: &Statement| {
            let sets: Vec<HashSet<Atom>> = mixtures(found).iter().map(|mixture| atoms(mixture)).collect();
            (0..sets.len()).filter(|&place| !sets[..place].contains(&sets[place])).count()
        };
        let many: Vec<(usize, usize)> = self.found.iter().map(|(line, found)| (*line, distinct(found))).collect();
        let many = many.into_iter().filter(|(_, count)| *count > RULE_MIXTURES).collect::<Vec<_>>();
        for (line, count) in &many {
            let left = rest.iter().find(|(other, _)| other == line).map_or(0, |(_, left)| *left);
            let remedy = if left <= RULE_MIXTURES {
                "leave out those that others hold"
            } else {
                "give each mixture, or each eight, a file of its own"
            };
            self.tell(*line, format!("{count} mixtures, and a rule has at most {RULE_MIXTURES}: {remedy}"));
        }
        many.into_iter().map(|(line, _)| line).collect()
    }

    /// Rules that permit nothing, that nothing uses, or that are another rule once more.
    fn rules(&mut self) {
        let used: HashSet<String> = self.found.iter().flat_map(|(_, found)| used_rules(found)).collect();
        let mut seen: HashMap<Vec<Vec<Atom>>, String> = HashMap::new();
        let mut told = Vec::new();
        for (line, found) in &self.found {
            let Statement::Rule { name, mixtures } = found else { continue };
            let shown = quoted(name);
            if mixtures.as_ref().is_some_and(Vec::is_empty) {
                told.push((
                    *line,
                    format!("the rule {shown} has no mixture and permits nothing, not even to hold nothing"),
                ));
            }
            if !used.contains(name) {
                told.push((*line, format!("the rule {shown} is used nowhere")));
            }
            let Some(mixtures) = mixtures else { continue };
            let mut sets: Vec<Vec<Atom>> = mixtures.iter().map(|mixture| sorted(atoms(mixture))).collect();
            sets.sort();
            if let Some(other) = seen.get(&sets) {
                told.push((*line, format!("the rule {shown} is the same as {other}")));
            } else {
                seen.insert(sets, shown);
            }
        }
        told.into_iter().for_each(|(line, message)| self.tell(line, message));
    }

    /// Sources that are files by themselves while others are carried, and are named nowhere.
    fn sources(&mut self) {
        let carried: HashSet<&String> = self.found.iter().filter_map(|(_, found)| carried(found)).collect();
        let files: HashSet<&String> = self.found.iter().flat_map(|(_, found)| named_files(found)).collect();
        let mut told = Vec::new();
        for (line, found) in &self.found {
            let Statement::Source { name } = found else { continue };
            if !carried.is_empty() && !carried.contains(name) && !files.contains(name) {
                let shown = quoted(name);
                told.push((
                    *line,
                    format!(
                        "no file line carries the source {shown}, so it is a file {shown}, which no other line names"
                    ),
                ));
            }
        }
        told.into_iter().for_each(|(line, message)| self.tell(line, message));
    }

    /// Files whose permit rule has no mixture with the source that they carry.
    fn permits(&mut self, story: &Story) {
        let policy = story.policy();
        let lacking = |found: &Statement| {
            let name = match found {
                Statement::File { name, permit: Some(_), .. } | Statement::Permit { file: name, .. } => name,
                _ => return None,
            };
            let (_, container) = policy.containers().find(|(other, _)| other == name)?;
            let source = container.source?;
            let rule = &policy.rules()[usize::from(container.permit?)];
            let has =
                rule.is_unrestricted() || rule.mixtures().iter().any(|mixture| mixture.sources().any(|s| s == source));
            (!has && !rule.mixtures().is_empty()).then(|| (quoted(name), quoted(&policy.source_name(source))))
        };
        let told: Vec<(usize, String)> = self.found.iter().filter_map(|(line, found)| {
            let (name, source) = lacking(found)?;
            Some((*line, format!("the permit rule of {name} has no mixture with {source}, which it carries: each append there is an alert")))
        }).collect();
        told.into_iter().for_each(|(line, message)| self.tell(line, message));
    }

    /// Files that must be in a folder and are not: those that carry a source or have a run rule. Of the others their folder must be there.
    fn disk(&mut self, story: &Story, folder: &Path) {
        let policy = story.policy();
        let mut told = Vec::new();
        for (name, container) in policy.containers().filter(|(_, container)| container.kind.is_file()) {
            let line = self.found.iter().find(|(_, found)| names_file(found, name)).map_or(1, |(line, _)| *line);
            let path = folder.join(name);
            let parent = path.parent().unwrap_or(folder);
            if container.source.is_some() || container.run.is_some() {
                if !path.exists() {
                    told.push((line, format!("there is no {}", path.display())));
                }
            } else if !parent.exists() {
                told.push((line, format!("there is no folder {} for {}", parent.display(), quoted(name))));
            }
        }
        told.into_iter().for_each(|(line, message)| self.tell(line, message));
    }
}

/// The atoms in an order.
fn sorted(set: HashSet<Atom>) -> Vec<Atom> {
    let mut atoms: Vec<Atom> = set.into_iter().collect();
    atoms.sort();
    atoms
}

/// The rules that a line uses by name.
fn used_rules(found: &Statement) -> Vec<String> {
    match found {
        Statement::File { permit, run, .. } => [permit, run].into_iter().flatten().cloned().collect(),
        Statement::User { rule, .. } => rule.iter().cloned().collect(),
        _ => Vec::new(),
    }
}

/// The source that a file line carries.
fn carried(found: &Statement) -> Option<&String> {
    match found {
        Statement::File { source, .. } => source.as_ref(),
        _ => None,
    }
}

/// The files that a line names, but for the line of a source.
fn named_files(found: &Statement) -> Vec<&String> {
    match found {
        Statement::File { name, .. } | Statement::Permit { file: name, .. } => vec![name],
        Statement::Step { object, .. } => vec![object],
        _ => Vec::new(),
    }
}

/// Whether a line is about a file of this name.
fn names_file(found: &Statement, name: &str) -> bool {
    match found {
        Statement::Source { name: other } => other == name,
        found => named_files(found).into_iter().any(|other| other == name),
    }
}

/// A line that is told, as an object of JSON in a line.
#[must_use]
pub fn line_json(told: &LineError) -> String {
    format!("{{\"line\": {}, \"message\": {}}}\n", told.line, json_text(&told.message))
}

/// What is doubtful in a story, by lines; on disk it is looked into only in a folder that is given.
///
/// ```
/// use policy_text::lint;
/// let told = lint(b"source north\nrule own = {north} {}\nfile north permit own\n", None).unwrap();
/// let told: Vec<String> = told.iter().map(ToString::to_string).collect();
/// assert_eq!(told, ["2: the mixture {} is held by {north} and counts for nothing"]);
/// ```
///
/// # Errors
///
/// The lines that are not as `docs/FORMATS.md` has them, but for rules of too many mixtures.
pub fn lint(text: &[u8], disk: Option<&Path>) -> Result<Vec<LineError>, LintError> {
    let read = Story::read_all(text);
    let shown = String::from_utf8_lossy(text);
    let found = shown.split('\n').enumerate().filter_map(|(place, line)| Some((place + 1, statement(line).ok()??)));
    let mut lines = Lines { found: found.collect(), told: Vec::new() };
    let rest = lines.swallowed();
    let many = lines.too_many(&rest);
    match read {
        Ok(story) => {
            lines.rules();
            lines.sources();
            lines.permits(&story);
            if let Some(folder) = disk {
                lines.disk(&story, folder);
            }
        }
        Err(errors) => {
            let other: Vec<LineError> = errors.into_iter().filter(|error| !many.contains(&error.line)).collect();
            if !other.is_empty() {
                return Err(LintError { lines: other });
            }
        }
    }
    lines.told.sort_by_key(|told| told.line);
    Ok(lines.told)
}
