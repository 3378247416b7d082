//! The policy of a run: the story's containers and users, and behind them what the recorder needs.

use std::ffi::OsStr;
use std::fmt;
use std::fs;
use std::os::unix::ffi::{OsStrExt, OsStringExt};

use policy_text::Story;
use yaslaurel::{Kind, Policy, PolicyContainer, PolicyError, Rule};

use crate::path;

/// A file of the story.
#[derive(Clone, Debug)]
pub struct StoryFile {
    pub name: String,
    /// Its absolute path as the story has it.
    pub written: Vec<u8>,
    /// That path with links followed, as a log of strace has it; as it is written where files are known by their identity.
    pub path: Vec<u8>,
    pub number: u8,
    /// Whether it is a source.
    pub source: bool,
    /// Whether the name ends with a slash: it stands for all files below a folder.
    pub folder: bool,
    /// Whether it is guarded.
    pub guarded: bool,
    /// Whether it has a permit rule, and the user that has the same rule, for whom a new file of this name is made.
    pub rule: Option<RuleUser>,
}

/// The user who has the permit rule of a file; nothing if there was no room for one.
#[derive(Clone, Copy, Debug, PartialEq, Eq)]
pub struct RuleUser(pub Option<u8>);

/// The policy and the numbers in it.
#[derive(Clone, Debug)]
pub struct Plan {
    pub policy: Policy,
    pub files: Vec<StoryFile>,
    /// The names of the files that the story guards.
    pub guarded: Vec<String>,
    /// The recorder's own process: it executes nothing, so it may make files for every user.
    pub recorder: u8,
    /// The first process of the run.
    pub first: u8,
    pub unrestricted: u8,
    uids: Vec<(u32, u8)>,
}

/// How a story is taken.
#[derive(Clone, Copy, Debug, Default)]
pub struct How {
    /// Whether guarded files are guarded.
    pub guard: bool,
    /// Whether links in names are followed, on this machine.
    pub follow: bool,
}

/// Why a story is none for a recorder.
#[derive(Debug)]
pub enum PlanError {
    Step { line: usize },
    NotAFile { name: String },
    RelativeName { name: String },
    TwoNames { name: String, other: String },
    Policy(PolicyError),
}

impl fmt::Display for PlanError {
    fn fmt(&self, f: &mut fmt::Formatter<'_>) -> fmt::Result {
        match self {
            PlanError::Step { line } => write!(f, "{line}: found a step, expected none: the steps come from the run"),
            PlanError::NotAFile { name } => {
                write!(f, "`{name}` is no file, expected files alone: the run brings the rest")
            }
            PlanError::RelativeName { name } => {
                write!(f, "`{name}` is a relative name and the log names no folder, expected `--folder FOLDER`")
            }
            PlanError::TwoNames { name, other } => {
                write!(f, "`{other}` and `{name}` are the same file, expected each file under one name")
            }
            PlanError::Policy(error) => write!(f, "no room for the recorder's own containers and users: {error}"),
        }
    }
}

impl std::error::Error for PlanError {}

impl From<PolicyError> for PlanError {
    fn from(error: PolicyError) -> PlanError {
        PlanError::Policy(error)
    }
}

impl Plan {
    /// The plan of a story whose relative names stand in a folder. The names of the recorder's own processes and users have
    /// a space, which paths in a story rarely have.
    pub fn new(story: &Story, folder: Option<&[u8]>, how: How) -> Result<Plan, PlanError> {
        if let Some(step) = story.steps().first() {
            return Err(PlanError::Step { line: step.line });
        }
        let mut policy = story.policy().clone();
        let guarded = guarded(&policy);
        if !how.guard {
            for (number, _) in &guarded {
                policy.set_guarded(*number, false)?;
            }
        }
        let guarded = guarded.into_iter().map(|(_, name)| name).collect();
        let mut files = story_files(&policy, folder, how.follow)?;
        let recorder = policy.process("the recorder")?;
        let first = policy.process("the first process")?;
        let unrestricted = policy.user("unrestricted user", Rule::unrestricted())?;
        rule_users(&mut policy, &mut files)?;
        Ok(Plan { policy, files, guarded, recorder, first, unrestricted, uids: story.uids().to_vec() })
    }

    /// The user on whose behalf a user id runs.
    pub fn user(&self, uid: Option<u32>) -> u8 {
        let found = self.uids.iter().find(|(other, _)| Some(*other) == uid);
        found.map_or(self.unrestricted, |(_, user)| *user)
    }

    /// Whether the story names user ids.
    pub fn names_uids(&self) -> bool {
        !self.uids.is_empty()
    }
}

/// The guarded files of a story. Where nothing is stopped they are plain ones: an access that is watched has been made, so the
/// monitor must take it as made.
fn guarded(policy: &Policy) -> Vec<(u8, String)> {
    let all = policy.containers().enumerate();
    let guarded = all.filter(|(_, (_, container))| container.kind == Kind::Guarded);
    guarded.map(|(number, (name, _))| (number as u8, name.to_string())).collect()
}

/// A process without a rule, as a policy of profiles begins with one: the run has processes of its own, and none of them is this.
fn is_plain_process(container: PolicyContainer) -> bool {
    container.kind == Kind::Process && container.permit.is_none() && container.run.is_none()
}

/// The files of a story, each at its place; a process without a rule is passed over.
fn story_files(policy: &Policy, folder: Option<&[u8]>, follow: bool) -> Result<Vec<StoryFile>, PlanError> {
    let mut files: Vec<StoryFile> = Vec::new();
    for (number, (name, container)) in policy.containers().enumerate() {
        let name = name.to_string();
        if is_plain_process(container) {
            continue;
        }
        if container.kind != Kind::File && container.kind != Kind::Guarded {
            return Err(PlanError::NotAFile { name });
        }
        let Some(written) = path::absolute(folder, name.as_bytes()) else {
            return Err(PlanError::RelativeName { name });
        };
        let path = if follow { followed(&written) } else { written.clone() };
        if let Some(other) = files.iter().find(|file| file.path == path) {
            return Err(PlanError::TwoNames { name, other: other.name.clone() });
        }
        let rule = container.permit.map(|_| RuleUser(None));
        let (source, folder) = (container.source.is_some(), name.ends_with('/'));
        let guarded = container.kind == Kind::Guarded;
        files.push(StoryFile { name, written, path, number: number as u8, source, folder, guarded, rule });
    }
    Ok(files)
}

/// The links in the root folder of this machine that lead to folders, such as `/bin`, and where they lead.
pub fn root_links() -> Vec<(Vec<u8>, Vec<u8>)> {
    let Ok(entries) = fs::read_dir("/") else { return Vec::new() };
    let links = entries.flatten().filter(|entry| entry.file_type().is_ok_and(|kind| kind.is_symlink()));
    let found = links.filter_map(|entry| Some((entry.path(), fs::canonicalize(entry.path()).ok()?)));
    let folders = found.filter(|(_, real)| real.is_dir());
    folders.map(|(link, real)| (link.into_os_string().into_vec(), real.into_os_string().into_vec())).collect()
}

/// A path with links followed, as far as it is there on this machine.
fn followed(path: &[u8]) -> Vec<u8> {
    let real =
        |path: &[u8]| fs::canonicalize(OsStr::from_bytes(path)).ok().map(|real| real.into_os_string().into_vec());
    let (folder, name) = path::split(path);
    let in_folder = || real(folder).and_then(|folder| path::absolute(Some(&folder), name));
    real(path).or_else(in_folder).unwrap_or_else(|| path.to_vec())
}

/// Adds a user for each different permit rule of the story, as far as there is room: a new file is made for a user and has
/// that user's rule, so this is how a file that is made anew under a name of the story gets the story's rule.
fn rule_users(policy: &mut Policy, files: &mut [StoryFile]) -> Result<(), PlanError> {
    let permits: Vec<Option<u16>> = policy.containers().map(|(_, container)| container.permit).collect();
    let mut made: Vec<(u16, Option<u8>)> = Vec::new();
    for file in files {
        let Some(permit) = permits[usize::from(file.number)] else { continue };
        let known = made.iter().find(|(other, _)| *other == permit).map(|(_, user)| *user);
        let user = match known {
            Some(user) => user,
            None => {
                let rule = policy.rules()[usize::from(permit)].clone();
                let user = match policy.user(&format!("rule of {}", file.name), rule) {
                    Ok(user) => Some(user),
                    Err(PolicyError::TooManyUsers) => None,
                    Err(error) => return Err(error.into()),
                };
                made.push((permit, user));
                user
            }
        };
        file.rule = Some(RuleUser(user));
    }
    Ok(())
}
