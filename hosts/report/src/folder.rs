//! What a folder has: a policy, traces and names.

use std::fs::{self, File};
use std::io::{self, Read};
use std::path::Path;

use policy_text::{fit, read_holders, read_names, Fit, Holder};
use sha2::{Digest, Sha256};
use yaslaurel::layout::record;
use yaslaurel::Policy;

use crate::PageError;

/// How long a policy may be that is read: more than any policy has.
const POLICY_LIMIT: u64 = 1 << 20;
/// How many records of a trace are taken, as by the month program.
const TRACE_RECORDS: u64 = 1_000_000;
/// How many traces a month has.
const TRACES: usize = 64;
/// The files of the names.
const NAMES: [&str; 3] = ["names.txt", "containers.txt", "users.txt"];
/// The trace that the names of containers made by steps belong to.
pub const TRACE: &str = "trace.bin";

/// A trace of the folder.
pub struct Trace {
    /// Its file's name.
    pub name: String,
    /// Its digest, as `sha256sum` prints it.
    pub sha256: String,
    /// Its records; nothing if there are too many.
    pub bytes: Option<Vec<u8>>,
}

/// What a folder has.
pub struct Folder {
    /// The policy, with the names that the folder has.
    pub policy: Policy,
    /// The policy's image.
    pub image: Vec<u8>,
    /// The digest of the image.
    pub sha256: String,
    /// The traces.
    pub traces: Vec<Trace>,
    /// The holders of numbers, in the order in which they come; nothing if the folder has no names.
    pub holders: Option<Vec<Holder>>,
    /// What is not taken up, in words.
    pub gaps: Vec<String>,
    /// What is not known, in words.
    pub notes: Vec<String>,
}

/// The digest of bytes, as `sha256sum` prints it.
fn digest(bytes: &[u8]) -> String {
    format!("{:x}", Sha256::digest(bytes))
}

/// An error with the path in front.
fn unread(path: &Path, error: impl std::fmt::Display) -> PageError {
    PageError::Input(format!("{}: {error}", path.display()))
}

/// The bytes of a file, up to one more than a limit.
fn load(path: &Path, limit: u64) -> Result<Vec<u8>, PageError> {
    let mut bytes = Vec::new();
    let read = File::open(path).and_then(|file| file.take(limit + 1).read_to_end(&mut bytes));
    read.map_err(|error| unread(path, error))?;
    Ok(bytes)
}

/// Whether something of a name is there; what cannot be looked at is, and is told when it is read.
fn there(path: &Path) -> bool {
    !matches!(fs::symlink_metadata(path), Err(error) if error.kind() == io::ErrorKind::NotFound)
}

/// The names of the traces in a folder: `trace.bin`, then those of a month up to the first that is missing.
fn trace_names(folder: &Path, gaps: &mut Vec<String>) -> Vec<String> {
    let name = |number: usize| format!("{number:02}.bin");
    let is_there = |number: &usize| there(&folder.join(name(*number)));
    let days = (0..TRACES).take_while(is_there).count();
    if let Some(behind) = (days..=TRACES).find(is_there) {
        let why = if behind < TRACES { format!("{} is missing", name(days)) } else { "there are 64 before it".into() };
        gaps.push(format!("{}: not taken up, since {why}", name(behind)));
    }
    let one = there(&folder.join(TRACE)) || days == 0;
    one.then(|| TRACE.to_string()).into_iter().chain((0..days).map(name)).collect()
}

impl Folder {
    /// Reads a folder.
    pub fn read(folder: &Path) -> Result<Folder, PageError> {
        let path = folder.join("policy.bin");
        let image = load(&path, POLICY_LIMIT)?;
        let refused = |refusal| PageError::Policy(format!("{}: {refusal}", path.display()));
        let mut policy = Policy::from_image(&image).map_err(refused)?;
        let failed = |error: io::Error| PageError::Input(error.to_string());
        let named = NAMES.iter().any(|name| there(&folder.join(name)));
        if named {
            read_names(folder, &mut policy).map_err(failed)?;
        }
        let holders = named.then(|| read_holders(folder)).transpose().map_err(failed)?;
        let (mut gaps, mut notes) = (Vec::new(), Vec::new());
        match fit(folder, &image).map_err(failed)? {
            Fit::Same => {}
            Fit::Other => gaps.push(
                "the names and the traces were made for another policy: policy.sha256 has not the digest of policy.bin"
                    .into(),
            ),
            Fit::Unknown => notes.push(
                "there is no policy.sha256: whether the names and the traces were made for the policy is not known"
                    .into(),
            ),
        }
        if !named {
            notes.push("there are no names: sources, containers and users go by their numbers".into());
        }
        let names = trace_names(folder, &mut gaps);
        let traces = names.into_iter().map(|name| read_trace(folder, name, &mut gaps)).collect::<Result<_, _>>()?;
        Ok(Folder { policy, sha256: digest(&image), image, traces, holders, gaps, notes })
    }
}

/// Reads a trace; one of too many records is told.
fn read_trace(folder: &Path, name: String, gaps: &mut Vec<String>) -> Result<Trace, PageError> {
    let limit = TRACE_RECORDS * record::LENGTH as u64;
    let bytes = load(&folder.join(&name), limit)?;
    if bytes.len() as u64 > limit {
        gaps.push(format!("{name}: left out whole, since it has over {TRACE_RECORDS} records (19)"));
        return Ok(Trace { name, sha256: String::new(), bytes: None });
    }
    Ok(Trace { name, sha256: digest(&bytes), bytes: Some(bytes) })
}
