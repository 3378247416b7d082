//! The files of a policy with its trace and its names.

use std::fs;
use std::io;
use std::path::{Path, PathBuf};

use sha2::{Digest, Sha256};
use yaslaurel::{Policy, Source};

use crate::Holder;

const IMAGE: &str = "policy.bin";
const SOURCES: &str = "names.txt";
const CONTAINERS: &str = "containers.txt";
const USERS: &str = "users.txt";
/// The digests of the images that the names and the traces of a folder are of, a line for each, as sha256sum writes them.
const DIGESTS: &str = "policy.sha256";
/// How many digits a digest has.
const DIGITS: usize = 64;

/// Writes into a folder, which must be there: `policy.bin` (the image), `trace.bin` (operation records), `names.txt` (the
/// sources, one in a line), `containers.txt` (number and name of each container, several for a number that is taken again, in
/// order), `users.txt` (the users, one in a line) and `policy.sha256` (the image's digest, for [`fit`]).
///
/// # Errors
///
/// What the system says, with the name of the file.
pub fn write_folder(folder: &Path, policy: &Policy, trace: &[u8], holders: &[Holder]) -> io::Result<()> {
    let image = policy.image();
    let digest = DigestLine { digest: digest(&image), name: IMAGE.into() };
    let mut files = vec![(folder.join(IMAGE), image), (folder.join("trace.bin"), trace.to_vec())];
    files.extend(name_files(folder, policy, holders));
    files.push((folder.join(DIGESTS), digest.text().into_bytes()));
    write_files(&files)
}

/// The files of the names of a policy, and what is to stand in them.
fn name_files(folder: &Path, policy: &Policy, holders: &[Holder]) -> [(PathBuf, Vec<u8>); 3] {
    let sources: String = policy.source_names().map(|name| format!("{name}\n")).collect();
    let containers: String = holders.iter().map(|holder| format!("{} {}\n", holder.number, holder.name)).collect();
    let users: String = policy.users().map(|(name, _)| format!("{name}\n")).collect();
    [(SOURCES, sources), (CONTAINERS, containers), (USERS, users)]
        .map(|(name, text)| (folder.join(name), text.into_bytes()))
}

/// Writes each file.
fn write_files(files: &[(PathBuf, Vec<u8>)]) -> io::Result<()> {
    files.iter().try_for_each(|(path, bytes)| fs::write(path, bytes).map_err(|error| named(path, &error.to_string())))
}

/// The digest of an image: SHA-256, as `sha256sum` prints it.
fn digest(image: &[u8]) -> String {
    format!("{:x}", Sha256::digest(image))
}

/// A line of the digests.
#[derive(Clone, Debug, PartialEq, Eq)]
struct DigestLine {
    digest: String,
    /// The name of the image when it was written.
    name: String,
}

impl DigestLine {
    /// The line as it is written.
    fn text(&self) -> String {
        format!("{}  {}\n", self.digest, self.name)
    }

    /// The line as it is read.
    fn read(line: &str) -> Result<DigestLine, String> {
        let (digest, name) = line.split_once("  ").unwrap_or((line, ""));
        if digest.len() != DIGITS || name.is_empty() || !digest.bytes().all(|digit| digit.is_ascii_hexdigit()) {
            return Err(format!("expected {DIGITS} hexadecimal digits, two spaces and a name"));
        }
        Ok(DigestLine { digest: digest.to_ascii_lowercase(), name: name.into() })
    }
}

/// The digests that a folder has; nothing if it has no file of them.
fn digests(folder: &Path) -> io::Result<Option<Vec<DigestLine>>> {
    let path = folder.join(DIGESTS);
    if matches!(fs::symlink_metadata(&path), Err(error) if error.kind() == io::ErrorKind::NotFound) {
        return Ok(None);
    }
    let mut lines = Vec::new();
    each_line(&path, |_, line| {
        lines.push(DigestLine::read(line)?);
        Ok(())
    })?;
    Ok(Some(lines))
}

/// Whether the names and the traces of a folder are of an image.
#[derive(Clone, Copy, Debug, PartialEq, Eq)]
pub enum Fit {
    /// They are of this image.
    Same,
    /// They are of other images.
    Other,
    /// The folder has no digest: an earlier edition wrote it, or somebody else.
    Unknown,
}

/// Whether the names and the traces of a folder are of an image, by the digests in its file `policy.sha256`.
///
/// # Errors
///
/// What the system says, or what is wrong in the file, with its name and line.
pub fn fit(folder: &Path, image: &[u8]) -> io::Result<Fit> {
    let wanted = digest(image);
    Ok(match digests(folder)? {
        None => Fit::Unknown,
        Some(lines) if lines.iter().any(|line| line.digest == wanted) => Fit::Same,
        Some(_) => Fit::Other,
    })
}

/// The names of a policy, to be written beside its image, with the image's digest.
#[derive(Debug)]
pub struct NamesBeside {
    files: Vec<(PathBuf, Vec<u8>)>,
}

impl NamesBeside {
    /// What is to be written beside the file of an image, for a policy with names. Where the same names stand already, the digest is added to
    /// those that are there; names without any digest stay without.
    ///
    /// # Errors
    ///
    /// What the system says; or that other names stand there.
    pub fn prepare(file: &Path, image: &[u8], policy: &Policy) -> io::Result<NamesBeside> {
        let folder = folder_of(file);
        let name = file.file_name().map_or_else(String::new, |name| name.to_string_lossy().into_owned());
        let line = DigestLine { digest: digest(image), name };
        let there = [SOURCES, CONTAINERS, USERS].iter().any(|name| folder.join(name).exists());
        if !there {
            let numbered = policy.containers().enumerate();
            let holders: Vec<Holder> = numbered.map(|(number, (name, _))| Holder::new(number as u8, name)).collect();
            let mut files = name_files(folder, policy, &holders).to_vec();
            files.push((folder.join(DIGESTS), line.text().into_bytes()));
            return Ok(NamesBeside { files });
        }
        if !same_names(folder, policy)? {
            return Err(named(folder, "has other names, expected none or the same"));
        }
        let files = digests(folder)?.map(|mut lines| {
            lines.retain(|other| other.name != line.name);
            lines.push(line);
            (folder.join(DIGESTS), lines.iter().map(DigestLine::text).collect::<String>().into_bytes())
        });
        Ok(NamesBeside { files: files.into_iter().collect() })
    }

    /// Writes them.
    ///
    /// # Errors
    ///
    /// What the system says, with the name of the file.
    pub fn write(&self) -> io::Result<()> {
        write_files(&self.files)
    }
}

/// The folder in which a file stands.
fn folder_of(file: &Path) -> &Path {
    file.parent().filter(|folder| !folder.as_os_str().is_empty()).unwrap_or(Path::new("."))
}

/// Whether the names of a folder are those of a policy.
fn same_names(folder: &Path, policy: &Policy) -> io::Result<bool> {
    let mut other = policy.clone();
    if read_names(folder, &mut other).is_err() {
        return Ok(false);
    }
    let sources = source_names(folder)?;
    let containers = policy.containers().zip(other.containers()).all(|((one, _), (other, _))| one == other);
    let users = policy.users().zip(other.users()).all(|((one, _), (other, _))| one == other);
    Ok(containers && users && policy.source_names().zip(&sources).all(|(one, other)| one == other))
}

/// An error with the path in front.
fn named(path: &Path, error: &str) -> io::Error {
    io::Error::new(io::ErrorKind::Other, format!("{}: {error}", path.display()))
}

/// Gives a policy from an image the names that a folder has, as [`write_folder`] writes them. Numbers without a name keep the
/// one that they have.
///
/// # Errors
///
/// What the system says, or what is wrong in a file, with its name and line.
pub fn read_names(folder: &Path, policy: &mut Policy) -> io::Result<()> {
    each_line(&folder.join(SOURCES), |place, name| {
        let source = Source::from_atom(place as u32).ok_or("expected at most 32 sources")?;
        policy.rename_source(source, name).map_err(|error| error.to_string())
    })?;
    let mut seen = [false; 256];
    each_holder(folder, |number, name| {
        // Those that steps made are no part of the policy, and who takes a number again comes later.
        let first = !std::mem::replace(&mut seen[usize::from(number)], true);
        if !first || usize::from(number) >= policy.containers().len() {
            return Ok(());
        }
        policy.rename_container(number, name).map_err(|error| error.to_string())
    })?;
    each_line(&folder.join(USERS), |place, name| {
        let number = u8::try_from(place).map_err(|_| "expected at most 16 users")?;
        policy.rename_user(number, name).map_err(|error| error.to_string())
    })
}

/// The names of the sources that a folder has, in the order of their atoms.
///
/// # Errors
///
/// What the system says, or what is wrong in the file, with its name and line.
pub fn source_names(folder: &Path) -> io::Result<Vec<String>> {
    let mut names = Vec::new();
    each_line(&folder.join(SOURCES), |_, name| {
        names.push(name.to_string());
        Ok(())
    })?;
    Ok(names)
}

/// All containers that a folder names, of the policy or made by its steps, in the order in which they come.
///
/// # Errors
///
/// What the system says, or what is wrong in the file, with its name and line.
pub fn read_holders(folder: &Path) -> io::Result<Vec<Holder>> {
    let mut holders = Vec::new();
    each_holder(folder, |number, name| {
        holders.push(Holder::new(number, name));
        Ok(())
    })?;
    Ok(holders)
}

/// Hands on number and name of each container.
fn each_holder(folder: &Path, mut take: impl FnMut(u8, &str) -> Result<(), String>) -> io::Result<()> {
    each_line(&folder.join(CONTAINERS), |_, line| {
        let (number, name) = line.split_once(' ').ok_or("expected a number, a space and a name")?;
        let number: u8 = number.parse().map_err(|_| "expected a number from 0 to 255")?;
        take(number, name)
    })
}

/// Hands on each line with its place from 0.
fn each_line(path: &Path, mut take: impl FnMut(usize, &str) -> Result<(), String>) -> io::Result<()> {
    let text = fs::read_to_string(path).map_err(|error| named(path, &error.to_string()))?;
    for (place, line) in text.lines().enumerate() {
        let spelled = if line.contains(|c: char| c == '"' || c.is_control()) {
            Err("expected no double quote and no control character".into())
        } else {
            take(place, line)
        };
        spelled.map_err(|error| named(path, &format!("line {}: {error}", place + 1)))?;
    }
    Ok(())
}
