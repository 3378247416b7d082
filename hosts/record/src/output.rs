//! Files that this program writes: a link of another user that stands in their place is not followed.

use std::fs::{self, File, OpenOptions};
use std::io::{self, BufWriter, Write};
use std::os::unix::fs::{MetadataExt, OpenOptionsExt};
use std::path::Path;

use crate::event_list;
use crate::sys;

/// An error if a path, or a folder on the way to it, is a link of another user; one of the system's own is none.
pub fn refuse_link(path: &Path) -> io::Result<()> {
    let theirs = |path: &Path| {
        let found = fs::symlink_metadata(path);
        found.is_ok_and(|found| found.is_symlink() && found.uid() != 0 && found.uid() != sys::user())
    };
    match path.ancestors().any(theirs) {
        true => Err(io::Error::new(io::ErrorKind::PermissionDenied, "a link of another user, which is not followed")),
        false => Ok(()),
    }
}

/// A file to write, which is made or emptied.
pub fn create(path: &Path) -> io::Result<File> {
    refuse_link(path)?;
    // What was no link just now shall be none when it is opened.
    let is_link = fs::symlink_metadata(path).is_ok_and(|found| found.is_symlink());
    let flags = if is_link { 0 } else { libc::O_NOFOLLOW };
    OpenOptions::new().write(true).create(true).truncate(true).custom_flags(flags).open(path)
}

/// A file for an event list, whose first line is written.
pub fn event_list(path: &Path) -> io::Result<Box<dyn Write>> {
    let mut out = BufWriter::new(create(path)?);
    writeln!(out, "{}", event_list::HEADER)?;
    Ok(Box::new(out))
}
