//! Paths of a task as this program can follow them. Links on the way are followed as the task would follow them: absolute ones from the
//! task's root, and `self` below `/proc` to the task's own folder.

use std::collections::VecDeque;
use std::ffi::{CString, OsStr};
use std::fs;
use std::os::unix::ffi::{OsStrExt, OsStringExt};

use crate::look::{self, Mount};
use crate::sys::{self, Tid};

/// How many links are followed, as in the kernel.
pub const LINK_LIMIT: usize = 40;

/// A link on the way.
enum Link {
    /// It leads where its text says.
    Text(Vec<u8>),
    /// It leads to an object itself, such as that of a descriptor below `/proc`.
    Object,
}

/// The names in a path, without those that lead nowhere else.
pub fn parts(path: &[u8]) -> Vec<Vec<u8>> {
    let names = path.split(|byte| *byte == b'/').filter(|part| !part.is_empty() && *part != b".");
    names.map(<[u8]>::to_vec).collect()
}

/// The number of a task's process as a mount of `/proc` writes it.
fn own_number(task: Tid, own: bool) -> Vec<u8> {
    let number = match own {
        true => Some(sys::process_of(task)),
        false => look::numbers_of(task).last().copied(),
    };
    number.unwrap_or(task).to_string().into_bytes()
}

/// Where a name in a folder leads for a task, if it is a link.
fn link(task: Tid, folder: &[u8], name: &[u8], path: &[u8]) -> Option<Link> {
    let text = fs::read_link(OsStr::from_bytes(path)).ok()?.into_os_string().into_vec();
    let folder = CString::new(folder).ok()?;
    let status = sys::status(&folder, true).ok()?;
    let mount = look::mount(&folder, status.device);
    Some(match (mount, name) {
        (Mount::Plain, _) => Link::Text(text),
        (mount, b"self") => Link::Text(own_number(task, mount == Mount::Processes)),
        (mount, b"thread-self") => {
            let own = mount == Mount::Processes;
            let thread = if own { Some(task) } else { look::numbers_of(task).last().copied() };
            let thread = thread.unwrap_or(task).to_string().into_bytes();
            Link::Text([&own_number(task, own)[..], b"/task/", &thread].concat())
        }
        _ if status.inode == look::PROCESSES_ROOT => Link::Text(text),
        _ => Link::Object,
    })
}

/// A path on its way: what it begins with, and the names behind that.
struct Walk {
    root: Vec<u8>,
    start: Vec<u8>,
    /// Each with whether it is a link to an object.
    names: Vec<(Vec<u8>, bool)>,
}

impl Walk {
    /// The path so far.
    fn path(&self) -> Vec<u8> {
        self.names.iter().fold(self.start.clone(), |path, (name, _)| [&path[..], b"/", name].concat())
    }

    /// One folder up; nothing is above the root.
    fn up(&mut self) {
        match self.names.last() {
            Some((name, false)) if name != b".." => drop(self.names.pop()),
            None if self.start == self.root => {}
            _ => self.names.push((b"..".to_vec(), false)),
        }
    }
}

/// A path of a task, with its last link followed or not. `folder` is a descriptor or `AT_FDCWD`.
pub fn path_of(task: Tid, folder: i32, name: &[u8], follow: bool) -> Vec<u8> {
    let root = format!("/proc/{task}/root").into_bytes();
    let start = match (name.first(), folder) {
        (Some(b'/'), _) => root.clone(),
        (_, libc::AT_FDCWD) => format!("/proc/{task}/cwd").into_bytes(),
        (_, folder) => look::descriptor_path(task, folder).into_bytes(),
    };
    let follow = follow || name.ends_with(b"/");
    let (mut walk, mut left, mut links) = (Walk { root, start, names: Vec::new() }, VecDeque::from(parts(name)), 0);
    while let Some(name) = left.pop_front() {
        if name == b".." {
            walk.up();
            continue;
        }
        let here = walk.path();
        let asked = follow || !left.is_empty();
        let found = if asked && links < LINK_LIMIT {
            link(task, &here, &name, &[&here[..], b"/", &name].concat())
        } else {
            None
        };
        match found {
            Some(Link::Text(text)) => {
                links += 1;
                if text.starts_with(b"/") {
                    walk = Walk { start: walk.root.clone(), root: walk.root, names: Vec::new() };
                }
                parts(&text).into_iter().rev().for_each(|part| left.push_front(part));
            }
            Some(Link::Object) => walk.names.push((name, true)),
            None => walk.names.push((name, false)),
        }
    }
    walk.path()
}
