//! What files hold beside their own source, kept from one run to the next: a line `holds DEVICE INODE BIRTH SOURCE PATH` for each file
//! and source, texts as in an event list, without spaces in the source.

use std::collections::{BTreeMap, BTreeSet};
use std::fs;
use std::io::{self, BufWriter, Write};
use std::path::Path;

use crate::event_list::{escaped, unescaped};
use crate::look::{self, Key, Seen};
use crate::output;

/// A file's identity and path, as ordered numbers.
#[derive(Clone, Debug, PartialEq, Eq, PartialOrd, Ord)]
pub struct Holder {
    pub device: u64,
    pub inode: u64,
    pub birth: u64,
}

impl Holder {
    /// The identity of a file, if it is one.
    pub fn of(key: &Key) -> Option<Holder> {
        match key {
            Key::Inode { device, inode, birth } => Some(Holder { device: *device, inode: *inode, birth: *birth }),
            _ => None,
        }
    }
}

/// The sources that files hold, by their names, and the path of each.
#[derive(Clone, Debug, Default)]
pub struct State {
    pub files: BTreeMap<Holder, (Vec<u8>, BTreeSet<String>)>,
}

/// The first line of the file.
const HEADER: &str = "state of record, form 1";

impl State {
    /// Reads a state; one that is not there is empty.
    pub fn read(path: &Path) -> io::Result<State> {
        output::refuse_link(path)?;
        let text = match fs::read_to_string(path) {
            Ok(text) => text,
            Err(error) if error.kind() == io::ErrorKind::NotFound => return Ok(State::default()),
            Err(error) => return Err(error),
        };
        let wrong = |line: usize| {
            io::Error::new(io::ErrorKind::InvalidData, format!("line {line} is none of a state of record"))
        };
        let mut state = State::default();
        for (place, line) in text.lines().enumerate() {
            if place == 0 && line == HEADER {
                continue;
            }
            state.take(line).filter(|()| place > 0).ok_or_else(|| wrong(place + 1))?;
        }
        Ok(state)
    }

    /// Takes up a line.
    fn take(&mut self, line: &str) -> Option<()> {
        let fields: Vec<&str> = line.splitn(6, ' ').collect();
        let ["holds", device, inode, birth, source, path] = fields[..] else { return None };
        let holder = Holder { device: device.parse().ok()?, inode: inode.parse().ok()?, birth: birth.parse().ok()? };
        let source = String::from_utf8(unescaped(source)?).ok()?;
        let file = self.files.entry(holder).or_default();
        file.0 = unescaped(path)?;
        file.1.insert(source);
        Some(())
    }

    /// Writes the state in the place of what was there, without files that are gone.
    pub fn write(&self, path: &Path) -> io::Result<()> {
        let mut out = BufWriter::new(output::create(path)?);
        writeln!(out, "{HEADER}")?;
        for (holder, (file, sources)) in &self.files {
            let there = match look::at(0, file, false) {
                Seen::Object(found) => Holder::of(&found.key).as_ref() == Some(holder),
                _ => false,
            };
            for source in sources.iter().filter(|_| there) {
                let source = escaped(source.as_bytes()).replace(' ', "\\20");
                writeln!(out, "holds {} {} {} {source} {}", holder.device, holder.inode, holder.birth, escaped(file))?;
            }
        }
        out.flush()
    }
}
