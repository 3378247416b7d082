//! The guard: a change of a guarded file that the monitor answers `blocked` is refused before it is made.
//!
//! What is judged must be what is made. Where other tasks could change descriptors, names or memory meanwhile, they are stopped
//! from the judgement to the end of the call; names change one call at a time; calls that move descriptors and calls that use
//! them wait for each other. The task itself makes every call, with its own rights.

use std::collections::VecDeque;
use std::ffi::{CString, OsStr};
use std::fs;
use std::os::fd::OwnedFd;
use std::os::unix::ffi::{OsStrExt, OsStringExt};
use std::thread;
use std::time::{Duration, Instant};

use crate::event::{Event, ObjectId, TaskId, Way};
use crate::look::{self, Key, Seen};
use crate::meaning::{After, Then};
use crate::path;
use crate::resolve::{parts, path_of, LINK_LIMIT};
use crate::stops::Tracer;
use crate::sys::{self, Tid};
use crate::table::{self, Meaning};

/// How long other tasks may take to stop.
const PATIENCE: Duration = Duration::from_secs(2);

/// A truncation at an open of a guarded file, which waits for the first write.
pub struct Truncation {
    object: ObjectId,
    key: Key,
    descriptor: OwnedFd,
}

/// What a call that was let go on does with descriptors.
#[derive(Clone, Copy, Debug)]
pub enum Recent {
    Uses([u64; 3]),
    Moves { first: u64, last: u64 },
}

/// The descriptors that get another meaning by a call.
fn moved_descriptors(meaning: Meaning, arguments: &[u64; 6]) -> (u64, u64) {
    let low = |place: usize| arguments[place] & 0xffff_ffff;
    match meaning {
        Meaning::Duplicates => (low(1), low(1)),
        Meaning::ClosesRange => (low(0), low(1)),
        _ => (low(0), low(0)),
    }
}

/// A name in a folder.
struct Place {
    folder: (u64, u64),
    name: Vec<u8>,
    /// The same as a path that this program can follow.
    path: Vec<u8>,
}

/// A name on the way of a path, and what of the path is behind it.
struct Point {
    folder: (u64, u64),
    name: Vec<u8>,
    rest: Vec<u8>,
}

/// What a call makes of a name.
struct Change {
    place: Place,
    /// The path at which it is now; nothing if the name goes.
    becomes: Option<Vec<u8>>,
}

/// Device and inode at a path.
fn identity(path: &[u8]) -> Option<(u64, u64)> {
    let status = sys::status(&CString::new(path).ok()?, true).ok()?;
    Some((status.device, status.inode))
}

/// The folder and the name that a path of a task has.
fn place(task: Tid, folder: i32, address: u64) -> Option<Place> {
    let text = look::text(task, address)?;
    let end = text.iter().rposition(|byte| *byte != b'/').map_or(0, |place| place + 1);
    let text = &text[..end];
    let begin = text.iter().rposition(|byte| *byte == b'/').map_or(0, |place| place + 1);
    let (above, name) = text.split_at(begin);
    let above = path_of(task, folder, if above.is_empty() { b"." } else { above }, true);
    let path = [&above[..], b"/", name].concat();
    Some(Place { folder: identity(&above)?, name: name.to_vec(), path })
}

/// The names on the way of an absolute path, links followed.
fn points(path: &[u8]) -> Vec<Point> {
    let mut left: VecDeque<Vec<u8>> = parts(path).into();
    let (mut here, mut found, mut links) = (b"/".to_vec(), Vec::new(), 0);
    while let Some(name) = left.pop_front() {
        if name == b".." {
            here = path::split(&here).0.to_vec();
            continue;
        }
        let Some(folder) = identity(&here) else { break };
        let rest = left.iter().flat_map(|part| [b"/", &part[..]].concat()).collect();
        let next = [if here == b"/" { b"" } else { &here[..] }, b"/", &name].concat();
        found.push(Point { folder, name, rest });
        match fs::read_link(OsStr::from_bytes(&next)) {
            Ok(link) if links < LINK_LIMIT => {
                links += 1;
                let link = link.into_os_string().into_vec();
                if link.starts_with(b"/") {
                    here = b"/".to_vec();
                }
                parts(&link).into_iter().rev().for_each(|part| left.push_front(part));
            }
            _ => here = next,
        }
    }
    found
}

impl Tracer {
    /// How a call goes on that may change a guarded file; nothing if it is one like any other.
    pub fn guarded(&mut self, task: Tid, meaning: Meaning, arguments: &[u64; 6]) -> Option<Then> {
        let descriptor = |place: usize| arguments[place] as i32;
        match meaning {
            // Nobody can change its descriptor: it is looked at once, with what it stands for.
            Meaning::Writes(_) if self.is_alone(task) => None,
            Meaning::Writes(place) => self.guards_write(task, descriptor(place)),
            Meaning::Sends | Meaning::SendsMessages => self.guards_write(task, descriptor(0)),
            Meaning::Moves { to, .. } => self.guards_move(task, meaning, arguments, descriptor(to)),
            Meaning::ControlsDevice if table::control(arguments[1] as u32).clones() => {
                self.guards_move(task, meaning, arguments, descriptor(0))
            }
            Meaning::ControlsDevice if table::control(arguments[1] as u32) == table::Control::ChangesFile => {
                self.guards_write(task, descriptor(0))
            }
            Meaning::Truncates => {
                self.guards_write(task, descriptor(0)).map(|then| self.then_emptied(task, then, arguments))
            }
            Meaning::WritesAttribute(table::Way::Descriptor) | Meaning::Changes(table::Way::Descriptor) => {
                self.guards_write(task, descriptor(0))
            }
            Meaning::TruncatesPath => self.guards_path(task, table::Way::Path, arguments),
            Meaning::WritesAttribute(way) | Meaning::Changes(way) => self.guards_path(task, way, arguments),
            Meaning::Maps => self.guards_mapping(task, arguments),
            Meaning::Opens(at) => self.guards_open(task, at, arguments),
            Meaning::Reads(place) => {
                self.settle_truncation(task, descriptor(place));
                None
            }
            Meaning::WritesMemory | Meaning::Mounts => {
                self.tell("memory of other processes and mounts are not changed while files are guarded");
                Some(Then::Refuse(libc::EPERM))
            }
            _ if table::moves_descriptors(meaning) => Some(self.moves_descriptors(task, meaning, arguments)),
            _ => self.guards_names(task, meaning, arguments),
        }
    }

    /// The guarded object behind a descriptor.
    fn guarded_behind(&mut self, task: Tid, number: i32) -> Result<Option<ObjectId>, i32> {
        match look::descriptor(task, number) {
            Seen::Missing if !self.is_alone(task) => Err(libc::EBADF),
            Seen::Hidden => {
                self.tell_hidden(task);
                Err(libc::EPERM)
            }
            Seen::OfTask { task: other } if self.tasks.contains_key(&other) && !self.same_memory(task, other) => {
                Err(libc::EPERM)
            }
            Seen::Object(found) => Ok(self.known(&found.key).filter(|object| self.ledger.guards(*object))),
            _ => Ok(None),
        }
    }

    /// Whether two tasks have one memory.
    fn same_memory(&self, one: Tid, other: Tid) -> bool {
        let memory = |task: &Tid| self.tasks.get(task).map(|task| task.memory);
        memory(&one) == memory(&other)
    }

    /// A write to what may be a guarded file.
    pub fn guards_write(&mut self, task: Tid, number: i32) -> Option<Then> {
        if !self.is_alone(task) {
            let used = number as u64 & 0xffff_ffff;
            self.settle_others(
                task,
                |recent| matches!(recent, Recent::Moves { first, last } if (*first..=*last).contains(&used)),
            );
            self.wait_for(task, |call| table::moves_descriptors(call.meaning));
        }
        match self.guarded_behind(task, number) {
            Err(error) => return Some(Then::Refuse(error)),
            Ok(None) => return None,
            Ok(Some(_)) => {}
        }
        if !self.freeze(task) {
            return Some(self.not_judged(task));
        }
        // Now that nobody can change it: is it still the same?
        match self.guarded_behind(task, number) {
            Err(error) => Some(Then::Refuse(error)),
            Ok(None) => None,
            Ok(Some(object)) => Some(self.judged(task, object)),
        }
    }

    /// A call that cannot be judged is refused.
    fn not_judged(&mut self, task: Tid) -> Then {
        self.tell(format!("a call of process {task} is refused, since other tasks did not stop while it was judged"));
        Then::Refuse(libc::EPERM)
    }

    /// What a write of a task to a guarded object comes to. It goes on with the truncation that waits for it.
    fn judged(&mut self, task: Tid, object: ObjectId) -> Then {
        let waits = self.truncations.iter().any(|truncation| truncation.object == object);
        let blocked = match waits {
            true => self.emit(Event::Rewritten { task: task as TaskId, object }),
            false => self.moved(task, Way::Out, object),
        };
        if blocked {
            // The truncation is a part of the write.
            self.truncations.retain(|waiting| waiting.object != object);
            return Then::Refuse(libc::EPERM);
        }
        self.truncate(object);
        Then::Wait(After::Nothing)
    }

    /// Makes the truncations of an object that wait.
    fn truncate(&mut self, object: ObjectId) {
        let (now, later) =
            std::mem::take(&mut self.truncations).into_iter().partition(|waiting| waiting.object == object);
        self.truncations = later;
        let now: Vec<Truncation> = now;
        for truncation in now {
            if let Err(error) = fs::File::from(truncation.descriptor).set_len(0) {
                self.tell(format!("a guarded file was not truncated: {error}"));
            }
        }
    }

    /// A truncation by a descriptor was let through.
    fn then_emptied(&mut self, task: Tid, then: Then, arguments: &[u64; 6]) -> Then {
        match (then, look::descriptor(task, arguments[0] as i32)) {
            (Then::Wait(_), Seen::Object(found)) if arguments[1] == 0 => match self.known(&found.key) {
                Some(object) => Then::Wait(After::Truncate { object, since: self.ledger.events() }),
                None => Then::Wait(After::Nothing),
            },
            (then, _) => then,
        }
    }

    /// Data goes from a descriptor to what may be a guarded file: the process counts as holding them.
    fn guards_move(&mut self, task: Tid, meaning: Meaning, arguments: &[u64; 6], to: i32) -> Option<Then> {
        match self.guarded_behind(task, to) {
            Ok(None) if self.is_alone(task) => return None,
            Err(error) => return Some(Then::Refuse(error)),
            _ => {}
        }
        if !self.freeze(task) {
            return Some(self.not_judged(task));
        }
        let from = match meaning {
            Meaning::Moves { from, .. } => Some(arguments[from] as i32),
            _ if table::control(arguments[1] as u32) == table::Control::Clones => Some(arguments[2] as i32),
            _ => look::word(task, arguments[2]).map(|word| word as i32),
        };
        if let Ok(None) = self.guarded_behind(task, to) {
            return None;
        }
        if let Some(from) = from {
            self.takes_in(task, from);
        }
        self.guards_write(task, to)
    }

    /// The file that a path names, and a change of it. Nobody else changes names meanwhile.
    fn guards_path(&mut self, task: Tid, way: table::Way, arguments: &[u64; 6]) -> Option<Then> {
        if !self.freeze(task) {
            return Some(self.not_judged(task));
        }
        let (folder, address, follow) = match way {
            table::Way::At(flags) => {
                let flags = flags.map_or(0, |place| arguments[place] as i32);
                (arguments[0] as i32, arguments[1], flags & libc::AT_SYMLINK_NOFOLLOW == 0)
            }
            way => (libc::AT_FDCWD, arguments[0], way != table::Way::Link),
        };
        let seen = match address {
            0 => look::descriptor(task, folder),
            address => self.look_at(task, folder, address, follow),
        };
        match seen {
            Seen::Hidden => Some(Then::Refuse(libc::EPERM)),
            Seen::Object(found) => {
                let object = self.known(&found.key).filter(|object| self.ledger.guards(*object))?;
                Some(self.judged(task, object))
            }
            _ => None,
        }
    }

    /// A guarded file is not mapped to be written: what is put into the mapping later could not be stopped.
    fn guards_mapping(&mut self, task: Tid, arguments: &[u64; 6]) -> Option<Then> {
        let (flags, number) = (arguments[3] as i32, arguments[4] as i32);
        if flags & libc::MAP_SHARED == 0 || flags & libc::MAP_ANONYMOUS != 0 {
            return None;
        }
        if !self.is_alone(task) && !self.freeze(task) {
            return Some(self.not_judged(task));
        }
        let writable =
            look::descriptor_flags(task, number).map_or(true, |flags| flags & libc::O_ACCMODE == libc::O_RDWR);
        match self.guarded_behind(task, number) {
            Ok(Some(_)) if writable => {
                self.tell("a guarded file is not mapped to be written");
                Some(Then::Refuse(libc::EPERM))
            }
            Err(error) => Some(Then::Refuse(error)),
            _ => None,
        }
    }

    /// The truncation of an open is taken out: it is made at the end of the open, if the file is no guarded one, else with the first
    /// write.
    fn guards_open(&mut self, task: Tid, at: usize, arguments: &[u64; 6]) -> Option<Then> {
        let number = self.number;
        let flags = self.open_flags(task, at, arguments);
        if number == libc::SYS_openat2 && (flags & libc::O_TRUNC != 0 || !self.is_alone(task)) {
            // Its flags stand in memory; programs go on with the other calls.
            return Some(Then::Refuse(libc::ENOSYS));
        }
        if flags & libc::O_TRUNC == 0 || flags & libc::O_PATH != 0 {
            return None;
        }
        if flags & libc::O_ACCMODE == libc::O_RDONLY {
            self.tell("a file is not truncated by an open to read it while files are guarded");
            return Some(Then::Refuse(libc::EPERM));
        }
        let kept = (flags & !libc::O_TRUNC) as u64;
        let changed = sys::registers(task).and_then(|mut registers| {
            match number {
                libc::SYS_open => registers.rsi = kept,
                libc::SYS_openat => registers.rdx = kept,
                _ => {
                    registers.orig_rax = libc::SYS_open as u64;
                    (registers.rdx, registers.rsi) = (registers.rsi, kept);
                }
            }
            sys::set_registers(task, &registers)
        });
        match changed {
            Ok(()) => Some(self.opens_with(task, at, arguments, flags)),
            Err(_) => Some(Then::Refuse(libc::EPERM)),
        }
    }

    /// A file whose truncation was taken out of its open is open now.
    pub fn truncates_later(&mut self, task: Tid, number: i32, object: ObjectId, key: Key) {
        match sys::copy_descriptor(task, number) {
            Ok(descriptor) => {
                self.truncations.push(Truncation { object, key, descriptor });
                if !self.ledger.guards(object) {
                    let since = self.ledger.events();
                    self.truncate(object);
                    self.emptied(object, since);
                }
            }
            Err(error) => self.tell(format!("a file of process {task} was not truncated: {error}")),
        }
    }

    /// Makes the truncation that waits for a write, if a file is read before.
    fn settle_truncation(&mut self, task: Tid, number: i32) {
        if self.truncations.is_empty() {
            return;
        }
        if let Ok(Some(object)) = self.guarded_behind(task, number) {
            self.truncate_alone(task, object);
        }
    }

    /// A truncation without a write.
    fn truncate_alone(&mut self, task: Tid, object: ObjectId) {
        if !self.truncations.iter().any(|waiting| waiting.object == object) {
            return;
        }
        if self.emit(Event::Rewritten { task: task as TaskId, object }) {
            self.truncations.retain(|waiting| waiting.object != object);
        } else {
            self.truncate(object);
        }
    }

    /// Makes the truncations of files that nobody has open any more.
    pub fn truncate_unheld(&mut self, task: Tid) {
        let waiting: Vec<(ObjectId, Key)> =
            self.truncations.iter().map(|waiting| (waiting.object, waiting.key.clone())).collect();
        for (object, key) in waiting {
            if !self.tasks.keys().any(|other| look::writes_to(*other, &key)) {
                self.truncate_alone(task, object);
            }
        }
    }

    /// Calls that change names: what a guarded name would lead to is judged before.
    fn guards_names(&mut self, task: Tid, meaning: Meaning, arguments: &[u64; 6]) -> Option<Then> {
        let changes = |tracer: &mut Tracer| tracer.changes(task, meaning, arguments);
        if !matches!(
            meaning,
            Meaning::Renames(_)
                | Meaning::Links(_)
                | Meaning::Unlinks(_)
                | Meaning::MakesLink(_)
                | Meaning::MakesNode(_)
        ) {
            return None;
        }
        if !self.freeze(task) {
            return Some(self.not_judged(task));
        }
        let (how, changes) = changes(self)?;
        if self.cannot_succeed(meaning, arguments, &changes) {
            return Some(Then::Wait(After::Names(how)));
        }
        if self.links_blocked(task, meaning, &changes) {
            return Some(Then::Refuse(libc::EPERM));
        }
        for name in 0..self.names.len() {
            if self.names[name].guarded && self.name_blocked(task, how, name, &changes) {
                return Some(Then::Refuse(libc::EPERM));
            }
        }
        match meaning {
            Meaning::MakesLink(at) => Some(Then::Wait(After::Linked { at })),
            _ => Some(Then::Wait(After::Names(how))),
        }
    }

    /// Whether a call makes a name that is there, and does not replace it: it changes nothing. A folder may go meanwhile.
    fn cannot_succeed(&self, meaning: Meaning, arguments: &[u64; 6], changes: &[Change]) -> bool {
        let makes = match meaning {
            Meaning::Links(_) | Meaning::MakesLink(_) | Meaning::MakesNode(_) => true,
            Meaning::Renames(_) => {
                self.number == libc::SYS_renameat2 && arguments[4] & u64::from(libc::RENAME_NOREPLACE) != 0
            }
            _ => false,
        };
        let there = |change: &Change| {
            let found = CString::new(&change.place.path[..]).ok().and_then(|path| sys::status(&path, false).ok());
            found.is_some_and(|status| !status.is(sys::S_IFDIR))
        };
        makes && changes.first().is_some_and(there)
    }

    /// Whether a call that makes or takes away a further name of a guarded file must not: the file has the number of its names, and the
    /// time of their change.
    fn links_blocked(&mut self, task: Tid, meaning: Meaning, changes: &[Change]) -> bool {
        let paths: Vec<Vec<u8>> = match meaning {
            Meaning::MakesLink(_) => return false,
            Meaning::Links(_) => changes.iter().filter_map(|change| change.becomes.clone()).collect(),
            _ => changes.iter().map(|change| change.place.path.clone()).collect(),
        };
        paths.iter().any(|path| match look::at(task, path, false) {
            Seen::Object(found) => match self.known(&found.key).filter(|object| self.ledger.guards(*object)) {
                Some(object) => self.emit(Event::Added { task: task as TaskId, object }),
                None => false,
            },
            _ => false,
        })
    }

    /// The names that a call changes.
    fn changes(&mut self, task: Tid, meaning: Meaning, arguments: &[u64; 6]) -> Option<(&'static str, Vec<Change>)> {
        let at = |index: usize| match index {
            0 => place(task, libc::AT_FDCWD, arguments[0]),
            index => place(task, arguments[index - 1] as i32, arguments[index]),
        };
        // The second name stands behind the first one, with its folder if that has one.
        let second = |index: usize| if index == 0 { place(task, libc::AT_FDCWD, arguments[1]) } else { at(3) };
        let exchange = self.number == libc::SYS_renameat2 && arguments[4] & u64::from(libc::RENAME_EXCHANGE) != 0;
        Some(match meaning {
            Meaning::Renames(index) => {
                let (old, new) = (at(index)?, second(index)?);
                let (from, to) = (old.path.clone(), new.path.clone());
                let gone = Change { place: old, becomes: exchange.then_some(to) };
                ("a rename", vec![Change { place: new, becomes: Some(from) }, gone])
            }
            Meaning::Links(index) => {
                let old = if index == 0 { at(0)?.path } else { self.linked(task, arguments)? };
                ("a link", vec![Change { place: second(index)?, becomes: Some(old) }])
            }
            Meaning::MakesLink(index) => {
                let new = if index == 1 { place(task, libc::AT_FDCWD, arguments[1])? } else { at(2)? };
                let folder = new.path[..new.path.len() - new.name.len()].to_vec();
                let target = look::text(task, arguments[0])?;
                let target = if target.starts_with(b"/") { target } else { [folder, target].concat() };
                ("a symbolic link", vec![Change { place: new, becomes: Some(target) }])
            }
            Meaning::Unlinks(index) => ("a removal", vec![Change { place: at(index)?, becomes: None }]),
            Meaning::MakesNode(index) => ("a new file", vec![Change { place: at(index)?, becomes: None }]),
            _ => return None,
        })
    }

    /// What a `linkat` links: a path, or a descriptor's file if the path is empty.
    fn linked(&self, task: Tid, arguments: &[u64; 6]) -> Option<Vec<u8>> {
        Some(path_of(
            task,
            arguments[0] as i32,
            &look::text(task, arguments[1])?,
            arguments[4] as i32 & libc::AT_SYMLINK_FOLLOW != 0,
        ))
    }

    /// Whether a name of the story must not lead to what it would lead to.
    fn name_blocked(&mut self, task: Tid, how: &str, name: usize, changes: &[Change]) -> bool {
        let path = self.names[name].path.clone();
        let hit = points(&path).into_iter().find_map(|point| {
            let change =
                changes.iter().find(|change| change.place.folder == point.folder && change.place.name == point.name)?;
            Some((change, point.rest))
        });
        let Some((change, rest)) = hit else { return false };
        let becomes = match &change.becomes {
            Some(becomes) => look::at(task, &[&becomes[..], &rest].concat(), true),
            None => Seen::Missing,
        };
        let found = match becomes {
            Seen::Object(found) => Some(found),
            _ => None,
        };
        let key = found.as_ref().map(|found| found.key.clone());
        if key == self.names[name].key {
            return false;
        }
        if let Some(object) = self.ledger.at_name(&path) {
            if self.emit(Event::Added { task: task as TaskId, object }) {
                return true;
            }
        }
        let Some(found) = found else { return false };
        let object = Some(self.object(&found, || change.place.path.clone()));
        let blocked = self.emit(Event::Name { task: Some(task as TaskId), how: how.into(), path, object });
        if !blocked {
            self.names[name].key = key;
        }
        blocked
    }

    /// A descriptor gets another meaning: calls that are judged by it are behind their look at it first.
    fn moves_descriptors(&mut self, task: Tid, meaning: Meaning, arguments: &[u64; 6]) -> Then {
        if !self.is_alone(task) {
            let (first, last) = moved_descriptors(meaning, arguments);
            let within = |number: &u64| (first..=last).contains(&(number & 0xffff_ffff));
            self.settle_others(task, |recent| matches!(recent, Recent::Uses(numbers) if numbers.iter().any(within)));
            self.wait_for(task, |call| call.arguments.iter().any(within));
        }
        match self.truncations.is_empty() {
            true => Then::Free,
            false => Then::Wait(After::Closed),
        }
    }

    /// Notes what a call that goes on does with descriptors.
    pub fn note_descriptors(&mut self, task: Tid, meaning: Option<Meaning>, arguments: &[u64; 6]) {
        let recent = meaning.and_then(|meaning| {
            if table::moves_descriptors(meaning) {
                let (first, last) = moved_descriptors(meaning, arguments);
                return Some(Recent::Moves { first, last });
            }
            let low = |place: usize| arguments[place] & 0xffff_ffff;
            table::changes_by_descriptor(meaning).then(|| Recent::Uses([low(0), low(2), low(4)]))
        });
        if let Some(found) = self.tasks.get_mut(&task) {
            found.recent = recent;
        }
    }

    /// Stops other tasks whose last call may not have looked at its descriptors yet: it has then.
    fn settle_others(&mut self, task: Tid, matters: impl Fn(&Recent) -> bool) {
        let others = self
            .tasks
            .iter()
            .filter(|(tid, other)| **tid != task && other.running && other.recent.as_ref().is_some_and(&matters));
        let others: Vec<Tid> = others.map(|(tid, _)| *tid).collect();
        for other in others {
            // One that is just gone is told by its stop.
            let _ = sys::interrupt(other);
            let begun = Instant::now();
            while !self.take_stop(other) && begun.elapsed() < PATIENCE {
                thread::yield_now();
            }
        }
    }

    /// Waits until calls of other tasks on the same memory have ended or sleep in the kernel, behind their look at the descriptor.
    fn wait_for(&mut self, task: Tid, matters: impl Fn(&crate::meaning::Call) -> bool) {
        let memory = self.tasks.get(&task).map(|task| task.memory);
        let in_call = |other: &crate::stops::Task| other.running && other.call.as_ref().is_some_and(&matters);
        let others =
            self.tasks.iter().filter(|(tid, other)| **tid != task && Some(other.memory) == memory && in_call(other));
        let others: Vec<Tid> = others.map(|(tid, _)| *tid).collect();
        for other in others {
            let begun = Instant::now();
            while !look::sleeps(other) && !self.take_stop(other) && begun.elapsed() < PATIENCE {
                thread::yield_now();
            }
        }
    }

    /// Takes up the stop of a task, if it has come to one.
    fn take_stop(&mut self, task: Tid) -> bool {
        match sys::poll(task) {
            Ok(Some(stop)) => {
                if let Some(found) = self.tasks.get_mut(&task) {
                    found.running = false;
                }
                self.queue.push_back((task, stop));
                true
            }
            _ => false,
        }
    }

    /// Stops all other tasks until the call of this one is over. Whether they have stopped.
    fn freeze(&mut self, task: Tid) -> bool {
        if self.frozen == Some(task) {
            return true;
        }
        if self.is_alone(task) {
            // Nobody can change its memory or descriptors, and names change one call at a time.
            return true;
        }
        self.frozen = Some(task);
        let running = |tracer: &Tracer| -> Vec<Tid> {
            let tasks =
                tracer.tasks.iter().filter(|(tid, other)| **tid != task && other.running && other.vfork.is_none());
            tasks.map(|(tid, _)| *tid).collect()
        };
        for other in running(self) {
            // One that is just gone is told by its stop.
            let _ = sys::interrupt(other);
        }
        let begun = Instant::now();
        loop {
            let left = running(self);
            if left.is_empty() {
                return true;
            }
            let stopped = left.into_iter().filter(|other| self.take_stop(*other)).count();
            if stopped == 0 && begun.elapsed() > PATIENCE {
                return false;
            }
            thread::yield_now();
        }
    }

    /// The other tasks go on: their stops are taken up now.
    pub fn thaw(&mut self, task: Tid) {
        if self.frozen == Some(task) {
            self.frozen = None;
        }
    }
}
