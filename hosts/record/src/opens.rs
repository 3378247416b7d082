//! Calls that go by a path, or name a file in another way: opens, program starts, links, attributes.

use crate::event::{Event, ObjectId, TaskId};
use crate::look::{self, Seen};
use crate::meaning::{After, Target, Then};
use crate::path;
use crate::resolve::path_of;
use crate::stops::{Task, Tracer};
use crate::sys::Tid;
use crate::table;

/// An open that can make or empty a file.
pub struct Opening {
    pub flags: i32,
    /// Whether there was no file at the path, and how often names had changed then.
    pub new_at: Option<u64>,
    /// The number of events then.
    pub events: usize,
}

impl Tracer {
    /// The file that a call names in one way or another.
    pub fn named_file(&mut self, task: Tid, way: table::Way, arguments: &[u64; 6]) -> Target {
        let seen = match way {
            table::Way::Path => self.look_at(task, libc::AT_FDCWD, arguments[0], true),
            table::Way::Link => self.look_at(task, libc::AT_FDCWD, arguments[0], false),
            table::Way::Descriptor => self.look(task, arguments[0] as i32),
            table::Way::At(flags) => {
                let flags = flags.map_or(0, |place| arguments[place] as i32);
                let follow = flags & libc::AT_SYMLINK_NOFOLLOW == 0;
                match arguments[1] {
                    0 => self.look(task, arguments[0] as i32),
                    address => self.look_at(task, arguments[0] as i32, address, follow),
                }
            }
        };
        let name = self.file_name(task, way, arguments);
        self.seen(task, seen, |_| name)
    }

    /// The name of the file that a call names, for people.
    pub fn file_name(&self, task: Tid, way: table::Way, arguments: &[u64; 6]) -> Vec<u8> {
        let text = |folder, address| look::shown(task, folder, &look::text(task, address).unwrap_or_default());
        match way {
            table::Way::Descriptor => look::descriptor_name(task, arguments[0] as i32),
            table::Way::Path | table::Way::Link => text(libc::AT_FDCWD, arguments[0]),
            table::Way::At(_) => text(arguments[0] as i32, arguments[1]),
        }
    }

    /// A call reads something of the file that it names.
    pub fn reads_file(&mut self, task: Tid, way: table::Way, arguments: &[u64; 6]) -> Then {
        match self.named_file(task, way, arguments) {
            Target::Objects(objects) if !objects.is_empty() => Then::Wait(After::Read(objects)),
            _ => Then::Free,
        }
    }

    /// A call adds something to the file that it names.
    pub fn adds_to_file(&mut self, task: Tid, way: table::Way, arguments: &[u64; 6]) -> Then {
        if let Target::Objects(objects) = self.named_file(task, way, arguments) {
            for object in objects {
                self.emit(Event::Added { task: task as TaskId, object });
            }
        }
        Then::Free
    }

    /// Where a symbolic link leads is a text: it is followed for links that were made in the run.
    pub fn linked_to(&mut self, task: Tid, at: usize, arguments: &[u64; 6]) {
        let folder = if at == 1 { libc::AT_FDCWD } else { arguments[1] as i32 };
        if let Seen::Object(found) = self.look_at(task, folder, arguments[at], false) {
            let object = self.object(&found, || b"a symbolic link".to_vec());
            self.links += 1;
            self.emit(Event::Added { task: task as TaskId, object });
        }
    }

    /// A call asks where a link leads.
    pub fn reads_link(&mut self, task: Tid, way: table::Way, arguments: &[u64; 6]) -> Then {
        if self.links == 0 {
            return Then::Free;
        }
        let seen = match way {
            table::Way::Link => self.look_at(task, libc::AT_FDCWD, arguments[0], false),
            _ => self.look_at(task, arguments[0] as i32, arguments[1], false),
        };
        match seen {
            Seen::Object(found) => match self.known(&found.key) {
                Some(object) => Then::Wait(After::Read(vec![object])),
                None => Then::Free,
            },
            _ => Then::Free,
        }
    }

    /// The flags of an open.
    pub fn open_flags(&self, task: Tid, at: usize, arguments: &[u64; 6]) -> i32 {
        match self.number {
            libc::SYS_creat => libc::O_CREAT | libc::O_WRONLY | libc::O_TRUNC,
            libc::SYS_openat2 => {
                look::word(task, arguments[2]).map_or(libc::O_CREAT | libc::O_TRUNC, |flags| flags as i32)
            }
            _ => arguments[at + 1] as i32,
        }
    }

    /// An open that can make or empty a file.
    pub fn opens_with(&mut self, task: Tid, at: usize, arguments: &[u64; 6], flags: i32) -> Then {
        if flags & (libc::O_CREAT | libc::O_TRUNC | libc::O_TMPFILE & !libc::O_DIRECTORY) == 0 {
            return Then::Free;
        }
        let folder = if at == 0 { libc::AT_FDCWD } else { arguments[0] as i32 };
        let seen = self.look_at(task, folder, arguments[at], true);
        let new_at = (flags & libc::O_CREAT != 0 && matches!(seen, Seen::Missing)).then_some(self.changes);
        Then::Wait(After::Open(Opening { flags, new_at, events: self.ledger.events() }))
    }

    /// A file was opened that may be new, or empty now.
    pub fn opened(&mut self, task: Tid, opening: &Opening, number: i32) {
        let Seen::Object(found) = self.look(task, number) else { return };
        let surely_new = opening.flags & libc::O_CREAT != 0 && opening.flags & libc::O_EXCL != 0
            || opening.flags & libc::O_TMPFILE == libc::O_TMPFILE;
        let new = surely_new || opening.new_at == Some(self.changes) && self.ledger.events() == opening.events;
        if new && self.known(&found.key).is_some() {
            // The file system has given the number of a file that is gone to a new one.
            self.new_object(&found, &look::descriptor_name(task, number));
        }
        if new || opening.new_at.is_some() {
            self.check_names(Some(task), "a new file");
        }
        if opening.flags & libc::O_TRUNC != 0 && opening.flags & libc::O_PATH == 0 && found.plain {
            let object = self.object(&found, || look::descriptor_name(task, number));
            if self.guard {
                self.truncates_later(task, number, object, found.key);
            } else {
                self.emptied(object, opening.events);
            }
        }
    }

    /// A file was truncated by a call that has begun behind an event. If somebody has written to it since then, or may just do so, it may
    /// have that still.
    pub fn emptied(&mut self, object: ObjectId, since: usize) {
        let writes =
            |(task, found): (&Tid, &Task)| found.writes == Some(object) && look::may_be_in(*task, &look::WRITES);
        if !self.ledger.written_since(object, since) && !self.tasks.iter().any(writes) {
            self.emit(Event::Emptied { object });
        }
    }

    /// A call truncates what was found.
    pub fn truncates(&mut self, task: Tid, seen: Seen, length: u64) -> Then {
        match self.seen(task, seen, |_| b"a file".to_vec()) {
            Target::Objects(objects) if length == 0 => match objects.first() {
                Some(object) => Then::Wait(After::Truncate { object: *object, since: self.ledger.events() }),
                None => Then::Free,
            },
            _ => Then::Free,
        }
    }

    /// A program start begins.
    pub fn executes(&mut self, task: Tid, at: usize, arguments: &[u64; 6]) -> Then {
        let folder = if at == 0 { libc::AT_FDCWD } else { arguments[0] as i32 };
        let text = look::text(task, arguments[at]).unwrap_or_default();
        let seen = look::at(task, &path_of(task, folder, &text, true), true);
        let name = match text.is_empty() {
            true => path::shown(path::split(&look::shown(task, folder, &text)).1),
            false => path::shown(path::split(&text).1),
        };
        let program = match self.seen(task, seen, |_| look::shown(task, folder, &text)) {
            Target::Objects(objects) => objects.first().copied(),
            _ => None,
        };
        Then::Wait(After::Executes { program, name })
    }
}
