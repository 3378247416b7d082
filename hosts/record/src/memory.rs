//! Memory: mappings, pages that stay in pipes and sockets, and what goes between the memories of tasks.

use crate::event::{Event, Flow, ObjectId, TaskId, Way};
use crate::look::{self, Found, Key};
use crate::meaning::{own, After, Target, Then};
use crate::stops::Tracer;
use crate::sys::Tid;

impl Tracer {
    /// Pages that are sent without a copy: what is put into them later may go along.
    pub fn keeps_pages(&mut self, task: Tid, number: i32, flags: u64, address: Option<&[u8]>) {
        if flags as i32 & libc::MSG_ZEROCOPY == 0 {
            return;
        }
        if let Target::Objects(objects) = self.target(task, number, Way::Out, address) {
            objects.into_iter().for_each(|object| self.map(task, object, true));
        }
    }

    /// A task brings what it holds to objects: where one of them gets more, and that comes where it is not followed, it is told.
    pub fn tell_if_more(&mut self, task: Tid, objects: &[ObjectId]) {
        for object in objects {
            let flow = Flow { way: Way::Out, object: *object };
            if self.ledger.would_change(task as TaskId, flow) {
                self.tell_elsewhere(*object);
            }
        }
    }

    /// Tells that what is written to an object comes where it is not followed: into a pipe that has the file's pages, or to whoever
    /// asks for a value of the system in another way.
    pub fn tell_elsewhere(&mut self, object: ObjectId) {
        if self.spliced.contains(&object) {
            self.tell("a file is written whose pages may be in a pipe or on their way to a socket");
        }
        if self.system.contains(&object) {
            self.tell("a value of the system is set, which can be asked for in other ways");
        }
    }

    /// Pages of the memory stay in the pipe, and pages of the pipe come into the memory: what is put into them later goes along.
    pub fn begins_splice(&mut self, task: Tid, number: i32) -> Then {
        if !self.ledger.mapped_by(task as TaskId).is_empty() {
            self.tell("pages of memory that others may share are put into a pipe");
        }
        if let Target::Objects(objects) = self.target(task, number, Way::Out, None) {
            for object in objects {
                self.map(task, object, true);
            }
        }
        Then::Free
    }

    /// An object is mapped into the memory of a task.
    pub fn map(&mut self, task: Tid, object: ObjectId, writable: bool) {
        if writable {
            self.tell_elsewhere(object);
        }
        self.emit(Event::Mapped { task: task as TaskId, object, writable });
    }

    /// A pipe or socket keeps pages of a file: what is written to the file later is there too.
    pub fn keeps_file(&mut self, task: Tid, from: &[ObjectId], to: &[ObjectId]) {
        from.iter().for_each(|object| self.map(task, *object, false));
        if to.iter().all(|object| self.is_plain(*object)) {
            return;
        }
        let files: Vec<ObjectId> = from.iter().copied().filter(|object| self.is_plain(*object)).collect();
        if files.iter().any(|object| self.ledger.is_mapped_to_write(*object)) {
            self.tell("pages of a file that is mapped to be written are put into a pipe or sent");
        }
        self.spliced.extend(files);
    }

    /// Data goes between the memory of a task and those that a number stands for.
    pub fn passes_to(&mut self, task: Tid, number: i32, way: Way) -> Then {
        if number == own() && way == Way::Out && look::numbering(task) == look::numbering(own()) {
            return self.refuse_own(task);
        }
        let others = self.numbered(task, number);
        self.passes(task, &others, way)
    }

    /// The tasks that a number stands for in the name space of a task: as a rule one.
    pub fn numbered(&mut self, task: Tid, number: i32) -> Vec<Tid> {
        if look::numbering(task) == look::numbering(own()) {
            return vec![number];
        }
        let depth = look::numbers_of(task).len();
        let is = |other: &Tid| depth > 0 && look::numbers_of(*other).get(depth - 1) == Some(&number);
        let found: Vec<Tid> = self.tasks.keys().copied().filter(is).collect();
        if found.is_empty() {
            self.tell("memory of a process that is not known by its number");
        }
        found
    }

    /// Data goes between the memories of tasks: at the beginning of the call, and again at its end.
    pub fn passes(&mut self, task: Tid, others: &[Tid], way: Way) -> Then {
        others.iter().for_each(|other| self.pass(task, *other, way));
        Then::Wait(After::Pass { others: others.to_vec(), way })
    }

    /// Data goes through an object between the memories of two tasks.
    pub fn pass(&mut self, task: Tid, other: Tid, way: Way) {
        let Some(memory) = self.tasks.get(&other).map(|other| other.memory) else { return };
        let object =
            self.object(&Found::passing(Key::Memory(other)), || format!("memory of process {other}").into_bytes());
        let (from, to) = if way == Way::In { (other, task) } else { (task, other) };
        if way == Way::In {
            self.takes_in_under_way(memory);
        }
        self.moved(from, Way::Out, object);
        self.moved(to, Way::In, object);
    }

    /// What calls under way have brought into a memory so far counts, before others look into it.
    pub fn takes_in_under_way(&mut self, memory: usize) {
        let reads = self.tasks.iter().filter(|(_, task)| task.memory == memory).filter_map(|(tid, task)| {
            let objects = match &task.call.as_ref()?.after {
                After::Read(objects) => objects.clone(),
                After::Move { from, .. } => from.clone(),
                _ => return None,
            };
            Some((*tid, objects))
        });
        let reads: Vec<(Tid, Vec<ObjectId>)> = reads.collect();
        for (task, objects) in reads {
            self.moved_all(task, Way::In, &objects);
        }
        let receives =
            self.tasks.iter().filter(|(_, task)| task.memory == memory).filter_map(|(tid, task)| {
                match task.call.as_ref()?.after {
                    After::Receive { socket, .. } => Some((*tid, socket)),
                    _ => None,
                }
            });
        let receives: Vec<(Tid, i32)> = receives.collect();
        receives.into_iter().for_each(|(task, socket)| self.takes_in(task, socket));
    }

    /// A mapping is a read, whatever its protection, and a shared one a write too, until the memory ends.
    pub fn begins_mapping(&mut self, task: Tid, arguments: &[u64; 6]) -> Then {
        let (flags, number) = (arguments[3] as i32, arguments[4] as i32);
        let shared = flags & libc::MAP_SHARED != 0;
        let target = match flags & libc::MAP_ANONYMOUS != 0 {
            true => Target::Objects(Vec::new()),
            false => self.target(task, number, Way::In, None),
        };
        if shared {
            self.share(task);
        }
        match target {
            // Memory that children share, also by the device of zeros.
            Target::Objects(objects) if objects.is_empty() && shared => {
                self.anonymous += 1;
                let found = Found::passing(Key::Anonymous(self.anonymous));
                let object = self.object(&found, || b"shared memory".to_vec());
                self.map(task, object, true);
                return Then::Wait(After::Shared(object));
            }
            Target::Objects(objects) => {
                let write = |flags: i32| flags & libc::O_ACCMODE == libc::O_RDWR;
                let writable = shared && look::descriptor_flags(task, number).map_or(true, write);
                objects.into_iter().for_each(|object| self.map(task, object, writable));
            }
            Target::Memory(other) => return self.passes(task, &[other], Way::In),
            Target::Missing | Target::Hidden | Target::Open => {}
        }
        Then::Free
    }

    /// Shared mappings that a task has taken away meanwhile are over before it takes in more.
    pub fn settle_mappings(&mut self, task: Tid) {
        let shared = self.tasks.get(&task).and_then(|task| self.memories.get(&task.memory)).is_some_and(|m| m.shared);
        if !shared {
            return;
        }
        for object in self.ledger.mapped_by(task as TaskId) {
            let key = self.key_of(object);
            if key.is_some_and(|key| !look::maps_shared(task, &key)) {
                self.emit(Event::Unmapped { task: task as TaskId, object });
            }
        }
    }
}
