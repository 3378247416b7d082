//! What calls mean, by number: what moves at their beginning, and what is left to be done at their end.

use std::sync::OnceLock;

use crate::event::{ObjectId, TaskId, Way};
use crate::files::Sort;
use crate::look::{self, Found, Key, Seen};
use crate::numbers;
use crate::opens::Opening;
use crate::resolve::path_of;
use crate::sockets::Ends;
use crate::stops::Tracer;
use crate::sys::{self, CallInfo, Tid, AUDIT_ARCH_X86_64};
use crate::table::{self, Meaning};

/// A call whose end is waited for.
pub struct Call {
    pub meaning: Meaning,
    pub arguments: [u64; 6],
    pub after: After,
}

/// What is left to be done at the end of a call.
pub enum After {
    Nothing,
    /// These have been read, if anything was.
    Read(Vec<ObjectId>),
    /// A socket is asked again: it may have got another side.
    Receive {
        socket: i32,
        begun: bool,
    },
    Send {
        socket: i32,
    },
    /// Data has gone from these to those, if any was there.
    Move {
        from: Vec<ObjectId>,
        to: Vec<ObjectId>,
    },
    /// Memory of another task has been read or written.
    Pass {
        others: Vec<Tid>,
        way: Way,
    },
    /// Memory that others can have too was mapped or attached.
    Shared(ObjectId),
    Open(Opening),
    Names(&'static str),
    /// A symbolic link was made at the path at this place of the arguments.
    Linked {
        at: usize,
    },
    /// A file has no bytes any more, if nobody has written to it since that event.
    Truncate {
        object: ObjectId,
        since: usize,
    },
    Closed,
    Addressed {
        socket: i32,
        address: Vec<u8>,
        binds: bool,
    },
    Accepted,
    Paired(u64),
    Executes {
        program: Option<ObjectId>,
        name: String,
    },
}

/// How a stopped call goes on.
pub enum Then {
    Free,
    Refuse(i32),
    Wait(After),
}

/// What was found for an argument.
pub enum Target {
    Objects(Vec<ObjectId>),
    Missing,
    /// The memory of another task.
    Memory(Tid),
    /// It cannot be looked at, which is told.
    Hidden,
    /// A socket that has no other side yet.
    Open,
}

/// How names change by a mount.
pub const MOUNT: &str = "a mount";

/// What calls mean, by number.
fn meanings() -> &'static [Option<Meaning>] {
    static MEANINGS: OnceLock<Vec<Option<Meaning>>> = OnceLock::new();
    MEANINGS.get_or_init(|| {
        let mut all = vec![None; numbers::END];
        for (name, number) in numbers::CALLS {
            all[*number as usize] = table::meaning(name);
        }
        all
    })
}

/// What a call means; nothing if the table does not have it.
pub fn of(info: &CallInfo) -> Option<Meaning> {
    if info.architecture != AUDIT_ARCH_X86_64 {
        return None;
    }
    meanings().get(usize::try_from(info.number).ok()?).copied().flatten()
}

/// Whether a call is a program start.
pub fn is_exec(info: &CallInfo) -> bool {
    matches!(of(info), Some(Meaning::Executes(_)))
}

/// Whether a call changes names. While files are guarded, those that go by a path and change a file wait for these too.
pub fn changes_names(meaning: Option<Meaning>, guard: bool) -> bool {
    let changes = |meaning| match meaning {
        Meaning::Renames(_) | Meaning::Links(_) | Meaning::Unlinks(_) | Meaning::MakesLink(_) | Meaning::Mounts => true,
        Meaning::TruncatesPath | Meaning::MakesNode(_) => guard,
        Meaning::WritesAttribute(way) | Meaning::Changes(way) => guard && way != table::Way::Descriptor,
        _ => false,
    };
    meaning.is_some_and(changes)
}

/// A call that is in no table, in words.
pub fn not_in_the_table(info: &CallInfo) -> String {
    let number = info.number;
    if info.architecture != AUDIT_ARCH_X86_64 {
        return "a 32-bit call, of which none is in the table".into();
    }
    match numbers::CALLS.iter().find(|(_, other)| *other as u64 == number) {
        Some((name, _)) => format!("the call {name} is not in the table"),
        None => format!("the call of number {number} is not in the table"),
    }
}

/// Whether the call in which a task is makes a child with the same memory.
pub fn clones_memory(task: Tid) -> bool {
    let Ok(registers) = sys::registers(task) else { return false };
    let flags = match registers.orig_rax as i64 {
        libc::SYS_clone => Some(registers.rdi),
        libc::SYS_clone3 => look::word(task, registers.rdi),
        _ => None,
    };
    flags.is_some_and(|flags| flags & libc::CLONE_VM as u64 != 0)
}

/// What a result says of data: it has moved, also where the call has failed behind a part of it.
fn moved_data(result: i64) -> bool {
    result > 0 || [libc::EFAULT, libc::EIO].iter().any(|error| result == -i64::from(*error))
}

impl Tracer {
    /// A call of the table begins.
    pub fn begins(&mut self, task: Tid, meaning: Meaning, arguments: &[u64; 6]) -> Then {
        if self.guard {
            if let Some(then) = self.guarded(task, meaning, arguments) {
                return then;
            }
        }
        let descriptor = |place: usize| arguments[place] as i32;
        match meaning {
            Meaning::Reads(place) => {
                self.tell_returned(arguments);
                self.begins_read(task, descriptor(place))
            }
            Meaning::Writes(place) => self.begins_write(task, descriptor(place), None, self.is_long(arguments)),
            Meaning::Sends => {
                let address = self.address(task, arguments[4], arguments[5]);
                self.keeps_pages(task, descriptor(0), arguments[3], address.as_deref());
                self.begins_write(task, descriptor(0), address.as_deref(), true)
            }
            Meaning::SendsMessages => self.begins_messages(task, arguments),
            Meaning::Splices => self.begins_splice(task, descriptor(0)),
            Meaning::Moves { from, to } => {
                let at_end = self.is_at_end(task, arguments, from);
                self.begins_move(task, descriptor(from), descriptor(to), at_end)
            }
            _ => self.begins_other(task, meaning, arguments),
        }
    }

    /// Calls about what files and sockets have beside their bytes, memory, devices and tasks.
    fn begins_other(&mut self, task: Tid, meaning: Meaning, arguments: &[u64; 6]) -> Then {
        let descriptor = |place: usize| arguments[place] as i32;
        match meaning {
            Meaning::ReadsAttribute(way) => self.reads_file(task, way, arguments),
            Meaning::WritesAttribute(way) | Meaning::Changes(way) => self.adds_to_file(task, way, arguments),
            Meaning::ReadsOption | Meaning::WritesOption => self.socket_option(task, meaning, arguments),
            Meaning::ReadsQueue | Meaning::WritesQueue | Meaning::Semaphores | Meaning::Attaches => {
                self.system_v(task, meaning, arguments)
            }
            Meaning::ReadsMemory => self.passes_to(task, descriptor(0), Way::In),
            Meaning::WritesMemory => self.passes_to(task, descriptor(0), Way::Out),
            Meaning::ReadsLog => {
                let object = self.object(&Found::system_log(), || b"/dev/kmsg".to_vec());
                Then::Wait(After::Read(vec![object]))
            }
            Meaning::Maps => self.begins_mapping(task, arguments),
            Meaning::ControlsDevice => self.controls(task, arguments),
            Meaning::Signals(place) => self.signals(task, arguments, place),
            Meaning::Filters => self.filters(arguments),
            Meaning::Clones => self.clones(task, arguments),
            Meaning::Limits => self.limits(task, arguments),
            Meaning::OpensHandle => self.opens_handle(),
            _ => self.begins_naming(task, meaning, arguments),
        }
    }

    /// Calls about paths, names, programs and addresses.
    fn begins_naming(&mut self, task: Tid, meaning: Meaning, arguments: &[u64; 6]) -> Then {
        match meaning {
            Meaning::Opens(at) => {
                let flags = self.open_flags(task, at, arguments);
                self.opens_with(task, at, arguments, flags)
            }
            Meaning::Truncates => self.truncates(task, self.look(task, arguments[0] as i32), arguments[1]),
            Meaning::TruncatesPath => {
                let seen = self.look_at(task, libc::AT_FDCWD, arguments[0], true);
                self.truncates(task, seen, arguments[1])
            }
            Meaning::Executes(at) => self.executes(task, at, arguments),
            Meaning::Renames(_) => Then::Wait(After::Names("a rename")),
            Meaning::Links(_) => Then::Wait(After::Names("a link")),
            Meaning::Unlinks(_) => Then::Wait(After::Names("a removal")),
            Meaning::MakesLink(at) => Then::Wait(After::Linked { at }),
            Meaning::MakesNode(_) => Then::Wait(After::Names("a new file")),
            Meaning::ReadsLink(way) => self.reads_link(task, way, arguments),
            Meaning::NamesAddress => self.reads_address(task, arguments[0] as i32),
            Meaning::Mounts => self.mounts(task, arguments),
            Meaning::Addresses { binds } => {
                let address = self.address(task, arguments[1], arguments[2]).unwrap_or_default();
                let socket = arguments[0] as i32;
                if !binds {
                    self.sockets.addressed(task, socket, Some(&address), false);
                    self.calls_other_side(task, socket);
                }
                Then::Wait(After::Addressed { socket, address, binds })
            }
            Meaning::Accepts => Then::Wait(After::Accepted),
            Meaning::MakesSocketPair => Then::Wait(After::Paired(arguments[3])),
            _ => Then::Free,
        }
    }

    /// What a descriptor stands for; that it cannot be looked at is told once for each task.
    pub fn look(&self, task: Tid, number: i32) -> Seen {
        look::descriptor(task, number)
    }

    /// What a path in the memory of a task leads to.
    pub fn look_at(&mut self, task: Tid, folder: i32, address: u64, follow: bool) -> Seen {
        match look::text(task, address) {
            Some(name) if name.is_empty() && folder != libc::AT_FDCWD => self.look(task, folder),
            Some(name) => look::at(task, &path_of(task, folder, &name, follow), follow),
            None if look::word(task, address & !7).is_none() && self.cannot_read(task) => Seen::Hidden,
            None => Seen::Missing,
        }
    }

    /// Whether no memory of a task can be read.
    fn cannot_read(&self, task: Tid) -> bool {
        sys::registers(task).is_ok_and(|registers| look::word(task, registers.rsp & !7).is_none())
    }

    /// Tells once for each task that it cannot be looked into.
    pub fn tell_hidden(&mut self, task: Tid) {
        let known = self.tasks.get_mut(&task).map(|task| std::mem::replace(&mut task.hidden, true));
        if known == Some(false) {
            self.tell(format!("process {task} cannot be looked into, so what it reads and writes is not known"));
        }
    }

    /// The objects of a descriptor for one way.
    pub fn target(&mut self, task: Tid, number: i32, way: Way, address: Option<&[u8]>) -> Target {
        let seen = self.look(task, number);
        self.target_of(task, number, seen, way, address)
    }

    /// The objects behind what a descriptor was found to be.
    fn target_of(&mut self, task: Tid, number: i32, seen: Seen, way: Way, address: Option<&[u8]>) -> Target {
        match seen {
            Seen::Socket => self.socket_target(task, number, way, address),
            seen => self.seen(task, seen, |task| look::descriptor_name(task, number)),
        }
    }

    /// The objects of what was found.
    pub fn seen(&mut self, task: Tid, seen: Seen, name: impl FnOnce(Tid) -> Vec<u8>) -> Target {
        match seen {
            Seen::Missing => Target::Missing,
            Seen::Nothing | Seen::Socket => Target::Objects(Vec::new()),
            Seen::Hidden => {
                self.tell_hidden(task);
                Target::Hidden
            }
            Seen::Terminal { number } => {
                let found = Found { key: Key::Terminal(number), sort: Sort::File, plain: false, is_folder: false };
                Target::Objects(vec![self.object(&found, || format!("terminal {number}").into_bytes())])
            }
            Seen::OfTask { task: other } => self.of_task(task, other),
            Seen::Elsewhere => {
                self.tell("a file of a process below another mount of /proc, of which the process is not known");
                Target::Objects(Vec::new())
            }
            Seen::Object(found) => Target::Objects(vec![self.object(&found, || name(task))]),
        }
    }

    /// A file of a task below `/proc` is that task's memory.
    fn of_task(&self, task: Tid, other: Tid) -> Target {
        let memory = |task: &Tid| self.tasks.get(task).map(|task| task.memory);
        match memory(&other) {
            Some(found) if memory(&task) != Some(found) => Target::Memory(other),
            _ => Target::Objects(Vec::new()),
        }
    }

    /// The objects of a socket for one way.
    fn socket_target(&mut self, task: Tid, number: i32, way: Way, address: Option<&[u8]>) -> Target {
        match self.sockets.ends(task, number, way, address) {
            Ends::Objects(found) => {
                Target::Objects(found.iter().map(|found| self.object(found, || shown(&found.key))).collect())
            }
            Ends::Open => Target::Open,
            Ends::NotFollowed(words) => {
                self.tell(words);
                Target::Objects(Vec::new())
            }
        }
    }

    /// An address in a task's memory.
    pub fn address(&mut self, task: Tid, at: u64, length: u64) -> Option<Vec<u8>> {
        let length = (length as usize).min(std::mem::size_of::<libc::sockaddr_storage>());
        (at != 0 && length > 0).then(|| look::bytes(task, at, length))
    }

    /// What a socket has sent comes back to whoever has it by the queue of its errors.
    fn tell_returned(&mut self, arguments: &[u64; 6]) {
        let flags = match self.number {
            libc::SYS_recvfrom | libc::SYS_recvmmsg => arguments[3],
            libc::SYS_recvmsg => arguments[2],
            _ => 0,
        };
        if flags as i32 & libc::MSG_ERRQUEUE != 0 {
            self.tell("the queue of a socket's errors was asked for, which has what was sent");
        }
    }

    /// Whether a write may take so long that others can change the memory meanwhile.
    fn is_long(&self, arguments: &[u64; 6]) -> bool {
        const LONG: u64 = 1 << 16;
        !matches!(self.number, libc::SYS_write | libc::SYS_pwrite64) || arguments[2] >= LONG
    }

    /// A read counts at its end, or is under way if others can use the memory.
    fn begins_read(&mut self, task: Tid, number: i32) -> Then {
        self.settle_mappings(task);
        let seen = self.look(task, number);
        let socket = matches!(seen, Seen::Socket);
        match self.target_of(task, number, seen, Way::In, None) {
            Target::Objects(objects) if !self.is_alone(task) => {
                self.begun_all(task, Way::In, &objects);
                Then::Wait(if socket { After::Receive { socket: number, begun: true } } else { After::Nothing })
            }
            Target::Objects(_) | Target::Open if socket => Then::Wait(After::Receive { socket: number, begun: false }),
            Target::Objects(objects) if objects.is_empty() => Then::Free,
            Target::Objects(objects) if self.reads_nothing_new(task, &objects) => Then::Free,
            Target::Objects(objects) => Then::Wait(After::Read(objects)),
            Target::Memory(other) => self.passes(task, &[other], Way::In),
            Target::Missing | Target::Hidden | Target::Open => Then::Free,
        }
    }

    /// Whether a read of a plain file brings nothing new as things stand. Its end is not waited for then: if the file gets more before the
    /// task is seen in another call, that counts as read.
    fn reads_nothing_new(&mut self, task: Tid, objects: &[ObjectId]) -> bool {
        let [object] = *objects else { return false };
        let short = matches!(self.number, libc::SYS_read | libc::SYS_pread64);
        let nothing = short && self.is_plain(object) && self.ledger.reads_nothing_new(task as TaskId, object);
        if let Some(found) = self.tasks.get_mut(&task).filter(|_| nothing) {
            found.reads = Some(object);
        }
        nothing
    }

    /// A write counts from its beginning. If others can change the memory, or if it may take long, it is under way up to its end.
    pub fn begins_write(&mut self, task: Tid, number: i32, address: Option<&[u8]>, long: bool) -> Then {
        let seen = self.look(task, number);
        if let Seen::OfTask { task: other } = seen {
            if other == own() {
                return self.refuse_own(task);
            }
        }
        let socket = matches!(seen, Seen::Socket);
        match self.target_of(task, number, seen, Way::Out, address) {
            Target::Objects(objects) if self.guard && objects.iter().any(|object| self.ledger.guards(*object)) => {
                self.guards_write(task, number).unwrap_or(Then::Refuse(libc::EPERM))
            }
            Target::Objects(objects) => {
                if socket {
                    self.takes_own_address(task, number);
                }
                self.writes_to(task, number, &objects, long)
            }
            Target::Memory(_) | Target::Hidden if self.guard => Then::Refuse(libc::EPERM),
            Target::Memory(other) => self.passes(task, &[other], Way::Out),
            Target::Open => {
                if let Some(found) = self.sockets.early(task, number, address) {
                    let object = self.object(&found, || shown(&found.key));
                    self.begun(task, Way::Out, object);
                }
                Then::Wait(After::Send { socket: number })
            }
            Target::Missing | Target::Hidden => Then::Free,
        }
    }

    /// The command must not change what watches it.
    pub fn refuse_own(&mut self, task: Tid) -> Then {
        self.tell(format!("process {task} wants to change what watches it, which is refused"));
        Then::Refuse(libc::EPERM)
    }

    /// A write to objects begins.
    fn writes_to(&mut self, task: Tid, number: i32, objects: &[ObjectId], long: bool) -> Then {
        let alone = self.is_alone(task);
        let mut waits = false;
        for object in objects {
            let flow = crate::event::Flow { way: Way::Out, object: *object };
            // One that must fail moves nothing; that is asked only where it matters.
            let changes = self.ledger.would_change(task as TaskId, flow);
            let reads =
                || look::descriptor_flags(task, number).map(|flags| flags & libc::O_ACCMODE) == Some(libc::O_RDONLY);
            if changes && reads() {
                return Then::Free;
            }
            if changes {
                self.tell_elsewhere(*object);
            }
            // Only a short write to a plain file is over before anybody else can do anything.
            if alone && !long && self.is_plain(*object) {
                self.moved(task, Way::Out, *object);
                if let Some(found) = self.tasks.get_mut(&task) {
                    found.writes = Some(*object);
                }
            } else {
                self.begun(task, Way::Out, *object);
                waits = true;
            }
        }
        match waits {
            true => Then::Wait(After::Nothing),
            false => Then::Free,
        }
    }

    /// Messages with an address each: `struct msghdr` begins with the address and its length, and `struct mmsghdr` has 64 bytes.
    fn begins_messages(&mut self, task: Tid, arguments: &[u64; 6]) -> Then {
        const HEADER: u64 = 64;
        let many = arguments[2] != 0 && self.number == libc::SYS_sendmmsg;
        let count = if many { arguments[2].min(libc::UIO_MAXIOV as u64) } else { 1 };
        let mut then = Then::Free;
        for message in 0..count {
            let at = arguments[1].wrapping_add(message * HEADER);
            let (name, length) = (look::word(task, at).unwrap_or(0), look::word(task, at.wrapping_add(8)).unwrap_or(0));
            let address = self.address(task, name, length & 0xffff_ffff);
            let flags = if many { arguments[3] } else { arguments[2] };
            self.keeps_pages(task, arguments[0] as i32, flags, address.as_deref());
            match self.begins_write(task, arguments[0] as i32, address.as_deref(), true) {
                Then::Free => {}
                other => then = other,
            }
        }
        then
    }

    /// Whether a file that a call reads from has nothing left, as far as can be seen before the call.
    fn is_at_end(&self, task: Tid, arguments: &[u64; 6], from: usize) -> bool {
        let number = arguments[from] as i32;
        let at = match self.number {
            libc::SYS_sendfile => arguments[2],
            libc::SYS_tee => return false,
            _ => arguments[1],
        };
        let offset = match at {
            0 => look::descriptor_offset(task, number),
            at => look::word(task, at),
        };
        let size = look::size(task, number);
        matches!((offset, size), (Some(offset), Some(size)) if offset >= size)
    }

    /// Data goes from one to the other through the process.
    pub fn begins_move(&mut self, task: Tid, from: i32, to: i32, at_end: bool) -> Then {
        self.settle_mappings(task);
        let (from, to) = (self.target(task, from, Way::In, None), self.target(task, to, Way::Out, None));
        match (from, to) {
            (Target::Objects(from), Target::Objects(to)) if at_end => return Then::Wait(After::Move { from, to }),
            (Target::Objects(from), Target::Objects(to)) => {
                self.keeps_file(task, &from, &to);
                self.begun_all(task, Way::In, &from);
                self.tell_if_more(task, &to);
                self.begun_all(task, Way::Out, &to);
            }
            (Target::Memory(other), Target::Objects(to)) => {
                self.pass(task, other, Way::In);
                self.begun_all(task, Way::Out, &to);
            }
            (Target::Objects(from), Target::Memory(other)) => {
                self.begun_all(task, Way::In, &from);
                self.pass(task, other, Way::Out);
            }
            (Target::Objects(from), Target::Open) => {
                self.begun_all(task, Way::In, &from);
                self.tell("data was sent on a socket whose other side is not known");
            }
            (Target::Memory(from), Target::Memory(to)) => {
                self.pass(task, from, Way::In);
                self.pass(task, to, Way::Out);
            }
            (Target::Open, _) => self.tell("data may come from a socket whose other side is not known"),
            _ => {}
        }
        Then::Wait(After::Nothing)
    }

    /// A call has come to its end.
    pub fn ends(&mut self, task: Tid, call: Call, result: i64) {
        match call.after {
            After::Nothing | After::Executes { .. } => {}
            After::Read(objects) if moved_data(result) => {
                self.moved_all(task, Way::In, &objects);
            }
            // A datagram without data has an address.
            After::Receive { socket, begun }
                if moved_data(result) || begun || result == 0 && self.takes_datagrams(task, socket) =>
            {
                if let Target::Objects(objects) = self.target(task, socket, Way::In, None) {
                    self.moved_all(task, Way::In, &objects);
                }
            }
            After::Send { socket } if moved_data(result) => match self.target(task, socket, Way::Out, None) {
                Target::Objects(objects) => {
                    self.moved_all(task, Way::Out, &objects);
                }
                _ => self.tell("data was sent on a socket whose other side is not known"),
            },
            After::Move { from, to } if moved_data(result) => {
                self.moved_all(task, Way::In, &from);
                self.moved_all(task, Way::Out, &to);
            }
            After::Pass { others, way } if moved_data(result) => {
                others.into_iter().for_each(|other| self.pass(task, other, way));
            }
            after => self.ends_other(task, &call.arguments, after, result),
        }
    }

    /// Whether a socket gives messages one by one.
    fn takes_datagrams(&self, task: Tid, socket: i32) -> bool {
        !self.sockets.is_stream(task, socket)
    }

    /// Calls about names and addresses have come to their end.
    fn ends_other(&mut self, task: Tid, arguments: &[u64; 6], after: After, result: i64) {
        match after {
            After::Open(opening) if result >= 0 => self.opened(task, &opening, result as i32),
            After::Names(how) if result >= 0 || self.guard => self.names_changed(task, how),
            After::Linked { at } if result >= 0 => {
                self.linked_to(task, at, arguments);
                self.check_names(Some(task), "a symbolic link");
            }
            After::Truncate { object, since } if result >= 0 => self.emptied(object, since),
            After::Addressed { socket, address, binds } => {
                self.sockets.addressed(task, socket, Some(&address), binds);
                if let Some(object) = self.socket_names(task, socket).filter(|_| binds && result >= 0) {
                    self.moved(task, Way::Out, object);
                }
            }
            After::Closed => self.truncate_unheld(task),
            // The same memory has a file of its own, which can be opened below `/proc`.
            After::Shared(object) if result > 0 => {
                if let Some(found) = look::mapped_at(task, result as u64) {
                    self.same_object(found.key, object);
                }
            }
            After::Accepted if result >= 0 => self.accepted(task, result as i32),
            After::Paired(at) if result >= 0 => {
                if let Some(pair) = look::word(task, at) {
                    self.sockets.paired(task, pair as i32, (pair >> 32) as i32);
                }
            }
            _ => {}
        }
    }

    /// A call has changed names.
    fn names_changed(&mut self, task: Tid, how: &str) {
        if how == MOUNT {
            look::forget_mounts();
        }
        self.check_names(Some(task), how);
    }

    /// A connection was taken up, under this number.
    fn accepted(&mut self, task: Tid, number: i32) {
        self.sockets.accepted(task, number);
        self.takes_in(task, number);
        self.reads_address(task, number);
    }

    /// What a descriptor gives goes into the memory of a task.
    pub fn takes_in(&mut self, task: Tid, number: i32) {
        match self.target(task, number, Way::In, None) {
            Target::Objects(objects) => self.moved_all(task, Way::In, &objects),
            Target::Memory(other) => self.pass(task, other, Way::In),
            Target::Missing | Target::Hidden | Target::Open => {}
        }
    }
}

/// The number of this program.
pub fn own() -> Tid {
    std::process::id() as Tid
}

/// The name of a socket's object for people.
fn shown(key: &Key) -> Vec<u8> {
    match key {
        Key::Sent(inode) => format!("what socket {inode} sends").into_bytes(),
        Key::Inbox(inode) => format!("datagrams for socket {inode}").into_bytes(),
        Key::Port(port) => format!("datagrams for port {port}").into_bytes(),
        Key::Stream { from, to } => {
            format!("connection from port {} to port {}", port_of(from), port_of(to)).into_bytes()
        }
        _ => b"a socket outside the run".to_vec(),
    }
}

/// The port in host and port as 18 bytes.
fn port_of(address: &[u8]) -> u16 {
    address.get(16..18).map_or(0, |bytes| u16::from_be_bytes([bytes[0], bytes[1]]))
}
