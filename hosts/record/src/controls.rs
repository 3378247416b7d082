//! Calls that set or ask for numbers and texts: options and addresses of sockets, System V, device controls, signals, filters, children.

use crate::event::{ObjectId, Way};
use crate::files::Sort;
use crate::look::{self, Found, Key, Seen};
use crate::meaning::{own, After, Then, MOUNT};
use crate::stops::Tracer;
use crate::sys::{self, Tid};
use crate::table::{self, Meaning};

impl Tracer {
    /// An option of a socket is asked for or set.
    pub fn socket_option(&mut self, task: Tid, meaning: Meaning, arguments: &[u64; 6]) -> Then {
        /// Options that say what a socket is, and whether it has failed.
        const PLAIN: [i32; 6] =
            [libc::SO_ERROR, libc::SO_TYPE, libc::SO_DOMAIN, libc::SO_PROTOCOL, libc::SO_ACCEPTCONN, libc::SO_PEERCRED];
        let (number, level, option) = (arguments[0] as i32, arguments[1] as i32, arguments[2] as i32);
        if level == libc::SOL_SOCKET && PLAIN.contains(&option) {
            return Then::Free;
        }
        let Some(object) = self.socket_names(task, number) else { return Then::Free };
        let way = if meaning == Meaning::ReadsOption { Way::In } else { Way::Out };
        self.moved(task, way, object);
        Then::Free
    }

    /// The object of what a socket is called and how it is set.
    pub fn socket_names(&mut self, task: Tid, number: i32) -> Option<ObjectId> {
        let status = sys::copy_descriptor(task, number).and_then(|copy| sys::status_of(&copy)).ok()?;
        let found = Found::passing(Key::SocketOptions(status.inode));
        Some(self.object(&found, || format!("options of socket {}", status.inode).into_bytes()))
    }

    /// Addresses are texts of up to a hundred bytes: who binds a socket writes one, who asks for it reads it.
    pub fn reads_address(&mut self, task: Tid, number: i32) -> Then {
        let own = self.socket_names(task, number);
        let other = self.sockets.other_side(task, number).map(|inode| {
            let found = Found::passing(Key::SocketOptions(inode));
            self.object(&found, || format!("options of socket {inode}").into_bytes())
        });
        for object in own.into_iter().chain(other) {
            self.moved(task, Way::In, object);
        }
        Then::Free
    }

    /// Who takes a connection up gets an address of the caller, before anything is sent.
    pub fn calls_other_side(&mut self, task: Tid, number: i32) {
        if let Some(found) = self.sockets.call(task, number) {
            let object = self.object(&found, || b"a connection".to_vec());
            self.begun(task, Way::Out, object);
        }
    }

    /// The address of a socket goes along with what is sent, whoever has set it.
    pub fn takes_own_address(&mut self, task: Tid, number: i32) {
        if !self.sockets.has_names {
            return;
        }
        if let Some(object) = self.socket_names(task, number) {
            self.moved(task, Way::In, object);
        }
    }

    /// Queues, semaphores and segments of System V.
    pub fn system_v(&mut self, task: Tid, meaning: Meaning, arguments: &[u64; 6]) -> Then {
        let number = arguments[0] as i32;
        let (key, name) = match meaning {
            Meaning::Semaphores => (Key::Semaphores(number), "semaphores"),
            Meaning::Attaches => (Key::Segment(number), "shared memory"),
            _ => (Key::Queue(number), "message queue"),
        };
        let object = self.object(&Found::passing(key), || format!("{name} {number}").into_bytes());
        match meaning {
            Meaning::ReadsQueue => return Then::Wait(After::Read(vec![object])),
            Meaning::Semaphores if self.number == libc::SYS_semctl => {
                let command = arguments[2] as i32;
                if sys::SEMAPHORE_READS.contains(&command) {
                    // A value of 0 is one too.
                    self.moved(task, Way::In, object);
                } else if command != libc::IPC_RMID {
                    self.moved(task, Way::Out, object);
                }
            }
            Meaning::Attaches => {
                self.share(task);
                self.map(task, object, arguments[2] as i32 & libc::SHM_RDONLY == 0);
                return Then::Wait(After::Shared(object));
            }
            _ => {
                self.moved(task, Way::Out, object);
            }
        }
        Then::Free
    }

    /// A device control.
    pub fn controls(&mut self, task: Tid, arguments: &[u64; 6]) -> Then {
        let (number, control) = (arguments[0] as i32, arguments[1] as u32);
        match table::control(control) {
            table::Control::NoData | table::Control::ChangesFile => Then::Free,
            table::Control::Clones => self.begins_move(task, arguments[2] as i32, number, false),
            table::Control::ClonesRange => {
                let from = look::word(task, arguments[2]).map_or(-1, |word| word as i32);
                self.begins_move(task, from, number, false)
            }
            table::Control::Types => self.begins_write(task, number, None, true),
            table::Control::ReadsSettings => self.settings(task, number, Way::In),
            table::Control::WritesSettings => self.settings(task, number, Way::Out),
            table::Control::NotKnown => {
                self.tell(format!("the device control {control:#x} is not in the table"));
                if self.guard {
                    return Then::Refuse(libc::ENOTTY);
                }
                Then::Free
            }
        }
    }

    /// What is set for a terminal: its size, its special characters.
    pub fn settings(&mut self, task: Tid, number: i32, way: Way) -> Then {
        if let Seen::Terminal { number } = self.look(task, number) {
            let found = Found { key: Key::TerminalSettings(number), sort: Sort::File, plain: false, is_folder: false };
            let object = self.object(&found, || format!("settings of terminal {number}").into_bytes());
            self.moved(task, way, object);
        }
        Then::Free
    }

    /// The command must not end what watches it.
    pub fn signals(&mut self, task: Tid, arguments: &[u64; 6], place: usize) -> Then {
        let named = match self.number {
            libc::SYS_pidfd_send_signal => look::descriptor_process(task, arguments[0] as i32),
            _ => Some(arguments[place] as i32),
        };
        let signal = arguments[1 + place];
        if named == Some(own()) && signal != 0 {
            self.tell(format!("process {task} wants to send signal {signal} to what watches it, which is refused"));
            return Then::Refuse(libc::EPERM);
        }
        Then::Free
    }

    /// A mount: names lead elsewhere. File systems that have files of others under further names, and texts that stand in the table of
    /// mounts, are not followed.
    pub fn mounts(&mut self, task: Tid, arguments: &[u64; 6]) -> Then {
        /// Mounts that make no file system: binds, moves, further mounts of the same.
        const SAME: u64 = libc::MS_BIND
            | libc::MS_REMOUNT
            | libc::MS_MOVE
            | libc::MS_PRIVATE
            | libc::MS_SHARED
            | libc::MS_SLAVE
            | libc::MS_UNBINDABLE;
        if self.number == libc::SYS_mount && arguments[3] & SAME == 0 {
            let kind = look::text(task, arguments[2]).unwrap_or_default();
            if !table::OWN_FILE_SYSTEMS.contains(&&kind[..]) {
                let kind = crate::path::shown(&kind);
                self.tell(format!("a file system of the type {kind}, whose files may have other names too"));
            }
        }
        if matches!(self.number, libc::SYS_mount | libc::SYS_fsmount) && self.ledger.holds_something(task as u32) {
            self.tell("a mount by a process that holds something of a source: its texts are not followed");
        }
        Then::Wait(After::Names(MOUNT))
    }

    /// Limits of what watches the command stay, and so does the one that keeps core dumps away from guarded files.
    pub fn limits(&mut self, task: Tid, arguments: &[u64; 6]) -> Then {
        let other = self.number == libc::SYS_prlimit64;
        let (resource, new) = if other { (arguments[1], arguments[2]) } else { (arguments[0], arguments[1]) };
        if other && arguments[0] as Tid == own() {
            return self.refuse_own(task);
        }
        let none = self.is_alone(task) && look::bytes(task, new, 16) == [0; 16];
        if self.guard && resource == u64::from(libc::RLIMIT_CORE) && !none {
            self.tell("core dumps are not allowed while files are guarded");
            return Then::Refuse(libc::EPERM);
        }
        Then::Free
    }

    /// An open by a handle: only one that truncates is stopped, and it is refused while files are guarded.
    pub fn opens_handle(&mut self) -> Then {
        if self.guard {
            self.tell("a file is not truncated by an open by its handle while files are guarded");
            return Then::Refuse(libc::EPERM);
        }
        Then::Free
    }

    /// A filter of the command's own that lets another process decide about calls would take them away from this one.
    pub fn filters(&mut self, arguments: &[u64; 6]) -> Then {
        /// `SECCOMP_FILTER_FLAG_NEW_LISTENER`
        const LISTENER: u64 = 1 << 3;
        if arguments[0] == u64::from(libc::SECCOMP_SET_MODE_FILTER) && arguments[1] & LISTENER != 0 {
            self.tell("a filter with a listener, which could let calls go on unseen, is refused");
            return Then::Refuse(libc::EINVAL);
        }
        Then::Free
    }

    /// A child that asks not to be traced is traced all the same.
    pub fn clones(&mut self, task: Tid, arguments: &[u64; 6]) -> Then {
        let untraced = libc::CLONE_UNTRACED as u64;
        if self.number == libc::SYS_clone3 {
            if look::word(task, arguments[0]).is_some_and(|flags| flags & untraced != 0) {
                self.tell(format!("process {task} wants to start a process that is not watched, which is refused"));
                return Then::Refuse(libc::EINVAL);
            }
            return Then::Free;
        }
        let changed = sys::registers(task).and_then(|mut registers| {
            registers.rdi &= !untraced;
            sys::set_registers(task, &registers)
        });
        match changed {
            Ok(()) => Then::Free,
            Err(_) => Then::Refuse(libc::EINVAL),
        }
    }
}
