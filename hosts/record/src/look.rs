//! What a stopped task has: the objects behind its descriptors and paths, and its memory. Everything is asked of the kernel, of the
//! task as it stands there.

use std::collections::BTreeMap;
use std::ffi::{CString, OsStr};
use std::fs;
use std::io::{self, Read};
use std::os::unix::ffi::{OsStrExt, OsStringExt};
use std::sync::Mutex;

use crate::files::Sort;
use crate::path;
use crate::resolve::path_of;
use crate::sys::{self, Status, Tid};

/// What makes an object the same one.
#[derive(Clone, Debug, PartialEq, Eq, Hash)]
pub enum Key {
    Inode {
        device: u64,
        inode: u64,
        birth: u64,
    },
    Device {
        block: bool,
        major: u32,
        minor: u32,
    },
    /// Both sides of a terminal, by its number, and what is set for it.
    Terminal(u32),
    TerminalSettings(u32),
    /// A counter (`eventfd`).
    Counter(u64),
    /// What a local socket sends to its other side, by the socket's inode.
    Sent(u64),
    /// What goes from one address to another.
    Stream {
        from: Vec<u8>,
        to: Vec<u8>,
    },
    /// Datagrams for a local socket, by its inode.
    Inbox(u64),
    /// Datagrams for a port of this machine.
    Port(u16),
    /// What goes to an address outside the run.
    Address(Vec<u8>),
    SocketOptions(u64),
    /// A file of the system itself, by its path.
    System(Vec<u8>),
    /// What passes between two memories, by the process that has the one.
    Memory(Tid),
    Queue(i32),
    Semaphores(i32),
    Segment(i32),
    /// Memory that a process shares with its children.
    Anonymous(u64),
}

/// An object that was looked up.
#[derive(Clone, Debug)]
pub struct Found {
    pub key: Key,
    pub sort: Sort,
    /// Whether it is a plain file: it can be truncated and mapped, and a call on it does not wait for others.
    pub plain: bool,
    pub is_folder: bool,
}

impl Found {
    /// The log of the system, which a device and a file of `/proc` have.
    pub fn system_log() -> Found {
        let key = Key::Device { block: false, major: MEMORY_DEVICES, minor: 11 };
        Found { key, sort: Sort::File, plain: false, is_folder: false }
    }

    /// An object that is gone with its last descriptor.
    pub fn passing(key: Key) -> Found {
        Found { key, sort: Sort::Passing, plain: false, is_folder: false }
    }
}

/// What a descriptor or a path leads to.
#[derive(Clone, Debug)]
pub enum Seen {
    /// It is not there.
    Missing,
    /// It is there and holds nothing of anybody, such as the null device or a timer.
    Nothing,
    /// This program may not look at it.
    Hidden,
    Socket,
    Terminal {
        number: u32,
    },
    /// A file below `/proc` of a task.
    OfTask {
        task: Tid,
    },
    /// One of a task that is not known, below another mount of `/proc`.
    Elsewhere,
    Object(Found),
}

/// Devices that keep nothing and give nothing of anybody: null, zero, full, random, urandom.
const EMPTY_DEVICES: [u32; 5] = [3, 5, 7, 8, 9];
const MEMORY_DEVICES: u32 = 1;
const TERMINALS: std::ops::RangeInclusive<u32> = 136..=143;
const CONTROLLING: (u32, u32) = (5, 0);
const MASTER: (u32, u32) = (5, 2);

/// The inode of the uppermost folder of a mount of `/proc`.
pub const PROCESSES_ROOT: u64 = 1;

/// What kind of file system a file is on.
#[derive(Clone, Copy, Debug, PartialEq, Eq)]
pub enum Mount {
    Plain,
    /// That of processes, at `/proc` of this program.
    Processes,
    /// One of processes that is mounted elsewhere: it may number them in another way.
    OtherProcesses,
}

/// The kinds of file systems that were asked for, by their device.
static MOUNTS: Mutex<BTreeMap<u64, Mount>> = Mutex::new(BTreeMap::new());

/// The kind of the file system of a path.
pub fn mount(path: &CString, device: u64) -> Mount {
    let Ok(mut known) = MOUNTS.lock() else { return Mount::OtherProcesses };
    if known.is_empty() {
        let own = sys::status(c"/proc", true).map_or(0, |status| status.device);
        known.insert(own, Mount::Processes);
    }
    *known.entry(device).or_insert_with(|| match sys::file_system(path) {
        Ok(kind) if kind == libc::PROC_SUPER_MAGIC => Mount::OtherProcesses,
        _ => Mount::Plain,
    })
}

/// File systems have come or gone: a device may be that of another one.
pub fn forget_mounts() {
    if let Ok(mut known) = MOUNTS.lock() {
        known.clear();
    }
}

/// The numbers of a task in its name spaces, from that of this program on.
pub fn numbers_of(task: Tid) -> Vec<Tid> {
    let status = fs::read_to_string(format!("/proc/{task}/status")).unwrap_or_default();
    let numbers = status.lines().find_map(|line| line.strip_prefix("NSpid:")).unwrap_or_default();
    numbers.split_whitespace().filter_map(|number| number.parse().ok()).collect()
}

/// The name space in which a task numbers processes.
pub fn numbering(task: Tid) -> Option<u64> {
    let path = CString::new(format!("/proc/{task}/ns/pid")).ok()?;
    sys::status(&path, true).ok().map(|status| status.inode)
}

/// The place of a descriptor below `/proc`.
pub fn descriptor_path(task: Tid, number: i32) -> String {
    format!("/proc/{task}/fd/{number}")
}

/// The file system's own name of what a descriptor stands for.
pub fn descriptor_name(task: Tid, number: i32) -> Vec<u8> {
    fs::read_link(descriptor_path(task, number)).map(|path| path.into_os_string().into_vec()).unwrap_or_default()
}

/// A number in what the kernel says of a descriptor.
fn descriptor_field(task: Tid, number: i32, field: &str, radix: u32) -> Option<u64> {
    let text = fs::read_to_string(format!("/proc/{task}/fdinfo/{number}")).ok()?;
    let found = text.lines().find_map(|line| line.strip_prefix(field)?.strip_prefix(':'))?;
    u64::from_str_radix(found.trim(), radix).ok()
}

/// The flags with which a descriptor was opened.
pub fn descriptor_flags(task: Tid, number: i32) -> Option<i32> {
    descriptor_field(task, number, "flags", 8).map(|flags| flags as i32)
}

/// How far a descriptor has come in its file.
pub fn descriptor_offset(task: Tid, number: i32) -> Option<u64> {
    descriptor_field(task, number, "pos", 10)
}

/// The size of the plain file of a descriptor.
pub fn size(task: Tid, number: i32) -> Option<u64> {
    let path = CString::new(descriptor_path(task, number)).ok()?;
    sys::status(&path, true).ok().filter(|status| status.is(sys::S_IFREG)).map(|status| status.size)
}

/// The process that a descriptor of one stands for.
pub fn descriptor_process(task: Tid, number: i32) -> Option<Tid> {
    descriptor_field(task, number, "Pid", 10).map(|pid| pid as Tid)
}

/// What a descriptor of a task stands for.
pub fn descriptor(task: Tid, number: i32) -> Seen {
    let path = descriptor_path(task, number);
    let Ok(name) = CString::new(path) else { return Seen::Missing };
    let status = match sys::status(&name, true) {
        Ok(status) => status,
        Err(error) => return failed(&error),
    };
    let mount = mount(&name, status.device);
    if mount != Mount::Plain && !status.is(sys::S_IFDIR) {
        return system_file(mount, &descriptor_name(task, number));
    }
    match status.mode & libc::S_IFMT {
        0 => nameless(task, number),
        sys::S_IFCHR if status.device_file == MASTER => match descriptor_field(task, number, "tty-index", 10) {
            Some(index) => Seen::Terminal { number: index as u32 },
            None => Seen::Nothing,
        },
        _ => object(task, &status),
    }
}

/// What a failed look says: it is hidden, or not there.
fn failed(error: &io::Error) -> Seen {
    match error.raw_os_error() {
        Some(libc::EACCES | libc::EPERM) => Seen::Hidden,
        _ => Seen::Missing,
    }
}

/// What has no file: counters hold a number, timers, signals, processes and the like have no data of files.
fn nameless(task: Tid, number: i32) -> Seen {
    if descriptor_name(task, number) != b"anon_inode:[eventfd]" {
        return Seen::Nothing;
    }
    match descriptor_field(task, number, "eventfd-id", 10) {
        Some(id) => Seen::Object(Found::passing(Key::Counter(id))),
        None => Seen::Nothing,
    }
}

/// A file below a mount of `/proc`, by its real name: that of a task, or one of the system.
fn system_file(mount: Mount, name: &[u8]) -> Seen {
    let below = path::below(name, b"/proc").filter(|_| mount == Mount::Processes);
    let numbered = |name: &[u8]| name.split(|byte| *byte == b'/').any(|part| number_in(part).is_some());
    let mut parts = below.unwrap_or_default().split(|byte| *byte == b'/');
    match (below, parts.next().and_then(number_in), parts.next()) {
        (None, ..) if numbered(name) => Seen::Elsewhere,
        (_, Some(first), Some(b"task")) => Seen::OfTask { task: parts.next().and_then(number_in).unwrap_or(first) },
        (_, Some(task), Some(_)) => Seen::OfTask { task },
        _ if name.ends_with(b"/kmsg") => Seen::Object(Found::system_log()),
        _ => Seen::Object(Found { key: Key::System(name.to_vec()), sort: Sort::File, plain: false, is_folder: false }),
    }
}

/// The name of a file without links on the way to it.
fn real_name(path: &[u8], follow: bool) -> Vec<u8> {
    let real = |path: &[u8]| fs::canonicalize(OsStr::from_bytes(path)).map(|real| real.into_os_string().into_vec());
    let (folder, name) = path::split(path);
    let found = if follow { real(path) } else { real(folder).map(|folder| [&folder[..], b"/", name].concat()) };
    found.unwrap_or_else(|_| path.to_vec())
}

/// A text as the number of a task.
fn number_in(text: &[u8]) -> Option<Tid> {
    std::str::from_utf8(text).ok()?.parse().ok()
}

/// What the status of a file stands for.
fn object(task: Tid, status: &Status) -> Seen {
    let (major, minor) = status.device_file;
    let device = |block| {
        Seen::Object(Found {
            key: Key::Device { block, major, minor },
            sort: Sort::File,
            plain: false,
            is_folder: false,
        })
    };
    let inode = Key::Inode { device: status.device, inode: status.inode, birth: status.birth };
    match status.mode & libc::S_IFMT {
        sys::S_IFCHR if major == MEMORY_DEVICES && EMPTY_DEVICES.contains(&minor) => Seen::Nothing,
        sys::S_IFCHR if TERMINALS.contains(&major) => {
            Seen::Terminal { number: minor + 256 * (major - TERMINALS.start()) }
        }
        sys::S_IFCHR if (major, minor) == CONTROLLING => controlling(task),
        sys::S_IFCHR => device(false),
        sys::S_IFBLK => device(true),
        sys::S_IFSOCK => Seen::Socket,
        // A pipe without a name has the time of no file system.
        sys::S_IFIFO if status.birth == 0 => Seen::Object(Found::passing(inode)),
        sys::S_IFIFO => Seen::Object(Found { key: inode, sort: Sort::NamedPipe, plain: false, is_folder: false }),
        kind => Seen::Object(Found {
            key: inode,
            sort: Sort::File,
            plain: kind == sys::S_IFREG,
            is_folder: kind == sys::S_IFDIR,
        }),
    }
}

/// The terminal of a task's session.
fn controlling(task: Tid) -> Seen {
    let stat = fs::read(format!("/proc/{task}/stat")).unwrap_or_default();
    let behind = stat.iter().rposition(|byte| *byte == b')').map_or(&[][..], |place| &stat[place + 1..]);
    let field = behind.split(|byte| *byte == b' ').filter(|field| !field.is_empty()).nth(4);
    let device = field.and_then(number_in).map_or(0, |number| number as u32);
    let (major, minor) = (device >> 8 & 0xfff, device & 0xff | device >> 12 & 0xfff00);
    match TERMINALS.contains(&major) {
        true => Seen::Terminal { number: minor + 256 * (major - TERMINALS.start()) },
        false => Seen::Object(Found {
            key: Key::Device { block: false, major, minor },
            sort: Sort::File,
            plain: false,
            is_folder: false,
        }),
    }
}

/// What a path as this program reads it leads to.
pub fn at(task: Tid, path: &[u8], follow: bool) -> Seen {
    let Ok(name) = CString::new(path) else { return Seen::Missing };
    match sys::status(&name, follow) {
        Ok(status) => match mount(&name, status.device) {
            Mount::Plain => object(task, &status),
            _ if status.is(sys::S_IFDIR) => object(task, &status),
            mount => system_file(mount, &real_name(path, follow)),
        },
        // The task itself may not go there either, unless nothing of it can be looked at.
        Err(_) if task == 0 || fs::read_link(format!("/proc/{task}/root")).is_ok() => Seen::Missing,
        Err(error) => failed(&error),
    }
}

/// Bytes of a task's memory: as many as are there.
pub fn bytes(task: Tid, address: u64, length: usize) -> Vec<u8> {
    let mut into = vec![0; length];
    let mut done = 0;
    while done < length {
        // Up to the end of a page: what is behind it may not be there.
        let here = address.wrapping_add(done as u64);
        let end = (done + 4096 - (here % 4096) as usize).min(length);
        let read = sys::read_memory(task, here, &mut into[done..end]);
        done += read;
        if read == 0 {
            break;
        }
    }
    into.truncate(done);
    into
}

/// A number of 64 bits in a task's memory.
pub fn word(task: Tid, address: u64) -> Option<u64> {
    bytes(task, address, 8).try_into().ok().map(u64::from_ne_bytes)
}

/// A text in a task's memory that ends with a zero byte, at most as long as a path may be.
pub fn text(task: Tid, address: u64) -> Option<Vec<u8>> {
    let mut found = bytes(task, address, 256);
    if !found.contains(&0) && found.len() == 256 {
        found = bytes(task, address, libc::PATH_MAX as usize);
    }
    let end = found.iter().position(|byte| *byte == 0)?;
    found.truncate(end);
    Some(found)
}

/// The name of a path for people, with links followed where it is there.
pub fn shown(task: Tid, folder: i32, name: &[u8]) -> Vec<u8> {
    let path = path_of(task, folder, name, true);
    let real = fs::canonicalize(OsStr::from_bytes(&path));
    real.map_or(path, |real| real.into_os_string().into_vec())
}

/// A file of the system, which makes its text anew for each call: as few calls as can be.
fn read(path: &str) -> io::Result<Vec<u8>> {
    let (mut file, mut text, mut length) = (fs::File::open(path)?, vec![0; 1 << 14], 0);
    loop {
        match file.read(&mut text[length..])? {
            0 => break,
            more => length += more,
        }
        if length == text.len() {
            text.resize(2 * length, 0);
        }
    }
    text.truncate(length);
    Ok(text)
}

/// The program that a task runs, and the other files that the kernel has mapped for it. Their names are as this program would write them.
pub fn mapped(task: Tid) -> Option<Vec<(Found, Vec<u8>)>> {
    let maps = read(&format!("/proc/{task}/maps")).ok()?;
    let mut names: Vec<&[u8]> = maps
        .split(|byte| *byte == b'\n')
        .filter_map(|line| line.iter().position(|byte| *byte == b'/').map(|place| &line[place..]))
        .collect();
    names.dedup();
    let mut found: Vec<(Found, Vec<u8>)> = Vec::new();
    let program = (format!("/proc/{task}/exe").into_bytes(), names.first().map_or(&b""[..], |name| name));
    // The first name is that of the program.
    let others = names.iter().skip(1).map(|name| (name.to_vec(), *name));
    for (path, name) in [program].into_iter().chain(others) {
        if let Seen::Object(object) = at(task, &path, true) {
            if found.iter().all(|(other, _)| other.key != object.key) {
                found.push((object, name.to_vec()));
            }
        }
    }
    (!found.is_empty()).then_some(found)
}

/// The effective user id of a task.
pub fn user(task: Tid) -> Option<u32> {
    let status = fs::read_to_string(format!("/proc/{task}/status")).ok()?;
    let ids = status.lines().find_map(|line| line.strip_prefix("Uid:"))?;
    ids.split_whitespace().nth(1)?.parse().ok()
}

/// The file behind the mapping that begins at an address, where this program may ask for it.
pub fn mapped_at(task: Tid, address: u64) -> Option<Found> {
    let maps = fs::read_to_string(format!("/proc/{task}/maps")).ok()?;
    let begin = format!("{address:08x}-");
    let range = maps.lines().find(|line| line.starts_with(&begin))?.split(' ').next()?;
    match at(task, format!("/proc/{task}/map_files/{range}").as_bytes(), true) {
        Seen::Object(found) => Some(found),
        _ => None,
    }
}

/// Whether a task still has an object mapped, shared and writable.
pub fn maps_shared(task: Tid, key: &Key) -> bool {
    let Key::Inode { inode, .. } = key else { return true };
    let Ok(maps) = fs::read_to_string(format!("/proc/{task}/maps")) else { return true };
    maps.lines().any(|line| {
        let fields: Vec<&str> = line.split_whitespace().take(5).collect();
        fields.get(4).and_then(|number| number.parse().ok()) == Some(*inode)
            && fields.get(1).is_some_and(|rights| rights.ends_with('s'))
    })
}

/// How many files below a folder are looked at.
const MEMBER_LIMIT: usize = 100_000;

/// The files below a folder, and whether these are all. Links are not followed.
pub fn below(folder: &[u8]) -> (Vec<Key>, bool) {
    let (mut found, mut all) = (Vec::new(), true);
    let mut folders = vec![std::path::PathBuf::from(OsStr::from_bytes(folder))];
    while let Some(folder) = folders.pop() {
        let Ok(entries) = fs::read_dir(&folder) else {
            all = false;
            continue;
        };
        for entry in entries.flatten() {
            match at(0, entry.path().as_os_str().as_bytes(), false) {
                Seen::Object(object) if object.is_folder => folders.push(entry.path()),
                Seen::Object(object) => found.push(object.key),
                Seen::Hidden => all = false,
                _ => {}
            }
        }
        if found.len() > MEMBER_LIMIT {
            return (found, false);
        }
    }
    (found, all)
}

/// Whether a task has a descriptor to write to an object.
pub fn writes_to(task: Tid, key: &Key) -> bool {
    let Ok(entries) = fs::read_dir(format!("/proc/{task}/fd")) else { return false };
    let numbers = entries.flatten().filter_map(|entry| number_in(entry.file_name().as_bytes()));
    numbers.into_iter().any(|number| {
        matches!(descriptor(task, number), Seen::Object(found) if found.key == *key)
            && descriptor_flags(task, number).map_or(true, |flags| flags & libc::O_ACCMODE != libc::O_RDONLY)
    })
}

/// The calls whose ends are not always waited for.
pub const READS: [libc::c_long; 2] = [libc::SYS_read, libc::SYS_pread64];
pub const WRITES: [libc::c_long; 2] = [libc::SYS_write, libc::SYS_pwrite64];

/// Whether a task that was let go on may still be in such a call, or may not have begun it: unless it waits in another one.
pub fn may_be_in(task: Tid, calls: &[libc::c_long]) -> bool {
    let text = fs::read_to_string(format!("/proc/{task}/syscall")).unwrap_or_default();
    let number = text.split(' ').next().and_then(|number| number.parse().ok());
    number.map_or(true, |number| calls.contains(&number))
}

/// Whether a task sleeps in the kernel.
pub fn sleeps(task: Tid) -> bool {
    let stat = fs::read(format!("/proc/{task}/stat")).unwrap_or_default();
    let behind = stat.iter().rposition(|byte| *byte == b')').map_or(&[][..], |place| &stat[place + 1..]);
    matches!(behind.get(1), Some(b'S' | b'D'))
}
