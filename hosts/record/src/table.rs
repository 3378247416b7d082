//! What each call means, in the order of the table in `docs/RECORD.md`.

use std::collections::HashMap;
use std::sync::OnceLock;

/// What a call means. A number is the place of an argument, from 0.
#[derive(Clone, Copy, Debug, PartialEq, Eq)]
pub enum Meaning {
    /// A read from a descriptor, at its end.
    Reads(usize),
    /// A write to a descriptor, from its beginning.
    Writes(usize),
    /// A write to a socket, or to the address that the call names.
    Sends,
    /// The same, with the address in each message.
    SendsMessages,
    /// Pages of the process and a pipe, either way.
    Splices,
    /// A read and a write.
    Moves {
        from: usize,
        to: usize,
    },
    /// A read of an attribute of a file.
    ReadsAttribute(Way),
    /// A write of one.
    WritesAttribute(Way),
    /// A read or a write of an option of a socket.
    ReadsOption,
    WritesOption,
    /// A queue, semaphores or memory of System V, by number.
    ReadsQueue,
    WritesQueue,
    Semaphores,
    Attaches,
    /// The memory of the process that the first argument names.
    ReadsMemory,
    WritesMemory,
    /// A read of the system's own log.
    ReadsLog,
    /// A mapping of a file or of memory.
    Maps,
    Unmaps,
    Remaps,
    Protects,
    /// An open of the path at the first place, behind a folder if it is not 0.
    Opens(usize),
    /// A new memory file, or a counter.
    MakesMemory,
    /// A named pipe, if the mode says so.
    MakesNode(usize),
    /// A pipe.
    MakesPipe,
    MakesSocket,
    MakesSocketPair,
    Accepts,
    /// A socket gets an address, its own or that of the other side.
    Addresses {
        binds: bool,
    },
    /// It says which address a socket or its other side has.
    NamesAddress,
    /// A read of where a symbolic link leads.
    ReadsLink(Way),
    Duplicates,
    Controls,
    ControlsDevice,
    Closes,
    ClosesRange,
    Truncates,
    TruncatesPath,
    /// A change of what a file has beside its bytes: times, rights, room.
    Changes(Way),
    Executes(usize),
    /// Followed as the start of a process or thread.
    Clones,
    Renames(usize),
    Links(usize),
    Unlinks(usize),
    /// A symbolic link at the path at this place.
    MakesLink(usize),
    /// File systems come, go or move, and names with them.
    Mounts,
    ChangesFolder,
    /// The effective user id is the argument at this place.
    SetsUser(usize),
    /// A signal to the process at this place of the arguments.
    Signals(usize),
    /// A filter of calls.
    Filters,
    /// Limits of a process are set.
    Limits,
    /// An open by a handle, which can truncate.
    OpensHandle,
    /// It moves no data between containers.
    Nothing,
}

/// How a call names its file.
#[derive(Clone, Copy, Debug, PartialEq, Eq)]
pub enum Way {
    /// By a path at the first place, links followed.
    Path,
    /// By a path whose last link is not followed.
    Link,
    /// By a descriptor at the first place.
    Descriptor,
    /// By a folder's descriptor, a path, and flags at the given place, if there are any.
    At(Option<usize>),
}

use Meaning::*;
use Way::*;

/// The calls that are followed.
pub const CALLS: &[(&[&str], Meaning)] = &[
    (&["read", "pread64", "readv", "preadv", "preadv2"], Reads(0)),
    (&["recvfrom", "recvmsg", "recvmmsg", "mq_timedreceive"], Reads(0)),
    (&["write", "pwrite64", "writev", "pwritev", "pwritev2", "mq_timedsend"], Writes(0)),
    (&["sendmsg", "sendmmsg"], SendsMessages),
    (&["vmsplice"], Splices),
    (&["sendto"], Sends),
    (&["sendfile"], Moves { from: 1, to: 0 }),
    (&["splice", "copy_file_range"], Moves { from: 0, to: 2 }),
    (&["tee"], Moves { from: 0, to: 1 }),
    (&["getxattr"], ReadsAttribute(Path)),
    (&["lgetxattr"], ReadsAttribute(Link)),
    (&["fgetxattr"], ReadsAttribute(Descriptor)),
    (&["getxattrat"], ReadsAttribute(At(Some(2)))),
    (&["setxattr"], WritesAttribute(Path)),
    (&["lsetxattr"], WritesAttribute(Link)),
    (&["fsetxattr"], WritesAttribute(Descriptor)),
    (&["setxattrat"], WritesAttribute(At(Some(2)))),
    (&["getsockopt"], ReadsOption),
    (&["setsockopt"], WritesOption),
    (&["msgrcv"], ReadsQueue),
    (&["msgsnd"], WritesQueue),
    (&["semop", "semtimedop", "semctl"], Semaphores),
    (&["shmat"], Attaches),
    (&["process_vm_readv"], ReadsMemory),
    (&["process_vm_writev"], WritesMemory),
    (&["syslog"], ReadsLog),
    (&["mmap"], Maps),
    (&["munmap"], Unmaps),
    (&["mremap"], Remaps),
    (&["mprotect", "pkey_mprotect"], Protects),
    (&["open", "creat"], Opens(0)),
    (&["openat", "openat2"], Opens(1)),
    (&["memfd_create", "eventfd", "eventfd2"], MakesMemory),
    (&["mknod"], MakesNode(0)),
    (&["mknodat"], MakesNode(1)),
    (&["pipe", "pipe2"], MakesPipe),
    (&["socket"], MakesSocket),
    (&["socketpair"], MakesSocketPair),
    (&["accept", "accept4"], Accepts),
    (&["bind"], Addresses { binds: true }),
    (&["connect"], Addresses { binds: false }),
    (&["getsockname", "getpeername"], NamesAddress),
    (&["dup", "dup2", "dup3"], Duplicates),
    (&["fcntl"], Controls),
    (&["ioctl"], ControlsDevice),
    (&["close"], Closes),
    (&["close_range"], ClosesRange),
    (&["ftruncate"], Truncates),
    (&["truncate"], TruncatesPath),
    (&["fallocate", "fchmod", "fchown", "fremovexattr"], Changes(Descriptor)),
    (&["utime", "utimes", "chmod", "chown", "removexattr"], Changes(Path)),
    (&["lchown", "lremovexattr"], Changes(Link)),
    (&["utimensat"], Changes(At(Some(3)))),
    (&["futimesat", "fchmodat"], Changes(At(None))),
    (&["fchownat"], Changes(At(Some(4)))),
    (&["fchmodat2"], Changes(At(Some(3)))),
    (&["removexattrat"], Changes(At(Some(2)))),
    (&["file_setattr"], Changes(At(Some(4)))),
    (&["execve"], Executes(0)),
    (&["execveat"], Executes(1)),
    (&["clone", "clone3", "fork", "vfork"], Clones),
    (&["rename"], Renames(0)),
    (&["renameat", "renameat2"], Renames(1)),
    (&["link"], Links(0)),
    (&["linkat"], Links(1)),
    (&["unlink"], Unlinks(0)),
    (&["unlinkat"], Unlinks(1)),
    (&["symlink"], MakesLink(1)),
    (&["symlinkat"], MakesLink(2)),
    (&["readlink"], ReadsLink(Link)),
    (&["readlinkat"], ReadsLink(At(None))),
    (
        &[
            "mount",
            "umount2",
            "move_mount",
            "open_tree",
            "open_tree_attr",
            "fsmount",
            "mount_setattr",
            "pivot_root",
            "chroot",
        ],
        Mounts,
    ),
    (&["chdir", "fchdir"], ChangesFolder),
    (&["setuid"], SetsUser(0)),
    (&["setreuid", "setresuid"], SetsUser(1)),
    (&["kill", "tkill", "rt_sigqueueinfo", "pidfd_send_signal"], Signals(0)),
    (&["tgkill", "rt_tgsigqueueinfo"], Signals(1)),
    (&["seccomp"], Filters),
    (&["prlimit64", "setrlimit"], Limits),
    (&["open_by_handle_at"], OpensHandle),
];

/// The types of file systems whose files have no names elsewhere, but for that of processes.
pub const OWN_FILE_SYSTEMS: [&[u8]; 9] =
    [b"tmpfs", b"ramfs", b"proc", b"sysfs", b"devpts", b"devtmpfs", b"mqueue", b"cgroup2", b"hugetlbfs"];

/// The calls that move no data between containers: names, sizes, times and rights of files, memory of the process itself,
/// waiting, signals, clocks and the like. A live run does not ask strace for them.
pub const NO_DATA: &[&str] = &[
    // Names, sizes, times and rights.
    "access",
    "faccessat",
    "faccessat2",
    "stat",
    "fstat",
    "lstat",
    "newfstatat",
    "statx",
    "statfs",
    "fstatfs",
    "getcwd",
    "getdents",
    "getdents64",
    "mkdir",
    "mkdirat",
    "rmdir",
    "umask",
    "listxattr",
    "llistxattr",
    "flistxattr",
    "name_to_handle_at",
    "listxattrat",
    "file_getattr",
    "statmount",
    "listmount",
    "ustat",
    "sysfs",
    "mq_open",
    "mq_unlink",
    "mq_notify",
    "mq_getsetattr",
    "fanotify_mark",
    "cachestat",
    "inotify_init",
    "inotify_init1",
    "inotify_add_watch",
    "inotify_rm_watch",
    // Where and when a file is kept, not what is in it.
    "lseek",
    "fsync",
    "fdatasync",
    "sync",
    "syncfs",
    "sync_file_range",
    "fadvise64",
    "readahead",
    "flock",
    // The process's own memory.
    "brk",
    "madvise",
    "mincore",
    "msync",
    "mlock",
    "mlock2",
    "mlockall",
    "munlock",
    "munlockall",
    "mbind",
    "get_mempolicy",
    "set_mempolicy",
    "membarrier",
    "pkey_alloc",
    "pkey_free",
    "set_mempolicy_home_node",
    "move_pages",
    "migrate_pages",
    "remap_file_pages",
    "map_shadow_stack",
    "mseal",
    "memfd_secret",
    "shmget",
    "shmdt",
    "shmctl",
    "msgget",
    "msgctl",
    // Waiting.
    "poll",
    "ppoll",
    "select",
    "pselect6",
    "epoll_create",
    "epoll_create1",
    "epoll_ctl",
    "epoll_wait",
    "epoll_pwait",
    "epoll_pwait2",
    "futex",
    "futex_waitv",
    "futex_wait",
    "futex_wake",
    "futex_requeue",
    "wait4",
    "waitid",
    "pause",
    "nanosleep",
    "clock_nanosleep",
    "sched_yield",
    "semget",
    "restart_syscall",
    // Signals, timers, clocks.
    "rt_sigaction",
    "rt_sigprocmask",
    "rt_sigpending",
    "rt_sigreturn",
    "rt_sigsuspend",
    "rt_sigtimedwait",
    "sigaltstack",
    "signalfd",
    "signalfd4",
    "alarm",
    "pidfd_open",
    "getitimer",
    "setitimer",
    "timer_create",
    "timer_settime",
    "timer_gettime",
    "timer_getoverrun",
    "timer_delete",
    "timerfd_create",
    "timerfd_settime",
    "timerfd_gettime",
    "clock_gettime",
    "clock_getres",
    "clock_settime",
    "clock_adjtime",
    "adjtimex",
    "gettimeofday",
    "time",
    "times",
    // The process itself: numbers, limits, rights.
    "getpid",
    "getppid",
    "gettid",
    "getpgrp",
    "getpgid",
    "setpgid",
    "getsid",
    "setsid",
    "getuid",
    "geteuid",
    "getgid",
    "getegid",
    "getresuid",
    "getresgid",
    "getgroups",
    "setgroups",
    "setgid",
    "setregid",
    "setresgid",
    "setfsuid",
    "setfsgid",
    "capget",
    "capset",
    "prctl",
    "arch_prctl",
    "personality",
    "getrlimit",
    "getrusage",
    "getpriority",
    "setpriority",
    "ioprio_get",
    "ioprio_set",
    "sched_setparam",
    "sched_getparam",
    "sched_setscheduler",
    "sched_getscheduler",
    "sched_get_priority_max",
    "sched_get_priority_min",
    "sched_rr_get_interval",
    "sched_setaffinity",
    "sched_getaffinity",
    "sched_setattr",
    "sched_getattr",
    "set_tid_address",
    "set_robust_list",
    "get_robust_list",
    "rseq",
    "getcpu",
    "exit",
    "exit_group",
    "kcmp",
    "pidfd_getfd",
    "unshare",
    "setns",
    "process_madvise",
    "process_mrelease",
    "lsm_get_self_attr",
    "lsm_set_self_attr",
    "lsm_list_modules",
    "landlock_create_ruleset",
    "landlock_add_rule",
    "landlock_restrict_self",
    "vhangup",
    "ioperm",
    "iopl",
    // The machine.
    "uname",
    "sysinfo",
    "getrandom",
    // Sockets without what is sent.
    "listen",
    "shutdown",
];

/// Calls of which nothing need be seen in a live run, since descriptors, folders and users are asked at their use.
pub fn seen_at_use(meaning: Meaning) -> bool {
    matches!(
        meaning,
        Unmaps
            | Remaps
            | Protects
            | MakesMemory
            | MakesPipe
            | MakesSocket
            | Controls
            | ChangesFolder
            | SetsUser(_)
            | Nothing
    )
}

/// Calls that change what a descriptor stands for, or may do so.
pub fn changes_by_descriptor(meaning: Meaning) -> bool {
    match meaning {
        Writes(_) | Sends | SendsMessages | Moves { .. } | Splices | Truncates | ControlsDevice | Maps => true,
        WritesAttribute(way) | Changes(way) => !matches!(way, Path | Link),
        _ => false,
    }
}

/// Calls that change which descriptor a number stands for: while guarding they wait for those that are judged.
pub fn moves_descriptors(meaning: Meaning) -> bool {
    matches!(meaning, Closes | ClosesRange | Duplicates)
}

/// The device controls that move no data between containers, by the first letters of their names.
pub const NO_DATA_CONTROLS: &[&str] =
    &["TC", "TIOCG", "TIOCS", "TIOCN", "TIOCEXCL", "FIO", "FS_IOC_", "FIBMAP", "SIOC"];

/// What a device control means in a live run, where it is a number.
#[derive(Clone, Copy, Debug, PartialEq, Eq)]
pub enum Control {
    NoData,
    /// Data of the file whose descriptor is the argument, or stands first in it.
    Clones,
    ClonesRange,
    /// It sets flags of a file.
    ChangesFile,
    /// It types on a terminal.
    Types,
    ReadsSettings,
    WritesSettings,
    NotKnown,
}

impl Control {
    pub fn clones(self) -> bool {
        matches!(self, Control::Clones | Control::ClonesRange)
    }
}

/// The device controls that move no data, by the letter that is their second byte: sockets, blocks,
/// random numbers, name spaces, processes.
const NO_DATA_LETTERS: [u8; 5] = [0x89, 0x12, b'R', 0xb7, 0xff];

/// Those of terminals and descriptors; behind them the letter is that of tunnels and others.
const TERMINAL_CONTROLS: std::ops::RangeInclusive<u32> = 0x5400..=0x5460;

/// Single ones: blocks of a file, its flags, extents and version, numbers and modes of terminals, the kind of a console.
const NO_DATA_NUMBERS: [u32; 16] = [
    1,
    2,
    0x8008_6601,
    0xc020_660b,
    0x8008_7601,
    0x801c_581f,
    0x4b33,
    0x4b3b,
    0x8004_5430,
    0x4004_5431,
    0x8004_5432,
    0x8004_5438,
    0x8004_5439,
    0x8004_5440,
    0x5441,
    0x4004_5436,
];

/// What a device control means.
pub fn control(number: u32) -> Control {
    match number {
        0x4004_9409 => Control::Clones,
        0x4020_940d => Control::ClonesRange,
        0x5412 => Control::Types,
        0x5401 | 0x5405 | 0x5413 | 0x802c_542a => Control::ReadsSettings,
        0x5402..=0x5404 | 0x5406..=0x5408 | 0x5414 | 0x402c_542b..=0x402c_542d => Control::WritesSettings,
        0x541c => Control::NotKnown,
        0x4008_6602 | 0x401c_5820 => Control::ChangesFile,
        _ if TERMINAL_CONTROLS.contains(&number) => Control::NoData,
        _ if NO_DATA_LETTERS.contains(&((number >> 8) as u8)) || NO_DATA_NUMBERS.contains(&number) => Control::NoData,
        _ => Control::NotKnown,
    }
}

/// What a call means; nothing if the tables do not have it.
pub fn meaning(name: &str) -> Option<Meaning> {
    static MEANINGS: OnceLock<HashMap<&str, Meaning>> = OnceLock::new();
    let all = MEANINGS.get_or_init(|| {
        let followed = CALLS.iter().flat_map(|(names, meaning)| names.iter().map(|name| (*name, *meaning)));
        NO_DATA.iter().map(|name| (*name, Nothing)).chain(followed).collect()
    });
    all.get(name).copied()
}
