//! The calls to the system that the tracer makes, as safe functions: all `unsafe` of this program stands here. Functions, numbers and
//! layouts are those of the crate `libc`; what Debian's version of it does not have is defined below, and a test compares it
//! with the system's headers.

use std::ffi::{CStr, CString, OsString};
use std::fs::File;
use std::io::{self, Read, Write};
use std::mem::{size_of, size_of_val, zeroed};
use std::os::fd::{AsRawFd, FromRawFd, OwnedFd};
use std::os::unix::ffi::OsStringExt;
use std::ptr;
use std::sync::atomic::{AtomicBool, Ordering};

use libc::{c_int, c_long, c_uint, c_void};

pub use libc::sock_filter as Instruction;
pub use libc::user_regs_struct as Registers;

/// A task: a thread as the system numbers it.
pub type Tid = i32;

/// `struct ptrace_syscall_info`, as far as an entry and a stop by the filter fill it in.
#[repr(C)]
#[derive(Clone, Copy, Debug, Default)]
pub struct CallInfo {
    op: u8,
    padding: [u8; 3],
    pub architecture: u32,
    instruction: u64,
    stack: u64,
    pub number: u64,
    pub arguments: [u64; 6],
    data: u32,
    reserved: u32,
}

/// Numbers that the crate does not have.
pub const PTRACE_GET_SYSCALL_INFO: c_uint = 0x420e;
pub const PTRACE_EVENT_STOP: c_int = 128;
pub const AUDIT_ARCH_X86_64: u32 = 0xc000_003e;
pub const KCMP_VM: c_int = 1;
pub const KCMP_FILES: c_int = 2;
pub const PIDFD_THREAD: c_uint = libc::O_EXCL as c_uint;
pub const SOCK_DIAG_BY_FAMILY: u16 = 20;
pub const UDIAG_SHOW_PEER: u32 = 4;
pub const UNIX_DIAG_PEER: u16 = 2;
/// `GETPID`, `GETVAL`, `GETALL`, `GETNCNT`, `GETZCNT` of semaphores.
pub const SEMAPHORE_READS: std::ops::RangeInclusive<c_int> = 11..=15;

const OPTIONS: c_int = libc::PTRACE_O_TRACESYSGOOD
    | libc::PTRACE_O_TRACEFORK
    | libc::PTRACE_O_TRACEVFORK
    | libc::PTRACE_O_TRACECLONE
    | libc::PTRACE_O_TRACEEXEC
    | libc::PTRACE_O_TRACESECCOMP
    | libc::PTRACE_O_EXITKILL;

/// A result of the system as a number or an error.
fn checked(result: c_long) -> io::Result<c_long> {
    if result < 0 {
        Err(io::Error::last_os_error())
    } else {
        Ok(result)
    }
}

/// What a task has come to.
#[derive(Clone, Copy, Debug, PartialEq, Eq)]
pub enum Stop {
    Exited {
        code: i32,
    },
    Killed {
        signal: i32,
        core: bool,
    },
    /// The filter has stopped a call before it is made.
    Filter,
    /// A call that was let go on up to its end.
    CallEnd,
    /// A child, by whatever call.
    Birth {
        vfork: bool,
    },
    Exec,
    /// A stop of the whole process by a signal.
    Group,
    /// A stop of the tracer's own making.
    Trap,
    Signal {
        signal: i32,
    },
}

/// What a status says of a task.
fn stop(status: c_int) -> Stop {
    if libc::WIFEXITED(status) {
        return Stop::Exited { code: libc::WEXITSTATUS(status) };
    }
    if libc::WIFSIGNALED(status) {
        return Stop::Killed { signal: libc::WTERMSIG(status), core: libc::WCOREDUMP(status) };
    }
    let signal = libc::WSTOPSIG(status);
    match status >> 16 {
        libc::PTRACE_EVENT_SECCOMP => Stop::Filter,
        libc::PTRACE_EVENT_VFORK => Stop::Birth { vfork: true },
        libc::PTRACE_EVENT_FORK | libc::PTRACE_EVENT_CLONE => Stop::Birth { vfork: false },
        libc::PTRACE_EVENT_EXEC => Stop::Exec,
        PTRACE_EVENT_STOP if signal != libc::SIGTRAP => Stop::Group,
        PTRACE_EVENT_STOP => Stop::Trap,
        _ if signal == libc::SIGTRAP | 0x80 => Stop::CallEnd,
        _ => Stop::Signal { signal },
    }
}

/// Waits for any task, or for one; nothing if there is none left. An interrupt of this program ends the wait with an error.
pub fn wait(task: Option<Tid>) -> io::Result<Option<(Tid, Stop)>> {
    let mut status = 0;
    // SAFETY: the status outlives the call.
    let tid = unsafe { libc::waitpid(task.unwrap_or(-1), &mut status, libc::__WALL) };
    match checked(tid.into()) {
        Ok(_) => Ok(Some((tid, stop(status)))),
        Err(error) if error.raw_os_error() == Some(libc::ECHILD) => Ok(None),
        Err(error) => Err(error),
    }
}

/// A command that is traced from its first call on, and the end of a pipe that says why it could not be executed.
pub struct Started {
    pub task: Tid,
    failure: File,
}

impl Started {
    /// Why the command was not executed.
    pub fn failure(&mut self) -> Option<io::Error> {
        let mut bytes = [0; 4];
        self.failure.read_exact(&mut bytes).ok()?;
        Some(io::Error::from_raw_os_error(i32::from_ne_bytes(bytes)))
    }
}

/// Both ends of a new pipe.
fn pipe() -> io::Result<(File, File)> {
    let mut ends = [0; 2];
    // SAFETY: there is room for two descriptors, which nobody else has.
    unsafe {
        checked(libc::pipe2(ends.as_mut_ptr(), libc::O_CLOEXEC).into())?;
        Ok((File::from_raw_fd(ends[0]), File::from_raw_fd(ends[1])))
    }
}

/// Starts a command under the filter, with core dumps or without. It waits for the tracer before its first call, and is killed with it.
pub fn start(command: &[OsString], filter: &[Instruction], dumps: bool) -> io::Result<Started> {
    let words: Result<Vec<CString>, _> = command.iter().map(|word| CString::new(word.clone().into_vec())).collect();
    let words = words?;
    let mut arguments: Vec<*const libc::c_char> = words.iter().map(|word| word.as_ptr()).collect();
    arguments.push(ptr::null());
    let ((go, mut going), (failure, failing)) = (pipe()?, pipe()?);
    // SAFETY: this program has one thread. The child calls functions that are safe behind a fork, with what was made before it.
    let task = unsafe {
        let task = checked(libc::fork().into())? as Tid;
        if task == 0 {
            if !dumps {
                let none = libc::rlimit { rlim_cur: 0, rlim_max: 0 };
                libc::setrlimit(libc::RLIMIT_CORE, &none);
            }
            execute(&arguments, filter, go.as_raw_fd(), failing.as_raw_fd());
        }
        task
    };
    // SAFETY: no memory is handed over.
    checked(unsafe { libc::ptrace(libc::PTRACE_SEIZE, task, 0usize, OPTIONS as usize) })?;
    going.write_all(b"g")?;
    Ok(Started { task, failure })
}

/// In the child: waits, puts the filter into force and executes the command; else says why not.
unsafe fn execute(arguments: &[*const libc::c_char], filter: &[Instruction], go: c_int, failing: c_int) -> ! {
    let mut byte = 0u8;
    libc::read(go, ptr::addr_of_mut!(byte).cast(), 1);
    let program = libc::sock_fprog { len: filter.len() as u16, filter: filter.as_ptr().cast_mut() };
    let install = || libc::syscall(libc::SYS_seccomp, libc::SECCOMP_SET_MODE_FILTER, 0, ptr::addr_of!(program));
    let mut done = install();
    if done != 0 {
        // Without rights of its own: programs that are set to run as another user do not get that user's rights then.
        libc::prctl(libc::PR_SET_NO_NEW_PRIVS, 1, 0, 0, 0);
        done = install();
    }
    if done == 0 {
        libc::execvp(arguments[0], arguments.as_ptr());
    }
    let error = *libc::__errno_location();
    libc::write(failing, ptr::addr_of!(error).cast(), size_of_val(&error));
    libc::_exit(127)
}

/// How far a task goes on.
#[derive(Clone, Copy, Debug, PartialEq, Eq)]
pub enum Until {
    /// The next call that the filter stops.
    NextCall,
    /// The end of the call that it is in.
    CallEnd,
}

/// Lets a stopped task go on. One that was killed meanwhile is told by `wait`.
pub fn resume(task: Tid, until: Until, signal: i32) {
    let request = match until {
        Until::NextCall => libc::PTRACE_CONT,
        Until::CallEnd => libc::PTRACE_SYSCALL,
    };
    // SAFETY: no memory is handed over.
    unsafe { libc::ptrace(request, task, 0usize, signal as usize) };
}

/// Leaves a task in the stop of its process, until that goes on.
pub fn listen(task: Tid) {
    // SAFETY: no memory is handed over.
    unsafe { libc::ptrace(libc::PTRACE_LISTEN, task, 0usize, 0usize) };
}

/// Asks a running task to stop.
pub fn interrupt(task: Tid) -> io::Result<()> {
    // SAFETY: no memory is handed over.
    checked(unsafe { libc::ptrace(libc::PTRACE_INTERRUPT, task, 0usize, 0usize) }).map(|_| ())
}

/// The call at whose beginning a task has stopped.
pub fn call_info(task: Tid) -> io::Result<CallInfo> {
    let mut info = CallInfo::default();
    // SAFETY: the system writes at most as many bytes as the structure has.
    let done = unsafe { libc::ptrace(PTRACE_GET_SYSCALL_INFO, task, size_of::<CallInfo>(), ptr::addr_of_mut!(info)) };
    checked(done).map(|_| info)
}

/// The registers of a stopped task.
pub fn registers(task: Tid) -> io::Result<Registers> {
    // SAFETY: the structure has numbers alone, and the system fills it.
    unsafe {
        let mut registers: Registers = zeroed();
        checked(libc::ptrace(libc::PTRACE_GETREGS, task, 0usize, ptr::addr_of_mut!(registers)))?;
        Ok(registers)
    }
}

/// Sets them.
pub fn set_registers(task: Tid, registers: &Registers) -> io::Result<()> {
    // SAFETY: the system reads the structure.
    checked(unsafe { libc::ptrace(libc::PTRACE_SETREGS, task, 0usize, ptr::from_ref(registers)) }).map(|_| ())
}

/// The number that comes with an event: the child, or the number that a thread had before its exec.
pub fn event_message(task: Tid) -> io::Result<Tid> {
    let mut message = 0u64;
    // SAFETY: the system writes one number.
    checked(unsafe { libc::ptrace(libc::PTRACE_GETEVENTMSG, task, 0usize, ptr::addr_of_mut!(message)) })?;
    Ok(message as Tid)
}

/// Reads memory of a task; gives how many bytes were there.
pub fn read_memory(task: Tid, address: u64, into: &mut [u8]) -> usize {
    let local = libc::iovec { iov_base: into.as_mut_ptr().cast(), iov_len: into.len() };
    let remote = libc::iovec { iov_base: address as *mut c_void, iov_len: into.len() };
    // SAFETY: the local part is the slice; the remote one is read in the task's memory.
    let read = unsafe { libc::process_vm_readv(task, &local, 1, &remote, 1, 0) };
    usize::try_from(read).unwrap_or(0)
}

/// Takes up the stop of a task if there is one.
pub fn poll(task: Tid) -> io::Result<Option<Stop>> {
    let mut status = 0;
    // SAFETY: the status outlives the call.
    let tid = unsafe { libc::waitpid(task, &mut status, libc::__WALL | libc::WNOHANG) };
    checked(tid.into()).map(|tid| (tid != 0).then(|| stop(status)))
}

/// Whether two tasks have one table of descriptors.
pub fn share_descriptors(one: Tid, other: Tid) -> io::Result<bool> {
    // SAFETY: numbers alone.
    checked(unsafe { libc::syscall(libc::SYS_kcmp, one, other, KCMP_FILES, 0, 0) }).map(|order| order == 0)
}

/// Whether two tasks have one memory.
pub fn share_memory(one: Tid, other: Tid) -> io::Result<bool> {
    // SAFETY: numbers alone.
    checked(unsafe { libc::syscall(libc::SYS_kcmp, one, other, KCMP_VM, 0, 0) }).map(|order| order == 0)
}

/// Ends a task's process.
pub fn kill(task: Tid) {
    // SAFETY: no memory is handed over.
    unsafe { libc::kill(task, libc::SIGKILL) };
}

/// What the system says of a file.
#[derive(Clone, Copy, Debug, PartialEq, Eq)]
pub struct Status {
    pub device: u64,
    pub inode: u64,
    /// In nanoseconds; 0 where the file system does not keep it.
    pub birth: u64,
    pub mode: u32,
    pub links: u32,
    pub size: u64,
    /// Of a device file: major and minor number.
    pub device_file: (u32, u32),
}

impl Status {
    /// Whether it is a file of this kind.
    pub fn is(&self, kind: u32) -> bool {
        self.mode & libc::S_IFMT == kind
    }
}

pub use libc::{S_IFBLK, S_IFCHR, S_IFDIR, S_IFIFO, S_IFREG, S_IFSOCK};

/// The file at a path, or the link itself.
pub fn status(path: &CStr, follow: bool) -> io::Result<Status> {
    let flags = if follow { 0 } else { libc::AT_SYMLINK_NOFOLLOW };
    status_at(libc::AT_FDCWD, path, flags)
}

/// The file of a descriptor.
pub fn status_of(descriptor: &OwnedFd) -> io::Result<Status> {
    status_at(descriptor.as_raw_fd(), c"", libc::AT_EMPTY_PATH)
}

/// What the system says of a path below a folder.
fn status_at(folder: c_int, path: &CStr, flags: c_int) -> io::Result<Status> {
    // SAFETY: the path ends with a zero byte; the structure has numbers alone, and the system fills it.
    let found = unsafe {
        let mut found: libc::statx = zeroed();
        let mask = libc::STATX_BASIC_STATS | libc::STATX_BTIME;
        checked(libc::statx(folder, path.as_ptr(), flags, mask, &mut found).into())?;
        found
    };
    let born = found.stx_mask & libc::STATX_BTIME != 0;
    Ok(Status {
        device: u64::from(found.stx_dev_major) << 32 | u64::from(found.stx_dev_minor),
        inode: found.stx_ino,
        birth: if born {
            (found.stx_btime.tv_sec as u64).wrapping_mul(1_000_000_000) + u64::from(found.stx_btime.tv_nsec)
        } else {
            0
        },
        mode: u32::from(found.stx_mode),
        links: found.stx_nlink,
        size: found.stx_size,
        device_file: (found.stx_rdev_major, found.stx_rdev_minor),
    })
}

/// The kind of the file system of a path.
pub fn file_system(path: &CStr) -> io::Result<libc::c_long> {
    // SAFETY: the path ends with a zero byte; the structure has numbers alone, and the system fills it.
    unsafe {
        let mut found: libc::statfs = zeroed();
        checked(libc::statfs(path.as_ptr(), &mut found).into())?;
        Ok(found.f_type)
    }
}

/// A copy of a task's descriptor.
pub fn copy_descriptor(task: Tid, number: i32) -> io::Result<OwnedFd> {
    // SAFETY: both calls take numbers and give a descriptor that nobody else has.
    unsafe {
        let owned = |found: c_long| OwnedFd::from_raw_fd(found as c_int);
        let thread = checked(libc::syscall(libc::SYS_pidfd_open, task, PIDFD_THREAD));
        // Before Linux 6.9 there are none of threads; the process has the same descriptors as a rule.
        let process =
            thread.or_else(|_| checked(libc::syscall(libc::SYS_pidfd_open, process_of(task), 0))).map(owned)?;
        checked(libc::syscall(libc::SYS_pidfd_getfd, process.as_raw_fd(), number, 0)).map(owned)
    }
}

/// The process of a task, by its number.
pub fn process_of(task: Tid) -> Tid {
    let status = std::fs::read_to_string(format!("/proc/{task}/status")).unwrap_or_default();
    let found = status.lines().find_map(|line| line.strip_prefix("Tgid:"));
    found.and_then(|number| number.trim().parse().ok()).unwrap_or(task)
}

/// The address of a socket, or that of its other side, as the system writes it.
pub fn socket_address(socket: &OwnedFd, other_side: bool) -> io::Result<Vec<u8>> {
    let mut address = [0u8; size_of::<libc::sockaddr_storage>()];
    let mut length = address.len() as libc::socklen_t;
    let to: *mut libc::sockaddr = address.as_mut_ptr().cast();
    // SAFETY: the system writes at most as many bytes as there are.
    let done = unsafe {
        match other_side {
            true => libc::getpeername(socket.as_raw_fd(), to, &mut length),
            false => libc::getsockname(socket.as_raw_fd(), to, &mut length),
        }
    };
    checked(done.into())?;
    Ok(address[..(length as usize).min(address.len())].to_vec())
}

/// A number among the options of a socket.
pub fn socket_option(socket: &OwnedFd, name: c_int) -> io::Result<c_int> {
    let (mut value, mut length) = (0, size_of::<c_int>() as libc::socklen_t);
    let to = ptr::addr_of_mut!(value).cast();
    // SAFETY: there is room for the one number.
    let done = unsafe { libc::getsockopt(socket.as_raw_fd(), libc::SOL_SOCKET, name, to, &mut length) };
    checked(done.into()).map(|_| value)
}

/// The inode of the other side of a local socket, asked of the system (`sock_diag`); nothing if it has none.
pub fn local_peer(inode: u64) -> io::Result<Option<u64>> {
    let mut request: Vec<u8> = Vec::new();
    let kind = u32::from(SOCK_DIAG_BY_FAMILY) | (libc::NLM_F_REQUEST as u32) << 16;
    let family = libc::AF_UNIX as u32;
    for word in [40, kind, 1, 0, family, u32::MAX, inode as u32, UDIAG_SHOW_PEER, u32::MAX, u32::MAX] {
        request.extend(word.to_ne_bytes());
    }
    // SAFETY: a new descriptor that nobody else has.
    let mut socket = unsafe {
        let kind = libc::SOCK_RAW | libc::SOCK_CLOEXEC;
        File::from_raw_fd(checked(libc::socket(libc::AF_NETLINK, kind, libc::NETLINK_SOCK_DIAG).into())? as c_int)
    };
    socket.write_all(&request)?;
    let mut answer = [0; 4096];
    let length = socket.read(&mut answer)?;
    Ok(peer_in(&answer[..length]))
}

/// The other side in an answer of `sock_diag`: attributes behind two headers of 16 bytes.
fn peer_in(answer: &[u8]) -> Option<u64> {
    let short = |at: usize| answer.get(at..at + 2).map(|bytes| u16::from_ne_bytes([bytes[0], bytes[1]]));
    if short(4)? != SOCK_DIAG_BY_FAMILY {
        return None;
    }
    let mut at = 32;
    while let (Some(length), Some(kind)) = (short(at), short(at + 2)) {
        if kind == UNIX_DIAG_PEER {
            let bytes = answer.get(at + 4..at + 8)?;
            let inode = u32::from_ne_bytes([bytes[0], bytes[1], bytes[2], bytes[3]]);
            return Some(inode.into()).filter(|inode| *inode != 0);
        }
        at += usize::from(length.max(4)).next_multiple_of(4);
    }
    None
}

static INTERRUPTED: AtomicBool = AtomicBool::new(false);
static TERMINATED: AtomicBool = AtomicBool::new(false);

extern "C" fn note_signal(number: c_int) {
    let noted = if number == libc::SIGTERM || number == libc::SIGHUP { &TERMINATED } else { &INTERRUPTED };
    noted.store(true, Ordering::Relaxed);
}

/// Lets this program outlive interrupts from the terminal, which the command gets too; they are noted, and end a wait.
pub fn note_interrupts() {
    for number in [libc::SIGINT, libc::SIGQUIT, libc::SIGTERM, libc::SIGHUP] {
        // SAFETY: the handler stores one value, which is safe at any time. No flags: a wait shall end.
        unsafe {
            let mut action: libc::sigaction = zeroed();
            action.sa_sigaction = note_signal as *const () as usize;
            libc::sigaction(number, &action, ptr::null_mut());
        }
    }
}

/// Whether an interrupt has come since the last question.
pub fn interrupted() -> bool {
    INTERRUPTED.swap(false, Ordering::Relaxed)
}

/// Whether this program was asked to end.
pub fn terminated() -> bool {
    TERMINATED.load(Ordering::Relaxed)
}

/// The effective user id of this program.
pub fn user() -> u32 {
    // SAFETY: it cannot fail.
    unsafe { libc::geteuid() }
}

#[cfg(test)]
mod tests {
    use super::*;
    use std::mem::offset_of;

    /// As `struct ptrace_syscall_info`, which a test compares with the system's header.
    #[test]
    fn call_info_has_the_system_s_layout() {
        assert_eq!(offset_of!(CallInfo, architecture), 4);
        assert_eq!(offset_of!(CallInfo, number), 24);
        assert_eq!(offset_of!(CallInfo, arguments), 32);
        assert_eq!(offset_of!(CallInfo, data), 80);
        assert_eq!(size_of::<CallInfo>(), 88);
    }
}
