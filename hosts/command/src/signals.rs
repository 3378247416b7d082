//! Signals that end the command: the program that it runs is ended instead, so that the command comes to its end and what it made goes with it.

use std::sync::atomic::{AtomicI32, Ordering};

use crate::status::FAILED;

/// The program that runs; 0 if none does.
static PROGRAM: AtomicI32 = AtomicI32::new(0);

/// Ends the program, or the command where there is none.
extern "C" fn end(_: libc::c_int) {
    let program = PROGRAM.load(Ordering::SeqCst);
    // SAFETY: both calls may be made in a handler of signals, and touch no memory.
    unsafe {
        if program > 0 {
            libc::kill(program, libc::SIGKILL);
        } else {
            libc::_exit(FAILED.into());
        }
    }
}

/// From now on a signal that would end the command ends this program.
pub fn end_instead(program: u32) {
    PROGRAM.store(program as i32, Ordering::SeqCst);
    take(end);
}

/// Takes the signals that would end the command. Those that are ignored stay so.
fn take(handler: extern "C" fn(libc::c_int)) {
    for signal in [libc::SIGINT, libc::SIGTERM, libc::SIGHUP] {
        // SAFETY: the handler makes only calls that a handler may make.
        unsafe {
            if libc::signal(signal, handler as libc::sighandler_t) == libc::SIG_IGN {
                libc::signal(signal, libc::SIG_IGN);
            }
        }
    }
}

/// Hands a signal on to the program, but for an interrupt, which a terminal gives to both.
extern "C" fn hand_on(signal: libc::c_int) {
    let program = PROGRAM.load(Ordering::SeqCst);
    if program > 0 && signal != libc::SIGINT {
        // SAFETY: the call may be made in a handler of signals, and touches no memory.
        unsafe {
            libc::kill(program, signal);
        }
    }
}

/// From now on it is for this program to end at a signal; the command waits for it.
pub fn leave_to(program: u32) {
    PROGRAM.store(program as i32, Ordering::SeqCst);
    take(hand_on);
}

/// The program has ended.
pub fn ended() {
    PROGRAM.store(0, Ordering::SeqCst);
}
