//! The filter in the kernel: calls without data run free, everything else stops, numbers above the table and 32-bit calls too.

use crate::numbers;
use crate::sys::{Instruction, AUDIT_ARCH_X86_64};
use crate::table::{self, Meaning};

const LOAD: u16 = (libc::BPF_LD | libc::BPF_W | libc::BPF_ABS) as u16;
const EQUAL: u16 = (libc::BPF_JMP | libc::BPF_JEQ | libc::BPF_K) as u16;
const AT_LEAST: u16 = (libc::BPF_JMP | libc::BPF_JGE | libc::BPF_K) as u16;
const ANY_BIT: u16 = (libc::BPF_JMP | libc::BPF_JSET | libc::BPF_K) as u16;
const RETURN: u16 = (libc::BPF_RET | libc::BPF_K) as u16;

/// Where `struct seccomp_data` has the number, the architecture and the low half of the arguments.
const NUMBER: u32 = 0;
const ARCHITECTURE: u32 = 4;
const ARGUMENTS: u32 = 16;

/// The bit that marks calls of the x32 convention.
const X32: u32 = 0x4000_0000;

/// An instruction of the filter.
fn instruction(code: u16, jt: u8, jf: u8, k: u32) -> Instruction {
    Instruction { code, jt, jf, k }
}

/// The call runs free.
fn free() -> Instruction {
    instruction(RETURN, 0, 0, libc::SECCOMP_RET_ALLOW)
}

/// The call stops.
fn stopped() -> Instruction {
    instruction(RETURN, 0, 0, libc::SECCOMP_RET_TRACE)
}

/// Loads the low half of an argument.
fn argument(place: u32) -> Instruction {
    instruction(LOAD, 0, 0, ARGUMENTS + 8 * place)
}

/// Whether a call runs free, whatever its arguments.
fn runs_free(name: &str, guard: bool) -> bool {
    let meaning = table::meaning(name);
    meaning.is_some_and(|meaning| {
        table::seen_at_use(meaning)
            || name == "fork"
            || name == "vfork"
            || !guard && (table::moves_descriptors(meaning) || matches!(meaning, Meaning::Changes(_)))
            || !guard && name == "setrlimit"
    })
}

/// A call that stops only if one of these bits of an argument is set.
fn stops_by(name: &str, place: u32, bits: i32) -> Vec<Instruction> {
    let Some(number) = numbers::number(name) else { return Vec::new() };
    let test = [argument(place), instruction(ANY_BIT, 1, 0, bits as u32), free(), stopped()];
    [&[instruction(EQUAL, 0, test.len() as u8, number)][..], &test].concat()
}

/// A call that stops only if an argument is not 0.
fn stops_unless_zero(name: &str, place: u32) -> Vec<Instruction> {
    let Some(number) = numbers::number(name) else { return Vec::new() };
    let high = instruction(LOAD, 0, 0, ARGUMENTS + 8 * place + 4);
    let test = [argument(place), instruction(EQUAL, 0, 3, 0), high, instruction(EQUAL, 0, 1, 0), free(), stopped()];
    [&[instruction(EQUAL, 0, test.len() as u8, number)][..], &test].concat()
}

/// A mapping stops unless it is of memory that the process has for itself.
fn mappings() -> Vec<Instruction> {
    let Some(number) = numbers::number("mmap") else { return Vec::new() };
    let test = [
        argument(3),
        instruction(ANY_BIT, 0, 2, libc::MAP_ANONYMOUS as u32),
        instruction(ANY_BIT, 1, 0, libc::MAP_SHARED as u32),
        free(),
        stopped(),
    ];
    [&[instruction(EQUAL, 0, test.len() as u8, number)][..], &test].concat()
}

/// The filter of a run. Opens that neither make nor truncate a file are seen at the use of the descriptor.
pub fn build(guard: bool) -> Vec<Instruction> {
    let mut filter = vec![
        instruction(LOAD, 0, 0, ARCHITECTURE),
        instruction(EQUAL, 1, 0, AUDIT_ARCH_X86_64),
        stopped(),
        instruction(LOAD, 0, 0, NUMBER),
        instruction(AT_LEAST, 0, 1, X32),
        stopped(),
    ];
    for (name, number) in numbers::CALLS.iter().filter(|(name, _)| runs_free(name, guard)) {
        debug_assert!(table::meaning(name).is_some());
        filter.extend([instruction(EQUAL, 0, 1, *number as u32), free()]);
    }
    let made = libc::O_CREAT | libc::O_TRUNC | (libc::O_TMPFILE & !libc::O_DIRECTORY);
    filter.extend(stops_by("open", 1, made));
    filter.extend(stops_by("openat", 2, made));
    filter.extend(stops_by("clone", 0, libc::CLONE_UNTRACED));
    filter.extend(stops_by("open_by_handle_at", 2, libc::O_TRUNC));
    filter.extend(stops_unless_zero("prlimit64", 2));
    filter.extend(mappings());
    filter.push(stopped());
    filter
}
