//! The judge behind the C interface of the library, under the same names. Linked in place of the library it tests the
//! tests: the whole judge must pass them, and with a planted fault (`faults`) they must fail.

mod composition;
mod explain;
pub mod faults;
mod game;
mod gather;
mod owners;
mod profiles;
mod silence;
mod step;
mod trim;
mod withdrawals;

use std::slice::{from_raw_parts, from_raw_parts_mut};

use faults::{planted, Fault};
use judge::game::Game;
use judge::numbers::{user_row, CONTAINERS, HEADER, LONGEST_NORMAL, MIXTURES, RULES, UNRESTRICTED, USERS};
use judge::rules::NO_POSITION;
use judge::session::{outcome, Outcome};
use judge::withdrawals::Rows;
use judge::{image, matrix, normal, session};

/// The version of this package, as the library gives its own.
#[no_mangle]
pub extern "C" fn yaslaurel_version() -> u32 {
    let parts = env!("CARGO_PKG_VERSION").split('.').map(|part| part.parse::<u32>().expect("cargo has numbers here"));
    parts.fold(0, |number, part| number * 256 + part)
}

/// # Safety
/// As `include/yaslaurel.h` says.
#[no_mangle]
pub unsafe extern "C" fn yaslaurel_image_check(bytes: *const u8, length: usize) -> u32 {
    let bytes = from_raw_parts(bytes, length);
    let number = owners::checked(bytes, image::check(bytes));
    if planted(Fault::GuardedRefusedByImage) && [0, 6].contains(&number) && has_guarded(bytes) {
        return 5;
    }
    if planted(Fault::UsersBeforeContainers) && number == 5 && users_wrong(bytes) {
        return 6;
    }
    number
}

/// The 16-bit number at a place of an image.
fn number_at(bytes: &[u8], place: usize) -> usize {
    usize::from(u16::from_le_bytes([bytes[place], bytes[place + 1]]))
}

/// Whether an image whose containers pass has a guarded one.
fn has_guarded(bytes: &[u8]) -> bool {
    let (offset, length) = (number_at(bytes, CONTAINERS.offset_at), number_at(bytes, CONTAINERS.length_at));
    bytes[offset..offset + length].chunks(CONTAINERS.size).any(|record| record[0] == 4)
}

/// Whether a user's rule number is wrong in an image that is refused with 5.
fn users_wrong(bytes: &[u8]) -> bool {
    let (offset, length) = (number_at(bytes, USERS.offset_at), number_at(bytes, USERS.length_at));
    let rules = number_at(bytes, RULES.length_at) / RULES.size;
    let mut numbers = (offset..offset + length).step_by(USERS.size).map(|place| number_at(bytes, place));
    numbers.any(|number| number != usize::from(UNRESTRICTED) && number >= rules)
}

/// # Safety
/// As `include/yaslaurel.h` says.
#[no_mangle]
pub unsafe extern "C" fn yaslaurel_image_normalise(
    bytes: *const u8,
    length: usize,
    out: *mut u8,
    out_length: usize,
) -> u32 {
    let bytes = from_raw_parts(bytes, length);
    let out = from_raw_parts_mut(out, out_length);
    if planted(Fault::NormaliserCopies)
        && out.len() >= bytes.len()
        && out.len() >= LONGEST_NORMAL
        && image::check(bytes) == 0
    {
        return normal::put(bytes, out);
    }
    let number = owners::normalised(bytes, out);
    if planted(Fault::NormaliserOverwrites) && number as usize >= HEADER && (number as usize) < out.len() {
        out[number as usize] = 0;
    }
    number
}

/// # Safety
/// As `include/yaslaurel.h` says.
#[no_mangle]
pub unsafe extern "C" fn yaslaurel_session_start(
    bytes: *const u8,
    length: usize,
    words: *mut u64,
    words_length: usize,
) -> u32 {
    let words = from_raw_parts_mut(words, words_length);
    let last = user_row(USERS.most - 1);
    let last_before: Option<Vec<u64>> = words.get(last.clone()).map(<[u64]>::to_vec);
    let number = session::start(from_raw_parts(bytes, length), words);
    if planted(Fault::RefusedStartClears) && number != 0 {
        words.fill(0);
    }
    if let (true, 0, Some(before)) = (planted(Fault::StartLeavesLastUser), number, last_before) {
        words[last].copy_from_slice(&before);
    }
    number
}

/// # Safety
/// As `include/yaslaurel.h` says.
#[no_mangle]
pub unsafe extern "C" fn yaslaurel_step(
    words: *mut u64,
    words_length: usize,
    record: *const u8,
    record_length: usize,
    receiver: *mut u64,
    tag: *mut u64,
    position: *mut u32,
) -> u32 {
    let session = from_raw_parts_mut(words, words_length);
    let record = from_raw_parts(record, record_length);
    let answer = step::step(session, record);
    if planted(Fault::StepWritesBehind) && answer.number == 0 {
        *words.add(words_length) = 1;
    }
    let left = outcome(answer.number) == Outcome::Refused && !planted(Fault::RefusedStepClearsAnswer);
    if !left {
        *receiver = answer.receiver;
        *tag = answer.tag;
        *position = answer.position;
    } else if planted(Fault::RefusedPositionTold) {
        *position = NO_POSITION;
    }
    answer.number
}

/// # Safety
/// As `include/yaslaurel.h` says.
#[no_mangle]
pub unsafe extern "C" fn yaslaurel_run(
    words: *mut u64,
    words_length: usize,
    records: *const u8,
    records_length: usize,
    taken: *mut usize,
    receiver: *mut u64,
    tag: *mut u64,
    position: *mut u32,
) -> u32 {
    let session = from_raw_parts_mut(words, words_length);
    let records = from_raw_parts(records, records_length);
    let run = step::run(session, records);
    if run.answer.number != 9 || planted(Fault::RefusedRunClearsCount) {
        *taken = run.taken;
    }
    let given = match outcome(run.answer.number) {
        Outcome::Quiet => planted(Fault::QuietRunClearsAnswer),
        Outcome::Alert => true,
        Outcome::Blocked => !planted(Fault::BlockedRunUntold),
        Outcome::Refused => false,
    };
    if given {
        *receiver = run.answer.receiver;
        *tag = run.answer.tag;
        if !planted(Fault::RunPositionUntold) {
            *position = run.answer.position;
        }
    }
    run.answer.number
}

/// # Safety
/// As `include/yaslaurel.h` says.
#[no_mangle]
pub unsafe extern "C" fn yaslaurel_events(
    words: *mut u64,
    words_length: usize,
    records: *const u8,
    records_length: usize,
    events: *mut u64,
    events_length: usize,
    taken: *mut usize,
    written: *mut usize,
) -> u32 {
    let session = from_raw_parts_mut(words, words_length);
    let records = from_raw_parts(records, records_length);
    match gather::events(session, records, from_raw_parts_mut(events, events_length)) {
        Some((judged, told)) => {
            *taken = judged;
            *written = told;
            0
        }
        None => {
            if planted(Fault::RefusedEventsClearCounts) {
                *taken = 0;
                *written = 0;
            }
            9
        }
    }
}

/// # Safety
/// As `include/yaslaurel.h` says.
#[no_mangle]
pub unsafe extern "C" fn yaslaurel_figures(
    words: *mut u64,
    words_length: usize,
    records: *const u8,
    records_length: usize,
    figures: *mut u64,
    figures_length: usize,
) -> u32 {
    let session = from_raw_parts_mut(words, words_length);
    let records = from_raw_parts(records, records_length);
    gather::figures(session, records, from_raw_parts_mut(figures, figures_length))
}

/// # Safety
/// As `include/yaslaurel.h` says.
#[no_mangle]
pub unsafe extern "C" fn yaslaurel_figures_add(
    total: *mut u64,
    total_length: usize,
    figures: *const u64,
    figures_length: usize,
) -> u32 {
    gather::add(from_raw_parts_mut(total, total_length), from_raw_parts(figures, figures_length))
}

/// # Safety
/// As `include/yaslaurel.h` says.
#[no_mangle]
pub unsafe extern "C" fn yaslaurel_trace_trim(
    bytes: *const u8,
    length: usize,
    trace: *const u8,
    trace_length: usize,
    positions: *mut u8,
    positions_length: usize,
    kept: *mut usize,
) -> u32 {
    let (bytes, trace) = (from_raw_parts(bytes, length), from_raw_parts(trace, trace_length));
    trim::put(bytes, trace, from_raw_parts_mut(positions, positions_length), &mut *kept)
}

/// # Safety
/// As `include/yaslaurel.h` says.
#[no_mangle]
pub unsafe extern "C" fn yaslaurel_matrix_verdict(
    reads: *const u32,
    reads_length: usize,
    writes: *const u32,
    writes_length: usize,
    objects: u32,
    count: *mut u32,
    source: *mut u32,
    target: *mut u32,
) -> u32 {
    let (reads, writes) = (from_raw_parts(reads, reads_length), from_raw_parts(writes, writes_length));
    let mut verdict = matrix::verdict(reads, writes, objects);
    if planted(Fault::FlowsOneTooHigh) && verdict.number == 1 {
        verdict.count += 1;
    }
    if planted(Fault::PairByTarget) && verdict.number == 1 {
        (verdict.source, verdict.target) = smallest_target(reads, writes, objects as usize);
    }
    if verdict.number <= 1 {
        *count = verdict.count;
        *source = verdict.source;
        *target = verdict.target;
    }
    verdict.number
}

/// The composed flow not granted with the smallest target, then the smallest source.
fn smallest_target(reads: &[u32], writes: &[u32], objects: usize) -> (u32, u32) {
    let rows: Vec<(u32, u32)> = reads.iter().copied().zip(writes.iter().copied()).collect();
    let granted = |a: usize, b: usize| a == b || rows.iter().any(|(r, w)| r >> a & w >> b & 1 == 1);
    let mut flow: Vec<u64> =
        (0..objects).map(|a| (0..objects).filter(|&b| granted(a, b)).fold(0, |set, b| set | 1 << b)).collect();
    for via in 0..objects {
        for a in 0..objects {
            if flow[a] >> via & 1 == 1 {
                flow[a] |= flow[via];
            }
        }
    }
    for b in 0..objects {
        for (a, row) in flow.iter().enumerate() {
            if row >> b & 1 == 1 && !granted(a, b) {
                return (a as u32, b as u32);
            }
        }
    }
    (0, 0)
}

/// # Safety
/// As `include/yaslaurel.h` says.
#[no_mangle]
pub unsafe extern "C" fn yaslaurel_matrix_silent(
    reads: *const u32,
    reads_length: usize,
    writes: *const u32,
    writes_length: usize,
    objects: u32,
) -> u32 {
    silence::answer(from_raw_parts(reads, reads_length), from_raw_parts(writes, writes_length), objects)
}

/// The rows of a matrix that is lent.
unsafe fn rows(reads: *const u32, reads_length: usize, writes: *const u32, writes_length: usize, objects: u32) -> Rows {
    Rows {
        reads: from_raw_parts(reads, reads_length).to_vec(),
        writes: from_raw_parts(writes, writes_length).to_vec(),
        objects,
    }
}

/// # Safety
/// As `include/yaslaurel.h` says.
#[no_mangle]
pub unsafe extern "C" fn yaslaurel_matrix_game(
    reads: *const u32,
    reads_length: usize,
    writes: *const u32,
    writes_length: usize,
    objects: u32,
    source: u32,
    target: u32,
    rounds: u32,
    withdrawals: u32,
    code: *mut u32,
    subject: *mut u32,
    object: *mut u32,
) -> u32 {
    let rows = rows(reads, reads_length, writes, writes_length, objects);
    let (answer, written) = game::answer(&Game { rows, source, target, rounds, withdrawals });
    if written {
        (*code, *subject, *object) = (answer.code, answer.subject, answer.object);
    }
    answer.number
}

/// # Safety
/// As `include/yaslaurel.h` says.
#[no_mangle]
pub unsafe extern "C" fn yaslaurel_matrix_judge(
    old_reads: *const u32,
    old_reads_length: usize,
    old_writes: *const u32,
    old_writes_length: usize,
    old_objects: u32,
    required_reads: *const u32,
    required_reads_length: usize,
    required_writes: *const u32,
    required_writes_length: usize,
    required_objects: u32,
    proposed_reads: *const u32,
    proposed_reads_length: usize,
    proposed_writes: *const u32,
    proposed_writes_length: usize,
    proposed_objects: u32,
) -> u32 {
    withdrawals::answer(
        &rows(old_reads, old_reads_length, old_writes, old_writes_length, old_objects),
        &rows(required_reads, required_reads_length, required_writes, required_writes_length, required_objects),
        &rows(proposed_reads, proposed_reads_length, proposed_writes, proposed_writes_length, proposed_objects),
    )
}

/// # Safety
/// As `include/yaslaurel.h` says.
#[no_mangle]
pub unsafe extern "C" fn yaslaurel_matrix_policy(
    reads: *const u32,
    reads_length: usize,
    writes: *const u32,
    writes_length: usize,
    objects: u32,
    out: *mut u8,
    out_length: usize,
) -> u32 {
    let (reads, writes) = (from_raw_parts(reads, reads_length), from_raw_parts(writes, writes_length));
    let out = from_raw_parts_mut(out, out_length);
    let number = matrix::policy(reads, writes, objects, out);
    if planted(Fault::DerivedPermitLacksOwn) && number as usize >= HEADER {
        // Takes object 0 out of the first mixture, which is object 0's own.
        out[number_at(out, MIXTURES.offset_at)] &= 0xfe;
    }
    number
}

/// # Safety
/// As `include/yaslaurel.h` says.
#[no_mangle]
pub unsafe extern "C" fn yaslaurel_profiles_policy(
    text: *const u8,
    length: usize,
    out: *mut u8,
    out_length: usize,
) -> u32 {
    profiles::derive(from_raw_parts(text, length), from_raw_parts_mut(out, out_length))
}

/// # Safety
/// As `include/yaslaurel.h` says.
#[no_mangle]
pub unsafe extern "C" fn yaslaurel_image_compose(
    first: *const u8,
    first_length: usize,
    second: *const u8,
    second_length: usize,
    consent: *const u8,
    consent_length: usize,
    out: *mut u8,
    out_length: usize,
    length: *mut usize,
) -> u32 {
    composition::answer(
        from_raw_parts(first, first_length),
        from_raw_parts(second, second_length),
        from_raw_parts(consent, consent_length),
        from_raw_parts_mut(out, out_length),
        &mut *length,
    )
}

/// # Safety
/// As `include/yaslaurel.h` says.
#[no_mangle]
pub unsafe extern "C" fn yaslaurel_explain(
    bytes: *const u8,
    length: usize,
    trace: *const u8,
    trace_length: usize,
    container: usize,
    atom: usize,
    links: *mut u64,
    links_length: usize,
    steps: *mut u64,
    steps_length: usize,
    file: *mut u64,
    first: *mut u64,
) -> u32 {
    explain::put_chain(
        (from_raw_parts(bytes, length), from_raw_parts(trace, trace_length)),
        (container, atom),
        from_raw_parts_mut(links, links_length),
        from_raw_parts_mut(steps, steps_length),
        (&mut *file, &mut *first),
    )
}

/// # Safety
/// As `include/yaslaurel.h` says.
#[no_mangle]
pub unsafe extern "C" fn yaslaurel_why(
    bytes: *const u8,
    length: usize,
    trace: *const u8,
    trace_length: usize,
    links: *mut u64,
    links_length: usize,
    steps: *mut u64,
    steps_length: usize,
    why: *mut u64,
    why_length: usize,
) -> u32 {
    explain::put_why(
        from_raw_parts(bytes, length),
        from_raw_parts(trace, trace_length),
        from_raw_parts_mut(links, links_length),
        from_raw_parts_mut(steps, steps_length),
        from_raw_parts_mut(why, why_length),
    )
}
