//! Editions of the library against each other, natural and tuned Rust, over several placements of their code in memory
//! (decision 107): shared libraries that `bench/editions` has made of two archives.

use std::cell::RefCell;
use std::ffi::{c_char, c_int, c_void, CString};
use std::hint::black_box;
use std::path::{Path, PathBuf};

use yaslaurel::layout::profiles::TEXT_LIMIT;
use yaslaurel::layout::record;
use yaslaurel::{ffi, OUTPUT_LENGTH, SESSION_LENGTH};

use crate::plain::{self, Natural, Tuned};
use crate::race::{race, Outcome, Variant};
use crate::{folded, mixed, profiles, recorded, stepped_run, work, Answer};

const ROUNDS: usize = 41;

extern "C" {
    fn dlopen(file: *const c_char, flags: c_int) -> *mut c_void;
    fn dlsym(library: *mut c_void, name: *const c_char) -> *mut c_void;
}

/// All names are looked up when the library is loaded.
const NOW: c_int = 2;

type ImageFn = unsafe extern "C" fn(*const u8, usize) -> u32;
type StartFn = unsafe extern "C" fn(*const u8, usize, *mut u64, usize) -> u32;
type WriteFn = unsafe extern "C" fn(*const u8, usize, *mut u8, usize) -> u32;
type StepFn = unsafe extern "C" fn(*mut u64, usize, *const u8, usize, *mut u64, *mut u64, *mut u32) -> u32;
type RunFn = unsafe extern "C" fn(*mut u64, usize, *const u8, usize, *mut usize, *mut u64, *mut u64, *mut u32) -> u32;
type VerdictFn = unsafe extern "C" fn(*const u32, usize, *const u32, usize, u32, *mut u32, *mut u32, *mut u32) -> u32;
type SilentFn = unsafe extern "C" fn(*const u32, usize, *const u32, usize, u32) -> u32;

/// The functions of an edition that are timed.
struct Edition {
    check: ImageFn,
    start: StartFn,
    normalise: WriteFn,
    profiles: WriteFn,
    step: StepFn,
    run: RunFn,
    verdict: VerdictFn,
    silent: SilentFn,
}

/// A function of a loaded library.
///
/// # Safety
/// F is the type of a function, and the library's function of that name has it.
unsafe fn function<F>(library: *mut c_void, name: &str) -> F {
    let spelled = CString::new(name).expect("a name without a zero");
    let address = dlsym(library, spelled.as_ptr());
    assert!(!address.is_null(), "the library has no {name}");
    std::mem::transmute_copy(&address)
}

impl Edition {
    fn load(file: &Path) -> Edition {
        let spelled = CString::new(file.to_str().expect("a name in UTF-8")).expect("a name without a zero");
        // SAFETY: the libraries are those of `bench/editions`, whose functions have the header's types, and are never unloaded.
        unsafe {
            let library = dlopen(spelled.as_ptr(), NOW);
            assert!(!library.is_null(), "{} cannot be loaded", file.display());
            Edition {
                check: function(library, "yaslaurel_image_check"),
                start: function(library, "yaslaurel_session_start"),
                normalise: function(library, "yaslaurel_image_normalise"),
                profiles: function(library, "yaslaurel_profiles_policy"),
                step: function(library, "yaslaurel_step"),
                run: function(library, "yaslaurel_run"),
                verdict: function(library, "yaslaurel_matrix_verdict"),
                silent: function(library, "yaslaurel_matrix_silent"),
            }
        }
    }

    // In all that follows: SAFETY: slices are valid and aligned for their lengths, Rust keeps those that are written apart
    // from the others, and the numbers behind pointers are ours.

    fn step(&self, session: &mut [u64], bytes: &[u8]) -> Answer {
        let (mut receiver, mut tag, mut position) = (0, 0, 0);
        let (words, length) = (session.as_mut_ptr(), session.len());
        let (at, bytes_length) = (bytes.as_ptr(), bytes.len());
        let number = unsafe { (self.step)(words, length, at, bytes_length, &mut receiver, &mut tag, &mut position) };
        (number, receiver, tag, position)
    }

    fn run(&self, session: &mut [u64], mut records: &[u8]) -> u64 {
        let (words, length) = (session.as_mut_ptr(), session.len());
        let mut sum = 0;
        while !records.is_empty() {
            let (mut taken, mut receiver, mut tag, mut position) = (0, 0, 0, 0);
            let (at, at_length) = (records.as_ptr(), records.len());
            let number =
                unsafe { (self.run)(words, length, at, at_length, &mut taken, &mut receiver, &mut tag, &mut position) };
            if number != ffi::QUIET {
                sum = mixed(sum, (number, receiver, tag, position));
            }
            records = &records[records.len().min(record::LENGTH * taken)..];
        }
        sum
    }

    fn on_bytes(&self, which: Which, given: &[u8], room: &mut Room) -> u32 {
        let (at, length) = (given.as_ptr(), given.len());
        let (out, session) = (&mut room.out, &mut room.session);
        unsafe {
            match which {
                Which::Check => (self.check)(at, length),
                Which::Start => (self.start)(at, length, session.as_mut_ptr(), session.len()),
                Which::Normalise => (self.normalise)(at, length, out.as_mut_ptr(), out.len()),
                Which::Profiles => (self.profiles)(at, length, out.as_mut_ptr(), out.len()),
            }
        }
    }

    fn on_rows(&self, silent: bool, reads: &[u32], writes: &[u32], objects: u32) -> u32 {
        let (mut count, mut source, mut target) = (0, 0, 0);
        let (r, w) = (reads.as_ptr(), writes.as_ptr());
        unsafe {
            if silent {
                return (self.silent)(r, reads.len(), w, writes.len(), objects);
            }
            let number = (self.verdict)(r, reads.len(), w, writes.len(), objects, &mut count, &mut source, &mut target);
            number ^ count << 8 ^ source << 16 ^ target << 24
        }
    }
}

/// Calls on bytes.
#[derive(Clone, Copy)]
enum Which {
    Check,
    Start,
    Normalise,
    Profiles,
}

/// What a call may fill.
struct Room {
    out: Vec<u8>,
    session: Vec<u64>,
}

/// What is timed.
enum Work {
    Steps(Vec<u64>, Vec<u8>),
    Batch(Vec<u64>, Vec<u8>),
    Bytes(Which, Vec<u8>),
    Rows { silent: bool, reads: Vec<u32>, writes: Vec<u32>, objects: u32 },
}

/// Who does it.
#[derive(Clone, Copy)]
enum Side<'a> {
    Edition(&'a Edition),
    Natural,
    Tuned,
}

fn steps(side: Side<'_>, session: &mut [u64], records: &[u8]) -> u64 {
    match side {
        Side::Edition(edition) => folded(|session, bytes| edition.step(session, bytes), session, records),
        Side::Natural => folded(plain::step::<Natural>, session, records),
        Side::Tuned => folded(plain::step::<Tuned>, session, records),
    }
}

fn batch(side: Side<'_>, session: &mut [u64], records: &[u8]) -> u64 {
    match side {
        Side::Edition(edition) => edition.run(session, records),
        Side::Natural => stepped_run(plain::step::<Natural>, session, records),
        Side::Tuned => stepped_run(plain::step::<Tuned>, session, records),
    }
}

fn on_bytes(side: Side<'_>, which: Which, given: &[u8], room: &mut Room) -> u32 {
    let (out, session) = (&mut room.out, &mut room.session);
    match (side, which) {
        (Side::Edition(edition), _) => edition.on_bytes(which, given, room),
        (_, Which::Check) => plain::check(given),
        (Side::Natural, Which::Start) => plain::start::<Natural>(given, session),
        (Side::Tuned, Which::Start) => plain::start::<Tuned>(given, session),
        (Side::Natural, Which::Normalise) => plain::normalise::<Natural>(given, out),
        (Side::Tuned, Which::Normalise) => plain::normalise::<Tuned>(given, out),
        (_, Which::Profiles) => profiles::derive(given, out),
    }
}

fn on_rows(side: Side<'_>, silent: bool, reads: &[u32], writes: &[u32], objects: u32) -> u32 {
    match side {
        Side::Edition(edition) => edition.on_rows(silent, reads, writes, objects),
        _ if silent => plain::silent(reads, writes, objects),
        _ => {
            let (number, count, source, target) = plain::verdict(reads, writes, objects);
            number ^ count << 8 ^ source << 16 ^ target << 24
        }
    }
}

/// How often a call on bytes is made in a round: about as long as 1,024 records.
fn repeats(bytes: usize) -> usize {
    400_000 / (bytes + 200)
}

/// A race of all sides over one line.
fn raced(work: &Work, sides: &[(&'static str, Side<'_>)]) -> Outcome {
    let fresh = match work {
        Work::Steps(session, _) | Work::Batch(session, _) => session.clone(),
        Work::Bytes(..) | Work::Rows { .. } => vec![0; SESSION_LENGTH],
    };
    let mut rooms: Vec<RefCell<Room>> = Vec::new();
    rooms.resize_with(sides.len(), || RefCell::new(Room { out: vec![0; OUTPUT_LENGTH], session: fresh.clone() }));
    let again = matches!(work, Work::Steps(..) | Work::Batch(..));
    let (operations, times) = match work {
        Work::Steps(_, bytes) | Work::Batch(_, bytes) => (bytes.len() / record::LENGTH, 1),
        Work::Bytes(_, given) => (repeats(given.len()), repeats(given.len())),
        Work::Rows { .. } => (1_000, 1_000),
    };
    let mut variants: Vec<Variant<'_>> = sides
        .iter()
        .zip(&rooms)
        .map(|((name, side), room)| Variant {
            name,
            prepare: Box::new(|| {
                if again {
                    room.borrow_mut().session.copy_from_slice(&fresh);
                }
            }),
            run: Box::new(move || {
                let room = &mut *room.borrow_mut();
                match work {
                    Work::Steps(_, bytes) => steps(*side, &mut room.session, black_box(bytes)),
                    Work::Batch(_, bytes) => batch(*side, &mut room.session, black_box(bytes)),
                    Work::Bytes(which, given) => {
                        (0..times).map(|_| u64::from(on_bytes(*side, *which, black_box(given), room))).sum()
                    }
                    Work::Rows { silent, reads, writes, objects } => (0..times)
                        .map(|_| u64::from(on_rows(*side, *silent, black_box(reads), black_box(writes), *objects)))
                        .sum(),
                }
            }),
        })
        .collect();
    let outcome = race(ROUNDS, operations, &mut variants);
    drop(variants);
    let alike = |room: &RefCell<Room>| {
        let (one, other) = (&rooms[0].borrow(), room.borrow());
        one.out == other.out && one.session == other.session
    };
    assert!(rooms.iter().all(alike), "what was filled is the same");
    outcome
}

/// The lines of the table, with those of the real runs in the folder.
fn lines(folder: &Path) -> Vec<(String, Work)> {
    let mut list: Vec<(String, Work)> = Vec::new();
    for line in crate::operation_lines() {
        list.push((line.name, Work::Steps(line.session, line.records.concat())));
    }
    for mixtures in 1..=4 {
        let session = crate::started(&work::policy(mixtures, 6));
        for (name, codes) in [("read", &[1][..]), ("mixed", &[1, 1, 2, 3, 4])] {
            let bytes = work::records(codes, 1_024).concat();
            list.push((format!("a batch, {name}, rules of {mixtures}"), Work::Batch(session.clone(), bytes)));
        }
    }
    for name in ["night", "build"] {
        if let Some((session, trace)) = recorded::trace(&folder.join(name)) {
            list.push((format!("steps of a real run, {name}"), Work::Steps(session.clone(), trace.clone())));
            list.push((format!("a batch, a real run, {name}"), Work::Batch(session, trace)));
        }
    }
    let mut damaged = work::records(&[1, 1, 2, 3, 4], 1_024);
    damaged.iter_mut().step_by(10).for_each(|bytes| bytes[record::CODE] = 200);
    let one = crate::started(&work::policy(1, 6));
    list.push(("a batch, mixed, one in ten refused".into(), Work::Batch(one, damaged.concat())));
    for (name, image) in crate::image_list() {
        for (call, which) in [("check", Which::Check), ("start", Which::Start), ("normalise", Which::Normalise)] {
            list.push((format!("{call}: {name}"), Work::Bytes(which, image.clone())));
        }
    }
    for (name, reads, writes, objects) in crate::matrix_list() {
        for silent in [false, true] {
            let call = if silent { "silent" } else { "verdict" };
            let (reads, writes) = (reads.clone(), writes.clone());
            list.push((format!("{call}: {name}"), Work::Rows { silent, reads, writes, objects }));
        }
    }
    let many = work::many_profiles(TEXT_LIMIT);
    list.push((format!("{} profiles, refused with 17", many.len() / 16), Work::Bytes(Which::Profiles, many)));
    list
}

fn mean(numbers: &[f64]) -> f64 {
    numbers.iter().sum::<f64>() / numbers.len() as f64
}

/// Libraries of an edition in a folder, `NAME-NUMBER.so`, in the order of their numbers.
fn placements(folder: &Path, name: &str) -> Vec<PathBuf> {
    let file = |number: usize| folder.join(format!("{name}-{number}.so"));
    (0..).map(file).take_while(|file| file.exists()).collect()
}

/// The table of a folder's libraries; only the lines that have one of the words, if there are any.
pub fn editions(folder: &str, words: &[&str]) {
    let folder = Path::new(folder);
    let (before, after) = (placements(folder, "before"), placements(folder, "after"));
    assert!(!after.is_empty() && before.len() == after.len(), "as many libraries of both editions");
    let pairs: Vec<(Edition, Edition)> =
        before.iter().zip(&after).map(|(old, new)| (Edition::load(old), Edition::load(new))).collect();
    println!(
        "\n## Two editions over {} placements\n\n| call | ns before | ns after | to before (least, most) | before to natural | after to natural | after to tuned |\n|---|---|---|---|---|---|---|",
        pairs.len()
    );
    for (name, work) in lines(folder) {
        if !words.is_empty() && !words.iter().any(|word| name.contains(word)) {
            continue;
        }
        let tuned = !matches!(work, Work::Bytes(Which::Check | Which::Profiles, _) | Work::Rows { .. });
        let (mut times, mut ratios) = (Vec::new(), [Vec::new(), Vec::new(), Vec::new()]);
        for (old, new) in &pairs {
            let mut sides =
                vec![("after", Side::Edition(new)), ("before", Side::Edition(old)), ("natural", Side::Natural)];
            if tuned {
                sides.push(("tuned", Side::Tuned));
            }
            let outcome = raced(&work, &sides);
            times.push(outcome.nanoseconds);
            for (list, (_, ratio)) in ratios.iter_mut().zip(&outcome.ratios) {
                list.push(*ratio);
            }
        }
        let [to_before, to_natural, to_tuned] = &ratios;
        let (least, most) = to_before.iter().fold((f64::MAX, 0.0f64), |(a, b), r| (a.min(*r), b.max(*r)));
        let (now, ratio, natural) = (mean(&times), mean(to_before), mean(to_natural));
        let tuned = if tuned { format!("{:.2}", mean(to_tuned)) } else { String::new() };
        println!(
            "| {name} | {:.1} | {now:.1} | {ratio:.2} ({least:.2}, {most:.2}) | {:.2} | {natural:.2} | {tuned} |",
            now / ratio,
            natural / ratio
        );
    }
}
