//! `bench` prints, as tables, the library's time for one operation and its ratio to three implementations in Rust, all
//! measured in one run: below 1 the library is faster.
//!
//! - judge: the independent implementation, with `Vec`, sort and filter, `HashMap`
//! - natural: arrays, sort and filter, a `HashMap` for the numbers of rules
//! - tuned: arrays, with the library's own ideas (sieve, one mixture at once, equal rules first, keys)
//!
//! The library is called by its C functions, as every host calls it.
//!
//! `bench WATCH MONTH` also measures these programs, `bench watch PROGRAM` and `bench month PROGRAM` measure one alone; `bench
//! operations` measures single operations alone, `bench batches` runs of records, `bench profiles` texts of profiles, `bench
//! cover` the cover test of a rule of eight, `bench proposals` proposals to withdraw rights, `bench games` games of a desk
//! against a guard, `bench trims` traces trimmed to their alert, `bench compositions` pairs of images, `bench
//! explanations` chains and reasons of alerts, `bench matrices` verdicts, `bench editions FOLDER WORD..` two editions of the library (`bench/editions`), `bench limits` the bytes and instructions of calls, which valgrind
//! counts of `bench repeat NUMBER SIDE COUNT`, `bench recorded FOLDER..` traces of real runs.
//! `bench listing` is the watch program in natural Rust (`BufWriter`, `writeln!`), `bench figures` the month program, for the
//! comparison of whole programs; `bench trace COUNT` writes the policy and trace that both watch programs read.

mod compositions;
mod cover;
mod editions;
mod explanations;
mod games;
mod limits;
mod month;
mod plain;
mod profiles;
mod race;
mod recorded;
mod trims;
mod work;

use std::io::{self, BufWriter, Read, Write};
use std::process::{Command, Stdio};
use std::time::Instant;
use std::{env, fs};

use judge::withdrawals::Rows;
use plain::{Natural, Tuned};
use race::{median, race, Outcome, Variant};
use yaslaurel::layout::image::{CONTAINERS, HEADER};
use yaslaurel::layout::profiles::{PATHS, PATH_LIMIT, TEXT_LIMIT};
use yaslaurel::layout::session::{container, rule, BEHALF, KIND, NOBODY, PERMIT, RULE_MIXTURES, RUN};
use yaslaurel::layout::{event, figures, record};
use yaslaurel::{ffi, Matrix, Verdict, OUTPUT_LENGTH, SESSION_LENGTH};

const ROUNDS: usize = 31;

/// A line of a table.
fn line(name: &str, outcome: &Outcome) {
    line_of(name, outcome, ["judge", "natural", "tuned"]);
}

fn line_of(name: &str, outcome: &Outcome, columns: [&str; 3]) {
    print!("| {name} | {:.1} |", outcome.nanoseconds);
    for column in columns {
        match outcome.ratios.iter().find(|(name, _)| *name == column) {
            Some((_, ratio)) => print!(" {ratio:.2} |"),
            None => print!(" |"),
        }
    }
    println!();
}

fn head(title: &str, first: &str) {
    head_of(title, first, ["judge", "natural", "tuned"]);
}

fn head_of(title: &str, first: &str, columns: [&str; 3]) {
    let [one, two, three] = columns;
    println!("\n## {title}\n\n| {first} | library ns | to {one} | to {two} | to {three} |\n|---|---|---|---|---|");
}

/// An answer: its number, then receiver, tag and position.
type Answer = (u32, u64, u64, u32);

/// The numbers of an answer in one.
fn mixed(sum: u64, (number, receiver, tag, position): Answer) -> u64 {
    sum.rotate_left(5) ^ tag ^ receiver ^ u64::from(number) ^ u64::from(position) << 16
}

/// One operation by the function that hosts call, as C sees it.
#[inline]
fn library_step(session: &mut [u64], record: &[u8]) -> Answer {
    let (mut receiver, mut tag, mut position) = (0, 0, 0);
    let (words, bytes) = (session.as_mut_ptr(), record.as_ptr());
    // SAFETY: the slices are valid and aligned for their lengths, and the three numbers are ours.
    let number = unsafe {
        ffi::yaslaurel_step(words, session.len(), bytes, record.len(), &mut receiver, &mut tag, &mut position)
    };
    (number, receiver, tag, position)
}

fn library_check(image: &[u8]) -> u32 {
    // SAFETY: the slice is valid for its length.
    unsafe { ffi::yaslaurel_image_check(image.as_ptr(), image.len()) }
}

fn library_start(image: &[u8], session: &mut [u64]) -> u32 {
    // SAFETY: both slices are valid and aligned for their lengths, and Rust keeps them apart.
    unsafe { ffi::yaslaurel_session_start(image.as_ptr(), image.len(), session.as_mut_ptr(), session.len()) }
}

fn library_normalise(image: &[u8], out: &mut [u8]) -> u32 {
    // SAFETY: both slices are valid for their lengths, and Rust keeps them apart.
    unsafe { ffi::yaslaurel_image_normalise(image.as_ptr(), image.len(), out.as_mut_ptr(), out.len()) }
}

fn judge_step(session: &mut [u64], record: &[u8]) -> Answer {
    let answer = judge::session::step(session, record);
    (answer.number, answer.receiver, answer.tag, answer.position)
}

/// All records by one implementation, whose function is called straight and not by a pointer, as a host calls it: what is around
/// the library's C function is put in its place.
fn folded(step: impl Fn(&mut [u64], &[u8]) -> Answer, session: &mut [u64], records: &[u8]) -> u64 {
    records.chunks_exact(record::LENGTH).fold(0, |sum, bytes| mixed(sum, step(session, bytes)))
}

/// What runs records on a session, and gives a sum over their answers.
type Run = fn(&mut [u64], &[u8]) -> u64;

const STEPS: [(&str, Run); 4] = [
    ("library", |session, records| folded(library_step, session, records)),
    ("judge", |session, records| folded(judge_step, session, records)),
    ("natural", |session, records| folded(plain::step::<Natural>, session, records)),
    ("tuned", |session, records| folded(plain::step::<Tuned>, session, records)),
];

/// A race of implementations over the bytes of records, each on its own copy of the session.
fn records_race(runs: &[(&'static str, Run)], session: &[u64], bytes: &[u8]) -> Outcome {
    let mut copies: Vec<std::cell::RefCell<Vec<u64>>> = Vec::new();
    copies.resize_with(runs.len(), || std::cell::RefCell::new(session.to_vec()));
    let mut variants: Vec<Variant<'_>> = runs
        .iter()
        .zip(&copies)
        .map(|((name, run), copy)| Variant {
            name,
            prepare: Box::new(|| copy.borrow_mut().copy_from_slice(session)),
            run: Box::new(move || run(&mut copy.borrow_mut(), std::hint::black_box(bytes))),
        })
        .collect();
    race(ROUNDS, bytes.len() / record::LENGTH, &mut variants)
}

/// A race over records, all of which are refused with that number, or none for 0.
fn steps(session: &[u64], records: &work::Records, refusal: u32) -> Outcome {
    let mut trial = session.to_vec();
    for record in records {
        let (number, ..) = judge_step(&mut trial, record);
        let refused = if number == ffi::ALERT || number == ffi::BLOCKED { 0 } else { number };
        assert_eq!(refused, refusal, "the records are what the table says");
    }
    records_race(&STEPS, session, &records.concat())
}

fn started(image: &[u8]) -> Vec<u64> {
    let mut session = vec![0; SESSION_LENGTH];
    assert_eq!(judge::session::start(image, &mut session), 0, "the policy is accepted");
    session
}

/// A line of the table of operations: records on a session, all refused with that number, or none for 0.
struct Line {
    name: String,
    session: Vec<u64>,
    records: work::Records,
    refusal: u32,
}

/// What the records of [`work::records`] become if each is changed so.
fn changed(change: fn(&mut [u8; record::LENGTH])) -> work::Records {
    let mut records = work::records(&[1], 1_024);
    records.iter_mut().for_each(change);
    records
}

/// Records that are refused, each line for one reason.
fn refused_lines() -> Vec<Line> {
    let one = started(&work::policy(1, 6));
    let line = |refusal: u32, words: &str, session: &[u64], records: work::Records| Line {
        name: format!("refused with {refusal}{words}"),
        session: session.to_vec(),
        records,
        refusal,
    };
    let mut damaged = one.clone();
    (0..CONTAINERS.most).for_each(|number| damaged[container(number)][KIND] = 7);
    let mut torn = one.clone();
    (0..CONTAINERS.most).for_each(|number| torn[container(number)][RUN + RULE_MIXTURES] = 1);
    let reads = vec![work::record(1, 1, 0, record::NO_USER); 1_024];
    // Every process runs on behalf of user 1, and makes files for user 0.
    let mut behalf = one.clone();
    (120..160).for_each(|number| behalf[container(number)][BEHALF] = 1);
    let files: work::Records = (0..1_024).map(|i| work::record(6, 120 + i % 40, 160 + i % 96, 0)).collect();
    vec![
        line(7, "", &one, changed(|bytes| bytes[record::CODE] = 200)),
        line(7, ", the last field", &one, changed(|bytes| bytes[record::USER] = 3)),
        line(10, "", &damaged, work::records(&[1], 1_024)),
        line(10, ", the last word of a rule", &torn, work::records(&[1], 1_024)),
        line(11, "", &one, changed(|bytes| bytes[record::PROCESS] = bytes[record::OBJECT])),
        line(12, "", &one, changed(|bytes| bytes[record::OBJECT] = bytes[record::PROCESS])),
        line(15, "", &over_eight(), reads.clone()),
        line(15, ", mixtures at random", &random_over_eight(), reads),
        line(18, "", &behalf, files),
    ]
}

/// The lines of the table of operations.
fn operation_lines() -> Vec<Line> {
    let accepted =
        |name: String, session: &[u64], records| Line { name, session: session.to_vec(), records, refusal: 0 };
    let mut lines = Vec::new();
    let mixed = &[1, 1, 2, 3, 4][..];
    let codes = [("read", &[1][..]), ("write", &[2]), ("append", &[3]), ("exec", &[4]), ("mixed", mixed)];
    for mixtures in 1..=4 {
        let session = started(&work::policy(mixtures, 6));
        for (name, codes) in codes {
            lines.push(accepted(format!("{name}, rules of {mixtures}"), &session, work::records(codes, 1_024)));
        }
    }
    for mixtures in 5..=8 {
        let session = started(&work::policy(mixtures, 6));
        lines.push(accepted(format!("read, rules of {mixtures}"), &session, work::records(&[1], 1_024)));
    }
    for (words, mixtures, variants) in [("2, all equal", 2, 1), ("8, all equal", 8, 1), ("8 that differ", 8, 6)] {
        let session = started(&work::policy(mixtures, variants));
        lines.push(accepted(format!("mixed, rules of {words}"), &session, work::records(mixed, 1_024)));
    }
    let guarded = started(&work::guarded());
    lines.push(accepted("append, guarded, quiet".into(), &guarded, work::guarded_appends(120)));
    lines.push(accepted("append, guarded, blocked".into(), &guarded, work::guarded_appends(121)));
    let one = started(&work::policy(1, 6));
    for (name, records) in work::leaving() {
        lines.push(accepted(format!("{name}, rules of 1"), &one, records));
    }
    lines.extend(refused_lines());
    lines
}

fn operations() {
    head("One operation", "operation");
    for Line { name, session, records, refusal } in operation_lines() {
        line(&name, &steps(&session, &records, refusal));
    }
}

/// A batch by the function that hosts call, as C sees it: what is not quiet is summed up as the step's answers are.
fn library_run(session: &mut [u64], mut records: &[u8]) -> u64 {
    let (words, length) = (session.as_mut_ptr(), session.len());
    let mut sum = 0u64;
    while !records.is_empty() {
        let (mut taken, mut receiver, mut tag, mut position) = (0, 0, 0, 0);
        let (bytes, bytes_length) = (records.as_ptr(), records.len());
        // SAFETY: the slices are valid and aligned for their lengths, and the four numbers are ours.
        let number = unsafe {
            ffi::yaslaurel_run(words, length, bytes, bytes_length, &mut taken, &mut receiver, &mut tag, &mut position)
        };
        if number != ffi::QUIET {
            sum = mixed(sum, (number, receiver, tag, position));
        }
        records = &records[records.len().min(record::LENGTH * taken)..];
    }
    sum
}

/// The same by the iterator of the Rust interface.
fn iterated_run(session: &mut [u64], records: &[u8]) -> u64 {
    yaslaurel::run_in(session, records).fold(0, |sum: u64, (_, answer)| {
        let answer = match answer {
            Ok(answer) => {
                let number = if answer.verdict == Verdict::Alert { ffi::ALERT } else { ffi::BLOCKED };
                let position = answer.position.map_or(ffi::NO_POSITION, u32::from);
                (number, u64::from(answer.receiver), answer.tag, position)
            }
            Err(refusal) => (refusal.number(), 0, 0, 0),
        };
        mixed(sum, answer)
    })
}

/// The same by single calls of a step.
fn stepped_run(step: impl Fn(&mut [u64], &[u8]) -> Answer, session: &mut [u64], records: &[u8]) -> u64 {
    records.chunks(record::LENGTH).fold(0, |sum: u64, bytes| match step(session, bytes) {
        (ffi::QUIET, ..) => sum,
        answer => mixed(sum, answer),
    })
}

/// A batch by the library's run, and by the steps of the others.
const RUNS: [(&str, Run); 4] = [
    ("library", library_run),
    ("judge", |session, records| stepped_run(judge_step, session, records)),
    ("natural", |session, records| stepped_run(plain::step::<Natural>, session, records)),
    ("tuned", |session, records| stepped_run(plain::step::<Tuned>, session, records)),
];

/// A batch by other calls of the library.
const CALLS: [(&str, Run); 4] = [
    ("library", library_run),
    ("single", |session, records| stepped_run(library_step, session, records)),
    ("iterator", iterated_run),
    ("natural", |session, records| stepped_run(plain::step::<Natural>, session, records)),
];

/// Batches of 1,024 records: the run against single calls, the Rust interface's iterator, and natural Rust.
fn batches() {
    println!("\n## A batch of 1,024 records\n");
    println!("| records | library ns a record | to single calls | to the Rust iterator | to natural |\n|---|---|---|---|---|");
    let one = started(&work::policy(1, 6));
    let mixed = &[1, 1, 2, 3, 4][..];
    for (name, codes, damaged) in [
        ("read, rules of 1", &[1][..], 0),
        ("mixed, rules of 1", mixed, 0),
        ("mixed, one in ten refused with 7", mixed, 10),
    ] {
        let mut records = work::records(codes, 1_024);
        if damaged > 0 {
            records.iter_mut().step_by(damaged).for_each(|bytes| bytes[record::CODE] = 200);
        }
        let bytes = records.concat();
        let mut trial = one.clone();
        let alerts = bytes.chunks(record::LENGTH).filter(|r| judge_step(&mut trial, r).0 == ffi::ALERT).count();
        let outcome = records_race(&CALLS, &one, &bytes);
        let ratio =
            |column: &str| outcome.ratios.iter().find(|(name, _)| *name == column).map_or(0.0, |(_, ratio)| *ratio);
        let (single, iterator, natural) = (ratio("single"), ratio("iterator"), ratio("natural"));
        println!(
            "| {name}, {alerts} alerts | {:.1} | {single:.2} | {iterator:.2} | {natural:.2} |",
            outcome.nanoseconds
        );
    }
}

/// A batch gathered as events, whose answers are summed up as those of a run are.
fn gathered_run(session: &mut [u64], mut records: &[u8]) -> u64 {
    let mut events = [0; 64 * event::LENGTH];
    let mut sum = 0;
    while !records.is_empty() {
        let gathered = yaslaurel::events_in(session, records, &mut events).expect("the lengths are right");
        for told in events.chunks(event::LENGTH).take(gathered.written) {
            sum = mixed(
                sum,
                (told[event::ANSWER] as u32, told[event::RECEIVER], told[event::TAG], told[event::POSITION] as u32),
            );
        }
        records = &records[records.len().min(record::LENGTH * gathered.taken)..];
    }
    sum
}

/// How many records are not quiet, by runs.
fn counted_run(session: &mut [u64], records: &[u8]) -> u64 {
    yaslaurel::run_in(session, records).count() as u64
}

/// The same by figures.
fn figured_run(session: &mut [u64], records: &[u8]) -> u64 {
    let mut numbers = [0; figures::LENGTH];
    yaslaurel::figures_in(session, records, &mut numbers).expect("the lengths are right");
    numbers[figures::ALERTS] + numbers[figures::REFUSED] + numbers[figures::BLOCKED]
}

/// Batches of 1,024 records: events and figures against runs.
fn gathers() {
    println!("\n## Events and figures of a batch of 1,024 records\n");
    println!(
        "| records | run ns a record | events ns a record | run to events | run to figures |\n|---|---|---|---|---|"
    );
    let one = started(&work::policy(1, 6));
    for (name, damaged) in [("mixed, rules of 1", 0), ("mixed, one in ten refused with 7", 10)] {
        let mut records = work::records(&[1, 1, 2, 3, 4], 1_024);
        if damaged > 0 {
            records.iter_mut().step_by(damaged).for_each(|bytes| bytes[record::CODE] = 200);
        }
        let bytes = &records.concat()[..];
        let against = |first: Run, second: Run| records_race(&[("first", first), ("second", second)], &one, bytes);
        let (events, figured) = (against(library_run, gathered_run), against(counted_run, figured_run));
        let (to_events, to_figures) = (events.ratios[0].1, figured.ratios[0].1);
        let nanoseconds = events.nanoseconds;
        println!("| {name} | {nanoseconds:.1} | {:.1} | {to_events:.2} | {to_figures:.2} |", nanoseconds / to_events);
    }
}

/// A session whose process 1 and file 0 have these run rules, and unrestricted permit rules.
fn meeting(process: &[u64], file: &[u64]) -> Vec<u64> {
    let mut session = vec![0; SESSION_LENGTH];
    for (number, kind, run) in [(0, 1, file), (1, 3, process)] {
        let row = &mut session[container(number)];
        row[KIND] = kind;
        row[rule(PERMIT)][..2].copy_from_slice(&[1, u64::MAX]);
        row[RUN] = run.len() as u64;
        row[rule(RUN)][1..=run.len()].copy_from_slice(run);
        row[BEHALF] = NOBODY;
    }
    session
}

/// Run rules that meet in more than 8 mixtures, 64 of which ascend as they are formed.
fn over_eight() -> Vec<u64> {
    let all_but = |from: usize| (from..from + RULE_MIXTURES).map(|k| !(1u64 << k)).rev().collect::<Vec<u64>>();
    meeting(&all_but(16), &all_but(8))
}

/// Run rules of mixtures at random that meet in more than 8.
fn random_over_eight() -> Vec<u64> {
    let mut rules = work::random_rules(2, RULE_MIXTURES, 11);
    rules.iter_mut().for_each(|rule| rule.sort_unstable());
    meeting(&rules[0], &rules[1])
}

/// A variant's name, and what it does with an image.
type OnImage<'a> = (&'static str, Box<dyn FnMut(&[u8]) -> u64 + 'a>);

/// A race over one image, each variant so many times.
fn on_image<'a>(image: &'a [u8], times: usize, variants: Vec<OnImage<'a>>) -> Outcome {
    let mut variants: Vec<Variant<'a>> = variants
        .into_iter()
        .map(|(name, mut run)| Variant {
            name,
            prepare: Box::new(|| ()),
            run: Box::new(move || (0..times).fold(0, |sum: u64, _| sum.wrapping_add(run(std::hint::black_box(image))))),
        })
        .collect();
    race(ROUNDS, times, &mut variants)
}

fn image_calls(list: &[(String, Vec<u8>)]) {
    head("Image check", "image");
    for (name, image) in list {
        let outcome = on_image(
            image,
            2_000_000 / (image.len() + 200),
            vec![
                ("library", Box::new(|i| u64::from(library_check(i)))),
                ("judge", Box::new(|i| u64::from(judge::image::check(i)))),
                ("natural", Box::new(|i| u64::from(plain::check(i)))),
            ],
        );
        line(name, &outcome);
    }
    head("Session start", "image");
    for (name, image) in list {
        let mut sessions = vec![vec![0u64; SESSION_LENGTH]; 4];
        let [a, b, c, d] = &mut sessions[..] else { unreachable!() };
        let outcome = on_image(
            image,
            200_000 / (image.len() + 200),
            vec![
                ("library", Box::new(|i| u64::from(library_start(i, a)) ^ a[PERMIT + 1])),
                ("judge", Box::new(|i| u64::from(judge::session::start(i, b)) ^ b[PERMIT + 1])),
                ("natural", Box::new(|i| u64::from(plain::start::<Natural>(i, c)) ^ c[PERMIT + 1])),
                ("tuned", Box::new(|i| u64::from(plain::start::<Tuned>(i, d)) ^ d[PERMIT + 1])),
            ],
        );
        line(name, &outcome);
        assert!(sessions.iter().all(|session| *session == sessions[0]), "the sessions are equal");
    }
    head("Normaliser", "image");
    for (name, image) in list {
        let mut outs = vec![vec![0u8; OUTPUT_LENGTH]; 4];
        let [a, b, c, d] = &mut outs[..] else { unreachable!() };
        let outcome = on_image(
            image,
            200_000 / (image.len() + 200),
            vec![
                ("library", Box::new(|i| u64::from(library_normalise(i, a)))),
                ("judge", Box::new(|i| u64::from(judge::normal::normalise(i, b)))),
                ("natural", Box::new(|i| u64::from(plain::normalise::<Natural>(i, c)))),
                ("tuned", Box::new(|i| u64::from(plain::normalise::<Tuned>(i, d)))),
            ],
        );
        line(name, &outcome);
        assert!(outs.iter().all(|out| *out == outs[0]), "the normal images are equal");
    }
}

/// A matrix: its name, read rows, write rows, objects.
type Rights = (String, Vec<u32>, Vec<u32>, u32);

fn matrix_list() -> Vec<Rights> {
    let mut r = work::Random(3);
    let mut rows = |count: usize, objects: usize| -> Vec<u32> {
        (0..count).map(|_| (r.word() & r.word() & r.word()) as u32 & ((1u64 << objects) - 1) as u32).collect()
    };
    let sizes = [(1, 1), (2, 2), (3, 3), (3, 4), (4, 5), (5, 7), (8, 8), (8, 16), (8, 32)];
    let random = sizes.map(|(subjects, objects)| {
        let name = format!("{subjects} subjects, {objects} objects");
        (name, rows(subjects, objects), rows(subjects, objects), objects as u32)
    });
    let mut list = random.to_vec();
    list.push(("8 subjects, 32 objects, every right".into(), vec![u32::MAX; 8], vec![u32::MAX; 8], 32));
    list.push(("8 subjects, 8 objects, a bit beyond, refused".into(), vec![1 << 8; 8], vec![1; 8], 8));
    list
}

fn matrices() {
    head("Matrix verdict", "matrix");
    let list = matrix_list();
    for (name, reads, writes, objects) in &list {
        let sum = |(a, b, c, d): (u32, u32, u32, u32)| {
            u64::from(a) ^ u64::from(b) << 8 ^ u64::from(c) << 16 ^ u64::from(d) << 24
        };
        let library = move || match yaslaurel::matrix_verdict(reads, writes, *objects) {
            Ok(yaslaurel::MatrixVerdict::Consistent) => (0, 0, 0, 0),
            Ok(yaslaurel::MatrixVerdict::Inconsistent { flows, source, target }) => (1, flows, source, target),
            Err(refusal) => (refusal.number(), 0, 0, 0),
        };
        let judge = move || {
            let v = judge::matrix::verdict(reads, writes, *objects);
            (v.number, v.count, v.source, v.target)
        };
        let outcome = on_image(
            &[],
            2_000,
            vec![
                ("library", Box::new(move |_| sum(library()))),
                ("judge", Box::new(move |_| sum(judge()))),
                ("natural", Box::new(move |_| sum(plain::verdict(reads, writes, *objects)))),
            ],
        );
        line(name, &outcome);
    }
    silences(&list);
    head("Derived policy", "matrix");
    for (name, reads, writes, objects) in &list {
        let mut outs = vec![vec![0u8; OUTPUT_LENGTH]; 2];
        let [a, b] = &mut outs[..] else { unreachable!() };
        let length = |made: Result<usize, yaslaurel::Refusal>| {
            made.map_or_else(|refusal| u64::from(refusal.number()), |length| length as u64)
        };
        let outcome = on_image(
            &[],
            500,
            vec![
                ("library", Box::new(|_| length(yaslaurel::matrix_policy_into(reads, writes, *objects, a)))),
                ("judge", Box::new(|_| u64::from(judge::matrix::policy(reads, writes, *objects, b)))),
            ],
        );
        line(name, &outcome);
        assert_eq!(outs[0], outs[1], "the derived policies are equal");
    }
}

/// Whether matrices are silent, also beside the library's own verdict on them.
fn silences(list: &[Rights]) {
    let columns = ["judge", "natural", "verdict"];
    head_of("Silent matrix", "matrix", columns);
    for (name, reads, writes, objects) in list {
        let library = move || match yaslaurel::matrix_silent(reads, writes, *objects) {
            Ok(silent) => u64::from(silent),
            Err(refusal) => u64::from(refusal.number()),
        };
        let expected = library();
        let outcome = on_image(
            &[],
            2_000,
            vec![
                ("library", Box::new(move |_| library())),
                ("judge", Box::new(move |_| u64::from(judge::matrix::silent(reads, writes, *objects)))),
                ("natural", Box::new(move |_| u64::from(plain::silent(reads, writes, *objects)))),
                (
                    "verdict",
                    Box::new(move |_| {
                        let verdict = std::hint::black_box(yaslaurel::matrix_verdict(reads, writes, *objects));
                        std::hint::black_box(verdict.is_err());
                        expected
                    }),
                ),
            ],
        );
        let words = ["not silent", "silent"].get(expected as usize).unwrap_or(&"8");
        line_of(&format!("{name}: {words}"), &outcome, columns);
    }
}

/// Proposals to withdraw rights: document 004's table and the largest matrix.
fn proposals() {
    head("Proposal to withdraw rights", "proposal");
    let matrix = |reads, writes, objects| Matrix { reads, writes, objects };
    let table = matrix(&[3, 3, 28, 28, 32], &[28, 28, 96, 96, 0], 7);
    let six_less = Matrix { reads: &[3, 3, 0, 0, 32], ..table };
    let nothing_of_it = matrix(&[0; 5], &[0; 5], 7);
    let all = matrix(&[u32::MAX; 8], &[u32::MAX; 8], 32);
    let nothing = matrix(&[0; 8], &[0; 8], 32);
    let few = matrix(
        &[0xffff_ff83, 0x14, 0x3c, 0x3c, 0x14, 0x14, 0x3c, 0x3c],
        &[0xffff_ffc3, 0x7c, 0x68, 0x68, 0x7c, 0x7c, 0x68, 0x68],
        32,
    );
    for (name, old, required, proposed, answer) in [
        ("document 004's table, 6 of its 21 rights withdrawn", table, nothing_of_it, six_less, 0),
        ("the table itself, answered 3", table, nothing_of_it, table, 3),
        ("the table out of nothing, answered 1", nothing_of_it, nothing_of_it, table, 1),
        ("8 subjects, 32 objects, nothing withdrawn", all, nothing, all, 0),
        ("8 subjects, 32 objects, 408 of 512 rights withdrawn", all, nothing, few, 0),
        ("8 subjects, 32 objects, all rights withdrawn, answered 4", all, nothing, nothing, 4),
    ] {
        let rows = |m: Matrix<'_>| Rows { reads: m.reads.to_vec(), writes: m.writes.to_vec(), objects: m.objects };
        let judged = [rows(old), rows(required), rows(proposed)];
        let library =
            move || yaslaurel::judge_withdrawal(old, required, proposed).map_or(8, |judgement| judgement.number());
        assert_eq!(library(), answer, "the proposals are what the table says");
        let outcome = on_image(
            &[],
            20,
            vec![
                ("library", Box::new(move |_| u64::from(library()))),
                ("judge", Box::new(|_| u64::from(judge::withdrawals::judge(&judged[0], &judged[1], &judged[2])))),
                ("natural", Box::new(move |_| u64::from(plain::judge(old, required, proposed)))),
            ],
        );
        line(name, &outcome);
    }
}

/// Texts of profiles that are accepted, then those that take longest to refuse.
fn texts() {
    head("Policy of profiles", "text");
    let demo = fs::read("demo/profiles/profiles.txt").expect("the demo's profiles are there");
    let many = work::many_profiles(TEXT_LIMIT);
    let last = many.len() - 16;
    let repeated = [&many[..last], &many[..16]].concat();
    let broken = |text: &[u8]| [&text[..text.len() - 2], b"]\n"].concat();
    let many_broken = broken(&many);
    let long = work::profiles(8, PATHS, PATH_LIMIT, TEXT_LIMIT);
    let long_broken = broken(&long);
    for (name, text, answer) in [
        (format!("{} bytes, 3 programs, 12 paths", demo.len()), &demo, 0),
        (format!("{TEXT_LIMIT} bytes, 8 programs, {PATHS} paths"), &work::profiles(8, PATHS, 14, TEXT_LIMIT), 0),
        (format!("{TEXT_LIMIT} bytes, {PATHS} programs"), &work::profiles(PATHS, PATHS, 14, TEXT_LIMIT), 0),
        (format!("{TEXT_LIMIT} bytes, {PATHS} paths of {PATH_LIMIT} bytes"), &long, 0),
        (format!("{} profiles, refused with 17", many.len() / 16), &many, 17),
        (format!("{} profiles, the last one the first again, refused with 16", many.len() / 16), &repeated, 16),
        (format!("{} profiles, the last line broken, refused with 16", many.len() / 16), &many_broken, 16),
        (format!("{TEXT_LIMIT} bytes, the last line broken, refused with 16"), &long_broken, 16),
    ] {
        let mut outs = vec![vec![0u8; OUTPUT_LENGTH]; 3];
        let [a, b, c] = &mut outs[..] else { unreachable!() };
        let library = |text: &[u8], out: &mut [u8]| match yaslaurel::profiles_policy_into(text, out) {
            Ok(length) => length as u64,
            Err(refusal) => u64::from(refusal.number()),
        };
        let number = judge::profiles::derive(text, b);
        assert_eq!(if number as usize >= HEADER { 0 } else { number }, answer, "the texts are what the table says");
        let outcome = on_image(
            text,
            if answer == 0 { 20 } else { 5 },
            vec![
                ("library", Box::new(|t| library(t, a))),
                ("judge", Box::new(|t| u64::from(judge::profiles::derive(t, b)))),
                ("natural", Box::new(|t| u64::from(profiles::derive(t, c)))),
            ],
        );
        line(&name, &outcome);
        assert!(outs.iter().all(|out| *out == outs[0]), "the images are equal");
    }
}

/// Records for whole runs: all codes, one in ten refused.
fn whole_trace(count: usize) -> Vec<u8> {
    let mut records = work::records(&[1, 1, 2, 3, 4], count);
    for (i, bytes) in records.iter_mut().enumerate() {
        if i % 10 == 0 {
            bytes[record::CODE] = [200, 5, 1][i / 10 % 3];
        }
    }
    records.concat()
}

/// How the cost of a run grows with its length: it does not.
fn growth() {
    println!("\n## A trace, by its length\n\n| records | library ns a record |\n|---|---|");
    let session = started(&work::policy(1, 6));
    for count in [1_000, 10_000, 100_000, 1_000_000] {
        let trace = whole_trace(count);
        let times = (0..5)
            .map(|_| {
                let mut words = session.clone();
                let begun = Instant::now();
                let alerts = trace
                    .chunks(record::LENGTH)
                    .filter(|bytes| library_step(&mut words, bytes).0 == ffi::ALERT)
                    .count();
                std::hint::black_box(alerts);
                begun.elapsed().as_nanos() as f64 / count as f64
            })
            .collect();
        println!("| {count} | {:.1} |", median(times));
    }
}

/// The watch program in natural Rust.
fn listing() -> io::Result<()> {
    let policy = fs::read("policy.bin").unwrap_or_default();
    let mut session = vec![0; SESSION_LENGTH];
    let mut out = BufWriter::with_capacity(1 << 16, io::stdout().lock());
    let refused = plain::start::<Natural>(&policy, &mut session);
    if refused != 0 {
        return writeln!(out, "policy refused {refused}");
    }
    let mut trace = Vec::new();
    if let Ok(mut file) = fs::File::open("trace.bin") {
        file.read_to_end(&mut trace)?;
    }
    writeln!(out, "step op p o verdict at tag pos")?;
    let words = ["other", "read", "write", "append", "exec", "fork", "file", "volatile", "end", "delete"];
    let (mut step, mut alerts, mut refusals) = (0u64, 0u64, 0u64);
    for record in trace.chunks(record::LENGTH) {
        step += 1;
        let (number, receiver, tag, position) = plain::step::<Natural>(&mut session, record);
        let (word, p, o) = match *record {
            [code, _, p0, p1, o0, o1, _, _] => {
                let word = words.get(usize::from(code)).unwrap_or(&"other");
                (*word, u16::from_le_bytes([p0, p1]), u16::from_le_bytes([o0, o1]))
            }
            _ => ("other", 0, 0),
        };
        match number {
            ffi::QUIET => writeln!(out, "{step} {word} {p} {o} quiet {receiver} {tag:016x} {position}")?,
            ffi::ALERT => {
                alerts += 1;
                writeln!(out, "{step} {word} {p} {o} alert {receiver} {tag:016x} {position}")?;
            }
            ffi::BLOCKED => writeln!(out, "{step} {word} {p} {o} blocked {receiver} {tag:016x} {position}")?,
            _ => {
                refusals += 1;
                writeln!(out, "{step} {word} {p} {o} refused {number}")?;
            }
        }
    }
    writeln!(out, "total {step} alerts {alerts} refused {refusals}")
}

/// A program against this one with an argument, which is the same program in natural Rust, in a folder with these files of so many
/// records in all.
fn whole_program(
    title: &str,
    program: &str,
    argument: &str,
    files: &[(String, Vec<u8>)],
    records: usize,
) -> io::Result<()> {
    println!("\n## {title}\n");
    if !fs::exists(program)? {
        println!("not measured: there is no {program}");
        return Ok(());
    }
    let program = fs::canonicalize(program)?;
    let folder = env::temp_dir().join(format!("yaslaurel-bench-{}", std::process::id()));
    fs::create_dir_all(&folder)?;
    for (name, bytes) in files {
        fs::write(folder.join(name), bytes)?;
    }
    let own = env::current_exe()?;
    let output = |program: &std::path::Path, argument: Option<&str>| {
        Command::new(program).args(argument).current_dir(&folder).output().map(|output| output.stdout)
    };
    assert!(output(&program, None)? == output(&own, Some(argument))?, "both print the same");
    let time = |program: &std::path::Path, argument: Option<&str>| -> io::Result<f64> {
        let begun = Instant::now();
        Command::new(program).args(argument).current_dir(&folder).stdout(Stdio::null()).status()?;
        Ok(begun.elapsed().as_nanos() as f64 / records as f64)
    };
    let (mut library, mut ratios) = (Vec::new(), Vec::new());
    for _ in 0..9 {
        let ours = time(&program, None)?;
        let rust = time(&own, Some(argument))?;
        library.push(ours);
        ratios.push(ours / rust);
    }
    println!("| ns a record | records a second | to natural Rust |\n|---|---|---|");
    let each = median(library);
    println!("| {each:.1} | {:.1} million | {:.2} |", 1e3 / each, median(ratios));
    fs::remove_dir_all(&folder)
}

/// The watch program against `bench listing`, on a million records.
fn watch(program: &str) -> io::Result<()> {
    let files = [("policy.bin".into(), work::policy(1, 6)), ("trace.bin".into(), whole_trace(1_000_000))];
    whole_program("The watch program, 1,000,000 records", program, "listing", &files, 1_000_000)
}

/// The month program against `bench figures`, on eight traces of a million records.
fn figures(program: &str) -> io::Result<()> {
    let trace = whole_trace(1_000_000);
    let mut files: Vec<(String, Vec<u8>)> = (0..8).map(|number| (format!("{number:02}.bin"), trace.clone())).collect();
    files.push(("policy.bin".into(), work::policy(1, 6)));
    whole_program("The month program, eight traces of 1,000,000 records", program, "figures", &files, 8_000_000)
}

/// The image calls on policies of several sizes, and on those whose rules differ in the owner alone.
fn images() {
    image_calls(&image_list());
    println!("\nBy the number of files, each with rules of 2 mixtures of its own:");
    let sizes = [1, 4, 16, 64, 256];
    image_calls(&sizes.map(|files| (format!("{files} files"), work::policy_of_files(files, 2, 9))));
}

fn image_list() -> Vec<(String, Vec<u8>)> {
    let one_atom: Vec<Vec<u64>> = (0..16).map(|atom| vec![1 << atom]).collect();
    vec![
        (format!("smallest, {HEADER} bytes"), work::image(&[], &[], &[])),
        ("typical, 160 containers, rules of 1".into(), work::policy(1, 6)),
        ("typical, 160 containers, rules of 8".into(), work::policy(8, 6)),
        (format!("largest, {OUTPUT_LENGTH} bytes"), work::policy_of_files(CONTAINERS.most, RULE_MIXTURES, 5)),
        ("16 rules of 8, each of 16 owners".into(), work::policy_of_owners(&work::random_rules(16, RULE_MIXTURES, 5))),
        ("16 rules of one atom, each of 16 owners".into(), work::policy_of_owners(&one_atom)),
    ]
}

fn main() -> io::Result<()> {
    let args: Vec<String> = env::args().skip(1).collect();
    let words: Vec<&str> = args.iter().map(String::as_str).collect();
    match words[..] {
        ["listing"] => return listing(),
        ["figures"] => return month::month(),
        ["month", program] => return figures(program),
        ["watch", program] => return watch(program),
        ["operations"] => {
            operations();
            return Ok(());
        }
        ["batches"] => {
            batches();
            gathers();
            return Ok(());
        }
        ["images"] => {
            images();
            return Ok(());
        }
        ["profiles"] => {
            texts();
            return Ok(());
        }
        ["cover"] => {
            cover::cover();
            return Ok(());
        }
        ["trims"] => {
            trims::trims();
            return Ok(());
        }
        ["explanations"] => {
            explanations::explanations();
            return Ok(());
        }
        ["limits"] => {
            limits::limits();
            return Ok(());
        }
        ["repeat", number, side, count] => {
            limits::repeat(number, side, count);
            return Ok(());
        }
        ["editions", folder, ref words @ ..] => {
            editions::editions(folder, words);
            return Ok(());
        }
        ["matrices"] => {
            matrices();
            return Ok(());
        }
        ["recorded", ..] => {
            recorded::recorded(&args[1..]);
            return Ok(());
        }
        ["proposals"] => {
            proposals();
            return Ok(());
        }
        ["games"] => {
            games::games();
            return Ok(());
        }
        ["compositions"] => {
            compositions::compositions();
            return Ok(());
        }
        ["trace", count] => {
            fs::write("policy.bin", work::policy(1, 6))?;
            return fs::write("trace.bin", whole_trace(count.parse().expect("a number of records")));
        }
        _ => {}
    }
    println!("Ratios are the library's time by the other's, medians of {ROUNDS} rounds in which all run by turns.");
    operations();
    cover::cover();
    batches();
    gathers();
    trims::trims();
    explanations::explanations();
    images();
    compositions::compositions();
    matrices();
    games::games();
    proposals();
    texts();
    growth();
    limits::limits();
    watch(words.first().unwrap_or(&"target/bin/watch"))?;
    figures(words.get(1).unwrap_or(&"target/bin/month"))
}
